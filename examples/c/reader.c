/*
 * A reader: writes its commands to standard output and reads the card's answers from standard input, each a line of hexadecimal bytes.
 * The record goes to standard error, as such bytes too, or why there is none. Behind one of 4 or 16 bytes stands its door form, or the
 * number by which the library refuses it as a door number: the record is the card's all the same.
 *
 *   reader [-LBYTES] MODE[:LENGTH] [KEYS [FAKEY]]
 *
 *   BYTES    the key length L: 16, which is the default, 24 or 32; the card has to have the same, or the reader ends with 15
 *   MODE     OpModeID, 4 digits
 *   LENGTH   how many bytes the mode's record has, in decimal; needed where MODE is none of the examples' modes, whose lengths are known
 *   KEYS     the folder of RSA keys; '' or none: the stand-in, which standard error names
 *   FAKEY    two digits for each of L bytes, in the place of the example's key of set 0102; for tests, since others on the machine may see it
 *
 * Exit status: 0 with a record; 1 where the library declined, whose number is told; 2 usage; 101 to 106 the fault that is told
 * (reader_end.h). An answer that is no hexadecimal is named with its line's number and ends the session: fault 102.
 */
#include "door.h"
#include "example.h"
#include "hex.h"
#include "platform.h"
#include "reader_end.h"

#include <ctype.h>
#include <signal.h>
#include <stdlib.h>
#include <string.h>

/* A reader_exchange; `line` counts the lines that were read. */
static long exchange(void *line, const uint8_t *command, size_t command_len, uint8_t *answer, size_t answer_room)
{
    long *at = line;
    if (!hex_write(stdout, command, command_len)) {
        fprintf(stderr, "reader: the command could not be written\n");
        return -1;
    }
    long length = hex_line(stdin, answer, answer_room);
    ++*at;
    if (length < 0)
        fprintf(stderr, "reader: line %ld: %s\n", *at, hex_words(length));
    return length < 0 ? -1 : length;
}

static int usage(void)
{
    fprintf(stderr, "usage: reader [-L16 | -L24 | -L32] MODE[:LENGTH] [KEYS [FAKEY]] >commands <answers, a line of hexadecimal bytes each\n"
                    "-L: the key length, 16 where it is not given; MODE: 4 hexadecimal digits; LENGTH: of its record, in decimal, for a\n"
                    "mode that is none of the examples'; KEYS: a folder of make-keys, or ''; FAKEY: 32, 48 or 64 digits\n");
    return 2;
}

/* Takes MODE or MODE:LENGTH into a plan. False where it is neither, or the length is not known. */
static bool take_mode(char *text, reader_plan *plan)
{
    uint8_t id[2];
    char *end, *length = strchr(text, ':');
    if (length)
        *length++ = '\0';
    if (hex_bytes(text, id, sizeof id) != 2)
        return false;
    plan->mode.value = (uint16_t)(id[0] * 256 + id[1]);
    if (length) {
        plan->record_length = strtoull(length, &end, 10);
        return isdigit((unsigned char)*length) && !*end;
    }
    const example_mode *known = example_mode_of(plan->mode);
    plan->record_length = known ? known->record_length : 0;
    return known != NULL;
}

static void tell_record(const uint8_t *record, size_t length)
{
    fprintf(stderr, "record: ");
    hex_write(stderr, record, length);
    if (!door_has(length))
        return;
    fprintf(stderr, "door: ");
    door_write(stderr, record, length);
    fprintf(stderr, "\n");
}

/* Runs a session and tells how it ended. Returns the exit status. */
static int tell(const reader_plan *plan)
{
    char words[96];
    reader_session s;
    memset(&s, 0, sizeof s);
    bool keys = reader_keys(plan);
    if (!keys)
        fprintf(stderr, "reader: %s\n", platform_trouble());
    int number = keys ? reader_run(plan, &s) : READER_NO_KEY;
    reader_words(number, &s, words, sizeof words);
    if (number == PLAID_DONE)
        tell_record(s.work + s.record.start, s.record.length);
    else
        fprintf(stderr, "reader: no record, %s\n", words);
    reader_forget(&s);
    return number >= READER_NO_KEY ? number : number != PLAID_DONE;
}

int main(int argc, char **argv)
{
    long line = 0;
    plaid_key_set sets[EXAMPLE_READER_SETS];
    reader_plan plan = {0, sets, EXAMPLE_READER_SETS, {0}, 0, (const uint8_t *)"", 0, exchange, &line};
    if (!example_key_length(&argc, &argv, &plan.key_length))
        return usage();
    example_reader(plan.key_length, sets);
    if (argc < 2 || argc > 4 || !take_mode(argv[1], &plan) || (argc > 2 && argv[2][0] == '-')
        || (argc > 3 && hex_bytes(argv[3], sets[1].fa_key.bytes, plan.key_length) != (long)plan.key_length))
        return usage();
    if (argc > 3)
        platform_erase(argv[3], strlen(argv[3]));
    signal(SIGPIPE, SIG_IGN); /* a card that has gone is a fault of the line, and told */
    platform_open(argc > 2 && argv[2][0] ? argv[2] : NULL);
    if (platform_is_stand_in())
        fprintf(stderr, "reader: %s\n", platform_rsa());
    int status = tell(&plan);
    platform_erase(sets, sizeof sets);
    platform_close();
    return status;
}
