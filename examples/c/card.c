/*
 * A card: reads commands from standard input, a line of hexadecimal bytes for each, and answers each with a line of its bytes and status.
 *
 *   card [-contact | -contactless] [-sets FILE] [-LBYTES] [KEYS]
 *
 *   -contact, -contactless   the interface that the commands come in by: the contacts, which is the default, or the air. Whoever starts
 *            the card says it; no line does
 *   FILE     where the personaliser leaves new key sets; no line brings any. Where it is there before a line is answered, the card loads
 *            it, removes it, and says on standard error what came of that. It has a line for each key set, in hexadecimal: KeySetID, RSA
 *            handle and FAKey, of 2, 1 and L bytes. Move it there whole: half a file would be taken for all of it
 *   BYTES    the key length L: 16, which is the default, 24 or 32; the reader has to have the same
 *   KEYS     the folder of RSA keys; none: the stand-in, which standard error names
 *
 * Every line gets an answer, so that no reader waits for one. Where the platform fails it is 6F00. A line that is no hexadecimal, or has
 * half a byte, is no command: 6700, and the card stays as it was. One of over 261 bytes is a command with a fault, and gets its status.
 * Each of these is named on standard error with the line's number, and the card goes on. At the end standard error has the counts of
 * failed tries, as maintenance reads them.
 *
 * Exit status: 0; 1 where a line was named, or a load was not taken; 2 usage; 101 no RSA keys.
 */
#include "card_end.h"
#include "example.h"
#include "hex.h"
#include "key_file.h"
#include "platform.h"

#include <string.h>

/* Says what is wrong with a line. False, for the caller to hand on. */
static bool named(long line, const char *what)
{
    fprintf(stderr, "card: line %ld: %s\n", line, what);
    return false;
}

/* Answers one line. False where it had to be named. */
static bool serve(plaid_card *card, size_t interface, long line, const uint8_t *command, size_t length)
{
    card_reply reply;
    card_serve(card, interface, command, length, &reply);
    bool sent = hex_write(stdout, reply.bytes, reply.length);
    if (reply.fault != CARD_DONE)
        return named(line, card_words(reply.fault));
    if (length > PLAID_COMMAND_MOST)
        return named(line, "too long for a command");
    return sent || named(line, "the answer could not be written");
}

/* Loads the key sets that the personaliser has left, if any, and says what came of it. False where they were not taken. */
static bool change_keys(plaid_card *card, const char *path, long line)
{
    plaid_key_set sets[KEY_FILE_SETS];
    long count = path ? key_file_take(path, sets) : KEY_FILE_MISSING;
    if (count == KEY_FILE_MISSING)
        return true;
    int number = count < 0 ? (int)count : card_load_sets(card, sets, (size_t)count);
    platform_erase(sets, sizeof sets);
    fprintf(stderr, "card: before line %ld: key sets ", line);
    switch (number) {
    case PLAID_DONE: fprintf(stderr, "loaded, %ld\n", count); break;
    case KEY_FILE_LINE: fprintf(stderr, "not loaded, a line of the file is none\n"); break;
    case CARD_NO_KEY: fprintf(stderr, "not loaded, %s\n", platform_trouble()); break;
    default: fprintf(stderr, "declined by %d\n", number);
    }
    return number == PLAID_DONE;
}

static bool serve_all(plaid_card *card, size_t interface, const char *sets)
{
    static const uint8_t no_command[] = {PLAID_ANSWER_WRONG_LENGTH >> 8, PLAID_ANSWER_WRONG_LENGTH & 0xFF};
    uint8_t command[PLAID_COMMAND_MOST + 1]; /* one byte more than a command has, so that the library sees that it is too long */
    bool good = true;
    long length;
    for (long line = 1; (length = hex_line(stdin, command, sizeof command)) != HEX_END; line++) {
        good = change_keys(card, sets, line) && good;
        if (length < 0) {
            hex_write(stdout, no_command, sizeof no_command);
            good = named(line, hex_words(length));
        } else {
            good = serve(card, interface, line, command, (size_t)length < sizeof command ? (size_t)length : sizeof command) && good;
        }
    }
    return good && feof(stdin);
}

/* Takes the first word off the arguments; "" where there is none. */
static const char *take_word(int *argc, char ***argv)
{
    if (*argc < 2)
        return "";
    --*argc;
    return *++*argv;
}

/* Whether that is this flag, which is then taken off. */
static bool takes(int *argc, char ***argv, const char *flag)
{
    bool there = *argc > 1 && strcmp((*argv)[1], flag) == 0;
    if (there)
        take_word(argc, argv);
    return there;
}

static size_t interface_of(int *argc, char ***argv)
{
    if (takes(argc, argv, "-contactless"))
        return PLAID_INTERFACE_CONTACTLESS;
    takes(argc, argv, "-contact");
    return PLAID_INTERFACE_CONTACT;
}

static bool is_path(const char *word)
{
    return word[0] && word[0] != '-';
}

static void show_tries(const plaid_card *card)
{
    plaid_tries tries = plaid_read_tries(*card);
    fprintf(stderr, "card: failed tries: contact %u, contactless %u\n", tries.contact, tries.contactless);
}

int main(int argc, char **argv)
{
    size_t key_length, interface = interface_of(&argc, &argv);
    const char *sets = takes(&argc, &argv, "-sets") ? take_word(&argc, &argv) : NULL;
    if (!example_key_length(&argc, &argv, &key_length) || argc > 2 || (argc == 2 && !is_path(argv[1])) || (sets && !is_path(sets))) {
        fprintf(stderr, "usage: card [-contact | -contactless] [-sets FILE] [-L16 | -L24 | -L32] [KEYS] <commands >answers\n"
                        "a line of hexadecimal bytes each; -contact, -contactless: where the commands come in, contact where it is not given\n"
                        "FILE: where new key sets are left, a line for each, of KeySetID, RSA handle and FAKey in hexadecimal digits\n"
                        "-L: the key length, 16 where it is not given; KEYS: a folder of make-keys\n");
        return 2;
    }
    platform_open(argc > 1 ? argv[1] : NULL);
    if (platform_is_stand_in())
        fprintf(stderr, "card: %s\n", platform_rsa());
    plaid_loaded loaded = example_card(key_length);
    plaid_card card = loaded.card;
    int number = loaded.number;
    platform_erase(&loaded, sizeof loaded);
    if (number != PLAID_DONE) {
        fprintf(stderr, "card: load declined by %d\n", number);
        return 1;
    }
    int status = CARD_NO_KEY;
    if (card_keys(&card)) {
        status = serve_all(&card, interface, sets) ? 0 : 1;
        show_tries(&card);
    } else {
        fprintf(stderr, "card: %s\n", platform_trouble());
    }
    platform_erase(&card, sizeof card);
    platform_close();
    return status;
}
