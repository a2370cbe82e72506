/*
 * Figures and no limits: the processor time of one session, both ends in one process, with RSA-2048 and 16 listed sets of 16 keys, of which
 * the card holds the last; and of a decryption, by where its number stands to the modulus.
 *
 *   figure KEYS      KEYS: a folder of make-keys with the handles below and the example card's
 */
#include "backend.h"
#include "card_end.h"
#include "example.h"
#include "platform.h"
#include "reader_end.h"

#include <stdio.h>
#include <stdlib.h>
#include <string.h>
#include <time.h>

static const uint8_t handles[PLAID_LIST_IDS] = {0x30, 0x31, 0x32, 0x33, 0x34, 0x35, 0x36, 0x37, 0x38, 0x39, 0x3A, 0x22, 0x21, 0x1F, 0x12, 0x11};

static long exchange(void *line, const uint8_t *command, size_t command_len, uint8_t *answer, size_t answer_room)
{
    card_reply reply;
    card_serve(line, PLAID_INTERFACE_CONTACT, command, command_len, &reply);
    memcpy(answer, reply.bytes, reply.length < answer_room ? reply.length : answer_room);
    return (long)reply.length;
}

static double milliseconds(clock_t ticks)
{
    return 1000.0 * (double)ticks / CLOCKS_PER_SEC;
}

static bool session(const char *folder)
{
    static const uint8_t record[] = {0xF8, 0x1D, 0x4F, 0xAE, 0x7D, 0xEC, 0x11, 0xD0, 0xA7, 0x65, 0x00, 0xA0, 0xC9, 0x1E, 0x6B, 0xF6};
    plaid_key_set sets[PLAID_LIST_IDS];
    plaid_key_set known[EXAMPLE_READER_SETS];
    plaid_loaded loaded = example_card(EXAMPLE_KEY_LENGTH);
    reader_session s;
    for (size_t i = 0; i < PLAID_LIST_IDS; i++)
        sets[i] = (plaid_key_set){{(uint16_t)(0x0500 + i)}, handles[i], {EXAMPLE_KEY_LENGTH, {0}}};
    example_reader(EXAMPLE_KEY_LENGTH, known);
    sets[PLAID_LIST_IDS - 1] = known[1];
    reader_plan plan = {EXAMPLE_KEY_LENGTH, sets, PLAID_LIST_IDS, example_uuid.id, sizeof record, handles, 0, exchange, &loaded.card};
    platform_open(folder);
    if (!card_keys(&loaded.card) || !reader_keys(&plan)) {
        fprintf(stderr, "figure: %s\n", platform_trouble());
        return false;
    }
    clock_t start = clock();
    int number = reader_run(&plan, &s);
    clock_t end = clock();
    if (number != PLAID_DONE || s.opened.place != PLAID_LIST_IDS - 1 || s.accepted.length != sizeof record
        || memcmp(s.work, record, sizeof record) != 0)
        return false;
    printf("figure: a session with RSA-2048 and 16 listed sets: %.1f ms of processor time; %.1f ms with the process's start and its 19 keys\n",
        milliseconds(end - start), milliseconds(end));
    return true;
}

/* Numbers: half the modulus or less, the modulus and a little, the largest, and that one left to the library's own check. */
enum { BELOW, ABOVE, LARGEST, UNCHECKED, KINDS, TIMES = 400 };

static void number_of(int kind, uint8_t number[PLAID_BLOCK])
{
    uint8_t modulus[PLAID_BLOCK];
    backend_modulus(handles[0], modulus);
    platform_random(number, PLAID_BLOCK);
    number[0] &= 0x3F;
    if (kind == ABOVE) {
        memcpy(number, modulus, 16);
        memset(number + 16, 0xFF, 16);
    } else if (kind != BELOW) {
        memset(number, 0xFF, PLAID_BLOCK);
    }
}

static int by_size(const void *a, const void *b)
{
    const clock_t *x = a, *y = b;
    return (*x > *y) - (*x < *y);
}

/* The median time of each kind, in mixed order: libcrypto renews its blinding at each thirty-second operation. */
static void decryptions(void)
{
    static clock_t taken[KINDS][TIMES];
    size_t done[KINDS] = {0};
    for (size_t all = 0; all < KINDS * TIMES;) {
        uint8_t kind, number[PLAID_BLOCK];
        platform_random(&kind, 1);
        kind %= KINDS;
        if (done[kind] == TIMES)
            continue;
        number_of(kind, number);
        clock_t start = clock();
        if (kind == UNCHECKED)
            backend_private(handles[0], number);
        else
            platform_decrypt(handles[0], number);
        taken[kind][done[kind]++] = clock() - start;
        all++;
    }
    for (int kind = 0; kind < KINDS; kind++)
        qsort(taken[kind], TIMES, sizeof taken[kind][0], by_size);
    printf("figure: a decryption's median, in ms: %.3f below the modulus, %.3f just above, %.3f at 2^2048 - 1; %.3f where libcrypto refuses that\n",
        milliseconds(taken[BELOW][TIMES / 2]), milliseconds(taken[ABOVE][TIMES / 2]), milliseconds(taken[LARGEST][TIMES / 2]),
        milliseconds(taken[UNCHECKED][TIMES / 2]));
}

int main(int argc, char **argv)
{
    if (!session(argc > 1 ? argv[1] : ""))
        return 1;
    decryptions();
    platform_close();
    return 0;
}
