/*
 * How much stack each exported function takes, held to the figures of plaid.h.
 *
 *   stack FUNCTION=BYTES ..    what each function reserves by its machine code, its return address included (frames.awk)
 *
 * Each call is made for each key length L, on a stack of its own that was painted before. The deepest byte that is not as painted is the depth, counted from the
 * caller's stack pointer before the arguments are laid. A figure holds where no call is deeper, where arguments and reserved bytes
 * are not deeper either, and where it is at most a quarter above the deepest call, or the next multiple of 16: it is no guess.
 *
 * To add a function: a line in FUNCTIONS and one for each path in CALLS. The last line is 'N passed, M failed'.
 */
#include "plaid.h"

#include <stdio.h>
#include <stdlib.h>
#include <string.h>
#include <ucontext.h>

#define LENGTH(array) (sizeof(array) / sizeof((array)[0]))

/*
 * The calls
 */

/* A result of more than 16 bytes goes where the first argument points (System V ABI, x86-64): no copy of it is on the caller's stack. */
typedef void raw_load(void *, const plaid_key_set *, size_t, plaid_given, const uint8_t *, size_t);
typedef void raw_load_sets(void *, const plaid_key_set *, size_t, plaid_card);
typedef void raw_command(void *, plaid_card, size_t, const uint8_t *, size_t, const uint8_t *, size_t, uint8_t *, size_t);
typedef void raw_open(void *, size_t, plaid_ids, const uint8_t *, size_t);
typedef void raw_seal(void *, plaid_sealing, const uint8_t *, size_t, uint8_t *, size_t);

/* volatile, or a compiler sees the other type and makes no call. */
#define AS(type, function) ((type *)(void (*)(void))(function))
static raw_load *volatile load_at = AS(raw_load, plaid_load);
static raw_load_sets *volatile load_sets_at = AS(raw_load_sets, plaid_load_sets);
static raw_command *volatile command_at = AS(raw_command, plaid_command);
static raw_open *volatile open_at = AS(raw_open, plaid_open);
static raw_seal *volatile seal_at = AS(raw_seal, plaid_seal);

/* L of this turn. */
static size_t key_length;

/* What the calls take and hand back. None of it is on the painted stack. */
static size_t open_length;
static plaid_key_set sets[PLAID_CARD_KEY_SETS + 1];
static plaid_given given;
static uint8_t area[PLAID_CARD_AREA];
static plaid_card card;
static uint8_t command[PLAID_COMMAND_MOST], fresh[PLAID_FRESH], out[PLAID_OUTPUT];
static size_t set_count, interface, command_len;
static plaid_ids ids;
static uint8_t blocks[PLAID_LIST_IDS * PLAID_BLOCK];
static plaid_sealing sealing;
static uint8_t payload[PLAID_PAYLOAD(16) + 1];
static plaid_accepting accepting;
static uint8_t response[PLAID_ANSWER_FINAL_MOST], work[PLAID_ANSWER_FINAL_MOST];
static uint8_t door[PLAID_UUID_TEXT];

static plaid_loaded loaded;
static plaid_outcome outcome;
static plaid_tries tries;
static plaid_written written;
static plaid_opened opened;
static plaid_sealed sealed;
static plaid_accepted accepted;
static plaid_part part;
static plaid_converted converted;

/* The mode whose record is followed by filler. */
#define SHORT 14

/* L bytes of one value; behind them others, which nobody looks at. */
static plaid_value value_of(int byte)
{
    plaid_value v;
    memset(v.bytes, byte, sizeof v.bytes);
    v.length = (uint8_t)key_length;
    return v;
}

/* A full load: eight key sets, sixteen modes with records of 64 bytes but for one of a single byte, so B = 6. */
static void given_load(void)
{
    memset(&given, 0, sizeof given);
    for (unsigned i = 0; i < LENGTH(sets); i++) {
        sets[i].id.value = (uint16_t)(0x0101 * (i + 1));
        sets[i].handle = (uint8_t)(i + 1);
        sets[i].fa_key = value_of(0x30 + (int)i);
    }
    for (unsigned i = 0; i < LENGTH(given.modes); i++) {
        given.modes[i].id.value = (uint16_t)(0x0A00 + i);
        given.modes[i].start = PLAID_CARD_RECORD * i;
        given.modes[i].len = i == SHORT ? 1 : PLAID_CARD_RECORD;
    }
    set_count = PLAID_CARD_KEY_SETS;
    given.key_length = key_length;
    given.mode_count = PLAID_CARD_MODES;
    memset(given.div_data, 0xD1, PLAID_DIV_DATA);
    given.shill_key = value_of(0x5E);
    given.shill_handle = 0x77;
    memset(area, 0x41, sizeof area);
}

static void given_bad_handle(void) { given_load(); sets[7].handle = given.shill_handle; }
static void given_bad_mode(void) { given_load(); given.modes[15].id = given.modes[0].id; }
static void given_bad_record(void) { given_load(); given.modes[15].len = PLAID_CARD_RECORD + 1; }
static void given_equal_sizes(void) { given_load(); given.modes[SHORT].len = PLAID_CARD_RECORD; }
static void given_too_many(void) { given_load(); set_count = PLAID_CARD_KEY_SETS + 1; }
static void given_no_length(void) { given_load(); given.key_length = 20; }
static void given_short_key(void) { given_load(); sets[7].fa_key.length--; }
static void given_short_shill_key(void) { given_load(); given.shill_key.length--; }

/* The loaded card, and fresh bytes. */
static void given_card(void)
{
    given_load();
    loaded = plaid_load(sets, set_count, given, area, sizeof area);
    card = loaded.card;
    interface = PLAID_INTERFACE_CONTACT;
    memset(fresh, 0xF5, sizeof fresh);
    memset(out, 0, sizeof out);
}

/* Key sets for that card: the same eight, one of them alone, or such as are declined. */
static void given_one_set(void) { given_card(); set_count = 1; }
static void given_too_many_sets(void) { given_card(); set_count = PLAID_CARD_KEY_SETS + 1; }
static void given_short_set(void) { given_card(); sets[7].fa_key.length--; }
static void given_set_twice(void) { given_card(); sets[7].id = sets[6].id; }
static void given_shill_set(void) { given_card(); sets[7].handle = card.shill_handle; }

/* The initial command of the greatest Lc, 255: 63 entries, of which the card holds the last, or none. */
static void given_list(bool held)
{
    given_card();
    memset(command, 0, sizeof command);
    memcpy(command, (uint8_t[]){0, PLAID_INS_INITIAL, 0, 0, 255, 0x30, 0x81, 252}, 8);
    for (size_t i = 0; i < 63; i++)
        memcpy(command + 8 + 4 * i, (uint8_t[]){0x04, 0x02, 0xEE, (uint8_t)i}, 4);
    if (held)
        command[8 + 4 * 62 + 2] = command[8 + 4 * 62 + 3] = 0x08;
    command_len = PLAID_COMMAND_MOST;
}

/* The same Lc in the indefinite form: 62 entries, the last with its length in three bytes. */
static void given_other_forms(void)
{
    given_list(false);
    memmove(command + 7, command + 8, 4 * 61);
    command[6] = 0x80;
    memcpy(command + 7 + 4 * 61, (uint8_t[]){0x04, 0x83, 0x00, 0x00, 0x02, 0x08, 0x08, 0x00, 0x00, 0x00}, 10);
}

static void given_initial(void) { given_list(true); }
static void given_unknown(void) { given_list(false); }
static void given_malformed(void) { given_list(true); command[8] = 0x05; }
static void given_no_interface(void) { given_list(true); interface = 2; }
static void given_zero_pad(void) { given_list(true); fresh[PLAID_FRESH - 1] = 0; }
static void given_no_frame(void) { given_list(true); command_len = 3; }

static void given_sealing(size_t mode)
{
    sealing.key_length = key_length;
    sealing.fa_key = sets[7].fa_key;
    memcpy(sealing.div_data, given.div_data, PLAID_DIV_DATA);
    sealing.rnd1 = value_of(fresh[0]);
    sealing.rnd2 = value_of(0x62);
    sealing.mode = given.modes[mode].id;
}

static void given_seal(void) { given_card(); given_sealing(15); }
static void given_seal_no_length(void) { given_seal(); sealing.key_length = 20; }
static void given_seal_short_key(void) { given_seal(); sealing.fa_key.length--; }
static void given_seal_short_rnd2(void) { given_seal(); sealing.rnd2.length--; }

/* A card in session, and the final command for a mode with a payload of so many bytes; what Accept is given. */
static void given_final_of(size_t mode, size_t payload_len)
{
    given_initial();
    card = plaid_command(card, interface, command, command_len, fresh, sizeof fresh, out, sizeof out).card;
    given_sealing(mode);
    sealed = plaid_seal(sealing, payload, payload_len, command, sizeof command);
    command_len = sealed.length;
    accepting.key_length = key_length;
    accepting.keys_hash = sealed.keys_hash;
    memcpy(accepting.div_data, given.div_data, PLAID_DIV_DATA);
    accepting.record_length = given.modes[mode].len;
}

static void given_final(size_t payload_len) { given_final_of(15, payload_len); }

static void given_longest_final(void) { given_final(PLAID_PAYLOAD(key_length)); }
static void given_shortest_final(void) { given_final(0); }
static void given_filled_final(void) { given_final_of(SHORT, PLAID_PAYLOAD(key_length)); }
static void given_wrong_final(void) { given_final(PLAID_PAYLOAD(key_length)); command[5] ^= 1; }
static void given_bad_padding(void) { given_final(PLAID_PAYLOAD(key_length)); command[244] ^= 1; }

/* A final command with Lc data bytes of no meaning. */
static void given_odd_final(size_t lc)
{
    given_final(PLAID_PAYLOAD(key_length));
    memset(command + 5, 0x99, sizeof command - 5);
    command[4] = (uint8_t)lc;
    command[5 + lc] = 0;
    command_len = lc + 6;
}

static void given_most_final(void) { given_odd_final(255); }
static void given_least_final(void) { given_odd_final(1); }
static void given_no_session(void) { given_odd_final(255); card.session = loaded.card.session; }

/* Over the air; and with counts that stay where they are. */
static void given_contactless_final(void) { given_longest_final(); interface = PLAID_INTERFACE_CONTACTLESS; }
static void given_contactless_refused(void) { given_wrong_final(); interface = PLAID_INTERFACE_CONTACTLESS; }
static void given_held(void) { given_wrong_final(); card.tries = (plaid_tries){PLAID_TRIES_MOST, PLAID_TRIES_MOST}; }

/* A card that has counted, new and in session. */
static void given_tries(void) { given_card(); card.tries = (plaid_tries){3, 5}; }
static void given_tries_in_session(void) { given_longest_final(); card.tries = (plaid_tries){3, 5}; }

static void given_ids(void)
{
    for (unsigned i = 0; i < PLAID_LIST_IDS; i++)
        ids.ids[i].value = (uint16_t)(0x0700 + i);
    ids.count = PLAID_LIST_IDS;
    open_length = key_length;
}

static void given_ids_twice(void) { given_ids(); ids.ids[15] = ids.ids[0]; }

/* Sixteen blocks, of which the last opens. */
static void given_blocks(void)
{
    given_ids();
    memset(blocks, 0x99, sizeof blocks);
    for (size_t i = 0; i < PLAID_LIST_IDS; i++) {
        uint8_t *block = blocks + i * PLAID_BLOCK;
        block[0] = block[2 + PLAID_FRESH_PADS(key_length)] = 0;
        block[1] = 2;
    }
    memcpy(blocks + sizeof blocks - PLAID_FRESH_ANY(key_length), (uint8_t[]){0x07, 0x0F}, 2);
}

static void given_no_block(void) { given_blocks(); blocks[sizeof blocks - 1] ^= 1; }
static void given_open_no_length(void) { given_blocks(); open_length = 20; }

/* The card's answer for a mode, 96 bytes: the longest. */
static void given_response_of(size_t mode)
{
    given_final_of(mode, PLAID_PAYLOAD(key_length));
    plaid_command(card, interface, command, command_len, fresh, sizeof fresh, out, sizeof out);
    memcpy(response, out, sizeof response);
}

static void given_response(void) { given_response_of(15); }
static void given_filled_response(void) { given_response_of(SHORT); }
static void given_wrong_response(void) { given_response(); response[95] ^= 1; }
static void given_longer_record(void) { given_response(); accepting.record_length = PLAID_CARD_RECORD + 1; }
static void given_empty_record(void) { given_response(); accepting.record_length = 0; }
static void given_accept_no_length(void) { given_response(); accepting.key_length = 20; }
static void given_accept_short_hash(void) { given_response(); accepting.keys_hash.length--; }

static void given_record(void) { given_response(); accepted = plaid_accept(accepting, response, 96, work, 96); }
static void given_no_record(void) { given_wrong_response(); accepted = plaid_accept(accepting, response, 96, work, 96); }

/* Door numbers: right ones, and such as are declined at their last character or bit. */
static void given_door(const char *bytes, size_t count) { memcpy(door, bytes, count); }
static void given_wiegand_text(void) { given_door("00001010100010010011001111", 26); }
static void given_wiegand_character(void) { given_wiegand_text(); door[25] = '2'; }
static void given_wiegand_parity(void) { given_wiegand_text(); door[25] = '0'; }
static void given_wiegand_record(void) { given_door("\x00\x2A\x24\xCF", 4); }
static void given_wiegand_odd(void) { given_wiegand_record(); door[3] ^= 1; }
static void given_wiegand_above(void) { given_wiegand_record(); door[0] = 0x80; }
static void given_uuid_text(void) { given_door("f81d4fae-7dec-11d0-A765-00A0C91E6BF6", 36); }
static void given_uuid_character(void) { given_uuid_text(); door[35] = 'g'; }
static void given_uuid_record(void) { given_door("\xF8\x1D\x4F\xAE\x7D\xEC\x11\xD0\xA7\x65\x00\xA0\xC9\x1E\x6B\xF6", 16); }

/* Whether a final answer is one that the reader takes. */
static bool taken(void)
{
    return plaid_accept(accepting, out, outcome.answer.length, work, sizeof work).number == PLAID_DONE;
}

static bool tries_are(unsigned contact, unsigned contactless)
{
    return outcome.card.tries.contact == contact && outcome.card.tries.contactless == contactless;
}

static bool answered(size_t length)
{
    return outcome.answer.number == PLAID_DONE && outcome.answer.status == PLAID_ANSWER_OK && outcome.answer.length == length;
}

/* Seal's longest payload and its shortest command. No functions: the one that makes a call calls no other. */
#define MOST PLAID_PAYLOAD(key_length)
#define LEAST PLAID_FINAL_COMMAND_LEAST(key_length)

/* The functions, with the bytes of their arguments on the stack: structs over 16 bytes, and integers past the sixth. */
#define FUNCTIONS(f) \
    f(LOAD, plaid_load, sizeof(plaid_given)) \
    f(LOAD_SETS, plaid_load_sets, sizeof(plaid_card)) \
    f(COMMAND, plaid_command, sizeof(plaid_card) + 2 * sizeof(size_t)) \
    f(READ_TRIES, plaid_read_tries, sizeof(plaid_card)) \
    f(LIST, plaid_list, sizeof(plaid_ids)) \
    f(OPEN, plaid_open, sizeof(plaid_ids)) \
    f(SEAL, plaid_seal, sizeof(plaid_sealing)) \
    f(ACCEPT, plaid_accept, sizeof(plaid_accepting)) \
    f(RECORD, plaid_record, 0) \
    f(WIEGAND_RECORD, plaid_wiegand_record, 0) \
    f(WIEGAND_TEXT, plaid_wiegand_text, 0) \
    f(UUID_RECORD, plaid_uuid_record, 0) \
    f(UUID_TEXT, plaid_uuid_text, 0)

#define LOADS(label, give, test) \
    c(LOAD, label, give, load_at(&loaded, sets, set_count, given, area, sizeof area), test)
#define LOADS_SETS(label, give, test) \
    c(LOAD_SETS, label, give, load_sets_at(&loaded, sets, set_count, card), test)
#define RUNS(label, give, fresh_len, out_len, test) \
    c(COMMAND, label, give, command_at(&outcome, card, interface, command, command_len, fresh, fresh_len, out, out_len), test)

#define CONVERTS(function, of, label, give, in, out_len, test) \
    c(function, label, give, converted = of(door, in, out, out_len), converted.number == test)

/* c(FUNCTION, the path's name, what is given, the call, whether it took that path) */
#define CALLS \
    LOADS(load_accepted, given_load, loaded.number == PLAID_DONE && loaded.card.reply_size == 6) \
    LOADS(load_refused_21, given_no_length, loaded.number == PLAID_DECLINE_KEY_LENGTH) \
    LOADS(load_refused_22, given_short_key, loaded.number == PLAID_DECLINE_VALUE_LENGTH) \
    LOADS(load_refused_22_shill, given_short_shill_key, loaded.number == PLAID_DECLINE_VALUE_LENGTH) \
    LOADS(load_refused_1, given_too_many, loaded.number == PLAID_DECLINE_KEY_SET_COUNT) \
    LOADS(load_refused_3, given_bad_handle, loaded.number == PLAID_DECLINE_SHILL_HANDLE) \
    LOADS(load_refused_5, given_bad_mode, loaded.number == PLAID_DECLINE_MODE_REPEATED) \
    LOADS(load_refused_6, given_bad_record, loaded.number == PLAID_DECLINE_RECORD) \
    LOADS(load_equal_sizes, given_equal_sizes, loaded.number == PLAID_DONE && loaded.card.reply_size == 6) \
    LOADS_SETS(sets_accepted, given_card, loaded.number == PLAID_DONE && loaded.card.sets[7].held) \
    LOADS_SETS(sets_accepted_one, given_one_set, loaded.number == PLAID_DONE && !loaded.card.sets[1].held) \
    LOADS_SETS(sets_in_session, given_longest_final, loaded.number == PLAID_DONE && loaded.card.session.opened) \
    LOADS_SETS(sets_refused_1, given_too_many_sets, loaded.number == PLAID_DECLINE_KEY_SET_COUNT) \
    LOADS_SETS(sets_refused_22, given_short_set, loaded.number == PLAID_DECLINE_VALUE_LENGTH) \
    LOADS_SETS(sets_refused_2, given_set_twice, loaded.number == PLAID_DECLINE_KEY_SET_REPEATED) \
    LOADS_SETS(sets_refused_3, given_shill_set, loaded.number == PLAID_DECLINE_SHILL_HANDLE) \
    RUNS(declined_26, given_no_interface, PLAID_FRESH, PLAID_OUTPUT, outcome.answer.number == PLAID_DECLINE_INTERFACE) \
    RUNS(declined_8, given_initial, PLAID_FRESH - 1, PLAID_OUTPUT, outcome.answer.number == PLAID_DECLINE_FRESH_COUNT) \
    RUNS(declined_9, given_zero_pad, PLAID_FRESH, PLAID_OUTPUT, outcome.answer.number == PLAID_DECLINE_PAD_BYTE) \
    RUNS(declined_10, given_initial, PLAID_FRESH, PLAID_OUTPUT - 1, outcome.answer.number == PLAID_DECLINE_OUTPUT) \
    RUNS(declined_frame, given_no_frame, PLAID_FRESH, PLAID_OUTPUT, outcome.answer.status == PLAID_ANSWER_WRONG_LENGTH) \
    RUNS(initial_accepted, given_initial, PLAID_FRESH, PLAID_OUTPUT, answered(256) && outcome.card.session.opened) \
    RUNS(initial_other_forms, given_other_forms, PLAID_FRESH, PLAID_OUTPUT, answered(256) && outcome.card.session.opened) \
    RUNS(initial_refused, given_unknown, PLAID_FRESH, PLAID_OUTPUT, answered(256) && !outcome.card.session.opened) \
    RUNS(initial_malformed, given_malformed, PLAID_FRESH, PLAID_OUTPUT, answered(256) && !outcome.card.session.opened) \
    RUNS(final_accepted, given_longest_final, PLAID_FRESH, PLAID_OUTPUT, command[4] == 240 && answered(96) && taken()) \
    RUNS(final_accepted_least, given_shortest_final, PLAID_FRESH, PLAID_OUTPUT, command[4] == LEAST - 6 && answered(96) && taken()) \
    RUNS(final_accepted_filled, given_filled_final, PLAID_FRESH, PLAID_OUTPUT, command[4] == 240 && answered(96) && taken()) \
    RUNS(final_refused, given_wrong_final, PLAID_FRESH, PLAID_OUTPUT, command[4] == 240 && answered(96) && !taken()) \
    RUNS(final_bad_padding, given_bad_padding, PLAID_FRESH, PLAID_OUTPUT, command[4] == 240 && answered(96) && !taken()) \
    RUNS(final_refused_255, given_most_final, PLAID_FRESH, PLAID_OUTPUT, card.session.opened && answered(96) && !taken()) \
    RUNS(final_refused_1, given_least_final, PLAID_FRESH, PLAID_OUTPUT, card.session.opened && answered(96) && !taken()) \
    RUNS(final_no_session, given_no_session, PLAID_FRESH, PLAID_OUTPUT, !card.session.opened && answered(96) && !taken()) \
    RUNS(final_contactless, given_contactless_final, PLAID_FRESH, PLAID_OUTPUT, answered(96) && taken() && tries_are(0, 0)) \
    RUNS(final_contactless_refused, given_contactless_refused, PLAID_FRESH, PLAID_OUTPUT, answered(96) && !taken() && tries_are(0, 1)) \
    RUNS(final_refused_held, given_held, PLAID_FRESH, PLAID_OUTPUT, answered(96) && !taken() && tries_are(65535, 65535)) \
    c(READ_TRIES, tries_new, given_tries, tries = plaid_read_tries(card), tries.contact == 3 && tries.contactless == 5) \
    c(READ_TRIES, tries_in_session, given_tries_in_session, tries = plaid_read_tries(card), card.session.opened && tries.contactless == 5) \
    c(LIST, listed, given_ids, written = plaid_list(ids, out, sizeof out), written.length == PLAID_LIST_COMMAND_MOST) \
    c(LIST, declined_12, given_ids_twice, written = plaid_list(ids, out, sizeof out), written.number == PLAID_DECLINE_LIST_REPEATED) \
    c(LIST, declined_13, given_ids, written = plaid_list(ids, out, 71), written.number == PLAID_DECLINE_LIST_OUTPUT) \
    c(OPEN, opened_last, given_blocks, open_at(&opened, open_length, ids, blocks, sizeof blocks), opened.number == PLAID_DONE && opened.place == 15) \
    c(OPEN, none_opens, given_no_block, open_at(&opened, open_length, ids, blocks, sizeof blocks), opened.number == PLAID_DECLINE_NONE_OPENS) \
    c(OPEN, open_declined_21, given_open_no_length, open_at(&opened, open_length, ids, blocks, sizeof blocks), opened.number == 21) \
    c(OPEN, declined_14, given_blocks, open_at(&opened, open_length, ids, blocks, 1), opened.number == PLAID_DECLINE_BLOCKS) \
    c(SEAL, sealed_most, given_seal, seal_at(&sealed, sealing, payload, MOST, out, sizeof out), sealed.length == 246) \
    c(SEAL, sealed_least, given_seal, seal_at(&sealed, sealing, payload, 0, out, sizeof out), sealed.length == LEAST) \
    c(SEAL, seal_declined_21, given_seal_no_length, seal_at(&sealed, sealing, payload, 0, out, sizeof out), sealed.number == 21) \
    c(SEAL, seal_declined_22, given_seal_short_key, seal_at(&sealed, sealing, payload, 0, out, sizeof out), sealed.number == 22) \
    c(SEAL, seal_declined_22_rnd2, given_seal_short_rnd2, seal_at(&sealed, sealing, payload, 0, out, sizeof out), sealed.number == 22) \
    c(SEAL, declined_16, given_seal, seal_at(&sealed, sealing, payload, MOST + 1, out, sizeof out), sealed.number == PLAID_DECLINE_PAYLOAD) \
    c(SEAL, declined_17, given_seal, seal_at(&sealed, sealing, payload, 0, out, LEAST - 1), sealed.number == PLAID_DECLINE_SEAL_OUTPUT) \
    c(ACCEPT, accepted_96, given_response, accepted = plaid_accept(accepting, response, 96, work, 96), accepted.length == PLAID_CARD_RECORD) \
    c(ACCEPT, refused_96, given_wrong_response, accepted = plaid_accept(accepting, response, 96, work, 96), accepted.number == 20) \
    c(ACCEPT, accepted_filled, given_filled_response, accepted = plaid_accept(accepting, response, 96, work, 96), accepted.length == 1) \
    c(ACCEPT, refused_longer, given_longer_record, accepted = plaid_accept(accepting, response, 96, work, 96), accepted.number == 20) \
    c(ACCEPT, refused_empty, given_empty_record, accepted = plaid_accept(accepting, response, 96, work, 96), accepted.number == 20) \
    c(ACCEPT, accept_declined_21, given_accept_no_length, accepted = plaid_accept(accepting, response, 96, work, 96), accepted.number == 21) \
    c(ACCEPT, accept_declined_22, given_accept_short_hash, accepted = plaid_accept(accepting, response, 96, work, 96), accepted.number == 22) \
    c(ACCEPT, declined_18, given_response, accepted = plaid_accept(accepting, response, 33, work, 96), accepted.number == 18) \
    c(ACCEPT, declined_19, given_response, accepted = plaid_accept(accepting, response, 96, work, 95), accepted.number == 19) \
    c(RECORD, record_part, given_record, part = plaid_record(work, sizeof work, accepted), part.length == PLAID_CARD_RECORD) \
    c(RECORD, record_none, given_no_record, part = plaid_record(work, sizeof work, accepted), part.length == 0) \
    CONVERTS(WIEGAND_RECORD, plaid_wiegand_record, wiegand_record, given_wiegand_text, 26, sizeof out, PLAID_DONE) \
    CONVERTS(WIEGAND_RECORD, plaid_wiegand_record, wiegand_record_23, given_wiegand_text, 26, 3, PLAID_DECLINE_CONVERSION_LENGTH) \
    CONVERTS(WIEGAND_RECORD, plaid_wiegand_record, wiegand_record_25, given_wiegand_character, 26, 4, PLAID_DECLINE_BAD_CHARACTER) \
    CONVERTS(WIEGAND_RECORD, plaid_wiegand_record, wiegand_record_24, given_wiegand_parity, 26, 4, PLAID_DECLINE_PARITY) \
    CONVERTS(WIEGAND_TEXT, plaid_wiegand_text, wiegand_text, given_wiegand_record, 4, sizeof out, PLAID_DONE) \
    CONVERTS(WIEGAND_TEXT, plaid_wiegand_text, wiegand_text_23, given_wiegand_record, 4, 25, PLAID_DECLINE_CONVERSION_LENGTH) \
    CONVERTS(WIEGAND_TEXT, plaid_wiegand_text, wiegand_text_24, given_wiegand_odd, 4, 26, PLAID_DECLINE_PARITY) \
    CONVERTS(WIEGAND_TEXT, plaid_wiegand_text, wiegand_text_24_above, given_wiegand_above, 4, 26, PLAID_DECLINE_PARITY) \
    CONVERTS(UUID_RECORD, plaid_uuid_record, uuid_record, given_uuid_text, 36, sizeof out, PLAID_DONE) \
    CONVERTS(UUID_RECORD, plaid_uuid_record, uuid_record_23, given_uuid_text, 36, 15, PLAID_DECLINE_CONVERSION_LENGTH) \
    CONVERTS(UUID_RECORD, plaid_uuid_record, uuid_record_25, given_uuid_character, 36, 16, PLAID_DECLINE_BAD_CHARACTER) \
    CONVERTS(UUID_TEXT, plaid_uuid_text, uuid_text, given_uuid_record, 16, sizeof out, PLAID_DONE) \
    CONVERTS(UUID_TEXT, plaid_uuid_text, uuid_text_23, given_uuid_record, 16, 35, PLAID_DECLINE_CONVERSION_LENGTH)

/*
 * The painted stack
 */

/* The library calls these two. Here they take their return address and no more, whatever the C library's take. */
void *memcpy(void *to, const void *from, size_t count)
{
    for (size_t i = 0; i < count; i++)
        ((uint8_t *)to)[i] = ((const uint8_t *)from)[i];
    return to;
}

void *memset(void *to, int value, size_t count)
{
    for (size_t i = 0; i < count; i++)
        ((uint8_t *)to)[i] = (uint8_t)value;
    return to;
}

#define STACK 65536
static _Alignas(16) uint8_t stack[STACK];
static ucontext_t here, there;
static uint8_t *caller;         /* the caller's stack pointer before the arguments are laid */
static void (*volatile to_call)(void);

static uint8_t paint, *found;

/* Makes the call, and finds the deepest byte that is not as painted: before anything else can write there. */
static void on_the_stack(void)
{
    to_call();
    uint8_t *at = stack;
    while (*at == paint)
        at++;
    found = at;
}

static uint8_t *deepest(void (*call)(void), uint8_t painted)
{
    paint = painted;
    memset(stack, paint, sizeof stack);
    to_call = call;
    getcontext(&there);
    there.uc_stack.ss_sp = stack;
    there.uc_stack.ss_size = sizeof stack;
    there.uc_link = &here;
    makecontext(&there, on_the_stack, 0);
    swapcontext(&here, &there);
    return found;
}

/* Twice, since a byte may be written as it was painted. */
static size_t depth(void (*give)(void), void (*call)(void))
{
    give();
    uint8_t *first = deepest(call, 0xA5);
    give();
    uint8_t *second = deepest(call, 0x5A);
    return (size_t)(caller - (first < second ? first : second));
}

/* The function that makes a call does nothing else, so that its stack pointer is its frame's address until the arguments are laid. */
#define c(function, label, give, call, test) \
    static void call_##label(void) \
    { \
        caller = __builtin_frame_address(0); \
        call; \
    } \
    static bool test_##label(void) { return test; }
CALLS
#undef c

/*
 * The figures
 */

#define NAMED(name, function, arguments) name,
enum function { FUNCTIONS(NAMED) COUNT };
#undef NAMED

static const struct {
    const char *name;
    size_t figure, arguments;
} functions[] = {
#define FIGURE(name, function, arguments) {#function, PLAID_STACK_##name, arguments},
    FUNCTIONS(FIGURE)
#undef FIGURE
};

static const struct {
    enum function of;
    const char *label;
    void (*give)(void);
    void (*call)(void);
    bool (*took)(void);
} calls[] = {
#define c(function, label, give, call, test) {function, #label, give, call_##label, test_##label},
    CALLS
#undef c
};

static unsigned passed, failed;

static void check(bool ok, const char *name, const char *what)
{
    if (ok) {
        passed++;
        return;
    }
    failed++;
    printf("%s: %s\n", name, what);
}

/* What a function reserves, as the words of the command line have it; 0 where they have nothing. */
static size_t reserved(const char *name, char **words)
{
    for (; *words != NULL; words++)
        if (strncmp(*words, name, strlen(name)) == 0 && (*words)[strlen(name)] == '=')
            return strtoul(*words + strlen(name) + 1, NULL, 10);
    return 0;
}

static size_t deepest_of(enum function of)
{
    size_t deepest_call = 0;
    for (size_t i = 0; i < 3 * LENGTH(calls); i++) {
        size_t at = i / 3;
        if (calls[at].of != of)
            continue;
        key_length = 16 + 8 * (i % 3);
        size_t bytes = depth(calls[at].give, calls[at].call);
        check(calls[at].took(), calls[at].label, "the call took another path");
        deepest_call = bytes > deepest_call ? bytes : deepest_call;
    }
    return deepest_call;
}

int main(int argc, char **argv)
{
    (void)argc;
    for (size_t i = 0; i < COUNT; i++) {
        const char *name = functions[i].name;
        size_t figure = functions[i].figure, arguments = (functions[i].arguments + 15) / 16 * 16;
        size_t written_to = deepest_of((enum function)i), frames = reserved(name, argv + 1);
        check(written_to < STACK / 2, name, "the test's stack is too small");
        check(written_to <= figure, name, "a call is deeper than the figure");
        check(figure - figure / 5 <= written_to || figure < written_to + 16, name, "the figure is more than a quarter above the deepest call");
        check(figure % 16 == 0, name, "the figure is no multiple of 16, as the stack is");
        check(frames > 0, name, "the machine code was not read");
        check(arguments + frames <= figure, name, "arguments and reserved bytes are more than the figure");
        check(written_to <= arguments + frames, name, "a call is deeper than what the machine code reserves");
        printf("%s: %zu bytes written to, %zu reserved, figure %zu\n", name, written_to, arguments + frames, figure);
    }
    printf("%u passed, %u failed\n", passed, failed);
    return failed > 0;
}
