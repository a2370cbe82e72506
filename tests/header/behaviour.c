/*
 * plaid.h held to what the library itself does.
 *
 * Results: each function is called with the result pointer given by hand, over two different fillings, so that the test sees which bytes
 * the library writes and reads each field where the header says it stands. Inputs: distinct values in each field, which have to arrive.
 * Constants: each is provoked, with the neighbour that is on the other side of it. Expected values come from the inputs, from documents 01
 * and 02 and from NIST's vectors. All of it is run for each key length L, but for the door numbers, which have none: their values come from
 * document 02, RFC 4122 and C's own printing.
 *
 * The last line is 'N passed, M failed'.
 */
#include "plaid.h"

#include <stdio.h>
#include <string.h>

#define LENGTH(array) (sizeof(array) / sizeof((array)[0]))
#define CHECK(test) check(test, #test, __LINE__)
#define CANARY 0xC5

static unsigned passed, failed;

static void check(bool ok, const char *test, int line)
{
    if (ok) {
        passed++;
        return;
    }
    failed++;
    printf("behaviour.c:%d: %s\n", line, test);
}

/* Bytes that differ from place to place and from field to field; never 0. */
static void mark(uint8_t *to, size_t count, unsigned field)
{
    for (size_t i = 0; i < count; i++)
        to[i] = (uint8_t)(1 + (field * 37 + i * 11 + i / 256 * 101) % 255);
}

static bool all(const uint8_t *bytes, size_t count, uint8_t value)
{
    for (size_t i = 0; i < count; i++)
        if (bytes[i] != value)
            return false;
    return true;
}

/* NIST's SHA-256 vectors for messages of 256, 384 and 512 bits, as RND1 and RND2 of L bytes each; and the first L bytes of their digests. */
static const struct {
    size_t key_length;
    uint8_t rnd1[PLAID_VALUE_MOST], rnd2[PLAID_VALUE_MOST], keys_hash[PLAID_VALUE_MOST];
} nist[] = {
    {16,
        {0x09, 0xfc, 0x1a, 0xcc, 0xc2, 0x30, 0xa2, 0x05, 0xe4, 0xa2, 0x08, 0xe6, 0x4a, 0x8f, 0x20, 0x42},
        {0x91, 0xf5, 0x81, 0xa1, 0x27, 0x56, 0x39, 0x2d, 0xa4, 0xb8, 0xc0, 0xcf, 0x5e, 0xf0, 0x2b, 0x95},
        {0x4f, 0x44, 0xc1, 0xc7, 0xfb, 0xeb, 0xb6, 0xf9, 0x60, 0x18, 0x29, 0xf3, 0x89, 0x7b, 0xfd, 0x65}},
    {24,
        {0x4e, 0xef, 0x51, 0x07, 0x45, 0x9b, 0xdd, 0xf8, 0xf2, 0x4f, 0xc7, 0x65, 0x6f, 0xd4, 0x89, 0x6d,
         0xa8, 0x71, 0x1d, 0xb5, 0x04, 0x00, 0xc0, 0x16},
        {0x48, 0x47, 0xf6, 0x92, 0xb8, 0x86, 0xce, 0x8d, 0x7f, 0x4d, 0x67, 0x39, 0x50, 0x90, 0xb3, 0x53,
         0x4e, 0xfd, 0x7b, 0x0d, 0x29, 0x8d, 0xa3, 0x4b},
        {0x7c, 0x5d, 0x14, 0xed, 0x83, 0xda, 0xb8, 0x75, 0xac, 0x25, 0xce, 0x7f, 0xee, 0xd6, 0xef, 0x83,
         0x7d, 0x58, 0xe7, 0x9d, 0xc6, 0x01, 0xfb, 0x3c}},
    {32,
        {0x5a, 0x86, 0xb7, 0x37, 0xea, 0xea, 0x8e, 0xe9, 0x76, 0xa0, 0xa2, 0x4d, 0xa6, 0x3e, 0x7e, 0xd7,
         0xee, 0xfa, 0xd1, 0x8a, 0x10, 0x1c, 0x12, 0x11, 0xe2, 0xb3, 0x65, 0x0c, 0x51, 0x87, 0xc2, 0xa8},
        {0xa6, 0x50, 0x54, 0x72, 0x08, 0x25, 0x1f, 0x6d, 0x42, 0x37, 0xe6, 0x61, 0xc7, 0xbf, 0x4c, 0x77,
         0xf3, 0x35, 0x39, 0x03, 0x94, 0xc3, 0x7f, 0xa1, 0xa9, 0xf9, 0xbe, 0x83, 0x6a, 0xc2, 0x85, 0x09},
        {0x42, 0xe6, 0x1e, 0x17, 0x4f, 0xbb, 0x38, 0x97, 0xd6, 0xdd, 0x6c, 0xef, 0x3d, 0xd2, 0x80, 0x2f,
         0xe6, 0x7b, 0x33, 0x19, 0x53, 0xb0, 0x61, 0x14, 0xa6, 0x5c, 0x77, 0x28, 0x59, 0xdf, 0xc1, 0xaa}},
};

/* The key length of this run, and its vector. */
static size_t key_length;
static const uint8_t *rnd1, *rnd2, *keys_hash;

/* Lengths that are not the run's: of the other runs, its neighbours, none, and more than a value holds. */
static const size_t wrong_lengths[] = {0, 1, 15, 16, 17, 23, 24, 25, 31, 32, 33, 48, 64, 128, 255};

/* A value that says so many bytes. All 32 places are filled. */
static plaid_value said_of(size_t said, const uint8_t *bytes)
{
    plaid_value v;
    memset(v.bytes, CANARY, sizeof v.bytes);
    memcpy(v.bytes, bytes, key_length);
    v.length = (uint8_t)said;
    return v;
}

/* One of L bytes. Behind them stand others, which nobody looks at. */
static plaid_value value_of(const uint8_t *bytes)
{
    return said_of(key_length, bytes);
}

static plaid_value marked_value(unsigned field)
{
    uint8_t bytes[PLAID_VALUE_MOST];
    mark(bytes, sizeof bytes, field);
    return value_of(bytes);
}

/* L bytes as the first of 32, and zeros behind them. */
static bool held_is(const uint8_t held[PLAID_VALUE_MOST], const uint8_t *bytes)
{
    return memcmp(held, bytes, key_length) == 0 && all(held + key_length, PLAID_VALUE_MOST - key_length, 0);
}

/* A value handed back: of L bytes; or after a decline. */
static bool value_is(const plaid_value *v, const uint8_t *bytes)
{
    return v->length == key_length && held_is(v->bytes, bytes);
}

static bool value_is_zero(const plaid_value *v)
{
    return v->length == 0 && all(v->bytes, sizeof v->bytes, 0);
}

/*
 * Results
 */

/* A result over two fillings: what the library writes is equal in both, what it leaves is not. */
#define RAW 4096
typedef struct {
    uint8_t bytes[2][RAW];
} result;

static void fill(result *r)
{
    memset(r->bytes[0], 0xA5, RAW);
    memset(r->bytes[1], 0x5A, RAW);
}

/* One past the last byte that the library wrote. */
static size_t extent(const result *r)
{
    size_t end = RAW;
    while (end > 0 && r->bytes[0][end - 1] != r->bytes[1][end - 1])
        end--;
    return end;
}

/* The library wrote the struct's last field, and nothing behind the struct. */
#define CHECK_SIZE(r, type, last) \
    CHECK(extent(r) <= sizeof(type) && extent(r) >= offsetof(type, last) + sizeof(((type *)0)->last))

/* A result of more than 16 bytes goes where the first argument points, which the function also returns (System V ABI, x86-64). */
typedef void *raw_load(void *, const plaid_key_set *, size_t, plaid_given, const uint8_t *, size_t);
typedef void *raw_load_sets(void *, const plaid_key_set *, size_t, plaid_card);
typedef void *raw_command(void *, plaid_card, size_t, const uint8_t *, size_t, const uint8_t *, size_t, uint8_t *, size_t);
typedef uint32_t raw_read_tries(plaid_card); /* four bytes come in one register */
typedef void *raw_open(void *, size_t, plaid_ids, const uint8_t *, size_t);
typedef void *raw_seal(void *, plaid_sealing, const uint8_t *, size_t, uint8_t *, size_t);
/* One of up to 16 bytes comes in two registers. */
typedef struct {
    uint64_t words[2];
} registers;
typedef registers raw_list(plaid_ids, uint8_t *, size_t);
typedef registers raw_accept(plaid_accepting, const uint8_t *, size_t, uint8_t *, size_t);
typedef registers raw_record(const uint8_t *, size_t, plaid_accepted);
typedef registers raw_convert(const uint8_t *, size_t, uint8_t *, size_t);

/* volatile, or a compiler sees the other type and makes no call. */
#define AS(type, function) ((type *)(void (*)(void))(function))
static raw_load *volatile load_at = AS(raw_load, plaid_load);
static raw_load_sets *volatile load_sets_at = AS(raw_load_sets, plaid_load_sets);
static raw_command *volatile command_at = AS(raw_command, plaid_command);
static raw_read_tries *volatile tries_word = AS(raw_read_tries, plaid_read_tries);
static raw_open *volatile open_at = AS(raw_open, plaid_open);
static raw_seal *volatile seal_at = AS(raw_seal, plaid_seal);
static raw_list *volatile list_words = AS(raw_list, plaid_list);
static raw_accept *volatile accept_words = AS(raw_accept, plaid_accept);
static raw_record *volatile record_words = AS(raw_record, plaid_record);

/*
 * Load
 */

typedef struct {
    plaid_key_set sets[PLAID_CARD_KEY_SETS + 1];
    size_t set_count;
    plaid_given given;
    uint8_t area[PLAID_CARD_AREA + 1];
    size_t area_len;
} load_case;

static plaid_key_set marked_set(unsigned id, unsigned handle, unsigned field)
{
    plaid_key_set set;
    memset(&set, 0, sizeof set);
    set.id.value = (uint16_t)id;
    set.handle = (uint8_t)handle;
    set.fa_key = marked_value(field);
    return set;
}

/* Every slot filled, every value its own: records of 48 to 63 bytes, which all have B = 5. */
static load_case full_load(void)
{
    load_case c;
    memset(&c, 0, sizeof c);
    for (unsigned i = 0; i < LENGTH(c.sets); i++)
        c.sets[i] = marked_set(0x0102 + 0x1111 * i, 0x21 + i, i);
    for (unsigned i = 0; i < LENGTH(c.given.modes); i++) {
        c.given.modes[i].id.value = (uint16_t)(0xF00D - 0x0E0F * i);
        c.given.modes[i].start = 1 + 61 * i;
        c.given.modes[i].len = 48 + i;
    }
    c.given.key_length = key_length;
    c.set_count = PLAID_CARD_KEY_SETS;
    c.given.mode_count = PLAID_CARD_MODES;
    c.area_len = PLAID_CARD_AREA;
    mark(c.area, sizeof c.area, 20);
    mark(c.given.div_data, sizeof c.given.div_data, 21);
    c.given.shill_key = marked_value(22);
    c.given.shill_handle = 0x77;
    return c;
}

static plaid_loaded load(const load_case *c)
{
    return plaid_load(c->sets, c->set_count, c->given, c->area, c->area_len);
}

static unsigned load_number(const load_case *c)
{
    return load(c).number;
}

static bool set_slot_is(const plaid_key_set_slot *slot, const plaid_key_set *set)
{
    return slot->held && slot->id.value == set->id.value && slot->handle == set->handle
        && held_is(slot->fa_key, set->fa_key.bytes);
}

/* An empty slot, and no session: every field is 0. */
static bool no_set(const plaid_key_set_slot *slot)
{
    return !slot->held && slot->id.value == 0 && slot->handle == 0 && all(slot->fa_key, PLAID_VALUE_MOST, 0);
}

static bool no_session(const plaid_session *s)
{
    return !s->opened && s->id.value == 0 && all(s->rnd1, PLAID_VALUE_MOST, 0) && all(s->fa_key, PLAID_VALUE_MOST, 0);
}

/* An open session: of this key set, with the FAKey that it has here and the RND1 of this run. */
static bool session_of(const plaid_session *s, const plaid_key_set *set)
{
    return s->opened && s->id.value == set->id.value && held_is(s->rnd1, rnd1) && held_is(s->fa_key, set->fa_key.bytes);
}

/* So many key sets from the first slot on, and no others. */
static bool table_is(const plaid_card *card, const plaid_key_set *sets, size_t count)
{
    for (size_t i = 0; i < PLAID_CARD_KEY_SETS; i++)
        if (!(i < count ? set_slot_is(&card->sets[i], &sets[i]) : no_set(&card->sets[i])))
            return false;
    return true;
}

static bool mode_slot_is(const plaid_mode_slot *slot, const plaid_mode *mode)
{
    return slot->held && slot->id.value == mode->id.value && slot->start == mode->start && slot->len == mode->len;
}

/* What a load gave stands in the card; the session is looked at elsewhere. */
static void check_card(const plaid_card *card, const load_case *c)
{
    CHECK(table_is(card, c->sets, c->set_count));
    for (size_t i = 0; i < PLAID_CARD_MODES; i++)
        CHECK(i < c->given.mode_count ? mode_slot_is(&card->modes[i], &c->given.modes[i]) : !card->modes[i].held);
    CHECK(memcmp(card->area, c->area, c->area_len) == 0);
    CHECK(all(card->area + c->area_len, PLAID_CARD_AREA - c->area_len, 0));
    CHECK(memcmp(card->div_data, c->given.div_data, PLAID_DIV_DATA) == 0);
    CHECK(held_is(card->shill_key, c->given.shill_key.bytes));
    CHECK(card->key_length == key_length);
    CHECK(card->shill_handle == c->given.shill_handle);
    CHECK(card->reply_size == 5);
}

static void check_loaded(const load_case *c)
{
    static result r;
    fill(&r);
    for (int i = 0; i < 2; i++) {
        plaid_loaded loaded;
        CHECK(load_at(r.bytes[i], c->sets, c->set_count, c->given, c->area, c->area_len) == r.bytes[i]);
        memcpy(&loaded, r.bytes[i], sizeof loaded);
        CHECK(loaded.number == PLAID_DONE);
        check_card(&loaded.card, c);
        CHECK(no_session(&loaded.card.session));
        CHECK(loaded.card.tries.contact == 0 && loaded.card.tries.contactless == 0);
    }
    CHECK_SIZE(&r, plaid_loaded, card.tries);
}

static void load_fields(void)
{
    load_case c = full_load();
    check_loaded(&c);
    c.set_count = 3;
    c.given.mode_count = 7;
    c.area_len = 700;
    check_loaded(&c);
}

/* Everything wrong at once, and then put right in the order of the numbers. */
static void load_order(void)
{
    load_case c = full_load(), right = full_load();
    c.given.key_length = 20;
    c.set_count = PLAID_CARD_KEY_SETS + 1;
    c.sets[6].fa_key.length--;
    c.given.shill_key.length++;
    c.sets[1].id = c.sets[0].id;
    c.sets[7].handle = c.given.shill_handle;
    c.given.mode_count = PLAID_CARD_MODES + 1;
    c.given.modes[15].id = c.given.modes[3].id;
    c.area_len = PLAID_CARD_AREA + 1;
    c.given.modes[4].len = 0;
    CHECK(load_number(&c) == PLAID_DECLINE_KEY_LENGTH);
    c.given.key_length = key_length;
    CHECK(load_number(&c) == PLAID_DECLINE_KEY_SET_COUNT);
    c.set_count = PLAID_CARD_KEY_SETS;
    CHECK(load_number(&c) == PLAID_DECLINE_VALUE_LENGTH);
    c.sets[6].fa_key = right.sets[6].fa_key;
    CHECK(load_number(&c) == PLAID_DECLINE_VALUE_LENGTH);
    c.given.shill_key = right.given.shill_key;
    CHECK(load_number(&c) == PLAID_DECLINE_KEY_SET_REPEATED);
    c.sets[1].id = right.sets[1].id;
    CHECK(load_number(&c) == PLAID_DECLINE_SHILL_HANDLE);
    c.sets[7].handle = right.sets[7].handle;
    CHECK(load_number(&c) == PLAID_DECLINE_MODE_COUNT);
    c.given.mode_count = PLAID_CARD_MODES;
    CHECK(load_number(&c) == PLAID_DECLINE_MODE_REPEATED);
    c.given.modes[15].id = right.given.modes[15].id;
    CHECK(load_number(&c) == PLAID_DECLINE_RECORD);
    c.area_len = PLAID_CARD_AREA;
    CHECK(load_number(&c) == PLAID_DECLINE_RECORD);
    c.given.modes[4].len = right.given.modes[4].len;
    CHECK(load_number(&c) == PLAID_DONE);
}

/* No card results: nothing of what was given stands in it. */
static bool no_card(const plaid_card *card)
{
    for (size_t i = 0; i < PLAID_CARD_MODES; i++)
        if (card->modes[i].held || card->modes[i].id.value != 0 || card->modes[i].start != 0 || card->modes[i].len != 0)
            return false;
    return table_is(card, NULL, 0) && all(card->area, PLAID_CARD_AREA, 0) && all(card->div_data, PLAID_DIV_DATA, 0)
        && all(card->shill_key, PLAID_VALUE_MOST, 0) && card->shill_handle == 0 && card->key_length == 0 && card->reply_size == 0
        && no_session(&card->session) && card->tries.contact == 0 && card->tries.contactless == 0;
}

static void check_no_card(const load_case *c, unsigned number)
{
    plaid_loaded loaded = load(c);
    CHECK(loaded.number == number && no_card(&loaded.card));
}

/* Numbers that may be given as L, and whether each is one. */
static size_t some_length(size_t i)
{
    static const size_t large[] = {128, 255, 256 + 16, UINT32_MAX, ((size_t)1 << 32) + 24, SIZE_MAX - 15, SIZE_MAX};
    return i <= 64 ? i : large[i - 65];
}
#define SOME_LENGTHS (65 + 7)

static bool lawful(size_t l)
{
    return l == 16 || l == 24 || l == 32;
}

/* L, then each key that is not of L bytes. A set past the count is not looked at. */
static void load_lengths(void)
{
    for (size_t i = 0; i < SOME_LENGTHS; i++) {
        load_case c = full_load();
        size_t l = c.given.key_length = some_length(i);
        CHECK(PLAID_IS_KEY_LENGTH(l) == lawful(l));
        CHECK(load_number(&c) == (l == key_length ? PLAID_DONE : lawful(l) ? PLAID_DECLINE_VALUE_LENGTH : PLAID_DECLINE_KEY_LENGTH));
        if (!lawful(l))
            check_no_card(&c, PLAID_DECLINE_KEY_LENGTH);
    }
    for (size_t i = 0; i < LENGTH(wrong_lengths); i++) {
        size_t said = wrong_lengths[i];
        load_case c = full_load();
        c.given.shill_key.length = (uint8_t)said;
        CHECK(load_number(&c) == (said == key_length ? PLAID_DONE : PLAID_DECLINE_VALUE_LENGTH));
        for (size_t set = 0; set <= PLAID_CARD_KEY_SETS; set++) {
            c = full_load();
            c.sets[set].fa_key.length = (uint8_t)said;
            bool looked_at = set < PLAID_CARD_KEY_SETS;
            CHECK(load_number(&c) == (said == key_length || !looked_at ? PLAID_DONE : PLAID_DECLINE_VALUE_LENGTH));
            if (said != key_length && looked_at)
                check_no_card(&c, PLAID_DECLINE_VALUE_LENGTH);
        }
    }
}

static void load_counts(void)
{
    load_case c = full_load();
    c.set_count = 0;
    check_no_card(&c, PLAID_DECLINE_KEY_SET_COUNT);
    c.set_count = 1;
    CHECK(load_number(&c) == PLAID_DONE);
    c.given.mode_count = 0;
    CHECK(load_number(&c) == PLAID_DECLINE_MODE_COUNT);
    c.given.mode_count = 1;
    CHECK(load_number(&c) == PLAID_DONE);
    c.given.modes[1].id = c.given.modes[0].id;
    c.sets[1].id = c.sets[0].id;
    CHECK(load_number(&c) == PLAID_DONE);
}

/* Two modes, with records of these lengths one behind the other. */
static load_case two_records(size_t first, size_t second)
{
    load_case c = full_load();
    c.given.mode_count = 2;
    c.given.modes[0].len = first;
    c.given.modes[1].start = c.given.modes[0].start + first;
    c.given.modes[1].len = second;
    return c;
}

/* The reply size of such a card, whose slots and area are as given; 0 where it was declined. */
static size_t reply_of_two(size_t first, size_t second)
{
    load_case c = two_records(first, second);
    plaid_loaded loaded = load(&c);
    CHECK(mode_slot_is(&loaded.card.modes[0], &c.given.modes[0]) && mode_slot_is(&loaded.card.modes[1], &c.given.modes[1]));
    CHECK(memcmp(loaded.card.area, c.area, c.area_len) == 0);
    return loaded.number == PLAID_DONE ? loaded.card.reply_size : 0;
}

/* Records that need unequal reply sizes: the largest counts, at whichever place it stands. */
static void load_unequal(void)
{
    CHECK(reply_of_two(4, 16) == 3 && reply_of_two(16, 4) == 3);
    CHECK(reply_of_two(15, 64) == PLAID_CARD_REPLY_MOST && reply_of_two(64, 15) == PLAID_CARD_REPLY_MOST);
    CHECK(reply_of_two(4, 15) == PLAID_CARD_REPLY_LEAST && reply_of_two(31, 32) == 4);
    for (size_t i = 0; i < PLAID_CARD_MODES; i++) {
        load_case c = full_load();
        for (size_t j = 0; j < PLAID_CARD_MODES; j++)
            c.given.modes[j].len = j == i ? PLAID_CARD_RECORD : 1 + j;
        CHECK(load_number(&c) == PLAID_DONE && load(&c).card.reply_size == PLAID_CARD_REPLY_MOST);
    }
}

/* One mode whose record is a part of an area. */
static plaid_loaded load_record(size_t start, size_t len, size_t area_len)
{
    load_case c = full_load();
    c.given.mode_count = 1;
    c.given.modes[0].start = start;
    c.given.modes[0].len = len;
    c.area_len = area_len;
    return load(&c);
}

static void load_records(void)
{
    CHECK(load_record(0, 0, 100).number == PLAID_DECLINE_RECORD);
    CHECK(load_record(0, 1, 100).card.reply_size == PLAID_CARD_REPLY_LEAST);
    CHECK(load_record(0, 15, 100).card.reply_size == 2 && load_record(0, 16, 100).card.reply_size == 3);
    CHECK(load_record(0, PLAID_CARD_RECORD, 100).card.reply_size == PLAID_CARD_REPLY_MOST);
    CHECK(load_record(0, PLAID_CARD_RECORD + 1, 100).number == PLAID_DECLINE_RECORD);
    CHECK(load_record(60, 40, 100).number == PLAID_DONE);
    CHECK(load_record(61, 40, 100).number == PLAID_DECLINE_RECORD);
    CHECK(load_record(SIZE_MAX, 40, 100).number == PLAID_DECLINE_RECORD);
    CHECK(load_record(0, 40, PLAID_CARD_AREA).number == PLAID_DONE);
    CHECK(load_record(0, 40, PLAID_CARD_AREA + 1).number == PLAID_DECLINE_RECORD);
}

/*
 * Commands
 */

typedef struct {
    size_t interface;
    uint8_t command[PLAID_COMMAND_MOST + 1];
    size_t command_len;
    uint8_t fresh[PLAID_FRESH + 1];
    size_t fresh_len;
    uint8_t out[PLAID_OUTPUT + 64];
    size_t out_len;
} call_case;

/* A call over the contacts whose RND1 is known, over an output buffer that shows what is written. */
static call_case call_of(const uint8_t *command, size_t command_len)
{
    call_case c;
    memset(&c, 0, sizeof c);
    c.interface = PLAID_INTERFACE_CONTACT;
    memcpy(c.command, command, command_len);
    c.command_len = command_len;
    mark(c.fresh, sizeof c.fresh, 30);
    memcpy(c.fresh, rnd1, key_length);
    c.fresh_len = PLAID_FRESH;
    memset(c.out, CANARY, sizeof c.out);
    c.out_len = PLAID_OUTPUT;
    return c;
}

/* An initial command for one key set. */
static call_case initial_call(plaid_key_set_id id)
{
    uint8_t command[] = {0x00, PLAID_INS_INITIAL, 0x00, 0x00, 0x06, 0x30, 0x04, 0x04, 0x02, 0, 0, 0x00};
    command[9] = (uint8_t)(id.value >> 8);
    command[10] = (uint8_t)id.value;
    return call_of(command, sizeof command);
}

static plaid_outcome call(plaid_card card, call_case *c)
{
    return plaid_command(card, c->interface, c->command, c->command_len, c->fresh, c->fresh_len, c->out, c->out_len);
}

/* The same with the result pointer by hand; both results into o. */
static void raw_call(plaid_card card, call_case *c, plaid_outcome o[2])
{
    static result r;
    fill(&r);
    for (int i = 0; i < 2; i++) {
        CHECK(command_at(r.bytes[i], card, c->interface, c->command, c->command_len, c->fresh, c->fresh_len, c->out, c->out_len)
            == r.bytes[i]);
        memcpy(&o[i], r.bytes[i], sizeof o[i]);
    }
    CHECK_SIZE(&r, plaid_outcome, card.tries);
}

/* Document 01's work sum of one place against eight filled slots. */
static uint32_t sum_of_place(const load_case *c, uint16_t id)
{
    uint32_t sum = 0;
    for (size_t i = 0; i < PLAID_CARD_KEY_SETS; i++) {
        uint16_t slot = c->sets[i].id.value;
        uint8_t step[] = {1, (uint8_t)(id >> 8), (uint8_t)id, (uint8_t)(slot >> 8), (uint8_t)slot, id == slot};
        for (size_t j = 0; j < sizeof step; j++)
            sum = 257 * sum + step[j] + 1;
    }
    return sum;
}

/* Counts of steps in the order of the struct. */
static bool counts_are(const plaid_answer *a, size_t compare, size_t decipher, size_t encipher, size_t expand, size_t hash)
{
    return a->comparisons == compare && a->decipherments == decipher && a->encipherments == encipher && a->expansions == expand
        && a->hash_blocks == hash;
}

static void check_block(const uint8_t *block, const load_case *c, const uint8_t *fresh, uint16_t id)
{
    const uint8_t *text = block + 3 + PLAID_FRESH_PADS(key_length);
    CHECK(block[0] == 0 && block[1] == 2 && text[-1] == 0);
    CHECK(memcmp(block + 2, fresh + PLAID_FRESH_ANY(key_length), PLAID_FRESH_PADS(key_length)) == 0);
    CHECK(text[0] == id >> 8 && text[1] == (id & 0xFF));
    CHECK(memcmp(text + 2, c->given.div_data, PLAID_DIV_DATA) == 0);
    CHECK(memcmp(text + 2 + PLAID_DIV_DATA, rnd1, key_length) == 0);
    CHECK(memcmp(text + 2 + PLAID_DIV_DATA + key_length, rnd1, key_length) == 0);
    CHECK(text + 2 + PLAID_DIV_DATA + 2 * key_length == block + PLAID_BLOCK);
}

static void initial_accepted(void)
{
    load_case l = full_load();
    plaid_key_set_id id = l.sets[5].id;
    call_case c = initial_call(id);
    plaid_outcome o[2];
    c.out_len = sizeof c.out;
    raw_call(load(&l).card, &c, o);
    for (int i = 0; i < 2; i++) {
        CHECK(o[i].answer.number == PLAID_DONE && o[i].answer.status == PLAID_ANSWER_OK);
        CHECK(counts_are(&o[i].answer, 8, 0, 0, 0, 0));
        CHECK(o[i].answer.length == PLAID_ANSWER_INITIAL);
        CHECK(o[i].answer.handle == l.sets[5].handle);
        CHECK(o[i].sum == sum_of_place(&l, id.value));
        check_card(&o[i].card, &l);
        CHECK(session_of(&o[i].card.session, &l.sets[5]));
    }
    check_block(c.out, &l, c.fresh, id.value);
    CHECK(all(c.out + PLAID_ANSWER_INITIAL, sizeof c.out - PLAID_ANSWER_INITIAL, CANARY));
}

static void initial_refused(void)
{
    load_case l = full_load();
    plaid_key_set_id unknown = {0x7E57};
    call_case c = initial_call(unknown);
    plaid_outcome o = call(load(&l).card, &c);
    CHECK(o.answer.number == PLAID_DONE && o.answer.status == PLAID_ANSWER_OK && o.answer.length == PLAID_ANSWER_INITIAL);
    CHECK(o.answer.handle == l.given.shill_handle && no_session(&o.card.session));
    CHECK(memcmp(c.out + 3 + PLAID_FRESH_PADS(key_length), c.fresh, PLAID_FRESH_ANY(key_length)) == 0);
}

/* An initial command with these data: taken for the sixth set, or refused like a list that has no set in common. A session was open. */
static void check_form(const char *name, const uint8_t *data, size_t count, bool taken)
{
    load_case l = full_load();
    call_case before = initial_call(l.sets[2].id);
    plaid_card card = call(load(&l).card, &before).card;
    uint8_t command[PLAID_COMMAND_MOST] = {0x00, PLAID_INS_INITIAL, 0x00, 0x00, (uint8_t)count};
    memcpy(command + 5, data, count);
    call_case c = call_of(command, count + 6);
    plaid_outcome o = call(card, &c);
    const plaid_answer *a = &o.answer;
    check(a->number == PLAID_DONE && a->status == PLAID_ANSWER_OK && a->length == PLAID_ANSWER_INITIAL, name, __LINE__);
    check(counts_are(a, 8 * (count / 4), 0, 0, 0, 0), name, __LINE__);
    check(a->handle == (taken ? l.sets[5].handle : l.given.shill_handle), name, __LINE__);
    check(taken ? session_of(&o.card.session, &l.sets[5]) : no_session(&o.card.session), name, __LINE__);
    if (taken)
        check_block(c.out, &l, c.fresh, l.sets[5].id.value);
    else
        check(memcmp(c.out + 3 + PLAID_FRESH_PADS(key_length), c.fresh, PLAID_FRESH_ANY(key_length)) == 0, name, __LINE__);
}

/* Data in hexadecimal. The card's sixth set is 5657, its first 0102; it has no EEEE. */
typedef struct {
    const char *data;
    bool taken;
} form;

static const form forms[] = {
    /* the short form, and 81 and one byte */
    {"30 04 04 02 56 57", true},
    {"30 81 04 04 02 56 57", true},
    {"30 05 04 81 02 56 57", true},
    /* longer ones, leading zeros */
    {"30 82 00 08 04 02 EE EE 04 02 56 57", true},
    {"30 84 00 00 00 04 04 02 56 57", true},
    {"30 07 04 83 00 00 02 56 57", true},
    /* the indefinite form; a KeySetID of zeros is no end */
    {"30 80 04 02 56 57 00 00", true},
    {"30 80 04 02 56 57 04 02 01 02 00 00", true},
    {"30 80 04 02 00 00 04 82 00 02 56 57 00 00", true},
    /* no entry, which is not malformed */
    {"30 00", false},
    {"30 80 00 00", false},
    /* another tag; a constructed entry is none */
    {"31 04 04 02 56 57", false},
    {"30 80 05 02 56 57 00 00", false},
    {"30 04 24 02 56 57", false},
    {"30 06 24 04 04 02 56 57", false},
    {"30 80 24 80 04 02 56 57 00 00 00 00", false},
    /* a list's length that is not what follows */
    {"30 82 00 03 04 02 56 57", false},
    {"30 82 00 05 04 02 56 57", false},
    /* an entry's that is not 2 */
    {"30 06 04 82 00 01 56 57", false},
    {"30 06 04 82 00 03 56 57", false},
    {"30 07 04 82 00 03 56 57 00", false},
    /* 80 at an entry */
    {"30 04 04 80 56 57", false},
    {"30 80 04 80 56 57 00 00", false},
    {"30 80 04 80 56 57 00 00 00 00", false},
    /* too few bytes */
    {"30", false},
    {"30 80", false},
    {"30 82", false},
    {"30 FE 00", false},
    {"30 05 04 82 00 02 56", false},
    {"30 80 04 02 56", false},
    {"30 80 04 FE 00 02", false},
    /* no 00 00 */
    {"30 80 04 02 56 57", false},
    {"30 80 04 02 56 57 00", false},
    {"30 80 04 02 56 57 00 01", false},
    {"30 80 04 02 56 57 01 00", false},
    {"30 80 04 02 56 57 04 02 00 00", false},
    /* bytes behind it */
    {"30 80 04 02 56 57 00 00 00", false},
    {"30 80 04 02 56 57 00 00 00 00", false},
    {"30 80 00 00 04 02 56 57", false},
    {"30 80 00 00 04 02 56 57 00 00", false},
    /* 00 00 behind a definite length */
    {"30 04 04 02 56 57 00 00", false},
    {"30 06 04 02 56 57 00 00", false},
    {"30 82 00 06 04 02 56 57 00 00", false},
};

static void list_forms(void)
{
    for (size_t i = 0; i < LENGTH(forms); i++) {
        uint8_t data[PLAID_COMMAND_MOST];
        unsigned byte;
        int digits = 0;
        size_t count = 0;
        for (const char *at = forms[i].data; sscanf(at, "%2x%n", &byte, &digits) == 1; at += digits)
            data[count++] = (uint8_t)byte;
        check_form(forms[i].data, data, count, forms[i].taken);
    }
}

/* A length in so many bytes, high byte first; `top` is the first of them, where there is more than one. Returns where it ends. */
static uint8_t *write_length(uint8_t *to, size_t bytes, uint8_t top, uint8_t low)
{
    memset(to, 0, bytes + 1);
    to[1] = top;
    to[0] = (uint8_t)(0x80 + bytes);
    to[bytes] = low;
    return to + bytes + 1;
}

/* One entry for the sixth set, with the list's length in so many bytes, then with the entry's. */
static void check_length(size_t bytes, uint8_t top, bool taken)
{
    uint8_t data[PLAID_COMMAND_MOST] = {0x30}, *at = write_length(data + 1, bytes, top, 4);
    char name[64];
    memcpy(at, (uint8_t[]){0x04, 0x02, 0x56, 0x57}, 4);
    snprintf(name, sizeof name, "a list's length in %zu bytes, the first %02X", bytes, top);
    check_form(name, data, (size_t)(at + 4 - data), taken);
    memcpy(data, (uint8_t[]){0x30, 0x81, (uint8_t)(bytes + 4), 0x04}, 4);
    at = write_length(data + 4, bytes, top, 2);
    memcpy(at, (uint8_t[]){0x56, 0x57}, 2);
    snprintf(name, sizeof name, "an entry's length in %zu bytes, the first %02X", bytes, top);
    check_form(name, data, (size_t)(at + 2 - data), taken);
}

/* 1 to 126 bytes are taken, 127 are not: that is FF. A value that is right but for one bit above, be it 2^8 or 2^1000, fits nothing. */
static void list_lengths(void)
{
    for (size_t bytes = 1; bytes <= 127; bytes++) {
        check_length(bytes, 0, bytes < 127);
        if (bytes > 1)
            check_length(bytes, 1, false);
    }
}

static bool same_session(const plaid_session *a, const plaid_session *b)
{
    return a->opened == b->opened && a->id.value == b->id.value && memcmp(a->rnd1, b->rnd1, PLAID_VALUE_MOST) == 0
        && memcmp(a->fa_key, b->fa_key, PLAID_VALUE_MOST) == 0;
}

static bool same_tries(plaid_tries a, plaid_tries b)
{
    return a.contact == b.contact && a.contactless == b.contactless;
}

static bool same_sets(const plaid_card *a, const plaid_card *b)
{
    bool same = true;
    for (size_t i = 0; i < PLAID_CARD_KEY_SETS; i++)
        same = same && a->sets[i].held == b->sets[i].held && a->sets[i].id.value == b->sets[i].id.value
            && a->sets[i].handle == b->sets[i].handle && memcmp(a->sets[i].fa_key, b->sets[i].fa_key, PLAID_VALUE_MOST) == 0;
    return same;
}

/* Two cards equal field by field, their key sets and failed tries apart. */
static bool same_beside(const plaid_card *a, const plaid_card *b)
{
    bool same = same_session(&a->session, &b->session);
    for (size_t i = 0; i < PLAID_CARD_MODES; i++)
        same = same && a->modes[i].held == b->modes[i].held && a->modes[i].id.value == b->modes[i].id.value
            && a->modes[i].start == b->modes[i].start && a->modes[i].len == b->modes[i].len;
    return same && memcmp(a->area, b->area, PLAID_CARD_AREA) == 0 && memcmp(a->div_data, b->div_data, PLAID_DIV_DATA) == 0
        && memcmp(a->shill_key, b->shill_key, PLAID_VALUE_MOST) == 0 && a->shill_handle == b->shill_handle
        && a->key_length == b->key_length && a->reply_size == b->reply_size;
}

static bool same_but_tries(const plaid_card *a, const plaid_card *b)
{
    return same_beside(a, b) && same_sets(a, b);
}

static bool same_but_sets(const plaid_card *a, const plaid_card *b)
{
    return same_beside(a, b) && same_tries(a->tries, b->tries);
}

/* A declined call: number or status, zeros, the card kept with its session and failed tries, nothing written. */
static void check_declined(plaid_card card, call_case *c, unsigned number, unsigned status, int line)
{
    memset(c->out, CANARY, sizeof c->out);
    plaid_outcome o = call(card, c);
    bool zeros = counts_are(&o.answer, 0, 0, 0, 0, 0) && o.answer.length == 0 && o.answer.handle == 0 && o.sum == 0;
    check(o.answer.number == number && o.answer.status == status, "number and status of a declined command", line);
    check(zeros, "zeros of a declined command", line);
    check(card.session.opened && same_but_tries(&o.card, &card), "card and session after a declined command", line);
    check(same_tries(o.card.tries, card.tries), "failed tries after a declined command", line);
    check(all(c->out, sizeof c->out, CANARY), "output of a declined command", line);
}
#define CHECK_DECLINED(number, status) check_declined(card, &c, number, status, __LINE__)

/* Everything wrong at once, and then put right in the order written. */
static void command_order(plaid_card card, call_case c)
{
    call_case right = c;
    c.interface = PLAID_INTERFACE_CONTACTLESS + 1;
    c.fresh_len = PLAID_FRESH + 1;
    c.fresh[PLAID_FRESH_ANY(key_length)] = 0;
    c.out_len = PLAID_OUTPUT - 1;
    memset(c.command, 0xFF, sizeof c.command);
    c.command_len = 3;
    CHECK_DECLINED(PLAID_DECLINE_INTERFACE, 0);
    c.interface = PLAID_INTERFACE_CONTACTLESS;
    CHECK_DECLINED(PLAID_DECLINE_FRESH_COUNT, 0);
    c.fresh_len = PLAID_FRESH - 1;
    CHECK_DECLINED(PLAID_DECLINE_FRESH_COUNT, 0);
    c.fresh_len = PLAID_FRESH;
    CHECK_DECLINED(PLAID_DECLINE_PAD_BYTE, 0);
    c.fresh[PLAID_FRESH_ANY(key_length)] = 1;
    CHECK_DECLINED(PLAID_DECLINE_OUTPUT, 0);
    c.out_len = PLAID_OUTPUT;
    CHECK_DECLINED(PLAID_DONE, PLAID_ANSWER_WRONG_LENGTH);
    c.command_len = 4;
    CHECK_DECLINED(PLAID_DONE, PLAID_ANSWER_WRONG_CLASS);
    c.command[0] = 0x00;
    CHECK_DECLINED(PLAID_DONE, PLAID_ANSWER_WRONG_INSTRUCTION);
    c.command[1] = right.command[1];
    CHECK_DECLINED(PLAID_DONE, PLAID_ANSWER_WRONG_PARAMETERS);
    c.command[2] = 0x00;
    CHECK_DECLINED(PLAID_DONE, PLAID_ANSWER_WRONG_PARAMETERS);
    c.command[3] = 0x00;
    CHECK_DECLINED(PLAID_DONE, PLAID_ANSWER_WRONG_LENGTH);
    memcpy(c.command, right.command, sizeof c.command);
    c.command_len = right.command_len + 1;
    CHECK_DECLINED(PLAID_DONE, PLAID_ANSWER_WRONG_LENGTH);
    c.command_len = right.command_len;
    CHECK(call(card, &c).answer.status == PLAID_ANSWER_OK);
}

/* Numbers that are no interface: all up to 300, and such as are 0 or 1 in their low bytes, or with another sign. */
static size_t no_interface(size_t i)
{
    static const size_t large[] = {65535, 65536, 65537, INT32_MAX, (size_t)INT32_MAX + 1, (size_t)INT32_MAX + 2, UINT32_MAX,
        (size_t)UINT32_MAX + 1, (size_t)UINT32_MAX + 2, (size_t)INT64_MAX, (size_t)INT64_MAX + 1, (size_t)INT64_MAX + 2, SIZE_MAX - 1, SIZE_MAX};
    return i < 299 ? i + 2 : large[i - 299];
}
#define NO_INTERFACES (299 + 14)

/* Each is declined, with all else right; and before each other fault alone, for both kinds of command. */
static void command_interfaces(plaid_card card, call_case right)
{
    for (size_t i = 0; i < NO_INTERFACES; i++) {
        call_case c = right;
        c.interface = no_interface(i);
        CHECK_DECLINED(PLAID_DECLINE_INTERFACE, 0);
        c.command[1] = PLAID_INS_FINAL;
        CHECK_DECLINED(PLAID_DECLINE_INTERFACE, 0);
        c.command_len = i % (PLAID_COMMAND_MOST + 2);
        CHECK_DECLINED(PLAID_DECLINE_INTERFACE, 0);
        c = right;
        c.interface = no_interface(i);
        c.fresh_len = 0;
        CHECK_DECLINED(PLAID_DECLINE_INTERFACE, 0);
        c.fresh_len = PLAID_FRESH;
        c.fresh[PLAID_FRESH - 1] = 0;
        CHECK_DECLINED(PLAID_DECLINE_INTERFACE, 0);
        c.fresh[PLAID_FRESH - 1] = 1;
        c.out_len = 0;
        CHECK_DECLINED(PLAID_DECLINE_INTERFACE, 0);
    }
    right.interface = PLAID_INTERFACE_CONTACTLESS;
    CHECK(call(card, &right).answer.status == PLAID_ANSWER_OK);
    right.interface = PLAID_INTERFACE_CONTACT;
    CHECK(call(card, &right).answer.status == PLAID_ANSWER_OK);
}

static void command_fresh(plaid_card card, call_case c)
{
    CHECK(PLAID_FRESH_ANY(key_length) + PLAID_FRESH_PADS(key_length) == PLAID_FRESH);
    memset(c.fresh, 0, PLAID_FRESH_ANY(key_length));
    CHECK(call(card, &c).answer.number == PLAID_DONE);
    c.fresh[PLAID_FRESH - 1] = 0;
    CHECK_DECLINED(PLAID_DECLINE_PAD_BYTE, 0);
}

/* The shortest and the longest command, for both kinds. */
static void command_lengths(plaid_card card)
{
    static const uint8_t ins[] = {PLAID_INS_INITIAL, PLAID_INS_FINAL};
    for (size_t i = 0; i < LENGTH(ins); i++) {
        uint8_t command[PLAID_COMMAND_MOST] = {0x00, ins[i], 0x00, 0x00, 0x01};
        call_case c = call_of(command, PLAID_COMMAND_LEAST);
        CHECK(call(card, &c).answer.status == PLAID_ANSWER_OK);
        c.command_len = PLAID_COMMAND_LEAST - 1;
        c.command[4] = 0;
        CHECK_DECLINED(PLAID_DONE, PLAID_ANSWER_WRONG_LENGTH);
        c.command_len = PLAID_COMMAND_MOST;
        c.command[4] = 0xFF;
        CHECK(call(card, &c).answer.status == PLAID_ANSWER_OK);
        c.command_len = PLAID_COMMAND_MOST + 1;
        CHECK_DECLINED(PLAID_DONE, PLAID_ANSWER_WRONG_LENGTH);
    }
}

static void commands_declined(void)
{
    load_case l = full_load();
    call_case c = initial_call(l.sets[2].id);
    plaid_card card = call(load(&l).card, &c).card;
    card.tries.contact = 0x1234;
    card.tries.contactless = 0xFFFE;
    command_order(card, c);
    command_interfaces(card, c);
    command_fresh(card, c);
    command_lengths(card);
}

/*
 * The reader
 */

static plaid_ids ids_of(size_t count)
{
    plaid_ids of;
    for (size_t i = 0; i < LENGTH(of.ids); i++)
        of.ids[i].value = (uint16_t)(0xA1B2 + 0x0703 * i);
    of.count = count;
    return of;
}

/* List over a buffer of this size, with the result's two registers as bytes of the struct. */
static plaid_written list(plaid_ids of, uint8_t *out, size_t out_len)
{
    plaid_written w;
    registers r = list_words(of, out, out_len);
    CHECK(sizeof w == sizeof r);
    memcpy(&w, &r, sizeof w);
    return w;
}

static void check_list(size_t count, size_t length)
{
    uint8_t out[PLAID_LIST_COMMAND_MOST + 8];
    plaid_ids of = ids_of(count);
    memset(out, CANARY, sizeof out);
    plaid_written w = list(of, out, length);
    CHECK(w.number == PLAID_DONE && w.length == length);
    CHECK(out[0] == 0 && out[1] == PLAID_INS_INITIAL && out[2] == 0 && out[3] == 0 && out[4] == 4 * count + 2);
    CHECK(out[5] == 0x30 && out[6] == 4 * count && out[length - 1] == 0);
    for (size_t i = 0; i < count; i++) {
        const uint8_t *entry = out + 7 + 4 * i;
        CHECK(entry[0] == 4 && entry[1] == 2 && entry[2] == of.ids[i].value >> 8 && entry[3] == (of.ids[i].value & 0xFF));
    }
    CHECK(all(out + length, sizeof out - length, CANARY));
}

static void list_fields(void)
{
    uint8_t out[PLAID_LIST_COMMAND_MOST];
    check_list(1, PLAID_LIST_COMMAND_LEAST);
    check_list(PLAID_LIST_IDS, PLAID_LIST_COMMAND_MOST);
    plaid_ids of = ids_of(PLAID_LIST_IDS);
    of.ids[15] = of.ids[0];
    memset(out, CANARY, sizeof out);
    CHECK(list(ids_of(0), out, sizeof out).number == PLAID_DECLINE_LIST_COUNT);
    of.count = PLAID_LIST_IDS + 1;
    CHECK(list(of, out, 0).number == PLAID_DECLINE_LIST_COUNT);
    of.count = PLAID_LIST_IDS;
    CHECK(list(of, out, 0).number == PLAID_DECLINE_LIST_REPEATED);
    of.count = PLAID_LIST_IDS - 1;
    CHECK(list(of, out, sizeof out).length == PLAID_LIST_COMMAND_MOST - 4);
    of = ids_of(PLAID_LIST_IDS);
    memset(out, CANARY, sizeof out);
    CHECK(list(of, out, PLAID_LIST_COMMAND_MOST - 1).number == PLAID_DECLINE_LIST_OUTPUT);
    CHECK(list(of, out, PLAID_LIST_COMMAND_MOST - 1).length == 0);
    CHECK(all(out, sizeof out, CANARY));
}

/* A block that opens for a KeySetID. */
static void write_block(uint8_t *block, uint16_t id, const uint8_t *div_data, const uint8_t *rnd)
{
    uint8_t *text = block + 3 + PLAID_FRESH_PADS(key_length);
    memset(block, 0x99, PLAID_BLOCK);
    block[0] = 0;
    block[1] = 2;
    text[-1] = 0;
    text[0] = (uint8_t)(id >> 8);
    text[1] = (uint8_t)id;
    memcpy(text + 2, div_data, PLAID_DIV_DATA);
    memcpy(text + 2 + PLAID_DIV_DATA, rnd, key_length);
    memcpy(text + 2 + PLAID_DIV_DATA + key_length, rnd, key_length);
}

static uint8_t blocks[PLAID_BLOCK * (PLAID_LIST_IDS + 1)];

static unsigned open_number(plaid_ids of, size_t blocks_len)
{
    return plaid_open(key_length, of, blocks, blocks_len).number;
}

/* Two blocks open; the first of them wins. */
static void open_fields(void)
{
    static result r;
    plaid_ids of = ids_of(PLAID_LIST_IDS);
    uint8_t div_data[PLAID_DIV_DATA], other[PLAID_VALUE_MOST];
    mark(div_data, sizeof div_data, 40);
    mark(other, sizeof other, 41);
    memset(blocks, 0, sizeof blocks);
    write_block(blocks + 11 * PLAID_BLOCK, of.ids[11].value, div_data, rnd1);
    write_block(blocks + 13 * PLAID_BLOCK, of.ids[13].value, other, other);
    fill(&r);
    for (int i = 0; i < 2; i++) {
        plaid_opened o;
        CHECK(open_at(r.bytes[i], key_length, of, blocks, PLAID_LIST_IDS * PLAID_BLOCK) == r.bytes[i]);
        memcpy(&o, r.bytes[i], sizeof o);
        CHECK(o.number == PLAID_DONE && o.place == 11 && o.id.value == of.ids[11].value);
        CHECK(memcmp(o.div_data, div_data, PLAID_DIV_DATA) == 0 && value_is(&o.rnd1, rnd1));
    }
    CHECK_SIZE(&r, plaid_opened, rnd1);
}

static void open_declined(void)
{
    plaid_ids of = ids_of(PLAID_LIST_IDS + 1);
    CHECK(open_number(of, sizeof blocks) == PLAID_DECLINE_BLOCKS);
    CHECK(open_number(ids_of(0), 0) == PLAID_DECLINE_BLOCKS);
    of.count = 12;
    CHECK(open_number(of, 12 * PLAID_BLOCK - 1) == PLAID_DECLINE_BLOCKS);
    CHECK(open_number(of, 12 * PLAID_BLOCK + 1) == PLAID_DECLINE_BLOCKS);
    CHECK(open_number(of, 12 * PLAID_BLOCK) == PLAID_DONE);
    of.count = 11;
    CHECK(open_number(of, 11 * PLAID_BLOCK) == PLAID_DECLINE_NONE_OPENS);
    of.count = 12;
    blocks[11 * PLAID_BLOCK + 2 + PLAID_FRESH_PADS(key_length) - 1] = 0;
    CHECK(open_number(of, 12 * PLAID_BLOCK) == PLAID_DECLINE_NONE_OPENS);
}

/* 21 comes first. A reader of another L opens none of this one's blocks. After a decline all is zero. */
static void open_lengths(void)
{
    plaid_ids of = ids_of(12), none = ids_of(0);
    uint8_t div_data[PLAID_DIV_DATA];
    mark(div_data, sizeof div_data, 40);
    memset(blocks, 0, sizeof blocks);
    write_block(blocks + 11 * PLAID_BLOCK, of.ids[11].value, div_data, rnd1);
    for (size_t i = 0; i < SOME_LENGTHS; i++) {
        size_t l = some_length(i);
        plaid_opened o = plaid_open(l, of, blocks, 12 * PLAID_BLOCK);
        CHECK(o.number == (l == key_length ? PLAID_DONE : lawful(l) ? PLAID_DECLINE_NONE_OPENS : PLAID_DECLINE_KEY_LENGTH));
        CHECK(l == key_length || (o.place == 0 && o.id.value == 0 && all(o.div_data, PLAID_DIV_DATA, 0) && value_is_zero(&o.rnd1)));
        CHECK(plaid_open(l, none, blocks, 1).number == (lawful(l) ? PLAID_DECLINE_BLOCKS : PLAID_DECLINE_KEY_LENGTH));
    }
}

/* The set whose session is open is the sixth. */
static plaid_sealing sealing_of(const load_case *l, size_t mode)
{
    plaid_sealing of;
    memset(&of, 0, sizeof of);
    of.key_length = key_length;
    of.fa_key = l->sets[5].fa_key;
    memcpy(of.div_data, l->given.div_data, PLAID_DIV_DATA);
    of.rnd1 = value_of(rnd1);
    of.rnd2 = value_of(rnd2);
    of.mode = l->given.modes[mode].id;
    return of;
}

/* One byte more than the longest of any L. */
static uint8_t payload[PLAID_PAYLOAD(16) + 1];

static void seal_fields(void)
{
    static result r;
    size_t least = PLAID_FINAL_COMMAND_LEAST(key_length);
    load_case l = full_load();
    uint8_t out[PLAID_FINAL_COMMAND_MOST + 8];
    memset(out, CANARY, sizeof out);
    fill(&r);
    for (int i = 0; i < 2; i++) {
        plaid_sealed s;
        CHECK(seal_at(r.bytes[i], sealing_of(&l, 3), payload, 0, out, least) == r.bytes[i]);
        memcpy(&s, r.bytes[i], sizeof s);
        CHECK(s.number == PLAID_DONE && s.length == least);
        CHECK(value_is(&s.keys_hash, keys_hash));
    }
    CHECK_SIZE(&r, plaid_sealed, keys_hash);
    CHECK(out[0] == 0 && out[1] == PLAID_INS_FINAL && out[2] == 0 && out[3] == 0 && out[4] == least - 6);
    CHECK(out[least - 1] == 0);
    CHECK(all(out + least, sizeof out - least, CANARY));
}

static void seal_declined(void)
{
    load_case l = full_load();
    plaid_sealing of = sealing_of(&l, 3);
    size_t least = PLAID_FINAL_COMMAND_LEAST(key_length), most = PLAID_PAYLOAD(key_length);
    uint8_t out[PLAID_FINAL_COMMAND_MOST];
    memset(out, CANARY, sizeof out);
    CHECK(plaid_seal(of, payload, most + 1, out, 0).number == PLAID_DECLINE_PAYLOAD);
    CHECK(plaid_seal(of, payload, most, out, PLAID_FINAL_COMMAND_MOST - 1).number == PLAID_DECLINE_SEAL_OUTPUT);
    CHECK(plaid_seal(of, payload, 0, out, least - 1).number == PLAID_DECLINE_SEAL_OUTPUT);
    plaid_sealed none = plaid_seal(of, payload, 0, out, least - 1);
    CHECK(none.length == 0 && value_is_zero(&none.keys_hash));
    CHECK(all(out, sizeof out, CANARY));
    CHECK(plaid_seal(of, payload, most, out, PLAID_FINAL_COMMAND_MOST).length == PLAID_FINAL_COMMAND_MOST);
}

/* A Seal that has to be declined, with everything else wrong too: nothing written, all zero. */
static void check_seal(plaid_sealing of, unsigned number)
{
    uint8_t out[PLAID_FINAL_COMMAND_MOST];
    memset(out, CANARY, sizeof out);
    plaid_sealed s = plaid_seal(of, payload, sizeof payload, out, 0);
    CHECK(s.number == number && s.length == 0 && value_is_zero(&s.keys_hash));
    s = plaid_seal(of, payload, 0, out, sizeof out);
    CHECK(s.number == (number == PLAID_DECLINE_PAYLOAD ? PLAID_DONE : number));
    CHECK(number == PLAID_DECLINE_PAYLOAD || all(out, sizeof out, CANARY));
}

static void seal_lengths(void)
{
    load_case l = full_load();
    for (size_t i = 0; i < SOME_LENGTHS; i++) {
        plaid_sealing of = sealing_of(&l, 3);
        of.key_length = some_length(i);
        unsigned number = of.key_length == key_length ? PLAID_DECLINE_PAYLOAD : PLAID_DECLINE_VALUE_LENGTH;
        check_seal(of, lawful(of.key_length) ? number : PLAID_DECLINE_KEY_LENGTH);
        of.fa_key.length = 0;
        check_seal(of, lawful(of.key_length) ? PLAID_DECLINE_VALUE_LENGTH : PLAID_DECLINE_KEY_LENGTH);
    }
    for (size_t i = 0; i < LENGTH(wrong_lengths); i++) {
        uint8_t said = (uint8_t)wrong_lengths[i];
        unsigned number = said == key_length ? PLAID_DECLINE_PAYLOAD : PLAID_DECLINE_VALUE_LENGTH;
        plaid_sealing of = sealing_of(&l, 3);
        of.fa_key.length = said;
        check_seal(of, number);
        of = sealing_of(&l, 3);
        of.rnd1.length = said;
        check_seal(of, number);
        of = sealing_of(&l, 3);
        of.rnd2.length = said;
        check_seal(of, number);
    }
}

/* Accept with the result's two registers as bytes of the struct. */
static plaid_accepted accept_of(plaid_accepting of, const uint8_t *response, size_t response_len, uint8_t *work, size_t work_len)
{
    plaid_accepted a;
    registers r = accept_words(of, response, response_len, work, work_len);
    CHECK(sizeof a == sizeof r);
    memcpy(&a, &r, sizeof a);
    return a;
}

static plaid_accepting accepting_of(const uint8_t *div_data, size_t record_length)
{
    plaid_accepting of;
    memset(&of, 0, sizeof of);
    of.key_length = key_length;
    of.keys_hash = value_of(keys_hash);
    memcpy(of.div_data, div_data, PLAID_DIV_DATA);
    of.record_length = record_length;
    return of;
}

static plaid_accepted accept(const uint8_t *div_data, size_t record_length, const uint8_t *response, size_t response_len, uint8_t *work,
    size_t work_len)
{
    return accept_of(accepting_of(div_data, record_length), response, response_len, work, work_len);
}

/* The record's place with the result's two registers as bytes of the struct. */
static plaid_part record_part(const uint8_t *work, size_t work_len, plaid_accepted of)
{
    plaid_part p;
    registers r = record_words(work, work_len, of);
    CHECK(sizeof p == sizeof r);
    memcpy(&p, &r, sizeof p);
    return p;
}

/* A final command's counts, for the longest payload: one encipherment more for L over 16, one hash block more for 32. */
static bool final_counts(const plaid_answer *a, size_t reply_size)
{
    return counts_are(a, 16, 15, reply_size + (key_length > 16 ? 2 : 1), 3, key_length == 32 ? 2 : 1);
}

/* The final answer of the card for a mode under the longest payload, in c's output; distinct counts. */
static plaid_outcome final_answer(const load_case *l, size_t mode, call_case *c)
{
    call_case first = initial_call(l->sets[5].id);
    plaid_card card = call(load(l).card, &first).card;
    uint8_t command[PLAID_FINAL_COMMAND_MOST];
    plaid_sealed s = plaid_seal(sealing_of(l, mode), payload, PLAID_PAYLOAD(key_length), command, sizeof command);
    plaid_outcome o[2];
    *c = call_of(command, s.length);
    c->out_len = sizeof c->out;
    raw_call(card, c, o);
    CHECK(o[0].sum == o[1].sum);
    return o[0];
}

static void session(void)
{
    load_case l = full_load();
    call_case c;
    plaid_outcome o = final_answer(&l, 3, &c);
    uint8_t work[PLAID_ANSWER_FINAL_MOST];
    size_t record = l.given.modes[3].len;
    CHECK(o.answer.number == PLAID_DONE && o.answer.status == PLAID_ANSWER_OK && o.answer.handle == 0);
    CHECK(final_counts(&o.answer, 5) && o.answer.length == 80 && o.sum != 0);
    CHECK(no_session(&o.card.session));
    check_card(&o.card, &l);
    CHECK(all(c.out + 80, sizeof c.out - 80, CANARY));
    memset(work, CANARY, sizeof work);
    plaid_accepted a = accept(l.given.div_data, record, c.out, 80, work, sizeof work);
    CHECK(a.number == PLAID_DONE && a.length == record);
    plaid_part p = record_part(work, sizeof work, a);
    CHECK(p.start == 0 && p.length == record);
    CHECK(memcmp(work + p.start, l.area + l.given.modes[3].start, p.length) == 0);
    CHECK(memcmp(work + record, l.given.div_data, PLAID_DIV_DATA) == 0 && work[record + PLAID_DIV_DATA] == 0x80);
    CHECK(all(work + 80, sizeof work - 80, CANARY));
}

/*
 * Failed tries
 */

/* The counts as plaid_read_tries gives them, by its register; the same as the card's own, and the card is kept. */
static plaid_tries read_tries(plaid_card card)
{
    plaid_card before = card;
    plaid_tries t;
    uint32_t word = tries_word(card);
    CHECK(sizeof t == sizeof word);
    memcpy(&t, &word, sizeof t);
    CHECK(same_tries(t, plaid_read_tries(card)) && same_tries(t, card.tries));
    CHECK(same_but_tries(&card, &before) && same_tries(card.tries, before.tries));
    return t;
}

static bool tries_are(plaid_card card, unsigned contact, unsigned contactless)
{
    plaid_tries t = read_tries(card);
    return t.contact == contact && t.contactless == contactless;
}

/* One more on an interface; at the most a count stays. */
static plaid_tries one_more(plaid_tries t, size_t interface)
{
    uint16_t *at = interface == 0 ? &t.contact : &t.contactless;
    *at += *at < 65535;
    return t;
}

/* A call on a card in session or on one without, and whether it is a final command that is refused: the one kind that is counted. */
typedef struct {
    const char *name;
    call_case call;
    bool in_session, refused;
} try_case;
#define TRIES 26

static call_case final_call(const plaid_sealing *of, size_t payload_len)
{
    uint8_t command[PLAID_FINAL_COMMAND_MOST];
    plaid_sealed s = plaid_seal(*of, payload, payload_len, command, sizeof command);
    CHECK(s.number == PLAID_DONE);
    return call_of(command, s.length);
}

/* A final command with so many data bytes of no meaning. */
static call_case any_final(size_t lc)
{
    uint8_t command[PLAID_COMMAND_MOST] = {0x00, PLAID_INS_FINAL, 0x00, 0x00, (uint8_t)lc};
    mark(command + 5, lc, 50);
    command[5 + lc] = 0;
    return call_of(command, lc + 6);
}

static size_t all_tries(const load_case *l, try_case to[TRIES])
{
    static const plaid_op_mode_id unknown_mode = {0x0BAD};
    static const plaid_key_set_id unknown_set = {0x7E57};
    plaid_sealing right = sealing_of(l, 3), of;
    size_t n = 0;
#define TRY(name, call, in_session, refused) to[n++] = (try_case){name, call, in_session, refused}
    TRY("accepted", final_call(&right, 0), true, false);
    TRY("accepted, payload", final_call(&right, PLAID_PAYLOAD(key_length)), true, false);
    of = sealing_of(l, 15);
    TRY("accepted, last mode", final_call(&of, 7), true, false);
    TRY("no session", final_call(&right, 0), false, true);
    TRY("no session, any bytes", any_final(48), false, true);
    of = right;
    of.mode = unknown_mode;
    TRY("unknown mode", final_call(&of, 0), true, true);
    TRY("unknown mode, payload", final_call(&of, PLAID_PAYLOAD(key_length)), true, true);
    of = right;
    of.fa_key.bytes[key_length - 1] ^= 1;
    TRY("wrong FAKey", final_call(&of, 0), true, true);
    of = right;
    of.rnd1.bytes[0] ^= 1;
    TRY("wrong RND1", final_call(&of, 0), true, true);
    of = right;
    of.div_data[15] ^= 1;
    TRY("wrong DivData", final_call(&of, 0), true, true);
    TRY("damaged padding", final_call(&right, 0), true, true);
    to[n - 1].call.command[to[n - 1].call.command_len - 2] ^= 1;
    TRY("damaged mode", final_call(&right, 100), true, true);
    to[n - 1].call.command[5] ^= 0x80;
    TRY("Lc 1", any_final(1), true, true);
    TRY("Lc 16", any_final(16), true, true);
    TRY("Lc 240", any_final(240), true, true);
    TRY("Lc 255", any_final(255), true, true);
    TRY("initial, accepted", initial_call(l->sets[5].id), true, false);
    TRY("initial, accepted, no session", initial_call(l->sets[0].id), false, false);
    TRY("initial, refused", initial_call(unknown_set), true, false);
    TRY("initial, malformed", initial_call(l->sets[5].id), true, false);
    to[n - 1].call.command[5] = 0x31;
    TRY("declined, 8", final_call(&right, 0), true, false);
    to[n - 1].call.fresh_len = 0;
    TRY("declined, 9", any_final(48), true, false);
    to[n - 1].call.fresh[PLAID_FRESH - 1] = 0;
    TRY("declined, 10", any_final(48), false, false);
    to[n - 1].call.out_len = PLAID_OUTPUT - 1;
    TRY("declined, a class", any_final(48), true, false);
    to[n - 1].call.command[0] = 0x80;
    TRY("declined, Le", any_final(48), true, false);
    to[n - 1].call.command[53] = 1;
    TRY("declined, a length", any_final(48), false, false);
    to[n - 1].call.command_len = 53;
#undef TRY
    CHECK(n == TRIES);
    return n;
}

static bool same_answer(const plaid_answer *a, const plaid_answer *b)
{
    return a->number == b->number && a->status == b->status && a->length == b->length && a->handle == b->handle
        && counts_are(a, b->comparisons, b->decipherments, b->encipherments, b->expansions, b->hash_blocks);
}

/* One call on cards with these counts: counted as it has to be, and else as the card whose counts are 0, every byte. */
static void check_try(plaid_card card, const try_case *of, size_t interface, plaid_tries before)
{
    call_case c = of->call, first = of->call;
    plaid_outcome plain = call(card, &first), o[2];
    plaid_tries after = of->refused ? one_more(before, interface) : before;
    card.tries = before;
    c.interface = interface;
    raw_call(card, &c, o);
    for (int i = 0; i < 2; i++) {
        check(same_tries(read_tries(o[i].card), after), of->name, __LINE__);
        check(same_answer(&o[i].answer, &plain.answer) && o[i].sum == plain.sum, of->name, __LINE__);
        check(same_but_tries(&o[i].card, &plain.card), of->name, __LINE__);
    }
    check(memcmp(c.out, first.out, sizeof c.out) == 0, of->name, __LINE__);
}

/* Each call on each interface, from counts at which a narrower one, or one that does not hold, is seen. */
static void tries_counted(void)
{
    static const plaid_tries before[] = {{0, 0}, {1, 0}, {0, 1}, {255, 254}, {254, 255}, {0x7FFF, 0x7FFF}, {PLAID_TRIES_MOST - 1, 7},
        {7, PLAID_TRIES_MOST - 1}, {PLAID_TRIES_MOST, 0}, {0, PLAID_TRIES_MOST}, {PLAID_TRIES_MOST, PLAID_TRIES_MOST}};
    static try_case of[TRIES];
    load_case l = full_load();
    call_case opening = initial_call(l.sets[5].id);
    plaid_card fresh_card = load(&l).card, in_session = call(fresh_card, &opening).card;
    size_t count = all_tries(&l, of);
    for (size_t i = 0; i < count; i++)
        for (size_t j = 0; j < LENGTH(before); j++)
            for (size_t interface = 0; interface < 2; interface++)
                check_try(of[i].in_session ? in_session : fresh_card, &of[i], interface, before[j]);
}

/* One card through all of them, again and again, on both interfaces and before that on one that is none. */
static void tries_of_a_list(void)
{
    static try_case of[TRIES];
    load_case l = full_load();
    plaid_card card = load(&l).card;
    size_t count = all_tries(&l, of);
    plaid_tries wanted = {0, 0};
    CHECK(tries_are(card, 0, 0));
    for (size_t i = 0; i < 9 * count; i++) {
        const try_case *t = &of[i * 7 % count];
        call_case opening = initial_call(l.sets[5].id), closing = initial_call((plaid_key_set_id){0x7E57}), c = t->call;
        card = call(card, t->in_session ? &opening : &closing).card;
        c.interface = 2 + i;
        card = call(card, &c).card;
        c.interface = (i * i / 3 + i) % 2;
        card = call(card, &c).card;
        wanted = t->refused ? one_more(wanted, c.interface) : wanted;
        CHECK(tries_are(card, wanted.contact, wanted.contactless));
    }
    CHECK(wanted.contact > 20 && wanted.contactless > 20 && wanted.contact != wanted.contactless);
}

/* By the names of the two interfaces, to the end: 65,534, 65,535, and there it stays. */
static void tries_held(void)
{
    load_case l = full_load();
    plaid_card card = load(&l).card;
    call_case c = any_final(48);
    c.interface = PLAID_INTERFACE_CONTACTLESS;
    card = call(card, &c).card;
    CHECK(tries_are(card, 0, 1));
    c.interface = PLAID_INTERFACE_CONTACT;
    card = call(card, &c).card;
    card = call(card, &c).card;
    CHECK(tries_are(card, 2, 1));
    CHECK(PLAID_TRIES_MOST == UINT16_MAX);
    card.tries.contact = UINT16_MAX - 2;
    for (unsigned i = 0; i < 5; i++) {
        card = call(card, &c).card;
        CHECK(tries_are(card, i < 1 ? PLAID_TRIES_MOST - 1 : PLAID_TRIES_MOST, 1));
    }
    c.interface = PLAID_INTERFACE_CONTACTLESS;
    card.tries.contactless = UINT16_MAX - 2;
    for (unsigned i = 0; i < 5; i++) {
        card = call(card, &c).card;
        CHECK(tries_are(card, PLAID_TRIES_MOST, i < 1 ? PLAID_TRIES_MOST - 1 : PLAID_TRIES_MOST));
    }
    /* a reset, as the header has it: the session goes, the counts stay */
    call_case opening = initial_call(l.sets[5].id);
    card = call(card, &opening).card;
    CHECK(card.session.opened && tries_are(card, PLAID_TRIES_MOST, PLAID_TRIES_MOST));
    memset(&card.session, 0, sizeof card.session);
    plaid_sealing of = sealing_of(&l, 3);
    call_case final = final_call(&of, 0);
    plaid_card fresh_card = load(&l).card;
    CHECK(same_but_tries(&card, &fresh_card));
    card.tries.contact = 0;
    CHECK(tries_are(call(card, &final).card, 1, PLAID_TRIES_MOST));
}

/* Reading alone: whatever the counts, of a card in session or not, and of what a declined load hands back. */
static void tries_read(void)
{
    load_case l = full_load();
    call_case opening = initial_call(l.sets[5].id);
    plaid_card cards[] = {load(&l).card, call(load(&l).card, &opening).card};
    for (size_t i = 0; i < LENGTH(cards); i++)
        for (unsigned bit = 0; bit < 16; bit++) {
            cards[i].tries = (plaid_tries){(uint16_t)(1u << bit), (uint16_t)~(3u << bit)};
            CHECK(tries_are(cards[i], cards[i].tries.contact, cards[i].tries.contactless));
        }
    l.set_count = 0;
    CHECK(tries_are(load(&l).card, 0, 0));
}

/*
 * Key change
 */

/* A list of key sets for a load onto a card. It may be longer than any that is taken, and than one byte counts. */
#define SETS_MOST 260
typedef struct {
    plaid_key_set sets[SETS_MOST];
    size_t count;
} sets_case;

/* Sets of their own: no KeySetID, handle or FAKey of full_load's. */
static sets_case new_sets(size_t count)
{
    sets_case s;
    memset(&s, 0, sizeof s);
    for (unsigned i = 0; i < SETS_MOST; i++)
        s.sets[i] = marked_set(0x0A01 + 3 * i, 0x80 + i % 100, 100 + i);
    s.count = count;
    return s;
}

/* The sets of a card, but for one, which has another FAKey, and it may be another handle. */
static sets_case other_key(const load_case *l, size_t at, uint8_t handle)
{
    sets_case s = new_sets(PLAID_CARD_KEY_SETS);
    memcpy(s.sets, l->sets, sizeof l->sets);
    s.sets[at].fa_key = marked_value(90);
    s.sets[at].handle = handle;
    return s;
}

static sets_case without(const load_case *l, size_t at)
{
    sets_case s = new_sets(PLAID_CARD_KEY_SETS - 1);
    memcpy(s.sets, l->sets, sizeof l->sets);
    memmove(s.sets + at, s.sets + at + 1, (PLAID_CARD_KEY_SETS - 1 - at) * sizeof s.sets[0]);
    return s;
}

static plaid_loaded load_sets(const sets_case *s, plaid_card card)
{
    return plaid_load_sets(s->sets, s->count, card);
}

/* The result pointer by hand: taken, the table is the list's; declined, the old one. All else is the card's, whatever the number. */
static void check_sets(const sets_case *s, plaid_card card, unsigned number)
{
    static result r;
    fill(&r);
    for (int i = 0; i < 2; i++) {
        plaid_loaded loaded;
        CHECK(load_sets_at(r.bytes[i], s->sets, s->count, card) == r.bytes[i]);
        memcpy(&loaded, r.bytes[i], sizeof loaded);
        CHECK(loaded.number == number);
        CHECK(number == PLAID_DONE ? table_is(&loaded.card, s->sets, s->count) : same_sets(&loaded.card, &card));
        CHECK(same_but_sets(&loaded.card, &card));
    }
    CHECK_SIZE(&r, plaid_loaded, card.tries);
}

/* A card of the first so many sets of full_load, with counts that none else has; in session with its last one, or not. */
static plaid_card counted_card(size_t sets, bool in_session)
{
    load_case l = full_load();
    l.set_count = sets;
    call_case c = initial_call(l.sets[sets - 1].id);
    plaid_card card = load(&l).card;
    card.tries = (plaid_tries){0x0304, PLAID_TRIES_MOST};
    return in_session ? call(card, &c).card : card;
}

/* Every count of sets, onto a card that holds more, as many or fewer. What stands past the count is not looked at. */
static void sets_taken(void)
{
    for (size_t held = 1; held <= PLAID_CARD_KEY_SETS; held++)
        for (size_t count = 1; count <= PLAID_CARD_KEY_SETS; count++) {
            sets_case s = new_sets(count);
            check_sets(&s, counted_card(held, false), PLAID_DONE);
            s.sets[count] = s.sets[0];
            s.sets[count].handle = full_load().given.shill_handle;
            s.sets[count].fa_key.length = 0;
            check_sets(&s, counted_card(held, true), PLAID_DONE);
        }
}

/* Everything wrong at once, and then put right in the order of the numbers; the same of a count that one byte does not hold. */
static void sets_order(plaid_card card)
{
    sets_case right = new_sets(PLAID_CARD_KEY_SETS), s = right;
    s.sets[6].fa_key.length--;
    s.sets[1].id = s.sets[0].id;
    s.sets[7].handle = card.shill_handle;
    for (s.count = PLAID_CARD_KEY_SETS + 1; s.count <= SETS_MOST; s.count++)
        CHECK(load_sets(&s, card).number == PLAID_DECLINE_KEY_SET_COUNT);
    s.count = 0;
    check_sets(&s, card, PLAID_DECLINE_KEY_SET_COUNT);
    s.count = SETS_MOST;
    check_sets(&s, card, PLAID_DECLINE_KEY_SET_COUNT);
    s.count = PLAID_CARD_KEY_SETS;
    check_sets(&s, card, PLAID_DECLINE_VALUE_LENGTH);
    s.sets[6].fa_key = right.sets[6].fa_key;
    check_sets(&s, card, PLAID_DECLINE_KEY_SET_REPEATED);
    s.sets[1].id = right.sets[1].id;
    check_sets(&s, card, PLAID_DECLINE_SHILL_HANDLE);
    s.sets[7].handle = right.sets[7].handle;
    check_sets(&s, card, PLAID_DONE);
}

/* Each set whose FAKey is not of L bytes, has the KeySetID of a later one, or the shill handle. */
static void sets_faults(plaid_card card)
{
    sets_case right = new_sets(PLAID_CARD_KEY_SETS);
    for (size_t at = 0; at < PLAID_CARD_KEY_SETS; at++) {
        sets_case s = right;
        for (size_t i = 0; i < LENGTH(wrong_lengths); i++) {
            s.sets[at].fa_key.length = (uint8_t)wrong_lengths[i];
            check_sets(&s, card, wrong_lengths[i] == key_length ? PLAID_DONE : PLAID_DECLINE_VALUE_LENGTH);
        }
        for (size_t later = at + 1; later < PLAID_CARD_KEY_SETS; later++) {
            s = right;
            s.sets[at].id = s.sets[later].id;
            check_sets(&s, card, PLAID_DECLINE_KEY_SET_REPEATED);
        }
        s = right;
        s.sets[at].handle = card.shill_handle;
        check_sets(&s, card, PLAID_DECLINE_SHILL_HANDLE);
    }
}

/* A final command for mode 3 under a FAKey: whether the record comes. Where it does not, the card refused, and has counted it. */
static bool final_yields(plaid_card *card, const load_case *l, plaid_value fa_key)
{
    const plaid_mode *m = &l->given.modes[3];
    plaid_sealing of = sealing_of(l, 3);
    of.fa_key = fa_key;
    call_case c = final_call(&of, 0);
    plaid_outcome o = call(*card, &c);
    uint8_t work[PLAID_ANSWER_FINAL_MOST];
    plaid_accepted a = accept(l->given.div_data, m->len, c.out, o.answer.length, work, sizeof work);
    bool came = a.number == PLAID_DONE;
    CHECK(no_session(&o.card.session) && same_sets(&o.card, card));
    CHECK(same_tries(o.card.tries, came ? card->tries : one_more(card->tries, c.interface)));
    CHECK(!came || (a.length == m->len && memcmp(work, l->area + m->start, m->len) == 0));
    *card = o.card;
    return came;
}

/* The set of a list with this KeySetID, or NULL. */
static const plaid_key_set *set_of(const plaid_key_set *sets, size_t count, plaid_key_set_id id)
{
    for (size_t i = 0; i < count; i++)
        if (sets[i].id.value == id.value)
            return &sets[i];
    return NULL;
}

/* An initial command for one set, on a card that holds these: its session has that set's FAKey, as the list gives it. */
static void open_for(plaid_card *card, const plaid_key_set *sets, size_t count, plaid_key_set_id id)
{
    const plaid_key_set *held = set_of(sets, count, id);
    call_case c = initial_call(id);
    plaid_outcome o = call(*card, &c);
    CHECK(o.answer.handle == (held ? held->handle : card->shill_handle));
    CHECK(held ? session_of(&o.card.session, held) : no_session(&o.card.session));
    *card = o.card;
}

/* Sessions with each of some readers' sets, on a card that holds these sets: the record comes to those that have the card's FAKey. */
static void check_sessions(plaid_card *card, const plaid_key_set *sets, size_t count, const plaid_key_set *readers, size_t reader_count)
{
    load_case l = full_load();
    for (size_t i = 0; i < reader_count; i++) {
        const plaid_key_set *held = set_of(sets, count, readers[i].id);
        bool same = held && memcmp(held->fa_key.bytes, readers[i].fa_key.bytes, key_length) == 0;
        open_for(card, sets, count, readers[i].id);
        CHECK(final_yields(card, &l, readers[i].fa_key) == same);
    }
}

/* A load into a session of the sixth set: it ends under the old FAKey, and the next ones are under the table, for old and new readers. */
static void check_change(const sets_case *s, bool taken)
{
    load_case l = full_load();
    call_case opening = initial_call(l.sets[5].id);
    const plaid_key_set *table = taken ? s->sets : l.sets;
    size_t count = taken ? s->count : l.set_count;
    plaid_card card = load_sets(s, call(load(&l).card, &opening).card).card, again = card;
    CHECK(table_is(&card, table, count) && session_of(&card.session, &l.sets[5]));
    CHECK(final_yields(&card, &l, l.sets[5].fa_key));
    CHECK(!final_yields(&again, &l, marked_value(90)));
    check_sessions(&card, table, count, l.sets, l.set_count);
    check_sessions(&card, table, count, table, count);
}

/*
 * The session's set with another FAKey; with another handle too; alone, in the first slot; dropped; its KeySetID another set's; nothing of
 * the old table; the session's FAKey under another KeySetID; and loads that are declined.
 */
static void sets_changed(void)
{
    load_case l = full_load();
    sets_case s = other_key(&l, 5, l.sets[5].handle);
    check_change(&s, true);
    s = other_key(&l, 5, 0x99);
    check_change(&s, true);
    s.sets[0] = s.sets[5];
    s.count = 1;
    check_change(&s, true);
    s = without(&l, 5);
    check_change(&s, true);
    s.sets[3].id = l.sets[5].id;
    check_change(&s, true);
    s = new_sets(PLAID_CARD_KEY_SETS);
    check_change(&s, true);
    s.sets[7].fa_key = l.sets[5].fa_key;
    check_change(&s, true);
    s.sets[7].handle = l.given.shill_handle;
    check_change(&s, false);
    s.sets[7].id = s.sets[2].id;
    check_change(&s, false);
    s.sets[0].fa_key.length++;
    check_change(&s, false);
    s.count = 0;
    check_change(&s, false);
}

/* Each final command, accepted, refused or declined, behind a load that drops the session's set: as without the load, every byte. */
static void final_as_before(void)
{
    static try_case of[TRIES];
    load_case l = full_load();
    sets_case s = without(&l, 5);
    call_case opening = initial_call(l.sets[5].id);
    plaid_card fresh_card = load(&l).card, in_session = call(fresh_card, &opening).card;
    size_t count = all_tries(&l, of), tried = 0;
    for (size_t i = 0; i < count; i++) {
        call_case c = of[i].call, behind = c;
        plaid_card card = of[i].in_session ? in_session : fresh_card, changed = load_sets(&s, card).card;
        if (c.command[1] != PLAID_INS_FINAL)
            continue;
        plaid_outcome o = call(card, &c), p = call(changed, &behind);
        check(same_answer(&o.answer, &p.answer) && o.sum == p.sum && memcmp(c.out, behind.out, sizeof c.out) == 0, of[i].name, __LINE__);
        check(same_but_sets(&o.card, &p.card) && same_sets(&p.card, &changed), of[i].name, __LINE__);
        tried++;
    }
    CHECK(tried == 22);
}

/* A card, and beside it all that the test has to know: the list that was taken last, and the set that the open session began with. */
typedef struct {
    plaid_card card;
    sets_case table;
    plaid_key_set opened;
    bool open;
    unsigned changes, ends[2]; /* loads into a session; final commands without one, and in one */
} walk;

/* Four KeySetIDs, each with two FAKeys. */
static sets_case pool_of_sets(void)
{
    sets_case pool = new_sets(8);
    for (size_t i = 4; i < 8; i++)
        pool.sets[i].id = pool.sets[i - 4].id;
    return pool;
}

/* A list of so many, for each KeySetID one FAKey or the other, by a bit. None are declined, and so are five, where the first comes again. */
static void walk_load(walk *w, const sets_case *pool, size_t count, unsigned bits)
{
    sets_case next = *pool;
    for (size_t i = 0; i < 5; i++)
        next.sets[i] = pool->sets[i % 4 + 4 * (bits >> i % 4 & 1)];
    next.count = count;
    bool taken = count > 0 && count < 5;
    plaid_loaded loaded = load_sets(&next, w->card);
    CHECK(loaded.number == (taken ? PLAID_DONE : count == 0 ? PLAID_DECLINE_KEY_SET_COUNT : PLAID_DECLINE_KEY_SET_REPEATED));
    w->card = loaded.card;
    w->table = taken ? next : w->table;
    w->changes += taken && w->open;
}

static void walk_open(walk *w, plaid_key_set_id id)
{
    const plaid_key_set *held = set_of(w->table.sets, w->table.count, id);
    open_for(&w->card, w->table.sets, w->table.count, id);
    w->open = held != NULL;
    w->opened = held ? *held : w->opened;
}

static void walk_end(walk *w, const load_case *l, plaid_value fa_key)
{
    CHECK(final_yields(&w->card, l, fa_key) == (w->open && memcmp(fa_key.bytes, w->opened.fa_key.bytes, key_length) == 0));
    w->ends[w->open]++;
    w->open = false;
}

/* One card through many loads and commands. */
static void sets_of_a_list(void)
{
    static walk w;
    load_case l = full_load();
    sets_case pool = pool_of_sets();
    w = (walk){.card = load(&l).card, .table = new_sets(0), .open = false};
    walk_load(&w, &pool, 4, 0);
    unsigned state = 1;
    for (size_t step = 0; step < 600; step++) {
        state = 1103515245u * state + 12345u;
        unsigned pick = state >> 16, kind = pick % 8;
        const plaid_key_set *set = &pool.sets[pick / 8 % 8];
        if (kind < 3)
            walk_load(&w, &pool, pick / 8 % 6, pick / 64);
        else if (kind < 6)
            walk_open(&w, set->id);
        else
            walk_end(&w, &l, kind == 6 && w.open ? w.opened.fa_key : set->fa_key);
        CHECK(table_is(&w.card, w.table.sets, w.table.count));
        CHECK(w.open ? session_of(&w.card.session, &w.opened) : no_session(&w.card.session));
    }
    CHECK(w.changes > 20 && w.ends[0] > 20 && w.ends[1] > 20);
}

static void key_change(void)
{
    sets_taken();
    for (int in_session = 0; in_session < 2; in_session++) {
        sets_order(counted_card(3, in_session));
        sets_faults(counted_card(8, in_session));
    }
    sets_changed();
    final_as_before();
    sets_of_a_list();
}

/* What Accept has to make of an answer of so many bytes with this body, told a length: its front, or 20 and zeros. */
static void check_accepted(const load_case *l, const uint8_t *answer, size_t length, const uint8_t *body, size_t body_len, size_t told)
{
    uint8_t work[PLAID_ANSWER_FINAL_MOST], wanted[PLAID_ANSWER_FINAL_MOST];
    bool good = told > 0 && told <= body_len;
    memset(work, CANARY, sizeof work);
    memset(wanted, CANARY, sizeof wanted);
    memset(wanted, 0, length);
    if (good) {
        memcpy(wanted, body, body_len);
        memcpy(wanted + body_len, l->given.div_data, PLAID_DIV_DATA);
        wanted[body_len + PLAID_DIV_DATA] = 0x80;
    }
    plaid_accepted a = accept(l->given.div_data, told, answer, length, work, sizeof work);
    plaid_part p = record_part(work, sizeof work, a);
    CHECK(a.number == (good ? PLAID_DONE : PLAID_DECLINE_AUTHENTICATION) && a.length == (good ? told : 0));
    CHECK(p.start == 0 && p.length == a.length);
    CHECK(memcmp(work, wanted, sizeof work) == 0);
}

/* A session for one mode: record and zeros up to 16 (B - 2) bytes; then the reader's length, right and wrong. */
static void check_record(const load_case *l, size_t mode, size_t reply_size, size_t body_len)
{
    static const size_t wrong[] = {0, 65, 256, UINT32_MAX, (size_t)UINT32_MAX + 5, SIZE_MAX - 3, SIZE_MAX};
    uint8_t body[PLAID_CARD_RECORD] = {0};
    const plaid_mode *m = &l->given.modes[mode];
    call_case c;
    plaid_outcome o = final_answer(l, mode, &c);
    CHECK(o.answer.status == PLAID_ANSWER_OK && o.answer.length == 16 * reply_size);
    CHECK(final_counts(&o.answer, reply_size));
    CHECK(all(c.out + 16 * reply_size, sizeof c.out - 16 * reply_size, CANARY));
    memcpy(body, l->area + m->start, m->len);
    for (size_t told = 1; told <= PLAID_CARD_RECORD; told++)
        check_accepted(l, c.out, 16 * reply_size, body, body_len, told);
    for (size_t i = 0; i < LENGTH(wrong); i++)
        check_accepted(l, c.out, 16 * reply_size, body, body_len, wrong[i]);
}

/* A Wiegand number and a UUID on one card, and other pairs: with filler, without, and a record that ends with zeros of its own. */
static void unequal_sessions(void)
{
    load_case l = two_records(4, 16);
    check_record(&l, 0, 3, 16);
    check_record(&l, 1, 3, 16);
    l = two_records(16, 4);
    l.area[l.given.modes[1].start + 3] = 0;
    check_record(&l, 0, 3, 16);
    check_record(&l, 1, 3, 16);
    l = two_records(15, PLAID_CARD_RECORD);
    check_record(&l, 0, 6, 64);
    check_record(&l, 1, 6, 64);
    l = two_records(17, 31);
    check_record(&l, 0, 3, 17);
    check_record(&l, 1, 3, 31);
    l = two_records(1, 32);
    check_record(&l, 0, 4, 32);
    l.given.mode_count = 1;
    l.given.modes[0].len = 4;
    check_record(&l, 0, 2, 4);
}

static void accept_declined(void)
{
    load_case l = full_load();
    call_case c;
    uint8_t work[PLAID_ANSWER_FINAL_MOST];
    size_t record = l.given.modes[3].len;
    final_answer(&l, 3, &c);
    memset(work, CANARY, sizeof work);
    CHECK(accept(l.given.div_data, 0, c.out, 81, work, 0).number == PLAID_DECLINE_RESPONSE);
    CHECK(accept(l.given.div_data, 0, c.out, 80, work, 79).number == PLAID_DECLINE_WORK);
    CHECK(all(work, sizeof work, CANARY));
    plaid_accepted a = accept(l.given.shill_key.bytes, record, c.out, 80, work, 80);
    CHECK(a.number == PLAID_DECLINE_AUTHENTICATION && a.length == 0);
    CHECK(record_part(work, sizeof work, a).start == 0 && record_part(work, sizeof work, a).length == 0);
    CHECK(all(work, 80, 0) && all(work + 80, sizeof work - 80, CANARY));
    CHECK(accept(l.given.shill_key.bytes, record, c.out, PLAID_ANSWER_FINAL_LEAST, work, sizeof work).number == PLAID_DECLINE_AUTHENTICATION);
    CHECK(accept(l.given.shill_key.bytes, record, c.out, PLAID_ANSWER_FINAL_MOST, work, sizeof work).number == PLAID_DECLINE_AUTHENTICATION);
    for (size_t n = 0; n <= 2 * PLAID_ANSWER_FINAL_MOST; n++) {
        bool known = n % 16 == 0 && n >= PLAID_ANSWER_FINAL_LEAST && n <= PLAID_ANSWER_FINAL_MOST;
        unsigned number = accept(l.given.shill_key.bytes, record, c.out, n, work, sizeof work).number;
        CHECK(number == (known ? PLAID_DECLINE_AUTHENTICATION : PLAID_DECLINE_RESPONSE));
    }
}

/* An Accept that has to be declined by 21 or 22, with everything else wrong too, or right: nothing written, the part empty. */
static void check_no_accept(plaid_accepting of, const uint8_t *response, unsigned number)
{
    uint8_t work[PLAID_ANSWER_FINAL_MOST];
    memset(work, CANARY, sizeof work);
    plaid_accepted a = accept_of(of, response, 80, work, sizeof work);
    CHECK(a.number == number && a.length == 0);
    CHECK(record_part(work, sizeof work, a).start == 0 && record_part(work, sizeof work, a).length == 0);
    of.record_length = 0;
    CHECK(accept_of(of, response, 80, work, 79).number == number && accept_of(of, response, 81, work, 0).number == number);
    CHECK(all(work, sizeof work, CANARY));
}

static void accept_lengths(void)
{
    load_case l = full_load();
    call_case c;
    uint8_t work[PLAID_ANSWER_FINAL_MOST];
    plaid_accepting right = accepting_of(l.given.div_data, l.given.modes[3].len);
    final_answer(&l, 3, &c);
    CHECK(accept_of(right, c.out, 80, work, sizeof work).number == PLAID_DONE);
    for (size_t i = 0; i < SOME_LENGTHS; i++) {
        plaid_accepting of = right;
        of.key_length = some_length(i);
        if (of.key_length == key_length)
            continue;
        check_no_accept(of, c.out, lawful(of.key_length) ? PLAID_DECLINE_VALUE_LENGTH : PLAID_DECLINE_KEY_LENGTH);
        of.keys_hash.length = 0;
        check_no_accept(of, c.out, lawful(of.key_length) ? PLAID_DECLINE_VALUE_LENGTH : PLAID_DECLINE_KEY_LENGTH);
    }
    for (size_t i = 0; i < LENGTH(wrong_lengths); i++) {
        plaid_accepting of = right;
        of.keys_hash.length = (uint8_t)wrong_lengths[i];
        if (wrong_lengths[i] != key_length)
            check_no_accept(of, c.out, PLAID_DECLINE_VALUE_LENGTH);
    }
}

/* The front of a work buffer, of any length that an answer may say, and never outside. Nothing is written. */
static bool record_is(size_t room, size_t said, size_t length)
{
    uint8_t work[PLAID_ANSWER_FINAL_MOST];
    plaid_accepted of = {.number = PLAID_DONE, .length = said};
    memset(work, CANARY, sizeof work);
    plaid_part p = plaid_record(work, room, of);
    return p.start == 0 && p.length == length && all(work, sizeof work, CANARY);
}

static void record_parts(void)
{
    for (size_t room = 0; room <= PLAID_ANSWER_FINAL_MOST; room += 16) {
        CHECK(record_is(room, 0, 0));
        CHECK(record_is(room, room / 2, room / 2));
        CHECK(record_is(room, room, room));
        CHECK(record_is(room, room + 1, room));
        CHECK(record_is(room, SIZE_MAX, room));
    }
}

/*
 * Door numbers
 */

/* Bytes of a buffer here: more than any text or record has. */
#define DOOR 64

/* A conversion, with the sizes of what it takes and of what it writes. */
typedef struct {
    raw_convert *volatile call;
    size_t in, out;
} conversion;

static const conversion wiegand_record = {AS(raw_convert, plaid_wiegand_record), PLAID_WIEGAND_TEXT, PLAID_WIEGAND_RECORD};
static const conversion wiegand_text = {AS(raw_convert, plaid_wiegand_text), PLAID_WIEGAND_RECORD, PLAID_WIEGAND_TEXT};
static const conversion uuid_record = {AS(raw_convert, plaid_uuid_record), PLAID_UUID_TEXT, PLAID_UUID_RECORD};
static const conversion uuid_text = {AS(raw_convert, plaid_uuid_text), PLAID_UUID_RECORD, PLAID_UUID_TEXT};

/* A number in both forms. Behind them stand zeros. */
typedef struct {
    uint8_t text[DOOR], record[DOOR];
} door_number;

static bool input_changed;

/* Converts into the first out_len bytes of a filled buffer; the result's two registers as bytes of the struct. */
static plaid_converted convert(const conversion *c, const uint8_t in[DOOR], size_t in_len, uint8_t out[DOOR], size_t out_len)
{
    plaid_converted got;
    uint8_t before[DOOR];
    memcpy(before, in, DOOR);
    memset(out, CANARY, DOOR);
    registers r = c->call(in, in_len, out, out_len);
    memcpy(&got, &r, sizeof got);
    input_changed = input_changed || memcmp(before, in, DOOR) != 0;
    return got;
}

/* Whether the input becomes these bytes, and no byte behind them is written. */
static bool becomes(const conversion *c, const uint8_t in[DOOR], const uint8_t *wanted)
{
    uint8_t out[DOOR];
    plaid_converted got = convert(c, in, c->in, out, DOOR);
    return got.number == PLAID_DONE && got.length == c->out && memcmp(out, wanted, c->out) == 0
        && all(out + c->out, DOOR - c->out, CANARY);
}

/* Whether so many bytes of the input, for an output of so many, are declined by this number, and nothing is written. */
static bool declined(const conversion *c, const uint8_t in[DOOR], size_t in_len, size_t out_len, unsigned number)
{
    uint8_t out[DOOR];
    plaid_converted got = convert(c, in, in_len, out, out_len);
    return got.number == number && got.length == 0 && all(out, DOOR, CANARY);
}

static bool both_ways(const conversion *to_record, const conversion *to_text, const door_number *d)
{
    return becomes(to_record, d->text, d->record) && becomes(to_text, d->record, d->text);
}

static bool wiegand_both_ways(const door_number *d)
{
    return both_ways(&wiegand_record, &wiegand_text, d);
}

static bool uuid_both_ways(const door_number *d)
{
    return both_ways(&uuid_record, &uuid_text, d);
}

static bool wiegand_declined(const door_number *d, unsigned number)
{
    return declined(&wiegand_record, d->text, 26, 4, number) && declined(&wiegand_text, d->record, 4, 26, number);
}

/* The other value at a place of the 26, from the first on, in both forms. */
static void flip(door_number *d, size_t place)
{
    d->text[place] ^= 1;
    d->record[(place + 6) / 8] ^= (uint8_t)(0x80 >> (place + 6) % 8);
}

/* Facility and number as document 02 has them, bit by bit, with both parities counted. */
static door_number wiegand_of(unsigned facility, unsigned number)
{
    door_number d;
    bool odd[2] = {false, false}; /* the ones among the first and the last 12 data bits */
    memset(&d, 0, sizeof d);
    memset(d.text, '0', 26);
    for (size_t i = 0; i < 24; i++)
        if ((i < 8 ? facility >> (7 - i) : number >> (23 - i)) & 1) {
            flip(&d, 1 + i);
            odd[i / 12] = !odd[i / 12];
        }
    if (odd[0])
        flip(&d, 0);
    if (!odd[1])
        flip(&d, 25);
    return d;
}

/* Numbers written out: parity by hand. */
static void wiegand_written(void)
{
    static const struct {
        unsigned facility, number;
        const char *text;
        uint8_t record[4];
    } known[] = {
        {21, 4711, "00001010100010010011001111", {0x00, 0x2A, 0x24, 0xCF}},
        {21, 110, "10001010100000000011011100", {0x02, 0x2A, 0x00, 0xDC}},
        {0, 0, "00000000000000000000000001", {0x00, 0x00, 0x00, 0x01}},
        {255, 65535, "01111111111111111111111111", {0x01, 0xFF, 0xFF, 0xFF}},
        {128, 0, "11000000000000000000000001", {0x03, 0x00, 0x00, 0x01}},
        {0, 4096, "10000000000010000000000001", {0x02, 0x00, 0x20, 0x01}},
        {0, 2048, "00000000000001000000000000", {0x00, 0x00, 0x10, 0x00}},
        {0, 1, "00000000000000000000000010", {0x00, 0x00, 0x00, 0x02}},
    };
    for (size_t i = 0; i < LENGTH(known); i++) {
        door_number d = wiegand_of(known[i].facility, known[i].number);
        CHECK(memcmp(d.text, known[i].text, 26) == 0 && memcmp(d.record, known[i].record, 4) == 0);
        CHECK(wiegand_both_ways(&d));
    }
}

/* Every facility, with numbers over the whole range. */
static void wiegand_numbers(void)
{
    for (unsigned facility = 0; facility < 256; facility++) {
        bool ok = true;
        for (unsigned number = facility % 8; number < 65536; number += 509) {
            door_number d = wiegand_of(facility, number);
            ok = ok && wiegand_both_ways(&d);
        }
        CHECK(ok);
    }
}

/* One bit changed is a wrong parity, whichever bit it is. Put right by the parity of its own half it is another number, by the other's not. */
static void wiegand_parity(void)
{
    for (unsigned number = 0; number < 65536; number += 4369)
        for (size_t place = 0; place < 26; place++) {
            door_number d = wiegand_of(number % 251, number);
            bool first = place < 13;
            flip(&d, place);
            CHECK(wiegand_declined(&d, PLAID_DECLINE_PARITY));
            flip(&d, first ? 25 : 0);
            CHECK(wiegand_declined(&d, PLAID_DECLINE_PARITY));
            flip(&d, first ? 25 : 0);
            flip(&d, first ? 0 : 25);
            CHECK(wiegand_both_ways(&d));
        }
}

/* A bit above the 26: alone, with others, and with a wrong parity. */
static void wiegand_above(void)
{
    for (unsigned above = 4; above < 256; above += 4)
        for (unsigned number = 0; number < 4; number++) {
            door_number d = wiegand_of(77, 20000 * number);
            d.record[0] |= (uint8_t)above;
            CHECK(declined(&wiegand_text, d.record, 4, 26, PLAID_DECLINE_PARITY));
            flip(&d, 6 * number);
            CHECK(declined(&wiegand_text, d.record, 4, 26, PLAID_DECLINE_PARITY));
        }
}

/* Each byte at each place: 0 and 1 alone are characters. With any other 25 comes before 24. */
static void wiegand_characters(void)
{
    for (size_t place = 0; place < 26; place++) {
        bool ok = true;
        for (unsigned byte = 0; byte < 256; byte++) {
            door_number d = wiegand_of(200, 12345), wrong = d;
            flip(&wrong, (place + 1) % 26);
            bool known = byte == '0' || byte == '1', same = byte == d.text[place];
            d.text[place] = wrong.text[place] = (uint8_t)byte;
            ok = ok && (same ? becomes(&wiegand_record, d.text, d.record)
                             : declined(&wiegand_record, d.text, 26, 4, known ? PLAID_DECLINE_PARITY : PLAID_DECLINE_BAD_CHARACTER));
            ok = ok && (known || declined(&wiegand_record, wrong.text, 26, 4, PLAID_DECLINE_BAD_CHARACTER));
        }
        CHECK(ok);
    }
}

/* The text of 16 bytes, by C's own printing. */
static door_number uuid_of(const uint8_t b[PLAID_UUID_RECORD], bool capitals)
{
    door_number d;
    char text[DOOR];
    memset(&d, 0, sizeof d);
    memcpy(d.record, b, 16);
    snprintf(text, sizeof text,
        capitals ? "%02X%02X%02X%02X-%02X%02X-%02X%02X-%02X%02X-%02X%02X%02X%02X%02X%02X"
                 : "%02x%02x%02x%02x-%02x%02x-%02x%02x-%02x%02x-%02x%02x%02x%02x%02x%02x",
        b[0], b[1], b[2], b[3], b[4], b[5], b[6], b[7], b[8], b[9], b[10], b[11], b[12], b[13], b[14], b[15]);
    memcpy(d.text, text, 36);
    return d;
}

/* The UUIDs that stand in RFC 4122, section 3, 4.1.7, appendix B and C; in small letters, in capitals, and with both in one text. */
static void uuid_published(void)
{
    static const struct {
        const char *small, *capitals;
        uint8_t record[16];
    } known[] = {
        {"f81d4fae-7dec-11d0-a765-00a0c91e6bf6", "F81D4FAE-7DEC-11D0-A765-00A0C91E6BF6",
            {0xf8, 0x1d, 0x4f, 0xae, 0x7d, 0xec, 0x11, 0xd0, 0xa7, 0x65, 0x00, 0xa0, 0xc9, 0x1e, 0x6b, 0xf6}},
        {"00000000-0000-0000-0000-000000000000", "00000000-0000-0000-0000-000000000000", {0}},
        {"6ba7b810-9dad-11d1-80b4-00c04fd430c8", "6BA7B810-9DAD-11D1-80B4-00C04FD430C8",
            {0x6b, 0xa7, 0xb8, 0x10, 0x9d, 0xad, 0x11, 0xd1, 0x80, 0xb4, 0x00, 0xc0, 0x4f, 0xd4, 0x30, 0xc8}},
        {"6ba7b811-9dad-11d1-80b4-00c04fd430c8", "6BA7B811-9DAD-11D1-80B4-00C04FD430C8",
            {0x6b, 0xa7, 0xb8, 0x11, 0x9d, 0xad, 0x11, 0xd1, 0x80, 0xb4, 0x00, 0xc0, 0x4f, 0xd4, 0x30, 0xc8}},
        {"6ba7b812-9dad-11d1-80b4-00c04fd430c8", "6BA7B812-9DAD-11D1-80B4-00C04FD430C8",
            {0x6b, 0xa7, 0xb8, 0x12, 0x9d, 0xad, 0x11, 0xd1, 0x80, 0xb4, 0x00, 0xc0, 0x4f, 0xd4, 0x30, 0xc8}},
        {"6ba7b814-9dad-11d1-80b4-00c04fd430c8", "6BA7B814-9DAD-11D1-80B4-00C04FD430C8",
            {0x6b, 0xa7, 0xb8, 0x14, 0x9d, 0xad, 0x11, 0xd1, 0x80, 0xb4, 0x00, 0xc0, 0x4f, 0xd4, 0x30, 0xc8}},
        {"e902893a-9d22-3c7e-a7b8-d6e313b71d9f", "E902893A-9D22-3C7E-A7B8-D6E313B71D9F",
            {0xe9, 0x02, 0x89, 0x3a, 0x9d, 0x22, 0x3c, 0x7e, 0xa7, 0xb8, 0xd6, 0xe3, 0x13, 0xb7, 0x1d, 0x9f}},
    };
    for (size_t i = 0; i < LENGTH(known); i++) {
        door_number d = {{0}, {0}}, capitals = d, mixed = d;
        memcpy(d.text, known[i].small, 36);
        memcpy(d.record, known[i].record, 16);
        memcpy(capitals.text, known[i].capitals, 36);
        for (size_t place = 0; place < 36; place++)
            mixed.text[place] = (uint8_t)(place % 3 ? known[i].small : known[i].capitals)[place];
        CHECK(uuid_both_ways(&d));
        CHECK(becomes(&uuid_record, capitals.text, known[i].record));
        CHECK(becomes(&uuid_record, mixed.text, known[i].record));
    }
}

/* Each value of each byte, whatever version and variant that is; read in capitals too. */
static void uuid_bytes(void)
{
    for (size_t place = 0; place < 16; place++) {
        bool ok = true;
        for (unsigned value = 0; value < 256; value++) {
            uint8_t bytes[16];
            mark(bytes, sizeof bytes, value);
            bytes[place] = (uint8_t)value;
            door_number d = uuid_of(bytes, false), capitals = uuid_of(bytes, true);
            ok = ok && uuid_both_ways(&d) && becomes(&uuid_record, capitals.text, bytes);
        }
        CHECK(ok);
    }
}

/* Each byte at each place: hyphens at four, at the others digits of either case, and nothing else. */
static void uuid_characters(void)
{
    static const char digits[] = "0123456789abcdefABCDEF";
    uint8_t bytes[16];
    mark(bytes, sizeof bytes, 3);
    for (size_t place = 0; place < 36; place++) {
        bool hyphen = place == 8 || place == 13 || place == 18 || place == 23, ok = true;
        for (unsigned byte = 0; byte < 256; byte++) {
            door_number d = uuid_of(bytes, place % 2);
            bool known = hyphen ? byte == '-' : memchr(digits, (int)byte, sizeof digits - 1) != NULL;
            uint8_t out[DOOR];
            d.text[place] = (uint8_t)byte;
            ok = ok && (known ? convert(&uuid_record, d.text, 36, out, 16).number == PLAID_DONE
                              : declined(&uuid_record, d.text, 36, 16, PLAID_DECLINE_BAD_CHARACTER));
        }
        CHECK(ok);
    }
}

/* Every size of input and of output: 23 comes before what else is wrong, which then has this number. */
static void check_sizes(const conversion *c, const uint8_t good[DOOR], const uint8_t bad[DOOR], unsigned number)
{
    for (size_t in = 0; in <= DOOR; in++) {
        bool ok = true;
        for (size_t out_len = 0; out_len <= DOOR; out_len++) {
            uint8_t out[DOOR];
            if (in != c->in || out_len < c->out) {
                ok = ok && declined(c, good, in, out_len, PLAID_DECLINE_CONVERSION_LENGTH)
                    && declined(c, bad, in, out_len, PLAID_DECLINE_CONVERSION_LENGTH);
                continue;
            }
            plaid_converted got = convert(c, good, in, out, out_len);
            ok = ok && got.number == PLAID_DONE && got.length == c->out && all(out + c->out, DOOR - c->out, CANARY);
            ok = ok && (number == PLAID_DONE || declined(c, bad, in, out_len, number));
        }
        CHECK(ok);
    }
}

static void door_sizes(void)
{
    door_number w = wiegand_of(21, 4711), u = uuid_of(w.text, false), bad_w = w, bad_u = u;
    flip(&bad_w, 0);
    bad_w.text[25] = 0;
    bad_u.text[0] = 'g';
    check_sizes(&wiegand_record, w.text, bad_w.text, PLAID_DECLINE_BAD_CHARACTER);
    check_sizes(&wiegand_text, w.record, bad_w.record, PLAID_DECLINE_PARITY);
    check_sizes(&uuid_record, u.text, bad_u.text, PLAID_DECLINE_BAD_CHARACTER);
    check_sizes(&uuid_text, u.record, u.record, PLAID_DONE);
}

static void door_numbers(void)
{
    CHECK(sizeof(plaid_converted) == sizeof(registers));
    wiegand_written();
    wiegand_numbers();
    wiegand_parity();
    wiegand_above();
    wiegand_characters();
    uuid_published();
    uuid_bytes();
    uuid_characters();
    door_sizes();
    CHECK(!input_changed);
}

static void run(void)
{
    load_fields();
    load_order();
    load_lengths();
    load_counts();
    load_unequal();
    load_records();
    initial_accepted();
    initial_refused();
    list_forms();
    list_lengths();
    commands_declined();
    list_fields();
    open_fields();
    open_declined();
    open_lengths();
    seal_fields();
    seal_declined();
    seal_lengths();
    session();
    tries_counted();
    tries_of_a_list();
    tries_held();
    tries_read();
    key_change();
    unequal_sessions();
    accept_declined();
    accept_lengths();
    record_parts();
}

int main(void)
{
    for (size_t i = 0; i < LENGTH(nist); i++) {
        key_length = nist[i].key_length;
        rnd1 = nist[i].rnd1;
        rnd2 = nist[i].rnd2;
        keys_hash = nist[i].keys_hash;
        run();
    }
    door_numbers();
    printf("%u passed, %u failed\n", passed, failed);
    return failed > 0;
}
