#include "example.h"
#include "platform.h"

#include <stdio.h>
#include <string.h>

#define DIV_DATA "CARD-00000004711"
#define SHILL_KEY "the shill key 16 of 24, 32 bytes"
#define SHILL_HANDLE 0x1F

/* The records, one behind the other: facility 21, number 4711, with its two parity bits; and a UUID. */
static const uint8_t records[] = {
    0x00, 0x2A, 0x24, 0xCF,
    0xF8, 0x1D, 0x4F, 0xAE, 0x7D, 0xEC, 0x11, 0xD0, 0xA7, 0x65, 0x00, 0xA0, 0xC9, 0x1E, 0x6B, 0xF6,
};

/* The keys have 32 bytes here, of which an end with a shorter L takes the first. A product draws each key by itself. */
#define SET_102 {{0x0102}, 0x11, {32, "FAKey of set 102 of 24, 32 bytes"}}
#define SET_203 {{0x0203}, 0x12, {32, "FAKey of set 203 of 24, 32 bytes"}}
#define SET_301 {{0x0301}, 0x21, {32, "FAKey of set 301 of 24, 32 bytes"}}
#define SET_302 {{0x0302}, 0x22, {32, "FAKey of set 302 of 24, 32 bytes"}}
#define SET_7777 {{0x7777}, 0x12, {32, "FAKey of set 777 of 24, 32 bytes"}}
#define NEW_102 {{0x0102}, 0x11, {32, "FAKey NEW of 102 of 24, 32 bytes"}}
#define SET_204 {{0x0204}, 0x12, {32, "FAKey of set 204 of 24, 32 bytes"}}
#define SET_7778 {{0x7778}, 0x12, {32, "FAKey of set 778 of 24, 32 bytes"}}

/* A value of L bytes: the first of its 32, with zeros behind them. */
static void shorten(plaid_value *value, size_t key_length)
{
    for (size_t i = key_length; i < PLAID_VALUE_MOST; i++)
        value->bytes[i] = 0;
    value->length = (uint8_t)key_length;
}

static void shorten_sets(plaid_key_set *sets, size_t count, size_t key_length)
{
    for (size_t i = 0; i < count; i++)
        shorten(&sets[i].fa_key, key_length);
}

static void copy_sets(plaid_key_set *to, const plaid_key_set *from, size_t count, size_t key_length)
{
    memcpy(to, from, count * sizeof *from);
    shorten_sets(to, count, key_length);
}

void example_new_sets(size_t key_length, plaid_key_set to[EXAMPLE_NEW_SETS])
{
    static const plaid_key_set sets[EXAMPLE_NEW_SETS] = {SET_204, NEW_102};
    copy_sets(to, sets, EXAMPLE_NEW_SETS, key_length);
}

void example_new_other_set(size_t key_length, plaid_key_set *to)
{
    static const plaid_key_set set = SET_7778;
    copy_sets(to, &set, 1, key_length);
}

void example_reader(size_t key_length, plaid_key_set to[EXAMPLE_READER_SETS])
{
    static const plaid_key_set sets[EXAMPLE_READER_SETS] = {SET_301, SET_102};
    copy_sets(to, sets, EXAMPLE_READER_SETS, key_length);
}

void example_new_reader(size_t key_length, plaid_key_set to[EXAMPLE_READER_SETS])
{
    static const plaid_key_set sets[EXAMPLE_READER_SETS] = {SET_301, NEW_102};
    copy_sets(to, sets, EXAMPLE_READER_SETS, key_length);
}

void example_strange_reader(size_t key_length, plaid_key_set to[EXAMPLE_READER_SETS])
{
    static const plaid_key_set sets[EXAMPLE_READER_SETS] = {SET_301, SET_302};
    copy_sets(to, sets, EXAMPLE_READER_SETS, key_length);
}

bool example_key_length(int *argc, char ***argv, size_t *key_length)
{
    const char *flag = *argc > 1 ? (*argv)[1] : "";
    *key_length = EXAMPLE_KEY_LENGTH;
    if (flag[0] != '-')
        return true;
    for (*key_length = 16; *key_length <= 32; *key_length += 8) {
        char known[8];
        snprintf(known, sizeof known, "-L%u", (unsigned)*key_length);
        if (strcmp(flag, known) == 0) {
            ++*argv;
            --*argc;
            return true;
        }
    }
    return false;
}

const example_mode example_wiegand = {{0x0007}, 4, "a Wiegand number"};
const example_mode example_uuid = {{0x0008}, 16, "a UUID"};
const example_mode example_unknown = {{0x0BAD}, 4, "none that the card holds"};

const example_mode *example_mode_of(plaid_op_mode_id id)
{
    static const example_mode *const known[] = {&example_wiegand, &example_uuid, &example_unknown};
    for (size_t i = 0; i < sizeof known / sizeof known[0]; i++)
        if (known[i]->id.value == id.value)
            return known[i];
    return NULL;
}

/* L, DivData and shill keys; no modes yet. */
static plaid_given given(size_t key_length, const char *div_data)
{
    plaid_given g;
    memset(&g, 0, sizeof g);
    g.key_length = key_length;
    memcpy(g.div_data, div_data, PLAID_DIV_DATA);
    memcpy(g.shill_key.bytes, SHILL_KEY, PLAID_VALUE_MOST);
    shorten(&g.shill_key, key_length);
    g.shill_handle = SHILL_HANDLE;
    return g;
}

plaid_loaded example_card(size_t key_length)
{
    plaid_key_set sets[] = {SET_102, SET_203};
    plaid_given g = given(key_length, DIV_DATA);
    shorten_sets(sets, 2, key_length);
    g.modes[0] = (plaid_mode){example_wiegand.id, 0, example_wiegand.record_length};
    g.modes[1] = (plaid_mode){example_uuid.id, example_wiegand.record_length, example_uuid.record_length};
    g.mode_count = 2;
    plaid_loaded loaded = plaid_load(sets, 2, g, records, sizeof records);
    platform_erase(&g, sizeof g);
    platform_erase(sets, sizeof sets);
    return loaded;
}

plaid_loaded example_other_card(size_t key_length)
{
    static const uint8_t area[] = "another card's record!";
    plaid_key_set set = SET_7777;
    plaid_given g = given(key_length, "CARD-99999999999");
    shorten_sets(&set, 1, key_length);
    g.modes[0] = (plaid_mode){{0x0077}, 0, 22};
    g.mode_count = 1;
    plaid_loaded loaded = plaid_load(&set, 1, g, area, 22);
    platform_erase(&g, sizeof g);
    platform_erase(&set, sizeof set);
    return loaded;
}
