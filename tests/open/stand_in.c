/*
 * An Open in C in the place of the library's, which returns the same. KIND says which blocks it examines:
 *
 *   RIGHT     every one
 *   RETURNS   up to the first that opens, with which it returns
 *   SKIPS     up to the first that opens; it goes through the others without a look at them
 *   LAST      every one but the last, which it examines only where none opened before
 */
#include "plaid.h"

#include <string.h>

#define RIGHT 0
#define RETURNS 1
#define SKIPS 2
#define LAST 3

/* By the same steps for every block. Inline, since with a constant for L the compiler makes fewer steps of it. */
static inline bool opens_with(size_t key_length, const uint8_t *block, plaid_key_set_id id)
{
    size_t pads = PLAID_FRESH_PADS(key_length);
    const uint8_t *text = block + 3 + pads, *rnd1 = text + 2 + PLAID_DIV_DATA;
    uint8_t wrong = block[0] | (block[1] ^ 0x02) | block[2 + pads];
    wrong |= (text[0] ^ id.value >> 8) | (text[1] ^ (id.value & 0xFF));
    for (size_t i = 0; i < pads; i++)
        wrong |= block[2 + i] == 0;
    for (size_t i = 0; i < key_length; i++)
        wrong |= rnd1[i] ^ rnd1[key_length + i];
    return wrong == 0;
}

static bool opens(size_t key_length, const uint8_t *block, plaid_key_set_id id)
{
    if (key_length == 16)
        return opens_with(16, block, id);
    return key_length == 24 ? opens_with(24, block, id) : opens_with(32, block, id);
}

/* The first that opens: `at` where there is one already, or this one where it opens. By the same steps, too. */
static size_t first(size_t at, size_t i, size_t count, bool hit)
{
    size_t take = 0 - (size_t)(hit & (at == count));
    return (at & ~take) | (i & take);
}

static bool left_out(size_t i, size_t count, bool found)
{
    return found && (KIND == SKIPS || (KIND == LAST && i + 1 == count));
}

plaid_opened plaid_open(size_t key_length, plaid_ids of, const uint8_t *blocks, size_t blocks_len)
{
    plaid_opened opened;
    size_t at = of.count;
    (void)blocks_len;
    memset(&opened, 0, sizeof opened);
    opened.number = PLAID_DECLINE_NONE_OPENS;
    for (size_t i = 0; i < of.count && !(KIND == RETURNS && at < of.count); i++)
        if (!left_out(i, of.count, at < of.count))
            at = first(at, i, of.count, opens(key_length, blocks + i * PLAID_BLOCK, of.ids[i]));
    if (at == of.count)
        return opened;
    const uint8_t *text = blocks + at * PLAID_BLOCK + 3 + PLAID_FRESH_PADS(key_length);
    opened.number = PLAID_DONE;
    opened.place = at;
    opened.id = of.ids[at];
    memcpy(opened.div_data, text + 2, PLAID_DIV_DATA);
    opened.rnd1.length = (uint8_t)key_length;
    memcpy(opened.rnd1.bytes, text + 2 + PLAID_DIV_DATA, key_length);
    return opened;
}
