/*
 * Linked into the examples with --wrap, for tests. Puts a fault in at one place, and tells what is erased.
 *
 *   FAULT=random:N, public:N, private:N      the Nth call fails; of random bytes, the Nth for more than one byte
 *   ERASED=FILE                              gets a line 'OBJECT SECRET' for each secret that stood in an erased object
 *   ERASE=no                                 nothing is erased, which the lines then say
 *   KEY_LENGTH=L                             of both ends; 16 where it is not given
 */
#define _POSIX_C_SOURCE 200809L
#include "card_end.h"
#include "door.h"
#include "example.h"
#include "key_file.h"
#include "reader_end.h"

#include <stdio.h>
#include <stdlib.h>
#include <string.h>

#define SECRETS 32
static struct {
    const char *name;
    uint8_t bytes[PLAID_CARD_RECORD];
    size_t len;
} secrets[SECRETS] = {
    {"FAKey", "FAKey of set 102 of 24, 32 bytes", 0}, {"shill-key", "the shill key 16 of 24, 32 bytes", 0}, {"Wiegand", {0x00, 0x2A, 0x24, 0xCF}, 4},
    {"UUID", {0xF8, 0x1D, 0x4F, 0xAE, 0x7D, 0xEC, 0x11, 0xD0, 0xA7, 0x65, 0x00, 0xA0, 0xC9, 0x1E, 0x6B, 0xF6}, 16},
    {"Wiegand-text", "00001010100010010011001111", 26}, {"UUID-text", "f81d4fae-7dec-11d0-a765-00a0c91e6bf6", 36},
    {"new-FAKey", "FAKey NEW of 102 of 24, 32 bytes", 0},
    {"new-FAKey-text", "46414b6579204e4557206f6620313032206f662032342c203332206279746573", 0},
};
static size_t known = 8;

/* L, by which the keys are cut to their length too, and the digits of one. */
static size_t key_length(void)
{
    const char *given = getenv("KEY_LENGTH");
    size_t l = given ? strtoul(given, NULL, 10) : 16;
    secrets[7].len = 2 * l;
    return secrets[0].len = secrets[1].len = secrets[6].len = l;
}

static void learn(const char *name, const uint8_t *bytes, size_t len)
{
    if (known == SECRETS)
        exit(99);
    secrets[known].name = name;
    secrets[known].len = len;
    memcpy(secrets[known++].bytes, bytes, len);
}

static bool fault(const char *kind)
{
    static long left = -1;
    const char *wanted = getenv("FAULT");
    size_t length = strlen(kind);
    if (!wanted || strncmp(wanted, kind, length) != 0 || wanted[length] != ':')
        return false;
    if (left < 0)
        left = atol(wanted + length + 1);
    return left > 0 && --left == 0;
}

bool __real_backend_random(uint8_t *to, size_t count);
bool __wrap_backend_random(uint8_t *to, size_t count)
{
    if (count > 1 && fault("random"))
        return false;
    bool ok = __real_backend_random(to, count);
    if (count == PLAID_FRESH)
        learn("RND1", to, key_length());
    else if (count == key_length())
        learn("RND2", to, key_length());
    return ok;
}

bool __real_backend_public(uint8_t handle, uint8_t block[PLAID_BLOCK]);
bool __wrap_backend_public(uint8_t handle, uint8_t block[PLAID_BLOCK])
{
    return !fault("public") && __real_backend_public(handle, block);
}

bool __real_backend_private(uint8_t handle, uint8_t block[PLAID_BLOCK]);
bool __wrap_backend_private(uint8_t handle, uint8_t block[PLAID_BLOCK])
{
    return !fault("private") && __real_backend_private(handle, block);
}

plaid_opened __real_plaid_open(size_t length, plaid_ids of, const uint8_t *blocks, size_t blocks_len);
plaid_opened __wrap_plaid_open(size_t length, plaid_ids of, const uint8_t *blocks, size_t blocks_len)
{
    plaid_opened opened = __real_plaid_open(length, of, blocks, blocks_len);
    if (opened.number == PLAID_DONE)
        learn("RND1", opened.rnd1.bytes, opened.rnd1.length);
    return opened;
}

plaid_sealed __real_plaid_seal(plaid_sealing of, const uint8_t *payload, size_t payload_len, uint8_t *out, size_t out_len);
plaid_sealed __wrap_plaid_seal(plaid_sealing of, const uint8_t *payload, size_t payload_len, uint8_t *out, size_t out_len)
{
    plaid_sealed sealed = __real_plaid_seal(of, payload, payload_len, out, out_len);
    if (sealed.number == PLAID_DONE)
        learn("KeysHash", sealed.keys_hash.bytes, sealed.keys_hash.length);
    return sealed;
}

/* An object by its size. Two key sets are as long as `accepting`, and begin with the KeySetID and handle of an example's first. */
static const char *object(const void *at, size_t size)
{
    static const struct {
        size_t size;
        const char *name;
    } objects[] = {
        {sizeof(plaid_given), "given"}, {sizeof(plaid_loaded), "loaded"}, {sizeof(plaid_card), "card"}, {sizeof(plaid_outcome), "outcome"},
        {PLAID_FRESH, "fresh"}, {CARD_ANSWER_MOST, "answer"}, {PLAID_LIST_IDS * PLAID_BLOCK, "blocks"}, {sizeof(plaid_accepting), "accepting"},
        {sizeof(reader_session), "session"}, {DOOR_TEXT, "text"}, {BUFSIZ, "file"}, {3 + PLAID_VALUE_MOST, "file-line"},
        {KEY_FILE_SETS * sizeof(plaid_key_set), "file-sets"},
    };
    plaid_key_set first = {{0}, 0, {0, {0}}};
    if (size == 2 * sizeof first)
        memcpy(&first, at, sizeof first);
    if ((first.id.value == 0x0102 && first.handle == 0x11) || (first.id.value == 0x0301 && first.handle == 0x21))
        return "sets";
    for (size_t i = 0; i < sizeof objects / sizeof objects[0]; i++)
        if (objects[i].size == size)
            return objects[i].name;
    return "other";
}

static bool holds(const uint8_t *bytes, size_t count, const uint8_t *secret, size_t len)
{
    for (size_t i = 0; i + len <= count; i++)
        if (memcmp(bytes + i, secret, len) == 0)
            return true;
    return false;
}

void __real_platform_erase(void *at, size_t count);
void __wrap_platform_erase(void *at, size_t count)
{
    const char *name = object(at, count);
    key_length();
    bool held[SECRETS] = {false}, left = false;
    for (size_t i = 0; i < known; i++)
        held[i] = holds(at, count, secrets[i].bytes, secrets[i].len);
    if (!getenv("ERASE"))
        __real_platform_erase(at, count);
    for (size_t i = 0; i < count; i++)
        left = left || ((const uint8_t *)at)[i] != 0;
    FILE *f = getenv("ERASED") ? fopen(getenv("ERASED"), "a") : NULL;
    for (size_t i = 0; f && i < known; i++)
        if (held[i])
            fprintf(f, "%s %s%s\n", name, secrets[i].name, left ? " NOT ERASED" : "");
    if (f)
        fclose(f);
}
