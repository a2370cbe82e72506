/*
 * Counts the private RSA operations that the reader makes for a card's answer: one for each listed entry, whatever the number that the
 * card sent. Numbers below, at and above a modulus; 1 and 16 entries. The blocks handed to Open are compared with libcrypto's plain
 * BN_mod_exp, and are zeros where the number is not below that entry's modulus.
 *
 *   operations KEYS [WRONG]      KEYS: a folder of make-keys with the handles below. WRONG: a wrong platform, which has to be found:
 *                                first (looks at the number first), as-is (leaves it to libcrypto's check), hands-over (throws nothing away)
 *
 * Linked with --wrap for EVP_PKEY_decrypt, plaid_open and platform_decrypt. The last line is 'N passed, M failed'.
 */
#include "backend.h"
#include "platform.h"
#include "reader_end.h"

#include <openssl/bn.h>
#include <openssl/core_names.h>
#include <openssl/evp.h>
#include <openssl/pem.h>
#include <stdio.h>
#include <string.h>

static const uint8_t handles[PLAID_LIST_IDS] = {0x30, 0x31, 0x32, 0x33, 0x34, 0x35, 0x36, 0x37, 0x38, 0x39, 0x3A, 0x22, 0x21, 0x1F, 0x12, 0x11};
static BIGNUM *moduli[PLAID_LIST_IDS], *exponents[PLAID_LIST_IDS];
static BN_CTX *room;
static const char *wrong = "";
static unsigned operations, passed, failed, zeros, others;
static uint8_t handed[PLAID_LIST_IDS][PLAID_BLOCK];
static size_t handed_len;

/* One that libcrypto refused is none. */
int __real_EVP_PKEY_decrypt(EVP_PKEY_CTX *key, unsigned char *out, size_t *out_len, const unsigned char *in, size_t in_len);
int __wrap_EVP_PKEY_decrypt(EVP_PKEY_CTX *key, unsigned char *out, size_t *out_len, const unsigned char *in, size_t in_len)
{
    int ok = __real_EVP_PKEY_decrypt(key, out, out_len, in, in_len);
    operations += out && ok == 1;
    return ok;
}

plaid_opened __real_plaid_open(size_t key_length, plaid_ids of, const uint8_t *blocks, size_t blocks_len);
plaid_opened __wrap_plaid_open(size_t key_length, plaid_ids of, const uint8_t *blocks, size_t blocks_len)
{
    handed_len = blocks_len;
    memcpy(handed, blocks, blocks_len < sizeof handed ? blocks_len : sizeof handed);
    return __real_plaid_open(key_length, of, blocks, blocks_len);
}

/* The platform, or a wrong one. */
bool __real_platform_decrypt(uint8_t handle, uint8_t block[PLAID_BLOCK]);
bool __wrap_platform_decrypt(uint8_t handle, uint8_t block[PLAID_BLOCK])
{
    uint8_t modulus[PLAID_BLOCK];
    bool above = backend_modulus(handle, modulus) && memcmp(block, modulus, PLAID_BLOCK) >= 0;
    if (!above || !wrong[0])
        return __real_platform_decrypt(handle, block);
    if (strcmp(wrong, "hands-over") == 0) {
        BIGNUM *number = BN_bin2bn(block, PLAID_BLOCK, NULL), *n = BN_bin2bn(modulus, PLAID_BLOCK, NULL);
        BN_sub(number, number, n);
        BN_bn2binpad(number, block, PLAID_BLOCK);
        BN_free(number);
        BN_free(n);
        return __real_platform_decrypt(handle, block);
    }
    bool ok = strcmp(wrong, "as-is") == 0 && backend_private(handle, block);
    memset(block, 0, PLAID_BLOCK);
    return ok;
}

static void check(bool ok, const char *what, const char *number, size_t entries, unsigned got)
{
    if (ok) {
        passed++;
        return;
    }
    failed++;
    printf("%s, %zu entries: %s (%u)\n", number, entries, what, got);
}

/* A card that answers everything with one number. */
static long exchange(void *line, const uint8_t *command, size_t command_len, uint8_t *answer, size_t answer_room)
{
    (void)command_len;
    if (command[1] != PLAID_INS_INITIAL || answer_room < PLAID_BLOCK + 2)
        return -1;
    memcpy(answer, line, PLAID_BLOCK);
    answer[PLAID_BLOCK] = PLAID_ANSWER_OK >> 8;
    answer[PLAID_BLOCK + 1] = PLAID_ANSWER_OK & 0xFF;
    return PLAID_BLOCK + 2;
}

/* What has to be handed over for an entry, by BN_mod_exp. */
static void expect(const BIGNUM *number, size_t entry, uint8_t block[PLAID_BLOCK])
{
    memset(block, 0, PLAID_BLOCK);
    if (BN_cmp(number, moduli[entry]) >= 0) {
        zeros++;
        return;
    }
    BIGNUM *result = BN_new();
    others++;
    if (!BN_mod_exp(result, number, exponents[entry], moduli[entry], room) || BN_bn2binpad(result, block, PLAID_BLOCK) != PLAID_BLOCK)
        memset(block, 0xEE, PLAID_BLOCK);
    BN_free(result);
}

/* A reader that lists `entries` sets, from a handle on, gets a number. */
static void try_number(const char *name, const BIGNUM *number, size_t first, size_t entries)
{
    uint8_t answer[PLAID_BLOCK], wanted[PLAID_BLOCK];
    plaid_key_set sets[PLAID_LIST_IDS];
    reader_session s;
    memset(sets, 0, sizeof sets);
    for (size_t i = 0; i < entries; i++) {
        sets[i].id.value = (uint16_t)(0x0500 + i);
        sets[i].handle = handles[first + i];
    }
    BN_bn2binpad(number, answer, PLAID_BLOCK);
    reader_plan plan = {16, sets, entries, {7}, 4, answer, 0, exchange, answer};
    operations = 0;
    handed_len = 0;
    int ended = reader_run(&plan, &s);
    check(operations == entries, "not one private operation for each entry", name, entries, operations);
    check(ended == PLAID_DECLINE_NONE_OPENS, "did not end with 15", name, entries, (unsigned)ended);
    check(handed_len == entries * PLAID_BLOCK, "not one block for each entry", name, entries, (unsigned)handed_len);
    for (size_t i = 0; i < entries; i++) {
        expect(number, first + i, wanted);
        check(memcmp(handed[i], wanted, PLAID_BLOCK) == 0, "wrong block for entry", name, entries, (unsigned)i);
    }
}

/* The modulus and its neighbours, for a reader whose only entry has it, and for one with all sixteen. */
static void try_around(size_t entry)
{
    static const char *const names[] = {"the modulus less 1", "the modulus", "the modulus and 1"};
    BIGNUM *number = BN_dup(moduli[entry]);
    BN_sub_word(number, 1);
    for (size_t i = 0; i < 3; i++) {
        try_number(names[i], number, entry, 1);
        try_number(names[i], number, 0, PLAID_LIST_IDS);
        BN_add_word(number, 1);
    }
    BN_free(number);
}

static void try_fixed(void)
{
    BIGNUM *number = BN_new();
    BN_zero(number);
    try_number("0", number, 0, 1);
    try_number("0", number, 0, PLAID_LIST_IDS);
    BN_one(number);
    try_number("1", number, 0, 1);
    try_number("1", number, 0, PLAID_LIST_IDS);
    BN_lshift(number, number, 8 * PLAID_BLOCK);
    BN_sub_word(number, 1);
    try_number("2^2048 - 1", number, 0, 1);
    try_number("2^2048 - 1", number, 0, PLAID_LIST_IDS);
    BN_free(number);
}

static void try_random(int times)
{
    BIGNUM *number = BN_new();
    for (int i = 0; i < times; i++) {
        BN_rand(number, 8 * PLAID_BLOCK, i % 2 ? BN_RAND_TOP_ANY : BN_RAND_TOP_TWO, BN_RAND_BOTTOM_ANY);
        try_number("a random number", number, (size_t)i % PLAID_LIST_IDS, 1);
        try_number("a random number", number, 0, PLAID_LIST_IDS);
    }
    BN_free(number);
}

/* The numbers of a key, read apart from the platform. */
static bool load(const char *folder, size_t entry)
{
    char path[1024];
    snprintf(path, sizeof path, "%s/%02X-private.pem", folder, handles[entry]);
    FILE *f = fopen(path, "r");
    EVP_PKEY *key = f ? PEM_read_PrivateKey(f, NULL, NULL, NULL) : NULL;
    if (f)
        fclose(f);
    bool ok = key && EVP_PKEY_get_bn_param(key, OSSL_PKEY_PARAM_RSA_N, &moduli[entry])
        && EVP_PKEY_get_bn_param(key, OSSL_PKEY_PARAM_RSA_D, &exponents[entry]);
    EVP_PKEY_free(key);
    return ok && platform_load_private(handles[entry]);
}

int main(int argc, char **argv)
{
    if (argc < 2 || argc > 3)
        return 2;
    wrong = argc > 2 ? argv[2] : "";
    room = BN_CTX_new();
    platform_open(argv[1]);
    for (size_t i = 0; i < PLAID_LIST_IDS; i++)
        if (!load(argv[1], i)) {
            printf("no key of handle %02X: %s\n0 passed, 1 failed\n", handles[i], platform_trouble());
            return 1;
        }
    try_fixed();
    try_around(0);
    try_around(PLAID_LIST_IDS - 1);
    try_random(8);
    /* So many there are with any keys: 2^2048 - 1, each modulus and 1 more at its own entry; 0, 1 and each modulus less 1. */
    check(zeros >= 25 && others >= 38, "numbers of only one kind", "all", 0, zeros);
    printf("%u passed, %u failed\n", passed, failed);
    return failed > 0;
}
