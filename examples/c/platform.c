/* The examples' platform, over a library (backend.h) or a stand-in for RSA. */
#include "platform.h"
#include "backend.h"

#include <stdio.h>

static const char *keys; /* their folder; NULL: the stand-in */
static char trouble[1024];

void platform_open(const char *folder)
{
    keys = folder;
}

typedef const char *backend_load(uint8_t handle, const char *path);

static bool load(backend_load *from, uint8_t handle, const char *kind)
{
    char path[768];
    if (!keys)
        return true;
    bool whole = snprintf(path, sizeof path, "%s/%02X-%s.pem", keys, handle, kind) < (int)sizeof path;
    const char *why = whole ? from(handle, path) : "too long a name";
    if (why)
        snprintf(trouble, sizeof trouble, "%s: %s", path, why);
    return !why;
}

bool platform_load_public(uint8_t handle)
{
    return load(backend_load_public, handle, "public");
}

bool platform_load_private(uint8_t handle)
{
    return load(backend_load_private, handle, "private");
}

const char *platform_trouble(void)
{
    return trouble;
}

void platform_close(void)
{
    backend_close();
    keys = NULL;
}

bool platform_is_stand_in(void)
{
    return !keys;
}

const char *platform_rsa(void)
{
    static char name[96];
    if (!keys)
        return backend_rsa() ? "a STAND-IN for RSA, which hides nothing" : "a STAND-IN for RSA, which hides nothing: built without libcrypto";
    snprintf(name, sizeof name, "RSA-2048 by %s", backend_rsa() ? backend_rsa() : "nothing");
    return name;
}

const char *platform_source(void)
{
    return backend_source();
}

bool platform_random(uint8_t *to, size_t count)
{
    return backend_random(to, count);
}

bool platform_fresh(uint8_t fresh[PLAID_FRESH], size_t key_length)
{
    if (!backend_random(fresh, PLAID_FRESH))
        return false;
    for (size_t i = PLAID_FRESH_ANY(key_length); i < PLAID_FRESH; i++)
        while (fresh[i] == 0)
            if (!backend_random(&fresh[i], 1))
                return false;
    return true;
}

/* The stand-in: bytes that follow from the handle alone, added by exclusive or. Its own inverse. */
static void stand_in(uint8_t handle, uint8_t block[PLAID_BLOCK])
{
    uint32_t state = 0x9E3779B9u * (handle + 1u);
    for (size_t i = 0; i < PLAID_BLOCK; i++) {
        state = 1664525u * state + 1013904223u;
        block[i] ^= (uint8_t)(state >> 24);
    }
}

bool platform_encrypt(uint8_t handle, uint8_t block[PLAID_BLOCK])
{
    if (keys)
        return backend_public(handle, block);
    stand_in(handle, block);
    return true;
}

/*
 * Takes the modulus off a number that is not below it, by the same steps for every number. Once is enough: the modulus has 2048 bits, so
 * twice the modulus is over every number of 256 bytes. Returns 0xFF where the number was below the modulus, else 0.
 */
static uint8_t reduce(uint8_t number[PLAID_BLOCK], const uint8_t modulus[PLAID_BLOCK])
{
    uint8_t less[PLAID_BLOCK];
    unsigned borrow = 0;
    for (size_t i = PLAID_BLOCK; i-- > 0;) {
        unsigned digit = 0x100u + number[i] - modulus[i] - borrow;
        less[i] = (uint8_t)digit;
        borrow = 1u - (digit >> 8);
    }
    uint8_t below = (uint8_t)(0u - borrow);
    for (size_t i = 0; i < PLAID_BLOCK; i++)
        number[i] = (uint8_t)((number[i] & below) | (less[i] & ~below));
    return below;
}

/* A library refuses a number that is not below the modulus at once, which shows in the time. So it never gets one. */
bool platform_decrypt(uint8_t handle, uint8_t block[PLAID_BLOCK])
{
    uint8_t modulus[PLAID_BLOCK];
    if (!keys) {
        stand_in(handle, block);
        return true;
    }
    bool there = backend_modulus(handle, modulus);
    uint8_t keep = reduce(block, modulus);
    bool ok = backend_private(handle, block) && there;
    keep = ok ? keep : 0;
    for (size_t i = 0; i < PLAID_BLOCK; i++)
        block[i] &= keep;
    return ok;
}

void platform_erase(void *at, size_t count)
{
    backend_erase(at, count);
}
