/* No library: random bytes of the system, erasing by hand, and no RSA. */
#include "backend.h"

#include <stdio.h>

const char *backend_rsa(void)
{
    return NULL;
}

const char *backend_source(void)
{
    return "/dev/urandom";
}

bool backend_random(uint8_t *to, size_t count)
{
    FILE *f = fopen("/dev/urandom", "rb");
    if (!f)
        return false;
    setvbuf(f, NULL, _IONBF, 0); /* no copy of the bytes stays in a buffer */
    bool ok = fread(to, 1, count, f) == count;
    fclose(f);
    return ok;
}

void backend_erase(void *at, size_t count)
{
    volatile uint8_t *byte = at;
    for (size_t i = 0; i < count; i++)
        byte[i] = 0;
}

static const char none[] = "built without libcrypto: install libssl-dev and build again";

const char *backend_load_public(uint8_t handle, const char *path)
{
    (void)handle, (void)path;
    return none;
}

const char *backend_load_private(uint8_t handle, const char *path)
{
    (void)handle, (void)path;
    return none;
}

bool backend_modulus(uint8_t handle, uint8_t modulus[PLAID_BLOCK])
{
    (void)handle, (void)modulus;
    return false;
}

bool backend_public(uint8_t handle, uint8_t block[PLAID_BLOCK])
{
    (void)handle, (void)block;
    return false;
}

bool backend_private(uint8_t handle, uint8_t block[PLAID_BLOCK])
{
    (void)handle, (void)block;
    return false;
}

void backend_close(void)
{
}
