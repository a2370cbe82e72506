/*
 * What stands below platform.c: a library's random bytes, RSA and erasing. One of two files has it, and build chooses:
 * backend_libcrypto.c, or backend_none.c where libcrypto is missing, which has no RSA.
 */
#ifndef BACKEND_H
#define BACKEND_H

#include "plaid.h"

/* The library in words; NULL: none, and so no RSA. */
const char *backend_rsa(void);

/* Random bytes, and where they come from. False where there are none. */
bool backend_random(uint8_t *to, size_t count);
const char *backend_source(void);

/* Zeros, which no compiler leaves out. */
void backend_erase(void *at, size_t count);

/* Loads a handle's key from a PEM file, once. NULL where it is there; else why not, in words. */
const char *backend_load_public(uint8_t handle, const char *path);
const char *backend_load_private(uint8_t handle, const char *path);

/* The modulus of a handle's private key: 2048 bits, so its first byte is at least 0x80. False where no key was loaded. */
bool backend_modulus(uint8_t handle, uint8_t modulus[PLAID_BLOCK]);

/* One RSA operation without padding, in place, on a number below the modulus. False where it failed or no key was loaded. */
bool backend_public(uint8_t handle, uint8_t block[PLAID_BLOCK]);
bool backend_private(uint8_t handle, uint8_t block[PLAID_BLOCK]);

/* Erases every key. */
void backend_close(void);

#endif
