/*
 * What the examples' platform lends: random bytes, RSA by key handle, and erasing. A product has its own: a random number generator, and
 * RSA in hardware or by a library.
 */
#ifndef PLATFORM_H
#define PLATFORM_H

#include "plaid.h"

/* Takes RSA keys from this folder, as make-keys wrote them. NULL: no RSA but a stand-in, which hides nothing. */
void platform_open(const char *folder);

/* Loads a handle's key, once, before the first session. False where it is not there: platform_trouble says why. */
bool platform_load_public(uint8_t handle);
bool platform_load_private(uint8_t handle);
const char *platform_trouble(void);

/* Erases the keys. */
void platform_close(void);

/* What does the RSA, and where random bytes come from, in words. */
bool platform_is_stand_in(void);
const char *platform_rsa(void);
const char *platform_source(void);

/* Random bytes; and fresh bytes for one command call of a card with this L, whose pad bytes are not 0. False where there are none. */
bool platform_random(uint8_t *to, size_t count);
bool platform_fresh(uint8_t fresh[PLAID_FRESH], size_t key_length);

/* RSA without padding, in place, by the public key that the handle names. False where it failed. */
bool platform_encrypt(uint8_t handle, uint8_t block[PLAID_BLOCK]);

/*
 * The same by the private key. Whatever the number in the block, one full private operation is made: time does not tell whether it was
 * below the modulus. Where it was not, the block comes back as zeros, and that is no failure. False where the operation itself failed,
 * with zeros too.
 */
bool platform_decrypt(uint8_t handle, uint8_t block[PLAID_BLOCK]);

/* Erases a secret. */
void platform_erase(void *at, size_t count);

#endif
