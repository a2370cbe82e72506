/* libcrypto 3, by EVP. Its blinding of private operations stays on, as it is from the start. */
#include "backend.h"

#include <openssl/core_names.h>
#include <openssl/crypto.h>
#include <openssl/evp.h>
#include <openssl/pem.h>
#include <openssl/rand.h>
#include <openssl/rsa.h>
#include <string.h>

/* The keys by handle, each ready for its operation; and the moduli of the private ones. */
static EVP_PKEY_CTX *public_keys[256], *private_keys[256];
static uint8_t moduli[256][PLAID_BLOCK];

const char *backend_rsa(void)
{
    static char name[64];
    BIO_snprintf(name, sizeof name, "libcrypto, OpenSSL %s", OpenSSL_version(OPENSSL_VERSION_STRING));
    return name;
}

const char *backend_source(void)
{
    return "libcrypto";
}

bool backend_random(uint8_t *to, size_t count)
{
    return RAND_priv_bytes(to, (int)count) == 1;
}

void backend_erase(void *at, size_t count)
{
    OPENSSL_cleanse(at, count);
}

/* A key file with a passphrase is not asked for one: it is no key. */
static int no_passphrase(char *to, int room, int writing, void *data)
{
    (void)to, (void)room, (void)writing, (void)data;
    return -1;
}

typedef EVP_PKEY *pem_reader(FILE *, EVP_PKEY **, pem_password_cb *, void *);

/* Reads through a buffer that is erased behind it, since a private key's text goes through it. */
static EVP_PKEY *read_key(const char *path, pem_reader *reader)
{
    char text[BUFSIZ];
    FILE *f = fopen(path, "r");
    if (!f)
        return NULL;
    setvbuf(f, text, _IOFBF, sizeof text);
    EVP_PKEY *key = reader(f, NULL, no_passphrase, NULL);
    fclose(f);
    OPENSSL_cleanse(text, sizeof text);
    return key;
}

/* The modulus, where the key is an RSA key of 2048 bits. */
static bool modulus_of(const EVP_PKEY *key, uint8_t to[PLAID_BLOCK])
{
    BIGNUM *n = NULL;
    bool ok = EVP_PKEY_is_a(key, "RSA") && EVP_PKEY_get_bn_param(key, OSSL_PKEY_PARAM_RSA_N, &n) == 1
        && BN_num_bits(n) == 8 * PLAID_BLOCK && BN_bn2binpad(n, to, PLAID_BLOCK) == PLAID_BLOCK;
    BN_free(n);
    return ok;
}

typedef int operation_start(EVP_PKEY_CTX *);

static EVP_PKEY_CTX *ready(EVP_PKEY *key, operation_start *start)
{
    EVP_PKEY_CTX *c = EVP_PKEY_CTX_new_from_pkey(NULL, key, NULL);
    if (c && start(c) == 1 && EVP_PKEY_CTX_set_rsa_padding(c, RSA_NO_PADDING) == 1)
        return c;
    EVP_PKEY_CTX_free(c);
    return NULL;
}

static const char *load(EVP_PKEY_CTX **to, uint8_t modulus[PLAID_BLOCK], const char *path, pem_reader *reader, operation_start *start)
{
    EVP_PKEY *key = read_key(path, reader);
    if (!key)
        return "missing, or no key in it";
    bool fits = modulus_of(key, modulus);
    EVP_PKEY_CTX *c = fits ? ready(key, start) : NULL;
    EVP_PKEY_free(key); /* the context keeps it */
    if (!c)
        return fits ? "a key that libcrypto does not take" : "no RSA key of 2048 bits";
    EVP_PKEY_CTX_free(*to);
    *to = c;
    return NULL;
}

const char *backend_load_public(uint8_t handle, const char *path)
{
    uint8_t modulus[PLAID_BLOCK];
    return load(&public_keys[handle], modulus, path, PEM_read_PUBKEY, EVP_PKEY_encrypt_init);
}

const char *backend_load_private(uint8_t handle, const char *path)
{
    uint8_t modulus[PLAID_BLOCK];
    const char *why = load(&private_keys[handle], modulus, path, PEM_read_PrivateKey, EVP_PKEY_decrypt_init);
    if (!why)
        memcpy(moduli[handle], modulus, PLAID_BLOCK);
    return why;
}

bool backend_modulus(uint8_t handle, uint8_t modulus[PLAID_BLOCK])
{
    memcpy(modulus, moduli[handle], PLAID_BLOCK);
    return private_keys[handle] != NULL;
}

typedef int operation(EVP_PKEY_CTX *, unsigned char *, size_t *, const unsigned char *, size_t);

static bool operate(operation *does, EVP_PKEY_CTX *key, uint8_t block[PLAID_BLOCK])
{
    uint8_t result[PLAID_BLOCK];
    size_t length = sizeof result;
    bool ok = key && does(key, result, &length, block, PLAID_BLOCK) == 1 && length == PLAID_BLOCK;
    if (ok)
        memcpy(block, result, PLAID_BLOCK);
    OPENSSL_cleanse(result, sizeof result);
    return ok;
}

bool backend_public(uint8_t handle, uint8_t block[PLAID_BLOCK])
{
    return operate(EVP_PKEY_encrypt, public_keys[handle], block);
}

bool backend_private(uint8_t handle, uint8_t block[PLAID_BLOCK])
{
    return operate(EVP_PKEY_decrypt, private_keys[handle], block);
}

/* libcrypto erases a private key's numbers as it frees them. */
void backend_close(void)
{
    for (size_t i = 0; i < 256; i++) {
        EVP_PKEY_CTX_free(public_keys[i]);
        EVP_PKEY_CTX_free(private_keys[i]);
        public_keys[i] = private_keys[i] = NULL;
    }
    OPENSSL_cleanse(moduli, sizeof moduli);
}
