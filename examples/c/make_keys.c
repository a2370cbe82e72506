/*
 * Makes RSA-2048 keys by libcrypto, as FOLDER/HANDLE-private.pem, which its owner alone can read, and FOLDER/HANDLE-public.pem.
 *
 *   make-keys FOLDER [HANDLE..]      HANDLE: two hexadecimal digits; none: those of the examples
 */
#include "hex.h"

#include <openssl/evp.h>
#include <openssl/pem.h>
#include <openssl/rsa.h>
#include <sys/stat.h>

static EVP_PKEY *make(void)
{
    EVP_PKEY *key = NULL;
    EVP_PKEY_CTX *c = EVP_PKEY_CTX_new_from_name(NULL, "RSA", NULL);
    if (!c || EVP_PKEY_keygen_init(c) != 1 || EVP_PKEY_CTX_set_rsa_keygen_bits(c, 2048) != 1 || EVP_PKEY_generate(c, &key) != 1)
        key = NULL;
    EVP_PKEY_CTX_free(c);
    return key;
}

/* Writes through a buffer that is erased behind it. */
static bool write_key(const char *folder, const char *handle, bool private, EVP_PKEY *key)
{
    char path[1024], text[BUFSIZ];
    if (snprintf(path, sizeof path, "%s/%s-%s.pem", folder, handle, private ? "private" : "public") >= (int)sizeof path)
        return false;
    umask(private ? 077 : 022);
    FILE *f = fopen(path, "w");
    if (!f)
        return false;
    setvbuf(f, text, _IOFBF, sizeof text);
    bool ok = (private ? PEM_write_PrivateKey(f, key, NULL, NULL, 0, NULL, NULL) : PEM_write_PUBKEY(f, key)) == 1;
    ok = fclose(f) == 0 && ok;
    OPENSSL_cleanse(text, sizeof text);
    return ok;
}

static bool make_for(const char *folder, const char *given)
{
    uint8_t handle;
    char digits[3];
    if (hex_bytes(given, &handle, 1) != 1) {
        fprintf(stderr, "make-keys: %s is no handle of two hexadecimal digits\n", given);
        return false;
    }
    snprintf(digits, sizeof digits, "%02X", handle);
    EVP_PKEY *key = make();
    bool ok = key && write_key(folder, digits, true, key) && write_key(folder, digits, false, key);
    EVP_PKEY_free(key);
    if (!ok)
        fprintf(stderr, "make-keys: no key for %s in %s\n", digits, folder);
    return ok;
}

int main(int argc, char **argv)
{
    static const char *const examples[] = {"11", "12", "1F", "21", "22"};
    if (argc < 2 || argv[1][0] == '-') {
        fprintf(stderr, "usage: make-keys FOLDER [HANDLE..]\n");
        return 2;
    }
    bool ok = true;
    if (argc == 2)
        for (size_t i = 0; i < sizeof examples / sizeof examples[0]; i++)
            ok = ok && make_for(argv[1], examples[i]);
    for (int i = 2; i < argc; i++)
        ok = ok && make_for(argv[1], argv[i]);
    return ok ? 0 : 1;
}
