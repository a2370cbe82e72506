/*
 * The operations of the program `speed`, by BearSSL: the same examples, each done a given number of times on the last
 * one's result, and the last result written in hexadecimal.
 *
 * bear small|big OPERATION TIMES. SHA-256 is the same for both. The operation expand-inverse-N expands a key of N bytes to
 * decipher.
 *
 * The operation parts-LIST is BearSSL's part of a command, one behind the other: xN and yN expand a key of N bytes to encipher and
 * to decipher, eN and dN encipher and decipher N blocks in CBC, hN hashes N bytes. Beside BearSSL's functions that takes some
 * ten instructions a part.
 */
#include <bearssl.h>
#include <stdio.h>
#include <stdlib.h>
#include <string.h>

static const br_block_cbcenc_class *enc;
static const br_block_cbcdec_class *dec;

static void unhex(unsigned char *out, const char *digits)
{
	for (; *digits; digits += 2) {
		unsigned b;
		sscanf(digits, "%2x", &b);
		*out++ = (unsigned char)b;
	}
}

/* Every turn starts from the same start block; zero for a single block, so that it is enciphered by itself. */
static void encipher(const unsigned char *key, size_t n, const char *start, unsigned char *text, size_t len, long times)
{
	br_aes_gen_cbcenc_keys ctx;
	unsigned char first[16], iv[16];
	unhex(first, start);
	enc->init(&ctx.vtable, key, n);
	while (times-- > 0) {
		memcpy(iv, first, 16);
		enc->run(&ctx.vtable, iv, text, len);
	}
}

static void decipher(const unsigned char *key, size_t n, const char *start, unsigned char *text, size_t len, long times)
{
	br_aes_gen_cbcdec_keys ctx;
	unsigned char first[16], iv[16];
	unhex(first, start);
	dec->init(&ctx.vtable, key, n);
	while (times-- > 0) {
		memcpy(iv, first, 16);
		dec->run(&ctx.vtable, iv, text, len);
	}
}

/* The last round key goes over the first 16 bytes of a key of n bytes, whose expansion has n + 28 words. */
static void last_round_key(unsigned char *key, size_t n, const uint32_t *words)
{
	for (int i = 0; i < 16; i++)
		key[i] = (unsigned char)(words[n + 24 + i / 4] >> (24 - 8 * (i % 4)));
}

static void expand(unsigned char *key, size_t n, long times)
{
	br_aes_gen_cbcenc_keys ctx;
	while (times-- > 0) {
		enc->init(&ctx.vtable, key, n);
		last_round_key(key, n, ctx.c_small.skey);
	}
}

static void expand_inverse(unsigned char *key, size_t n, long times)
{
	br_aes_gen_cbcdec_keys ctx;
	while (times-- > 0) {
		dec->init(&ctx.vtable, key, n);
		last_round_key(key, n, ctx.c_small.skey);
	}
}

/* Each digest goes over the text's first 32 bytes. */
static void sha256(unsigned char *text, size_t len, long times)
{
	while (times-- > 0) {
		br_sha256_context ctx;
		br_sha256_init(&ctx);
		br_sha256_update(&ctx, text, len);
		br_sha256_out(&ctx, text);
	}
}

static void part(char what, unsigned char *text, size_t n)
{
	static const unsigned char key[32];
	static br_aes_gen_cbcenc_keys to_encipher;
	static br_aes_gen_cbcdec_keys to_decipher;
	unsigned char iv[16] = { 0 };
	switch (what) {
	case 'x':
		enc->init(&to_encipher.vtable, key, n);
		break;
	case 'y':
		dec->init(&to_decipher.vtable, key, n);
		break;
	case 'e':
		enc->run(&to_encipher.vtable, iv, text, 16 * n);
		break;
	case 'd':
		dec->run(&to_decipher.vtable, iv, text, 16 * n);
		break;
	case 'h':
		sha256(text, n, 1);
		break;
	}
}

static void parts(const char *list, unsigned char *text, long times)
{
	char what[32];
	size_t of[32];
	int count = 0;
	while (*list && count < 32) {
		char *end;
		what[count] = *list++;
		of[count++] = strtoul(list, &end, 10);
		list = end;
	}
	while (times-- > 0)
		for (int i = 0; i < count; i++)
			part(what[i], text, of[i]);
}

/* The examples for keys of 16, 24 and 32 bytes: the keys of FIPS 197 A.1 to A.3, the ciphertexts of C.1 to C.3, and those of
   SP 800-38A F.2.1, F.2.3 and F.2.5. */
static const char *const keys[3] = {
	"2b7e151628aed2a6abf7158809cf4f3c",
	"8e73b0f7da0e6452c810f32b809079e562f8ead2522c6b7b",
	"603deb1015ca71be2b73aef0857d77811f352c073b6108d72d9810a30914dff4",
};
static const char *const ciphertexts[3] = {
	"69c4e0d86a7b0430d8cdb78070b4c55a",
	"dda97ca4864cdfe06eaf70a0ec0d7191",
	"8ea2b7ca516745bfeafc49904b496089",
};
static const char *const chains[3] = {
	"7649abac8119b246cee98e9b12e9197d5086cb9b507219ee95db113a917678b2"
	"73bed6b8e3c1743b7116e69e222295163ff1caa1681fac09120eca307586e1a7",
	"4f021db243bc633d7178183a9fa071e8b4d9ada9ad7dedf4e5e738763f69145a"
	"571b242012fb7ae07fa9baac3df102e008b0e27988598881d920a9e64f5615cd",
	"f58c4c04d6e5f1ba779eabfb5f7bfbd69cfc4e967edb808d679f777bc6702c7d"
	"39f23369a9d9bacfa530e26304231461b2eb05e2c39be9fcda6c19078c6a9d1b",
};

/* The N of the operation that is `name` and N, the length of a key; 0 where `op` is another one. */
static size_t key_length(const char *op, const char *name)
{
	size_t at = strlen(name);
	if (strncmp(op, name, at) != 0)
		return 0;
	unsigned long n = strtoul(op + at, NULL, 10);
	return n == 16 || n == 24 || n == 32 ? n : 0;
}

int main(int argc, char **argv)
{
	static const char zero[] = "00000000000000000000000000000000";
	static const char start[] = "000102030405060708090a0b0c0d0e0f";
	unsigned char text[1024] = { 0 };
	unsigned char key[32], counted[32];
	size_t n, len = 16;
	if (argc != 4)
		return 2;
	int big = strcmp(argv[1], "big") == 0;
	const char *op = argv[2];
	long times = atol(argv[3]);
	enc = big ? &br_aes_big_cbcenc_vtable : &br_aes_small_cbcenc_vtable;
	dec = big ? &br_aes_big_cbcdec_vtable : &br_aes_small_cbcdec_vtable;
	/* the keys of C.1 to C.3 */
	for (int i = 0; i < 32; i++)
		counted[i] = (unsigned char)i;
	if ((n = key_length(op, "encipher-")) != 0) {
		unhex(text, "00112233445566778899aabbccddeeff");
		encipher(counted, n, zero, text, len, times);
	} else if ((n = key_length(op, "decipher-")) != 0) {
		unhex(text, ciphertexts[n / 8 - 2]);
		decipher(counted, n, zero, text, len, times);
	} else if ((n = key_length(op, "expand-")) != 0) {
		unhex(text, keys[n / 8 - 2]);
		expand(text, n, times);
	} else if ((n = key_length(op, "expand-inverse-")) != 0) {
		unhex(text, keys[n / 8 - 2]);
		expand_inverse(text, n, times);
	} else if (strncmp(op, "sha256-", 7) == 0) {
		len = 32;
		sha256(text, strtoul(op + 7, NULL, 10) % 1025, times);
	} else if (strncmp(op, "parts-", 6) == 0) {
		parts(op + 6, text, times);
	} else if ((n = key_length(op, "cbc-encipher-")) != 0) {
		len = 64;
		unhex(key, keys[n / 8 - 2]);
		unhex(text, "6bc1bee22e409f96e93d7e117393172aae2d8a571e03ac9c9eb76fac45af8e51"
			    "30c81c46a35ce411e5fbc1191a0a52eff69f2445df4f9b17ad2b417be66c3710");
		encipher(key, n, start, text, len, times);
	} else if ((n = key_length(op, "cbc-decipher-")) != 0) {
		len = 64;
		unhex(key, keys[n / 8 - 2]);
		unhex(text, chains[n / 8 - 2]);
		decipher(key, n, start, text, len, times);
	} else {
		return 2;
	}
	for (size_t i = 0; i < len; i++)
		printf("%02x", text[i]);
	printf("\n");
	return 0;
}
