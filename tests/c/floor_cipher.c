/* The cipher, by functions of a library that the program has loaded. */
#include "floor.h"
#include "floor_calls.h"

typedef void cipher_function(const void *state, size_t length, uint8_t *out, const uint8_t *in);

static void (*set_key)(void *state, const uint8_t *key);
static cipher_function *encrypt;
static void (*crypt)(const void *state, cipher_function *cipher, size_t block, uint8_t *counter,
                     size_t length, uint8_t *out, const uint8_t *in);

static int tom_cipher;
static int (*tom_start)(int cipher, const uint8_t *counter, const uint8_t *key, int length,
                        int rounds, int mode, void *state);
static int (*tom_encrypt)(const uint8_t *in, uint8_t *out, unsigned long length, void *state);
static int (*tom_done)(void *state);

/* CTR_COUNTER_BIG_ENDIAN of tomcrypt_cipher.h. */
enum { BIG_ENDIAN_COUNTER = 0x1000 };

void floor_use_nettle(void *set_key_address, void *encrypt_address, void *crypt_address)
{
    memcpy(&set_key, &set_key_address, sizeof set_key);
    memcpy(&encrypt, &encrypt_address, sizeof encrypt);
    memcpy(&crypt, &crypt_address, sizeof crypt);
}

void floor_use_tomcrypt(int cipher, void *start, void *encrypt_address, void *done)
{
    tom_cipher = cipher;
    memcpy(&tom_start, &start, sizeof tom_start);
    memcpy(&tom_encrypt, &encrypt_address, sizeof tom_encrypt);
    memcpy(&tom_done, &done, sizeof tom_done);
}

void floor_stream(const uint8_t *key, uint8_t *out, const uint8_t *in, size_t length)
{
    uint8_t counter[16] = { 0 };
    if (crypt) {
        _Alignas(64) uint8_t state[512];
        set_key(state, key);
        crypt(state, encrypt, 16, counter, length, out, in);
    } else {
        static _Alignas(64) uint8_t state[16384];
        tom_start(tom_cipher, counter, key, 16, 0, BIG_ENDIAN_COUNTER, state);
        tom_encrypt(in, out, length, state);
        tom_done(state);
    }
}
