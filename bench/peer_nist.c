/* Versions 1 and 3 over OpenSSL. SHA-384 is called directly, with HMAC and HKDF written over it: EVP_MAC and
   EVP_KDF set themselves up for each message, which takes longer than a short message. The cipher is fetched once. */
#define OPENSSL_API_COMPAT 0x10100000L
#include <openssl/crypto.h>
#include <openssl/evp.h>
#include <openssl/sha.h>
#include <sodium.h>
#include <stdlib.h>
#include <string.h>

#include "peer_common.h"

#define BLOCK_LENGTH 128
#define TAG_LENGTH 48

static EVP_CIPHER *aes256_ctr;

bool peer_start(void)
{
    aes256_ctr = EVP_CIPHER_fetch(NULL, "AES-256-CTR", NULL);
    return sodium_init() >= 0 && aes256_ctr != NULL;
}

/* HMAC-SHA384 under a key of at most a block: the hash over the message, and the one over that hash. */
struct hmac {
    SHA512_CTX inner, outer;
};

static void start_hmac(struct hmac *hmac, const uint8_t *key, size_t key_length)
{
    uint8_t block[BLOCK_LENGTH];
    memset(block, 0x36, sizeof block);
    for (size_t i = 0; i < key_length; i++) {
        block[i] ^= key[i];
    }
    SHA384_Init(&hmac->inner);
    SHA384_Update(&hmac->inner, block, sizeof block);
    for (size_t i = 0; i < sizeof block; i++) {
        block[i] ^= 0x36 ^ 0x5c;
    }
    SHA384_Init(&hmac->outer);
    SHA384_Update(&hmac->outer, block, sizeof block);
}

static void finish_hmac(struct hmac *hmac, uint8_t code[TAG_LENGTH])
{
    SHA384_Final(code, &hmac->inner);
    SHA384_Update(&hmac->outer, code, TAG_LENGTH);
    SHA384_Final(code, &hmac->outer);
}

void peer_hmac_sha384(const uint8_t *key, size_t key_length, const uint8_t *message, size_t length,
                      uint8_t code[48])
{
    struct hmac hmac;
    start_hmac(&hmac, key, key_length);
    SHA384_Update(&hmac.inner, message, length);
    finish_hmac(&hmac, code);
}

bool peer_aes256_ctr(const uint8_t key[32], const uint8_t counter[16], uint8_t *data, size_t length)
{
    EVP_CIPHER_CTX *context = EVP_CIPHER_CTX_new();
    if (context == NULL) {
        return false;
    }
    int written;
    bool is_done = EVP_EncryptInit_ex2(context, aes256_ctr, key, counter, NULL) == 1
        && EVP_EncryptUpdate(context, data, &written, data, (int)length) == 1;
    EVP_CIPHER_CTX_free(context);
    return is_done;
}

/* A version of the NIST family. */
struct version {
    const char *header;
    bool is_third;
};

static const struct version V1 = {"v1.local.", false};
static const struct version V3 = {"v3.local.", true};

/* What a token's key is split into. */
struct keys {
    uint8_t encryption_key[48], authentication_key[48];
};

/* The first bytes that HKDF gives for a separator, and behind it in version 3 the nonce. */
static void expand(const struct version *version, uint8_t out[48], const uint8_t pseudorandom_key[48],
                   const char *separator, const uint8_t nonce[32])
{
    struct hmac hmac;
    start_hmac(&hmac, pseudorandom_key, 48);
    SHA384_Update(&hmac.inner, separator, strlen(separator));
    if (version->is_third) {
        SHA384_Update(&hmac.inner, nonce, NONCE_LENGTH);
    }
    SHA384_Update(&hmac.inner, "\1", 1);
    finish_hmac(&hmac, out);
}

/* Version 1 has the nonce's first half as the salt, version 3 has none. */
static void split(const struct version *version, struct keys *keys, const uint8_t key[32], const uint8_t nonce[32])
{
    uint8_t pseudorandom_key[48];
    peer_hmac_sha384(nonce, version->is_third ? 0 : 16, key, 32, pseudorandom_key);
    expand(version, keys->encryption_key, pseudorandom_key, "paseto-encryption-key", nonce);
    expand(version, keys->authentication_key, pseudorandom_key, "paseto-auth-key-for-aead", nonce);
}

static bool encrypt(const struct version *version, uint8_t *data, size_t length, const struct keys *keys,
                    const uint8_t nonce[32])
{
    const uint8_t *counter = version->is_third ? keys->encryption_key + 32 : nonce + 16;
    return peer_aes256_ctr(keys->encryption_key, counter, data, length);
}

static void add_piece(struct hmac *hmac, const void *piece, size_t length)
{
    uint8_t number[8];
    peer_le64(number, length);
    SHA384_Update(&hmac->inner, number, sizeof number);
    SHA384_Update(&hmac->inner, piece, length);
}

/* The tag over the pre-authentication encoding of header, nonce, ciphertext, footer and, in version 3,
   assertion. */
static void make_tag(const struct version *version, uint8_t tag[TAG_LENGTH], const struct keys *keys,
                     const uint8_t nonce[32], const uint8_t *ciphertext, size_t length)
{
    struct hmac hmac;
    start_hmac(&hmac, keys->authentication_key, version->is_third ? 48 : 32);
    uint8_t count[8];
    peer_le64(count, version->is_third ? 5 : 4);
    SHA384_Update(&hmac.inner, count, sizeof count);
    add_piece(&hmac, version->header, HEADER_LENGTH);
    add_piece(&hmac, nonce, NONCE_LENGTH);
    add_piece(&hmac, ciphertext, length);
    add_piece(&hmac, "", 0);
    if (version->is_third) {
        add_piece(&hmac, "", 0);
    }
    finish_hmac(&hmac, tag);
}

static struct peer_bytes seal(const struct version *version, const uint8_t key[32],
                              const uint8_t nonce[32], const uint8_t *text, size_t length)
{
    size_t payload_length = NONCE_LENGTH + length + TAG_LENGTH;
    uint8_t *payload = malloc(payload_length);
    if (payload == NULL) {
        return (struct peer_bytes){0};
    }
    uint8_t *ciphertext = payload + NONCE_LENGTH;
    memcpy(payload, nonce, NONCE_LENGTH);
    memcpy(ciphertext, text, length);
    struct keys keys;
    split(version, &keys, key, nonce);
    if (!encrypt(version, ciphertext, length, &keys, nonce)) {
        return peer_refused(payload);
    }
    make_tag(version, ciphertext + length, &keys, nonce, ciphertext, length);
    return peer_frame(version->header, payload, payload_length);
}

static struct peer_bytes open_token(const struct version *version, const uint8_t key[32],
                                    const uint8_t *token, size_t length)
{
    struct peer_bytes payload
        = peer_unframe(version->header, token, length, NONCE_LENGTH + TAG_LENGTH);
    if (payload.bytes == NULL) {
        return payload;
    }
    size_t text_length = payload.length - NONCE_LENGTH - TAG_LENGTH;
    const uint8_t *ciphertext = payload.bytes + NONCE_LENGTH;
    uint8_t tag[TAG_LENGTH];
    struct keys keys;
    split(version, &keys, key, payload.bytes);
    make_tag(version, tag, &keys, payload.bytes, ciphertext, text_length);
    if (CRYPTO_memcmp(tag, ciphertext + text_length, TAG_LENGTH) != 0) {
        return peer_refused(payload.bytes);
    }
    uint8_t *text = malloc(text_length + 1);
    if (text == NULL) {
        return peer_refused(payload.bytes);
    }
    memcpy(text, ciphertext, text_length);
    text[text_length] = 0;
    bool is_done = encrypt(version, text, text_length, &keys, payload.bytes);
    free(payload.bytes);
    return is_done ? (struct peer_bytes){text, text_length} : peer_refused(text);
}

struct peer_bytes peer_v1_seal(const uint8_t key[32], const uint8_t nonce[32], const uint8_t *text,
                               size_t length)
{
    uint8_t code[48];
    peer_hmac_sha384(nonce, NONCE_LENGTH, text, length, code);
    return seal(&V1, key, code, text, length);
}

struct peer_bytes peer_v3_seal(const uint8_t key[32], const uint8_t nonce[32], const uint8_t *text,
                               size_t length)
{
    return seal(&V3, key, nonce, text, length);
}

struct peer_bytes peer_v1_open(const uint8_t key[32], const uint8_t *token, size_t length)
{
    return open_token(&V1, key, token, length);
}

struct peer_bytes peer_v3_open(const uint8_t key[32], const uint8_t *token, size_t length)
{
    return open_token(&V3, key, token, length);
}
