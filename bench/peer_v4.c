/* Version 4 over libsodium. */
#include <sodium.h>
#include <stdlib.h>
#include <string.h>

#include "peer_common.h"

#define TAG_LENGTH 32

static const char HEADER[] = "v4.local.";

/* What a separator and the nonce give under the key. */
static void derive(uint8_t *out, size_t out_length, const uint8_t key[32], const char *separator,
                   const uint8_t nonce[32])
{
    crypto_generichash_blake2b_state state;
    crypto_generichash_blake2b_init(&state, key, 32, out_length);
    crypto_generichash_blake2b_update(&state, (const uint8_t *)separator, strlen(separator));
    crypto_generichash_blake2b_update(&state, nonce, NONCE_LENGTH);
    crypto_generichash_blake2b_final(&state, out, out_length);
}

static void add_piece(crypto_generichash_blake2b_state *state, const void *piece, size_t length)
{
    uint8_t number[8];
    peer_le64(number, length);
    crypto_generichash_blake2b_update(state, number, sizeof number);
    crypto_generichash_blake2b_update(state, piece, length);
}

/* The tag over the pre-authentication encoding of header, nonce, ciphertext, footer and assertion. */
static void make_tag(uint8_t tag[TAG_LENGTH], const uint8_t key[32], const uint8_t nonce[32],
                     const uint8_t *ciphertext, size_t length)
{
    uint8_t authentication_key[32];
    derive(authentication_key, sizeof authentication_key, key, "paseto-auth-key-for-aead", nonce);
    crypto_generichash_blake2b_state state;
    crypto_generichash_blake2b_init(&state, authentication_key, sizeof authentication_key,
                                    TAG_LENGTH);
    uint8_t count[8];
    peer_le64(count, 5);
    crypto_generichash_blake2b_update(&state, count, sizeof count);
    add_piece(&state, HEADER, HEADER_LENGTH);
    add_piece(&state, nonce, NONCE_LENGTH);
    add_piece(&state, ciphertext, length);
    add_piece(&state, "", 0);
    add_piece(&state, "", 0);
    crypto_generichash_blake2b_final(&state, tag, TAG_LENGTH);
}

static void encrypt(uint8_t *out, const uint8_t *bytes, size_t length, const uint8_t key[32],
                    const uint8_t nonce[32])
{
    uint8_t keys[56];
    derive(keys, sizeof keys, key, "paseto-encryption-key", nonce);
    crypto_stream_xchacha20_xor(out, bytes, length, keys + 32, keys);
}

struct peer_bytes peer_v4_seal(const uint8_t key[32], const uint8_t nonce[32], const uint8_t *text,
                               size_t length)
{
    size_t payload_length = NONCE_LENGTH + length + TAG_LENGTH;
    uint8_t *payload = malloc(payload_length);
    if (payload == NULL) {
        return (struct peer_bytes){0};
    }
    memcpy(payload, nonce, NONCE_LENGTH);
    encrypt(payload + NONCE_LENGTH, text, length, key, nonce);
    make_tag(payload + NONCE_LENGTH + length, key, nonce, payload + NONCE_LENGTH, length);
    return peer_frame(HEADER, payload, payload_length);
}

struct peer_bytes peer_v4_open(const uint8_t key[32], const uint8_t *token, size_t length)
{
    struct peer_bytes payload = peer_unframe(HEADER, token, length, NONCE_LENGTH + TAG_LENGTH);
    if (payload.bytes == NULL) {
        return payload;
    }
    size_t text_length = payload.length - NONCE_LENGTH - TAG_LENGTH;
    const uint8_t *ciphertext = payload.bytes + NONCE_LENGTH;
    uint8_t tag[TAG_LENGTH];
    make_tag(tag, key, payload.bytes, ciphertext, text_length);
    if (crypto_verify_32(tag, ciphertext + text_length) != 0) {
        return peer_refused(payload.bytes);
    }
    uint8_t *text = malloc(text_length + 1);
    if (text == NULL) {
        return peer_refused(payload.bytes);
    }
    encrypt(text, ciphertext, text_length, key, payload.bytes);
    text[text_length] = 0;
    free(payload.bytes);
    return (struct peer_bytes){text, text_length};
}
