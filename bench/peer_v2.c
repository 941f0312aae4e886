/* Version 2 over libsodium. */
#include <sodium.h>
#include <stdlib.h>
#include <string.h>

#include "peer_common.h"

#define BOX_NONCE_LENGTH 24
#define TAG_LENGTH 16

static const char HEADER[] = "v2.local.";

/* How long the pre-authentication encoding of header, nonce and empty footer is. */
#define DATA_LENGTH (8 + 8 + HEADER_LENGTH + 8 + BOX_NONCE_LENGTH + 8)

static void encode_data(uint8_t data[DATA_LENGTH], const uint8_t nonce[BOX_NONCE_LENGTH])
{
    peer_le64(data, 3);
    peer_le64(data + 8, HEADER_LENGTH);
    memcpy(data + 16, HEADER, HEADER_LENGTH);
    peer_le64(data + 16 + HEADER_LENGTH, BOX_NONCE_LENGTH);
    memcpy(data + 24 + HEADER_LENGTH, nonce, BOX_NONCE_LENGTH);
    peer_le64(data + 24 + HEADER_LENGTH + BOX_NONCE_LENGTH, 0);
}

/* The token's nonce is the text's hash under the given one. */
struct peer_bytes peer_v2_seal(const uint8_t key[32], const uint8_t nonce[32], const uint8_t *text,
                               size_t length)
{
    size_t payload_length = BOX_NONCE_LENGTH + length + TAG_LENGTH;
    uint8_t *payload = malloc(payload_length), data[DATA_LENGTH];
    if (payload == NULL) {
        return (struct peer_bytes){0};
    }
    crypto_generichash_blake2b(payload, BOX_NONCE_LENGTH, text, length, nonce, NONCE_LENGTH);
    encode_data(data, payload);
    crypto_aead_xchacha20poly1305_ietf_encrypt(payload + BOX_NONCE_LENGTH, NULL, text, length, data,
                                               sizeof data, NULL, payload, key);
    return peer_frame(HEADER, payload, payload_length);
}

struct peer_bytes peer_v2_open(const uint8_t key[32], const uint8_t *token, size_t length)
{
    struct peer_bytes payload = peer_unframe(HEADER, token, length, BOX_NONCE_LENGTH + TAG_LENGTH);
    if (payload.bytes == NULL) {
        return payload;
    }
    size_t text_length = payload.length - BOX_NONCE_LENGTH - TAG_LENGTH;
    uint8_t *text = malloc(text_length + 1), data[DATA_LENGTH];
    encode_data(data, payload.bytes);
    if (text == NULL
        || crypto_aead_xchacha20poly1305_ietf_decrypt(
               text, NULL, NULL, payload.bytes + BOX_NONCE_LENGTH, text_length + TAG_LENGTH, data,
               sizeof data, payload.bytes, key)
            != 0) {
        free(text);
        return peer_refused(payload.bytes);
    }
    text[text_length] = 0;
    free(payload.bytes);
    return (struct peer_bytes){text, text_length};
}
