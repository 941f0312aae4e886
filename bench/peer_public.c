/* Public tokens of version 4 over libsodium, and of version 3 over OpenSSL. */
#include <sodium.h>
#include <stdlib.h>
#include <string.h>

#include "peer_common.h"

#define SIGNATURE_LENGTH 64
#define V3_SIGNATURE_LENGTH 96
#define POINT_LENGTH 49

static const char HEADER[] = "v4.public.";
static const char V3_HEADER[] = "v3.public.";

static uint8_t *put_piece(uint8_t *out, const void *piece, size_t length)
{
    peer_le64(out, length);
    memcpy(out + 8, piece, length);
    return out + 8 + length;
}

/* The pre-authentication encoding of a public key where there is one, of header, text, footer and assertion, which is
   what is signed. */
static struct peer_bytes encode_message(const char *header, const uint8_t *key, size_t key_length,
                                        const uint8_t *text, size_t length)
{
    size_t pieces = key == NULL ? 4 : 5;
    size_t message_length = (1 + pieces) * 8 + key_length + strlen(header) + length;
    uint8_t *message = malloc(message_length);
    if (message == NULL) {
        return (struct peer_bytes){0};
    }
    peer_le64(message, pieces);
    uint8_t *end = message + 8;
    if (key != NULL) {
        end = put_piece(end, key, key_length);
    }
    end = put_piece(end, header, strlen(header));
    end = put_piece(end, text, length);
    end = put_piece(end, "", 0);
    put_piece(end, "", 0);
    return (struct peer_bytes){message, message_length};
}

struct peer_bytes peer_v4_sign(const uint8_t private_key[64], const uint8_t *text, size_t length)
{
    struct peer_bytes message = encode_message(HEADER, NULL, 0, text, length);
    uint8_t *payload = malloc(length + SIGNATURE_LENGTH);
    if (message.bytes == NULL || payload == NULL) {
        free(message.bytes);
        return peer_refused(payload);
    }
    memcpy(payload, text, length);
    crypto_sign_detached(payload + length, NULL, message.bytes, message.length, private_key);
    free(message.bytes);
    return peer_frame(HEADER, payload, length + SIGNATURE_LENGTH);
}

struct peer_bytes peer_v4_verify(const uint8_t public_key[32], const uint8_t *token, size_t length)
{
    struct peer_bytes payload = peer_unframe(HEADER, token, length, SIGNATURE_LENGTH);
    if (payload.bytes == NULL) {
        return payload;
    }
    size_t text_length = payload.length - SIGNATURE_LENGTH;
    struct peer_bytes message = encode_message(HEADER, NULL, 0, payload.bytes, text_length);
    const uint8_t *signature = payload.bytes + text_length;
    bool is_valid = message.bytes != NULL
        && crypto_sign_verify_detached(signature, message.bytes, message.length, public_key) == 0;
    free(message.bytes);
    return is_valid ? (struct peer_bytes){payload.bytes, text_length} : peer_refused(payload.bytes);
}

struct peer_bytes peer_v3_sign(const uint8_t public_key[49], const uint8_t *text, size_t length)
{
    struct peer_bytes message = encode_message(V3_HEADER, public_key, POINT_LENGTH, text, length);
    uint8_t *payload = malloc(length + V3_SIGNATURE_LENGTH);
    if (message.bytes == NULL || payload == NULL
        || !peer_p384_sign(message.bytes, message.length, payload + length)) {
        free(message.bytes);
        return peer_refused(payload);
    }
    memcpy(payload, text, length);
    free(message.bytes);
    return peer_frame(V3_HEADER, payload, length + V3_SIGNATURE_LENGTH);
}

struct peer_bytes peer_v3_verify(const uint8_t public_key[49], const uint8_t *token, size_t length)
{
    struct peer_bytes payload = peer_unframe(V3_HEADER, token, length, V3_SIGNATURE_LENGTH);
    if (payload.bytes == NULL) {
        return payload;
    }
    size_t text_length = payload.length - V3_SIGNATURE_LENGTH;
    struct peer_bytes message =
        encode_message(V3_HEADER, public_key, POINT_LENGTH, payload.bytes, text_length);
    bool is_valid = message.bytes != NULL
        && peer_p384_verify(message.bytes, message.length, payload.bytes + text_length);
    free(message.bytes);
    return is_valid ? (struct peer_bytes){payload.bytes, text_length} : peer_refused(payload.bytes);
}
