#include "peer_common.h"

#include <stdlib.h>
#include <string.h>

#include "base64url.h"

void peer_le64(uint8_t out[8], uint64_t number)
{
    for (int i = 0; i < 8; i++) {
        out[i] = (uint8_t)(number >> 8 * i);
    }
}

struct peer_bytes peer_refused(uint8_t *bytes)
{
    free(bytes);
    return (struct peer_bytes){0};
}

struct peer_bytes peer_frame(const char *header, uint8_t *payload, size_t length)
{
    size_t header_length = strlen(header);
    size_t token_length = header_length + base64url_encoded_length(length);
    uint8_t *token = malloc(token_length);
    if (token != NULL) {
        memcpy(token, header, header_length);
        base64url_encode(token + header_length, payload, length);
    }
    free(payload);
    return (struct peer_bytes){token, token == NULL ? 0 : token_length};
}

struct peer_bytes peer_unframe(const char *header, const uint8_t *token, size_t length,
                               size_t least)
{
    size_t header_length = strlen(header);
    if (length < header_length || memcmp(token, header, header_length) != 0) {
        return (struct peer_bytes){0};
    }
    size_t payload_length = base64url_decoded_length(length - header_length);
    if (payload_length < least) {
        return (struct peer_bytes){0};
    }
    uint8_t *payload = malloc(payload_length);
    if (payload == NULL
        || !base64url_decode(payload, token + header_length, length - header_length)) {
        return peer_refused(payload);
    }
    return (struct peer_bytes){payload, payload_length};
}
