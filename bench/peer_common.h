/* What tokens of all versions share. */
#ifndef PEER_COMMON_H
#define PEER_COMMON_H

#include "peer.h"

/* Of local tokens. */
#define HEADER_LENGTH 9
#define NONCE_LENGTH 32

/* The 64-bit number, least byte first. */
void peer_le64(uint8_t out[8], uint64_t number);

/* The token of a header and a payload, which it frees. */
struct peer_bytes peer_frame(const char *header, uint8_t *payload, size_t length);

/* The payload of a token with this header, of at least this length. */
struct peer_bytes peer_unframe(const char *header, const uint8_t *token, size_t length,
                               size_t least);

/* Frees the bytes, and is the answer of a call that failed. */
struct peer_bytes peer_refused(uint8_t *bytes);

#endif
