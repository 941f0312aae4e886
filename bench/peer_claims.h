/* What a service does with claims: a local token of version 4 over libsodium, whose claims jansson or cJSON writes and
   reads. */
#ifndef PEER_CLAIMS_H
#define PEER_CLAIMS_H

#include "peer.h"

/* The claims that a service sets. The builder adds iat, nbf and exp. */
struct claims {
    const char *issuer, *subject, *audience, *identifier;
};

/* A token of the claims, which is issued at a moment in seconds after 1970, is usable from it on, and expires an hour
   later. */
typedef struct peer_bytes peer_build(const uint8_t key[32], const uint8_t nonce[32], const struct claims *claims,
                                     int64_t now);

/* The claims of a token as their JSON, if exp and nbf hold at the moment and aud is the audience. */
typedef struct peer_bytes peer_parse(const uint8_t key[32], const uint8_t *token, size_t length, const char *audience,
                                     int64_t now);

/* How many members a JSON object has, or 0 where the text is none. */
typedef size_t peer_json_read(const uint8_t *text, size_t length);

peer_build peer_jansson_build, peer_cjson_build;
peer_parse peer_jansson_parse, peer_cjson_parse;
peer_json_read peer_jansson_read, peer_cjson_read;

const char *peer_jansson_version(void);
const char *peer_cjson_version(void);

#endif
