/* Keys as PASERK text, and keys of local tokens as PASERK wraps them, as a user of libsodium (version 4) and of OpenSSL
   (version 3) writes it: under a wrapping key, under a password by the cost of the specification's vectors, and sealed to
   a public key. */
#define OPENSSL_API_COMPAT 0x10100000L
#include <openssl/evp.h>
#include <openssl/sha.h>
#include <sodium.h>
#include <stdlib.h>
#include <string.h>

#include "peer_common.h"

#define KEY 32
#define NONCE 32
#define TAG3 48
#define POINT3 49

/* What a password costs: 64 MiB, filled twice, and 100,000 iterations. */
#define MEMORY (64u << 20)
#define PASSES 2
#define ITERATIONS 100000

/* A message in pieces, which no hash here has more of. */
struct pieces {
    uint8_t bytes[400];
    size_t length;
};

static void add(struct pieces *pieces, const void *bytes, size_t length)
{
    memcpy(pieces->bytes + pieces->length, bytes, length);
    pieces->length += length;
}

static struct pieces joined(const void *first, size_t first_length, const void *second, size_t second_length)
{
    struct pieces pieces = {.length = 0};
    add(&pieces, first, first_length);
    add(&pieces, second, second_length);
    return pieces;
}

/* What is hashed to derive a key: a byte, and what stands behind it. */
static struct pieces domain(uint8_t byte, const void *bytes, size_t length)
{
    return joined(&byte, 1, bytes, length);
}

static void blake2b(uint8_t *out, size_t length, const struct pieces *message, const uint8_t *key, size_t key_length)
{
    crypto_generichash_blake2b(out, length, message->bytes, message->length, key, key_length);
}

static void hmac(uint8_t code[TAG3], const struct pieces *message, const uint8_t *key, size_t key_length)
{
    peer_hmac_sha384(key, key_length, message->bytes, message->length, code);
}

static void sha384(uint8_t digest[TAG3], const struct pieces *message)
{
    SHA384(message->bytes, message->length, digest);
}

/* The text of a payload in two parts. */
static struct peer_bytes text_of(const char *header, const void *front, size_t front_length, const void *back,
                                 size_t back_length)
{
    uint8_t *payload = malloc(front_length + back_length);
    if (payload == NULL) {
        return (struct peer_bytes){0};
    }
    memcpy(payload, front, front_length);
    memcpy(payload + front_length, back, back_length);
    return peer_frame(header, payload, front_length + back_length);
}

/* ---- version 4 */

/* A key, encrypted or decrypted, and the tag of both. */
static struct peer_bytes copy4(const uint8_t *bytes, const uint8_t *nonce, const uint8_t *encryption_key)
{
    uint8_t *copy = malloc(KEY);
    if (copy != NULL) {
        crypto_stream_xchacha20_xor(copy, bytes, KEY, nonce, encryption_key);
    }
    return (struct peer_bytes){copy, copy == NULL ? 0 : KEY};
}

static const char SECRET4[] = "k4.secret.";
#define SECRET 64
#define SECRET_TEXT 86

/* libsodium's base64 indexes no table by a secret. */
struct peer_bytes peer_v4_write_key(const uint8_t private_key[64])
{
    size_t header = strlen(SECRET4);
    char *text = malloc(header + SECRET_TEXT + 1);
    if (text == NULL) {
        return (struct peer_bytes){0};
    }
    memcpy(text, SECRET4, header);
    sodium_bin2base64(text + header, SECRET_TEXT + 1, private_key, SECRET, sodium_base64_VARIANT_URLSAFE_NO_PADDING);
    return (struct peer_bytes){(uint8_t *)text, header + SECRET_TEXT};
}

struct peer_bytes peer_v4_read_key(const uint8_t *text, size_t length)
{
    size_t header = strlen(SECRET4), read = 0;
    uint8_t *key = malloc(SECRET);
    if (key == NULL || length <= header || memcmp(text, SECRET4, header) != 0
        || sodium_base642bin(key, SECRET, (const char *)text + header, length - header, NULL, &read, NULL,
                             sodium_base64_VARIANT_URLSAFE_NO_PADDING) != 0
        || read != SECRET) {
        free(key);
        return (struct peer_bytes){0};
    }
    return (struct peer_bytes){key, SECRET};
}

static const char WRAP4[] = "k4.local-wrap.pie.";

static void wrapping_keys4(uint8_t x[56], uint8_t authentication_key[KEY], const uint8_t *wrapping_key,
                           const uint8_t *nonce)
{
    struct pieces encryption = domain(0x80, nonce, NONCE), authentication = domain(0x81, nonce, NONCE);
    blake2b(x, 56, &encryption, wrapping_key, KEY);
    blake2b(authentication_key, KEY, &authentication, wrapping_key, KEY);
}

/* The tag of a header, a front and a ciphertext. */
static void tag4(uint8_t tag[KEY], const char *header, const void *front, size_t front_length, const uint8_t *ciphertext,
                 const uint8_t *authentication_key)
{
    struct pieces message = joined(header, strlen(header), front, front_length);
    add(&message, ciphertext, KEY);
    blake2b(tag, KEY, &message, authentication_key, KEY);
}

struct peer_bytes peer_v4_wrap(const uint8_t wrapping_key[32], const uint8_t nonce[32], const uint8_t key[32])
{
    uint8_t x[56], authentication_key[KEY], ciphertext[KEY], tag[KEY];
    wrapping_keys4(x, authentication_key, wrapping_key, nonce);
    crypto_stream_xchacha20_xor(ciphertext, key, KEY, x + KEY, x);
    tag4(tag, WRAP4, nonce, NONCE, ciphertext, authentication_key);
    struct pieces front = joined(tag, KEY, nonce, NONCE);
    return text_of(WRAP4, front.bytes, front.length, ciphertext, KEY);
}

struct peer_bytes peer_v4_unwrap(const uint8_t wrapping_key[32], const uint8_t *text, size_t length)
{
    struct peer_bytes payload = peer_unframe(WRAP4, text, length, KEY + NONCE);
    if (payload.bytes == NULL || payload.length != KEY + NONCE + KEY) {
        return peer_refused(payload.bytes);
    }
    uint8_t x[56], authentication_key[KEY], tag[KEY];
    const uint8_t *nonce = payload.bytes + KEY, *ciphertext = nonce + NONCE;
    wrapping_keys4(x, authentication_key, wrapping_key, nonce);
    tag4(tag, WRAP4, nonce, NONCE, ciphertext, authentication_key);
    if (sodium_memcmp(tag, payload.bytes, KEY) != 0) {
        return peer_refused(payload.bytes);
    }
    struct peer_bytes key = copy4(ciphertext, x + KEY, x);
    free(payload.bytes);
    return key;
}

static const char PASSWORD4[] = "k4.local-pw.";

/* The salt, the cost and the nonce: 16, 16 and 24 bytes. */
static struct pieces front4(const uint8_t *salt, const uint8_t *nonce)
{
    static const uint8_t COST[16] = {0, 0, 0, 0, MEMORY >> 24, 0, 0, 0, 0, 0, 0, PASSES, 0, 0, 0, 1};
    struct pieces front = joined(salt, 16, COST, sizeof COST);
    add(&front, nonce, 24);
    return front;
}

struct peer_bytes peer_v4_protect(const uint8_t *password, size_t length, const uint8_t salt[16],
                                  const uint8_t nonce[24], const uint8_t key[32])
{
    uint8_t password_key[KEY], encryption_key[KEY], authentication_key[KEY], ciphertext[KEY], tag[KEY];
    if (crypto_pwhash(password_key, KEY, (const char *)password, length, salt, PASSES, MEMORY,
                      crypto_pwhash_ALG_ARGON2ID13)
        != 0) {
        return (struct peer_bytes){0};
    }
    struct pieces encryption = domain(0xff, password_key, KEY), authentication = domain(0xfe, password_key, KEY);
    blake2b(encryption_key, KEY, &encryption, NULL, 0);
    blake2b(authentication_key, KEY, &authentication, NULL, 0);
    crypto_stream_xchacha20_xor(ciphertext, key, KEY, nonce, encryption_key);
    struct pieces front = front4(salt, nonce);
    tag4(tag, PASSWORD4, front.bytes, front.length, ciphertext, authentication_key);
    add(&front, ciphertext, KEY);
    return text_of(PASSWORD4, front.bytes, front.length, tag, KEY);
}

static const char SEAL4[] = "k4.seal.";

/* The keys that are made of what was agreed on: the encryption key, the authentication key and the nonce. */
static void sealing_keys4(uint8_t keys[2][KEY], uint8_t nonce[24], const uint8_t *shared, const uint8_t *ephemeral,
                          const uint8_t *point)
{
    for (uint8_t i = 0; i < 2; i++) {
        struct pieces message = domain(i + 1, SEAL4, strlen(SEAL4));
        add(&message, shared, KEY);
        add(&message, ephemeral, KEY);
        add(&message, point, KEY);
        blake2b(keys[i], KEY, &message, NULL, 0);
    }
    struct pieces points = joined(ephemeral, KEY, point, KEY);
    blake2b(nonce, 24, &points, NULL, 0);
}

struct peer_bytes peer_v4_seal_key(const uint8_t public_key[32], const uint8_t ephemeral[32], const uint8_t key[32])
{
    uint8_t point[KEY], shared[KEY], ephemeral_point[KEY], keys[2][KEY], nonce[24], ciphertext[KEY], tag[KEY];
    if (crypto_sign_ed25519_pk_to_curve25519(point, public_key) != 0 || crypto_scalarmult(shared, ephemeral, point) != 0
        || crypto_scalarmult_base(ephemeral_point, ephemeral) != 0) {
        return (struct peer_bytes){0};
    }
    sealing_keys4(keys, nonce, shared, ephemeral_point, point);
    crypto_stream_xchacha20_xor(ciphertext, key, KEY, nonce, keys[0]);
    tag4(tag, SEAL4, ephemeral_point, KEY, ciphertext, keys[1]);
    struct pieces front = joined(tag, KEY, ephemeral_point, KEY);
    return text_of(SEAL4, front.bytes, front.length, ciphertext, KEY);
}

struct peer_bytes peer_v4_unseal_key(const uint8_t private_key[64], const uint8_t *text, size_t length)
{
    struct peer_bytes payload = peer_unframe(SEAL4, text, length, 3 * KEY);
    if (payload.bytes == NULL || payload.length != 3 * KEY) {
        return peer_refused(payload.bytes);
    }
    uint8_t point[KEY], secret[KEY], shared[KEY], keys[2][KEY], nonce[24], tag[KEY];
    const uint8_t *ephemeral = payload.bytes + KEY, *ciphertext = ephemeral + KEY;
    if (crypto_sign_ed25519_pk_to_curve25519(point, private_key + KEY) != 0
        || crypto_sign_ed25519_sk_to_curve25519(secret, private_key) != 0
        || crypto_scalarmult(shared, secret, ephemeral) != 0) {
        return peer_refused(payload.bytes);
    }
    sealing_keys4(keys, nonce, shared, ephemeral, point);
    tag4(tag, SEAL4, ephemeral, KEY, ciphertext, keys[1]);
    if (sodium_memcmp(tag, payload.bytes, KEY) != 0) {
        return peer_refused(payload.bytes);
    }
    struct peer_bytes key = copy4(ciphertext, nonce, keys[0]);
    free(payload.bytes);
    return key;
}

/* ---- version 3 */

/* The copy of a key, encrypted or decrypted. */
static struct peer_bytes copy3(const uint8_t *bytes, const uint8_t *counter, const uint8_t *encryption_key)
{
    uint8_t *copy = malloc(KEY);
    if (copy == NULL) {
        return (struct peer_bytes){0};
    }
    memcpy(copy, bytes, KEY);
    if (!peer_aes256_ctr(encryption_key, counter, copy, KEY)) {
        return peer_refused(copy);
    }
    return (struct peer_bytes){copy, KEY};
}

static const char WRAP3[] = "k3.local-wrap.pie.";

static void wrapping_keys3(uint8_t x[TAG3], uint8_t authentication_key[TAG3], const uint8_t *wrapping_key,
                           const uint8_t *nonce)
{
    struct pieces encryption = domain(0x80, nonce, NONCE), authentication = domain(0x81, nonce, NONCE);
    hmac(x, &encryption, wrapping_key, KEY);
    hmac(authentication_key, &authentication, wrapping_key, KEY);
}

static void tag3(uint8_t tag[TAG3], const char *header, const void *front, size_t front_length,
                 const uint8_t *ciphertext, const uint8_t *authentication_key, size_t key_length)
{
    struct pieces message = joined(header, strlen(header), front, front_length);
    add(&message, ciphertext, KEY);
    hmac(tag, &message, authentication_key, key_length);
}

struct peer_bytes peer_v3_wrap(const uint8_t wrapping_key[32], const uint8_t nonce[32], const uint8_t key[32])
{
    uint8_t x[TAG3], authentication_key[TAG3], ciphertext[KEY], tag[TAG3];
    wrapping_keys3(x, authentication_key, wrapping_key, nonce);
    memcpy(ciphertext, key, KEY);
    if (!peer_aes256_ctr(x, x + KEY, ciphertext, KEY)) {
        return (struct peer_bytes){0};
    }
    tag3(tag, WRAP3, nonce, NONCE, ciphertext, authentication_key, KEY);
    struct pieces front = joined(tag, TAG3, nonce, NONCE);
    return text_of(WRAP3, front.bytes, front.length, ciphertext, KEY);
}

struct peer_bytes peer_v3_unwrap(const uint8_t wrapping_key[32], const uint8_t *text, size_t length)
{
    struct peer_bytes payload = peer_unframe(WRAP3, text, length, TAG3 + NONCE);
    if (payload.bytes == NULL || payload.length != TAG3 + NONCE + KEY) {
        return peer_refused(payload.bytes);
    }
    uint8_t x[TAG3], authentication_key[TAG3], tag[TAG3];
    const uint8_t *nonce = payload.bytes + TAG3, *ciphertext = nonce + NONCE;
    wrapping_keys3(x, authentication_key, wrapping_key, nonce);
    tag3(tag, WRAP3, nonce, NONCE, ciphertext, authentication_key, KEY);
    if (sodium_memcmp(tag, payload.bytes, TAG3) != 0) {
        return peer_refused(payload.bytes);
    }
    struct peer_bytes key = copy3(ciphertext, x + KEY, x);
    free(payload.bytes);
    return key;
}

static const char PASSWORD3[] = "k3.local-pw.";

bool peer_pbkdf2(const uint8_t *password, size_t length, const uint8_t salt[32], uint8_t key[48])
{
    return PKCS5_PBKDF2_HMAC((const char *)password, (int)length, salt, 32, ITERATIONS, EVP_sha384(), TAG3, key) == 1;
}

struct peer_bytes peer_v3_protect(const uint8_t *password, size_t length, const uint8_t salt[32],
                                  const uint8_t nonce[16], const uint8_t key[32])
{
    static const uint8_t COST[4] = {0, ITERATIONS >> 16, (uint8_t)(ITERATIONS >> 8), (uint8_t)ITERATIONS};
    uint8_t password_key[TAG3], encryption_key[TAG3], authentication_key[TAG3], ciphertext[KEY], tag[TAG3];
    if (!peer_pbkdf2(password, length, salt, password_key)) {
        return (struct peer_bytes){0};
    }
    struct pieces encryption = domain(0xff, password_key, KEY), authentication = domain(0xfe, password_key, KEY);
    sha384(encryption_key, &encryption);
    sha384(authentication_key, &authentication);
    memcpy(ciphertext, key, KEY);
    if (!peer_aes256_ctr(encryption_key, nonce, ciphertext, KEY)) {
        return (struct peer_bytes){0};
    }
    struct pieces front = joined(salt, 32, COST, sizeof COST);
    add(&front, nonce, 16);
    tag3(tag, PASSWORD3, front.bytes, front.length, ciphertext, authentication_key, TAG3);
    add(&front, ciphertext, KEY);
    return text_of(PASSWORD3, front.bytes, front.length, tag, TAG3);
}

static const char SEAL3[] = "k3.seal.";

/* The encryption key with the counter behind it, and the authentication key. */
static void sealing_keys3(uint8_t keys[2][TAG3], const uint8_t *shared, const uint8_t *ephemeral, const uint8_t *point)
{
    for (uint8_t i = 0; i < 2; i++) {
        struct pieces message = domain(i + 1, SEAL3, strlen(SEAL3));
        add(&message, shared, TAG3);
        add(&message, ephemeral, POINT3);
        add(&message, point, POINT3);
        sha384(keys[i], &message);
    }
}

struct peer_bytes peer_v3_seal_key(const uint8_t public_key[49], const uint8_t ephemeral[48], const uint8_t key[32])
{
    uint8_t shared[TAG3], ephemeral_point[POINT3], keys[2][TAG3], ciphertext[KEY], tag[TAG3];
    if (!peer_p384_public_key(ephemeral, ephemeral_point) || !peer_p384_shared(ephemeral, public_key, shared)) {
        return (struct peer_bytes){0};
    }
    sealing_keys3(keys, shared, ephemeral_point, public_key);
    memcpy(ciphertext, key, KEY);
    if (!peer_aes256_ctr(keys[0], keys[0] + KEY, ciphertext, KEY)) {
        return (struct peer_bytes){0};
    }
    tag3(tag, SEAL3, ephemeral_point, POINT3, ciphertext, keys[1], TAG3);
    struct pieces front = joined(tag, TAG3, ephemeral_point, POINT3);
    return text_of(SEAL3, front.bytes, front.length, ciphertext, KEY);
}

struct peer_bytes peer_v3_unseal_key(const uint8_t private_key[48], const uint8_t *text, size_t length)
{
    struct peer_bytes payload = peer_unframe(SEAL3, text, length, TAG3 + POINT3 + KEY);
    if (payload.bytes == NULL || payload.length != TAG3 + POINT3 + KEY) {
        return peer_refused(payload.bytes);
    }
    uint8_t point[POINT3], shared[TAG3], keys[2][TAG3], tag[TAG3];
    const uint8_t *ephemeral = payload.bytes + TAG3, *ciphertext = ephemeral + POINT3;
    if (!peer_p384_public_key(private_key, point) || !peer_p384_shared(private_key, ephemeral, shared)) {
        return peer_refused(payload.bytes);
    }
    sealing_keys3(keys, shared, ephemeral, point);
    tag3(tag, SEAL3, ephemeral, POINT3, ciphertext, keys[1], TAG3);
    if (sodium_memcmp(tag, payload.bytes, TAG3) != 0) {
        return peer_refused(payload.bytes);
    }
    struct peer_bytes key = copy3(ciphertext, keys[0] + KEY, keys[0]);
    free(payload.bytes);
    return key;
}
