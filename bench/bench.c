/* Measures the library beside libsodium and OpenSSL, in turn in one process, the best of many rounds,
   and first checks that both make the same bytes. It also counts how often each side asks for memory.

   bench [--quick] [NAME..]: those whose names begin with one of the words, else all. */
#include <inttypes.h>
#include <openssl/crypto.h>
#include <sodium.h>
#include <stdio.h>
#include <stdlib.h>
#include <string.h>
#include <time.h>

#include "paseto.h"
#include "test_bench.h"
#include "allocations.h"
#include "peer.h"
#include "peer_claims.h"

/* Data sizes, and how they are named. */
#define SIZES 5
#define LARGEST 1000000
static const size_t sizes[SIZES] = {0, 100, 1000, 10000, LARGEST};
static const char *size_names[SIZES] = {"0 B", "100 B", "1 KB", "10 KB", "1 MB"};

/* Room for the token of the largest text. */
#define ROOM (LARGEST / 3 * 4 + 300)

/* How many repetitions the comparison of bytes has. */
#define COMPARED 3

static const double slice_seconds = 0.001;
static double row_seconds = 1.5;

static uint8_t key[32], long_key[48], nonce[32], plain[LARGEST], token[ROOM], ours_out[ROOM], peer_out[ROOM];
static uint8_t private_key[64], public_key[32];
static size_t plain_length, token_length;

static double seconds(void)
{
    struct timespec now;
    clock_gettime(CLOCK_MONOTONIC, &now);
    return (double)now.tv_sec + (double)now.tv_nsec * 1e-9;
}

/* Something to measure: each side does its work so many times, writes the last answer to `out`, and
   answers a number that both sides agree on. */
struct subject {
    const char *name;
    /* Whether the length of the text is nothing to it, so that one row tells all. */
    bool has_one_row;
    uint64_t (*ours)(const struct subject *subject, uint8_t *out, uint32_t reps);
    uint64_t (*peer)(const struct subject *subject, uint8_t *out, uint32_t reps);
    size_t (*out_length)(void);
    /* The peer's token, box or signature of the text, where what is measured reads one or has to be as long. */
    struct peer_bytes (*prepared)(const struct subject *subject);
    paseto_bench_seal *ours_seal;
    peer_seal *peer_seal;
    paseto_bench_open *ours_open;
    peer_open *peer_open;
};

/* The answer where a side failed. */
#define FAILED PASETO_BENCH_FAILED

/* Writes a repetition's number to the first four bytes. */
static void write_number(uint8_t *bytes, uint32_t repetition)
{
    for (int i = 0; i < 4; i++) {
        bytes[i] = (uint8_t)(repetition >> 8 * i);
    }
}

static size_t token_size(void)
{
    return token_length;
}

static size_t plain_size(void)
{
    return plain_length;
}

static size_t digest_size(void)
{
    return 32;
}

static size_t hmac_size(void)
{
    return 48;
}

static size_t signature_size(void)
{
    return 64;
}

static size_t nothing(void)
{
    return 0;
}

static struct peer_bytes local_token(const struct subject *subject)
{
    return subject->peer_seal(key, nonce, plain, plain_length);
}

static uint64_t ours_seal(const struct subject *subject, uint8_t *out, uint32_t reps)
{
    return subject->ours_seal(key, 32, nonce, 32, plain, plain_length, out, token_length, reps);
}

/* The last token has the nonce as it is. */
static uint64_t peer_seals(const struct subject *subject, uint8_t *out, uint32_t reps)
{
    uint8_t numbered[32];
    uint64_t sum = 0;
    memcpy(numbered, nonce, sizeof numbered);
    for (uint32_t repetition = 1; repetition <= reps; repetition++) {
        write_number(numbered, repetition);
        const uint8_t *used = repetition == reps ? nonce : numbered;
        struct peer_bytes made = subject->peer_seal(key, used, plain, plain_length);
        if (made.bytes == NULL || made.length != token_length) {
            return FAILED;
        }
        sum += made.bytes[made.length - 1];
        if (repetition == reps) {
            memcpy(out, made.bytes, made.length);
        }
        free(made.bytes);
    }
    return sum;
}

static uint64_t ours_open(const struct subject *subject, uint8_t *out, uint32_t reps)
{
    return subject->ours_open(key, 32, token, token_length, out, plain_length, reps);
}

static uint64_t peer_opens(const struct subject *subject, uint8_t *out, uint32_t reps)
{
    uint64_t sum = 0;
    for (uint32_t repetition = 0; repetition < reps; repetition++) {
        struct peer_bytes made = subject->peer_open(key, token, token_length);
        if (made.bytes == NULL || made.length != plain_length) {
            return FAILED;
        }
        sum += made.length == 0 ? 0 : made.bytes[made.length - 1];
        if (repetition + 1 == reps) {
            memcpy(out, made.bytes, made.length);
        }
        free(made.bytes);
    }
    return sum;
}

static uint64_t ours_blake2b(const struct subject *subject, uint8_t *out, uint32_t reps)
{
    (void)subject;
    return paseto_bench_blake2b(key, 32, plain, plain_length, out, 32, reps);
}

/* The last digest is made under the key as it is. */
static uint64_t peer_blake2b(const struct subject *subject, uint8_t *out, uint32_t reps)
{
    (void)subject;
    uint8_t numbered[32];
    uint64_t sum = 0;
    memcpy(numbered, key, sizeof numbered);
    for (uint32_t repetition = 1; repetition <= reps; repetition++) {
        write_number(numbered, repetition);
        const uint8_t *used = repetition == reps ? key : numbered;
        if (crypto_generichash_blake2b(out, 32, plain, plain_length, used, 32) != 0) {
            return FAILED;
        }
        sum += out[0];
    }
    return sum;
}

static uint64_t ours_hmac(const struct subject *subject, uint8_t *out, uint32_t reps)
{
    (void)subject;
    return paseto_bench_hmac_sha384(long_key, 48, plain, plain_length, out, 48, reps);
}

static uint64_t peer_hmac(const struct subject *subject, uint8_t *out, uint32_t reps)
{
    (void)subject;
    uint8_t numbered[48];
    uint64_t sum = 0;
    memcpy(numbered, long_key, sizeof numbered);
    for (uint32_t repetition = 1; repetition <= reps; repetition++) {
        write_number(numbered, repetition);
        const uint8_t *used = repetition == reps ? long_key : numbered;
        peer_hmac_sha384(used, 48, plain, plain_length, out);
        sum += out[0];
    }
    return sum;
}

/* What is encrypted in place is the text once, and from then on what came of it. */
static uint64_t ours_xchacha20(const struct subject *subject, uint8_t *out, uint32_t reps)
{
    (void)subject;
    return paseto_bench_xchacha20(key, 32, nonce, 24, out, plain_length, reps);
}

static uint64_t peer_xchacha20(const struct subject *subject, uint8_t *out, uint32_t reps)
{
    (void)subject;
    uint8_t numbered[24];
    memcpy(numbered, nonce, sizeof numbered);
    for (uint32_t repetition = 0; repetition < reps; repetition++) {
        write_number(numbered, repetition);
        crypto_stream_xchacha20_xor(out, out, plain_length, numbered, key);
    }
    return 0;
}

static uint64_t ours_aes256_ctr(const struct subject *subject, uint8_t *out, uint32_t reps)
{
    (void)subject;
    return paseto_bench_aes256_ctr(key, 32, nonce, 16, out, plain_length, reps);
}

static uint64_t peer_aes256(const struct subject *subject, uint8_t *out, uint32_t reps)
{
    (void)subject;
    uint8_t numbered[16];
    memcpy(numbered, nonce, sizeof numbered);
    for (uint32_t repetition = 0; repetition < reps; repetition++) {
        write_number(numbered, repetition);
        if (!peer_aes256_ctr(key, numbered, out, plain_length)) {
            return FAILED;
        }
    }
    return 0;
}

/* A box has the long key's bytes as the data beside it. */
static uint64_t ours_box_seal(const struct subject *subject, uint8_t *out, uint32_t reps)
{
    (void)subject;
    return paseto_bench_xchacha20poly1305_seal(key, 32, nonce, 24, long_key, sizeof long_key, plain, plain_length,
                                               out, token_length, reps);
}

static uint64_t peer_box_seal(const struct subject *subject, uint8_t *out, uint32_t reps)
{
    (void)subject;
    uint8_t numbered[24];
    uint64_t sum = 0;
    memcpy(numbered, nonce, sizeof numbered);
    for (uint32_t repetition = 1; repetition <= reps; repetition++) {
        write_number(numbered, repetition);
        const uint8_t *used = repetition == reps ? nonce : numbered;
        uint8_t *boxed = malloc(token_length);
        if (boxed == NULL) {
            return FAILED;
        }
        crypto_aead_xchacha20poly1305_ietf_encrypt(boxed, NULL, plain, plain_length, long_key, sizeof long_key, NULL,
                                                   used, key);
        sum += boxed[token_length - 1];
        if (repetition == reps) {
            memcpy(out, boxed, token_length);
        }
        free(boxed);
    }
    return sum;
}

static uint64_t ours_box_open(const struct subject *subject, uint8_t *out, uint32_t reps)
{
    (void)subject;
    return paseto_bench_xchacha20poly1305_open(key, 32, nonce, 24, long_key, sizeof long_key, token, token_length,
                                               out, plain_length, reps);
}

static uint64_t peer_box_open(const struct subject *subject, uint8_t *out, uint32_t reps)
{
    (void)subject;
    uint64_t sum = 0;
    for (uint32_t repetition = 0; repetition < reps; repetition++) {
        uint8_t *text = malloc(plain_length + 1);
        if (text == NULL
            || crypto_aead_xchacha20poly1305_ietf_decrypt(text, NULL, NULL, token, token_length, long_key,
                                                          sizeof long_key, nonce, key)
                != 0) {
            return FAILED;
        }
        sum += plain_length == 0 ? 0 : text[plain_length - 1];
        if (repetition + 1 == reps) {
            memcpy(out, text, plain_length);
        }
        free(text);
    }
    return sum;
}

static struct peer_bytes peer_boxed(const struct subject *subject)
{
    (void)subject;
    size_t length = plain_length + crypto_aead_xchacha20poly1305_ietf_ABYTES;
    uint8_t *boxed = malloc(length);
    if (boxed != NULL) {
        crypto_aead_xchacha20poly1305_ietf_encrypt(boxed, NULL, plain, plain_length, long_key, sizeof long_key, NULL,
                                                   nonce, key);
    }
    return (struct peer_bytes){boxed, length};
}

/* The last public key is that of the seed as it is. */
static uint64_t ours_public_key(const struct subject *subject, uint8_t *out, uint32_t reps)
{
    (void)subject;
    return paseto_bench_ed25519_public_key(key, 32, out, 32, reps);
}

static uint64_t peer_public_key(const struct subject *subject, uint8_t *out, uint32_t reps)
{
    (void)subject;
    uint8_t numbered[32], pair[64];
    uint64_t sum = 0;
    memcpy(numbered, key, sizeof numbered);
    for (uint32_t repetition = 1; repetition <= reps; repetition++) {
        write_number(numbered, repetition);
        crypto_sign_seed_keypair(out, pair, repetition == reps ? key : numbered);
        sum += out[31];
    }
    return sum;
}

static uint64_t ours_sign(const struct subject *subject, uint8_t *out, uint32_t reps)
{
    (void)subject;
    return paseto_bench_ed25519_sign(private_key, 64, plain, plain_length, out, 64, reps);
}

/* Under a key whose halves are asked once. */
static uint64_t ours_sign_with_key(const struct subject *subject, uint8_t *out, uint32_t reps)
{
    (void)subject;
    return paseto_bench_ed25519_sign_with_key(private_key, 64, plain, plain_length, out, 64, reps);
}

static uint64_t peer_sign(const struct subject *subject, uint8_t *out, uint32_t reps)
{
    (void)subject;
    uint64_t sum = 0;
    for (uint32_t repetition = 0; repetition < reps; repetition++) {
        crypto_sign_detached(out, NULL, plain, plain_length, private_key);
        sum += out[63];
    }
    return sum;
}

static struct peer_bytes peer_signature(const struct subject *subject)
{
    (void)subject;
    uint8_t *signature = malloc(64);
    if (signature != NULL) {
        crypto_sign_detached(signature, NULL, plain, plain_length, private_key);
    }
    return (struct peer_bytes){signature, 64};
}

static uint64_t ours_verify(const struct subject *subject, uint8_t *out, uint32_t reps)
{
    (void)subject, (void)out;
    return paseto_bench_ed25519_verify(public_key, 32, plain, plain_length, token, 64, reps);
}

static uint64_t peer_verify(const struct subject *subject, uint8_t *out, uint32_t reps)
{
    (void)subject, (void)out;
    for (uint32_t repetition = 0; repetition < reps; repetition++) {
        if (crypto_sign_verify_detached(token, plain, plain_length, public_key) != 0) {
            return FAILED;
        }
    }
    return 0;
}

static struct peer_bytes signed_token(const struct subject *subject)
{
    (void)subject;
    return peer_v4_sign(private_key, plain, plain_length);
}

static uint64_t ours_sign_token(const struct subject *subject, uint8_t *out, uint32_t reps)
{
    (void)subject;
    return paseto_bench_v4_sign(private_key, 64, plain, plain_length, out, token_length, reps);
}

static uint64_t peer_sign_token(const struct subject *subject, uint8_t *out, uint32_t reps)
{
    uint64_t sum = 0;
    for (uint32_t repetition = 0; repetition < reps; repetition++) {
        struct peer_bytes made = signed_token(subject);
        if (made.bytes == NULL || made.length != token_length) {
            return FAILED;
        }
        sum += made.bytes[made.length - 1];
        memcpy(out, made.bytes, repetition + 1 == reps ? made.length : 0);
        free(made.bytes);
    }
    return sum;
}

static uint64_t ours_verify_token(const struct subject *subject, uint8_t *out, uint32_t reps)
{
    (void)subject;
    return paseto_bench_v4_verify(public_key, 32, token, token_length, out, plain_length, reps);
}

static uint64_t peer_verify_token(const struct subject *subject, uint8_t *out, uint32_t reps)
{
    (void)subject;
    uint64_t sum = 0;
    for (uint32_t repetition = 0; repetition < reps; repetition++) {
        struct peer_bytes read = peer_v4_verify(public_key, token, token_length);
        if (read.bytes == NULL || read.length != plain_length) {
            return FAILED;
        }
        sum += read.length == 0 ? 0 : read.bytes[read.length - 1];
        memcpy(out, read.bytes, repetition + 1 == reps ? read.length : 0);
        free(read.bytes);
    }
    return sum;
}

#define TOKENS(number)                                                                             \
    {.name = "v" #number " seal", .ours = ours_seal, .peer = peer_seals, .out_length = token_size, \
     .prepared = local_token, .ours_seal = paseto_bench_v##number##_seal,                          \
     .peer_seal = peer_v##number##_seal},                                                          \
        {.name = "v" #number " open", .ours = ours_open, .peer = peer_opens,                       \
         .out_length = plain_size, .prepared = local_token, .peer_seal = peer_v##number##_seal,    \
         .ours_open = paseto_bench_v##number##_open, .peer_open = peer_v##number##_open}

/* The keys of P-384, and the peer's signature of the row's text. */
static uint8_t point[49], signature[96];

static size_t point_size(void)
{
    return sizeof point;
}

/* The peer's token of version 3, once the peer has taken ours. */
static struct peer_bytes signed_v3_token(const struct subject *subject)
{
    (void)subject;
    struct peer_bytes made = peer_v3_sign(point, plain, plain_length);
    if (made.bytes == NULL || made.length > sizeof ours_out
        || paseto_bench_v3_sign(long_key, 48, plain, plain_length, ours_out, made.length, 1) == FAILED) {
        free(made.bytes);
        return (struct peer_bytes){0};
    }
    struct peer_bytes read = peer_v3_verify(point, ours_out, made.length);
    bool is_taken = read.bytes != NULL && read.length == plain_length
                    && memcmp(read.bytes, plain, plain_length) == 0;
    free(read.bytes);
    if (!is_taken) {
        free(made.bytes);
        return (struct peer_bytes){0};
    }
    return made;
}

static uint64_t ours_sign_v3_token(const struct subject *subject, uint8_t *out, uint32_t reps)
{
    (void)subject;
    uint64_t sum = paseto_bench_v3_sign(long_key, 48, plain, plain_length, out, token_length, reps);
    return sum == FAILED ? FAILED : 0;
}

static uint64_t peer_sign_v3_token(const struct subject *subject, uint8_t *out, uint32_t reps)
{
    (void)subject, (void)out;
    for (uint32_t repetition = 0; repetition < reps; repetition++) {
        struct peer_bytes made = peer_v3_sign(point, plain, plain_length);
        if (made.bytes == NULL) {
            return FAILED;
        }
        free(made.bytes);
    }
    return 0;
}

static uint64_t ours_verify_v3_token(const struct subject *subject, uint8_t *out, uint32_t reps)
{
    (void)subject;
    return paseto_bench_v3_verify(point, 49, token, token_length, out, plain_length, reps);
}

static uint64_t peer_verify_v3_token(const struct subject *subject, uint8_t *out, uint32_t reps)
{
    (void)subject;
    uint64_t sum = 0;
    for (uint32_t repetition = 0; repetition < reps; repetition++) {
        struct peer_bytes read = peer_v3_verify(point, token, token_length);
        if (read.bytes == NULL || read.length != plain_length) {
            return FAILED;
        }
        sum += read.length == 0 ? 0 : read.bytes[read.length - 1];
        memcpy(out, read.bytes, repetition + 1 == reps ? read.length : 0);
        free(read.bytes);
    }
    return sum;
}

static uint64_t ours_p384_key(const struct subject *subject, uint8_t *out, uint32_t reps)
{
    (void)subject;
    return paseto_bench_p384_public_key(long_key, 48, out, 49, reps);
}

/* The last public key is that of the key as it is. */
static uint64_t peer_p384_key(const struct subject *subject, uint8_t *out, uint32_t reps)
{
    (void)subject;
    uint8_t numbered[48];
    uint64_t sum = 0;
    memcpy(numbered, long_key, sizeof numbered);
    for (uint32_t repetition = 1; repetition <= reps; repetition++) {
        write_number(numbered + 44, repetition);
        if (!peer_p384_public_key(repetition == reps ? long_key : numbered, out)) {
            return FAILED;
        }
        sum += out[48];
    }
    return sum;
}

static uint64_t ours_p384_sign(const struct subject *subject, uint8_t *out, uint32_t reps)
{
    (void)subject;
    return paseto_bench_p384_sign(long_key, 48, plain, plain_length, out, 96, reps);
}

static uint64_t peer_p384_signs(const struct subject *subject, uint8_t *out, uint32_t reps)
{
    (void)subject;
    for (uint32_t repetition = 0; repetition < reps; repetition++) {
        if (!peer_p384_sign(plain, plain_length, out)) {
            return FAILED;
        }
    }
    return 0;
}

static uint64_t ours_p384_verify(const struct subject *subject, uint8_t *out, uint32_t reps)
{
    (void)subject;
    (void)out;
    return paseto_bench_p384_verify(point, 49, plain, plain_length, signature, 96, reps);
}

/* The last signature is the one as it is. */
static uint64_t peer_p384_verifies(const struct subject *subject, uint8_t *out, uint32_t reps)
{
    (void)subject;
    (void)out;
    uint8_t numbered[96];
    uint64_t valid = 0;
    memcpy(numbered, signature, sizeof numbered);
    for (uint32_t repetition = 1; repetition <= reps; repetition++) {
        write_number(numbered + 92, repetition);
        valid += peer_p384_verify(plain, plain_length, repetition == reps ? signature : numbered);
    }
    return valid == 0 ? FAILED : valid;
}

/* Makes the row's signature, and sees that each side takes what the other makes. */
static bool prepare_p384(void)
{
    uint8_t made[96];
    return ours_p384_sign(NULL, made, 1) == 0 && peer_p384_verify(plain, plain_length, made)
           && peer_p384_sign(plain, plain_length, signature)
           && ours_p384_verify(NULL, NULL, 1) == 1;
}

static uint64_t ours_argon2id(const struct subject *subject, uint8_t *out, uint32_t reps)
{
    (void)subject;
    return paseto_bench_argon2id(key, 32, nonce, 16, out, 32, reps);
}

static uint64_t peer_argon2id(const struct subject *subject, uint8_t *out, uint32_t reps)
{
    (void)subject;
    uint64_t sum = 0;
    for (uint32_t repetition = 0; repetition < reps; repetition++) {
        if (crypto_pwhash(out, 32, (const char *)key, 32, nonce, 2, 64 << 20, crypto_pwhash_ALG_ARGON2ID13) != 0) {
            return FAILED;
        }
        sum += out[31];
    }
    return sum;
}

/* Keys that are wrapped: the key is the nonce of the other rows, under the first bytes of the long key. The peer's text is
   prepared, and both sides make the same one. */
#define ITERATIONS 100000
#define MEMORY (64u << 20)
#define PASSES 2

/* The sum of the last bytes of what a peer makes so often, which is written to `out`. It has to have the length. */
static uint64_t peer_makes(struct peer_bytes (*make)(void), size_t length, uint8_t *out, uint32_t reps)
{
    uint64_t sum = 0;
    for (uint32_t repetition = 0; repetition < reps; repetition++) {
        struct peer_bytes made = make();
        if (made.bytes == NULL || made.length != length) {
            free(made.bytes);
            return FAILED;
        }
        sum += made.bytes[length - 1];
        memcpy(out, made.bytes, length);
        free(made.bytes);
    }
    return sum;
}

static struct peer_bytes v3_wrapped(void)
{
    return peer_v3_wrap(long_key, key, nonce);
}

static struct peer_bytes v4_wrapped(void)
{
    return peer_v4_wrap(long_key, key, nonce);
}

static struct peer_bytes v3_unwrapped(void)
{
    return peer_v3_unwrap(long_key, token, token_length);
}

static struct peer_bytes v4_unwrapped(void)
{
    return peer_v4_unwrap(long_key, token, token_length);
}

static struct peer_bytes v3_protected(void)
{
    return peer_v3_protect(long_key, 48, key, long_key, nonce);
}

static struct peer_bytes v4_protected(void)
{
    return peer_v4_protect(long_key, 48, key, long_key, nonce);
}

static struct peer_bytes v3_sealed(void)
{
    return peer_v3_seal_key(point, long_key, nonce);
}

static struct peer_bytes v4_sealed(void)
{
    return peer_v4_seal_key(public_key, long_key, nonce);
}

static struct peer_bytes v3_unsealed(void)
{
    return peer_v3_unseal_key(long_key, token, token_length);
}

static struct peer_bytes v4_unsealed(void)
{
    return peer_v4_unseal_key(private_key, token, token_length);
}

static struct peer_bytes v4_written(void)
{
    return peer_v4_write_key(private_key);
}

static struct peer_bytes v4_read(void)
{
    return peer_v4_read_key(token, token_length);
}

static uint64_t ours_write(uint32_t version, uint8_t *out, uint32_t reps)
{
    return paseto_bench_write_secret(version, private_key, 64, out, token_length, reps);
}

static uint64_t ours_read(uint32_t version, uint8_t *out, uint32_t reps)
{
    return paseto_bench_read_secret(version, token, token_length, out, 64, reps);
}

static uint64_t ours_wrap(uint32_t version, uint8_t *out, uint32_t reps)
{
    return paseto_bench_wrap_local(version, long_key, 32, key, 32, nonce, 32, out, token_length, reps);
}

static uint64_t ours_unwrap(uint32_t version, uint8_t *out, uint32_t reps)
{
    return paseto_bench_unwrap_local(version, long_key, 32, token, token_length, out, 32, reps);
}

static uint64_t ours_protect(uint32_t version, uint8_t *out, uint32_t reps)
{
    size_t salt_length = version == 3 ? 32 : 16, nonce_length = version == 3 ? 16 : 24;
    return paseto_bench_protect_local(version, long_key, 48, ITERATIONS, MEMORY, PASSES, key, salt_length, long_key,
                                      nonce_length, nonce, 32, out, token_length, reps);
}

static uint64_t ours_seal_key(uint32_t version, uint8_t *out, uint32_t reps)
{
    return version == 3 ? paseto_bench_seal_key(3, point, 49, long_key, 48, nonce, 32, out, token_length, reps)
                        : paseto_bench_seal_key(4, public_key, 32, long_key, 32, nonce, 32, out, token_length, reps);
}

static uint64_t ours_unseal_key(uint32_t version, uint8_t *out, uint32_t reps)
{
    return version == 3 ? paseto_bench_unseal_key(3, long_key, 48, token, token_length, out, 32, reps)
                        : paseto_bench_unseal_key(4, private_key, 64, token, token_length, out, 32, reps);
}

/* The two sides of a row of version V, where the peer makes what has the length. */
#define KEY_ROW(v, ours_call, made, length)                                                        \
    static uint64_t ours_##made(const struct subject *subject, uint8_t *out, uint32_t reps)        \
    {                                                                                              \
        (void)subject;                                                                             \
        return ours_call(v, out, reps);                                                            \
    }                                                                                              \
    static uint64_t peer_##made(const struct subject *subject, uint8_t *out, uint32_t reps)        \
    {                                                                                              \
        (void)subject;                                                                             \
        return peer_makes(made, length, out, reps);                                                \
    }

KEY_ROW(4, ours_write, v4_written, token_length)
KEY_ROW(4, ours_read, v4_read, 64)
KEY_ROW(3, ours_wrap, v3_wrapped, token_length)
KEY_ROW(4, ours_wrap, v4_wrapped, token_length)
KEY_ROW(3, ours_unwrap, v3_unwrapped, 32)
KEY_ROW(4, ours_unwrap, v4_unwrapped, 32)
KEY_ROW(3, ours_protect, v3_protected, token_length)
KEY_ROW(4, ours_protect, v4_protected, token_length)
KEY_ROW(3, ours_seal_key, v3_sealed, token_length)
KEY_ROW(4, ours_seal_key, v4_sealed, token_length)
KEY_ROW(3, ours_unseal_key, v3_unsealed, 32)
KEY_ROW(4, ours_unseal_key, v4_unsealed, 32)

/* The peer's text, which the row makes or reads. */
#define PREPARED(made)                                                                             \
    static struct peer_bytes prepared_##made(const struct subject *subject)                        \
    {                                                                                              \
        (void)subject;                                                                             \
        return made();                                                                             \
    }

PREPARED(v4_written)
PREPARED(v3_wrapped)
PREPARED(v4_wrapped)
PREPARED(v3_protected)
PREPARED(v4_protected)
PREPARED(v3_sealed)
PREPARED(v4_sealed)

static uint64_t ours_x25519(const struct subject *subject, uint8_t *out, uint32_t reps)
{
    (void)subject;
    return paseto_bench_x25519(key, 32, nonce, 32, out, 32, reps);
}

/* The last is that of the scalar as it is. */
static uint64_t peer_x25519(const struct subject *subject, uint8_t *out, uint32_t reps)
{
    (void)subject;
    uint8_t numbered[32];
    uint64_t sum = 0;
    memcpy(numbered, key, sizeof numbered);
    for (uint32_t repetition = 1; repetition <= reps; repetition++) {
        write_number(numbered + 1, repetition);
        if (crypto_scalarmult(out, repetition == reps ? key : numbered, nonce) != 0) {
            return FAILED;
        }
        sum += out[0];
    }
    return sum;
}

static uint64_t ours_pbkdf2(const struct subject *subject, uint8_t *out, uint32_t reps)
{
    (void)subject;
    return paseto_bench_pbkdf2(long_key, 48, key, 32, ITERATIONS, out, 48, reps);
}

static uint64_t peer_pbkdf2_often(const struct subject *subject, uint8_t *out, uint32_t reps)
{
    (void)subject;
    uint64_t sum = 0;
    for (uint32_t repetition = 0; repetition < reps; repetition++) {
        if (!peer_pbkdf2(long_key, 48, key, out)) {
            return FAILED;
        }
        sum += out[47];
    }
    return sum;
}

/* The keys of RSA in their encodings, and the peer's signature of the row's text. */
static struct peer_bytes rsa_private, rsa_public;
static uint8_t rsa_signature[256];

static uint64_t ours_rsa_sign(const struct subject *subject, uint8_t *out, uint32_t reps)
{
    (void)subject;
    return paseto_bench_rsa_sign(rsa_private.bytes, rsa_private.length, plain, plain_length, out, 256, reps);
}

static uint64_t peer_rsa_signs(const struct subject *subject, uint8_t *out, uint32_t reps)
{
    (void)subject;
    for (uint32_t repetition = 0; repetition < reps; repetition++) {
        if (!peer_rsa_sign(plain, plain_length, out)) {
            return FAILED;
        }
    }
    return 0;
}

static uint64_t ours_rsa_verify(const struct subject *subject, uint8_t *out, uint32_t reps)
{
    (void)subject;
    (void)out;
    return paseto_bench_rsa_verify_read(rsa_public.bytes, rsa_public.length, plain, plain_length, rsa_signature, 256,
                                        reps);
}

static uint64_t ours_rsa_read_verify(const struct subject *subject, uint8_t *out, uint32_t reps)
{
    (void)subject;
    (void)out;
    return paseto_bench_rsa_verify(rsa_public.bytes, rsa_public.length, plain, plain_length, rsa_signature, 256, reps);
}

/* How many times the peer holds the signature valid, with the key read each time or once. */
static uint64_t peer_rsa_count(uint32_t reps, bool is_read)
{
    uint64_t valid = 0;
    for (uint32_t repetition = 0; repetition < reps; repetition++) {
        valid += is_read ? peer_rsa_verify(plain, plain_length, rsa_signature)
                         : peer_rsa_read_verify(rsa_public.bytes, rsa_public.length, plain, plain_length, rsa_signature);
    }
    return valid == 0 ? FAILED : valid;
}

static uint64_t peer_rsa_verifies(const struct subject *subject, uint8_t *out, uint32_t reps)
{
    (void)subject;
    (void)out;
    return peer_rsa_count(reps, true);
}

static uint64_t peer_rsa_read_verifies(const struct subject *subject, uint8_t *out, uint32_t reps)
{
    (void)subject;
    (void)out;
    return peer_rsa_count(reps, false);
}

/* Makes the row's signature, and sees that each side takes what the other makes. */
static bool prepare_rsa(void)
{
    uint8_t made[256];
    return ours_rsa_sign(NULL, made, 1) == 0 && peer_rsa_verify(plain, plain_length, made)
           && peer_rsa_sign(plain, plain_length, rsa_signature) && ours_rsa_verify(NULL, NULL, 1) == 1;
}

/* What a service does with claims: four that it sets, and the three times. Ours reads the four from JSON, as the
   library for C takes them; the peers are given them as they are. */
static const struct claims claims = {
    .issuer = "https://auth.example.com",
    .subject = "ada.lovelace",
    .audience = "customers",
    .identifier = "3f0c9d52-6a1b-4c8e-9b7d-2e5f8a6c4d10",
};
static const char claims_given[] = "{\"iss\":\"https://auth.example.com\",\"sub\":\"ada.lovelace\","
                                   "\"aud\":\"customers\",\"jti\":\"3f0c9d52-6a1b-4c8e-9b7d-2e5f8a6c4d10\"}";
static const char claims_expected[] = "{\"aud\":\"customers\"}";

#define BUILT_AT 1764115200
#define PARSED_AT (BUILT_AT + 60)
/* A second in the nanoseconds of the library for C. */
#define SECOND INT64_C(1000000000)
#define CLAIMS_ROOM 1024

/* The key as the library for C takes it, which asks nothing beside the claims. */
static struct paseto_key held_key = {.version = 4, .type = PASETO_KEY_LOCAL, .length = 32};
static const struct paseto_options options = {.size = sizeof options};

/* The token of these claims, and their JSON. */
static uint8_t claims_token[CLAIMS_ROOM], claims_json[CLAIMS_ROOM];
static size_t claims_token_length, claims_json_length;

static size_t claims_token_size(void)
{
    return claims_token_length;
}

static size_t claims_json_size(void)
{
    return claims_json_length;
}

static uint64_t ours_build(const struct subject *subject, uint8_t *out, uint32_t reps)
{
    (void)subject;
    uint8_t numbered[32];
    uint64_t sum = 0;
    memcpy(numbered, nonce, sizeof numbered);
    for (uint32_t repetition = 1; repetition <= reps; repetition++) {
        write_number(numbered, repetition);
        size_t written;
        if (paseto_issue_with(&held_key, repetition == reps ? nonce : numbered, 32, claims_given, sizeof claims_given - 1,
                              BUILT_AT * SECOND, NULL, 0, NULL, 0, out, CLAIMS_ROOM, &written, PASETO_NO_REASON)
            != PASETO_OK) {
            return FAILED;
        }
        sum += out[written - 1];
    }
    return sum;
}

/* The last token has the nonce as it is. */
static uint64_t peer_builds(peer_build *build, uint8_t *out, uint32_t reps)
{
    uint8_t numbered[32];
    uint64_t sum = 0;
    memcpy(numbered, nonce, sizeof numbered);
    for (uint32_t repetition = 1; repetition <= reps; repetition++) {
        write_number(numbered, repetition);
        struct peer_bytes made = build(key, repetition == reps ? nonce : numbered, &claims, BUILT_AT);
        if (made.bytes == NULL || made.length > CLAIMS_ROOM) {
            return FAILED;
        }
        memcpy(out, made.bytes, made.length);
        sum += out[made.length - 1];
        free(made.bytes);
    }
    return sum;
}

static uint64_t jansson_builds(const struct subject *subject, uint8_t *out, uint32_t reps)
{
    (void)subject;
    return peer_builds(peer_jansson_build, out, reps);
}

static uint64_t cjson_builds(const struct subject *subject, uint8_t *out, uint32_t reps)
{
    (void)subject;
    return peer_builds(peer_cjson_build, out, reps);
}

static uint64_t ours_parse(const struct subject *subject, uint8_t *out, uint32_t reps)
{
    (void)subject;
    uint64_t sum = 0;
    for (uint32_t repetition = 0; repetition < reps; repetition++) {
        size_t written;
        if (paseto_admit(&held_key, claims_token, claims_token_length, claims_expected, sizeof claims_expected - 1,
                         PARSED_AT * SECOND, NULL, 0, NULL, 0, &options, out, CLAIMS_ROOM, &written, PASETO_NO_REASON)
            != PASETO_OK) {
            return FAILED;
        }
        sum += written + out[written - 2];
    }
    return sum;
}

static uint64_t peer_parses(peer_parse *parse, uint8_t *out, uint32_t reps)
{
    uint64_t sum = 0;
    for (uint32_t repetition = 0; repetition < reps; repetition++) {
        struct peer_bytes read = parse(key, claims_token, claims_token_length, claims.audience, PARSED_AT);
        if (read.bytes == NULL || read.length > CLAIMS_ROOM) {
            return FAILED;
        }
        memcpy(out, read.bytes, read.length);
        sum += read.length + out[read.length - 2];
        free(read.bytes);
    }
    return sum;
}

static uint64_t jansson_parses(const struct subject *subject, uint8_t *out, uint32_t reps)
{
    (void)subject;
    return peer_parses(peer_jansson_parse, out, reps);
}

static uint64_t cjson_parses(const struct subject *subject, uint8_t *out, uint32_t reps)
{
    (void)subject;
    return peer_parses(peer_cjson_parse, out, reps);
}

static uint64_t ours_json(const struct subject *subject, uint8_t *out, uint32_t reps)
{
    (void)subject, (void)out;
    return paseto_bench_json_read(claims_json, claims_json_length, reps);
}

static uint64_t peer_json(peer_json_read *read, uint32_t reps)
{
    uint64_t sum = 0;
    for (uint32_t repetition = 0; repetition < reps; repetition++) {
        size_t members = read(claims_json, claims_json_length);
        if (members == 0) {
            return FAILED;
        }
        sum += members;
    }
    return sum;
}

static uint64_t jansson_json(const struct subject *subject, uint8_t *out, uint32_t reps)
{
    (void)subject, (void)out;
    return peer_json(peer_jansson_read, reps);
}

static uint64_t cjson_json(const struct subject *subject, uint8_t *out, uint32_t reps)
{
    (void)subject, (void)out;
    return peer_json(peer_cjson_read, reps);
}

/* The token of the claims as jansson writes them, and their JSON as it is in the token. */
static struct peer_bytes claims_prepared(const struct subject *subject)
{
    (void)subject;
    struct peer_bytes made = peer_jansson_build(key, nonce, &claims, BUILT_AT);
    if (made.bytes == NULL || made.length > CLAIMS_ROOM) {
        return made;
    }
    memcpy(claims_token, made.bytes, made.length);
    claims_token_length = made.length;
    struct peer_bytes text = peer_v4_open(key, made.bytes, made.length);
    if (text.bytes == NULL) {
        free(made.bytes);
        return text;
    }
    memcpy(claims_json, text.bytes, text.length);
    claims_json_length = text.length;
    free(text.bytes);
    return made;
}

/* A row of keys: what both sides make, and the peer's text that is prepared. */
#define KEYS(title, made, text, length)                                                            \
    {.name = title, .has_one_row = true, .ours = ours_##made, .peer = peer_##made,                 \
     .out_length = length, .prepared = prepared_##text}

#define SUBJECTS 49
static const struct subject subjects[SUBJECTS] = {
    TOKENS(4),
    TOKENS(3),
    TOKENS(2),
    TOKENS(1),
    {.name = "v4 sign", .ours = ours_sign_token, .peer = peer_sign_token, .out_length = token_size,
     .prepared = signed_token},
    {.name = "v4 verify", .ours = ours_verify_token, .peer = peer_verify_token, .out_length = plain_size,
     .prepared = signed_token},
    {.name = "v3 sign", .ours = ours_sign_v3_token, .peer = peer_sign_v3_token, .out_length = nothing,
     .prepared = signed_v3_token},
    {.name = "v3 verify", .ours = ours_verify_v3_token, .peer = peer_verify_v3_token,
     .out_length = plain_size, .prepared = signed_v3_token},
    {.name = "box seal", .ours = ours_box_seal, .peer = peer_box_seal, .out_length = token_size,
     .prepared = peer_boxed},
    {.name = "box open", .ours = ours_box_open, .peer = peer_box_open, .out_length = plain_size,
     .prepared = peer_boxed},
    {.name = "Ed25519 key", .has_one_row = true, .ours = ours_public_key, .peer = peer_public_key,
     .out_length = digest_size},
    {.name = "Ed25519 sign", .ours = ours_sign, .peer = peer_sign, .out_length = signature_size},
    {.name = "Ed25519 signer", .ours = ours_sign_with_key, .peer = peer_sign,
     .out_length = signature_size},
    {.name = "Ed25519 verify", .ours = ours_verify, .peer = peer_verify, .out_length = nothing,
     .prepared = peer_signature},
    {.name = "BLAKE2b", .ours = ours_blake2b, .peer = peer_blake2b, .out_length = digest_size},
    {.name = "XChaCha20", .ours = ours_xchacha20, .peer = peer_xchacha20, .out_length = plain_size},
    {.name = "AES-256-CTR", .ours = ours_aes256_ctr, .peer = peer_aes256, .out_length = plain_size},
    {.name = "HMAC-SHA384", .ours = ours_hmac, .peer = peer_hmac, .out_length = hmac_size},
    {.name = "Argon2id", .has_one_row = true, .ours = ours_argon2id, .peer = peer_argon2id, .out_length = digest_size},
    {.name = "P-384 key", .has_one_row = true, .ours = ours_p384_key, .peer = peer_p384_key,
     .out_length = point_size},
    {.name = "P-384 sign", .ours = ours_p384_sign, .peer = peer_p384_signs, .out_length = nothing},
    {.name = "P-384 verify", .ours = ours_p384_verify, .peer = peer_p384_verifies, .out_length = nothing},
    {.name = "RSA sign", .ours = ours_rsa_sign, .peer = peer_rsa_signs, .out_length = nothing},
    {.name = "RSA verify", .ours = ours_rsa_verify, .peer = peer_rsa_verifies, .out_length = nothing},
    {.name = "RSA read", .ours = ours_rsa_read_verify, .peer = peer_rsa_read_verifies, .out_length = nothing},
    KEYS("write v4", v4_written, v4_written, token_size),
    KEYS("read v4", v4_read, v4_written, signature_size),
    KEYS("wrap v4", v4_wrapped, v4_wrapped, token_size),
    KEYS("unwrap v4", v4_unwrapped, v4_wrapped, digest_size),
    KEYS("wrap v3", v3_wrapped, v3_wrapped, token_size),
    KEYS("unwrap v3", v3_unwrapped, v3_wrapped, digest_size),
    KEYS("password v4", v4_protected, v4_protected, token_size),
    KEYS("password v3", v3_protected, v3_protected, token_size),
    KEYS("seal key v4", v4_sealed, v4_sealed, token_size),
    KEYS("unseal key v4", v4_unsealed, v4_sealed, digest_size),
    KEYS("seal key v3", v3_sealed, v3_sealed, token_size),
    KEYS("unseal key v3", v3_unsealed, v3_sealed, digest_size),
    {.name = "X25519", .has_one_row = true, .ours = ours_x25519, .peer = peer_x25519, .out_length = digest_size},
    {.name = "PBKDF2", .has_one_row = true, .ours = ours_pbkdf2, .peer = peer_pbkdf2_often, .out_length = hmac_size},
    {.name = "build/jansson", .has_one_row = true, .ours = ours_build, .peer = jansson_builds,
     .out_length = claims_token_size, .prepared = claims_prepared},
    {.name = "build/cJSON", .has_one_row = true, .ours = ours_build, .peer = cjson_builds,
     .out_length = claims_token_size, .prepared = claims_prepared},
    {.name = "parse/jansson", .has_one_row = true, .ours = ours_parse, .peer = jansson_parses,
     .out_length = claims_json_size, .prepared = claims_prepared},
    {.name = "parse/cJSON", .has_one_row = true, .ours = ours_parse, .peer = cjson_parses,
     .out_length = claims_json_size, .prepared = claims_prepared},
    {.name = "JSON/jansson", .has_one_row = true, .ours = ours_json, .peer = jansson_json, .out_length = nothing,
     .prepared = claims_prepared},
    {.name = "JSON/cJSON", .has_one_row = true, .ours = ours_json, .peer = cjson_json, .out_length = nothing,
     .prepared = claims_prepared},
};

/* The text of a row, and, where one is read, the peer's token, box or signature of it. */
static bool prepare(const struct subject *subject, size_t length)
{
    plain_length = length;
    token_length = 0;
    if (subject->ours == ours_p384_sign || subject->ours == ours_p384_verify) {
        return prepare_p384();
    }
    if (subject->ours == ours_rsa_sign || subject->ours == ours_rsa_verify || subject->ours == ours_rsa_read_verify) {
        return prepare_rsa();
    }
    if (subject->prepared == NULL) {
        return true;
    }
    struct peer_bytes made = subject->prepared(subject);
    if (made.bytes == NULL || made.length > sizeof token) {
        return false;
    }
    memcpy(token, made.bytes, made.length);
    token_length = made.length;
    free(made.bytes);
    return true;
}

/* Whether both sides make the same bytes, and answer the same number. */
static bool agrees(const struct subject *subject)
{
    size_t length = subject->out_length();
    memcpy(ours_out, plain, plain_length);
    memcpy(peer_out, plain, plain_length);
    uint64_t ours = subject->ours(subject, ours_out, COMPARED);
    uint64_t peer = subject->peer(subject, peer_out, COMPARED);
    return ours != FAILED && ours == peer && memcmp(ours_out, peer_out, length) == 0;
}

/* The nanoseconds that a repetition takes, over so many. */
static double measure(const struct subject *subject, bool is_ours, uint32_t reps)
{
    double start = seconds();
    if (is_ours) {
        subject->ours(subject, ours_out, reps);
    } else {
        subject->peer(subject, peer_out, reps);
    }
    return (seconds() - start) / reps * 1e9;
}

/* How many repetitions fill a slice of time. */
static uint32_t repetitions(const struct subject *subject, bool is_ours)
{
    uint32_t reps = 1;
    double each = measure(subject, is_ours, reps);
    while (each * reps < slice_seconds * 1e9 && reps < 1u << 24) {
        reps *= 2;
        each = measure(subject, is_ours, reps);
    }
    return reps;
}

/* The best nanoseconds of each side, over rounds in which they take turns. */
static void best_of_rounds(const struct subject *subject, double *ours, double *peer)
{
    uint32_t ours_reps = repetitions(subject, true), peer_reps = repetitions(subject, false);
    double start = seconds();
    *ours = *peer = 1e18;
    for (int round = 0; round < 3 || seconds() - start < row_seconds; round++) {
        double ours_time = measure(subject, true, ours_reps);
        double peer_time = measure(subject, false, peer_reps);
        *ours = ours_time < *ours ? ours_time : *ours;
        *peer = peer_time < *peer ? peer_time : *peer;
    }
}

/* How often a repetition asks for memory: what a second one adds. */
static uint64_t allocated(const struct subject *subject, bool is_ours)
{
    uint64_t before = allocations();
    measure(subject, is_ours, 1);
    uint64_t once = allocations() - before;
    before = allocations();
    measure(subject, is_ours, 2);
    return allocations() - before - once;
}

static int rows(const struct subject *subject)
{
    return subject->has_one_row ? 1 : SIZES;
}

/* Measures every row of a subject, and keeps the ratios. */
static bool run(const struct subject *subject, double ratios[SIZES])
{
    for (int i = 0; i < rows(subject); i++) {
        if (!prepare(subject, sizes[i]) || !agrees(subject)) {
            printf("%s, %s: the bytes differ\n", subject->name, size_names[i]);
            return false;
        }
        double ours, peer;
        best_of_rounds(subject, &ours, &peer);
        ratios[i] = ours / peer;
        printf("%-14s %6s %13.0f %13.0f %8.2f", subject->name, size_names[i], ours, peer, ratios[i]);
        if (sizes[i] >= 10000) {
            printf(" %9.1f %9.1f", (double)sizes[i] * 1e3 / ours, (double)sizes[i] * 1e3 / peer);
        } else {
            printf(" %9s %9s", "", "");
        }
        printf(" %6" PRIu64 " %6" PRIu64 "\n", allocated(subject, true), allocated(subject, false));
        fflush(stdout);
    }
    return true;
}

/* Whether the subject's name begins with one of the words, or there is none. */
static bool is_asked(const struct subject *subject, int count, char **words)
{
    for (int i = 0; i < count; i++) {
        if (strncmp(subject->name, words[i], strlen(words[i])) == 0) {
            return true;
        }
    }
    return count == 0;
}

static void print_ratios(const struct subject *subject, const double ratios[SIZES])
{
    printf("| %s |", subject->name);
    for (int i = 0; i < SIZES; i++) {
        if (i < rows(subject)) {
            printf(" %.2f |", ratios[i]);
        } else {
            printf(" |");
        }
    }
    printf("\n");
}

int main(int count, char **words)
{
    int first = 1;
    if (count > 1 && strcmp(words[1], "--quick") == 0) {
        first = 2;
        row_seconds = 0.25;
    }
    if (!peer_start()) {
        fprintf(stderr, "libsodium or OpenSSL does not start\n");
        return 1;
    }
    for (size_t i = 0; i < sizeof key; i++) {
        key[i] = (uint8_t)(7 * i + 1);
        nonce[i] = (uint8_t)(5 * i + 3);
    }
    memcpy(held_key.bytes, key, sizeof key);
    for (size_t i = 0; i < sizeof long_key; i++) {
        long_key[i] = (uint8_t)(3 * i + 5);
    }
    crypto_sign_seed_keypair(public_key, private_key, key);
    if (paseto_bench_p384_public_key(long_key, 48, point, 49, 1) == FAILED
        || !peer_p384_start(long_key, point)) {
        fprintf(stderr, "P-384 does not start\n");
        return 1;
    }
    if (!peer_rsa_start(&rsa_private, &rsa_public)) {
        fprintf(stderr, "RSA does not start\n");
        return 1;
    }
    for (size_t i = 0; i < sizeof plain; i++) {
        plain[i] = (uint8_t)(' ' + i % 95);
    }
    printf("peers: libsodium %s, %s, jansson %s, cJSON %s\n\n", sodium_version_string(),
           OpenSSL_version(OPENSSL_VERSION), peer_jansson_version(), peer_cjson_version());
    printf("%-14s %6s %13s %13s %8s %9s %9s %6s %6s\n", "", "", "ours, ns", "peer, ns", "ratio", "MB/s", "peer's",
           "allocs", "peer's");
    bool is_measured[SUBJECTS];
    static double ratios[SUBJECTS][SIZES];
    for (int s = 0; s < SUBJECTS; s++) {
        is_measured[s] = is_asked(&subjects[s], count - first, words + first);
        if (is_measured[s] && !run(&subjects[s], ratios[s])) {
            return 1;
        }
    }
    printf("\n| ours / peer | 0 B | 100 B | 1 KB | 10 KB | 1 MB |\n|---|---|---|---|---|---|\n");
    for (int s = 0; s < SUBJECTS; s++) {
        if (is_measured[s]) {
            print_ratios(&subjects[s], ratios[s]);
        }
    }
    return 0;
}
