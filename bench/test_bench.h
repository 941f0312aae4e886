/* The calls of the static library of crates/test_bench. A slice is a pointer, which is not null, and
   a length. */
#ifndef PASETO_BENCH_H
#define PASETO_BENCH_H

#include <stddef.h>
#include <stdint.h>

/* What a call answers where it could not do all repetitions. */
#define PASETO_BENCH_FAILED UINT64_MAX

typedef uint64_t paseto_bench_seal(const uint8_t *key, size_t key_length, const uint8_t *nonce,
                                   size_t nonce_length, const uint8_t *text, size_t text_length,
                                   uint8_t *token, size_t token_length, uint32_t reps);

typedef uint64_t paseto_bench_open(const uint8_t *key, size_t key_length, const uint8_t *token,
                                   size_t token_length, uint8_t *text, size_t text_length,
                                   uint32_t reps);

typedef uint64_t paseto_bench_digest(const uint8_t *key, size_t key_length, const uint8_t *message,
                                     size_t message_length, uint8_t *digest, size_t digest_length,
                                     uint32_t reps);

typedef uint64_t paseto_bench_cipher(const uint8_t *key, size_t key_length, const uint8_t *start,
                                     size_t start_length, uint8_t *data, size_t data_length,
                                     uint32_t reps);

typedef uint64_t paseto_bench_box(const uint8_t *key, size_t key_length, const uint8_t *nonce,
                                  size_t nonce_length, const uint8_t *data, size_t data_length,
                                  const uint8_t *input, size_t input_length, uint8_t *output,
                                  size_t output_length, uint32_t reps);

typedef uint64_t paseto_bench_key(const uint8_t *seed, size_t seed_length, uint8_t *public_key,
                                  size_t public_key_length, uint32_t reps);

typedef uint64_t paseto_bench_verify(const uint8_t *public_key, size_t public_key_length,
                                     const uint8_t *message, size_t message_length,
                                     const uint8_t *signature, size_t signature_length,
                                     uint32_t reps);

paseto_bench_seal paseto_bench_v1_seal, paseto_bench_v2_seal, paseto_bench_v3_seal,
    paseto_bench_v4_seal;
paseto_bench_open paseto_bench_v1_open, paseto_bench_v2_open, paseto_bench_v3_open,
    paseto_bench_v4_open, paseto_bench_v3_verify, paseto_bench_v4_verify;
paseto_bench_digest paseto_bench_blake2b, paseto_bench_hmac_sha384, paseto_bench_ed25519_sign,
    paseto_bench_ed25519_sign_with_key, paseto_bench_v3_sign, paseto_bench_v4_sign;
paseto_bench_cipher paseto_bench_xchacha20, paseto_bench_aes256_ctr;
paseto_bench_box paseto_bench_xchacha20poly1305_seal, paseto_bench_xchacha20poly1305_open;
paseto_bench_key paseto_bench_ed25519_public_key;
paseto_bench_verify paseto_bench_ed25519_verify;

uint64_t paseto_bench_p384_public_key(const uint8_t *private, size_t private_length, uint8_t *public,
                                      size_t public_length, uint32_t reps);
uint64_t paseto_bench_p384_shared_secret(const uint8_t *private, size_t private_length, const uint8_t *public,
                                         size_t public_length, uint8_t *shared, size_t shared_length,
                                         uint32_t reps);
uint64_t paseto_bench_p384_sign(const uint8_t *private, size_t private_length, const uint8_t *message,
                                size_t message_length, uint8_t *signature, size_t signature_length,
                                uint32_t reps);
uint64_t paseto_bench_p384_verify(const uint8_t *public, size_t public_length, const uint8_t *message,
                                  size_t message_length, const uint8_t *signature,
                                  size_t signature_length, uint32_t reps);

uint64_t paseto_bench_rsa_sign(const uint8_t *private, size_t private_length, const uint8_t *message,
                               size_t message_length, uint8_t *signature, size_t signature_length,
                               uint32_t reps);
typedef uint64_t paseto_bench_rsa_verifying(const uint8_t *public, size_t public_length,
                                            const uint8_t *message, size_t message_length,
                                            const uint8_t *signature, size_t signature_length,
                                            uint32_t reps);
paseto_bench_rsa_verifying paseto_bench_rsa_verify, paseto_bench_rsa_verify_read;

uint64_t paseto_bench_argon2id(const uint8_t *password, size_t password_length, const uint8_t *salt,
                               size_t salt_length, uint8_t *key, size_t key_length, uint32_t reps);

uint64_t paseto_bench_pbkdf2(const uint8_t *password, size_t password_length, const uint8_t *salt,
                             size_t salt_length, uint32_t iterations, uint8_t *key, size_t key_length,
                             uint32_t reps);

uint64_t paseto_bench_x25519(const uint8_t *scalar, size_t scalar_length, const uint8_t *u, size_t u_length,
                             uint8_t *shared, size_t shared_length, uint32_t reps);

/* A version is named by its number. */
typedef uint64_t paseto_bench_write_key(uint32_t version, const uint8_t *key, size_t key_length, uint8_t *text,
                                        size_t text_length, uint32_t reps);
typedef uint64_t paseto_bench_read_key(uint32_t version, const uint8_t *text, size_t text_length, uint8_t *key,
                                       size_t key_length, uint32_t reps);
paseto_bench_write_key paseto_bench_write_local, paseto_bench_write_secret;
paseto_bench_read_key paseto_bench_read_local, paseto_bench_read_secret;
uint64_t paseto_bench_wrap_local(uint32_t version, const uint8_t *wrapping_key, size_t wrapping_key_length,
                                 const uint8_t *nonce, size_t nonce_length, const uint8_t *key, size_t key_length,
                                 uint8_t *text, size_t text_length, uint32_t reps);
uint64_t paseto_bench_unwrap_local(uint32_t version, const uint8_t *wrapping_key, size_t wrapping_key_length,
                                   const uint8_t *text, size_t text_length, uint8_t *key, size_t key_length,
                                   uint32_t reps);
uint64_t paseto_bench_protect_local(uint32_t version, const uint8_t *password, size_t password_length,
                                    uint32_t iterations, uint64_t memory, uint32_t passes, const uint8_t *salt,
                                    size_t salt_length, const uint8_t *nonce, size_t nonce_length, const uint8_t *key,
                                    size_t key_length, uint8_t *text, size_t text_length, uint32_t reps);
uint64_t paseto_bench_unprotect_local(uint32_t version, const uint8_t *password, size_t password_length,
                                      const uint8_t *text, size_t text_length, uint8_t *key, size_t key_length,
                                      uint32_t reps);
uint64_t paseto_bench_seal_key(uint32_t version, const uint8_t *public, size_t public_length,
                               const uint8_t *ephemeral, size_t ephemeral_length, const uint8_t *key,
                               size_t key_length, uint8_t *text, size_t text_length, uint32_t reps);
uint64_t paseto_bench_unseal_key(uint32_t version, const uint8_t *private, size_t private_length,
                                 const uint8_t *text, size_t text_length, uint8_t *key, size_t key_length,
                                 uint32_t reps);

/* What is asked of private keys once: tests/secrets.sh follows it. */
uint64_t paseto_bench_wrap_secret(uint32_t version, const uint8_t *wrapping_key, size_t wrapping_key_length,
                                  const uint8_t *nonce, size_t nonce_length, const uint8_t *key, size_t key_length,
                                  uint8_t *text, size_t text_length);
uint64_t paseto_bench_unwrap_secret(uint32_t version, const uint8_t *wrapping_key, size_t wrapping_key_length,
                                    const uint8_t *text, size_t text_length, uint8_t *key, size_t key_length);
uint64_t paseto_bench_protect_secret(uint32_t version, const uint8_t *password, size_t password_length,
                                     uint32_t iterations, uint64_t memory, uint32_t passes, const uint8_t *salt,
                                     size_t salt_length, const uint8_t *nonce, size_t nonce_length,
                                     const uint8_t *key, size_t key_length, uint8_t *text, size_t text_length);
uint64_t paseto_bench_unprotect_secret(uint32_t version, const uint8_t *password, size_t password_length,
                                       const uint8_t *text, size_t text_length, uint8_t *key, size_t key_length);
uint64_t paseto_bench_pem_write(uint32_t version, const uint8_t *key, size_t key_length, uint8_t *text,
                                size_t text_length);
uint64_t paseto_bench_pem_read(uint32_t version, const uint8_t *text, size_t text_length, uint8_t *key,
                               size_t key_length);
uint64_t paseto_bench_pem_read_contents(uint32_t version, const uint8_t *contents, size_t contents_length,
                                        uint8_t *key, size_t key_length);

uint64_t paseto_bench_json_read(const uint8_t *text, size_t text_length, uint32_t reps);

#endif
