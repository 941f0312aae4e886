/* PASETO tokens as a user of libsodium (local ones of versions 2 and 4, and public ones of version 4) and of
   OpenSSL (local ones of versions 1 and 3, and public ones of version 3) writes them, with no footer and no
   implicit assertion, and keys of versions 3 and 4 as PASERK wraps them. */
#ifndef PEER_H
#define PEER_H

#include <stdbool.h>
#include <stddef.h>
#include <stdint.h>

/* Bytes that the caller frees. Where a call failed, `bytes` is null. */
struct peer_bytes {
    uint8_t *bytes;
    size_t length;
};

typedef struct peer_bytes peer_seal(const uint8_t key[32], const uint8_t nonce[32],
                                    const uint8_t *text, size_t length);

typedef struct peer_bytes peer_open(const uint8_t key[32], const uint8_t *token, size_t length);

peer_seal peer_v1_seal, peer_v2_seal, peer_v3_seal, peer_v4_seal;
peer_open peer_v1_open, peer_v2_open, peer_v3_open, peer_v4_open;

/* A public token of version 4: it is signed under a private key, which is a seed and its public key. */
struct peer_bytes peer_v4_sign(const uint8_t private_key[64], const uint8_t *text, size_t length);

/* The text of such a token. */
struct peer_bytes peer_v4_verify(const uint8_t public_key[32], const uint8_t *token, size_t length);

/* A public token of version 3, which is signed under the private key that `peer_p384_start` was given. */
struct peer_bytes peer_v3_sign(const uint8_t public_key[49], const uint8_t *text, size_t length);

/* The text of such a token. */
struct peer_bytes peer_v3_verify(const uint8_t public_key[49], const uint8_t *token, size_t length);

/* Readies both libraries. It is called once, before all else. */
bool peer_start(void);

/* The HMAC-SHA384 code of a message, under a key of at most 128 bytes. */
void peer_hmac_sha384(const uint8_t *key, size_t key_length, const uint8_t *message, size_t length,
                      uint8_t code[48]);

/* Encrypts data in place by AES-256 in counter mode. */
bool peer_aes256_ctr(const uint8_t key[32], const uint8_t counter[16], uint8_t *data,
                     size_t length);

/* Readies the keys of P-384. It is called once, before the other calls. */
bool peer_p384_start(const uint8_t private[48], const uint8_t public[49]);

/* The compressed public key of a private key. */
bool peer_p384_public_key(const uint8_t private[48], uint8_t public[49]);

/* What a private key and a public key share. */
bool peer_p384_shared(const uint8_t private[48], const uint8_t public[49], uint8_t shared[48]);

/* A signature of a message, by SHA-384. */
bool peer_p384_sign(const uint8_t *message, size_t length, uint8_t signature[96]);

/* Whether a signature of a message is valid. */
bool peer_p384_verify(const uint8_t *message, size_t length, const uint8_t signature[96]);

/* Makes the keys of RSA, of 2048 bits, and gives their encodings. It is called once, before the other calls. */
bool peer_rsa_start(struct peer_bytes *private, struct peer_bytes *public);

/* A signature of a message, by RSASSA-PSS with SHA-384 and a random salt of 48 bytes. */
bool peer_rsa_sign(const uint8_t *message, size_t length, uint8_t signature[256]);

/* Whether a signature of a message is valid. */
bool peer_rsa_verify(const uint8_t *message, size_t length, const uint8_t signature[256]);

/* The same under a public key in PKCS #1, which is read first. */
bool peer_rsa_read_verify(const uint8_t *public, size_t public_length, const uint8_t *message, size_t length,
                          const uint8_t signature[256]);

/* The text of a private key of version 4, and the key of such a text. */
struct peer_bytes peer_v4_write_key(const uint8_t private_key[64]);
struct peer_bytes peer_v4_read_key(const uint8_t *text, size_t length);

/* The text of a key of local tokens under a wrapping key, and the key of such a text. */
typedef struct peer_bytes peer_wrap(const uint8_t wrapping_key[32], const uint8_t nonce[32], const uint8_t key[32]);
typedef struct peer_bytes peer_unwrap(const uint8_t wrapping_key[32], const uint8_t *text, size_t length);

peer_wrap peer_v3_wrap, peer_v4_wrap;
peer_unwrap peer_v3_unwrap, peer_v4_unwrap;

/* The text of a key of local tokens under a password: by 100,000 iterations in version 3, and by 64 MiB and two passes in
   version 4. */
struct peer_bytes peer_v3_protect(const uint8_t *password, size_t length, const uint8_t salt[32],
                                  const uint8_t nonce[16], const uint8_t key[32]);
struct peer_bytes peer_v4_protect(const uint8_t *password, size_t length, const uint8_t salt[16],
                                  const uint8_t nonce[24], const uint8_t key[32]);

/* The key that a password gives by those 100,000 iterations. */
bool peer_pbkdf2(const uint8_t *password, size_t length, const uint8_t salt[32], uint8_t key[48]);

/* The text of a key of local tokens that is sealed to a public key, and the key of such a text. */
struct peer_bytes peer_v3_seal_key(const uint8_t public_key[49], const uint8_t ephemeral[48], const uint8_t key[32]);
struct peer_bytes peer_v4_seal_key(const uint8_t public_key[32], const uint8_t ephemeral[32], const uint8_t key[32]);
struct peer_bytes peer_v3_unseal_key(const uint8_t private_key[48], const uint8_t *text, size_t length);
struct peer_bytes peer_v4_unseal_key(const uint8_t private_key[64], const uint8_t *text, size_t length);

#endif
