/* RSASSA-PSS with SHA-384 over OpenSSL, by the calls on keys. */
#define OPENSSL_API_COMPAT 0x10100000L
#include <openssl/bn.h>
#include <openssl/evp.h>
#include <openssl/rsa.h>
#include <openssl/sha.h>
#include <openssl/x509.h>
#include <stdlib.h>

#include "peer.h"

#define SALT_LENGTH 48

static RSA *rsa;

/* The key in a PrivateKeyInfo, and its public half. */
bool peer_rsa_start(struct peer_bytes *private, struct peer_bytes *public)
{
    BIGNUM *exponent = BN_new();
    rsa = RSA_new();
    bool made = BN_set_word(exponent, RSA_F4) == 1 && RSA_generate_key_ex(rsa, 2048, exponent, NULL) == 1;
    BN_free(exponent);
    EVP_PKEY *key = EVP_PKEY_new();
    if (!made || EVP_PKEY_set1_RSA(key, rsa) != 1) {
        return false;
    }
    PKCS8_PRIV_KEY_INFO *info = EVP_PKEY2PKCS8(key);
    private->bytes = public->bytes = NULL;
    int private_length = i2d_PKCS8_PRIV_KEY_INFO(info, &private->bytes);
    int public_length = i2d_RSAPublicKey(rsa, &public->bytes);
    PKCS8_PRIV_KEY_INFO_free(info);
    EVP_PKEY_free(key);
    private->length = (size_t)private_length;
    public->length = (size_t)public_length;
    return private_length > 0 && public_length > 0;
}

bool peer_rsa_sign(const uint8_t *message, size_t length, uint8_t signature[256])
{
    uint8_t digest[48], encoded[256];
    SHA384(message, length, digest);
    return RSA_padding_add_PKCS1_PSS_mgf1(rsa, encoded, digest, EVP_sha384(), EVP_sha384(), SALT_LENGTH) == 1
           && RSA_private_encrypt(256, encoded, signature, rsa, RSA_NO_PADDING) == 256;
}

static bool verify(RSA *key, const uint8_t *message, size_t length, const uint8_t signature[256])
{
    uint8_t digest[48], encoded[256];
    SHA384(message, length, digest);
    return RSA_public_decrypt(256, signature, encoded, key, RSA_NO_PADDING) == 256
           && RSA_verify_PKCS1_PSS_mgf1(key, digest, EVP_sha384(), EVP_sha384(), encoded, SALT_LENGTH) == 1;
}

bool peer_rsa_verify(const uint8_t *message, size_t length, const uint8_t signature[256])
{
    return verify(rsa, message, length, signature);
}

bool peer_rsa_read_verify(const uint8_t *public, size_t public_length, const uint8_t *message, size_t length,
                          const uint8_t signature[256])
{
    RSA *key = d2i_RSAPublicKey(NULL, &public, (long)public_length);
    bool valid = key != NULL && verify(key, message, length, signature);
    RSA_free(key);
    return valid;
}
