/* ECDSA over P-384 with SHA-384 over OpenSSL, by the calls on keys, whose nonces are random. */
#define OPENSSL_API_COMPAT 0x10100000L
#include <openssl/bn.h>
#include <openssl/ec.h>
#include <openssl/ecdsa.h>
#include <openssl/obj_mac.h>
#include <openssl/sha.h>
#include <string.h>

#include "peer.h"

static EC_KEY *signing_key, *verifying_key;

bool peer_p384_start(const uint8_t private[48], const uint8_t public[49])
{
    signing_key = EC_KEY_new_by_curve_name(NID_secp384r1);
    verifying_key = EC_KEY_new_by_curve_name(NID_secp384r1);
    const EC_GROUP *group = EC_KEY_get0_group(verifying_key);
    EC_POINT *point = EC_POINT_new(group);
    BIGNUM *number = BN_bin2bn(private, 48, NULL);
    bool started = EC_POINT_oct2point(group, point, public, 49, NULL) == 1
                   && EC_KEY_set_public_key(verifying_key, point) == 1
                   && EC_KEY_set_private_key(signing_key, number) == 1;
    EC_POINT_free(point);
    BN_free(number);
    return started;
}

bool peer_p384_public_key(const uint8_t private[48], uint8_t public[49])
{
    const EC_GROUP *group = EC_KEY_get0_group(signing_key);
    EC_POINT *point = EC_POINT_new(group);
    BIGNUM *number = BN_bin2bn(private, 48, NULL);
    bool made = EC_POINT_mul(group, point, number, NULL, NULL, NULL) == 1
                && EC_POINT_point2oct(group, point, POINT_CONVERSION_COMPRESSED, public, 49, NULL) == 49;
    EC_POINT_free(point);
    BN_free(number);
    return made;
}

bool peer_p384_shared(const uint8_t private[48], const uint8_t public[49], uint8_t shared[48])
{
    const EC_GROUP *group = EC_KEY_get0_group(signing_key);
    EC_POINT *point = EC_POINT_new(group);
    BIGNUM *number = BN_bin2bn(private, 48, NULL), *x = BN_new();
    bool made = EC_POINT_oct2point(group, point, public, 49, NULL) == 1
                && EC_POINT_mul(group, point, NULL, point, number, NULL) == 1
                && EC_POINT_get_affine_coordinates(group, point, x, NULL, NULL) == 1
                && BN_bn2binpad(x, shared, 48) == 48;
    EC_POINT_free(point);
    BN_free(number);
    BN_free(x);
    return made;
}

bool peer_p384_sign(const uint8_t *message, size_t length, uint8_t signature[96])
{
    uint8_t digest[48];
    SHA384(message, length, digest);
    ECDSA_SIG *made = ECDSA_do_sign(digest, 48, signing_key);
    if (made == NULL) {
        return false;
    }
    bool written = BN_bn2binpad(ECDSA_SIG_get0_r(made), signature, 48) == 48
                   && BN_bn2binpad(ECDSA_SIG_get0_s(made), signature + 48, 48) == 48;
    ECDSA_SIG_free(made);
    return written;
}

bool peer_p384_verify(const uint8_t *message, size_t length, const uint8_t signature[96])
{
    uint8_t digest[48];
    SHA384(message, length, digest);
    ECDSA_SIG *given = ECDSA_SIG_new();
    BIGNUM *r = BN_bin2bn(signature, 48, NULL), *s = BN_bin2bn(signature + 48, 48, NULL);
    bool valid = ECDSA_SIG_set0(given, r, s) == 1 && ECDSA_do_verify(digest, 48, given, verifying_key) == 1;
    ECDSA_SIG_free(given);
    return valid;
}
