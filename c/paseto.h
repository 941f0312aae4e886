/* PASETO tokens by the proved library of crates/paseto_c (docs/C.md), with keys that know what they are for.

   Calls keep no state, and may be made from any thread. Bytes are passed as a pointer and a length; the pointer may be
   null if the length is 0. A footer or an implicit assertion of length 0 means that there is none. Pointers to a struct
   or to a length are not null, and the struct may hold anything. What a call writes must not overlap its arguments.

   A call returns a status. With PASETO_OK the buffer (room, room_length) begins with the result, which is not
   null-terminated, *written is its length, and the rest of the buffer is unchanged. With PASETO_ROOM the buffer is too
   short: *written is the length that is needed, and the buffer is unchanged. With any other status *written is 0, and
   the buffer is unchanged: it contains nothing that was decrypted. A key is written with PASETO_OK alone. PASETO_MEMORY
   may be returned in place of any other status.

   With any status but PASETO_OK and PASETO_ROOM the buffer (reason, reason_length) begins with a line that says why,
   without a newline, cut off if the buffer is too short, and *reason_written is the length of the whole line; else it is
   0. The line holds no byte of a key, but names and texts of claims as they are, newlines included. */
#ifndef PASETO_H
#define PASETO_H
#include <errno.h>
#include <stddef.h>
#include <stdint.h>
#include <sys/time.h>
#if defined(__linux__)
#include <sys/random.h>
#endif
#ifdef __cplusplus
extern "C" {
#endif

/* The version that this header describes, 1.0.0: 10000 times the major number, which is that of libpaseto.so.1 and keeps
   calls, statuses and structs as they are, 100 times the minor number, and the patch number. paseto_version returns that
   of the library that the program runs with. */
#define PASETO_VERSION 10000
uint32_t paseto_version(void);
typedef uint8_t paseto_status;

/* The statuses, from c/statuses.txt: */
enum {
    PASETO_OK = 0,
    PASETO_ROOM = 1,   /* the buffer is too short */
    PASETO_MEMORY = 2, /* out of memory */
    /* invalid arguments, checked in this order */
    PASETO_INVALID_KEY = 3,    /* a key of the wrong length or form */
    PASETO_INVALID_NONCE = 4,  /* a nonce, a seed or a salt of the wrong length */
    PASETO_NOT_UTF8 = 5,       /* a text, a token, a footer or an implicit assertion is not UTF-8 */
    PASETO_NOT_OBJECT = 6,     /* claims are not a JSON object */
    PASETO_INVALID_MOMENT = 7, /* no call returns it */
    /* rejected tokens, in the order in which the faults are found */
    PASETO_INCORRECT_SIZE = 8,         /* not three or four sections, or a payload that is too short */
    PASETO_FOOTER_INVALID = 9,         /* a different footer */
    PASETO_WRONG_HEADER = 10,          /* a different version or purpose */
    PASETO_PAYLOAD_BASE64_DECODE = 11, /* a section that is not valid base64url */
    PASETO_CRYPTION = 12,              /* a different key or assertion, or a modified token: v1, v3, v4 local */
    PASETO_CHACHA_CIPHER_ERROR = 13,   /* the same in v2 local, or a text that is too long to encrypt */
    PASETO_INVALID_SIGNATURE = 14,     /* an invalid signature */
    PASETO_UTF8_ERROR = 15,            /* the decrypted text, or the token's footer, is not UTF-8 */
    PASETO_FROM_UTF8_ERROR = 16,       /* the signed text is not UTF-8 */
    PASETO_KEY_REJECTED = 17,          /* not a valid private key */
    PASETO_SIGNATURE = 18,             /* its two halves do not belong together */
    /* rejected claims */
    PASETO_PAYLOAD_JSON_ERROR = 19,   /* the payload is not JSON */
    PASETO_EXPIRED = 20,              /* exp has been reached */
    PASETO_USE_BEFORE_AVAILABLE = 21, /* nbf has not passed yet */
    PASETO_RFC3339_DATE = 22,         /* exp or nbf is not a date and time */
    PASETO_MISSING = 23,              /* an expected claim is missing */
    PASETO_UNEXPECTED = 24,           /* a claim of another type, or a number that is not a 64-bit integer */
    PASETO_INVALID = 25,              /* an expected claim has another text */
    PASETO_DUPLICATE = 26,            /* a claim was set twice; the members of one JSON object never are */
    PASETO_OTHER = 27,                /* no call returns it */
    PASETO_RSA_CIPHER = 28,           /* the numbers of a version 1 private key are inconsistent */
    PASETO_TOO_LONG = 29,             /* the token is longer than the limit */
    PASETO_NOT_NAMES = 30,            /* the required names are not a JSON array of strings */
    /* rejected texts of keys */
    PASETO_NO_PASERK = 31,       /* the text does not begin as a PASERK key */
    PASETO_OTHER_VERSION = 32,   /* a key of another version */
    PASETO_OTHER_TYPE = 33,      /* a key of another type (local, private or public) */
    PASETO_NOT_PEM = 34,         /* not PEM, not with the label of a key, or with more than one key */
    PASETO_ENCRYPTED_KEY = 35,   /* the key is encrypted */
    PASETO_OTHER_LABEL = 36,     /* PEM with another label, for example a public key in place of a private one */
    PASETO_OTHER_ALGORITHM = 37, /* a key of another algorithm */
    PASETO_OTHER_CURVE = 38,     /* a key of another curve */
    PASETO_OTHER_SIZE = 39,      /* an RSA key of another size */
    /* of keys, options and footers */
    PASETO_NO_ASSERTION = 40,      /* an implicit assertion, which versions 1 and 2 do not have */
    PASETO_NEEDS_PASSWORD = 41,    /* the key is under a password */
    PASETO_NEEDS_KEY = 42,         /* the key is wrapped or sealed */
    PASETO_WRONG_KEY = 43,         /* a wrong password or key, or a modified text */
    PASETO_TOO_COSTLY = 44,        /* the password asks for more work than is allowed */
    PASETO_INVALID_OPTIONS = 45,   /* the options have another size */
    PASETO_NO_FOOTER = 46,         /* the token has no footer */
    PASETO_FOOTER_NOT_OBJECT = 47, /* the footer is not a JSON object */
    PASETO_NO_KEY_ID = 48,         /* the footer has no string under kid */
    PASETO_UNKNOWN_KEY = 49,       /* no key has the id that the footer names */
    PASETO_RANDOM = 50             /* the system has no random bytes: of the inline calls alone */
};

/* The moment by the system's clock, in nanoseconds since 1970-01-01T00:00:00Z. */
static inline int64_t paseto_now(void) {
    struct timeval now;
    gettimeofday(&now, NULL);
    return (int64_t)now.tv_sec * 1000000000 + (int64_t)now.tv_usec * 1000;
}

/* Arguments of many calls: what a token is bound to; where the reason of a refusal goes, and nowhere, for calls in C;
   and both that and where the result goes. */
#define PASETO_BOUND const void *footer, size_t footer_length, const void *assertion, size_t assertion_length
#define PASETO_REASON void *reason, size_t reason_length, size_t *reason_written
#define PASETO_NO_REASON NULL, 0, &(size_t){0}
#define PASETO_ANSWER void *room, size_t room_length, size_t *written, PASETO_REASON

/* Describes a status in one line of English, of at most 100 bytes. Statuses: PASETO_OK, PASETO_ROOM.
       paseto_error_text(status, text, sizeof text, &n); */
paseto_status paseto_error_text(paseto_status status, void *room, size_t room_length, size_t *written);

/* ---- keys

   A key has a version, from 1 to 4, and a type, and reads or writes tokens of these alone. A key for local tokens has 32
   bytes. In versions 2 and 4 a private key has 64, a seed and its public key, and a public key 32; in version 3 they have
   48 and 49; in version 1 they are DER, a PKCS #8 PrivateKeyInfo and a PKCS #1 RSAPublicKey, of RSA keys of 2048 bits
   with the exponent 65537. The library puts zeros behind them. A program may set the fields itself: what is no key is
   refused. The first statuses of each call that takes a key are PASETO_OTHER_TYPE for a key of another type, before
   anything else is looked at, and PASETO_INVALID_KEY for a version, a type or a length that no key has. */
enum { PASETO_KEY_LOCAL = 1, PASETO_KEY_PRIVATE = 2, PASETO_KEY_PUBLIC = 3 };

struct paseto_key {
    uint8_t version, type;
    uint16_t length; /* of the bytes */
    uint8_t bytes[1244];
};

/* Overwrites a key with zeros. Wipe each key that is needed no more. */
void paseto_key_wipe(struct paseto_key *key);

/* Reads a key from PASERK text, k4.local. and so on, as in the files of `paseto keygen`, or from PEM as `openssl` writes
   it, which may stand behind other text: an Ed25519 key is one of version 4, a P-384 key of version 3, and an RSA key of
   version 1. In PASERK version 1 has k1.secret., an RSAPrivateKey or a PrivateKeyInfo, and k1.public., a
   SubjectPublicKeyInfo. One newline may end the text. Statuses: PASETO_OK, PASETO_MEMORY, PASETO_NOT_UTF8, then of PEM
   PASETO_NOT_PEM, PASETO_ENCRYPTED_KEY, PASETO_OTHER_LABEL, PASETO_OTHER_ALGORITHM, PASETO_OTHER_CURVE,
   PASETO_OTHER_SIZE, and of PASERK PASETO_NEEDS_PASSWORD, PASETO_NEEDS_KEY, PASETO_NO_PASERK, PASETO_OTHER_VERSION for
   k1.seal.; and PASETO_INVALID_KEY if what follows is no key.
       struct paseto_key key;
       if (paseto_key_read(text, strlen(text), &key, PASETO_NO_REASON) != PASETO_OK) return -1; */
paseto_status paseto_key_read(const void *text, size_t text_length, struct paseto_key *key, PASETO_REASON);

/* The same for texts that are under a password, k4.local-pw. or k4.secret-pw., and for those that another key opens:
   wrapped, k4.local-wrap. or k4.secret-wrap., by the wrapping key, which is one for local tokens, or sealed, k4.seal.,
   by the private key. A text that is not locked is read as it is. Statuses, beside those of paseto_key_read:
   PASETO_WRONG_KEY; of a password PASETO_TOO_COSTLY for more than 10,000,000 iterations, 1 GiB, 32 passes or 16 lanes,
   and PASETO_TOO_LONG for 4 GiB; of another key PASETO_OTHER_TYPE, PASETO_OTHER_VERSION, PASETO_KEY_REJECTED.
       if (paseto_key_unlock(text, strlen(text), "secret", 6, &key, PASETO_NO_REASON) != PASETO_OK) return -1;
       if (paseto_key_unwrap(text, strlen(text), &wrapping_key, &key, PASETO_NO_REASON) != PASETO_OK) return -1; */
paseto_status paseto_key_unlock(const void *text, size_t text_length, const void *password, size_t password_length,
                                struct paseto_key *key, PASETO_REASON);
paseto_status paseto_key_unwrap(const void *text, size_t text_length, const struct paseto_key *opener,
                                struct paseto_key *key, PASETO_REASON);

/* The public key of a private one. Statuses: PASETO_OK, PASETO_MEMORY, PASETO_OTHER_TYPE, and PASETO_INVALID_KEY, also
   for halves that do not belong together.
       if (paseto_key_public(&key, &public_key, PASETO_NO_REASON) != PASETO_OK) return -1; */
paseto_status paseto_key_public(const struct paseto_key *private_key, struct paseto_key *key, PASETO_REASON);

/* The texts of a key: in PASERK; in PEM, of key pairs of versions 1, 3 and 4; and its id, k4.lid., k4.sid. or k4.pid. by
   its type. 128 bytes are room enough, and 2,048 in PEM or for a key pair of version 1. Statuses: PASETO_OK, PASETO_ROOM,
   PASETO_MEMORY, PASETO_OTHER_TYPE for a key for local tokens in PEM, PASETO_INVALID_KEY, PASETO_OTHER_VERSION for
   version 2 in PEM.
       if (paseto_key_id(&key, id, sizeof id, &n, PASETO_NO_REASON) != PASETO_OK) return -1; */
paseto_status paseto_key_text(const struct paseto_key *key, PASETO_ANSWER);
paseto_status paseto_key_pem(const struct paseto_key *key, PASETO_ANSWER);
paseto_status paseto_key_id(const struct paseto_key *key, PASETO_ANSWER);

/* ---- tokens that hold a text

   A key for local tokens decrypts, and a public key verifies: the text of a token of the key's version, with the footer
   and the assertion that are expected. Statuses: PASETO_OK, PASETO_ROOM, PASETO_MEMORY, PASETO_OTHER_TYPE,
   PASETO_INVALID_KEY, PASETO_NO_ASSERTION, PASETO_NOT_UTF8, PASETO_INCORRECT_SIZE, PASETO_FOOTER_INVALID,
   PASETO_WRONG_HEADER, PASETO_PAYLOAD_BASE64_DECODE; of decrypting PASETO_CRYPTION, in version 2
   PASETO_CHACHA_CIPHER_ERROR, and PASETO_UTF8_ERROR; of verifying PASETO_INVALID_SIGNATURE, PASETO_FROM_UTF8_ERROR.
       if (paseto_decrypt(&key, token, token_length, NULL, 0, NULL, 0, text, sizeof text, &n, PASETO_NO_REASON)
           != PASETO_OK) return -1; */
paseto_status paseto_decrypt(const struct paseto_key *key, const void *token, size_t token_length, PASETO_BOUND,
                             PASETO_ANSWER);
paseto_status paseto_verify(const struct paseto_key *key, const void *token, size_t token_length, PASETO_BOUND,
                            PASETO_ANSWER);

/* The footer of a token, empty if it has none. Do not trust it before the token has been read with it. Statuses:
   PASETO_OK, PASETO_ROOM, PASETO_MEMORY, PASETO_NOT_UTF8, PASETO_INCORRECT_SIZE, PASETO_PAYLOAD_BASE64_DECODE,
   PASETO_UTF8_ERROR.
       if (paseto_token_footer(token, token_length, footer, sizeof footer, &n, PASETO_NO_REASON) != PASETO_OK) return -1; */
paseto_status paseto_token_footer(const void *token, size_t token_length, PASETO_ANSWER);

/* ---- tokens that hold claims: what is asked of them

   size: sizeof(struct paseto_options), by which the library knows the fields.
   leeway: by how many seconds the clocks of issuer and reader may differ.
   longest, longest_footer: how many bytes a token and its footer may have; a longer one is refused before any of it is
   decoded. 0 is no limit.
   required: the names of claims that must be present and not null, as a JSON array, ["exp","jti"]; length 0 for none. */
struct paseto_options {
    size_t size;
    uint32_t leeway;
    size_t longest;
    size_t longest_footer;
    const void *required;
    size_t required_length;
};

/* Admits a token: reads it with a key for local tokens or a public key, compares exp and nbf with the moment and each
   expected claim, a member of a JSON object, {} for none, and returns all claims as compact JSON. paseto_admit_by reads it
   with the key of an array whose id is the string under kid of its footer, an object; other keys may stand beside it.
   Statuses: PASETO_OK, PASETO_ROOM, PASETO_MEMORY, PASETO_OTHER_TYPE, PASETO_INVALID_KEY, PASETO_NO_ASSERTION,
   PASETO_INVALID_OPTIONS, PASETO_NOT_UTF8, PASETO_NOT_OBJECT, PASETO_NOT_NAMES, PASETO_UNEXPECTED for an expected number
   that is not a 64-bit integer, PASETO_TOO_LONG, those of reading, PASETO_PAYLOAD_JSON_ERROR, PASETO_EXPIRED,
   PASETO_USE_BEFORE_AVAILABLE, PASETO_RFC3339_DATE, PASETO_MISSING, PASETO_UNEXPECTED, PASETO_INVALID. paseto_admit_by has
   no PASETO_OTHER_TYPE, and PASETO_NO_ASSERTION later: for a long footer PASETO_TOO_LONG, then PASETO_INCORRECT_SIZE,
   PASETO_WRONG_HEADER, PASETO_NO_ASSERTION, PASETO_TOO_LONG, PASETO_PAYLOAD_BASE64_DECODE, PASETO_UTF8_ERROR,
   PASETO_NO_FOOTER, PASETO_FOOTER_NOT_OBJECT, PASETO_NO_KEY_ID, PASETO_UNKNOWN_KEY, and those of reading.
       struct paseto_options options = {sizeof options, 5, 65536, 1024, "[\"exp\"]", 7};
       if (paseto_admit(&key, token, token_length, "{}", 2, paseto_now(), NULL, 0, NULL, 0, &options,
                        claims, sizeof claims, &n, reason, sizeof reason, &r) != PASETO_OK)
           fprintf(stderr, "%.*s\n", (int)(r < sizeof reason ? r : sizeof reason), reason); */
paseto_status paseto_admit(const struct paseto_key *key, const void *token, size_t token_length,
                           const void *expected, size_t expected_length, int64_t now, PASETO_BOUND,
                           const struct paseto_options *options, PASETO_ANSWER);
paseto_status paseto_admit_by(const struct paseto_key *keys, size_t keys_length, const void *token, size_t token_length,
                              const void *expected, size_t expected_length, int64_t now, PASETO_BOUND,
                              const struct paseto_options *options, PASETO_ANSWER);

/* ---- what takes random bytes

   Each call below stands twice: the one that ends in _with takes them from the front of `drawn`, which must be drawn for
   this call alone; PASETO_DRAWN of them are enough for each, and PASETO_INVALID_NONCE is returned for fewer than it takes.
   The other one draws them, and returns PASETO_RANDOM, with no reason, if it cannot.

   A new key for local tokens, or private key of version 2, 3 or 4. Statuses: PASETO_OK, PASETO_MEMORY, PASETO_OTHER_TYPE
   for a public key, PASETO_INVALID_KEY for a version or a type that no key has, PASETO_OTHER_VERSION for a private key of
   version 1, PASETO_INVALID_NONCE, and in version 3 PASETO_KEY_REJECTED for bytes that are no private key, which random
   ones are less than once in 2^189 times.
       if (paseto_key_generate(4, PASETO_KEY_PRIVATE, &key, PASETO_NO_REASON) != PASETO_OK) return -1; */
#define PASETO_DRAWN 48
#define PASETO_FROM const void *drawn, size_t drawn_length
paseto_status paseto_key_generate_with(uint8_t version, uint8_t type, PASETO_FROM, struct paseto_key *key, PASETO_REASON);

/* The text of a key for local tokens or of a private key under a password, of 100,000 iterations, or 64 MiB and 2 passes;
   that of such a key under a wrapping key, which is one for local tokens of the same version; and that of a key for local
   tokens which is sealed to a public key of the same version, 2, 3 or 4. Statuses: PASETO_OK, PASETO_ROOM, PASETO_MEMORY,
   PASETO_OTHER_TYPE, PASETO_INVALID_KEY, PASETO_OTHER_VERSION, PASETO_INVALID_NONCE, PASETO_TOO_LONG for a password of
   4 GiB, and of sealing in version 3 PASETO_KEY_REJECTED as of paseto_key_generate.
       if (paseto_key_protect(&key, "secret", 6, room, sizeof room, &n, PASETO_NO_REASON) != PASETO_OK) return -1;
       if (paseto_key_wrap(&key, &wrapping_key, room, sizeof room, &n, PASETO_NO_REASON) != PASETO_OK) return -1;
       if (paseto_key_seal(&key, &public_key, room, sizeof room, &n, PASETO_NO_REASON) != PASETO_OK) return -1; */
paseto_status paseto_key_protect_with(const struct paseto_key *key, const void *password, size_t password_length,
                                      PASETO_FROM, PASETO_ANSWER);
paseto_status paseto_key_wrap_with(const struct paseto_key *key, const struct paseto_key *other, PASETO_FROM, PASETO_ANSWER);
paseto_status paseto_key_seal_with(const struct paseto_key *key, const struct paseto_key *other, PASETO_FROM, PASETO_ANSWER);

/* A token of a text, which a key for local tokens encrypts, or a private key signs, which takes random bytes in version 1
   alone. Statuses: PASETO_OK, PASETO_ROOM, PASETO_MEMORY, PASETO_OTHER_TYPE, PASETO_INVALID_KEY, PASETO_NO_ASSERTION,
   PASETO_INVALID_NONCE, PASETO_NOT_UTF8; of encrypting in version 2 PASETO_CHACHA_CIPHER_ERROR for 2^38 bytes; of signing
   PASETO_KEY_REJECTED, PASETO_SIGNATURE and in version 1 PASETO_RSA_CIPHER, for a private key that is none.
       if (paseto_encrypt(&key, text, strlen(text), NULL, 0, NULL, 0, token, sizeof token, &n, PASETO_NO_REASON)
           != PASETO_OK) return -1; */
paseto_status paseto_encrypt_with(const struct paseto_key *key, PASETO_FROM, const void *text, size_t text_length,
                                  PASETO_BOUND, PASETO_ANSWER);
paseto_status paseto_sign_with(const struct paseto_key *key, PASETO_FROM, const void *text, size_t text_length,
                               PASETO_BOUND, PASETO_ANSWER);

/* A token of claims, the text of a JSON object. Where they do not say otherwise, iat is the moment, nbf a second before it
   and exp an hour after it. Statuses: those of encrypting or signing, and behind PASETO_NOT_UTF8 also PASETO_NOT_OBJECT,
   and PASETO_UNEXPECTED for a number that is not a 64-bit integer.
       const char *claims = "{\"sub\":\"Ada\"}";
       if (paseto_issue(&key, claims, strlen(claims), paseto_now(), NULL, 0, NULL, 0, token, sizeof token, &n,
                        PASETO_NO_REASON) != PASETO_OK) return -1; */
paseto_status paseto_issue_with(const struct paseto_key *key, PASETO_FROM, const void *claims, size_t claims_length,
                                int64_t now, PASETO_BOUND, PASETO_ANSWER);

/* Draws secret random bytes, by getrandom(2), which blocks only until the system has gathered entropy for the first
   time. Returns 0, or -1 if the system call fails. On systems other than Linux, use the system's own call. */
#if defined(__linux__)
static inline int paseto_random(void *bytes, size_t length) {
    uint8_t *at = (uint8_t *)bytes;
    while (length > 0) {
        ssize_t drawn = getrandom(at, length, 0);
        if (drawn < 0 && errno != EINTR) return -1;
        if (drawn < 0) continue;
        at += drawn;
        length -= (size_t)drawn;
    }
    return 0;
}

#define PASETO_DRAW(none, call)                                                       \
    uint8_t drawn[PASETO_DRAWN];                                                      \
    paseto_status status = PASETO_RANDOM;                                             \
    *reason_written = none;                                                           \
    if (paseto_random(drawn, sizeof drawn) == 0) status = call;                       \
    for (volatile uint8_t *at = drawn; at < drawn + sizeof drawn; at++) *at = 0;      \
    return status
#define PASETO_TO room, room_length, written, reason, reason_length, reason_written
static inline paseto_status paseto_key_generate(uint8_t version, uint8_t type, struct paseto_key *key, PASETO_REASON) {
    PASETO_DRAW(0, paseto_key_generate_with(version, type, drawn, sizeof drawn, key, reason, reason_length, reason_written));
}
static inline paseto_status paseto_key_protect(const struct paseto_key *key, const void *password, size_t password_length,
                                               PASETO_ANSWER) {
    PASETO_DRAW(*written = 0, paseto_key_protect_with(key, password, password_length, drawn, sizeof drawn, PASETO_TO));
}
static inline paseto_status paseto_key_wrap(const struct paseto_key *key, const struct paseto_key *other, PASETO_ANSWER) {
    PASETO_DRAW(*written = 0, paseto_key_wrap_with(key, other, drawn, sizeof drawn, PASETO_TO));
}
static inline paseto_status paseto_key_seal(const struct paseto_key *key, const struct paseto_key *other, PASETO_ANSWER) {
    PASETO_DRAW(*written = 0, paseto_key_seal_with(key, other, drawn, sizeof drawn, PASETO_TO));
}
static inline paseto_status paseto_encrypt(const struct paseto_key *key, const void *text, size_t text_length,
                                           PASETO_BOUND, PASETO_ANSWER) {
    PASETO_DRAW(*written = 0, paseto_encrypt_with(key, drawn, sizeof drawn, text, text_length, footer, footer_length,
                                                  assertion, assertion_length, PASETO_TO));
}
static inline paseto_status paseto_sign(const struct paseto_key *key, const void *text, size_t text_length,
                                        PASETO_BOUND, PASETO_ANSWER) {
    PASETO_DRAW(*written = 0, paseto_sign_with(key, drawn, sizeof drawn, text, text_length, footer, footer_length,
                                               assertion, assertion_length, PASETO_TO));
}
static inline paseto_status paseto_issue(const struct paseto_key *key, const void *claims, size_t claims_length,
                                         int64_t now, PASETO_BOUND, PASETO_ANSWER) {
    PASETO_DRAW(*written = 0, paseto_issue_with(key, drawn, sizeof drawn, claims, claims_length, now, footer,
                                                footer_length, assertion, assertion_length, PASETO_TO));
}
#endif

#ifdef __cplusplus
}
#endif
#endif
