/* Seals, opens and signs with a key whose bytes count as undefined, so that valgrind's memcheck reports each
   conditional jump and each address in the library that depends on it. What its reports may be is in
   secrets.txt, and secrets.sh compares. A VERSION is v1, v2, v3 or v4, or box, the sealed box of version 2.

     secrets VERSION seal       the key is undefined, and tokens of each length are sealed
     secrets VERSION seal_text  the key and the text are undefined
     secrets VERSION refused    the key is undefined, and tokens are opened that one bit of their tag was changed in
     secrets VERSION open       the key is undefined, and tokens are opened
     secrets ed25519 key        the seeds are undefined, and their public keys are made
     secrets ed25519 sign       the seed of the private key is undefined, and messages of each length are signed
     secrets ed25519 signer     the same, under a key whose halves are asked once
     secrets p384 key           private keys are undefined, and their public keys are made
     secrets p384 sign          private keys are undefined, and texts of each length are signed
     secrets p384 agree         private keys are undefined, and what each shares with a public key is made
     secrets VERSION text_write the key of local tokens and the private key are undefined, and are written as PASERK text
     secrets VERSION text_read  the characters of these texts behind the header are undefined, and they are read; and
                                text_refused, where one of them is no base64url
     secrets VERSION wrap       the wrapping key and the keys are undefined, and a key of local tokens and a private key are
                                wrapped
     secrets VERSION unwrap     the wrapping key is undefined, and a key of local tokens is unwrapped; so for
                                unwrap_secret a private key, and for unwrap_refused a key whose tag was changed
     secrets VERSION protect    the password and the keys are undefined, and both keys are put under it; and unprotect,
                                unprotect_secret and unprotect_refused as with a wrapping key
     secrets VERSION seal_key   the ephemeral secret key and the key are undefined, and the key is sealed to a public key
     secrets VERSION unseal_key the private key is undefined, and what was sealed for it is unsealed; and unseal_refused
     secrets VERSION pem_write  the private key is undefined, and is written in PEM
     secrets VERSION pem_read   the characters of its secret numbers are undefined, and it is read
     secrets VERSION pem_contents  the secret numbers in its contents are undefined, and these are read
     secrets rsa sign           private keys are read from standard input, a line of hexadecimal digits each; the numbers
                                that only a private key has are undefined, and texts of each length are signed
     secrets control control    no call: a jump and an address of this file itself, which have to be reported

   The status is 0 where each call answered as it should. */
#include "secrets.h"

#include <stdio.h>
#include <stdlib.h>
#include <string.h>
#include <valgrind/memcheck.h>

enum { KEY = 32, NONCE = 32, BOX_NONCE = 24, LONGEST_TEXT = 1000, HEADER = 9, SIGNATURE = 64, RSA_SIGNATURE = 256 };

/* Where the INTEGERs in a private key of RSA begin: behind two headers, the version, the algorithm and one header more. */
enum { RSA_INTEGERS = 30 };

/* Around one block of each cipher and of each hash. */
static const size_t LENGTHS[] = {0, 1, 63, 64, 65, 127, 128, 129, 256, 300, LONGEST_TEXT};
enum { LENGTH_COUNT = sizeof LENGTHS / sizeof *LENGTHS };
_Static_assert((int)LENGTH_COUNT == (int)ROUNDS, "each call is asked equally often");

/* What is sealed: a token, of a header and the base64url encoding of a nonce, the ciphertext and a tag; or a box,
   of the ciphertext and a tag alone. */
typedef struct {
    const char *name;
    paseto_bench_seal *seal;
    paseto_bench_open *open;
    size_t nonce, tag;
    bool is_token;
} version;

/* The data beside a box, and its nonce. */
static const uint8_t DATA[] = "data that are not encrypted, and fill more than two blocks";
static const uint8_t BOX_NONCES[BOX_NONCE] = "a nonce for 1 key alone";

static uint64_t box_seal(const uint8_t *key, size_t key_length, const uint8_t *nonce, size_t nonce_length,
                         const uint8_t *text, size_t text_length, uint8_t *boxed, size_t length, uint32_t reps) {
    (void)nonce, (void)nonce_length;
    return paseto_bench_xchacha20poly1305_seal(key, key_length, BOX_NONCES, BOX_NONCE, DATA, sizeof DATA, text,
                                               text_length, boxed, length, reps);
}

static uint64_t box_open(const uint8_t *key, size_t key_length, const uint8_t *boxed, size_t length, uint8_t *text,
                         size_t text_length, uint32_t reps) {
    return paseto_bench_xchacha20poly1305_open(key, key_length, BOX_NONCES, BOX_NONCE, DATA, sizeof DATA, boxed,
                                               length, text, text_length, reps);
}

static const version VERSIONS[] = {
    {"v1", paseto_bench_v1_seal, paseto_bench_v1_open, 32, 48, true},
    {"v2", paseto_bench_v2_seal, paseto_bench_v2_open, BOX_NONCE, 16, true},
    {"v3", paseto_bench_v3_seal, paseto_bench_v3_open, 32, 48, true},
    {"v4", paseto_bench_v4_seal, paseto_bench_v4_open, 32, 32, true},
    {"box", box_seal, box_open, 0, 16, false},
};

/* The version's text, whose key is marked, and the tokens, which are made before it is marked. */
typedef struct {
    uint8_t key[KEY], nonce[NONCE], text[LONGEST_TEXT];
} material;

size_t encoded(size_t length) { return (4 * length + 2) / 3; }

static size_t token_length(const version *v, size_t text) {
    size_t payload = v->nonce + text + v->tag;
    return v->is_token ? HEADER + encoded(payload) : payload;
}

static material *make_material(void) {
    material *made = malloc(sizeof *made);
    if (made == NULL) exit(2);
    for (size_t i = 0; i < KEY; i++) made->key[i] = (uint8_t)(0x70 + i);
    for (size_t i = 0; i < NONCE; i++) made->nonce[i] = (uint8_t)(0x11 * i);
    for (size_t i = 0; i < LONGEST_TEXT; i++) made->text[i] = (uint8_t)('a' + i % 26);
    return made;
}

bool done(uint64_t answer) {
    VALGRIND_MAKE_MEM_DEFINED(&answer, sizeof answer);
    return answer != PASETO_BENCH_FAILED;
}

static bool seals(const version *v, const material *m, size_t length, uint8_t *token) {
    return done(v->seal(m->key, KEY, m->nonce, NONCE, m->text, length, token, token_length(v, length), 1));
}

void change_letter(uint8_t *text, size_t place) { text[place] = text[place] == 'A' ? 'B' : 'A'; }

static int seal_all(const version *v, bool text_too) {
    material *m = make_material();
    uint8_t token[HEADER + 2 * LONGEST_TEXT];
    VALGRIND_MAKE_MEM_UNDEFINED(m->key, KEY);
    if (text_too) VALGRIND_MAKE_MEM_UNDEFINED(m->text, LONGEST_TEXT);
    int right = 0;
    for (size_t i = 0; i < LENGTH_COUNT; i++) right += seals(v, m, LENGTHS[i], token);
    free(m);
    return right;
}

static int open_all(const version *v, bool changed) {
    material *m = make_material();
    uint8_t tokens[LENGTH_COUNT][HEADER + 2 * LONGEST_TEXT], text[LONGEST_TEXT];
    for (size_t i = 0; i < LENGTH_COUNT; i++) {
        if (!seals(v, m, LENGTHS[i], tokens[i])) return 0;
        /* The tag stands near the end. */
        if (changed) change_letter(tokens[i], token_length(v, LENGTHS[i]) - 8);
    }
    VALGRIND_MAKE_MEM_UNDEFINED(m->key, KEY);
    int right = 0;
    for (size_t i = 0; i < LENGTH_COUNT; i++) {
        uint64_t answer = v->open(m->key, KEY, tokens[i], token_length(v, LENGTHS[i]), text, LENGTHS[i], 1);
        right += done(answer) != changed;
    }
    free(m);
    return right;
}

static int make_public_keys(void) {
    int right = 0;
    for (size_t i = 0; i < LENGTH_COUNT; i++) {
        material *m = make_material();
        uint8_t public_key[KEY];
        m->key[0] = (uint8_t)i;
        VALGRIND_MAKE_MEM_UNDEFINED(m->key, KEY);
        right += done(paseto_bench_ed25519_public_key(m->key, KEY, public_key, KEY, 1));
        free(m);
    }
    return right;
}

/* The seed of the private key is undefined, and its public half is not. */
static int sign_all(paseto_bench_digest *sign) {
    material *m = make_material();
    uint8_t private_key[2 * KEY], signature[SIGNATURE];
    memcpy(private_key, m->key, KEY);
    if (!done(paseto_bench_ed25519_public_key(private_key, KEY, private_key + KEY, KEY, 1))) return 0;
    VALGRIND_MAKE_MEM_UNDEFINED(private_key, KEY);
    int right = 0;
    for (size_t i = 0; i < LENGTH_COUNT; i++) {
        right += done(sign(private_key, sizeof private_key, m->text, LENGTHS[i], signature, SIGNATURE, 1));
    }
    free(m);
    return right;
}

void private_key(uint8_t key[48], size_t i) {
    memset(key, i % 3 == 0 ? 0 : i % 3 == 1 ? 0xa5 : 0x3c, 48);
    key[47] = (uint8_t)(i + 1);
}

static int p384_all(bool sign) {
    material *m = make_material();
    int right = 0;
    for (size_t i = 0; i < LENGTH_COUNT; i++) {
        uint8_t key[48], point[49], signature[96];
        private_key(key, i);
        VALGRIND_MAKE_MEM_UNDEFINED(key, sizeof key);
        right += sign ? done(paseto_bench_p384_sign(key, 48, m->text, LENGTHS[i], signature, 96, 1))
                      : done(paseto_bench_p384_public_key(key, 48, point, 49, 1));
    }
    free(m);
    return right;
}

/* The other party's public key is that of a private key that is defined. */
static int p384_agree_all(void) {
    uint8_t key[48], point[49], shared[48];
    int right = 0;
    private_key(key, 1);
    if (!done(paseto_bench_p384_public_key(key, 48, point, 49, 1))) return 0;
    for (size_t i = 0; i < LENGTH_COUNT; i++) {
        private_key(key, i);
        VALGRIND_MAKE_MEM_UNDEFINED(key, sizeof key);
        right += done(paseto_bench_p384_shared_secret(key, 48, point, 49, shared, 48, 1));
    }
    return right;
}

size_t read_rsa_key(uint8_t *key) {
    char line[2 * LONGEST_RSA_KEY + 2];
    size_t length = 0;
    if (fgets(line, sizeof line, stdin) == NULL) return 0;
    while (sscanf(line + 2 * length, "%2hhx", &key[length]) == 1) length++;
    return length;
}

bool mark_rsa_numbers(uint8_t *key, size_t key_length) {
    size_t at = RSA_INTEGERS;
    for (int number = 0; number < 9; number++) {
        if (at + 4 > key_length || key[at] != 2) return false;
        size_t size = key[at + 1], header = 2;
        if (size == 0x81) size = key[at + 2], header = 3;
        if (size == 0x82) size = 256u * key[at + 2] + key[at + 3], header = 4;
        at += header;
        if (at + size > key_length) return false;
        if (number >= 3) VALGRIND_MAKE_MEM_UNDEFINED(key + at, size);
        at += size;
    }
    return at == key_length;
}

static int rsa_sign_all(void) {
    material *m = make_material();
    int right = 0;
    for (size_t i = 0; i < LENGTH_COUNT; i++) {
        uint8_t key[LONGEST_RSA_KEY], signature[RSA_SIGNATURE];
        size_t length = read_rsa_key(key);
        if (!mark_rsa_numbers(key, length)) return 0;
        right += done(paseto_bench_rsa_sign(key, length, m->text, LENGTHS[i], signature, RSA_SIGNATURE, 1));
    }
    free(m);
    return right;
}

/* What this test has to find: a jump on a bit of the key, and a place in a table at a byte of it. */
__attribute__((noinline)) static int control(void) {
    static const uint8_t table[256] = {1, 2, 3};
    material *m = make_material();
    VALGRIND_MAKE_MEM_UNDEFINED(m->key, KEY);
    volatile uint8_t found = ((const volatile uint8_t *)table)[m->key[0]];
    if (m->key[1] & 1) puts("a jump on a key");
    (void)found;
    free(m);
    return LENGTH_COUNT;
}

int main(int argc, char **argv) {
    if (argc != 3) return 2;
    int right = -1;
    if (strcmp(argv[1], "control") == 0) right = control();
    if (strcmp(argv[1], "ed25519") == 0 && strcmp(argv[2], "key") == 0) right = make_public_keys();
    if (strcmp(argv[1], "ed25519") == 0 && strcmp(argv[2], "sign") == 0) right = sign_all(paseto_bench_ed25519_sign);
    if (strcmp(argv[1], "ed25519") == 0 && strcmp(argv[2], "signer") == 0) {
        right = sign_all(paseto_bench_ed25519_sign_with_key);
    }
    if (strcmp(argv[1], "rsa") == 0 && strcmp(argv[2], "sign") == 0) right = rsa_sign_all();
    if (strcmp(argv[1], "p384") == 0 && strcmp(argv[2], "agree") == 0) right = p384_agree_all();
    else if (strcmp(argv[1], "p384") == 0) right = p384_all(strcmp(argv[2], "sign") == 0);
    for (size_t i = 0; i < sizeof VERSIONS / sizeof *VERSIONS; i++) {
        const version *v = &VERSIONS[i];
        if (strcmp(argv[1], v->name) != 0) continue;
        if (strcmp(argv[2], "seal") == 0) right = seal_all(v, false);
        if (strcmp(argv[2], "seal_text") == 0) right = seal_all(v, true);
        if (strcmp(argv[2], "refused") == 0) right = open_all(v, true);
        if (strcmp(argv[2], "open") == 0) right = open_all(v, false);
    }
    if (right < 0) right = ask_keys(argv[1], argv[2]);
    if (right < 0) return 2;
    return right == LENGTH_COUNT ? 0 : 1;
}
