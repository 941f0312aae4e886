/* The half of the driver that writes and reads keys as text, wraps them, puts them under a password, seals them, and
   writes and reads them in PEM. The head of secrets.c tells the calls. */
#include "secrets.h"

#include <stdio.h>
#include <stdlib.h>
#include <string.h>
#include <valgrind/memcheck.h>

enum { KEY = 32, NONCE = 32, SECRET3 = 48, SECRET4 = 64, POINT = 49, LONGEST_SECRET = LONGEST_RSA_KEY,
       LONGEST_PASSWORD = 220, LONGEST_TEXT = 2000 };

/* What a password costs: 30 iterations; 64 KiB, filled twice. */
enum { ITERATIONS = 30, MEMORY = 65536, PASSES = 2 };

/* What a round is about. A private key is marked by itself, since a part of it may be public. */
typedef struct {
    uint32_t version;
    bool is_nist;
    uint8_t wrapping_key[KEY], nonce[NONCE], salt[NONCE], password[LONGEST_PASSWORD], local[KEY], secret[LONGEST_SECRET];
    uint8_t ephemeral[SECRET3], public_key[POINT], text[LONGEST_TEXT], read[LONGEST_SECRET];
    size_t password_length, secret_length, public_length, ephemeral_length, salt_length, nonce_length;
} material;

static void fill(uint8_t *bytes, size_t length, size_t first) {
    for (size_t i = 0; i < length; i++) bytes[i] = (uint8_t)(first + 7 * i);
}

/* A private key of Ed25519 and its public key, or those of P-384. */
static bool make_pair(material *m, size_t round) {
    if (m->version == 3) {
        private_key(m->secret, round);
        m->public_length = POINT;
        return done(paseto_bench_p384_public_key(m->secret, SECRET3, m->public_key, POINT, 1));
    }
    m->public_length = KEY;
    if (!done(paseto_bench_ed25519_public_key(m->secret, KEY, m->public_key, KEY, 1))) return false;
    memcpy(m->secret + KEY, m->public_key, KEY);
    return true;
}

static material *make_material(uint32_t version, size_t round) {
    material *m = calloc(1, sizeof *m);
    if (m == NULL) exit(2);
    m->version = version;
    m->is_nist = version % 2 == 1;
    m->secret_length = version == 1 ? 0 : version == 3 ? SECRET3 : SECRET4;
    m->password_length = 20 * round;
    m->ephemeral_length = version == 3 ? SECRET3 : KEY;
    m->salt_length = m->is_nist ? 32 : 16;
    m->nonce_length = m->is_nist ? 16 : 24;
    fill(m->wrapping_key, KEY, round + 1);
    fill(m->nonce, NONCE, round + 2);
    fill(m->salt, NONCE, round + 3);
    fill(m->password, LONGEST_PASSWORD, round + 4);
    fill(m->local, KEY, round + 5);
    fill(m->secret, m->secret_length, round + 6);
    fill(m->ephemeral, SECRET3, round + 7);
    if (version != 1 && !make_pair(m, round)) exit(2);
    return m;
}

/* ---- texts of keys */

/* How long a header is, as "k4.local." and "k4.secret.". */
enum { LOCAL_HEADER = 9, SECRET_HEADER = 10 };

static size_t text_length(const material *m, bool is_secret) {
    return is_secret ? SECRET_HEADER + encoded(m->secret_length) : LOCAL_HEADER + encoded(KEY);
}

static bool writes_text(material *m, bool is_secret) {
    size_t length = text_length(m, is_secret);
    return done(is_secret ? paseto_bench_write_secret(m->version, m->secret, m->secret_length, m->text, length, 1)
                          : paseto_bench_write_local(m->version, m->local, KEY, m->text, length, 1));
}

static bool reads_text(material *m, bool is_secret) {
    size_t length = text_length(m, is_secret);
    return done(is_secret ? paseto_bench_read_secret(m->version, m->text, length, m->read, m->secret_length, 1)
                          : paseto_bench_read_local(m->version, m->text, length, m->read, KEY, 1));
}

/* ---- keys under a wrapping key */

/* How many bytes stand in front of the RSAPrivateKey in a private key of version 1. */
enum { RSA_FRONT = 26 };

/* A private key of version 1 is one of RSA, which is read. */
static bool read_rsa(material *m) {
    if (m->version == 1) m->secret_length = read_rsa_key(m->secret);
    return m->secret_length > (m->version == 1 ? RSA_FRONT : 0);
}

/* How many bytes of a key are wrapped: of a private key of version 1 its RSAPrivateKey. */
static size_t wrapped_bytes(const material *m, bool is_secret) {
    if (!is_secret) return KEY;
    return m->version == 1 ? m->secret_length - RSA_FRONT : m->secret_length;
}

static size_t wrapped_length(const material *m, bool is_secret) {
    return (is_secret ? 19 : 18) + encoded((m->is_nist ? 48 : 32) + NONCE + wrapped_bytes(m, is_secret));
}

static bool wraps(material *m, bool is_secret) {
    size_t length = wrapped_length(m, is_secret);
    return done(is_secret ? paseto_bench_wrap_secret(m->version, m->wrapping_key, KEY, m->nonce, NONCE, m->secret,
                                                     m->secret_length, m->text, length)
                          : paseto_bench_wrap_local(m->version, m->wrapping_key, KEY, m->nonce, NONCE, m->local, KEY,
                                                    m->text, length, 1));
}

static bool unwraps(material *m, bool is_secret) {
    size_t length = wrapped_length(m, is_secret);
    return done(is_secret ? paseto_bench_unwrap_secret(m->version, m->wrapping_key, KEY, m->text, length, m->read,
                                                       m->secret_length)
                          : paseto_bench_unwrap_local(m->version, m->wrapping_key, KEY, m->text, length, m->read, KEY,
                                                      1));
}

/* ---- keys under a password */

static size_t protected_length(const material *m, bool is_secret) {
    size_t key = wrapped_bytes(m, is_secret);
    return (is_secret ? 13 : 12) + encoded(m->is_nist ? 32 + 4 + 16 + key + 48 : 16 + 16 + 24 + key + 32);
}

static bool protects(material *m, bool is_secret) {
    size_t length = protected_length(m, is_secret);
    return done(is_secret ? paseto_bench_protect_secret(m->version, m->password, m->password_length, ITERATIONS, MEMORY,
                                                        PASSES, m->salt, m->salt_length, m->nonce, m->nonce_length,
                                                        m->secret, m->secret_length, m->text, length)
                          : paseto_bench_protect_local(m->version, m->password, m->password_length, ITERATIONS, MEMORY,
                                                       PASSES, m->salt, m->salt_length, m->nonce, m->nonce_length,
                                                       m->local, KEY, m->text, length, 1));
}

static bool unprotects(material *m, bool is_secret) {
    size_t length = protected_length(m, is_secret);
    return done(is_secret ? paseto_bench_unprotect_secret(m->version, m->password, m->password_length, m->text, length,
                                                          m->read, m->secret_length)
                          : paseto_bench_unprotect_local(m->version, m->password, m->password_length, m->text, length,
                                                         m->read, KEY, 1));
}

/* ---- sealed keys */

static size_t sealed_length(const material *m) { return 8 + encoded(m->version == 3 ? 129 : 96); }

static bool seals(material *m) {
    return done(paseto_bench_seal_key(m->version, m->public_key, m->public_length, m->ephemeral, m->ephemeral_length,
                                      m->local, KEY, m->text, sealed_length(m), 1));
}

static bool unseals(material *m) {
    return done(paseto_bench_unseal_key(m->version, m->secret, m->secret_length, m->text, sealed_length(m), m->read,
                                        KEY, 1));
}

/* ---- what is undefined */

/* The seed alone of a private key of Ed25519, whose other half is its public key. */
static void mark_secret(material *m) {
    size_t length = m->version == 2 || m->version == 4 ? KEY : m->secret_length;
    VALGRIND_MAKE_MEM_UNDEFINED(m->secret, length);
}

/* The key that is written. In that of RSA it is numbers that are secret. */
static bool mark_key(material *m, bool is_secret) {
    if (!is_secret) VALGRIND_MAKE_MEM_UNDEFINED(m->local, KEY);
    else if (m->version == 1) return mark_rsa_numbers(m->secret, m->secret_length);
    else mark_secret(m);
    return true;
}

/* Whether what was read is the key. */
static bool is_read(material *m, bool is_secret) {
    const uint8_t *key = is_secret ? m->secret : m->local;
    size_t length = is_secret ? m->secret_length : KEY;
    VALGRIND_MAKE_MEM_DEFINED(m->read, length);
    return memcmp(m->read, key, length) == 0;
}

static bool write_text(material *m, bool is_secret) {
    VALGRIND_MAKE_MEM_UNDEFINED(m->local, KEY);
    VALGRIND_MAKE_MEM_UNDEFINED(m->secret, m->secret_length);
    return writes_text(m, is_secret);
}

/* Every character behind the header is marked. In a refused text one is of no alphabet. */
static bool read_text(material *m, bool is_secret, bool is_changed) {
    if (!writes_text(m, is_secret)) return false;
    size_t header = is_secret ? SECRET_HEADER : LOCAL_HEADER, length = text_length(m, is_secret);
    if (is_changed) m->text[header + 4] = '=';
    VALGRIND_MAKE_MEM_UNDEFINED(m->text + header, length - header);
    return reads_text(m, is_secret) ? !is_changed && is_read(m, is_secret) : is_changed;
}

/* A private key of version 1 has no such text. */
static bool has_secret_text(const material *m) { return m->version != 1; }

static bool wrap(material *m, bool is_secret) {
    if (is_secret && !read_rsa(m)) return false;
    VALGRIND_MAKE_MEM_UNDEFINED(m->wrapping_key, KEY);
    return mark_key(m, is_secret) && wraps(m, is_secret);
}

static bool unwrap(material *m, bool is_secret, bool is_changed) {
    if ((is_secret && !read_rsa(m)) || !wraps(m, is_secret)) return false;
    if (is_changed) change_letter(m->text, is_secret ? 19 : 18);
    VALGRIND_MAKE_MEM_UNDEFINED(m->wrapping_key, KEY);
    return unwraps(m, is_secret) ? !is_changed && is_read(m, is_secret) : is_changed;
}

static bool protect(material *m, bool is_secret) {
    if (is_secret && !read_rsa(m)) return false;
    VALGRIND_MAKE_MEM_UNDEFINED(m->password, m->password_length);
    return mark_key(m, is_secret) && protects(m, is_secret);
}

static bool unprotect(material *m, bool is_secret, bool is_changed) {
    if ((is_secret && !read_rsa(m)) || !protects(m, is_secret)) return false;
    if (is_changed) change_letter(m->text, protected_length(m, is_secret) - 8);
    VALGRIND_MAKE_MEM_UNDEFINED(m->password, m->password_length);
    return unprotects(m, is_secret) ? !is_changed && is_read(m, is_secret) : is_changed;
}

static bool seal(material *m) {
    VALGRIND_MAKE_MEM_UNDEFINED(m->ephemeral, m->ephemeral_length);
    VALGRIND_MAKE_MEM_UNDEFINED(m->local, KEY);
    return seals(m);
}

static bool unseal(material *m, bool is_changed) {
    if (!seals(m)) return false;
    if (is_changed) change_letter(m->text, 8);
    mark_secret(m);
    return unseals(m) ? !is_changed && is_read(m, false) : is_changed;
}

/* ---- PEM */

/* The two lines around the contents, with their ends, and how many characters a line between them has. */
enum { FIRST_LINE = 28, LAST_LINE = 26, LINE = 64, WORD = 8 };

/* How many bytes the PrivateKeyInfo of a key has, and where its secret begins: of Ed25519 a seed, and of P-384 a number. */
enum { INFO3 = 185, NUMBER3 = 35, INFO4 = 48, SEED4 = 16 };

static size_t contents_length(const material *m) {
    return m->version == 1 ? m->secret_length : m->version == 3 ? INFO3 : INFO4;
}

static size_t pem_length(const material *m) {
    size_t characters = (contents_length(m) + 2) / 3 * 4;
    return FIRST_LINE + characters + (characters + LINE - 1) / LINE + LAST_LINE;
}

static bool writes_pem(material *m) {
    return done(paseto_bench_pem_write(m->version, m->secret, m->secret_length, m->text, pem_length(m)));
}

static bool write_pem(material *m) { return read_rsa(m) && mark_key(m, true) && writes_pem(m); }

static uint32_t digit(uint8_t character) {
    static const char DIGITS[] = "ABCDEFGHIJKLMNOPQRSTUVWXYZabcdefghijklmnopqrstuvwxyz0123456789+/";
    const char *found = memchr(DIGITS, character, sizeof DIGITS - 1);
    return found == NULL ? 0 : (uint32_t)(found - DIGITS);
}

/* The contents of a text. */
static void decode_pem(const material *m, uint8_t *contents) {
    uint32_t bits = 0, count = 0;
    size_t written = 0;
    for (size_t i = FIRST_LINE; written < contents_length(m); i++) {
        if (m->text[i] == '\n') continue;
        bits = bits << 6 | digit(m->text[i]);
        if (++count % 4 != 0) continue;
        for (int at = 16; at >= 0 && written < contents_length(m); at -= 8) contents[written++] = (uint8_t)(bits >> at);
    }
}

/* Marks what is secret in the contents of a text. */
static bool mark_contents(const material *m, uint8_t *contents) {
    if (m->version == 1) return mark_rsa_numbers(contents, contents_length(m));
    if (m->version == 3) VALGRIND_MAKE_MEM_UNDEFINED(contents + NUMBER3, SECRET3);
    if (!m->is_nist) VALGRIND_MAKE_MEM_UNDEFINED(contents + SEED4, KEY);
    return true;
}

/* Every character is marked whose six bits are all secret: the others tell what is in the texts of all keys. Nor are the
   WORD before the end of a line, which is looked for in words of so many characters. */
static bool read_pem(material *m) {
    uint8_t contents[LONGEST_SECRET], marks[LONGEST_SECRET];
    if (!read_rsa(m) || !writes_pem(m)) return false;
    decode_pem(m, contents);
    size_t length = pem_length(m), bytes = contents_length(m), bit = 0;
    if (!mark_contents(m, contents)) return false;
    VALGRIND_GET_VBITS(contents, marks, bytes);
    for (size_t i = FIRST_LINE; i < length - LAST_LINE; i++) {
        if (m->text[i] == '\n') continue;
        size_t first = bit / 8, last = (bit + 5) / 8;
        bool is_secret = last < bytes && marks[first] && marks[last];
        if (is_secret && memchr(m->text + i, '\n', WORD + 1) == NULL) VALGRIND_MAKE_MEM_UNDEFINED(m->text + i, 1);
        bit += 6;
    }
    return done(paseto_bench_pem_read(m->version, m->text, length, m->read, m->secret_length)) && is_read(m, true);
}

static bool read_contents(material *m) {
    uint8_t contents[LONGEST_SECRET];
    if (!read_rsa(m) || !writes_pem(m)) return false;
    decode_pem(m, contents);
    size_t length = contents_length(m);
    return mark_contents(m, contents)
           && done(paseto_bench_pem_read_contents(m->version, contents, length, m->read, m->secret_length))
           && is_read(m, true);
}

/* ---- the calls */

/* A call of a round, -1 where there is none of this name. */
static int ask(material *m, const char *call) {
    if (strcmp(call, "text_write") == 0) {
        return write_text(m, false) && (!has_secret_text(m) || write_text(m, true));
    }
    if (strcmp(call, "text_read") == 0) {
        return read_text(m, false, false) && (!has_secret_text(m) || read_text(m, true, false));
    }
    if (strcmp(call, "text_refused") == 0) {
        return read_text(m, false, true) && (!has_secret_text(m) || read_text(m, true, true));
    }
    if (strcmp(call, "wrap") == 0) return wrap(m, false) && wrap(m, true);
    if (strcmp(call, "unwrap") == 0) return unwrap(m, false, false);
    if (strcmp(call, "unwrap_secret") == 0) return unwrap(m, true, false);
    if (strcmp(call, "unwrap_refused") == 0) return unwrap(m, false, true);
    if (strcmp(call, "protect") == 0) return protect(m, false) && protect(m, true);
    if (strcmp(call, "unprotect") == 0) return unprotect(m, false, false);
    if (strcmp(call, "unprotect_secret") == 0) return unprotect(m, true, false);
    if (strcmp(call, "unprotect_refused") == 0) return unprotect(m, false, true);
    if (strcmp(call, "seal_key") == 0) return seal(m);
    if (strcmp(call, "unseal_key") == 0) return unseal(m, false);
    if (strcmp(call, "unseal_refused") == 0) return unseal(m, true);
    if (strcmp(call, "pem_write") == 0) return write_pem(m);
    if (strcmp(call, "pem_read") == 0) return read_pem(m);
    if (strcmp(call, "pem_contents") == 0) return read_contents(m);
    return -1;
}

int ask_keys(const char *version, const char *call) {
    if (strlen(version) != 2 || version[0] != 'v' || version[1] < '1' || version[1] > '4') return -1;
    int right = 0;
    for (size_t round = 0; round < ROUNDS; round++) {
        material *m = make_material((uint32_t)(version[1] - '0'), round);
        int answer = ask(m, call);
        free(m);
        if (answer < 0) return -1;
        right += answer;
    }
    return right;
}
