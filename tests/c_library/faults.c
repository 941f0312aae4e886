/* Each status of the library by its name, and the order in which faults are found:

     faults [quick]

   quick leaves texts under a password out: they cost seconds under valgrind. The last line is 'N passed, M failed'. */
#include "asking.h"
#include "rsa.h"

static bool is_quick;

static ask *const texts_of_keys[] = {key_text, key_id, key_protect_with, key_wrap_with};
static ask *const writers[] = {encrypt_with, issue_with};
static ask *const readers[] = {decrypt, admit};

/* ---- keys */

/* What stands where a key should is refused by each call that takes one. */
static void ask_impossible_key(void) {
    for (size_t j = 0; j < 4; j++) check(is_refused(texts_of_keys[j], PASETO_INVALID_KEY), "an impossible key has no text", "");
    for (size_t j = 0; j < 2; j++) {
        check(is_refused(writers[j], PASETO_INVALID_KEY), "an impossible key writes nothing", "");
        check(is_refused(readers[j], PASETO_INVALID_KEY), "an impossible key reads nothing", "");
    }
    ring[0] = key_of(4, PASETO_KEY_LOCAL, K4);
    ring[1] = key;
    ring_length = 2;
    check(is_refused(admit_by, PASETO_INVALID_KEY), "an impossible key in an array", "");
    other = key;
    key = ring[0];
    check(is_refused(key_wrap_with, PASETO_INVALID_KEY), "an impossible wrapping key", "");
    check(makes_none(key_unwrap, PASETO_INVALID_KEY), "an impossible key opens nothing", "");
    key = other;
    paseto_key_wipe(&key);
    memset(&other, 0, sizeof other);
    check(is_same(&key, &other), "a key is wiped", "");
}

static void impossible_keys(void) {
    static const struct {
        uint8_t version, type;
        uint16_t length;
    } rows[] = {{0, 1, 32}, {5, 1, 32}, {255, 1, 32}, {4, 0, 32}, {4, 4, 32}, {4, 255, 32}, {4, 1, 31}, {4, 1, 33}, {4, 1, 0},
                {4, 1, 65535}, {4, 1, 1245}, {1, 1, 1244}, {0, 0, 0}, {255, 255, 65535}};
    for (size_t i = 0; i < sizeof rows / sizeof *rows; i++) {
        reset();
        keep(encrypt_with);
        key.version = rows[i].version;
        key.type = rows[i].type;
        key.length = rows[i].length;
        ask_impossible_key();
    }
}

/* A key of another type is refused before anything else: its version, its length, the random bytes, and the texts. */
static void other_types(void) {
    reset();
    key.version = 9;
    key.length = 1;
    drawn.length = 0;
    set(&text, "\xff");
    options.size = 1;
    key.type = PASETO_KEY_LOCAL;
    REFUSES(sign_with, PASETO_OTHER_TYPE);
    REFUSES(verify, PASETO_OTHER_TYPE);
    REFUSES(key_pem, PASETO_OTHER_TYPE);
    MAKES_NONE(key_public, PASETO_OTHER_TYPE);
    key.type = PASETO_KEY_PRIVATE;
    REFUSES(encrypt_with, PASETO_OTHER_TYPE);
    REFUSES(decrypt, PASETO_OTHER_TYPE);
    REFUSES(verify, PASETO_OTHER_TYPE);
    REFUSES(admit, PASETO_OTHER_TYPE);
    REFUSES(key_seal_with, PASETO_OTHER_TYPE);
    key.type = PASETO_KEY_PUBLIC;
    REFUSES(encrypt_with, PASETO_OTHER_TYPE);
    REFUSES(decrypt, PASETO_OTHER_TYPE);
    REFUSES(sign_with, PASETO_OTHER_TYPE);
    REFUSES(issue_with, PASETO_OTHER_TYPE);
    REFUSES(key_protect_with, PASETO_OTHER_TYPE);
    REFUSES(key_wrap_with, PASETO_OTHER_TYPE);
    MAKES_NONE(key_public, PASETO_OTHER_TYPE);
    other = key;
    key = key_of(4, PASETO_KEY_LOCAL, K4);
    REFUSES(key_wrap_with, PASETO_OTHER_TYPE);
    other.type = PASETO_KEY_LOCAL;
    REFUSES(key_seal_with, PASETO_OTHER_TYPE);
}

/* Texts that are no keys. */
static void no_keys(void) {
    static const struct {
        const char *text;
        paseto_status status;
    } rows[] = {{"", PASETO_NO_PASERK}, {"k5.local.AAAA", PASETO_NO_PASERK}, {"k4.local.AAAA", PASETO_INVALID_KEY}, {"k4.local.*", PASETO_INVALID_KEY},
                {"k1.secret.AAAA", PASETO_INVALID_KEY}, {"k1.public.AAAA", PASETO_INVALID_KEY}, {"\xff", PASETO_NOT_UTF8},
                {"k1.seal.AAAA", PASETO_OTHER_VERSION}, {"k4.seal.AAAA", PASETO_NEEDS_KEY}, {"k4.secret-pw.AAAA", PASETO_NEEDS_PASSWORD},
                {"-----BEGIN KEY-----", PASETO_NOT_PEM}, {"a text\n-----BEGIN KEY-----\n", PASETO_NOT_PEM}};
    for (size_t i = 0; i < sizeof rows / sizeof *rows; i++) {
        reset();
        set(&given, rows[i].text);
        check(makes_none(key_read, rows[i].status), "a text is no key", rows[i].text);
    }
    reset();
    set(&given, "k4.secret-pw.AAAA");
    MAKES_NONE(key_unlock, PASETO_INVALID_KEY);
    set(&given, "k4.local-wrap.pie.AAAA");
    MAKES_NONE(key_unwrap, PASETO_INVALID_KEY);
    set(&given, "k4.seal.AAAA");
    MAKES_NONE(key_unwrap, PASETO_OTHER_TYPE);
}

/* Keys of version 1: their ids, which Python's hashlib computed, and what is no key. */
static void rsa_keys(void) {
    static const char id[] = "k1.sid.SoyorXSNQ1jgBicmt8PNEJLqZFwtoeFuEFZ5AtKKRK4c", half_id[] = "k1.pid.X7atxVN-a6t9JX4nY1HcqKFW3CoAycBebX_8jB8bSGn6";
    struct paseto_key half = key_of(1, PASETO_KEY_PUBLIC, RSA_PUBLIC);
    reset();
    key = half;
    check(gives(key_id, half_id, sizeof half_id - 1), "the id of a public key", "version 1");
    MAKES_NONE(key_public, PASETO_OTHER_TYPE);
    key.bytes[0] ^= 1;
    for (size_t j = 0; j < 2; j++) check(is_refused(texts_of_keys[j], PASETO_INVALID_KEY), "no public key of RSA", "");
    REFUSES(key_pem, PASETO_INVALID_KEY);
    key = key_of(1, PASETO_KEY_PRIVATE, RSA_PRIVATE);
    check(gives(key_id, id, sizeof id - 1), "the id of a private key", "version 1");
    check(makes(key_public, &half), "the public key of a private one", "version 1");
    other = key_of(1, PASETO_KEY_LOCAL, K4);
    struct slice before = text;
    keep(key_wrap_with);
    given = text;
    check(makes(key_unwrap, &key), "a wrapped private key", "version 1");
    if (!is_quick) {
        keep(key_protect_with);
        given = text;
        check(makes(key_unlock, &key), "a private key under a password", "version 1");
    }
    text = before;
    assertion.length = 0;
    drawn.length = 47;
    REFUSES(sign_with, PASETO_INVALID_NONCE);
    REFUSES(issue_with, PASETO_INVALID_NONCE);
    drawn.length = 48;
    key.bytes[0] ^= 1;
    REFUSES(sign_with, PASETO_KEY_REJECTED);
    for (size_t j = 0; j < 4; j++) check(is_refused(texts_of_keys[j], PASETO_INVALID_KEY), "no private key of RSA", "");
    REFUSES(key_pem, PASETO_INVALID_KEY);
    MAKES_NONE(key_public, PASETO_INVALID_KEY);
    other.version = 4;
    REFUSES(key_wrap_with, PASETO_INVALID_KEY);
    key.bytes[0] ^= 1;
    REFUSES(key_wrap_with, PASETO_OTHER_VERSION);
    key.bytes[key.length - 1] ^= 1;
    REFUSES(sign_with, PASETO_RSA_CIPHER);
}

/* A new key for local tokens is what was drawn, and public ones are not made. */
static void new_local_key(unsigned version) {
    reset();
    new_version = (uint8_t)version;
    struct paseto_key wanted = key_of(version, PASETO_KEY_LOCAL, K4);
    memset(wanted.bytes, 0x5a, 32);
    check(makes(key_generate_with, &wanted), "a new key for local tokens", "");
    drawn.length = 31;
    MAKES_NONE(key_generate_with, PASETO_INVALID_NONCE);
    new_type = PASETO_KEY_PUBLIC;
    MAKES_NONE(key_generate_with, PASETO_OTHER_TYPE);
    new_type = PASETO_KEY_PRIVATE;
    if (version == 1) MAKES_NONE(key_generate_with, PASETO_OTHER_VERSION);
}

/* A new private key begins with what was drawn. */
static void new_pair(unsigned version) {
    size_t takes = version == 3 ? 48 : 32;
    new_version = (uint8_t)version;
    new_type = PASETO_KEY_PRIVATE;
    drawn.length = takes - 1;
    MAKES_NONE(key_generate_with, PASETO_INVALID_NONCE);
    drawn.length = 0;
    pad(&drawn);
    if (version == 3) {
        memset(drawn.at, 0, 48);
        MAKES_NONE(key_generate_with, PASETO_KEY_REJECTED);
        memset(drawn.at, 0xff, 48);
        MAKES_NONE(key_generate_with, PASETO_KEY_REJECTED);
        memset(drawn.at, 0x5a, 48);
    }
    key = made_by(key_generate_with);
    check(key.version == version && key.type == PASETO_KEY_PRIVATE && key.length == (version == 3 ? 48 : 64)
              && memcmp(key.bytes, drawn.at, takes) == 0, "a new private key", "begins with what was drawn");
}

/* What was signed with a key of a pair, and what was sealed to it. */
static void used_pair(const struct paseto_key *own, const struct paseto_key *half) {
    unsigned version = own->version;
    key = *own;
    if (version == 2) assertion.length = 0;
    struct slice plain = text;
    keep(sign_with);
    key = *half;
    check(gives(verify, OF(plain)), "what was signed is verified", "");
    text.at[text.length / 2] = text.at[text.length / 2] == 'A' ? 'B' : 'A';
    REFUSES(verify, PASETO_INVALID_SIGNATURE);
    key = key_of(version, PASETO_KEY_LOCAL, K4);
    other = *half;
    keep(key_seal_with);
    given = text;
    other = *own;
    check(makes(key_unwrap, &key), "a sealed key is opened", "");
    MAKES_NONE(key_read, PASETO_NEEDS_KEY);
    other.bytes[0] ^= 1;
    MAKES_NONE(key_unwrap, PASETO_WRONG_KEY);
    other = *half;
    drawn.length = version == 3 ? 47 : 31;
    REFUSES(key_seal_with, PASETO_INVALID_NONCE);
    drawn.length = 48;
    other.version = (uint8_t)(version == 2 ? 4 : 2);
    if (version != 3) REFUSES(key_seal_with, PASETO_OTHER_VERSION);
}

/* Halves that do not belong together, and in version 3 no private key. */
static void spoiled_pair(const struct paseto_key *own) {
    reset();
    if (own->version == 2) assertion.length = 0;
    key = *own;
    if (own->version == 3) memset(key.bytes, 0, 48);
    else key.bytes[40] ^= 1;
    MAKES_NONE(key_public, PASETO_INVALID_KEY);
    REFUSES(sign_with, own->version == 3 ? PASETO_KEY_REJECTED : PASETO_SIGNATURE);
    REFUSES(issue_with, own->version == 3 ? PASETO_KEY_REJECTED : PASETO_SIGNATURE);
    set(&assertion, "i");
    if (own->version == 2) REFUSES(sign_with, PASETO_NO_ASSERTION);
}

static void new_keys(void) {
    for (unsigned version = 1; version <= 4; version++) {
        new_local_key(version);
        if (version == 1) continue;
        new_pair(version);
        struct paseto_key own = key, half = made_by(key_public);
        reset();
        used_pair(&own, &half);
        spoiled_pair(&own);
        if (is_quick) continue;
        reset();
        key = own;
        keep(key_protect_with);
        given = text;
        check(makes(key_unlock, &own), "a private key under a password", "");
    }
    static const uint8_t none[][2] = {{0, PASETO_KEY_LOCAL}, {5, PASETO_KEY_LOCAL}, {4, 0}, {4, 4}};
    reset();
    for (size_t i = 0; i < 4; i++) {
        new_version = none[i][0];
        new_type = none[i][1];
        MAKES_NONE(key_generate_with, PASETO_INVALID_KEY);
    }
}

/* ---- further faults, each before those that follow */

static void arguments_in_order(void) {
    reset();
    key.version = 2;
    drawn.length = 23;
    set(&text, "\xff");
    set(&claims, "[]");
    REFUSES(encrypt_with, PASETO_NO_ASSERTION);
    REFUSES(issue_with, PASETO_NO_ASSERTION);
    REFUSES(decrypt, PASETO_NO_ASSERTION);
    options.size = 1;
    REFUSES(admit, PASETO_NO_ASSERTION);
    assertion.length = 0;
    REFUSES(encrypt_with, PASETO_INVALID_NONCE);
    REFUSES(issue_with, PASETO_INVALID_NONCE);
    REFUSES(admit, PASETO_INVALID_OPTIONS);
    options.size = sizeof options + 8;
    REFUSES(admit, PASETO_INVALID_OPTIONS);
    options.size = sizeof options;
    drawn.length = 24;
    REFUSES(encrypt_with, PASETO_NOT_UTF8);
    REFUSES(decrypt, PASETO_NOT_UTF8);
    REFUSES(token_footer, PASETO_NOT_UTF8);
    REFUSES(admit, PASETO_NOT_UTF8);
    set(&text, "v4.local.AAAA");
    set(&footer, "\xff");
    REFUSES(decrypt, PASETO_NOT_UTF8);
    REFUSES(issue_with, PASETO_NOT_UTF8);
    set(&footer, "f");
    REFUSES(issue_with, PASETO_NOT_OBJECT);
    REFUSES(admit, PASETO_NOT_OBJECT);
    set(&claims, "{}");
    options.required = "[1]";
    options.required_length = 3;
    REFUSES(admit, PASETO_NOT_NAMES);
    options.required = "{}";
    options.required_length = 2;
    REFUSES(admit, PASETO_NOT_NAMES);
    options.required_length = 0;
    set(&claims, "{\"n\":1.5}");
    REFUSES(admit, PASETO_UNEXPECTED);
    REFUSES(issue_with, PASETO_UNEXPECTED);
    key.version = 4;
    drawn.length = 31;
    REFUSES(encrypt_with, PASETO_INVALID_NONCE);
    REFUSES(key_wrap_with, PASETO_INVALID_NONCE);
    drawn.length = 39;
    REFUSES(key_protect_with, PASETO_INVALID_NONCE);
}

#define TOO_LONG "A paseto cipher error occurred: The token or its footer is longer than allowed"

static void tokens_in_order(void) {
    reset();
    assertion.length = 0;
    set(&claims, "{}");
    set(&text, "v4.local.AAAA");
    options.longest = 12;
    check(is_refused_with(admit, PASETO_TOO_LONG, TOO_LONG), "admit", "PASETO_TOO_LONG");
    options.longest = 13;
    check(is_refused_with(admit, PASETO_FOOTER_INVALID, "A paseto cipher error occurred: The provided footer is invalid"), "admit", "PASETO_FOOTER_INVALID");
    set(&text, "v4.local.AAAA.AAAA");
    options.longest = 0;
    options.longest_footer = 2;
    check(is_refused_with(admit, PASETO_TOO_LONG, TOO_LONG), "admit", "a long footer");
    set(&text, "v4.local");
    REFUSES(decrypt, PASETO_INCORRECT_SIZE);
    REFUSES(token_footer, PASETO_INCORRECT_SIZE);
    set(&text, "v4.local.AAAA.*");
    REFUSES(token_footer, PASETO_PAYLOAD_BASE64_DECODE);
    set(&text, "v4.local.AAAA._w");
    REFUSES(token_footer, PASETO_UTF8_ERROR);
    set(&text, "v4.local.AAAA");
    REFUSES(decrypt, PASETO_FOOTER_INVALID);
    footer.length = 0;
    key.version = 2;
    REFUSES(decrypt, PASETO_WRONG_HEADER);
    set(&text, "v2.local.*");
    REFUSES(decrypt, PASETO_PAYLOAD_BASE64_DECODE);
}

/* ---- claims */

#define DATED                                                                                        \
    "{\"exp\":\"2026-11-25T13:00:00.123456789Z\",\"iat\":\"2026-11-25T12:00:00.123456789Z\","        \
    "\"nbf\":\"2026-11-25T11:59:59.123456789Z\",\"sub\":\"Ada\"}"

/* The times that are written, and when they hold. */
static void times(void) {
    reset();
    keep(issue_with);
    set(&claims, "{}");
    check(gives(admit, DATED, strlen(DATED)), "the times of a token", "at its moment");
    now = NOW / SECOND * SECOND;
    check(gives(admit, DATED, strlen(DATED)), "the times of a token", "by a clock of whole seconds");
    now = NOW - SECOND;
    check(is_refused_with(admit, PASETO_USE_BEFORE_AVAILABLE, "The token cannot be used before 2026-11-25T11:59:59.123456789Z"), "admit",
          "PASETO_USE_BEFORE_AVAILABLE");
    now++;
    check(gives(admit, DATED, strlen(DATED)), "the times of a token", "just behind nbf");
    now = NOW + 3600 * SECOND - 1;
    check(gives(admit, DATED, strlen(DATED)), "the times of a token", "just before exp");
    now++;
    check(is_refused_with(admit, PASETO_EXPIRED, "This token is expired"), "admit", "PASETO_EXPIRED");
    options.leeway = 1;
    check(gives(admit, DATED, strlen(DATED)), "the times of a token", "within the leeway");
    now = INT64_MAX;
    check(is_refused_with(admit, PASETO_EXPIRED, "This token is expired"), "admit", "the last moment");
    now = INT64_MIN;
    check(answer_of(admit) == PASETO_USE_BEFORE_AVAILABLE, "admit", "the first moment");
    for (int i = 0; i < 2; i++) {
        reset();
        now = i == 0 ? INT64_MAX : INT64_MIN;
        keep(issue_with);
        set(&claims, "{}");
        check(answer_of(admit) == PASETO_OK, "a token of the first and of the last moment", "");
    }
}

/* What a token holds, and no reader takes. */
static void odd_payloads(void) {
    reset();
    set(&claims, "{\"exp\":\"soon\"}");
    keep(issue_with);
    set(&claims, "{}");
    check(answer_of(admit) == PASETO_RFC3339_DATE, "admit", "PASETO_RFC3339_DATE");
    reset();
    set(&text, "no JSON");
    keep(encrypt_with);
    set(&claims, "{}");
    check(answer_of(admit) == PASETO_PAYLOAD_JSON_ERROR, "admit", "PASETO_PAYLOAD_JSON_ERROR");
}

/* ---- rings: keys of all versions and types, of which the footer names one */

/* The id of a key in a footer. */
static void name_in_footer(const struct paseto_key *named) {
    char id[128];
    size_t n;
    if (paseto_key_id(named, id, sizeof id, &n, PASETO_NO_REASON) != PASETO_OK) abort();
    footer.length = (size_t)sprintf((char *)footer.at, "{\"kid\":\"%.*s\"}", (int)n, id);
}

/* A new key of the version and the type, or, since RSA keys are not made here, the one that is at hand. */
static struct paseto_key new_key(void) {
    if (new_version == 1 && new_type == PASETO_KEY_PRIVATE) return key_of(1, PASETO_KEY_PRIVATE, RSA_PRIVATE);
    return made_by(key_generate_with);
}

/* A ring of four keys, and a token that the third one reads. */
static void set_ring(unsigned version, unsigned type) {
    reset();
    if (version <= 2) assertion.length = 0;
    new_version = (uint8_t)version;
    new_type = (uint8_t)type;
    key = new_key();
    ring[0] = key_of(3, PASETO_KEY_LOCAL, K4);
    ring[1] = key;
    ring[2] = type == PASETO_KEY_PRIVATE ? made_by(key_public) : key;
    ring[3] = key_of(1, PASETO_KEY_PRIVATE, RSA_PRIVATE);
    ring_length = 4;
    name_in_footer(&ring[2]);
    keep(issue_with);
    set(&claims, "{}");
}

static void ask_ring(unsigned version, unsigned type) {
    set_ring(version, type);
    struct slice named = footer;
    check(gives(admit_by, DATED, strlen(DATED)), "a ring admits", "with the footer");
    footer.length = 0;
    check(gives(admit_by, DATED, strlen(DATED)), "a ring admits", "with any footer");
    set(&footer, "other");
    REFUSES(admit_by, PASETO_FOOTER_INVALID);
    footer = named;
    ring_length = 2;
    if (type == PASETO_KEY_PRIVATE) REFUSES(admit_by, PASETO_UNKNOWN_KEY);
    ring_length = 0;
    REFUSES(admit_by, PASETO_UNKNOWN_KEY);
    ring_length = 4;
    options.longest_footer = named.length;
    check(gives(admit_by, DATED, strlen(DATED)), "a ring admits", "a footer of the limit");
    options.longest_footer--;
    check(is_refused_with(admit_by, PASETO_TOO_LONG, TOO_LONG), "admit_by", "a long footer");
    options.longest_footer = 0;
    options.longest = text.length - 1;
    REFUSES(admit_by, PASETO_TOO_LONG);
    options.longest = 0;
    if (version <= 2) {
        set(&assertion, "i");
        REFUSES(admit_by, PASETO_NO_ASSERTION);
        assertion.length = 0;
    }
    set(&claims, "{\"sub\":\"Eve\"}");
    check(is_refused_with(admit_by, PASETO_INVALID, "The claim 'sub' failed validation.  Expected 'Ada' but received 'Eve'"), "admit_by", "PASETO_INVALID");
    set(&claims, "{}");
    ring[2].bytes[1] ^= 1;
    ring[1].bytes[1] ^= 1;
    REFUSES(admit_by, PASETO_UNKNOWN_KEY);
}

static void ring_faults(void) {
    static const struct {
        const char *footer;
        paseto_status status;
    } rows[] = {{"", PASETO_NO_FOOTER}, {"f", PASETO_FOOTER_NOT_OBJECT}, {"[]", PASETO_FOOTER_NOT_OBJECT}, {"{}", PASETO_NO_KEY_ID},
                {"{\"kid\":1}", PASETO_NO_KEY_ID}, {"{\"kid\":\"other\"}", PASETO_UNKNOWN_KEY}};
    reset();
    ring[0] = key;
    ring_length = 1;
    for (size_t i = 0; i < sizeof rows / sizeof *rows; i++) {
        set(&claims, "{}");
        set(&footer, rows[i].footer);
        keep(issue_with);
        footer.length = 0;
        check(is_refused(admit_by, rows[i].status), "a ring refuses", rows[i].footer);
    }
    assertion.length = 0;
    set(&text, "v5.public.AAAA.AAAA");
    REFUSES(admit_by, PASETO_WRONG_HEADER);
    set(&text, "v1.public.AAAA");
    REFUSES(admit_by, PASETO_NO_FOOTER);
    set(&text, "v4.local");
    REFUSES(admit_by, PASETO_INCORRECT_SIZE);
    set(&text, "v4.local.AAAA.*");
    REFUSES(admit_by, PASETO_PAYLOAD_BASE64_DECODE);
    set(&text, "v4.local.AAAA._w");
    REFUSES(admit_by, PASETO_UTF8_ERROR);
    set(&text, "\xff");
    REFUSES(admit_by, PASETO_NOT_UTF8);
    set(&claims, "[]");
    set(&text, "v4.local");
    REFUSES(admit_by, PASETO_NOT_OBJECT);
    options.size = 0;
    REFUSES(admit_by, PASETO_INVALID_OPTIONS);
}

static void rings(void) {
    for (unsigned version = 1; version <= 4; version++) {
        ask_ring(version, PASETO_KEY_LOCAL);
        ask_ring(version, PASETO_KEY_PRIVATE);
    }
    ring_faults();
}

int main(int count, char **words) {
    is_quick = count == 2 && strcmp(words[1], "quick") == 0;
    if (count != 1 && !is_quick) {
        fputs("usage: faults [quick]\n", stderr);
        return 2;
    }
    impossible_keys();
    other_types();
    no_keys();
    rsa_keys();
    new_keys();
    arguments_in_order();
    tokens_in_order();
    times();
    odd_payloads();
    rings();
    return finish();
}
