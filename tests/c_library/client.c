/* A program in C over the library, which makes and reads tokens of each kind, and wants of each call the answer that paseto.h
   tells. The last line is 'N passed, M failed'. */
#include "asking.h"
#include "rsa.h"

/* The kinds of tokens: the calls that make one of a text and read it, and what a token that was changed is refused with. */
static const struct kind {
    const char *header;
    unsigned version, type;
    ask *make, *read;
    size_t takes;
    paseto_status of_tampering;
    const char *tampering;
} kinds[] = {
    {"v1.local.", 1, PASETO_KEY_LOCAL, encrypt_with, decrypt, 32, PASETO_CRYPTION, "An unspecified cryption error occured"},
    {"v2.local.", 2, PASETO_KEY_LOCAL, encrypt_with, decrypt, 24, PASETO_CHACHA_CIPHER_ERROR, "An unspecified cipher error occurred"},
    {"v3.local.", 3, PASETO_KEY_LOCAL, encrypt_with, decrypt, 32, PASETO_CRYPTION, "An unspecified cryption error occured"},
    {"v4.local.", 4, PASETO_KEY_LOCAL, encrypt_with, decrypt, 32, PASETO_CRYPTION, "An unspecified cryption error occured"},
    {"v1.public.", 1, PASETO_KEY_PRIVATE, sign_with, verify, 48, PASETO_INVALID_SIGNATURE, "The token signature could not be verified"},
    {"v2.public.", 2, PASETO_KEY_PRIVATE, sign_with, verify, 0, PASETO_INVALID_SIGNATURE, "The token signature could not be verified"},
    {"v3.public.", 3, PASETO_KEY_PRIVATE, sign_with, verify, 0, PASETO_INVALID_SIGNATURE, "The token signature could not be verified"},
    {"v4.public.", 4, PASETO_KEY_PRIVATE, sign_with, verify, 0, PASETO_INVALID_SIGNATURE, "The token signature could not be verified"},
};

enum { KINDS = sizeof kinds / sizeof kinds[0] };

/* The key that makes tokens of a kind, the one that reads them, and another that reads those of others. */
static struct paseto_key writer, reader, stranger;

static void set_keys(const struct kind *kind) {
    if (kind->type == PASETO_KEY_LOCAL) {
        writer = reader = stranger = key_of(kind->version, PASETO_KEY_LOCAL, K4);
        stranger.bytes[0] ^= 1;
    } else if (kind->version == 1) {
        writer = key_of(1, PASETO_KEY_PRIVATE, RSA_PRIVATE);
        reader = stranger = key_of(1, PASETO_KEY_PUBLIC, RSA_PUBLIC);
        /* Behind the number are five bytes of the exponent. */
        stranger.bytes[stranger.length - 6] ^= 2;
    } else {
        key = writer = new_private_key(kind->version);
        reader = made_by(key_public);
        drawn.at[0] ^= 1;
        new_version = (uint8_t)kind->version;
        new_type = PASETO_KEY_PRIVATE;
        key = made_by(key_generate_with);
        stranger = made_by(key_public);
    }
}

static bool has_assertion(const struct kind *kind) {
    return kind->version > 2;
}

/* What a key that is cut is refused with: those of RSA have no length of their own. */
static bool is_rsa(const struct kind *kind) {
    return kind->version == 1 && kind->type == PASETO_KEY_PRIVATE;
}

/* The token with another character at a place of its payload, which is in the alphabet still. */
static void tamper(void) {
    text.at[20] = text.at[20] == 'A' ? 'B' : 'A';
}

static const char *const footers[] = {"", "{\"kid\":\"2026-11\"}"};
static const char *const texts[] = {"", "Gr\xc3\xbc\xc3\x9f" "e \xf0\x9f\x94\x91"};

/* A read token of a text is refused with this. */
static void refuses_reading(const struct kind *kind, paseto_status status, const char *what) {
    check(is_refused(kind->read, status), kind->header, what);
}

/* What was made is read with the key, the footer and the assertion that it was made with, and with no others. */
static void ask_binding(const struct kind *kind) {
    struct slice token = text;
    if (has_assertion(kind)) {
        struct slice bound = assertion;
        assertion.length = 0;
        refuses_reading(kind, kind->of_tampering, "no assertion");
        assertion = bound;
    }
    struct slice held = footer;
    set(&footer, "other");
    refuses_reading(kind, PASETO_FOOTER_INVALID, "another footer");
    footer = held;
    key = stranger;
    refuses_reading(kind, kind->of_tampering, "another key");
    key = reader;
    key.length--;
    refuses_reading(kind, is_rsa(kind) ? kind->of_tampering : PASETO_INVALID_KEY, "a shorter key");
    key = reader;
    tamper();
    refuses_reading(kind, kind->of_tampering, "a token that was changed");
    text = token;
    text.length = 8;
    refuses_reading(kind, PASETO_INCORRECT_SIZE, "a token that was cut");
    text.length = 0;
    refuses_reading(kind, PASETO_INCORRECT_SIZE, "no token");
    set(&text, kind->header);
    memcpy(text.at + text.length, "AAAA", 4);
    text.length += 4;
    footer.length = 0;
    refuses_reading(kind, PASETO_INCORRECT_SIZE, "a short payload");
    text = token;
}

static void ask_texts(const struct kind *kind) {
    for (size_t i = 0; i < 4; i++) {
        reset();
        if (!has_assertion(kind)) assertion.length = 0;
        set(&text, texts[i / 2]);
        set(&footer, footers[i % 2]);
        struct slice plain = text;
        key = writer;
        keep(kind->make);
        check(memcmp(text.at, kind->header, strlen(kind->header)) == 0, kind->header, "the header");
        check(gives(token_footer, footers[i % 2], strlen(footers[i % 2])), kind->header, "the footer is read");
        key = reader;
        check(gives(kind->read, OF(plain)), kind->header, "the text is read");
        if (i == 3) ask_binding(kind);
    }
}

/* ---- claims */

#define CLAIMS "{\"aud\":\"customers\",\"seats\":4}"
#define DATED                                                                                             \
    "{\"aud\":\"customers\",\"exp\":\"2026-11-25T13:00:00Z\",\"iat\":\"2026-11-25T12:00:00Z\","           \
    "\"nbf\":\"2026-11-25T11:59:59Z\",\"seats\":4}"
#define WHOLE (NOW / SECOND * SECOND)

/* A token of the claims, which is read at its moment. */
static void issue(const struct kind *kind) {
    reset();
    if (!has_assertion(kind)) assertion.length = 0;
    set(&footer, footers[1]);
    set(&claims, CLAIMS);
    now = WHOLE;
    key = writer;
    keep(issue_with);
    check(memcmp(text.at, kind->header, strlen(kind->header)) == 0, kind->header, "the header of a token of claims");
    key = reader;
    set(&claims, "{}");
}

/* Reading is refused with this; the line is what the status says, unless it is given. */
static void refuses_claims(const struct kind *kind, paseto_status status, const char *said) {
    check(is_refused_with(admit, status, said), kind->header, said == NULL ? "a refusal" : said);
}

static void admits(const struct kind *kind, const char *what) {
    check(gives(admit, DATED, strlen(DATED)), kind->header, what);
}

static void ask_expected(const struct kind *kind) {
    issue(kind);
    admits(kind, "nothing is expected");
    set(&claims, "{\"aud\":\"customers\",\"seats\":4}");
    admits(kind, "claims that are there are expected");
    set(&claims, "{\"aud\":\"others\"}");
    refuses_claims(kind, PASETO_INVALID, "The claim 'aud' failed validation.  Expected 'customers' but received 'others'");
    set(&claims, "{\"sub\":\"Ada\"}");
    refuses_claims(kind, PASETO_MISSING, "The expected claim 'sub' was not found in the payload");
    set(&claims, "{\"seats\":5}");
    refuses_claims(kind, PASETO_UNEXPECTED, "Could not convert claim 'seats' to the expected data type");
    set(&claims, "{\"aud\":1}");
    refuses_claims(kind, PASETO_UNEXPECTED, "Could not convert claim 'aud' to the expected data type");
    set(&claims, "{\"seats\":1.5}");
    refuses_claims(kind, PASETO_UNEXPECTED, NULL);
    set(&claims, "[]");
    refuses_claims(kind, PASETO_NOT_OBJECT, NULL);
    set(&claims, "");
    refuses_claims(kind, PASETO_NOT_OBJECT, NULL);
    set(&claims, "\xff");
    refuses_claims(kind, PASETO_NOT_UTF8, NULL);
}

/* What is told of a token that does not open, or does not hold now. */
static void ask_admission(const struct kind *kind) {
    char tampering[100];
    sprintf(tampering, "A paseto cipher error occurred: %s", kind->tampering);
    issue(kind);
    struct slice token = text;
    now = WHOLE - SECOND;
    refuses_claims(kind, PASETO_USE_BEFORE_AVAILABLE, "The token cannot be used before 2026-11-25T11:59:59Z");
    now = WHOLE + 3600 * SECOND;
    refuses_claims(kind, PASETO_EXPIRED, "This token is expired");
    now = WHOLE + 3599 * SECOND;
    admits(kind, "the last second");
    tamper();
    refuses_claims(kind, kind->of_tampering, tampering);
    text = token;
    key = stranger;
    refuses_claims(kind, kind->of_tampering, tampering);
    key = reader;
    if (has_assertion(kind)) {
        assertion.length = 0;
        refuses_claims(kind, kind->of_tampering, tampering);
        set(&assertion, "i");
    }
    footer.length = 0;
    refuses_claims(kind, PASETO_FOOTER_INVALID, "A paseto cipher error occurred: The provided footer is invalid");
    set(&footer, footers[1]);
    text.length = 8;
    refuses_claims(kind, PASETO_INCORRECT_SIZE, "A paseto cipher error occurred: This string has an incorrect number of parts and cannot be parsed into a token");
    text = token;
    key.length--;
    refuses_claims(kind, is_rsa(kind) ? kind->of_tampering : PASETO_INVALID_KEY, is_rsa(kind) ? tampering : NULL);
}

/* What options ask for, and how a line is cut. */
static void ask_options(const struct kind *kind) {
    static const struct {
        const char *names;
        paseto_status status;
        const char *said;
    } rows[] = {
        {"[]", PASETO_OK, NULL}, {"[\"aud\",\"exp\"]", PASETO_OK, NULL}, {"{}", PASETO_NOT_NAMES, NULL}, {"[", PASETO_NOT_NAMES, NULL},
        {"[\"exp\",\"jti\"]", PASETO_MISSING, "The expected claim 'jti' was not found in the payload"},
        {"[\"exp\",1]", PASETO_NOT_NAMES, NULL}, {"\xff", PASETO_NOT_UTF8, NULL},
    };
    issue(kind);
    options.leeway = 1;
    now = WHOLE + 3600 * SECOND;
    admits(kind, "within the leeway behind exp");
    now += SECOND;
    refuses_claims(kind, PASETO_EXPIRED, "This token is expired");
    now = WHOLE - SECOND;
    admits(kind, "within the leeway before nbf");
    now = WHOLE;
    options.longest = text.length;
    admits(kind, "a token of the limit");
    options.longest--;
    refuses_claims(kind, PASETO_TOO_LONG, "A paseto cipher error occurred: The token or its footer is longer than allowed");
    options.longest = 0;
    options.longest_footer = footer.length;
    admits(kind, "a footer of the limit");
    options.longest_footer--;
    refuses_claims(kind, PASETO_TOO_LONG, "A paseto cipher error occurred: The token or its footer is longer than allowed");
    options.longest_footer = 0;
    for (size_t i = 0; i < sizeof rows / sizeof rows[0]; i++) {
        options.required = rows[i].names;
        options.required_length = strlen(rows[i].names);
        if (rows[i].status == PASETO_OK) admits(kind, rows[i].names);
        else refuses_claims(kind, rows[i].status, rows[i].said);
    }
}

/* Claims that are not issued. */
static void ask_issuing(const struct kind *kind) {
    static const struct {
        const char *claims;
        paseto_status status;
    } rows[] = {{"[1]", PASETO_NOT_OBJECT}, {"", PASETO_NOT_OBJECT}, {"{\"seats\":1.5}", PASETO_UNEXPECTED}, {"\xff", PASETO_NOT_UTF8}};
    issue(kind);
    key = writer;
    for (size_t i = 0; i < sizeof rows / sizeof rows[0]; i++) {
        set(&claims, rows[i].claims);
        check(is_refused(issue_with, rows[i].status), kind->header, rows[i].claims);
    }
    set(&claims, CLAIMS);
    if (kind->takes > 0) {
        drawn.length = kind->takes - 1;
        check(is_refused(issue_with, PASETO_INVALID_NONCE), kind->header, "too few random bytes");
    }
    drawn.length = kind->takes;
    check(answer_of(issue_with) == PASETO_OK, kind->header, "just enough random bytes");
    key.length--;
    check(is_refused(issue_with, is_rsa(kind) ? PASETO_KEY_REJECTED : PASETO_INVALID_KEY), kind->header, "a shorter key");
}

static void ask_kinds(void) {
    for (size_t i = 0; i < KINDS; i++) {
        reset();
        set_keys(&kinds[i]);
        ask_texts(&kinds[i]);
        ask_expected(&kinds[i]);
        ask_admission(&kinds[i]);
        ask_options(&kinds[i]);
        ask_issuing(&kinds[i]);
    }
}

/* Public tokens of version 1: the salt is what is drawn, and OpenSSL's tokens are read. */
static void ask_rsa(void) {
    reset();
    set_keys(&kinds[4]);
    assertion.length = footer.length = 0;
    key = writer;
    struct slice plain = text, first;
    keep(sign_with);
    first = text;
    text = plain;
    check(gives(sign_with, OF(first)), "v1.public.", "the same salt makes the same token");
    drawn.at[0] ^= 1;
    keep(sign_with);
    check(text.length == first.length && memcmp(text.at, first.at, first.length) != 0, "v1.public.", "another salt makes another token");
    key = reader;
    check(gives(verify, OF(plain)), "v1.public.", "a token of another salt is read");
    set(&text, RSA_TOKEN);
    REFUSES(verify, PASETO_FOOTER_INVALID);
    set(&footer, "a footer");
    set(&plain, "{\"data\":\"this is a signed message\"}");
    check(gives(verify, OF(plain)), "v1.public.", "a token that OpenSSL signed is read");
    key = writer;
    key.type = PASETO_KEY_PUBLIC;
    REFUSES(verify, PASETO_INVALID_SIGNATURE);
    key = reader;
    key.type = PASETO_KEY_PRIVATE;
    text = plain;
    REFUSES(sign_with, PASETO_KEY_REJECTED);
}

/* ---- texts of more than a megabyte, which no call refuses for their length */

enum { LONG = 1100000 };

/* The letters x, so many that the text with what stands before and behind them has the long length. */
static char *long_text(const char *before, const char *behind) {
    char *made = (char *)malloc(LONG);
    if (made == NULL) abort();
    memset(made, 'x', LONG);
    memcpy(made, before, strlen(before));
    memcpy(made + LONG - strlen(behind), behind, strlen(behind));
    return made;
}

/* The text is the message, the footer and, in versions that have one, the implicit assertion. */
static void ask_long_text(const struct kind *kind, const char *plain) {
    size_t room_length = 4 * LONG, n = 0, m = 0, bound = has_assertion(kind) ? LONG : 0;
    uint8_t *token = (uint8_t *)malloc(room_length), *read = (uint8_t *)malloc(LONG);
    bool is_local = kind->type == PASETO_KEY_LOCAL;
    if (token == NULL || read == NULL) abort();
    paseto_status status = is_local ? paseto_encrypt_with(&writer, OF(drawn), plain, LONG, plain, LONG, plain, bound, token, room_length, &n, PASETO_NO_REASON)
                                    : paseto_sign_with(&writer, OF(drawn), plain, LONG, plain, LONG, plain, bound, token, room_length, &n, PASETO_NO_REASON);
    check(status == PASETO_OK, kind->header, "a long text is taken");
    status = is_local ? paseto_decrypt(&reader, token, n, plain, LONG, plain, bound, read, LONG, &m, PASETO_NO_REASON)
                      : paseto_verify(&reader, token, n, plain, LONG, plain, bound, read, LONG, &m, PASETO_NO_REASON);
    check(status == PASETO_OK && m == LONG && memcmp(read, plain, LONG) == 0, kind->header, "a long text is read");
    status = paseto_token_footer(token, n, read, LONG, &m, PASETO_NO_REASON);
    check(status == PASETO_OK && m == LONG && memcmp(read, plain, LONG) == 0, kind->header, "a long footer is read");
    free(token);
    free(read);
}

/* Claims of more than a megabyte are issued, and are expected. */
static void ask_long_claims(const struct kind *kind) {
    size_t room_length = 2 * LONG, n = 0, m = 0;
    char *plain = long_text("{\"text\":\"", "\"}");
    uint8_t *token = (uint8_t *)malloc(room_length), *read = (uint8_t *)malloc(room_length);
    if (token == NULL || read == NULL) abort();
    paseto_status status = paseto_issue_with(&writer, OF(drawn), plain, LONG, NOW, NULL, 0, NULL, 0, token, room_length, &n, PASETO_NO_REASON);
    check(status == PASETO_OK, kind->header, "long claims are issued");
    status = paseto_admit(&reader, token, n, plain, LONG, NOW, NULL, 0, NULL, 0, &options, read, room_length, &m, PASETO_NO_REASON);
    check(status == PASETO_OK && m > LONG, kind->header, "long claims are expected, and admitted");
    free(plain);
    free(token);
    free(read);
}

static void ask_long(void) {
    char *plain = long_text("", "");
    for (size_t i = 0; i < KINDS; i++) {
        reset();
        set_keys(&kinds[i]);
        ask_long_text(&kinds[i], plain);
    }
    reset();
    set_keys(&kinds[3]);
    ask_long_claims(&kinds[3]);
    free(plain);
}

/* ---- what statuses say, what is drawn, and the clock */

static paseto_status error_text(paseto_status status, size_t room_length) {
    memset(room, 0xa5, sizeof room);
    return paseto_error_text(status, room_length > 0 ? room : NULL, room_length, &written);
}

static void ask_error_texts(void) {
    for (unsigned i = 0; i < 256; i++) {
        paseto_status status = (paseto_status)i;
        check(error_text(status, 0) == PASETO_ROOM && written > 0 && written <= 100, "the length of a status's text", "");
        size_t length = written;
        check(error_text(status, length - 1) == PASETO_ROOM && written == length && is_untouched(room, sizeof room), "a room that is too short", "");
        check(error_text(status, length) == PASETO_OK && written == length && is_untouched(room + length, sizeof room - length), "a status's text", "");
    }
    check(error_text(PASETO_EXPIRED, 100) == PASETO_OK && written == 21 && memcmp(room, "This token is expired", 21) == 0, "PASETO_EXPIRED", "");
    check(error_text(PASETO_OTHER, 100) == PASETO_OK && written == 25 && memcmp(room, "An unknown error occurred", 25) == 0, "PASETO_OTHER", "");
}

static void ask_random(void) {
    uint8_t first[32], second[32], zeros[32] = {0};
    check(paseto_random(first, 32) == 0 && paseto_random(second, 32) == 0, "random bytes are drawn", "");
    check(memcmp(first, second, 32) != 0 && memcmp(first, zeros, 32) != 0, "they differ", "");
    check(paseto_random(NULL, 0) == 0, "none are drawn", "");
}

/* The inline calls draw: two tokens of one text differ, and each is read. */
static void ask_drawing(void) {
    reset();
    struct slice plain = text, tokens[2];
    for (int i = 0; i < 2; i++) {
        if (paseto_encrypt(&key, OF(plain), OF(footer), OF(assertion), tokens[i].at, MOST, &tokens[i].length, PASETO_NO_REASON) != PASETO_OK) abort();
        text = tokens[i];
        check(gives(decrypt, OF(plain)), "what an inline call encrypted", "");
    }
    check(memcmp(tokens[0].at, tokens[1].at, tokens[0].length) != 0, "two tokens differ", "");
    struct paseto_key pair, half;
    check(paseto_key_generate(4, PASETO_KEY_PRIVATE, &pair, PASETO_NO_REASON) == PASETO_OK, "an inline call generates", "");
    check(paseto_key_public(&pair, &half, PASETO_NO_REASON) == PASETO_OK, "its public half", "");
    check(paseto_sign(&pair, OF(plain), OF(footer), OF(assertion), text.at, MOST, &text.length, PASETO_NO_REASON) == PASETO_OK, "an inline call signs", "");
    key = half;
    check(gives(verify, OF(plain)), "what an inline call signed", "");
    reset();
    check(paseto_key_protect(&pair, "secret", 6, given.at, MOST, &given.length, PASETO_NO_REASON) == PASETO_OK, "an inline call protects", "");
    check(makes(key_unlock, &pair), "what an inline call protected", "");
    check(paseto_key_wrap(&pair, &other, given.at, MOST, &given.length, PASETO_NO_REASON) == PASETO_OK, "an inline call wraps", "");
    check(makes(key_unwrap, &pair), "what an inline call wrapped", "");
    check(paseto_key_seal(&key, &half, given.at, MOST, &given.length, PASETO_NO_REASON) == PASETO_OK, "an inline call seals", "");
    other = pair;
    check(makes(key_unwrap, &key), "what an inline call sealed", "");
}

/* What an inline call refuses it refuses as its twin does, with the line. */
static void ask_refused_drawing(void) {
    reset();
    key.type = PASETO_KEY_PUBLIC;
    clear();
    paseto_status status = paseto_encrypt(&key, OF(text), OF(footer), OF(assertion), room, MOST, &written, line, sizeof line, &told);
    check(status == PASETO_OTHER_TYPE && written == 0 && tells(status, NULL, sizeof line) && is_untouched(room, sizeof room), "an inline call refuses", "");
}

static void ask_clock(void) {
    reset();
    int64_t moment = paseto_now();
    check(paseto_issue(&key, "{}", 2, moment, OF(footer), OF(assertion), text.at, MOST, &text.length, PASETO_NO_REASON) == PASETO_OK, "an inline call issues", "");
    set(&claims, "{}");
    now = moment;
    check(answer_of(admit) == PASETO_OK, "a fresh token is admitted at once", "");
    check(moment > NOW && paseto_now() >= moment, "the clock runs", "");
}

int main(void) {
    ask_kinds();
    ask_rsa();
    ask_long();
    ask_error_texts();
    ask_random();
    ask_drawing();
    ask_refused_drawing();
    ask_clock();
    return finish();
}
