/* Calls of the library with rooms of every length:

     rooms CALLS SEED

   First each call that gives a text is asked with a room of each length up to more than it needs, and each call is refused with a room
   for the reason of each length. Then come random calls, with rooms of every length around the right one. Each room lies between red
   zones. Of each call is known which status it has to answer, since the driver itself puts the fault in, and the answer, which a call
   with much room gave before. No byte outside the room may change, none of the room but by PASETO_OK and then none behind the answer,
   none of the room for the reason but by a refusal, and none of the arguments. All memory is given back. Some calls are asked again,
   with the first request for memory refused, the second, and so on, alone and with all that follow: they answer PASETO_MEMORY. The
   last line is 'N passed, M failed', where a call is one.

   It is linked with --wrap for malloc, realloc and free, so that what the library asks for goes through the driver. */
#include "refused_requests.h"
#include "rsa.h"

#include <paseto.h>

#include <stdbool.h>
#include <stdio.h>
#include <stdlib.h>
#include <string.h>

enum { ZONE = 64, MOST = 2048, TEXT = 300, REUSED = 25 };

#define NOW INT64_C(1795608000123456789)
#define SECOND INT64_C(1000000000)

/* ---- chance: splitmix64 */

static uint64_t state;

static uint64_t next(void) {
    uint64_t z = state += UINT64_C(0x9e3779b97f4a7c15);
    z = (z ^ z >> 30) * UINT64_C(0xbf58476d1ce4e5b9);
    z = (z ^ z >> 27) * UINT64_C(0x94d049bb133111eb);
    return z ^ z >> 31;
}

static size_t below(size_t most) {
    return (size_t)(next() % most);
}

static void fill(uint8_t *at, size_t length) {
    for (size_t i = 0; i < length; i++) at[i] = (uint8_t)next();
}

/* ---- what is handed over */

struct slice {
    uint8_t at[MOST];
    size_t length;
};

static void put(struct slice *slice, const void *bytes, size_t length) {
    if (slice->length + length > MOST) abort();
    memcpy(slice->at + slice->length, bytes, length);
    slice->length += length;
}

static void put_text(struct slice *slice, const char *text) {
    put(slice, text, strlen(text));
}

static void set_text(struct slice *slice, const char *text) {
    slice->length = 0;
    put_text(slice, text);
}

/* A text of so many characters at most, of one to four bytes each. */
static void put_random_text(struct slice *slice, size_t most) {
    static const char *const characters[] = {"a", "Z", "0", " ", "\"", "\n", "\xc3\xbc", "\xe2\x82\xac", "\xf0\x9f\x94\x91"};
    for (size_t left = below(most + 1); left > 0; left--) put_text(slice, characters[below(9)]);
}

/* All that a call may be given. Of the ring the second key is `key`. */
struct given {
    struct paseto_key key, other;
    struct slice drawn, text, token, expected, footer, assertion, password;
    int64_t now;
    struct paseto_options options;
};

typedef paseto_status ask(const struct given *g, PASETO_ANSWER);

#define GIVEN(slice) (slice).length > 0 ? (slice).at : NULL, (slice).length
#define BOUND GIVEN(g->footer), GIVEN(g->assertion)
#define TO room, room_length, written, reason, reason_length, reason_written
#define CALL(name, ...) \
    static paseto_status name(const struct given *g, PASETO_ANSWER) { return paseto_##name(__VA_ARGS__, TO); }

CALL(encrypt_with, &g->key, GIVEN(g->drawn), GIVEN(g->text), BOUND)
CALL(sign_with, &g->key, GIVEN(g->drawn), GIVEN(g->text), BOUND)
CALL(decrypt, &g->key, GIVEN(g->token), BOUND)
CALL(verify, &g->key, GIVEN(g->token), BOUND)
CALL(token_footer, GIVEN(g->token))
CALL(issue_with, &g->key, GIVEN(g->drawn), GIVEN(g->text), g->now, BOUND)
CALL(admit, &g->key, GIVEN(g->token), GIVEN(g->expected), g->now, BOUND, &g->options)
CALL(key_text, &g->key)
CALL(key_pem, &g->key)
CALL(key_id, &g->key)
CALL(key_protect_with, &g->key, GIVEN(g->password), GIVEN(g->drawn))
CALL(key_wrap_with, &g->key, &g->other, GIVEN(g->drawn))
CALL(key_seal_with, &g->key, &g->other, GIVEN(g->drawn))

static paseto_status admit_by(const struct given *g, PASETO_ANSWER) {
    const struct paseto_key ring[] = {g->other, g->key};
    return paseto_admit_by(ring, 2, GIVEN(g->token), GIVEN(g->expected), g->now, BOUND, &g->options, TO);
}

/* The calls that make a key, which is the answer; at a refusal it is as it was. */
#define MAKES(name, ...)                                                                            \
    static paseto_status name(const struct given *g, PASETO_ANSWER) {                               \
        struct paseto_key made, none;                                                               \
        memset(&made, 0xa5, sizeof made);                                                           \
        none = made;                                                                                \
        *written = 0;                                                                               \
        paseto_status status = paseto_##name(__VA_ARGS__, &made, reason, reason_length, reason_written); \
        if (status != PASETO_OK) return memcmp(&made, &none, sizeof made) == 0 ? status : PASETO_OTHER; \
        *written = sizeof made;                                                                     \
        if (room_length < sizeof made) return PASETO_ROOM;                                          \
        memcpy(room, &made, sizeof made);                                                           \
        return PASETO_OK;                                                                           \
    }

MAKES(key_read, GIVEN(g->text))
MAKES(key_unlock, GIVEN(g->text), GIVEN(g->password))
MAKES(key_unwrap, GIVEN(g->text), &g->other)
MAKES(key_public, &g->key)
MAKES(key_generate_with, g->key.version, g->key.type, GIVEN(g->drawn))

/* A kind of token: how it is made and read, and how often it is taken. */
static const struct kind {
    const char *name;
    ask *make, *read;
    uint8_t version, type;
    size_t takes;
    paseto_status of_tampering;
    unsigned share;
} kinds[] = {
    {"v1 local", encrypt_with, decrypt, 1, PASETO_KEY_LOCAL, 32, PASETO_CRYPTION, 10},
    {"v2 local", encrypt_with, decrypt, 2, PASETO_KEY_LOCAL, 24, PASETO_CHACHA_CIPHER_ERROR, 10},
    {"v3 local", encrypt_with, decrypt, 3, PASETO_KEY_LOCAL, 32, PASETO_CRYPTION, 10},
    {"v4 local", encrypt_with, decrypt, 4, PASETO_KEY_LOCAL, 32, PASETO_CRYPTION, 13},
    {"v1 local of claims", issue_with, admit, 1, PASETO_KEY_LOCAL, 32, PASETO_CRYPTION, 6},
    {"v2 local of claims", issue_with, admit, 2, PASETO_KEY_LOCAL, 24, PASETO_CHACHA_CIPHER_ERROR, 6},
    {"v3 local of claims", issue_with, admit, 3, PASETO_KEY_LOCAL, 32, PASETO_CRYPTION, 6},
    {"v4 local of claims", issue_with, admit, 4, PASETO_KEY_LOCAL, 32, PASETO_CRYPTION, 10},
    {"v4 local of claims, by a ring", issue_with, admit_by, 4, PASETO_KEY_LOCAL, 32, PASETO_CRYPTION, 7},
    {"v2 public", sign_with, verify, 2, PASETO_KEY_PRIVATE, 0, PASETO_INVALID_SIGNATURE, 4},
    {"v4 public", sign_with, verify, 4, PASETO_KEY_PRIVATE, 0, PASETO_INVALID_SIGNATURE, 4},
    {"v2 public of claims", issue_with, admit, 2, PASETO_KEY_PRIVATE, 0, PASETO_INVALID_SIGNATURE, 3},
    {"v4 public of claims", issue_with, admit, 4, PASETO_KEY_PRIVATE, 0, PASETO_INVALID_SIGNATURE, 4},
    {"v4 public of claims, by a ring", issue_with, admit_by, 4, PASETO_KEY_PRIVATE, 0, PASETO_INVALID_SIGNATURE, 4},
    {"v3 public", sign_with, verify, 3, PASETO_KEY_PRIVATE, 0, PASETO_INVALID_SIGNATURE, 1},
    {"v3 public of claims", issue_with, admit, 3, PASETO_KEY_PRIVATE, 0, PASETO_INVALID_SIGNATURE, 1},
    {"v1 public", sign_with, verify, 1, PASETO_KEY_PRIVATE, 48, PASETO_INVALID_SIGNATURE, 1},
};

enum { KINDS = sizeof kinds / sizeof kinds[0] };

static bool has_claims(const struct kind *kind) {
    return kind->make == issue_with;
}

static bool has_assertion(const struct kind *kind) {
    return kind->version > 2;
}

static bool is_rsa(const struct kind *kind) {
    return kind->version == 1 && kind->type == PASETO_KEY_PRIVATE;
}

static const struct kind *any_kind(void) {
    size_t at = below(100);
    for (const struct kind *kind = kinds;; kind++) {
        if (at < kind->share) return kind;
        at -= kind->share;
    }
}

/* A token of a kind, with what made it, the key that reads it, another one, and what is read. */
struct sample {
    const struct kind *kind;
    struct given making;
    struct paseto_key read_key, other_key;
    struct slice token, answer;
};

static void draw_keys(const struct kind *kind, struct paseto_key *key, struct paseto_key *read_key) {
    uint8_t seed[PASETO_DRAWN];
    fill(seed, sizeof seed);
    if (is_rsa(kind)) {
        *key = rsa_key(PASETO_KEY_PRIVATE, RSA_PRIVATE);
        *read_key = rsa_key(PASETO_KEY_PUBLIC, RSA_PUBLIC);
        return;
    }
    if (paseto_key_generate_with(kind->version, kind->type, seed, sizeof seed, key, PASETO_NO_REASON) != PASETO_OK) abort();
    *read_key = *key;
    if (kind->type == PASETO_KEY_PRIVATE && paseto_key_public(key, read_key, PASETO_NO_REASON) != PASETO_OK) abort();
}

static void put_claims(struct slice *text) {
    put_text(text, "{\"aud\":\"customers\",\"seats\":4,\"name\":\"");
    for (size_t left = below(40); left > 0; left--) put_text(text, below(2) ? "x" : "\xc3\xbc");
    put_text(text, "\"}");
}

/* The id of the key that reads, in a footer. */
static void put_name(struct slice *footer, const struct paseto_key *read_key) {
    char id[128];
    size_t n;
    if (paseto_key_id(read_key, id, sizeof id, &n, PASETO_NO_REASON) != PASETO_OK) abort();
    put_text(footer, "{\"kid\":\"");
    put(footer, id, n);
    put_text(footer, "\"}");
}

static paseto_status asked(ask *call, const struct given *g, struct slice *answer) {
    return call(g, answer->at, MOST, &answer->length, PASETO_NO_REASON);
}

/* What the reader of a sample is given. */
static void set_reading(struct given *g, const struct sample *s) {
    *g = s->making;
    g->key = s->read_key;
    g->other = s->other_key;
    g->token = s->token;
    set_text(&g->expected, "{}");
}

static bool draw(struct sample *s, const struct kind *kind) {
    static struct given reading;
    struct paseto_key unused;
    memset(s, 0, sizeof *s);
    s->kind = kind;
    draw_keys(kind, &unused, &s->other_key);
    draw_keys(kind, &s->making.key, &s->read_key);
    s->making.drawn.length = PASETO_DRAWN;
    fill(s->making.drawn.at, PASETO_DRAWN);
    s->making.now = NOW;
    s->making.options = (struct paseto_options){sizeof(struct paseto_options), 0, MOST, MOST, "[\"exp\",\"seats\"]", 15};
    if (has_claims(kind)) put_claims(&s->making.text);
    else put_random_text(&s->making.text, TEXT / 4);
    if (kind->read == admit_by) put_name(&s->making.footer, &s->read_key);
    else if (below(2)) put_random_text(&s->making.footer, 8);
    if (has_assertion(kind) && below(2)) put_random_text(&s->making.assertion, 8);
    if (asked(kind->make, &s->making, &s->token) != PASETO_OK) return false;
    set_reading(&reading, s);
    if (asked(kind->read, &reading, &s->answer) != PASETO_OK) return false;
    return has_claims(kind) || (s->answer.length == s->making.text.length && memcmp(s->answer.at, s->making.text.at, s->answer.length) == 0);
}

/* ---- a call */

static uint8_t arena[ZONE + MOST + ZONE], before[sizeof arena], line[ZONE + MOST + ZONE], line_before[sizeof line];

/* Whether the line is there exactly for a refusal, and nothing beyond it has changed. */
static bool is_told(bool is_refused, size_t line_length, size_t told) {
    size_t filled = is_refused ? (told < line_length ? told : line_length) : 0;
    memcpy(line_before + ZONE, line + ZONE, filled);
    for (size_t i = 0; i < filled; i++) {
        if (line[ZONE + i] < ' ') return false;
    }
    return is_refused == (told > 0) && memcmp(line, line_before, line_length + 2 * ZONE) == 0;
}

/* Whether the call answers the status and the text in a room of this length, and changes nothing else. */
static bool holds_in(ask *call, const struct given *g, paseto_status wanted, const struct slice *answer, size_t length, size_t line_length) {
    static struct given copy;
    size_t written = 12345, told = 12345;
    fill(arena, length + 2 * ZONE);
    memset(line, '\n', line_length + 2 * ZONE);
    memcpy(before, arena, length + 2 * ZONE);
    memcpy(line_before, line, line_length + 2 * ZONE);
    copy = *g;
    paseto_status status = call(g, length > 0 ? arena + ZONE : NULL, length, &written, line_length > 0 ? line + ZONE : NULL, line_length, &told);
    if (wanted == PASETO_OK && length < answer->length) wanted = PASETO_ROOM;
    if (wanted == PASETO_OK) memcpy(before + ZONE, answer->at, answer->length);
    bool is_given = wanted == PASETO_OK || wanted == PASETO_ROOM;
    bool is_right = status == wanted && written == (is_given ? answer->length : 0) && is_told(!is_given, line_length, told)
                    && memcmp(arena, before, length + 2 * ZONE) == 0 && memcmp(&copy, g, sizeof copy) == 0 && out == 0;
    if (!is_right) {
        printf("FAILED: status %d in place of %d, written %zu, room of %zu for %zu, a line of %zu in %zu\n", status, wanted, written, length,
               answer->length, told, line_length);
    }
    return is_right;
}

/* ---- every length */

static unsigned long every, failed;

static void hold(bool holds, const char *what) {
    every += holds;
    failed += !holds;
    if (!holds) printf("  of %s\n", what);
}

/* The call with a room of each length up to more than it needs. What hashes a password is asked of some. */
static void give_each(const char *what, ask *call, const struct given *g) {
    static struct slice answer;
    if (asked(call, g, &answer) != PASETO_OK) {
        hold(false, what);
        return;
    }
    size_t step = call == key_protect_with ? 37 : 1;
    for (size_t length = 0; length <= answer.length + 2; length += step) hold(holds_in(call, g, PASETO_OK, &answer, length, 40), what);
    for (size_t more = 0; more <= 1; more++) hold(holds_in(call, g, PASETO_OK, &answer, answer.length - more, 0), what);
}

/* The call that makes a key, whose room has one length. */
static void make_key(const char *what, ask *call, const struct given *g) {
    static struct slice answer;
    if (asked(call, g, &answer) != PASETO_OK) {
        hold(false, what);
        return;
    }
    for (size_t line_length = 0; line_length <= 2; line_length++) hold(holds_in(call, g, PASETO_OK, &answer, answer.length, line_length), what);
}

/* The refused call with a room for the reason of each length up to more than it needs. */
static void refuse_each(const char *what, ask *call, const struct given *g, paseto_status status) {
    static const struct slice none;
    size_t written, told = 0;
    if (call(g, NULL, 0, &written, NULL, 0, &told) != status || told == 0) {
        hold(false, what);
        return;
    }
    for (size_t length = 0; length <= told + 2; length++) hold(holds_in(call, g, status, &none, 40, length), what);
}

static void each_of_tokens(const struct kind *kind) {
    static struct sample s;
    static struct given g;
    if (!draw(&s, kind)) {
        hold(false, kind->name);
        return;
    }
    give_each(kind->name, kind->make, &s.making);
    set_reading(&g, &s);
    give_each(kind->name, kind->read, &g);
    if (g.footer.length > 0) give_each(kind->name, token_footer, &g);
    set_text(&g.token, "v9.local");
    refuse_each(kind->name, kind->read, &g, PASETO_INCORRECT_SIZE);
    refuse_each(kind->name, token_footer, &g, PASETO_INCORRECT_SIZE);
    g = s.making;
    g.key.type = 0;
    refuse_each(kind->name, kind->make, &g, PASETO_INVALID_KEY);
}

/* The calls of a key, which is a private one, a public one or one for local tokens. */
static void each_of_key(const char *name, const struct paseto_key *key, const struct paseto_key *wrapping) {
    static struct given g;
    static struct slice text;
    memset(&g, 0, sizeof g);
    g.key = *key;
    g.other = *wrapping;
    g.drawn.length = PASETO_DRAWN;
    fill(g.drawn.at, PASETO_DRAWN);
    set_text(&g.password, "secret");
    give_each(name, key_text, &g);
    give_each(name, key_id, &g);
    if (key->type != PASETO_KEY_LOCAL && key->version != 2) give_each(name, key_pem, &g);
    if (key->type != PASETO_KEY_PUBLIC) {
        give_each(name, key_wrap_with, &g);
        if (key->version > 2) give_each(name, key_protect_with, &g);
    }
    if (asked(key_text, &g, &text) != PASETO_OK) abort();
    g.text = text;
    make_key(name, key_read, &g);
    if (key->type == PASETO_KEY_PRIVATE) make_key(name, key_public, &g);
    if (key->version > 2 && key->type != PASETO_KEY_PUBLIC && asked(key_protect_with, &g, &g.text) != PASETO_OK) abort();
    make_key(name, key_unlock, &g);
    g.text = text;
    make_key(name, key_unwrap, &g);
    set_text(&g.text, "no key");
    refuse_each(name, key_read, &g, PASETO_NO_PASERK);
    refuse_each(name, key_unlock, &g, PASETO_NO_PASERK);
    refuse_each(name, key_unwrap, &g, PASETO_NO_PASERK);
    g.key.version = 0;
    refuse_each(name, key_text, &g, PASETO_INVALID_KEY);
    refuse_each(name, key_id, &g, PASETO_INVALID_KEY);
    g.key.type = 9;
    refuse_each(name, key_pem, &g, PASETO_INVALID_KEY);
    refuse_each(name, key_public, &g, PASETO_INVALID_KEY);
    refuse_each(name, key_generate_with, &g, PASETO_INVALID_KEY);
    refuse_each(name, key_protect_with, &g, PASETO_INVALID_KEY);
    refuse_each(name, key_wrap_with, &g, PASETO_INVALID_KEY);
    refuse_each(name, key_seal_with, &g, PASETO_INVALID_KEY);
}

/* A key for local tokens that is sealed to a public key, and the private one's public half. */
static void each_of_pair(const char *name, const struct paseto_key *local, const struct paseto_key *own, const struct paseto_key *half) {
    static struct given g;
    static struct slice text;
    memset(&g, 0, sizeof g);
    g.key = *local;
    g.other = *half;
    g.drawn.length = PASETO_DRAWN;
    fill(g.drawn.at, PASETO_DRAWN);
    make_key(name, key_generate_with, &g);
    give_each(name, key_seal_with, &g);
    if (asked(key_seal_with, &g, &text) != PASETO_OK) abort();
    g.text = text;
    g.other = *own;
    make_key(name, key_unwrap, &g);
    g.key = *own;
    make_key(name, key_generate_with, &g);
}

static void each_length(void) {
    for (size_t i = 0; i < KINDS; i++) each_of_tokens(&kinds[i]);
    for (uint8_t version = 1; version <= 4; version++) {
        const struct kind local = {"a key for local tokens", NULL, NULL, version, PASETO_KEY_LOCAL, 0, 0, 0};
        const struct kind pair = {"a key pair", NULL, NULL, version, PASETO_KEY_PRIVATE, 0, 0, 0};
        struct paseto_key key, own, half;
        draw_keys(&local, &key, &half);
        draw_keys(&pair, &own, &half);
        each_of_key("a key for local tokens", &key, &key);
        each_of_key("a private key", &own, &key);
        each_of_key("a public key", &half, &key);
        if (version > 1) each_of_pair("a key pair", &key, &own, &half);
    }
}

/* ---- faults, which are put in in the order in which the library finds them, last first */

/* Of what is handed over one text, that is none any more. */
static void spoil(struct given *g, struct slice *text, bool has_assertion) {
    struct slice *spoiled = below(3) ? text : &g->footer;
    if (has_assertion && below(3) == 0) spoiled = &g->assertion;
    static const char *const bad[] = {"\xff", "\xc3", "\xed\xa0\x80", "\xc0\xaf"};
    put_text(spoiled, bad[below(4)]);
}

static const char *const no_objects[] = {"", "[]", "1", "{", "{\"a\":}", "\"a\"", "{}{}"};

/* A key of a length that is none, but for those of RSA, which have no length of their own. */
static paseto_status lengthen(struct paseto_key *key, const struct kind *kind) {
    uint16_t wrong = (uint16_t)below(100);
    if (is_rsa(kind)) return PASETO_OK;
    key->length = wrong == key->length ? (uint16_t)(wrong + 1) : wrong;
    return PASETO_INVALID_KEY;
}

/* A fault of the arguments, or PASETO_OK for none. */
static paseto_status spoil_arguments(struct given *g, const struct kind *kind, bool is_making) {
    struct slice *text = is_making ? &g->text : &g->token, *object = is_making ? &g->text : &g->expected;
    bool is_ring = kind->read == admit_by && !is_making;
    switch (below(has_claims(kind) ? 8 : 5)) {
    case 0: return lengthen(&g->key, kind);
    case 1:
        if (is_ring) return PASETO_OK;
        g->key.type = is_making ? PASETO_KEY_PUBLIC : PASETO_KEY_PRIVATE;
        return PASETO_OTHER_TYPE;
    case 2:
        if (has_assertion(kind)) return PASETO_OK;
        put_text(&g->assertion, "x");
        return PASETO_NO_ASSERTION;
    case 3:
        if (!is_making || kind->takes == 0) return PASETO_OK;
        g->drawn.length = below(kind->takes);
        return PASETO_INVALID_NONCE;
    case 4: spoil(g, text, has_assertion(kind)); return PASETO_NOT_UTF8;
    case 5: set_text(object, no_objects[below(7)]); return PASETO_NOT_OBJECT;
    case 6:
        if (is_making) return PASETO_OK;
        g->options.size = below(48);
        return PASETO_INVALID_OPTIONS;
    default: set_text(object, "{\"a\":[1,{\"b\":2.5}]}"); return PASETO_UNEXPECTED;
    }
}

/* Where the payload of a token begins. */
static size_t payload_at(const struct given *g) {
    size_t dots = 0, at = 0;
    while (dots < 2) dots += g->token.at[at++] == '.';
    return at;
}

static paseto_status spoil_token(struct given *g, const struct sample *s) {
    size_t payload = payload_at(g);
    uint8_t *place = &g->token.at[payload + below(40)];
    switch (below(9)) {
    case 0: g->token.length = below(payload); return PASETO_INCORRECT_SIZE;
    case 1: put_text(&g->token, ".AAAA.AAAA.AAAA"); return PASETO_INCORRECT_SIZE;
    case 2: put_text(&g->footer, "x"); return PASETO_FOOTER_INVALID;
    case 3: g->token.at[1] = '9'; return PASETO_WRONG_HEADER;
    case 4: *place = "!+/="[below(4)]; return PASETO_PAYLOAD_BASE64_DECODE;
    case 5: *place = *place == 'A' ? 'B' : 'A'; return s->kind->of_tampering;
    case 6:
        if (is_rsa(s->kind)) return PASETO_OK;
        g->key = s->other_key;
        return s->kind->read == admit_by ? PASETO_UNKNOWN_KEY : s->kind->of_tampering;
    case 7:
        if (!has_claims(s->kind)) return PASETO_OK;
        g->options.longest = 1 + below(g->token.length - 1);
        return PASETO_TOO_LONG;
    default:
        if (!has_assertion(s->kind)) return PASETO_OK;
        put_text(&g->assertion, "x");
        return s->kind->of_tampering;
    }
}

static paseto_status spoil_claims(struct given *g) {
    switch (below(6)) {
    case 0: g->now = NOW - SECOND * (int64_t)(1 + below(1000000)); return PASETO_USE_BEFORE_AVAILABLE;
    case 1: g->now = NOW + SECOND * (int64_t)(3600 + below(1000000)); return PASETO_EXPIRED;
    case 2: set_text(&g->expected, "{\"sub\":\"Ada\"}"); return PASETO_MISSING;
    case 3: set_text(&g->expected, "{\"aud\":\"customer\"}"); return PASETO_INVALID;
    case 4:
        g->options.required = "[\"jti\"]";
        g->options.required_length = 7;
        return PASETO_MISSING;
    default: set_text(&g->expected, "{\"seats\":\"4\"}"); return PASETO_UNEXPECTED;
    }
}

/* ---- random calls */

/* A length around this one, or any. */
static size_t length_near(size_t right) {
    switch (below(8)) {
    case 0: return 0;
    case 1: return right;
    case 2: return below(MOST);
    default: {
        size_t gap = below(41);
        return right + 20 < gap ? 0 : right + 20 - gap;
    }
    }
}

static bool holds(ask *call, const struct given *g, paseto_status wanted, const struct slice *answer) {
    return holds_in(call, g, wanted, answer, length_near(answer->length), below(100));
}

static bool try_making(const struct sample *s) {
    static struct given g;
    g = s->making;
    paseto_status fault = PASETO_OK;
    if (below(3) == 0) fault = spoil_arguments(&g, s->kind, true);
    return holds(s->kind->make, &g, fault, &s->token);
}

static bool try_reading(const struct sample *s) {
    static struct given g;
    set_reading(&g, s);
    g.now = NOW + (int64_t)below((size_t)(3600 * SECOND));
    if (below(2)) set_text(&g.expected, "{\"aud\":\"customers\",\"seats\":4}");
    paseto_status fault = PASETO_OK, earlier;
    if (has_claims(s->kind) && below(4) == 0) fault = spoil_claims(&g);
    if (below(3) == 0 && (earlier = spoil_token(&g, s)) != PASETO_OK) fault = earlier;
    if (below(5) == 0 && (earlier = spoil_arguments(&g, s->kind, false)) != PASETO_OK) fault = earlier;
    return holds(s->kind->read, &g, fault, &s->answer);
}

static bool try_footer(const struct sample *s) {
    static struct given g;
    g.token = s->token;
    paseto_status fault = PASETO_OK;
    switch (below(4)) {
    case 0: g.token.length = below(payload_at(&g)); fault = PASETO_INCORRECT_SIZE; break;
    case 1: put_text(&g.token, "\xff"); fault = PASETO_NOT_UTF8; break;
    default: break;
    }
    return holds(token_footer, &g, fault, &s->making.footer);
}

/* The texts of the sample's key, and that key of a text. */
static bool try_key(const struct sample *s) {
    static struct given g;
    static struct slice answer;
    ask *const calls[] = {key_text, key_id, key_wrap_with, key_read};
    ask *call = calls[below(4)];
    g = s->making;
    g.other = s->making.key;
    g.other.type = PASETO_KEY_LOCAL;
    g.other.length = 32;
    if (asked(key_text, &g, &g.text) != PASETO_OK || asked(call, &g, &answer) != PASETO_OK) return false;
    paseto_status fault = PASETO_OK;
    if (below(3) == 0 && call == key_read) {
        put_text(&g.text, "\xff");
        fault = PASETO_NOT_UTF8;
    } else if (below(3) == 0 && call != key_read) {
        fault = lengthen(&g.key, s->kind);
    }
    return holds(call, &g, fault, &answer);
}

/* ---- refused memory */

static unsigned long refused;

/* Whether the call, which answers this, answers PASETO_MEMORY wherever a request is refused. */
static bool wants_memory(ask *call, const struct given *g, const struct slice *answer) {
    for (unsigned long n = 1;; n++) {
        for (int follow = 0; follow < 2; follow++) {
            requests = 0;
            *(follow ? &refuse_from : &refuse_at) = n;
            size_t length = answer->length, written = 12345, told = 12345;
            fill(arena, length + 2 * ZONE);
            memcpy(before, arena, length + 2 * ZONE);
            paseto_status status = call(g, arena + ZONE, length, &written, line, ZONE, &told);
            refuse_at = refuse_from = 0;
            if (requests < n) return status == PASETO_OK && n > 1;
            if (status != PASETO_MEMORY || written != 0 || told == 0 || out != 0 || memcmp(arena, before, length + 2 * ZONE) != 0) {
                printf("FAILED: status %d where request %lu was refused\n", status, n);
                return false;
            }
            refused++;
        }
    }
}

static bool try_memory(const struct sample *s) {
    static struct given g;
    if (!wants_memory(s->kind->make, &s->making, &s->token)) return false;
    set_reading(&g, s);
    set_text(&g.expected, has_claims(s->kind) ? "{\"aud\":\"customers\"}" : "");
    return wants_memory(s->kind->read, &g, &s->answer) && (g.footer.length == 0 || wants_memory(token_footer, &g, &s->making.footer));
}

int main(int count, char **words) {
    unsigned long calls = count == 3 ? strtoul(words[1], NULL, 10) : 0;
    static struct sample s;
    if (calls == 0) {
        fputs("usage: rooms CALLS SEED\n", stderr);
        return 2;
    }
    state = strtoull(words[2], NULL, 10);
    each_length();
    for (unsigned long i = 0; i < calls && failed < 20; i++) {
        if (i % REUSED == 0 && !draw(&s, any_kind())) {
            printf("FAILED: a token of %s is not made, or not read\n", s.kind->name);
            failed++;
            break;
        }
        if (i % (20 * REUSED) == 0 && !try_memory(&s)) {
            printf("  of %s\n", s.kind->name);
            failed++;
        }
        size_t which = below(20);
        bool is_right = which == 0 ? try_footer(&s) : which == 1 ? try_key(&s) : which < 8 ? try_making(&s) : try_reading(&s);
        if (!is_right) {
            printf("  at call %lu, of %s\n", i, s.kind->name);
            failed++;
        }
    }
    printf("%lu of every length\n", every);
    printf("%lu passed, %lu failed\n", failed == 0 ? every + calls + refused : 0, failed);
    return failed > 0;
}
