/* What the drivers of the library share: what they hand over to a call, the calls as functions of one type, and what they want of
   them.

   What is handed over stands in memory of exactly its length, so that valgrind and the sanitizers see a byte that is read beyond.
   A call that gives a text is asked with no room, with one byte less than is needed, with just that, and with more: what stands
   beyond, and what a refusal leaves, is as it was. A refusal is asked with no room for the reason, with a byte too few, and with
   enough. */
#ifndef ASKING_H
#define ASKING_H

#ifdef REFUSING
#include "refused_requests.h"
#define OWN(call) __real_##call
#else
#define OWN(call) call
#endif

#include <paseto.h>

#include <stdbool.h>
#include <stdio.h>
#include <stdlib.h>
#include <string.h>

enum { MOST = 8192, FIELDS = 8, BEYOND = 16, LENT = 8 };

static unsigned passed, failed;

static inline void check(bool holds, const char *what, const char *which) {
    if (holds) {
        passed++;
    } else {
        failed++;
        printf("FAILED: %s: %.100s\n", what, which);
    }
}

/* The last line, and the status of the driver. */
static inline int finish(void) {
    printf("%u passed, %u failed\n", passed, failed);
    return failed > 0 || passed == 0;
}

/* ---- what is handed over */

struct slice {
    uint8_t at[MOST];
    size_t length;
};

static struct slice drawn, text, footer, assertion, claims, password, given;
static struct paseto_key key, other, ring[4];
static size_t ring_length;
static struct paseto_options options;
static int64_t now;
static uint8_t new_version, new_type;

/* 2026-11-25T12:00:00.123456789Z */
#define NOW INT64_C(1795608000123456789)
#define SECOND INT64_C(1000000000)
/* A key for local tokens. */
#define K4 "707172737475767778797a7b7c7d7e7f808182838485868788898a8b8c8d8e8f"
#define K4_TEXT "k4.local.cHFyc3R1dnd4eXp7fH1-f4CBgoOEhYaHiImKi4yNjo8"

#define OF(slice) (slice).at, (slice).length

static inline void set(struct slice *slice, const char *bytes) {
    slice->length = strlen(bytes);
    if (slice->length >= MOST) abort();
    memcpy(slice->at, bytes, slice->length);
}

static inline void set_hex(struct slice *slice, const char *digits) {
    slice->length = 0;
    if (strcmp(digits, "-") == 0 || strcmp(digits, "none") == 0) return;
    for (; digits[0] != '\0'; digits += 2) {
        char pair[3] = {digits[0], digits[1], '\0'};
        if (slice->length == MOST) abort();
        slice->at[slice->length++] = (uint8_t)strtoul(pair, NULL, 16);
    }
}

static inline struct paseto_key key_of(unsigned version, unsigned type, const char *digits) {
    static struct slice bytes;
    struct paseto_key made;
    memset(&made, 0, sizeof made);
    set_hex(&bytes, digits);
    made.version = (uint8_t)version;
    made.type = (uint8_t)type;
    made.length = (uint16_t)bytes.length;
    memcpy(made.bytes, bytes.at, bytes.length);
    return made;
}

static inline unsigned type_of(const char *word) {
    return strcmp(word, "local") == 0 ? PASETO_KEY_LOCAL : strcmp(word, "secret") == 0 ? PASETO_KEY_PRIVATE : PASETO_KEY_PUBLIC;
}

/* Random bytes, as many as any call takes. */
static inline void pad(struct slice *slice) {
    while (slice->length < PASETO_DRAWN) slice->at[slice->length++] = 0x5a;
}

/* What no fault is in yet. */
static inline void reset(void) {
    key = key_of(4, PASETO_KEY_LOCAL, K4);
    other = key;
    drawn.length = 0;
    pad(&drawn);
    set(&text, "{\"a\":1}");
    set(&footer, "f");
    set(&assertion, "i");
    set(&claims, "{\"sub\":\"Ada\"}");
    set(&password, "secret");
    set(&given, K4_TEXT);
    now = NOW;
    options = (struct paseto_options){sizeof options, 0, 0, 0, NULL, 0};
    new_version = 4;
    new_type = PASETO_KEY_LOCAL;
}

/* Copies in memory of just their length, which are given back after the call; of no bytes the pointer is null. */
static void *lent[LENT];
static size_t lent_count;

static inline void *lend(const void *bytes, size_t length) {
    if (length == 0) return NULL;
    void *made = lent_count < LENT ? OWN(malloc)(length) : NULL;
    if (made == NULL) abort();
    lent[lent_count++] = made;
    return memcpy(made, bytes, length);
}

static inline paseto_status given_back(paseto_status status) {
    while (lent_count > 0) OWN(free)(lent[--lent_count]);
    return status;
}

/* ---- the calls that make a text, and those that make a key */

typedef paseto_status ask(PASETO_ANSWER);
typedef paseto_status ask_key(struct paseto_key *made, PASETO_REASON);

#define GIVEN(slice) lend((slice).at, (slice).length), (slice).length
#define TO room, room_length, written, reason, reason_length, reason_written
#define BOUND GIVEN(footer), GIVEN(assertion)
#define CALL(name, ...) \
    static inline paseto_status name(PASETO_ANSWER) { return given_back(paseto_##name(__VA_ARGS__, TO)); }
#define MAKES(name, ...)                                                                            \
    static inline paseto_status name(struct paseto_key *made, PASETO_REASON) {                      \
        return given_back(paseto_##name(__VA_ARGS__, made, reason, reason_length, reason_written)); \
    }

CALL(encrypt_with, &key, GIVEN(drawn), GIVEN(text), BOUND)
CALL(sign_with, &key, GIVEN(drawn), GIVEN(text), BOUND)
CALL(decrypt, &key, GIVEN(text), BOUND)
CALL(verify, &key, GIVEN(text), BOUND)
CALL(token_footer, GIVEN(text))
CALL(issue_with, &key, GIVEN(drawn), GIVEN(claims), now, BOUND)
CALL(admit, &key, GIVEN(text), GIVEN(claims), now, BOUND, &options)
CALL(admit_by, lend(ring, ring_length * sizeof *ring), ring_length, GIVEN(text), GIVEN(claims), now, BOUND, &options)
CALL(key_text, &key)
CALL(key_pem, &key)
CALL(key_id, &key)
CALL(key_protect_with, &key, GIVEN(password), GIVEN(drawn))
CALL(key_wrap_with, &key, &other, GIVEN(drawn))
CALL(key_seal_with, &key, &other, GIVEN(drawn))
MAKES(key_read, GIVEN(given))
MAKES(key_unlock, GIVEN(given), GIVEN(password))
MAKES(key_unwrap, GIVEN(given), &other)
MAKES(key_public, &key)
MAKES(key_generate_with, new_version, new_type, GIVEN(drawn))

/* ---- what is wanted of them */

static uint8_t room[MOST + BEYOND], line[MOST];
static size_t written, told;

static inline bool is_untouched(const void *bytes, size_t length) {
    const uint8_t *at = (const uint8_t *)bytes;
    for (size_t i = 0; i < length; i++)
        if (at[i] != 0xa5) return false;
    return true;
}

static inline void clear(void) {
    memset(room, 0xa5, sizeof room);
    memset(line, 0xa5, sizeof line);
    written = told = 77;
}

/* The status alone, with room enough. */
static inline paseto_status answer_of(ask *call) {
    clear();
    return call(room, MOST, &written, line, sizeof line, &told);
}

/* The call gives the text in a room of this length, or says how much it needs. */
static inline bool gives_in(ask *call, size_t room_length, const void *bytes, size_t length) {
    clear();
    paseto_status status = call(room_length > 0 ? room : NULL, room_length, &written, line, sizeof line, &told);
    bool fits = room_length >= length;
    size_t filled = fits ? length : 0;
    return status == (fits ? PASETO_OK : PASETO_ROOM) && written == length && told == 0 && is_untouched(line, sizeof line)
           && (filled == 0 || memcmp(room, bytes, filled) == 0) && is_untouched(room + filled, sizeof room - filled);
}

/* The call gives a text, in rooms of every length that tells. */
static inline bool gives(ask *call, const void *bytes, size_t length) {
    return gives_in(call, 0, bytes, length) && gives_in(call, length > 0 ? length - 1 : 0, bytes, length)
           && gives_in(call, length, bytes, length) && gives_in(call, length + BEYOND, bytes, length);
}

/* The reason is this line, or that of the status, cut to this length. */
static inline bool tells(paseto_status status, const char *wanted, size_t line_length) {
    char own[128];
    size_t n;
    if (wanted == NULL) {
        if (paseto_error_text(status, own, sizeof own - 1, &n) != PASETO_OK) return false;
        own[n] = '\0';
        wanted = own;
    }
    size_t filled = told < line_length ? told : line_length;
    return told == strlen(wanted) && memcmp(line, wanted, filled) == 0 && is_untouched(line + filled, sizeof line - filled);
}

/* The call is refused, and tells it in a room of this length. */
static inline bool is_refused_in(ask *call, size_t line_length, paseto_status wanted, const char *reason) {
    clear();
    paseto_status status = call(room, MOST, &written, line_length > 0 ? line : NULL, line_length, &told);
    return status == wanted && written == 0 && tells(wanted, reason, line_length) && is_untouched(room, sizeof room);
}

static inline bool is_refused_with(ask *call, paseto_status wanted, const char *reason) {
    if (!is_refused_in(call, sizeof line, wanted, reason) || !is_refused_in(call, told - 1, wanted, reason)) return false;
    clear();
    return call(NULL, 0, &written, NULL, 0, &told) == wanted && written == 0 && tells(wanted, reason, 0);
}

static inline bool is_refused(ask *call, paseto_status wanted) {
    return is_refused_with(call, wanted, NULL);
}

static inline bool is_same(const struct paseto_key *one, const struct paseto_key *two) {
    return memcmp(one, two, sizeof *one) == 0;
}

static inline bool makes(ask_key *call, const struct paseto_key *wanted) {
    struct paseto_key made;
    memset(&made, 0xa5, sizeof made);
    clear();
    return call(&made, line, sizeof line, &told) == PASETO_OK && told == 0 && is_untouched(line, sizeof line) && is_same(&made, wanted);
}

/* The call makes no key, and tells it in a room of this length. */
static inline bool makes_none_in(ask_key *call, size_t line_length, paseto_status wanted) {
    struct paseto_key made;
    memset(&made, 0xa5, sizeof made);
    clear();
    paseto_status status = call(&made, line_length > 0 ? line : NULL, line_length, &told);
    return status == wanted && tells(wanted, NULL, line_length) && is_untouched(&made, sizeof made);
}

static inline bool makes_none(ask_key *call, paseto_status wanted) {
    return makes_none_in(call, sizeof line, wanted) && makes_none_in(call, told - 1, wanted) && makes_none_in(call, 0, wanted);
}

#define REFUSES(call, status) check(is_refused(call, status), #call, #status)
#define MAKES_NONE(call, status) check(makes_none(call, status), #call, #status)

/* The token that the call makes is the text of the next calls. */
static inline void keep(ask *call) {
    if (answer_of(call) != PASETO_OK) abort();
    memcpy(text.at, room, written);
    text.length = written;
}

/* The key that a call has to make. */
static inline struct paseto_key made_by(ask_key *call) {
    struct paseto_key made;
    memset(&made, 0xa5, sizeof made);
    if (call(&made, NULL, 0, &told) != PASETO_OK) abort();
    return made;
}

/* A new private key of version 2, 3 or 4. */
static inline struct paseto_key new_private_key(unsigned version) {
    static struct slice before;
    before = drawn;
    drawn.length = 0;
    pad(&drawn);
    new_version = (uint8_t)version;
    new_type = PASETO_KEY_PRIVATE;
    struct paseto_key made = made_by(key_generate_with);
    drawn = before;
    return made;
}

/* ---- rows of a file */

/* Hands over the fields of each row, and tells how many rows there were; 0 where there is no such file. */
static inline unsigned for_rows(const char *path, void row(char **fields, size_t count)) {
    static char buffer[8 * MOST];
    FILE *rows = fopen(path, "r");
    unsigned count = 0;
    if (rows == NULL) return 0;
    while (fgets(buffer, sizeof buffer, rows) != NULL) {
        char *fields[FIELDS], *field = strtok(buffer, " \n");
        size_t found = 0;
        for (; field != NULL && found < FIELDS; field = strtok(NULL, " \n")) fields[found++] = field;
        if (found == 0 || fields[0][0] == '#') continue;
        row(fields, found);
        count++;
    }
    fclose(rows);
    return count;
}

#endif
