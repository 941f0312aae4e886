/* Several threads at once over the library:

     threads SECONDS COUNT

   Each thread makes and reads tokens of a text and of claims of all eight kinds, and writes and reads its keys in each form, with
   keys and texts of its own, until the time is over, and at least once; keys under a password in its first round, where there is more
   than a second. Each answer has to be the thread's own, and what it made first of the same random bytes comes again, byte for byte.
   The last line is 'N passed, M failed', where a round over all kinds is one. */
#include "rsa.h"

#include <paseto.h>

#include <pthread.h>
#include <stdbool.h>
#include <stdio.h>
#include <stdlib.h>
#include <string.h>
#include <time.h>

enum { MOST = 4096, KINDS = 8, THREADS = 16 };

#define NOW INT64_C(1795608000000000000)

struct slice {
    uint8_t at[MOST];
    size_t length;
};

/* What a thread hands over to the calls of one kind. */
struct given {
    struct paseto_key key, read_key, wrapping_key;
    struct slice drawn, text, claims, token, footer, assertion;
};

#define GIVEN(slice) (slice).at, (slice).length
#define INTO(slice) (slice)->at, MOST, &(slice)->length, PASETO_NO_REASON

/* A kind of tokens, by the version and the type of the key that makes them. */
static const struct kind {
    const char *header;
    uint8_t version, type;
} kinds[KINDS] = {
    {"v1.local.", 1, PASETO_KEY_LOCAL},    {"v2.local.", 2, PASETO_KEY_LOCAL},    {"v3.local.", 3, PASETO_KEY_LOCAL},
    {"v4.local.", 4, PASETO_KEY_LOCAL},    {"v1.public.", 1, PASETO_KEY_PRIVATE}, {"v2.public.", 2, PASETO_KEY_PRIVATE},
    {"v3.public.", 3, PASETO_KEY_PRIVATE}, {"v4.public.", 4, PASETO_KEY_PRIVATE},
};

/* A thread: its number, and what came of it. */
struct worker {
    unsigned number, rounds;
    const char *fault;
    time_t end;
    bool has_time;
    struct given given[KINDS];
    /* The first tokens of each kind, of the same random bytes, text and claims. */
    struct slice first_made[KINDS], first_issued[KINDS];
};

static bool is_local(const struct kind *kind) {
    return kind->type == PASETO_KEY_LOCAL;
}

static bool is_rsa(const struct kind *kind) {
    return kind->version == 1 && !is_local(kind);
}

/* ---- the calls */

static paseto_status make(const struct given *g, struct slice *made) {
    if (g->key.type == PASETO_KEY_LOCAL)
        return paseto_encrypt_with(&g->key, GIVEN(g->drawn), GIVEN(g->text), GIVEN(g->footer), GIVEN(g->assertion), INTO(made));
    return paseto_sign_with(&g->key, GIVEN(g->drawn), GIVEN(g->text), GIVEN(g->footer), GIVEN(g->assertion), INTO(made));
}

static paseto_status read_text(const struct given *g, struct slice *held) {
    if (g->key.type == PASETO_KEY_LOCAL)
        return paseto_decrypt(&g->read_key, GIVEN(g->token), GIVEN(g->footer), GIVEN(g->assertion), INTO(held));
    return paseto_verify(&g->read_key, GIVEN(g->token), GIVEN(g->footer), GIVEN(g->assertion), INTO(held));
}

static paseto_status issue(const struct given *g, struct slice *made) {
    return paseto_issue_with(&g->key, GIVEN(g->drawn), GIVEN(g->claims), NOW, GIVEN(g->footer), GIVEN(g->assertion), INTO(made));
}

static const struct paseto_options options = {sizeof options, 0, 0, 0, "[\"exp\"]", 7};

static paseto_status admit(const struct given *g, struct slice *held) {
    return paseto_admit(&g->read_key, GIVEN(g->token), "{\"aud\":\"customers\"}", 19, NOW, GIVEN(g->footer), GIVEN(g->assertion), &options, INTO(held));
}

/* By a ring, in which the footer names the second key. */
static paseto_status admit_by(const struct given *g, struct slice *held) {
    const struct paseto_key ring[] = {g->wrapping_key, g->read_key};
    return paseto_admit_by(ring, 2, GIVEN(g->token), "{\"aud\":\"customers\"}", 19, NOW, NULL, 0, GIVEN(g->assertion), &options, INTO(held));
}

/* ---- what a thread has of its own */

static void draw(struct slice *slice, size_t length) {
    slice->length = length;
    if (paseto_random(slice->at, length) != 0) abort();
}

static void set_text(struct slice *slice, const char *form, unsigned number, unsigned turn) {
    int length = snprintf((char *)slice->at, MOST, form, number, turn);
    if (length < 0 || length >= MOST) abort();
    slice->length = (size_t)length;
}

/* Both keys of a kind, which are new, but for those of RSA, which OpenSSL made. */
static void draw_keys(const struct kind *kind, struct given *g) {
    if (is_rsa(kind)) {
        g->key = rsa_key(PASETO_KEY_PRIVATE, RSA_PRIVATE);
        g->read_key = rsa_key(PASETO_KEY_PUBLIC, RSA_PUBLIC);
    } else {
        if (paseto_key_generate(kind->version, kind->type, &g->key, PASETO_NO_REASON) != PASETO_OK) abort();
        g->read_key = g->key;
        if (!is_local(kind) && paseto_key_public(&g->key, &g->read_key, PASETO_NO_REASON) != PASETO_OK) abort();
    }
    if (paseto_key_generate(kind->version, PASETO_KEY_LOCAL, &g->wrapping_key, PASETO_NO_REASON) != PASETO_OK) abort();
}

static void set_given(const struct kind *kind, struct given *g, unsigned number) {
    char id[128];
    size_t n;
    draw_keys(kind, g);
    draw(&g->drawn, PASETO_DRAWN);
    set_text(&g->footer, "{\"kid\":\"thread %u of %u\"}", number, THREADS);
    if (!is_rsa(kind)) { /* A ring takes no keys of RSA. */
        if (paseto_key_id(&g->read_key, id, sizeof id, &n, PASETO_NO_REASON) != PASETO_OK) abort();
        g->footer.length = (size_t)sprintf((char *)g->footer.at, "{\"kid\":\"%.*s\"}", (int)n, id);
    }
    g->assertion.length = 0;
    if (kind->version > 2) set_text(&g->assertion, "assertion %u of %u", number, THREADS);
}

static bool is_same(const struct slice *one, const struct slice *two) {
    return one->length == two->length && memcmp(one->at, two->at, one->length) == 0;
}

static bool begins(const struct slice *slice, const char *front) {
    return slice->length > strlen(front) && memcmp(slice->at, front, strlen(front)) == 0;
}

static bool has(const struct slice *slice, const struct slice *part) {
    for (size_t at = 0; at + part->length <= slice->length; at++) {
        if (memcmp(slice->at + at, part->at, part->length) == 0) return true;
    }
    return false;
}

/* ---- what a thread asks; each answers what is wrong, or NULL */

/* A token of a text. In turn 0 it is kept, and in each later one made again. */
static const char *ask_text(struct worker *worker, size_t i, unsigned turn, unsigned told) {
    struct given *g = &worker->given[i];
    struct slice held;
    set_text(&g->text, "the text of thread %u in turn %u", worker->number, told);
    if (make(g, &g->token) != PASETO_OK) return "no token is made";
    if (!begins(&g->token, kinds[i].header)) return "the token is of another kind";
    if (read_text(g, &held) != PASETO_OK) return "a token is not read";
    if (!is_same(&held, &g->text)) return "a token holds another text";
    if (paseto_token_footer(GIVEN(g->token), INTO(&held)) != PASETO_OK || !is_same(&held, &g->footer)) return "a token has another footer";
    if (turn == 0) worker->first_made[i] = g->token;
    if (told == 0 && !is_same(&g->token, &worker->first_made[i])) return "the same text makes another token";
    return NULL;
}

/* One of claims. */
static const char *ask_claims(struct worker *worker, size_t i, unsigned turn, unsigned told) {
    struct given *g = &worker->given[i];
    struct slice held, again, member;
    set_text(&g->claims, "{\"aud\":\"customers\",\"sub\":\"%u\",\"jti\":\"%u\"}", worker->number, told);
    if (issue(g, &g->token) != PASETO_OK) return "no token is issued";
    if (!begins(&g->token, kinds[i].header)) return "the token of claims is of another kind";
    if (admit(g, &held) != PASETO_OK) return "a token is not admitted";
    set_text(&member, "\"sub\":\"%u\"", worker->number, 0);
    if (!has(&held, &member)) return "a token holds the claims of another thread";
    set_text(&member, "\"jti\":\"%u\"", told, 0);
    if (!has(&held, &member)) return "a token holds other claims";
    if (!is_rsa(&kinds[i]) && (admit_by(g, &again) != PASETO_OK || !is_same(&again, &held))) return "a ring does not admit a token";
    if (turn == 0) worker->first_issued[i] = g->token;
    if (told == 0 && !is_same(&g->token, &worker->first_issued[i])) return "the same claims make another token";
    g->token.at[20] = g->token.at[20] == 'A' ? 'B' : 'A';
    if (admit(g, &held) == PASETO_OK) return "a token that was changed is admitted";
    return NULL;
}

static bool is_key(const struct paseto_key *one, paseto_status status, const struct paseto_key *two) {
    return status == PASETO_OK && memcmp(one, two, sizeof *one) == 0;
}

/* The key as a text, in PEM, wrapped and sealed, its id and its public key. */
static const char *ask_key(const struct kind *kind, const struct given *g) {
    struct slice text, again;
    struct paseto_key read;
    if (paseto_key_id(&g->key, INTO(&text)) != PASETO_OK || text.length != 51) return "a key has no id";
    if (paseto_key_id(&g->key, INTO(&again)) != PASETO_OK || !is_same(&text, &again)) return "a key has another id";
    if (!is_local(kind) && !is_key(&g->read_key, paseto_key_public(&g->key, &read, PASETO_NO_REASON), &read)) return "a key has another public key";
    if (paseto_key_text(&g->key, INTO(&text)) != PASETO_OK) return "a key has no text";
    if (!is_key(&g->key, paseto_key_read(GIVEN(text), &read, PASETO_NO_REASON), &read)) return "a key is not read";
    if (!is_local(kind) && kind->version != 2) {
        if (paseto_key_pem(&g->key, INTO(&text)) != PASETO_OK) return "a key has no text in PEM";
        if (!is_key(&g->key, paseto_key_read(GIVEN(text), &read, PASETO_NO_REASON), &read)) return "a key in PEM is not read";
    }
    if (paseto_key_wrap_with(&g->key, &g->wrapping_key, GIVEN(g->drawn), INTO(&text)) != PASETO_OK) return "a key is not wrapped";
    if (!is_key(&g->key, paseto_key_unwrap(GIVEN(text), &g->wrapping_key, &read, PASETO_NO_REASON), &read)) return "a key is not unwrapped";
    if (is_local(kind) || is_rsa(kind)) return NULL;
    if (paseto_key_seal_with(&g->wrapping_key, &g->read_key, GIVEN(g->drawn), INTO(&text)) != PASETO_OK) return "a key is not sealed";
    if (!is_key(&g->wrapping_key, paseto_key_unwrap(GIVEN(text), &g->key, &read, PASETO_NO_REASON), &read)) return "a sealed key is not opened";
    return NULL;
}

static const char *ask_password(const struct given *g) {
    struct slice text;
    struct paseto_key read;
    if (paseto_key_protect_with(&g->key, "secret", 6, GIVEN(g->drawn), INTO(&text)) != PASETO_OK) return "a key is not put under a password";
    if (!is_key(&g->key, paseto_key_unlock(GIVEN(text), "secret", 6, &read, PASETO_NO_REASON), &read)) return "a key is not unlocked";
    return NULL;
}

/* All of one kind. */
static const char *ask_kind(struct worker *worker, size_t i, unsigned turn) {
    const char *fault = NULL;
    for (unsigned again = 0; again < 2 && fault == NULL; again++) {
        unsigned told = again == 0 ? 0 : turn;
        fault = ask_text(worker, i, turn + again, told);
        if (fault == NULL) fault = ask_claims(worker, i, turn + again, told);
    }
    if (fault == NULL) fault = ask_key(&kinds[i], &worker->given[i]);
    if (fault == NULL && turn == 0 && worker->has_time) fault = ask_password(&worker->given[i]);
    return fault;
}

static void *work(void *given) {
    struct worker *worker = (struct worker *)given;
    for (size_t i = 0; i < KINDS; i++) set_given(&kinds[i], &worker->given[i], worker->number);
    do {
        for (size_t i = 0; i < KINDS && worker->fault == NULL; i++) worker->fault = ask_kind(worker, i, worker->rounds);
        worker->rounds++;
    } while (worker->fault == NULL && time(NULL) < worker->end);
    return NULL;
}

int main(int count, char **words) {
    unsigned seconds = count == 3 ? (unsigned)strtoul(words[1], NULL, 10) : 0;
    unsigned threads = count == 3 ? (unsigned)strtoul(words[2], NULL, 10) : 0;
    unsigned rounds = 0, failed = 0;
    static pthread_t ids[THREADS];
    if (threads == 0 || threads > THREADS) {
        fputs("usage: threads SECONDS COUNT\n", stderr);
        return 2;
    }
    struct worker *workers = (struct worker *)calloc(threads, sizeof *workers);
    if (workers == NULL) abort();
    for (unsigned i = 0; i < threads; i++) {
        workers[i].number = i;
        workers[i].end = time(NULL) + (time_t)seconds;
        workers[i].has_time = seconds > 1;
        if (pthread_create(&ids[i], NULL, work, &workers[i]) != 0) abort();
    }
    for (unsigned i = 0; i < threads; i++) {
        if (pthread_join(ids[i], NULL) != 0) abort();
        rounds += workers[i].rounds;
        failed += workers[i].fault != NULL;
        if (workers[i].fault != NULL) printf("FAILED: thread %u, round %u: %s\n", i, workers[i].rounds, workers[i].fault);
    }
    free(workers);
    printf("%u passed, %u failed\n", failed == 0 ? rounds : 0, failed);
    return failed > 0;
}
