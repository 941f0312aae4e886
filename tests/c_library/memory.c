/* Each call of the library where memory is refused: the first request that it makes, the second, and so on, alone and with all
   that follow. The answer is PASETO_MEMORY each time, which the line tells, with nothing written, the room as it was, and all memory
   given back, and the next call answers what it did before. What reads PEM may do without what is refused, and give the key: where
   room for all lines of the text is refused, it takes room for fewer.

   A line for each call has its name and the most requests that it makes. The last line is 'N passed, M failed', where each refused
   request is one.

   It is linked with --wrap for malloc, realloc and free, so that what the library asks for goes through it. */
#define REFUSING
#include "asking.h"
#include "rsa.h"

/* The most requests of each call. */
static struct {
    const char *name;
    unsigned long requests;
} asked[32];
static size_t asked_count;

static void note(const char *name, unsigned long made) {
    size_t i = 0;
    while (i < asked_count && strcmp(asked[i].name, name) != 0) i++;
    if (i == asked_count) asked[asked_count++].name = name;
    if (made > asked[i].requests) asked[i].requests = made;
}

/* Asks a call; a text is what it makes, or the struct of a key. */
static paseto_status answer(ask *call, ask_key *maker, size_t *length) {
    clear();
    requests = 0;
    *length = 0;
    if (maker == NULL) {
        paseto_status status = call(room, MOST, &written, line, sizeof line, &told);
        *length = written;
        return status;
    }
    struct paseto_key made;
    memset(&made, 0xa5, sizeof made);
    paseto_status status = maker(&made, line, sizeof line, &told);
    if (!is_untouched(&made, sizeof made)) {
        memcpy(room, &made, sizeof made);
        *length = sizeof made;
    }
    return status;
}

/* What the call gave where memory was given, and how often it gave that where it was refused. */
static uint8_t whole[MOST];
static size_t whole_length;
static unsigned did_without;

static bool is_whole(paseto_status status, size_t length) {
    return status == PASETO_OK && length == whole_length && memcmp(room, whole, length) == 0 && told == 0 && is_untouched(line, sizeof line);
}

/* The call that refuses the nth request, or it and all that follow, and then none. Returns whether there was an nth one. */
static bool refuse(const char *name, ask *call, ask_key *maker, unsigned long n, bool follow) {
    size_t length;
    *(follow ? &refuse_from : &refuse_at) = n;
    paseto_status status = answer(call, maker, &length);
    unsigned long made = requests;
    refuse_at = refuse_from = 0;
    if (made < n) return false;
    bool holds = status == PASETO_MEMORY && length == 0 && tells(status, "No memory was found", sizeof line) && is_untouched(room, sizeof room);
    if (is_whole(status, length)) did_without++;
    else check(holds && out == 0, "memory is refused", name);
    status = answer(call, maker, &length);
    check(out == 0 && is_whole(status, length), "the next call", name);
    return true;
}

static void refuse_each(const char *name, ask *call, ask_key *maker) {
    if (answer(call, maker, &whole_length) != PASETO_OK || whole_length == 0 || out != 0) {
        check(false, "a call gives nothing where memory is given", name);
        return;
    }
    memcpy(whole, room, whole_length);
    note(name, requests);
    did_without = 0;
    for (unsigned long n = 1; refuse(name, call, maker, n, false); n++) continue;
    for (unsigned long n = 1; refuse(name, call, maker, n, true); n++) continue;
    bool reads_pem = maker == key_read && given.at[0] == '-';
    check(reads_pem || did_without == 0, "a call does without memory", name);
}

#define EACH(name) refuse_each(#name, name, NULL)
#define EACH_KEY(name) refuse_each(#name, NULL, name)

/* A token of a text and one of claims, by the key and by a ring, and the footer. */
static void ask_tokens(const struct paseto_key *writer, const struct paseto_key *reader) {
    bool is_local = writer->type == PASETO_KEY_LOCAL;
    reset();
    if (writer->version <= 2) assertion.length = 0;
    set(&text, "a text, of some length, so that a token of it takes more than one request");
    key = *writer;
    if (is_local) EACH(encrypt_with);
    else EACH(sign_with);
    keep(is_local ? encrypt_with : sign_with);
    EACH(token_footer);
    key = *reader;
    if (is_local) EACH(decrypt);
    else EACH(verify);
    if (is_local || writer->version > 1) {
        if (answer_of(key_id) != PASETO_OK) abort();
        footer.length = (size_t)sprintf((char *)footer.at, "{\"kid\":\"%.*s\"}", (int)written, (const char *)room);
    }
    set(&claims, "{\"sub\":\"Ada\",\"aud\":\"customers\",\"seats\":4,\"roles\":[\"a\",{\"b\":null}]}");
    key = *writer;
    EACH(issue_with);
    keep(issue_with);
    key = *reader;
    set(&claims, "{\"aud\":\"customers\",\"seats\":4}");
    options.leeway = 5;
    options.longest = 65536;
    options.required = "[\"exp\"]";
    options.required_length = 7;
    EACH(admit);
    ring[0] = key_of(4, PASETO_KEY_LOCAL, K4);
    ring[0].bytes[0] ^= 1;
    ring[1] = *reader;
    ring_length = 2;
    if (is_local || writer->version > 1) EACH(admit_by);
}

/* The texts of a key, and the key of each. Those under a password take long, and are asked of one key for each way to hash it. */
static void ask_texts(const struct paseto_key *of) {
    bool is_pair = of->type != PASETO_KEY_LOCAL, is_public = of->type == PASETO_KEY_PUBLIC;
    reset();
    key = *of;
    EACH(key_text);
    keep(key_text);
    given = text;
    EACH_KEY(key_read);
    EACH(key_id);
    if (is_pair && of->version != 2) {
        EACH(key_pem);
        keep(key_pem);
        given = text;
        EACH_KEY(key_read);
    }
    if (is_public) return;
    if (is_pair) EACH_KEY(key_public);
    other = key_of(of->version, PASETO_KEY_LOCAL, K4);
    EACH(key_wrap_with);
    keep(key_wrap_with);
    given = text;
    EACH_KEY(key_unwrap);
    if (is_pair || of->version < 3) return;
    EACH(key_protect_with);
    keep(key_protect_with);
    given = text;
    EACH_KEY(key_unlock);
}

/* A key pair, and what is sealed to it. */
static void ask_pair(const struct paseto_key *own, const struct paseto_key *half) {
    reset();
    new_version = own->version;
    new_type = PASETO_KEY_PRIVATE;
    EACH_KEY(key_generate_with);
    key = key_of(own->version, PASETO_KEY_LOCAL, K4);
    other = *half;
    EACH(key_seal_with);
    keep(key_seal_with);
    given = text;
    other = *own;
    EACH_KEY(key_unwrap);
}

/* The calls that ask for no memory. */
static void ask_none(void) {
    reset();
    requests = 0;
    paseto_key_wipe(&key);
    check(requests == 0, "wiping takes no memory", "paseto_key_wipe");
    check(paseto_version() == PASETO_VERSION && requests == 0, "the version takes no memory", "paseto_version");
    check(paseto_error_text(PASETO_EXPIRED, room, MOST, &written) == PASETO_OK && requests == 0, "a text takes no memory", "paseto_error_text");
    printf("paseto_key_wipe 0\npaseto_version 0\npaseto_error_text 0\n");
}

int main(void) {
    for (unsigned version = 1; version <= 4; version++) {
        struct paseto_key local = key_of(version, PASETO_KEY_LOCAL, K4), own = key_of(1, PASETO_KEY_PRIVATE, RSA_PRIVATE);
        struct paseto_key half = key_of(1, PASETO_KEY_PUBLIC, RSA_PUBLIC);
        reset();
        new_version = (uint8_t)version;
        new_type = PASETO_KEY_LOCAL;
        EACH_KEY(key_generate_with);
        if (version > 1) {
            key = own = new_private_key(version);
            half = made_by(key_public);
            ask_pair(&own, &half);
        }
        ask_tokens(&local, &local);
        ask_tokens(&own, &half);
        ask_texts(&local);
        ask_texts(&own);
        ask_texts(&half);
    }
    ask_none();
    for (size_t i = 0; i < asked_count; i++) {
        check(asked[i].requests > 0, "a call makes no request", asked[i].name);
        printf("paseto_%s %lu\n", asked[i].name, asked[i].requests);
    }
    return finish();
}
