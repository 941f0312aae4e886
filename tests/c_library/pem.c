/* Keys in PEM, as OpenSSL wrote them, through the calls of the library:

     pem FILE

   where the rows of the file are those of pem_rows.py. A text is read as the key, the key is written as the text and named by the
   id, the public key is made of the private one, or a text is refused by the name of its fault. The last line is 'N passed, M failed'. */
#include "asking.h"

static void read_given(const char *path) {
    FILE *file = fopen(path, "rb");
    if (file == NULL) abort();
    given.length = fread(given.at, 1, MOST, file);
    fclose(file);
    if (given.length == MOST) abort();
}

/* A key of another length has no text. */
static void ask_other_lengths(const char *path) {
    static const int changes[] = {-1, 1};
    uint16_t right = key.length;
    for (size_t i = 0; i < 2; i++) {
        key.length = (uint16_t)(right + changes[i]);
        check(is_refused(key_pem, PASETO_INVALID_KEY), "a key of another length in PEM", path);
    }
    key.length = 0;
    check(is_refused(key_pem, PASETO_INVALID_KEY), "no key in PEM", path);
    key.length = right;
}

/* The text and the id of a key in PASERK. */
static void ask_paserk(const char *kind, const struct paseto_key *wanted, const char *path) {
    key = *wanted;
    if (strcmp(kind, "id") == 0) {
        check(gives(key_id, OF(given)), "the id of a key", path);
        return;
    }
    if (strcmp(kind, "text") == 0) check(gives(key_text, OF(given)), "the text of a key", path);
    check(makes(key_read, wanted), "a text of a key is read", path);
}

/* A key pair, in the place of a key and a file. */
static void ask_pair(unsigned version, const char *own, const char *half) {
    struct paseto_key wanted = key_of(version, PASETO_KEY_PUBLIC, half);
    key = key_of(version, PASETO_KEY_PRIVATE, own);
    check(makes(key_public, &wanted), "the public key of a private one", half);
}

static void ask_row(char **fields, size_t count) {
    if (count != 5) abort();
    const char *path = fields[4];
    if (strcmp(fields[0], "pair") == 0) {
        ask_pair((unsigned)atoi(fields[1]), fields[2], fields[3]);
        return;
    }
    read_given(path);
    if (strcmp(fields[0], "refuse") == 0) {
        check(makes_none(key_read, (paseto_status)atoi(fields[1])), "a text in PEM is refused", path);
        return;
    }
    struct paseto_key wanted = key_of((unsigned)atoi(fields[1]), (unsigned)atoi(fields[2]), fields[3]);
    if (strcmp(fields[0], "both") != 0 && strcmp(fields[0], "read") != 0) {
        ask_paserk(fields[0], &wanted, path);
        return;
    }
    check(makes(key_read, &wanted), "a key in PEM is read", path);
    if (strcmp(fields[0], "both") != 0) return;
    key = wanted;
    check(gives(key_pem, OF(given)), "a key in PEM is written", path);
    ask_other_lengths(path);
}

/* Keys of the right length that have no text. */
static void ask_unwritten(void) {
    static const char zeros[] = "000000000000000000000000000000000000000000000000000000000000000000000000000000000000000000000000";
    key = new_private_key(4);
    check(answer_of(key_pem) == PASETO_OK, "a new key in PEM", "version 4");
    key.bytes[63] ^= 1;
    check(is_refused(key_pem, PASETO_INVALID_KEY), "halves of two keys", "version 4");
    key = new_private_key(2);
    check(is_refused(key_pem, PASETO_OTHER_VERSION), "a key of version 2", "it would be read as one of version 4");
    key = made_by(key_public);
    check(is_refused(key_pem, PASETO_OTHER_VERSION), "a public key of version 2", "it would be read as one of version 4");
    key = key_of(3, PASETO_KEY_PRIVATE, zeros);
    check(is_refused(key_pem, PASETO_INVALID_KEY), "the number 0", "version 3");
    key = key_of(3, PASETO_KEY_PUBLIC, zeros);
    key.length = 49;
    memset(key.bytes, 0xff, 49);
    key.bytes[0] = 2;
    check(is_refused(key_pem, PASETO_INVALID_KEY), "no point of the curve", "version 3");
    key = key_of(4, PASETO_KEY_LOCAL, K4);
    check(is_refused(key_pem, PASETO_OTHER_TYPE), "a key for local tokens", "version 4");
}

int main(int count, char **words) {
    if (count != 2) {
        fputs("usage: pem FILE\n", stderr);
        return 2;
    }
    reset();
    for_rows(words[1], ask_row);
    ask_unwritten();
    return finish();
}
