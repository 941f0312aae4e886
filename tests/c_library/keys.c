/* Keys as text, as independent implementations wrote them, through the calls of the library:

     keys paserk FILE    rows VERSION TYPE KEY TEXT ID, the key in hexadecimal
     keys locked FILE    rows password|key VERSION TYPE KEY OPENER DRAWN TEXT, keys under a password or a wrapping key; the KEY
                         none stands for what is no key of the version

   Each key is written, read and named, and refused by the name of its fault. The last line is 'N passed, M failed'. */
#include "asking.h"

/* Texts that are no key, where the text of one is changed. */
static void ask_other_texts(const char *row) {
    struct slice whole = given;
    given.length--;
    check(makes_none(key_read, PASETO_INVALID_KEY), "a text that is cut", row);
    given = whole;
    given.at[given.length++] = '\n';
    given.at[given.length++] = '\n';
    check(makes_none(key_read, PASETO_INVALID_KEY), "a key with two newlines", row);
    given = whole;
    given.at[given.length++] = 0xff;
    check(makes_none(key_read, PASETO_NOT_UTF8), "no text", row);
    given = whole;
}

/* A key of another length has no text and no id. */
static void ask_length(unsigned length, const char *row) {
    uint16_t right = key.length;
    key.length = (uint16_t)length;
    if (length != right)
        check(is_refused(key_text, PASETO_INVALID_KEY) && is_refused(key_id, PASETO_INVALID_KEY), "a key of another length", row);
    key.length = right;
}

static void ask_other_lengths(const char *row) {
    ask_length(key.length - 1U, row);
    ask_length(key.length + 1U, row);
    for (unsigned length = 0; length <= sizeof key.bytes + 1; length += 13) ask_length(length, row);
}

static void ask_text(char **fields, size_t count) {
    if (count != 5) abort();
    struct paseto_key wanted = key_of((unsigned)atoi(fields[0]), type_of(fields[1]), fields[2]);
    const char *row = fields[3];
    key = wanted;
    set(&given, row);
    check(gives(key_text, OF(given)), "a key is written", row);
    check(gives(key_id, fields[4], strlen(fields[4])), "a key is named", fields[4]);
    check(makes(key_read, &wanted), "a key is read", row);
    check(makes(key_unlock, &wanted), "a key that is not locked is read with a password", row);
    other = key_of(4, PASETO_KEY_LOCAL, K4);
    check(makes(key_unwrap, &wanted), "a key that is not locked is read with another key", row);
    given.at[given.length++] = '\n';
    check(makes(key_read, &wanted), "a key is read with a newline", row);
    given.length--;
    ask_other_texts(row);
    ask_other_lengths(row);
    set(&given, fields[4]);
    check(makes_none(key_read, PASETO_NO_PASERK), "an id is no key", fields[4]);
}

static void ask_password(char **fields, const struct paseto_key *wanted, bool is_key) {
    const char *row = fields[6];
    set_hex(&password, fields[4]);
    check(is_key ? makes(key_unlock, wanted) : makes_none(key_unlock, PASETO_INVALID_KEY), "a key under a password", row);
    check(makes_none(key_read, PASETO_NEEDS_PASSWORD), "no password", row);
    password.at[password.length++] = 'x';
    check(makes_none(key_unlock, PASETO_WRONG_KEY), "a wrong password", row);
    other = key_of(wanted->version, PASETO_KEY_LOCAL, fields[3]);
    other.length = 32;
    check(makes_none(key_unwrap, PASETO_NEEDS_PASSWORD), "a key in place of a password", row);
}

static void ask_wrapping(char **fields, const struct paseto_key *wanted, bool is_key) {
    const char *row = fields[6];
    other = key_of(wanted->version, PASETO_KEY_LOCAL, fields[4]);
    check(is_key ? makes(key_unwrap, wanted) : makes_none(key_unwrap, PASETO_INVALID_KEY), "a key under a wrapping key", row);
    check(makes_none(key_read, PASETO_NEEDS_KEY), "no wrapping key", row);
    set_hex(&drawn, fields[5]);
    key = *wanted;
    check(is_key ? gives(key_wrap_with, OF(given)) : is_refused(key_wrap_with, PASETO_INVALID_KEY), "a key is wrapped", row);
    drawn.length = 31;
    check(is_refused(key_wrap_with, PASETO_INVALID_NONCE), "too few random bytes", row);
    other.bytes[0] ^= 1;
    check(makes_none(key_unwrap, PASETO_WRONG_KEY), "a wrong wrapping key", row);
    other.version = (uint8_t)(wanted->version % 4 + 1);
    check(makes_none(key_unwrap, PASETO_OTHER_VERSION), "a wrapping key of another version", row);
    other.type = PASETO_KEY_PUBLIC;
    check(makes_none(key_unwrap, PASETO_OTHER_TYPE), "a public key does not open", row);
}

static void ask_locked(char **fields, size_t count) {
    if (count != 7) abort();
    bool is_key = strcmp(fields[3], "none") != 0;
    struct paseto_key wanted = key_of((unsigned)atoi(fields[1]), type_of(fields[2]), is_key ? fields[3] : "3000");
    set(&given, fields[6]);
    (strcmp(fields[0], "password") == 0 ? ask_password : ask_wrapping)(fields, &wanted, is_key);
}

int main(int count, char **words) {
    bool is_locked = count == 3 && strcmp(words[1], "locked") == 0;
    if (count != 3 || (!is_locked && strcmp(words[1], "paserk") != 0)) {
        fputs("usage: keys paserk FILE, or keys locked FILE\n", stderr);
        return 2;
    }
    reset();
    for_rows(words[2], is_locked ? ask_locked : ask_text);
    return finish();
}
