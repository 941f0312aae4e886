/* The tokens that the PASETO specification publishes, through the calls of the library:

     published FILE

   where a row of the file is KIND NAME KEY NONCE TEXT FOOTER ASSERTION TOKEN of a local token, and KIND NAME PRIVATE PUBLIC
   TEXT FOOTER ASSERTION TOKEN of a public one, in hexadecimal, '-' is the empty text, and 'none' no footer. Local tokens of
   version 2 are read and not written again, since their published nonces have 24 bytes, of which the token's nonce is computed, and
   public ones of version 3, since the published signatures are not those of RFC 6979. A line tells how many rows there were, and the
   last one is 'N passed, M failed'. */
#include "asking.h"

/* Keys of other versions do not read the token: an assertion that they do not have is refused before. */
static void ask_other_versions(const char *name, ask *call, unsigned version, bool is_local) {
    for (unsigned v = 1; v <= 4; v++) {
        bool has_such_keys = is_local || (v % 2 == 0 && version % 2 == 0);
        if (v == version || !has_such_keys) continue;
        key.version = (uint8_t)v;
        bool unbound = v <= 2 && assertion.length > 0;
        check(is_refused(call, unbound ? PASETO_NO_ASSERTION : PASETO_WRONG_HEADER), "a key of another version does not read", name);
    }
}

static void ask_row(char **fields, size_t count) {
    static struct slice token, payload;
    if (count != FIELDS) abort();
    const char *name = fields[1];
    unsigned version = (unsigned)(fields[0][1] - '0');
    bool is_local = strcmp(fields[0] + 3, "local") == 0;
    set(&token, fields[7]);
    set_hex(&payload, fields[4]);
    set_hex(&footer, fields[5]);
    set_hex(&assertion, fields[6]);
    set_hex(&drawn, is_local ? fields[3] : "-");
    pad(&drawn);
    struct paseto_key reader = key_of(version, is_local ? PASETO_KEY_LOCAL : PASETO_KEY_PUBLIC, fields[is_local ? 2 : 3]);
    struct paseto_key writer = is_local ? reader : key_of(version, PASETO_KEY_PRIVATE, fields[2]);
    key = reader;
    text = token;
    check(gives(is_local ? decrypt : verify, OF(payload)), "a published token is read", name);
    check(gives(token_footer, OF(footer)), "the footer of a published token", name);
    check(is_refused(is_local ? verify : decrypt, PASETO_OTHER_TYPE), "a key of another type does not read", name);
    ask_other_versions(name, is_local ? decrypt : verify, version, is_local);
    key = writer;
    text = payload;
    if (is_local ? version != 2 : version != 3)
        check(gives(is_local ? encrypt_with : sign_with, OF(token)), "a published token is written", name);
    check(is_refused(is_local ? sign_with : encrypt_with, PASETO_OTHER_TYPE), "a key of another type does not write", name);
    if (!is_local && version != 3) check(makes(key_public, &reader), "the public half of a published key", name);
}

int main(int count, char **words) {
    if (count != 2) {
        fputs("usage: published FILE\n", stderr);
        return 2;
    }
    printf("%u rows\n", for_rows(words[1], ask_row));
    return finish();
}
