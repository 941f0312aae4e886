/* Makes and reads tokens of each kind by libpaseto.a and the clock, for both_ways.rs:

       both_ways make KIND KEY
       both_ways read KIND KEY TOKEN

   A key is in hexadecimal. `make` prints a token of the subject ada, and `read` the claims of one. */
#include <paseto.h>
#include <stdio.h>
#include <string.h>

/* The key of a kind, v4.local or v4.public. */
static int read_key(struct paseto_key *key, const char *kind, const char *digits, int makes) {
    unsigned byte;
    key->version = (uint8_t)(kind[1] - '0');
    key->type = strcmp(kind + 3, "local") == 0 ? PASETO_KEY_LOCAL : makes ? PASETO_KEY_PRIVATE : PASETO_KEY_PUBLIC;
    for (; digits[0] != 0 && key->length < sizeof key->bytes; digits += 2) {
        if (sscanf(digits, "%2x", &byte) != 1) return 0;
        key->bytes[key->length++] = (uint8_t)byte;
    }
    return digits[0] == 0;
}

int main(int count, char **words) {
    static struct paseto_key key;
    char answer[4096], reason[200];
    size_t length, told;
    int makes = count == 4 && strcmp(words[1], "make") == 0;
    struct paseto_options options = {sizeof options, 0, 0, 0, NULL, 0};
    paseto_status status;
    if ((!makes && count != 5) || strlen(words[2]) < 8 || !read_key(&key, words[2], words[3], makes)) {
        fprintf(stderr, "usage: both_ways make KIND KEY, or read KIND KEY TOKEN\n");
        return 2;
    }
    if (makes)
        status = paseto_issue(&key, "{\"sub\":\"ada\"}", 13, paseto_now(), NULL, 0, NULL, 0, answer, sizeof answer, &length,
                              reason, sizeof reason, &told);
    else
        status = paseto_admit(&key, words[4], strlen(words[4]), "{}", 2, paseto_now(), NULL, 0, NULL, 0, &options, answer,
                              sizeof answer, &length, reason, sizeof reason, &told);
    if (status != PASETO_OK) {
        fprintf(stderr, "%.*s\n", (int)(told < sizeof reason ? told : sizeof reason), reason);
        return 1;
    }
    printf("%.*s\n", (int)length, answer);
    return 0;
}
