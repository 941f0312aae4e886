/* A token of the subject ada by the key of a file, or the claims of a token; the texts and the ids of a key, and of the public
   key of a private one; and the text of a key that is locked:

       user make KEY
       user read KEY TOKEN
       user tell KEY
       user unlock KEY PASSWORD
       user unwrap KEY OPENER */
#include <paseto.h>
#include <stdio.h>
#include <string.h>

static char text[4096], answer[4096], reason[200];
static size_t n, told;
#define ANSWER answer, sizeof answer, &n, reason, sizeof reason, &told
#define REASON reason, sizeof reason, &told

/* The bytes of a file, whose number is n. */
static int read_file(const char *name) {
    FILE *file = fopen(name, "rb");
    if (file == NULL) return 0;
    n = fread(text, 1, sizeof text, file);
    return fclose(file) == 0;
}

static paseto_status tell(const struct paseto_key *key) {
    struct paseto_key half;
    paseto_status status = paseto_key_text(key, ANSWER);
    if (status != PASETO_OK) return status;
    printf("%.*s\n", (int)n, answer);
    status = paseto_key_id(key, ANSWER);
    if (status != PASETO_OK || key->type != PASETO_KEY_PRIVATE) return status;
    printf("%.*s\n", (int)n, answer);
    status = paseto_key_public(key, &half, REASON);
    return status == PASETO_OK ? tell(&half) : status;
}

/* The key of the file of the words. */
static paseto_status read_key(char **words, struct paseto_key *key) {
    struct paseto_key opener;
    paseto_status status;
    if (strcmp(words[1], "unlock") == 0) return paseto_key_unlock(text, n, words[3], strlen(words[3]), key, REASON);
    if (strcmp(words[1], "unwrap") != 0) return paseto_key_read(text, n, key, REASON);
    if (!read_file(words[3])) return PASETO_NO_PASERK;
    status = paseto_key_read(text, n, &opener, REASON);
    if (status == PASETO_OK && read_file(words[2])) status = paseto_key_unwrap(text, n, &opener, key, REASON);
    paseto_key_wipe(&opener);
    return status;
}

int main(int count, char **words) {
    struct paseto_key key;
    struct paseto_options options = {sizeof options, 0, 8192, 0, "[\"exp\"]", 7};
    if (count < 3 || !read_file(words[2])) return 2;
    paseto_status status = read_key(words, &key);
    if (status == PASETO_OK && strcmp(words[1], "make") == 0)
        status = paseto_issue(&key, "{\"sub\":\"ada\"}", 13, paseto_now(), NULL, 0, NULL, 0, ANSWER);
    else if (status == PASETO_OK && strcmp(words[1], "read") == 0)
        status = paseto_admit(&key, words[3], strlen(words[3]), "{}", 2, paseto_now(), NULL, 0, NULL, 0, &options, ANSWER);
    else if (status == PASETO_OK && strcmp(words[1], "tell") == 0)
        status = tell(&key);
    else if (status == PASETO_OK)
        status = paseto_key_text(&key, ANSWER);
    paseto_key_wipe(&key);
    if (status != PASETO_OK) {
        fprintf(stderr, "%.*s\n", (int)(told < sizeof reason ? told : sizeof reason), reason);
        return 1;
    }
    printf("%.*s\n", (int)n, answer);
    return 0;
}
