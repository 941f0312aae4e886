/* Asks paseto_json.c for the member "a" of each line of standard input, an object in hexadecimal digits, and prints what it is:
   its text, with what a string says behind it, or "-". */
#include "paseto_json.h"

static void print(const char *name, ngx_str_t *text) {
    printf(" %s", name);
    for (size_t i = 0; i < text->len; i++) printf("%02x", text->data[i]);
}

int main(void) {
    static char line[200000];
    ngx_str_t name = { 1, (u_char *) "a" };

    while (fgets(line, sizeof line, stdin) != NULL) {
        size_t length = strlen(line) / 2;
        /* Just as many bytes as there are, so that the sanitizer sees each that is read behind them. */
        u_char *bytes = malloc(length > 0 ? length : 1);
        static ngx_pool_t pool;
        ngx_str_t object = { length, bytes }, value, text, quoted;
        for (size_t i = 0; i < length; i++) sscanf(line + 2 * i, "%2hhx", &bytes[i]);
        pool.count = 0;
        printf("%d", paseto_json_member(&pool, &object, &name, 0, &value) == NGX_OK);
        if (paseto_json_member(&pool, &object, &name, 0, &value) == NGX_OK) {
            print("", &value);
            if (paseto_json_text(&pool, &value, &text) == NGX_OK) {
                print("text", &text);
                if (paseto_json_string(&pool, &text, &quoted) != NGX_OK || paseto_json_text(&pool, &quoted, &value) != NGX_OK
                    || value.len != text.len || memcmp(value.data, text.data, text.len) != 0)
                    printf(" changed");
            }
        }
        printf("\n");
        for (size_t i = 0; i < pool.count; i++) free(pool.kept[i]);
        free(bytes);
    }
    return 0;
}
