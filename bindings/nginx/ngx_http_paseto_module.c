/* Admits requests by their PASETO tokens: README.md has the directives and the variables. */
#include <ngx_config.h>
#include <ngx_core.h>
#include <ngx_http.h>

#include "paseto_json.h"
#include "paseto_key_files.h"

#define OFF 0
#define ON 1
#define OPTIONAL 2

/* Beside the statuses of the library: no token. */
#define NO_TOKEN 240

/* Room for what the library says of a refusal. */
#define LINE 512

typedef struct {
    ngx_uint_t mode;
    paseto_keys_t *keys;
    ngx_http_complex_value_t *token;
    ngx_http_complex_value_t *assertion;
    ngx_array_t *claims;   /* of ngx_keyval_t */
    ngx_array_t *required; /* of ngx_str_t */
    ngx_str_t footer;
    time_t leeway;
    size_t longest;
    ngx_str_t expected;       /* the claims as a JSON object */
    ngx_str_t required_names; /* the names as a JSON array, or nothing */
} location_t;

typedef struct {
    location_t *location; /* whose directives were applied */
    ngx_uint_t status;    /* a paseto_status or NO_TOKEN */
    ngx_str_t claims;
    ngx_str_t kid;
} outcome_t;

extern ngx_module_t ngx_http_paseto_module;

/* ---- a token */

/* A line for the log: what a token holds may have newlines. A text that has none is not written to. */
static void one_line(ngx_str_t *text) {
    size_t i;

    for (i = 0; i < text->len; i++) {
        if (text->data[i] < ' ' || text->data[i] == 0x7f) {
            text->data[i] = '?';
        }
    }
}

/* The name of an outcome, for $paseto_status and for the log. */
static ngx_str_t name_of(ngx_uint_t status) {
    static const struct {
        ngx_uint_t status;
        ngx_str_t name;
    } names[] = {
        { PASETO_OK, ngx_string("admitted") },
        { PASETO_MEMORY, ngx_string("memory") },
        { PASETO_NOT_UTF8, ngx_string("not_utf8") },
        { PASETO_INCORRECT_SIZE, ngx_string("incorrect_size") },
        { PASETO_FOOTER_INVALID, ngx_string("footer_invalid") },
        { PASETO_WRONG_HEADER, ngx_string("wrong_header") },
        { PASETO_PAYLOAD_BASE64_DECODE, ngx_string("payload_base64_decode") },
        { PASETO_CRYPTION, ngx_string("cryption") },
        { PASETO_CHACHA_CIPHER_ERROR, ngx_string("chacha_cipher_error") },
        { PASETO_INVALID_SIGNATURE, ngx_string("invalid_signature") },
        { PASETO_UTF8_ERROR, ngx_string("utf8_error") },
        { PASETO_FROM_UTF8_ERROR, ngx_string("from_utf8_error") },
        { PASETO_PAYLOAD_JSON_ERROR, ngx_string("payload_json_error") },
        { PASETO_EXPIRED, ngx_string("expired") },
        { PASETO_USE_BEFORE_AVAILABLE, ngx_string("use_before_available") },
        { PASETO_RFC3339_DATE, ngx_string("rfc3339_date") },
        { PASETO_MISSING, ngx_string("missing") },
        { PASETO_UNEXPECTED, ngx_string("unexpected") },
        { PASETO_INVALID, ngx_string("invalid") },
        { PASETO_TOO_LONG, ngx_string("too_long") },
        { NO_TOKEN, ngx_string("no_token") },
        { PASETO_UNKNOWN_KEY, ngx_string("unknown_key") },
    };
    static const ngx_str_t other = ngx_string("error");
    ngx_uint_t i;

    for (i = 0; i < sizeof names / sizeof names[0]; i++) {
        if (names[i].status == status) {
            return names[i].name;
        }
    }
    return other;
}

/* What a request is answered with. */
static ngx_int_t answer_of(ngx_uint_t status) {
    static const u_char refused[] = { PASETO_NOT_UTF8, PASETO_NOT_OBJECT, PASETO_INCORRECT_SIZE, PASETO_FOOTER_INVALID, PASETO_WRONG_HEADER,
        PASETO_PAYLOAD_BASE64_DECODE, PASETO_CRYPTION, PASETO_CHACHA_CIPHER_ERROR, PASETO_INVALID_SIGNATURE, PASETO_UTF8_ERROR,
        PASETO_FROM_UTF8_ERROR, PASETO_PAYLOAD_JSON_ERROR, PASETO_EXPIRED, PASETO_USE_BEFORE_AVAILABLE, PASETO_RFC3339_DATE,
        PASETO_MISSING, PASETO_UNEXPECTED, PASETO_TOO_LONG, NO_TOKEN, PASETO_UNKNOWN_KEY };

    if (status == PASETO_OK) {
        return NGX_OK;
    }
    if (status == PASETO_INVALID) {
        return NGX_HTTP_FORBIDDEN;
    }
    return memchr(refused, (int) status, sizeof refused) != NULL ? NGX_HTTP_UNAUTHORIZED : NGX_HTTP_INTERNAL_SERVER_ERROR;
}

/* The token of a request, empty where there is none. nginx itself answers 400 to two headers of this name. */
static ngx_int_t token_of(ngx_http_request_t *r, location_t *location, ngx_str_t *token) {
    static const ngx_str_t scheme = ngx_string("bearer ");
    ngx_table_elt_t *header = r->headers_in.authorization;

    ngx_str_null(token);
    if (location->token != NULL) {
        return ngx_http_complex_value(r, location->token, token);
    }
    if (header == NULL || header->value.len < scheme.len || ngx_strncasecmp(header->value.data, scheme.data, scheme.len) != 0) {
        return NGX_OK;
    }
    *token = header->value;
    token->data += scheme.len;
    token->len -= scheme.len;
    while (token->len > 0 && token->data[0] == ' ') {
        token->data++;
        token->len--;
    }
    return NGX_OK;
}

/* The footer of a token, and the key that reads it: the only one, or the one that the footer names. */
static ngx_uint_t key_of(ngx_http_request_t *r, location_t *location, ngx_str_t *token, ngx_str_t *footer, paseto_key_t **key) {
    static ngx_str_t kid = ngx_string("kid");
    ngx_str_t value, id;
    paseto_status status;

    *key = location->keys->keys.elts;
    if (location->footer.data != NULL) {
        *footer = location->footer;
        return PASETO_OK;
    }
    footer->data = ngx_pnalloc(r->pool, token->len);
    if (footer->data == NULL) {
        return PASETO_MEMORY;
    }
    status = paseto_token_footer(token->data, token->len, footer->data, token->len, &footer->len, PASETO_NO_REASON);
    if (status != PASETO_OK || !location->keys->is_ring) {
        return status;
    }
    switch (paseto_json_member(r->pool, footer, &kid, 0, &value)) {
    case NGX_ERROR:
        return PASETO_MEMORY;
    case NGX_OK:
        if (paseto_json_text(r->pool, &value, &id) == NGX_OK) {
            *key = paseto_keys_find(location->keys, &id);
            return *key == NULL ? PASETO_UNKNOWN_KEY : PASETO_OK;
        }
    }
    return PASETO_UNKNOWN_KEY;
}

/* The jti of a token that is authentic, and whose claims were refused; empty where it has none. */
static ngx_str_t jti_of(ngx_http_request_t *r, struct paseto_key *key, ngx_str_t *token, ngx_str_t *footer, ngx_str_t *assertion) {
    static ngx_str_t name = ngx_string("jti");
    ngx_str_t text, value, jti, none = ngx_string("none");
    paseto_status status;

    text.data = ngx_pnalloc(r->pool, token->len);
    if (text.data == NULL) {
        return none;
    }
    status = (key->type == PASETO_KEY_LOCAL ? paseto_decrypt : paseto_verify)(key, token->data, token->len, footer->data, footer->len,
                                                                              assertion->data, assertion->len, text.data, token->len,
                                                                              &text.len, PASETO_NO_REASON);
    if (status != PASETO_OK || paseto_json_member(r->pool, &text, &name, 0, &value) != NGX_OK || paseto_json_text(r->pool, &value, &jti) != NGX_OK)
    {
        return none;
    }
    one_line(&jti);
    return jti;
}

/* Says in the log why a token was refused, with its jti where it is authentic. */
static void tell(ngx_http_request_t *r, ngx_uint_t status, ngx_str_t *line, ngx_str_t *jti) {
    ngx_uint_t level = answer_of(status) == NGX_HTTP_INTERNAL_SERVER_ERROR ? NGX_LOG_ERR : NGX_LOG_INFO;
    ngx_str_t name = name_of(status);

    one_line(line);
    ngx_log_error(level, r->connection->log, 0, "paseto: token refused: %V: %V, jti: %V", &name, line, jti);
}

/* Whether the library's line names a claim that the location expects: it has another type, and not only another text. */
static ngx_uint_t is_expected(location_t *location, u_char *line, size_t length) {
    ngx_keyval_t *claim = location->claims == NULL ? NULL : location->claims->elts;
    ngx_uint_t i;
    u_char *at;

    for (i = 0; claim != NULL && i < location->claims->nelts; i++) {
        at = memmem(line, length, claim[i].key.data, claim[i].key.len);
        if (at != NULL && at > line && at[-1] == '\'' && at + claim[i].key.len < line + length && at[claim[i].key.len] == '\'') {
            return 1;
        }
    }
    return 0;
}

/* Reads the claims of a token. */
static ngx_uint_t admit(ngx_http_request_t *r, location_t *location, ngx_str_t *token, outcome_t *outcome) {
    u_char said[LINE];
    size_t told = 0;
    paseto_key_t *key;
    ngx_str_t footer, assertion = ngx_null_string, line = { 0, said }, jti = ngx_string("unknown");
    ngx_uint_t status;
    ngx_time_t *now = ngx_timeofday();
    struct paseto_options options = {
        .size = sizeof options, .leeway = (uint32_t) location->leeway, .longest = location->longest,
        .required = location->required_names.data, .required_length = location->required_names.len,
    };

    if (token->len > location->longest) {
        status = PASETO_TOO_LONG;
    } else {
        status = key_of(r, location, token, &footer, &key);
    }
    if (status == PASETO_OK && location->assertion != NULL && ngx_http_complex_value(r, location->assertion, &assertion) != NGX_OK) {
        status = PASETO_MEMORY;
    }
    if (status == PASETO_OK) {
        outcome->claims.data = ngx_pnalloc(r->pool, token->len);
        status = outcome->claims.data == NULL
                     ? PASETO_MEMORY
                     : paseto_admit(key->key, token->data, token->len, location->expected.data, location->expected.len,
                                    (int64_t) now->sec * 1000000000 + (int64_t) now->msec * 1000000, footer.data, footer.len, assertion.data,
                                    assertion.len, &options, outcome->claims.data, token->len, &outcome->claims.len, said, sizeof said, &told);
        outcome->kid = key->id;
        if (status == PASETO_UNEXPECTED && is_expected(location, said, ngx_min(told, sizeof said))) {
            status = PASETO_INVALID;
        }
        if (status >= PASETO_PAYLOAD_JSON_ERROR && status <= PASETO_INVALID) {
            jti = jti_of(r, key->key, token, &footer, &assertion);
        }
    }
    if (status != PASETO_OK) {
        if (told > 0) {
            line.len = ngx_min(told, sizeof said);
        } else {
            line = paseto_text_of((paseto_status) status, said);
        }
        tell(r, status, &line, &jti);
    }
    return status;
}

/* ---- a request */

/* The outcome outlives what clears the contexts of modules, an internal redirect: it is found by its cleanup. */
static void kept(void *data) {
    (void) data;
}

static outcome_t *found(ngx_http_request_t *r) {
    outcome_t *outcome = ngx_http_get_module_ctx(r->main, ngx_http_paseto_module);
    ngx_pool_cleanup_t *cleanup;

    if (outcome != NULL || !(r->main->internal || r->main->filter_finalize)) {
        return outcome;
    }
    for (cleanup = r->main->pool->cleanup; cleanup != NULL; cleanup = cleanup->next) {
        if (cleanup->handler == kept) {
            return cleanup->data;
        }
    }
    return NULL;
}

/* Applies the directives of the location to a request, once. NULL is want of memory. */
static outcome_t *decided(ngx_http_request_t *r, location_t *location) {
    outcome_t *outcome = found(r);
    ngx_pool_cleanup_t *cleanup;
    ngx_str_t token;

    if (outcome != NULL && outcome->location == location) {
        return outcome;
    }
    if (outcome == NULL) {
        cleanup = ngx_pool_cleanup_add(r->main->pool, sizeof(outcome_t));
        if (cleanup == NULL) {
            return NULL;
        }
        cleanup->handler = kept;
        outcome = cleanup->data;
    }
    ngx_memzero(outcome, sizeof(outcome_t));
    /* What asks for a variable of ours meanwhile, as paseto_assertion might, finds a request without a token. */
    outcome->location = location;
    outcome->status = NO_TOKEN;
    ngx_http_set_ctx(r->main, outcome, ngx_http_paseto_module);
    if (token_of(r, location, &token) != NGX_OK) {
        outcome->status = PASETO_MEMORY;
    } else if (token.len > 0) {
        outcome->status = admit(r, location, &token, outcome);
    }
    return outcome;
}

/* The value of WWW-Authenticate, as RFC 6750 has it. */
static ngx_int_t challenge(ngx_http_request_t *r, ngx_uint_t status) {
    static const char format[] = "Bearer error=\"%s\", error_description=\"%V\"";
    u_char said[100], *at;
    ngx_str_t text, plain = ngx_string("Bearer");
    ngx_table_elt_t *header;

    header = ngx_list_push(&r->headers_out.headers);
    if (header == NULL) {
        return NGX_ERROR;
    }
    header->hash = 1;
    ngx_str_set(&header->key, "WWW-Authenticate");
    header->value = plain;
    r->headers_out.www_authenticate = header;
    if (status == NO_TOKEN) {
        return NGX_OK;
    }
    text = paseto_text_of((paseto_status) status, said);
    for (at = text.data; at < text.data + text.len; at++) {
        *at = *at < ' ' || *at > '~' || *at == '"' || *at == '\\' ? '\'' : *at;
    }
    header->value.data = ngx_pnalloc(r->pool, sizeof format + sizeof said + sizeof "insufficient_scope");
    if (header->value.data == NULL) {
        header->hash = 0;
        return NGX_ERROR;
    }
    header->value.len = ngx_sprintf(header->value.data, format, status == PASETO_INVALID ? "insufficient_scope" : "invalid_token", &text)
                        - header->value.data;
    return NGX_OK;
}

static ngx_int_t on_access(ngx_http_request_t *r) {
    location_t *location = ngx_http_get_module_loc_conf(r, ngx_http_paseto_module);
    outcome_t *outcome;
    ngx_int_t answer;

    if (location->mode == OFF) {
        return NGX_DECLINED;
    }
    outcome = decided(r, location);
    if (outcome == NULL) {
        return NGX_HTTP_INTERNAL_SERVER_ERROR;
    }
    if (outcome->status == NO_TOKEN && location->mode == OPTIONAL) {
        return NGX_DECLINED;
    }
    answer = answer_of(outcome->status);
    if ((answer == NGX_HTTP_UNAUTHORIZED || answer == NGX_HTTP_FORBIDDEN) && challenge(r, outcome->status) != NGX_OK) {
        return NGX_HTTP_INTERNAL_SERVER_ERROR;
    }
    return answer;
}

/* ---- variables */

/* The outcome of a request, decided now where no phase has asked yet, as for limit_req. NULL where there is none. */
static outcome_t *asked(ngx_http_request_t *r) {
    location_t *location = ngx_http_get_module_loc_conf(r, ngx_http_paseto_module);

    return location->mode == OFF ? found(r) : decided(r, location);
}

static ngx_int_t shown(ngx_http_variable_value_t *v, ngx_str_t *text) {
    if (text == NULL || text->data == NULL) {
        v->not_found = 1;
        return NGX_OK;
    }
    v->data = text->data;
    v->len = text->len;
    v->valid = 1;
    v->no_cacheable = 0;
    v->not_found = 0;
    return NGX_OK;
}

static ngx_int_t show_status(ngx_http_request_t *r, ngx_http_variable_value_t *v, uintptr_t data) {
    outcome_t *outcome = asked(r);
    ngx_str_t name;

    (void) data;
    if (outcome == NULL) {
        return shown(v, NULL);
    }
    name = name_of(outcome->status);
    return shown(v, &name);
}

static ngx_int_t show_claims(ngx_http_request_t *r, ngx_http_variable_value_t *v, uintptr_t data) {
    outcome_t *outcome = asked(r);

    (void) data;
    return shown(v, outcome == NULL || outcome->status != PASETO_OK ? NULL : &outcome->claims);
}

static ngx_int_t show_kid(ngx_http_request_t *r, ngx_http_variable_value_t *v, uintptr_t data) {
    outcome_t *outcome = asked(r);

    (void) data;
    return shown(v, outcome == NULL || outcome->status != PASETO_OK || outcome->kid.len == 0 ? NULL : &outcome->kid);
}

/* A claim: a text as it is, anything else as JSON. A text with control characters, which could end a header of a request to an
   upstream, is not shown. */
static ngx_int_t show_claim(ngx_http_request_t *r, ngx_http_variable_value_t *v, uintptr_t data) {
    ngx_str_t name = *(ngx_str_t *) data, value, text;
    outcome_t *outcome = asked(r);
    size_t i;

    name.data += sizeof "paseto_claim_" - 1;
    name.len -= sizeof "paseto_claim_" - 1;
    if (outcome == NULL || outcome->status != PASETO_OK) {
        return shown(v, NULL);
    }
    switch (paseto_json_member(r->pool, &outcome->claims, &name, 1, &value)) {
    case NGX_ERROR:
        return NGX_ERROR;
    case NGX_DECLINED:
        return shown(v, NULL);
    }
    if (value.data[0] != '"') {
        return shown(v, value.len == 4 && ngx_memcmp(value.data, "null", 4) == 0 ? NULL : &value);
    }
    if (paseto_json_text(r->pool, &value, &text) != NGX_OK) {
        return shown(v, NULL);
    }
    for (i = 0; i < text.len; i++) {
        if (text.data[i] < ' ' || text.data[i] == 0x7f) {
            ngx_log_error(NGX_LOG_INFO, r->connection->log, 0, "paseto: the claim \"%V\" has control characters, and is not shown", &name);
            return shown(v, NULL);
        }
    }
    return shown(v, &text);
}

static ngx_int_t add_variables(ngx_conf_t *cf) {
    static ngx_http_variable_t variables[] = {
        { ngx_string("paseto_status"), NULL, show_status, 0, NGX_HTTP_VAR_NOCACHEABLE, 0 },
        { ngx_string("paseto_claims"), NULL, show_claims, 0, NGX_HTTP_VAR_NOCACHEABLE, 0 },
        { ngx_string("paseto_kid"), NULL, show_kid, 0, NGX_HTTP_VAR_NOCACHEABLE, 0 },
        { ngx_string("paseto_claim_"), NULL, show_claim, 0, NGX_HTTP_VAR_NOCACHEABLE | NGX_HTTP_VAR_PREFIX, 0 },
    };
    ngx_http_variable_t *added;
    ngx_uint_t i;

    for (i = 0; i < sizeof variables / sizeof variables[0]; i++) {
        added = ngx_http_add_variable(cf, &variables[i].name, variables[i].flags);
        if (added == NULL) {
            return NGX_ERROR;
        }
        added->get_handler = variables[i].get_handler;
        added->data = variables[i].data;
    }
    return NGX_OK;
}

/* ---- directives */

static char *set_keys(ngx_conf_t *cf, ngx_command_t *command, void *conf) {
    location_t *location = conf;
    ngx_str_t *words = cf->args->elts;

    (void) command;
    if (location->keys != NGX_CONF_UNSET_PTR) {
        return "is duplicate";
    }
    location->keys = ngx_pcalloc(cf->pool, sizeof(paseto_keys_t));
    return location->keys == NULL || paseto_keys_read(cf, &words[1], location->keys) != NGX_OK ? NGX_CONF_ERROR : NGX_CONF_OK;
}

static ngx_uint_t is_text(ngx_str_t *word) {
    u_char *at = word->data, *end = word->data + word->len;

    while (at < end) {
        if (*at < 0x80) {
            at++;
        } else if (ngx_utf8_decode(&at, end - at) > 0x10ffff) {
            return 0;
        }
    }
    return 1;
}

static char *set_claim(ngx_conf_t *cf, ngx_command_t *command, void *conf) {
    location_t *location = conf;
    ngx_str_t *words = cf->args->elts;
    ngx_keyval_t *claim;
    ngx_uint_t i;

    (void) command;
    if (location->claims == NGX_CONF_UNSET_PTR) {
        location->claims = ngx_array_create(cf->pool, 4, sizeof(ngx_keyval_t));
        if (location->claims == NULL) {
            return NGX_CONF_ERROR;
        }
    }
    claim = location->claims->elts;
    for (i = 0; i < location->claims->nelts; i++) {
        if (claim[i].key.len == words[1].len && ngx_memcmp(claim[i].key.data, words[1].data, words[1].len) == 0) {
            return "names a claim twice";
        }
    }
    if (!is_text(&words[1]) || !is_text(&words[2])) {
        return "is no UTF-8";
    }
    claim = ngx_array_push(location->claims);
    if (claim == NULL) {
        return NGX_CONF_ERROR;
    }
    claim->key = words[1];
    claim->value = words[2];
    return NGX_CONF_OK;
}

static char *set_require(ngx_conf_t *cf, ngx_command_t *command, void *conf) {
    location_t *location = conf;
    ngx_str_t *words = cf->args->elts, *name;
    ngx_uint_t i;

    (void) command;
    if (location->required != NGX_CONF_UNSET_PTR) {
        return "is duplicate";
    }
    location->required = ngx_array_create(cf->pool, cf->args->nelts, sizeof(ngx_str_t));
    if (location->required == NULL) {
        return NGX_CONF_ERROR;
    }
    if (cf->args->nelts == 2 && ngx_strcmp(words[1].data, "off") == 0) {
        return NGX_CONF_OK;
    }
    for (i = 1; i < cf->args->nelts; i++) {
        if (!is_text(&words[i])) {
            return "is no UTF-8";
        }
        name = ngx_array_push(location->required);
        if (name == NULL) {
            return NGX_CONF_ERROR;
        }
        *name = words[i];
    }
    return NGX_CONF_OK;
}

static char *check_footer(ngx_conf_t *cf, void *post, void *data) {
    (void) cf;
    (void) post;
    return is_text(data) ? NGX_CONF_OK : "is no UTF-8";
}

static char *check_longest(ngx_conf_t *cf, void *post, void *data) {
    size_t *longest = data;

    (void) cf;
    (void) post;
    return *longest > 0 ? NGX_CONF_OK : "is 0";
}

static char *check_leeway(ngx_conf_t *cf, void *post, void *data) {
    time_t *leeway = data;

    (void) cf;
    (void) post;
    return *leeway <= (time_t) UINT32_MAX ? NGX_CONF_OK : "is too long";
}

static void *create(ngx_conf_t *cf) {
    location_t *location = ngx_pcalloc(cf->pool, sizeof(location_t));

    if (location == NULL) {
        return NULL;
    }
    location->mode = NGX_CONF_UNSET_UINT;
    location->keys = NGX_CONF_UNSET_PTR;
    location->claims = NGX_CONF_UNSET_PTR;
    location->required = NGX_CONF_UNSET_PTR;
    location->leeway = NGX_CONF_UNSET;
    location->longest = NGX_CONF_UNSET_SIZE;
    return location;
}

/* Adds bytes behind a text that is grown, in a pool. */
static ngx_int_t append(ngx_pool_t *pool, ngx_str_t *text, ngx_str_t *more) {
    u_char *grown = ngx_pnalloc(pool, text->len + more->len + 1);

    if (grown == NULL) {
        return NGX_ERROR;
    }
    if (text->len > 0) {
        ngx_memcpy(grown, text->data, text->len);
    }
    if (more->len > 0) {
        ngx_memcpy(grown + text->len, more->data, more->len);
    }
    text->data = grown;
    text->len += more->len;
    return NGX_OK;
}

/* Adds a string of JSON behind a text, and a character before it. */
static ngx_int_t append_string(ngx_pool_t *pool, ngx_str_t *text, char before, ngx_str_t *string) {
    ngx_str_t first = { 1, (u_char *) &before }, quoted;

    return append(pool, text, &first) != NGX_OK || paseto_json_string(pool, string, &quoted) != NGX_OK ? NGX_ERROR : append(pool, text, &quoted);
}

/* What the library is asked for, from the directives. */
static ngx_int_t prepare(ngx_conf_t *cf, location_t *location) {
    static ngx_str_t brace = ngx_string("}"), bracket = ngx_string("]");
    ngx_keyval_t *claim = location->claims == NULL ? NULL : location->claims->elts;
    ngx_str_t *name = location->required == NULL ? NULL : location->required->elts;
    ngx_uint_t i, claims = location->claims == NULL ? 0 : location->claims->nelts;

    ngx_str_set(&location->expected, "{");
    ngx_str_null(&location->required_names);
    for (i = 0; i < claims; i++) {
        if (i == 0) {
            ngx_str_null(&location->expected);
        }
        if (append_string(cf->pool, &location->expected, i == 0 ? '{' : ',', &claim[i].key) != NGX_OK
            || append_string(cf->pool, &location->expected, ':', &claim[i].value) != NGX_OK)
        {
            return NGX_ERROR;
        }
    }
    for (i = 0; name != NULL && i < location->required->nelts; i++) {
        if (append_string(cf->pool, &location->required_names, i == 0 ? '[' : ',', &name[i]) != NGX_OK) {
            return NGX_ERROR;
        }
    }
    if (append(cf->pool, &location->expected, &brace) != NGX_OK) {
        return NGX_ERROR;
    }
    return location->required_names.len == 0 ? NGX_OK : append(cf->pool, &location->required_names, &bracket);
}

/* What directives cannot be together. */
static char *conflict(ngx_conf_t *cf, location_t *location) {
    paseto_key_t *key;
    ngx_uint_t i;

    if (location->mode == OFF) {
        return NGX_CONF_OK;
    }
    if (location->keys == NULL) {
        ngx_conf_log_error(NGX_LOG_EMERG, cf, 0, "\"paseto\" is on, and \"paseto_keys\" names no keys");
        return NGX_CONF_ERROR;
    }
    if (location->keys->is_ring && location->footer.data != NULL) {
        ngx_conf_log_error(NGX_LOG_EMERG, cf, 0, "\"paseto_footer\": the footer of a token names a key of the folder in \"paseto_keys\"");
        return NGX_CONF_ERROR;
    }
    key = location->keys->keys.elts;
    for (i = 0; location->assertion != NULL && i < location->keys->keys.nelts; i++) {
        if (key[i].key->version < 3) {
            ngx_conf_log_error(NGX_LOG_EMERG, cf, 0, "\"paseto_assertion\": tokens of version %d have no implicit assertion", (int) key[i].key->version);
            return NGX_CONF_ERROR;
        }
    }
    return NGX_CONF_OK;
}

static char *merge(ngx_conf_t *cf, void *parent, void *child) {
    location_t *above = parent, *location = child;
    ngx_str_t *name;

    ngx_conf_merge_uint_value(location->mode, above->mode, OFF);
    ngx_conf_merge_ptr_value(location->keys, above->keys, NULL);
    ngx_conf_merge_ptr_value(location->claims, above->claims, NULL);
    ngx_conf_merge_ptr_value(location->required, above->required, NULL);
    ngx_conf_merge_sec_value(location->leeway, above->leeway, 1);
    ngx_conf_merge_size_value(location->longest, above->longest, 8192);
    if (location->footer.data == NULL) {
        location->footer = above->footer;
    }
    if (location->token == NULL) {
        location->token = above->token;
    }
    if (location->assertion == NULL) {
        location->assertion = above->assertion;
    }
    if (location->required == NULL) {
        /* A token without exp never expires. */
        location->required = ngx_array_create(cf->pool, 1, sizeof(ngx_str_t));
        name = location->required == NULL ? NULL : ngx_array_push(location->required);
        if (name == NULL) {
            return NGX_CONF_ERROR;
        }
        ngx_str_set(name, "exp");
    }
    return prepare(cf, location) != NGX_OK ? NGX_CONF_ERROR : conflict(cf, location);
}

static ngx_int_t add_handler(ngx_conf_t *cf) {
    ngx_http_core_main_conf_t *core = ngx_http_conf_get_module_main_conf(cf, ngx_http_core_module);
    ngx_http_handler_pt *handler = ngx_array_push(&core->phases[NGX_HTTP_ACCESS_PHASE].handlers);

    if (handler == NULL) {
        return NGX_ERROR;
    }
    *handler = on_access;
    return NGX_OK;
}

static ngx_conf_enum_t modes[] = {
    { ngx_string("off"), OFF },
    { ngx_string("on"), ON },
    { ngx_string("optional"), OPTIONAL },
    { ngx_null_string, 0 },
};

static ngx_conf_post_t footer_post = { check_footer };
static ngx_conf_post_t longest_post = { check_longest };
static ngx_conf_post_t leeway_post = { check_leeway };

#define ANYWHERE NGX_HTTP_MAIN_CONF | NGX_HTTP_SRV_CONF | NGX_HTTP_LOC_CONF

static ngx_command_t commands[] = {
    { ngx_string("paseto"), ANYWHERE | NGX_CONF_TAKE1, ngx_conf_set_enum_slot, NGX_HTTP_LOC_CONF_OFFSET, offsetof(location_t, mode), modes },
    { ngx_string("paseto_keys"), ANYWHERE | NGX_CONF_TAKE1, set_keys, NGX_HTTP_LOC_CONF_OFFSET, 0, NULL },
    { ngx_string("paseto_token"), ANYWHERE | NGX_CONF_TAKE1, ngx_http_set_complex_value_slot, NGX_HTTP_LOC_CONF_OFFSET,
      offsetof(location_t, token), NULL },
    { ngx_string("paseto_claim"), ANYWHERE | NGX_CONF_TAKE2, set_claim, NGX_HTTP_LOC_CONF_OFFSET, 0, NULL },
    { ngx_string("paseto_require"), ANYWHERE | NGX_CONF_1MORE, set_require, NGX_HTTP_LOC_CONF_OFFSET, 0, NULL },
    { ngx_string("paseto_leeway"), ANYWHERE | NGX_CONF_TAKE1, ngx_conf_set_sec_slot, NGX_HTTP_LOC_CONF_OFFSET, offsetof(location_t, leeway),
      &leeway_post },
    { ngx_string("paseto_footer"), ANYWHERE | NGX_CONF_TAKE1, ngx_conf_set_str_slot, NGX_HTTP_LOC_CONF_OFFSET, offsetof(location_t, footer),
      &footer_post },
    { ngx_string("paseto_assertion"), ANYWHERE | NGX_CONF_TAKE1, ngx_http_set_complex_value_slot, NGX_HTTP_LOC_CONF_OFFSET,
      offsetof(location_t, assertion), NULL },
    { ngx_string("paseto_longest"), ANYWHERE | NGX_CONF_TAKE1, ngx_conf_set_size_slot, NGX_HTTP_LOC_CONF_OFFSET,
      offsetof(location_t, longest), &longest_post },
    ngx_null_command,
};

static ngx_http_module_t context = { add_variables, add_handler, NULL, NULL, NULL, NULL, create, merge };

ngx_module_t ngx_http_paseto_module = {
    NGX_MODULE_V1, &context, commands, NGX_HTTP_MODULE, NULL, NULL, NULL, NULL, NULL, NULL, NULL, NGX_MODULE_V1_PADDING,
};
