#include "paseto_json.h"

/* How deeply lists and objects may lie within each other. */
#define DEEPEST 128

typedef struct {
    u_char *at;
    u_char *end;
} reader_t;

static void skip_spaces(reader_t *reader) {
    while (reader->at < reader->end
           && (*reader->at == ' ' || *reader->at == '\t' || *reader->at == '\n' || *reader->at == '\r')) {
        reader->at++;
    }
}

/* Takes a character, after spaces. */
static ngx_int_t take(reader_t *reader, u_char wanted) {
    skip_spaces(reader);
    if (reader->at == reader->end || *reader->at != wanted) {
        return NGX_DECLINED;
    }
    reader->at++;
    return NGX_OK;
}

/* Takes a string, with its quotes. */
static ngx_int_t take_string(reader_t *reader, ngx_str_t *taken) {
    skip_spaces(reader);
    taken->data = reader->at;
    if (take(reader, '"') != NGX_OK) {
        return NGX_DECLINED;
    }
    while (reader->at < reader->end && *reader->at != '"') {
        if (*reader->at < ' ') {
            return NGX_DECLINED;
        }
        reader->at += *reader->at == '\\' && reader->end - reader->at > 1 ? 2 : 1;
    }
    if (reader->at == reader->end) {
        return NGX_DECLINED;
    }
    reader->at++;
    taken->len = reader->at - taken->data;
    return NGX_OK;
}

/* Takes a number, or one of the words true, false and null. */
static ngx_int_t take_word(reader_t *reader) {
    u_char *begin = reader->at;

    while (reader->at < reader->end
           && ((*reader->at >= '0' && *reader->at <= '9') || (*reader->at >= 'a' && *reader->at <= 'z') || *reader->at == 'E'
               || *reader->at == '-' || *reader->at == '+' || *reader->at == '.')) {
        reader->at++;
    }
    return reader->at > begin ? NGX_OK : NGX_DECLINED;
}

/* Takes a value, with all that lies in it. Only the brackets are matched within: the library has checked claims, and of a
   footer one member is asked. */
static ngx_int_t take_value(reader_t *reader, ngx_str_t *taken) {
    u_char closing[DEEPEST];
    ngx_uint_t depth = 0;
    ngx_str_t string;

    skip_spaces(reader);
    taken->data = reader->at;
    do {
        skip_spaces(reader);
        if (reader->at == reader->end) {
            return NGX_DECLINED;
        }
        switch (*reader->at) {
        case '"':
            if (take_string(reader, &string) != NGX_OK) {
                return NGX_DECLINED;
            }
            break;
        case '{':
        case '[':
            if (depth == DEEPEST) {
                return NGX_DECLINED;
            }
            closing[depth++] = *reader->at++ == '{' ? '}' : ']';
            break;
        case '}':
        case ']':
            if (depth == 0 || closing[--depth] != *reader->at++) {
                return NGX_DECLINED;
            }
            break;
        case ',':
        case ':':
            if (depth == 0) {
                return NGX_DECLINED;
            }
            reader->at++;
            break;
        default:
            if (take_word(reader) != NGX_OK) {
                return NGX_DECLINED;
            }
        }
    } while (depth > 0);
    taken->len = reader->at - taken->data;
    return NGX_OK;
}

static ngx_int_t hex(u_char *at, uint32_t *unit) {
    ngx_int_t read = ngx_hextoi(at, 4);

    *unit = (uint32_t) read;
    return read == NGX_ERROR ? NGX_DECLINED : NGX_OK;
}

/* The character of an escape \u, which `at` is behind, and how many bytes of the text it takes. Half a character is refused. */
static ngx_int_t unicode(u_char *at, u_char *end, uint32_t *point, size_t *length) {
    uint32_t low;

    if (end - at < 4 || hex(at, point) != NGX_OK || (*point >= 0xdc00 && *point <= 0xdfff)) {
        return NGX_DECLINED;
    }
    *length = 4;
    if (*point < 0xd800 || *point > 0xdbff) {
        return NGX_OK;
    }
    if (end - at < 10 || at[4] != '\\' || at[5] != 'u' || hex(at + 6, &low) != NGX_OK || low < 0xdc00 || low > 0xdfff) {
        return NGX_DECLINED;
    }
    *point = 0x10000 + ((*point - 0xd800) << 10) + (low - 0xdc00);
    *length = 10;
    return NGX_OK;
}

static u_char *encoded(u_char *to, uint32_t point) {
    if (point < 0x80) {
        *to++ = (u_char) point;
    } else if (point < 0x800) {
        *to++ = (u_char) (0xc0 | point >> 6);
        *to++ = (u_char) (0x80 | (point & 0x3f));
    } else if (point < 0x10000) {
        *to++ = (u_char) (0xe0 | point >> 12);
        *to++ = (u_char) (0x80 | (point >> 6 & 0x3f));
        *to++ = (u_char) (0x80 | (point & 0x3f));
    } else {
        *to++ = (u_char) (0xf0 | point >> 18);
        *to++ = (u_char) (0x80 | (point >> 12 & 0x3f));
        *to++ = (u_char) (0x80 | (point >> 6 & 0x3f));
        *to++ = (u_char) (0x80 | (point & 0x3f));
    }
    return to;
}

ngx_int_t paseto_json_text(ngx_pool_t *pool, ngx_str_t *value, ngx_str_t *text) {
    static u_char escapes[] = "\"\"\\\\//b\bf\fn\nr\rt\t";
    u_char *at, *end, *to, *escape;
    uint32_t point;
    size_t length;

    if (value->len < 2 || value->data[0] != '"') {
        return NGX_DECLINED;
    }
    at = value->data + 1;
    end = value->data + value->len - 1;
    to = ngx_pnalloc(pool, value->len);
    if (to == NULL) {
        return NGX_ERROR;
    }
    text->data = to;
    while (at < end) {
        if (*at != '\\') {
            *to++ = *at++;
            continue;
        }
        at++;
        if (at < end && *at == 'u') {
            if (unicode(at + 1, end, &point, &length) != NGX_OK) {
                return NGX_DECLINED;
            }
            to = encoded(to, point);
            at += 1 + length;
            continue;
        }
        for (escape = escapes; *escape != 0 && (at == end || *escape != *at); escape += 2) { /* void */ }
        if (*escape == 0) {
            return NGX_DECLINED;
        }
        *to++ = escape[1];
        at++;
    }
    text->len = to - text->data;
    return NGX_OK;
}

ngx_int_t paseto_json_string(ngx_pool_t *pool, ngx_str_t *text, ngx_str_t *value) {
    u_char *to;
    size_t i;

    to = ngx_pnalloc(pool, text->len * 6 + 2);
    if (to == NULL) {
        return NGX_ERROR;
    }
    value->data = to;
    *to++ = '"';
    for (i = 0; i < text->len; i++) {
        if (text->data[i] < ' ') {
            to = ngx_sprintf(to, "\\u%04xd", text->data[i]);
            continue;
        }
        if (text->data[i] == '"' || text->data[i] == '\\') {
            *to++ = '\\';
        }
        *to++ = text->data[i];
    }
    *to++ = '"';
    value->len = to - value->data;
    return NGX_OK;
}

static ngx_uint_t is_same(ngx_str_t *a, ngx_str_t *b) {
    return a->len == b->len && ngx_memcmp(a->data, b->data, a->len) == 0;
}

static ngx_uint_t is_alike(ngx_str_t *a, ngx_str_t *b) {
    return a->len == b->len && ngx_strncasecmp(a->data, b->data, a->len) == 0;
}

ngx_int_t paseto_json_member(ngx_pool_t *pool, ngx_str_t *object, ngx_str_t *name, ngx_uint_t any_case, ngx_str_t *value) {
    reader_t reader = { object->data, object->data + object->len };
    ngx_str_t string, found, member, alike = ngx_null_string;
    ngx_uint_t same = 0, others = 0;
    ngx_int_t rc;

    if (take(&reader, '{') != NGX_OK || take(&reader, '}') == NGX_OK) {
        return NGX_DECLINED;
    }
    do {
        if (take_string(&reader, &string) != NGX_OK || take(&reader, ':') != NGX_OK || take_value(&reader, &member) != NGX_OK) {
            return NGX_DECLINED;
        }
        rc = paseto_json_text(pool, &string, &found);
        if (rc == NGX_ERROR) {
            return NGX_ERROR;
        }
        if (rc == NGX_OK && is_same(&found, name)) {
            same = 1;
            *value = member;
        } else if (rc == NGX_OK && is_alike(&found, name)) {
            others++;
            alike = member;
        }
    } while (take(&reader, ',') == NGX_OK);
    if (take(&reader, '}') != NGX_OK) {
        return NGX_DECLINED;
    }
    skip_spaces(&reader);
    if (reader.at != reader.end) {
        return NGX_DECLINED;
    }
    if (same) {
        return NGX_OK;
    }
    if (any_case && others == 1) {
        *value = alike;
        return NGX_OK;
    }
    return NGX_DECLINED;
}
