/* What paseto_json.c takes of nginx, to ask it alone under the sanitizers: each allocation is one of malloc, with no room more. */
#ifndef NGX_ALONE_H
#define NGX_ALONE_H

#include <stdint.h>
#include <stdio.h>
#include <stdlib.h>
#include <string.h>
#include <strings.h>

typedef intptr_t ngx_int_t;
typedef uintptr_t ngx_uint_t;
typedef unsigned char u_char;
typedef struct {
    size_t len;
    u_char *data;
} ngx_str_t;
typedef struct {
    void *kept[4096];
    size_t count;
} ngx_pool_t;

#define NGX_OK 0
#define NGX_ERROR -1
#define NGX_DECLINED -5
#define ngx_null_string { 0, NULL }
#define ngx_memcmp memcmp
#define ngx_strncasecmp(a, b, n) strncasecmp((const char *) (a), (const char *) (b), n)

static inline void *ngx_pnalloc(ngx_pool_t *pool, size_t size) {
    void *room = pool->count < 4096 ? malloc(size) : NULL;
    if (room != NULL) pool->kept[pool->count++] = room;
    return room;
}

static inline ngx_int_t ngx_hextoi(u_char *line, size_t n) {
    ngx_int_t value = 0;
    for (; n > 0; n--, line++) {
        u_char c = *line | 0x20;
        if (*line >= '0' && *line <= '9') value = value * 16 + (*line - '0');
        else if (c >= 'a' && c <= 'f') value = value * 16 + (c - 'a' + 10);
        else return NGX_ERROR;
    }
    return value;
}

/* The one format that is used. */
static inline u_char *ngx_sprintf(u_char *to, const char *format, unsigned value) {
    (void) format;
    return to + sprintf((char *) to, "\\u%04x", value);
}

#endif
