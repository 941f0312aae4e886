/* Keys of files, read when nginx reads its configuration. */
#ifndef PASETO_KEY_FILES_H
#define PASETO_KEY_FILES_H

#include <ngx_config.h>
#include <ngx_core.h>

#include <paseto.h>

typedef struct {
    ngx_str_t id; /* the PASERK id */
    struct paseto_key *key;
} paseto_key_t;

typedef struct {
    ngx_array_t keys; /* of paseto_key_t */
    ngx_uint_t is_ring; /* whether they are those of a folder, so that the footer of a token names one */
} paseto_keys_t;

/* Reads a key file, or all of a folder: names that begin with a dot, and folders within, are passed over. The bytes are wiped
   when the pool goes. A fault is logged with the name of the directive, of the file, and what is wrong. */
ngx_int_t paseto_keys_read(ngx_conf_t *cf, ngx_str_t *path, paseto_keys_t *keys);

/* The key of an id, or NULL. */
paseto_key_t *paseto_keys_find(paseto_keys_t *keys, ngx_str_t *id);

/* The library's text for a status, in a buffer of 100 bytes. */
ngx_str_t paseto_text_of(paseto_status status, u_char *room);

#endif
