#include "paseto_key_files.h"

/* No key file is longer. */
#define LONGEST_FILE 16384

ngx_str_t paseto_text_of(paseto_status status, u_char *room) {
    size_t written = 0;
    ngx_str_t text;

    paseto_error_text(status, room, 100, &written);
    text.data = room;
    text.len = written;
    return text;
}

static void wipe(void *data) {
    ngx_array_t *keys = data;
    paseto_key_t *key = keys->elts;
    ngx_uint_t i;

    for (i = 0; i < keys->nelts; i++) {
        paseto_key_wipe(key[i].key);
    }
}

/* Reads a file into a buffer of LONGEST_FILE bytes. */
static ngx_int_t read_file(ngx_conf_t *cf, ngx_str_t *path, u_char *room, size_t *length) {
    ngx_fd_t file;
    ssize_t got;
    struct stat about;

    *length = 0;
    file = ngx_open_file(path->data, NGX_FILE_RDONLY, NGX_FILE_OPEN, 0);
    if (file == NGX_INVALID_FILE) {
        ngx_conf_log_error(NGX_LOG_EMERG, cf, ngx_errno, "\"paseto_keys\": %V cannot be opened", path);
        return NGX_ERROR;
    }
    do {
        got = ngx_read_fd(file, room + *length, LONGEST_FILE - *length);
        *length += got > 0 ? (size_t) got : 0;
    } while (got > 0);
    if (got == -1) {
        ngx_conf_log_error(NGX_LOG_EMERG, cf, ngx_errno, "\"paseto_keys\": %V cannot be read", path);
    } else if (*length == LONGEST_FILE) {
        ngx_conf_log_error(NGX_LOG_EMERG, cf, 0, "\"paseto_keys\": %V is too long for a key", path);
        got = -1;
    }
    if (got == 0 && fstat(file, &about) == 0 && (about.st_mode & 077) != 0 && ngx_strncmp(room + 2, ".local.", 7) == 0) {
        ngx_conf_log_error(NGX_LOG_WARN, cf, 0, "\"paseto_keys\": others than its owner can read the secret key %V", path);
    }
    ngx_close_file(file);
    return got == 0 ? NGX_OK : NGX_ERROR;
}

/* The key of a text, with its id. */
static paseto_status key_of(ngx_conf_t *cf, u_char *text, size_t length, paseto_key_t *key) {
    u_char id[128];
    size_t id_length;
    paseto_status status;

    status = paseto_key_read(text, length, key->key, PASETO_NO_REASON);
    if (status == PASETO_OK) {
        status = paseto_key_id(key->key, id, sizeof id, &id_length, PASETO_NO_REASON);
    }
    if (status != PASETO_OK) {
        return status;
    }
    key->id.data = ngx_pnalloc(cf->pool, id_length);
    if (key->id.data == NULL) {
        return PASETO_MEMORY;
    }
    key->id.len = id_length;
    ngx_memcpy(key->id.data, id, id_length);
    return PASETO_OK;
}

/* Adds the key of a file. */
static ngx_int_t add_file(ngx_conf_t *cf, ngx_str_t *path, paseto_keys_t *keys) {
    u_char room[LONGEST_FILE], told[100];
    size_t length;
    struct paseto_key *made;
    paseto_key_t *key;
    paseto_status status;
    ngx_str_t said;

    if (read_file(cf, path, room, &length) != NGX_OK) {
        return NGX_ERROR;
    }
    made = ngx_pcalloc(cf->pool, sizeof(struct paseto_key));
    key = made == NULL ? NULL : ngx_array_push(&keys->keys);
    if (key == NULL) {
        return NGX_ERROR;
    }
    ngx_str_null(&key->id);
    key->key = made;
    status = key_of(cf, room, length, key);
    ngx_explicit_memzero(room, sizeof room);
    if (status != PASETO_OK) {
        said = paseto_text_of(status, told);
        ngx_conf_log_error(NGX_LOG_EMERG, cf, 0, "\"paseto_keys\": %V is no key: %V", path, &said);
        return NGX_ERROR;
    }
    if (key->key->type == PASETO_KEY_PRIVATE) {
        ngx_conf_log_error(NGX_LOG_EMERG, cf, 0, "\"paseto_keys\": %V is a private key: the gateway needs its public key alone", path);
        return NGX_ERROR;
    }
    return NGX_OK;
}

static ngx_int_t add_entry(ngx_conf_t *cf, ngx_str_t *folder, u_char *name, paseto_keys_t *keys) {
    ngx_str_t path;
    ngx_file_info_t about;

    if (name[0] == '.') {
        return NGX_OK;
    }
    path.len = folder->len + 1 + ngx_strlen(name);
    path.data = ngx_pnalloc(cf->pool, path.len + 1);
    if (path.data == NULL) {
        return NGX_ERROR;
    }
    ngx_sprintf(path.data, "%V/%s%Z", folder, name);
    if (ngx_file_info(path.data, &about) == 0 && ngx_is_dir(&about)) {
        return NGX_OK;
    }
    return add_file(cf, &path, keys);
}

static ngx_int_t add_folder(ngx_conf_t *cf, ngx_str_t *path, paseto_keys_t *keys) {
    ngx_dir_t folder;
    ngx_int_t rc = NGX_OK;

    if (ngx_open_dir(path, &folder) == NGX_ERROR) {
        ngx_conf_log_error(NGX_LOG_EMERG, cf, ngx_errno, "\"paseto_keys\": the folder %V cannot be opened", path);
        return NGX_ERROR;
    }
    while (rc == NGX_OK && ngx_read_dir(&folder) == NGX_OK) {
        rc = add_entry(cf, path, ngx_de_name(&folder), keys);
    }
    ngx_close_dir(&folder);
    if (rc == NGX_OK && keys->keys.nelts == 0) {
        ngx_conf_log_error(NGX_LOG_EMERG, cf, 0, "\"paseto_keys\": the folder %V has no key", path);
        return NGX_ERROR;
    }
    return rc;
}

ngx_int_t paseto_keys_read(ngx_conf_t *cf, ngx_str_t *path, paseto_keys_t *keys) {
    ngx_file_info_t about;
    ngx_pool_cleanup_t *cleanup;

    if (ngx_conf_full_name(cf->cycle, path, 1) != NGX_OK || ngx_array_init(&keys->keys, cf->pool, 4, sizeof(paseto_key_t)) != NGX_OK) {
        return NGX_ERROR;
    }
    cleanup = ngx_pool_cleanup_add(cf->pool, 0);
    if (cleanup == NULL) {
        return NGX_ERROR;
    }
    cleanup->handler = wipe;
    cleanup->data = &keys->keys;
    if (ngx_file_info(path->data, &about) == NGX_FILE_ERROR) {
        ngx_conf_log_error(NGX_LOG_EMERG, cf, ngx_errno, "\"paseto_keys\": %V cannot be opened", path);
        return NGX_ERROR;
    }
    keys->is_ring = ngx_is_dir(&about);
    return keys->is_ring ? add_folder(cf, path, keys) : add_file(cf, path, keys);
}

paseto_key_t *paseto_keys_find(paseto_keys_t *keys, ngx_str_t *id) {
    paseto_key_t *key = keys->keys.elts;
    ngx_uint_t i;

    for (i = 0; i < keys->keys.nelts; i++) {
        if (key[i].id.len == id->len && ngx_memcmp(key[i].id.data, id->data, id->len) == 0) {
            return &key[i];
        }
    }
    return NULL;
}
