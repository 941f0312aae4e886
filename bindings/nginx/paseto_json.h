/* Members of a JSON object, as they are read from a token's claims and from its footer. A footer is read before the token is
   known to be authentic, so any bytes may be asked. */
#ifndef PASETO_JSON_H
#define PASETO_JSON_H

#include <ngx_config.h>
#include <ngx_core.h>

/* Finds a member of an object by its name, the last of that name. NGX_OK sets `value` to the text of its value as it stands;
   NGX_DECLINED says that there is none, or that the text is no object. With `any_case`, a member whose name differs in the case
   of ASCII letters counts where there is just one, and none of the very name. */
ngx_int_t paseto_json_member(ngx_pool_t *pool, ngx_str_t *object, ngx_str_t *name, ngx_uint_t any_case, ngx_str_t *value);

/* The text of a string, without its quotes and escapes. NGX_DECLINED says that the value is no string of Unicode characters. */
ngx_int_t paseto_json_text(ngx_pool_t *pool, ngx_str_t *value, ngx_str_t *text);

/* A string of JSON that has this text. */
ngx_int_t paseto_json_string(ngx_pool_t *pool, ngx_str_t *text, ngx_str_t *value);

#endif
