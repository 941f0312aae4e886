/* Base64url without padding (RFC 4648 section 5). */
#ifndef BASE64URL_H
#define BASE64URL_H

#include <stdbool.h>
#include <stddef.h>
#include <stdint.h>

/* How many characters so many bytes have. */
size_t base64url_encoded_length(size_t length);

/* Writes the characters of the bytes. */
void base64url_encode(uint8_t *text, const uint8_t *bytes, size_t length);

/* How many bytes so many characters have, where they are of any. */
size_t base64url_decoded_length(size_t length);

/* Writes the bytes of the characters. False where they are of no bytes. */
bool base64url_decode(uint8_t *bytes, const uint8_t *text, size_t length);

#endif
