#include "base64url.h"

static const char ALPHABET[] = "ABCDEFGHIJKLMNOPQRSTUVWXYZabcdefghijklmnopqrstuvwxyz0123456789-_";

/* Each character's six bits, and 255 for what is no character of the alphabet. */
static uint8_t values[256];
static bool has_values;

static void fill_values(void)
{
    for (int c = 0; c < 256; c++) {
        values[c] = 255;
    }
    for (int i = 0; i < 64; i++) {
        values[(uint8_t)ALPHABET[i]] = (uint8_t)i;
    }
    has_values = true;
}

size_t base64url_encoded_length(size_t length)
{
    return length / 3 * 4 + (length % 3 == 0 ? 0 : length % 3 + 1);
}

size_t base64url_decoded_length(size_t length)
{
    return length / 4 * 3 + (length % 4 == 0 ? 0 : length % 4 - 1);
}

void base64url_encode(uint8_t *text, const uint8_t *bytes, size_t length)
{
    size_t at = 0;
    for (; at + 3 <= length; at += 3, text += 4) {
        uint32_t group = (uint32_t)bytes[at] << 16 | (uint32_t)bytes[at + 1] << 8 | bytes[at + 2];
        text[0] = (uint8_t)ALPHABET[group >> 18];
        text[1] = (uint8_t)ALPHABET[group >> 12 & 63];
        text[2] = (uint8_t)ALPHABET[group >> 6 & 63];
        text[3] = (uint8_t)ALPHABET[group & 63];
    }
    if (length - at == 1) {
        text[0] = (uint8_t)ALPHABET[bytes[at] >> 2];
        text[1] = (uint8_t)ALPHABET[(bytes[at] & 3) << 4];
    } else if (length - at == 2) {
        text[0] = (uint8_t)ALPHABET[bytes[at] >> 2];
        text[1] = (uint8_t)ALPHABET[(bytes[at] & 3) << 4 | bytes[at + 1] >> 4];
        text[2] = (uint8_t)ALPHABET[(bytes[at + 1] & 15) << 2];
    }
}

bool base64url_decode(uint8_t *bytes, const uint8_t *text, size_t length)
{
    if (!has_values) {
        fill_values();
    }
    size_t at = 0;
    uint8_t seen = 0;
    for (; at + 4 <= length; at += 4, bytes += 3) {
        uint8_t a = values[text[at]], b = values[text[at + 1]], c = values[text[at + 2]],
                d = values[text[at + 3]];
        seen |= a | b | c | d;
        uint32_t group = (uint32_t)a << 18 | (uint32_t)b << 12 | (uint32_t)c << 6 | d;
        bytes[0] = (uint8_t)(group >> 16);
        bytes[1] = (uint8_t)(group >> 8);
        bytes[2] = (uint8_t)group;
    }
    size_t left = length - at;
    if (left == 1) {
        return false;
    }
    if (left >= 2) {
        uint8_t a = values[text[at]], b = values[text[at + 1]];
        uint8_t c = left == 3 ? values[text[at + 2]] : 0;
        seen |= a | b | c;
        bytes[0] = (uint8_t)(a << 2 | b >> 4);
        if (left == 3) {
            bytes[1] = (uint8_t)(b << 4 | c >> 2);
        }
        /* The bits that stand for no byte are zeros. */
        if ((left == 2 ? b & 15 : c & 3) != 0) {
            return false;
        }
    }
    return seen < 64;
}
