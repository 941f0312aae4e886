/* Claims by jansson and by cJSON. Times are written and read by hand, which is faster than strftime and strptime. */
#include <cjson/cJSON.h>
#include <jansson.h>
#include <stdlib.h>
#include <string.h>

#include "peer_claims.h"

#define TIME_LENGTH 20

/* The days from 1970-01-01 to a day of the Gregorian calendar, whose years are counted from March. */
static int64_t days_of(int64_t year, unsigned month, unsigned day)
{
    year -= month <= 2;
    int64_t era = (year >= 0 ? year : year - 399) / 400;
    unsigned year_of_era = (unsigned)(year - era * 400);
    unsigned day_of_year = (153 * (month + (month > 2 ? -3 : 9)) + 2) / 5 + day - 1;
    return era * 146097 + year_of_era * 365 + year_of_era / 4 - year_of_era / 100 + day_of_year - 719468;
}

static void put_number(char *out, unsigned number, int digits)
{
    for (int i = digits - 1; i >= 0; i--) {
        out[i] = (char)('0' + number % 10);
        number /= 10;
    }
}

/* A moment of the years 1970 to 9999 as RFC 3339 writes it. */
static void write_time(char out[TIME_LENGTH + 1], int64_t moment)
{
    int64_t shifted = moment / 86400 + 719468;
    unsigned era = (unsigned)(shifted / 146097), day_of_era = (unsigned)(shifted % 146097);
    unsigned year_of_era = (day_of_era - day_of_era / 1460 + day_of_era / 36524 - day_of_era / 146096) / 365;
    unsigned day_of_year = day_of_era - (365 * year_of_era + year_of_era / 4 - year_of_era / 100);
    unsigned march_month = (5 * day_of_year + 2) / 153, month = march_month < 10 ? march_month + 3 : march_month - 9;
    unsigned second_of_day = (unsigned)(moment % 86400);
    memcpy(out, "0000-00-00T00:00:00Z", TIME_LENGTH + 1);
    put_number(out, era * 400 + year_of_era + (month <= 2), 4);
    put_number(out + 5, month, 2);
    put_number(out + 8, day_of_year - (153 * march_month + 2) / 5 + 1, 2);
    put_number(out + 11, second_of_day / 3600, 2);
    put_number(out + 14, second_of_day / 60 % 60, 2);
    put_number(out + 17, second_of_day % 60, 2);
}

/* The number of so many digits, or -1. */
static int read_number(const char *text, int digits)
{
    int number = 0;
    for (int i = 0; i < digits; i++) {
        if (text[i] < '0' || text[i] > '9') {
            return -1;
        }
        number = number * 10 + (text[i] - '0');
    }
    return number;
}

/* The moment that such a text says. */
static bool read_time(const char *text, int64_t *moment)
{
    if (text == NULL || strlen(text) != TIME_LENGTH || text[4] != '-' || text[7] != '-' || text[10] != 'T'
        || text[13] != ':' || text[16] != ':' || text[19] != 'Z') {
        return false;
    }
    int year = read_number(text, 4), month = read_number(text + 5, 2), day = read_number(text + 8, 2);
    int hour = read_number(text + 11, 2), minute = read_number(text + 14, 2), second = read_number(text + 17, 2);
    if (year < 0 || month < 1 || month > 12 || day < 1 || day > 31 || hour < 0 || hour > 23 || minute < 0 || minute > 59
        || second < 0 || second > 59) {
        return false;
    }
    *moment = days_of(year, (unsigned)month, (unsigned)day) * 86400 + hour * 3600 + minute * 60 + second;
    return true;
}

/* Whether exp has not come, nbf has passed, and aud is the audience. */
static bool holds(const char *expiration, const char *not_before, const char *audience, const char *wanted, int64_t now)
{
    int64_t end, begin;
    return read_time(expiration, &end) && now < end && read_time(not_before, &begin) && begin < now && audience != NULL
        && strcmp(audience, wanted) == 0;
}

/* The token of a JSON text, which it frees. */
static struct peer_bytes sealed(const uint8_t key[32], const uint8_t nonce[32], char *text)
{
    if (text == NULL) {
        return (struct peer_bytes){0};
    }
    struct peer_bytes token = peer_v4_seal(key, nonce, (const uint8_t *)text, strlen(text));
    free(text);
    return token;
}

/* The opened text where its claims hold, which else is freed. */
static struct peer_bytes admitted(struct peer_bytes text, bool hold)
{
    if (!hold) {
        free(text.bytes);
        return (struct peer_bytes){0};
    }
    return text;
}

static bool put_jansson(json_t *object, const char *name, const char *text)
{
    return json_object_set_new(object, name, json_string(text)) == 0;
}

struct peer_bytes peer_jansson_build(const uint8_t key[32], const uint8_t nonce[32], const struct claims *claims,
                                     int64_t now)
{
    char expiration[TIME_LENGTH + 1], issued[TIME_LENGTH + 1], not_before[TIME_LENGTH + 1];
    write_time(expiration, now + 3600);
    write_time(issued, now);
    write_time(not_before, now - 1);
    json_t *object = json_object();
    bool is_made = put_jansson(object, "aud", claims->audience) && put_jansson(object, "exp", expiration)
        && put_jansson(object, "iat", issued) && put_jansson(object, "iss", claims->issuer)
        && put_jansson(object, "jti", claims->identifier) && put_jansson(object, "nbf", not_before)
        && put_jansson(object, "sub", claims->subject);
    char *text = is_made ? json_dumps(object, JSON_COMPACT) : NULL;
    json_decref(object);
    return sealed(key, nonce, text);
}

struct peer_bytes peer_cjson_build(const uint8_t key[32], const uint8_t nonce[32], const struct claims *claims,
                                   int64_t now)
{
    char expiration[TIME_LENGTH + 1], issued[TIME_LENGTH + 1], not_before[TIME_LENGTH + 1];
    write_time(expiration, now + 3600);
    write_time(issued, now);
    write_time(not_before, now - 1);
    cJSON *object = cJSON_CreateObject();
    bool is_made = cJSON_AddStringToObject(object, "aud", claims->audience)
        && cJSON_AddStringToObject(object, "exp", expiration) && cJSON_AddStringToObject(object, "iat", issued)
        && cJSON_AddStringToObject(object, "iss", claims->issuer)
        && cJSON_AddStringToObject(object, "jti", claims->identifier)
        && cJSON_AddStringToObject(object, "nbf", not_before) && cJSON_AddStringToObject(object, "sub", claims->subject);
    char *text = is_made ? cJSON_PrintUnformatted(object) : NULL;
    cJSON_Delete(object);
    return sealed(key, nonce, text);
}

static const char *jansson_text(const json_t *object, const char *name)
{
    return json_string_value(json_object_get(object, name));
}

struct peer_bytes peer_jansson_parse(const uint8_t key[32], const uint8_t *token, size_t length, const char *audience,
                                     int64_t now)
{
    struct peer_bytes text = peer_v4_open(key, token, length);
    if (text.bytes == NULL) {
        return text;
    }
    json_t *object = json_loadb((const char *)text.bytes, text.length, 0, NULL);
    bool hold =
        holds(jansson_text(object, "exp"), jansson_text(object, "nbf"), jansson_text(object, "aud"), audience, now);
    json_decref(object);
    return admitted(text, hold);
}

static const char *cjson_text(const cJSON *object, const char *name)
{
    return cJSON_GetStringValue(cJSON_GetObjectItemCaseSensitive(object, name));
}

struct peer_bytes peer_cjson_parse(const uint8_t key[32], const uint8_t *token, size_t length, const char *audience,
                                   int64_t now)
{
    struct peer_bytes text = peer_v4_open(key, token, length);
    if (text.bytes == NULL) {
        return text;
    }
    cJSON *object = cJSON_ParseWithLength((const char *)text.bytes, text.length);
    bool hold = holds(cjson_text(object, "exp"), cjson_text(object, "nbf"), cjson_text(object, "aud"), audience, now);
    cJSON_Delete(object);
    return admitted(text, hold);
}

size_t peer_jansson_read(const uint8_t *text, size_t length)
{
    json_t *object = json_loadb((const char *)text, length, 0, NULL);
    size_t members = json_object_size(object);
    json_decref(object);
    return members;
}

size_t peer_cjson_read(const uint8_t *text, size_t length)
{
    cJSON *object = cJSON_ParseWithLength((const char *)text, length);
    size_t members = cJSON_IsObject(object) ? (size_t)cJSON_GetArraySize(object) : 0;
    cJSON_Delete(object);
    return members;
}

const char *peer_jansson_version(void)
{
    return jansson_version_str();
}

const char *peer_cjson_version(void)
{
    return cJSON_Version();
}
