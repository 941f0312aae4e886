/* What the two halves of the driver share: secrets.c, whose head tells the calls, and secrets_of_keys.c. */
#ifndef SECRETS_H
#define SECRETS_H

#include "../bench/test_bench.h"

#include <stdbool.h>
#include <stddef.h>
#include <stdint.h>

/* How often each call is asked, with another key or another length each time. */
enum { ROUNDS = 11 };

/* The longest private key of RSA. */
enum { LONGEST_RSA_KEY = 1300 };

/* How long the base64url encoding of so many bytes is. */
size_t encoded(size_t length);

/* Whether a call was no failure. What it answers is made of secrets, and which it is has been public since it
   returned. */
bool done(uint64_t answer);

/* Another letter at a place of a text. */
void change_letter(uint8_t *text, size_t place);

/* The private keys of P-384: small, large, and of mixed bits. */
void private_key(uint8_t key[48], size_t i);

/* Reads a key of hexadecimal digits from standard input, and gives how many bytes it has. */
size_t read_rsa_key(uint8_t *key);

/* Marks the contents of the last six INTEGERs of a private key, d, p, q, dP, dQ and qInv, behind the version, n and e.
   How long each is stays defined. */
bool mark_rsa_numbers(uint8_t *key, size_t key_length);

/* How many rounds of a call of keys were right, or -1 where there is no such call. */
int ask_keys(const char *version, const char *call);

#endif
