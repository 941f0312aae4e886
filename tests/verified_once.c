/* Signs or verifies some texts, so that the instructions of it can be counted. verified_once.sh counts.

     verified_once SCHEME CALL REPS LENGTH

   SCHEME is ed25519 or p384. A key pair is made, and a text of LENGTH bytes is signed under it, whatever the CALL is.
   Then, REPS times, the text is signed (sign), its signature is verified (verify), or its HMAC-SHA384 is made (hash), in
   which the text is hashed once. The status is 0 where each call answered as it should. */
#include "../bench/test_bench.h"

#include <stdbool.h>
#include <stdlib.h>
#include <string.h>

enum { LONGEST = 1 << 20 };

static uint8_t private_key[64], public_key[49], signature[96], code[48], text[LONGEST];

static bool makes_ed25519(void) {
    memset(private_key, 0x70, 32);
    if (paseto_bench_ed25519_public_key(private_key, 32, public_key, 32, 1) == PASETO_BENCH_FAILED) return false;
    memcpy(private_key + 32, public_key, 32);
    return true;
}

static bool signs(bool is_p384, size_t length) {
    uint64_t answer = is_p384 ? paseto_bench_p384_sign(private_key, 48, text, length, signature, 96, 1)
                              : paseto_bench_ed25519_sign(private_key, 64, text, length, signature, 64, 1);
    return answer != PASETO_BENCH_FAILED;
}

static bool verifies(bool is_p384, size_t length) {
    uint64_t answer = is_p384 ? paseto_bench_p384_verify(public_key, 49, text, length, signature, 96, 1)
                              : paseto_bench_ed25519_verify(public_key, 32, text, length, signature, 64, 1);
    return answer != PASETO_BENCH_FAILED;
}

static bool hashes(size_t length) {
    return paseto_bench_hmac_sha384(private_key, 48, text, length, code, 48, 1) != PASETO_BENCH_FAILED;
}

int main(int argc, char **argv) {
    if (argc != 5) return 2;
    bool is_p384 = strcmp(argv[1], "p384") == 0;
    bool is_signing = strcmp(argv[2], "sign") == 0, is_hashing = strcmp(argv[2], "hash") == 0;
    unsigned long reps = strtoul(argv[3], NULL, 10), length = strtoul(argv[4], NULL, 10);
    if (length > LONGEST) return 2;
    memset(text, 'a', sizeof text);
    if (is_p384) memset(private_key, 0x3c, 48);
    bool right = is_p384 ? paseto_bench_p384_public_key(private_key, 48, public_key, 49, 1) != PASETO_BENCH_FAILED
                         : makes_ed25519();
    right = right && signs(is_p384, length);
    for (unsigned long rep = 0; right && rep < reps; rep++) {
        right = is_signing ? signs(is_p384, length) : is_hashing ? hashes(length) : verifies(is_p384, length);
    }
    return right ? 0 : 1;
}
