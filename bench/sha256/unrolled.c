/* SHA-256 in plain C, to compare the speed with: no intrinsics, no assembly, the rounds written out.
   Hashes COUNT messages of SIZE bytes, at most 8 KiB, each but the first beginning with the hash of the one before, and prints the last hash. */
#include <stdint.h>
#include <stdio.h>
#include <stdlib.h>
#include <string.h>

#include "../sha256.h"

int main(int argc, char **argv)
{
    static uint8_t message[8192];
    uint8_t digest[32] = { 0 };
    unsigned long long count = argc > 1 ? strtoull(argv[1], NULL, 10) : 16;
    size_t size = argc > 2 ? strtoull(argv[2], NULL, 10) : sizeof message;
    memset(message, 97, sizeof message);
    for (unsigned long long i = 0; i < count; i++) {
        struct sha256 s;
        sha256_start(&s);
        sha256_update(&s, message, size);
        sha256_finish(&s, digest);
        memcpy(message, digest, sizeof digest);
    }
    for (int i = 0; i < 32; i++)
        printf("%02x", digest[i]);
    puts("");
    return 0;
}
