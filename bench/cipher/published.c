/* The published routine ("Correction to XTEA", 1998) in C, for 2 words or more: the benchmark's yardstick.
   It is compiled twice, with counters of 32 bits and of the width of a size: which one gcc makes faster depends
   on the number of words, so that the benchmark takes the faster. */
#include <stddef.h>
#include <stdint.h>

#define D 0x9E3779B9u
#define MIX (((z >> 5 ^ y << 2) + (y >> 3 ^ z << 4)) ^ ((sum ^ y) + (key[(p & 3) ^ e] ^ z)))

#define PUBLISHED(COUNT, ENCIPHER, DECIPHER)                                                                           \
    void ENCIPHER(uint32_t *v, COUNT n, const uint32_t key[4])                                                         \
    {                                                                                                                  \
        uint32_t y, z = v[n - 1], sum = 0, e;                                                                          \
        COUNT p, rounds = 6 + 52 / n;                                                                                  \
        do {                                                                                                           \
            sum += D;                                                                                                  \
            e = sum >> 2 & 3;                                                                                          \
            for (p = 0; p < n - 1; p++) {                                                                              \
                y = v[p + 1];                                                                                          \
                z = v[p] += MIX;                                                                                       \
            }                                                                                                          \
            y = v[0];                                                                                                  \
            z = v[n - 1] += MIX;                                                                                       \
        } while (--rounds);                                                                                            \
    }                                                                                                                  \
    void DECIPHER(uint32_t *v, COUNT n, const uint32_t key[4])                                                         \
    {                                                                                                                  \
        uint32_t y = v[0], z, sum, e;                                                                                  \
        COUNT p, rounds = 6 + 52 / n;                                                                                  \
        sum = rounds * D;                                                                                              \
        do {                                                                                                           \
            e = sum >> 2 & 3;                                                                                          \
            for (p = n - 1; p > 0; p--) {                                                                              \
                z = v[p - 1];                                                                                          \
                y = v[p] -= MIX;                                                                                       \
            }                                                                                                          \
            z = v[n - 1];                                                                                              \
            y = v[0] -= MIX;                                                                                           \
            sum -= D;                                                                                                  \
        } while (--rounds);                                                                                            \
    }

PUBLISHED(uint32_t, published_encipher_u32, published_decipher_u32)
PUBLISHED(size_t, published_encipher_size, published_decipher_size)
