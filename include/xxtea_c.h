/*
 * The cipher XXTEA, as its authors published it: link with libxxtea_c.a, which `./staticlib xxtea_c` writes.
 *
 * Both functions are proved to meet their contract for every input (crates/xxtea_c/src/lib.rt): what they leave is what
 * the published definition says, and each undoes the other. They work in place on n words of 32 bits with a key of four
 * words, k0 to k3; the words are numbers, and how bytes become words is the caller's matter (the tag takes the low byte
 * first). From 2 to 1,024 words are taken.
 *
 * What a caller owes: words points to n words, is not null, also where n is 0, and nobody else touches them until the
 * call returns. A call needs at most XXTEA_C_STACK_BYTES of stack (measured), allocates nothing, keeps nothing and calls
 * no other function. The library is built for x86-64 and System V calls.
 */
#ifndef XXTEA_C_H
#define XXTEA_C_H

#include <stddef.h>
#include <stdint.h>

#ifdef __cplusplus
extern "C" {
#endif

#define XXTEA_C_STACK_BYTES 128

enum {
    XXTEA_C_DONE = 0,
    XXTEA_C_WORD_COUNT = 17 /* fewer than 2 words or more than 1,024; no word is changed */
};

/* Each returns 0 or 17. */
uint8_t xxtea_c_encipher(uint32_t *words, size_t n, uint32_t k0, uint32_t k1, uint32_t k2, uint32_t k3);
uint8_t xxtea_c_decipher(uint32_t *words, size_t n, uint32_t k0, uint32_t k1, uint32_t k2, uint32_t k3);

#ifdef __cplusplus
}
#endif

#endif
