/* The letter table of ISO 8859-1, for C and C++. */
#ifndef BENCH_LETTERS_H
#define BENCH_LETTERS_H

#include <stdint.h>

/* Fills a table with the letter of each byte, 0 for a separator, as the built-in table has them. */
static inline void fill_letters(uint8_t letters[256]) {
    for (int b = 0; b < 256; b++) {
        letters[b] = 0;
        if ((b >= '0' && b <= '9') || (b >= 'a' && b <= 'z') || (b >= 0xDF && b != 0xF7)) letters[b] = (uint8_t)b;
        if ((b >= 'A' && b <= 'Z') || (b >= 0xC0 && b <= 0xDE && b != 0xD7)) letters[b] = (uint8_t)(b + 0x20);
    }
}

#endif
