/* Reads bytes and tests none of them, as fast as code of this compiler can: the limit for all code that looks at every byte
 * of a table.
 */
#include <stddef.h>
#include <stdint.h>

enum { LANES = 16, BLOCK = 8 * LANES };

void *memcpy(void *restrict to, const void *restrict from, size_t length);

uint8_t reads(const uint8_t *s, size_t length) {
    unsigned long long lanes[LANES] = {0}, all = 0;
    for (; length >= BLOCK; s += BLOCK, length -= BLOCK)
        for (size_t k = 0; k < LANES; k++) {
            unsigned long long word;
            memcpy(&word, s + 8 * k, 8);
            lanes[k] |= word;
        }
    for (size_t i = 0; i < length; i++) all |= s[i];
    for (size_t k = 0; k < LANES; k++) all |= lanes[k];
    return (uint8_t)(all != 0);
}
