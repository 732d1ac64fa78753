/* What the yardsticks of bench/frames and bench/desk share: whole numbers of MessagePack, read by every width. */
#include <stddef.h>
#include <stdint.h>

/* A number of this many bytes, the greatest first. */
static uint64_t number(const uint8_t *bytes, size_t width) {
    uint64_t n = 0;
    for (size_t i = 0; i < width; i++)
        n = n << 8 | bytes[i];
    return n;
}

/* A whole number from -2^63 to 2^64 - 1: its 64 bits, and whether it is below 0. */
struct whole {
    uint64_t bits;
    int is_negative;
};

/* Takes a whole number from the front of what is left, if it is there. */
static int take_whole(const uint8_t **left, const uint8_t *end, struct whole *whole) {
    if (*left == end)
        return 0;
    uint8_t first = *(*left)++;
    if (first < 0x80 || first >= 0xe0) {
        *whole = (struct whole){(uint64_t)(int8_t)first, first >= 0xe0};
        return 1;
    }
    if (first < 0xcc || first > 0xd3)
        return 0;
    size_t width = (size_t)1 << (first & 3);
    if ((size_t)(end - *left) < width)
        return 0;
    uint64_t n = number(*left, width);
    *left += width;
    if (first >= 0xd0) {
        unsigned unused = 64 - 8 * (unsigned)width;
        n = (uint64_t)((int64_t)(n << unused) >> unused);
    }
    *whole = (struct whole){n, first >= 0xd0 && n >> 63};
    return 1;
}
