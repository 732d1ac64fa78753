/* The yardstick of bench/gen: writes the log of given values of `nt gen` in one plain loop, through a buffer of the
 * C library, and prints the same line. */
#include <inttypes.h>
#include <stdint.h>
#include <stdio.h>
#include <stdlib.h>

static uint64_t written;

static void put(FILE *file, const uint8_t *bytes, size_t count) {
    written += fwrite(bytes, 1, count, file);
}

static unsigned least(uint64_t number) {
    unsigned count = 1;
    while (count < 8 && number >> (8 * count))
        count++;
    return count;
}

static uint8_t *spell(uint8_t *at, uint64_t number, unsigned count) {
    for (unsigned i = 0; i < count; i++)
        *at++ = (uint8_t)(number >> (8 * i));
    return at;
}

static uint32_t turned(uint32_t word, unsigned by) { return word >> by | word << ((32 - by) & 31); }

static uint32_t output(uint64_t state) {
    return turned((uint32_t)(((state >> 18) ^ state) >> 27), (unsigned)(state >> 59));
}

/* Half a seed: two words of the generator that spreads a number. */
static uint64_t half(uint64_t *state) {
    uint64_t words[2];
    for (int i = 0; i < 2; i++) {
        *state = *state * 0x5851F42D4C957F2D + 0xA17654E46FBE17F3;
        words[i] = output(*state);
    }
    return words[0] | words[1] << 32;
}

int main(int count, char **words) {
    static const uint8_t begin[] = "WPILOG\0\1\0\0\0\0"
                                   "\0\0\x19\0"
                                   "\0\1\0\0\0\3\0\0\0gen\5\0\0\0int64\0\0\0";
    if (count != 4)
        return 2;
    uint64_t seed = strtoull(words[1], NULL, 10), values = strtoull(words[2], NULL, 10);
    FILE *file = fopen(words[3], "wb");
    if (!file)
        return 4;
    uint64_t state = half(&seed), increment = half(&seed) | 1;
    state = (state + increment) * 6364136223846793005 + increment;
    put(file, begin, sizeof begin);
    for (uint64_t time = 1; time <= values; time++) {
        uint8_t record[24], *at = record;
        unsigned size = least(time);
        *at++ = (uint8_t)(16 * (size - 1));
        *at++ = 1;
        *at++ = 8;
        at = spell(at, time, size);
        at = spell(at, output(state), 8);
        state = state * 6364136223846793005 + increment;
        put(file, record, (size_t)(at - record));
    }
    uint8_t record[24], *at = record;
    unsigned size = least(values + 1);
    *at++ = (uint8_t)(16 * (size - 1));
    *at++ = 0;
    *at++ = 5;
    at = spell(at, values + 1, size);
    *at++ = 1;
    at = spell(at, 1, 4);
    put(file, record, (size_t)(at - record));
    if (fclose(file) != 0)
        return 4;
    printf("items %" PRIu64 " bytes %" PRIu64 "\n", values + 2, written);
    return 0;
}
