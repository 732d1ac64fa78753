/* The yardstick of bench/check: reads a log in one plain loop, and prints what `nt check` prints of it. */
#include "plain_log.h"

/* Where a value and its timestamp go, so that the compiler leaves the reading of them in. */
volatile uint64_t last_value, last_time;

static int check(const uint8_t *bytes, size_t size) {
    const uint8_t *left = bytes, *end = bytes + size;
    const char *kind = take_header(&left, end);
    size_t items = 0;
    if (kind)
        return fault(kind, 0);
    while (left != end) {
        size_t at = (size_t)(left - bytes);
        struct record record;
        struct item item;
        if (!take_record(&left, end, &record))
            return fault("Truncated", at);
        if (!take_item(&record, &item))
            return fault("NotRead", at);
        if (item.letter == 'D') {
            last_time = item.time;
            last_value = item.value;
        }
        items++;
    }
    printf("items %zu bytes %zu\n", items, size);
    return 0;
}

int main(int count, char **words) { return run(count, words, check); }
