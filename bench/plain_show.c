/* The yardstick of bench/show: reads a log in one plain loop, and prints what `nt show` prints of it, by the C
 * library's buffered output. */
#include "plain_log.h"
#include <inttypes.h>

/* A text as a field: escaped, and `-` where it is empty. */
static void print_field(const struct text *text) {
    if (text->size == 0)
        putchar('-');
    if (text->size == 1 && text->bytes[0] == '-') {
        fputs("%2D", stdout);
        return;
    }
    for (uint64_t i = 0; i < text->size; i++) {
        uint8_t byte = text->bytes[i];
        if (byte <= ' ' || byte >= 127 || byte == '%' || byte == ',')
            printf("%%%02X", byte);
        else
            putchar(byte);
    }
}

static void print_item(size_t at, const struct item *item) {
    printf("@%zu %c %" PRIu64 " %" PRIu64, at, item->letter, item->time, item->id);
    if (item->letter == 'D')
        printf(" i64:%" PRId64, (int64_t)item->value);
    if (item->letter == 'S') {
        const struct text *texts[] = {&item->name, &item->type, &item->metadata};
        for (int i = 0; i < 3; i++) {
            putchar(' ');
            print_field(texts[i]);
        }
    }
    putchar('\n');
}

static int show(const uint8_t *bytes, size_t size) {
    const uint8_t *left = bytes, *end = bytes + size;
    const char *kind = take_header(&left, end);
    if (kind)
        return fault(kind, 0);
    while (left != end) {
        size_t at = (size_t)(left - bytes);
        struct record record;
        struct item item;
        if (!take_record(&left, end, &record))
            return fault("Truncated", at);
        if (!take_item(&record, &item))
            return fault("NotRead", at);
        print_item(at, &item);
    }
    return 0;
}

int main(int count, char **words) { return run(count, words, show); }
