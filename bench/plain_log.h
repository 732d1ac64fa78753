/* What both yardsticks, plain_check.c and plain_show.c, read a WPILOG data log of int64 entries with. They make
 * the tests of lengths and ids that `nt` makes; of the texts of a Start they test the type alone, and not that
 * they are UTF-8. */
#include <stdint.h>
#include <stdio.h>
#include <stdlib.h>
#include <string.h>
#include <sys/stat.h>

/* Which ids are live, a bit each. Pages that are never touched take no memory. */
static uint8_t live[1u << 29];

static int is_live(uint32_t id) { return live[id / 8] >> id % 8 & 1; }
static void start(uint32_t id) { live[id / 8] |= (uint8_t)(1u << id % 8); }
static void finish(uint32_t id) { live[id / 8] &= (uint8_t)~(1u << id % 8); }

static uint64_t number(const uint8_t *field, size_t length) {
    uint64_t n = 0;
    while (length > 0)
        n = n << 8 | field[--length];
    return n;
}

/* Moves a field of this length from the front of what is left into `field`, if it is there. */
static int take(const uint8_t **left, const uint8_t *end, size_t length, const uint8_t **field) {
    if ((size_t)(end - *left) < length)
        return 0;
    *field = *left;
    *left += length;
    return 1;
}

/* Takes a number of this length. */
static int take_number(const uint8_t **left, const uint8_t *end, size_t length, uint64_t *n) {
    const uint8_t *field;
    if (!take(left, end, length, &field))
        return 0;
    *n = number(field, length);
    return 1;
}

/* A string or a payload: a size, and as many bytes. */
struct text {
    const uint8_t *bytes;
    uint64_t size;
};

static int take_string(const uint8_t **left, const uint8_t *end, struct text *text) {
    return take_number(left, end, 4, &text->size) && take(left, end, text->size, &text->bytes);
}

/* "Records" */
struct record {
    int spare;
    uint64_t id, time;
    struct text payload;
};

static int take_record(const uint8_t **left, const uint8_t *end, struct record *record) {
    size_t widths = *(*left)++;
    record->spare = widths >= 128;
    return take_number(left, end, widths % 4 + 1, &record->id)
           && take_number(left, end, widths / 4 % 4 + 1, &record->payload.size)
           && take_number(left, end, widths / 16 % 8 + 1, &record->time)
           && take(left, end, record->payload.size, &record->payload.bytes);
}

/* What a record says: a Start (S), a value (D) or a Finish (F). */
struct item {
    char letter;
    uint64_t id, time, value;
    struct text name, type, metadata;
};

/* "Control Records": a Start of an int64 entry that is not live, or a Finish of one that is. */
static int take_control(const uint8_t *left, const uint8_t *end, struct item *item) {
    uint64_t kind;
    if (!take_number(&left, end, 1, &kind) || !take_number(&left, end, 4, &item->id))
        return 0;
    if (kind == 1) {
        if (left != end || !is_live((uint32_t)item->id))
            return 0;
        item->letter = 'F';
        finish((uint32_t)item->id);
        return 1;
    }
    if (kind != 0 || !take_string(&left, end, &item->name) || !take_string(&left, end, &item->type)
        || !take_string(&left, end, &item->metadata) || left != end)
        return 0;
    if (item->id == 0 || is_live((uint32_t)item->id) || item->type.size != 5
        || memcmp(item->type.bytes, "int64", 5) != 0)
        return 0;
    item->letter = 'S';
    start((uint32_t)item->id);
    return 1;
}

static int take_item(const struct record *record, struct item *item) {
    item->time = record->time;
    if (record->spare)
        return 0;
    if (record->id == 0)
        return take_control(record->payload.bytes, record->payload.bytes + record->payload.size, item);
    if (!is_live((uint32_t)record->id) || record->payload.size != 8)
        return 0;
    item->letter = 'D';
    item->id = record->id;
    item->value = number(record->payload.bytes, 8);
    return 1;
}

/* Takes the header, or tells the kind of the fault. */
static const char *take_header(const uint8_t **left, const uint8_t *end) {
    static const uint8_t header[12] = {'W', 'P', 'I', 'L', 'O', 'G', 0, 1, 0, 0, 0, 0};
    const uint8_t *field;
    if (!take(left, end, sizeof header, &field))
        return "Truncated";
    return memcmp(field, header, sizeof header) == 0 ? NULL : "NotRead";
}

static int fault(const char *kind, size_t at) {
    printf("fault %s at %zu\n", kind, at);
    return 1;
}

/* Reads the file that the one word names and answers what `print` does of its bytes: 0, or 1 where the log has a
 * fault. Else 2 for other words, 3 for want of memory, and 4 where the file or standard output failed. */
static int run(int count, char **words, int (*print)(const uint8_t *bytes, size_t size)) {
    if (count != 2)
        return 2;
    FILE *file = fopen(words[1], "rb");
    struct stat about;
    if (!file || fstat(fileno(file), &about) != 0)
        return 4;
    size_t size = (size_t)about.st_size;
    uint8_t *bytes = malloc(size + 1);
    if (!bytes)
        return 3;
    if (fread(bytes, 1, size, file) != size)
        return 4;
    int status = print(bytes, size);
    return fflush(stdout) == 0 ? status : 4;
}
