/* The yardstick of bench/desk: reads lines in a plain loop, and parses those that are hexadecimal as value frames of
 * whole numbers. It answers nothing, keeps nothing and passes over the other lines. It prints how many lines and
 * values there were, and the sum of the values.
 *
 * A message is an array of four: an id of 64 bits with a sign, a timestamp from 0 to 2^63 - 1, the data type
 * number 2, and a whole number of 64 bits with a sign. */
#include "plain_msgpack.h"
#include <inttypes.h>
#include <stdio.h>
#include <stdlib.h>
#include <string.h>
#include <sys/types.h>

struct message {
    int64_t id, value;
    uint64_t time;
};

/* What was read so far. */
struct sums {
    uint64_t lines, values, sum;
};

/* What a lower-case hexadecimal digit is worth, or -1. */
static int digit(char c) {
    if (c >= '0' && c <= '9')
        return c - '0';
    return c >= 'a' && c <= 'f' ? c - 'a' + 10 : -1;
}

/* The bytes of pairs of digits between blanks. Answers how many there are, or -1. */
static ssize_t take_bytes(const char *text, size_t length, uint8_t *bytes) {
    ssize_t size = 0;
    for (size_t i = 0; i < length;) {
        if (text[i] == ' ' || text[i] == '\t') {
            i++;
            continue;
        }
        int high = digit(text[i]), low = i + 1 < length ? digit(text[i + 1]) : -1;
        if (high < 0 || low < 0)
            return -1;
        bytes[size++] = (uint8_t)(high << 4 | low);
        i += 2;
    }
    return size;
}

/* Takes a whole number of 64 bits with a sign from the front of what is left, if it is there. */
static int take_signed(const uint8_t **left, const uint8_t *end, int64_t *number) {
    struct whole whole;
    if (!take_whole(left, end, &whole) || (!whole.is_negative && whole.bits >> 63))
        return 0;
    *number = (int64_t)whole.bits;
    return 1;
}

/* Takes a message from the front of what is left, if it is there. */
static int take_message(const uint8_t **left, const uint8_t *end, struct message *message) {
    int64_t time, type;
    if (*left == end || *(*left)++ != 0x94)
        return 0;
    if (!take_signed(left, end, &message->id) || !take_signed(left, end, &time) || time < 0)
        return 0;
    if (!take_signed(left, end, &type) || type != 2 || !take_signed(left, end, &message->value))
        return 0;
    message->time = (uint64_t)time;
    return 1;
}

/* Reads a line without its line feed. The bytes have room for it. */
static void read_line(const char *line, size_t length, uint8_t *bytes, struct sums *sums) {
    sums->lines++;
    if (length < 4 || memcmp(line, "hex ", 4) != 0)
        return;
    ssize_t size = take_bytes(line + 4, length - 4, bytes);
    const uint8_t *left = bytes, *end = bytes + (size < 0 ? 0 : size);
    struct message message;
    while (left != end && take_message(&left, end, &message)) {
        sums->values++;
        sums->sum += (uint64_t)message.value;
    }
}

int main(void) {
    struct sums sums = {0, 0, 0};
    char *line = NULL;
    uint8_t *bytes = NULL;
    size_t room = 0, bytes_room = 0;
    ssize_t length;
    while ((length = getline(&line, &room, stdin)) > 0) {
        if (bytes_room < room) {
            bytes_room = room;
            bytes = realloc(bytes, bytes_room);
            if (!bytes)
                return 3;
        }
        read_line(line, (size_t)length - (line[length - 1] == '\n'), bytes, &sums);
    }
    printf("lines %" PRIu64 " values %" PRIu64 " sum %" PRIu64 "\n", sums.lines, sums.values, sums.sum);
    return fflush(stdout) == 0 ? 0 : 4;
}
