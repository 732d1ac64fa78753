/* The yardstick of bench/frames: reads and writes value frames in a plain loop each, with the tests that `nt_frames`
 * makes of messages whose values are doubles in 64 bits, and prints what `codec_bench` prints of them.
 *
 * A message is an array of four: an id of 64 bits with a sign, a timestamp from 0 to 2^63 - 1, the data type
 * number 1, and a double. Numbers are read by every width, and written by the least. */
#include "plain_msgpack.h"
#include <inttypes.h>
#include <stdio.h>
#include <stdlib.h>
#include <string.h>

/* The frame of codec_bench: how many messages it has, and how many topics they go round. */
enum { MESSAGES = 3702, TOPICS = 300 };

/* The most bytes of a message. */
enum { LONGEST = 1 + 9 + 9 + 1 + 9 };

struct message {
    int64_t id;
    uint64_t time, bits;
};

static void *or_exit(void *memory) {
    if (!memory)
        exit(3);
    return memory;
}

/* ---- reading */

/* Takes a message from the front of what is left, if it is there. */
static int take_message(const uint8_t **left, const uint8_t *end, struct message *message) {
    struct whole id, time, type;
    if (*left == end || *(*left)++ != 0x94)
        return 0;
    if (!take_whole(left, end, &id) || (!id.is_negative && id.bits >> 63))
        return 0;
    if (!take_whole(left, end, &time) || time.is_negative || time.bits >> 63)
        return 0;
    if (!take_whole(left, end, &type) || type.is_negative || type.bits != 1)
        return 0;
    if (end - *left < 9 || *(*left)++ != 0xcb)
        return 0;
    *message = (struct message){(int64_t)id.bits, time.bits, number(*left, 8)};
    *left += 8;
    return 1;
}

/* The messages of a frame up to the first that isn't there, in a list that grows. */
struct messages {
    struct message *items;
    size_t length, room;
};

static __attribute__((noinline)) struct messages read_frame(const uint8_t *bytes, size_t size) {
    struct messages read = {NULL, 0, 0};
    const uint8_t *left = bytes, *end = bytes + size;
    struct message message;
    while (left != end && take_message(&left, end, &message)) {
        if (read.length == read.room) {
            read.room = read.room ? 2 * read.room : 4;
            read.items = or_exit(realloc(read.items, read.room * sizeof message));
        }
        read.items[read.length++] = message;
    }
    return read;
}

/* ---- writing */

/* Puts a first byte, and a number in so many bytes. */
static uint8_t *put(uint8_t *out, uint8_t first, uint64_t n, size_t width) {
    *out++ = first;
    for (size_t i = width; i > 0; i--)
        *out++ = (uint8_t)(n >> 8 * (i - 1));
    return out;
}

static uint8_t *put_unsigned(uint8_t *out, uint64_t n) {
    if (n < 0x80)
        return put(out, (uint8_t)n, 0, 0);
    if (n < 0x100)
        return put(out, 0xcc, n, 1);
    if (n < 0x10000)
        return put(out, 0xcd, n, 2);
    if (n < 0x100000000)
        return put(out, 0xce, n, 4);
    return put(out, 0xcf, n, 8);
}

static uint8_t *put_signed(uint8_t *out, int64_t n) {
    if (n >= 0)
        return put_unsigned(out, (uint64_t)n);
    if (n >= -0x20)
        return put(out, (uint8_t)n, 0, 0);
    if (n >= -0x80)
        return put(out, 0xd0, (uint64_t)n, 1);
    if (n >= -0x8000)
        return put(out, 0xd1, (uint64_t)n, 2);
    if (n >= -0x80000000LL)
        return put(out, 0xd2, (uint64_t)n, 4);
    return put(out, 0xd3, (uint64_t)n, 8);
}

/* A frame in a buffer that grows. */
struct frame {
    uint8_t *bytes;
    size_t size, room;
};

static __attribute__((noinline)) struct frame write_frame(const struct message *messages, size_t count) {
    struct frame frame = {NULL, 0, 0};
    for (size_t i = 0; i < count; i++) {
        if (frame.room - frame.size < LONGEST) {
            frame.room = 2 * frame.room + LONGEST;
            frame.bytes = or_exit(realloc(frame.bytes, frame.room));
        }
        uint8_t *out = frame.bytes + frame.size;
        *out++ = 0x94;
        out = put_signed(out, messages[i].id);
        out = put_unsigned(out, messages[i].time);
        out = put_unsigned(out, 1);
        out = put(out, 0xcb, messages[i].bits, 8);
        frame.size = (size_t)(out - frame.bytes);
    }
    return frame;
}

/* ---- what codec_bench does */

static void read_often(const struct message *messages, uint64_t times) {
    struct frame frame = write_frame(messages, MESSAGES);
    uint64_t count = 0, checksum = 0;
    for (uint64_t i = 0; i < times; i++) {
        struct messages read = read_frame(frame.bytes, frame.size);
        for (size_t j = 0; j < read.length; j++) {
            count++;
            checksum += (uint64_t)read.items[j].id + read.items[j].time + read.items[j].bits;
        }
        free(read.items);
    }
    free(frame.bytes);
    printf("read messages %" PRIu64 " checksum %" PRIu64 "\n", count, checksum);
}

static void write_often(const struct message *messages, uint64_t times) {
    uint64_t bytes = 0;
    for (uint64_t i = 0; i < times; i++) {
        struct frame frame = write_frame(messages, MESSAGES);
        bytes += frame.size;
        free(frame.bytes);
    }
    printf("write bytes %" PRIu64 "\n", bytes);
}

int main(int count, char **words) {
    static struct message messages[MESSAGES];
    for (uint64_t i = 0; i < MESSAGES; i++)
        messages[i] = (struct message){(int64_t)(i % TOPICS), 1000000 + 20 * i, i * 0x9e3779b97f4a7c15};
    if (count != 3)
        return 2;
    uint64_t times = strtoull(words[2], NULL, 10);
    if (strcmp(words[1], "read") == 0)
        read_often(messages, times);
    else if (strcmp(words[1], "write") == 0)
        write_often(messages, times);
    else
        return 2;
    return fflush(stdout) == 0 ? 0 : 4;
}
