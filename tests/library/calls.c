/* Calls of the library that standard input lists, each with rooms that are too small first, and then with as much as
   it wants. A call is three lengths (32 bits, least byte first) and so many bytes: words, program and input. What is
   written for it is a status (a byte), three lengths (64 bits), and the texts. With the word `deep` all calls are made
   on a thread whose stack has 512 KB. */
#include "x10clock.h"
#include <pthread.h>
#include <stdio.h>
#include <stdlib.h>
#include <string.h>

enum { SMALL = 40, MARK = 0xa5, STACK = 512 * 1024 };

struct text {
    uint8_t *bytes;
    size_t length;
};

static void fail(const char *why) {
    fprintf(stderr, "calls: %s\n", why);
    exit(9);
}

/* No pointer is null, also of an empty text. */
static uint8_t *room_of(size_t length) {
    uint8_t *room = malloc(length + 1);
    if (!room) fail("no memory");
    memset(room, MARK, length + 1);
    return room;
}

static int read_text(struct text *text) {
    uint8_t size[4];
    if (fread(size, 1, 4, stdin) != 4) return 0;
    text->length = size[0] | size[1] << 8 | size[2] << 16 | (size_t)size[3] << 24;
    text->bytes = room_of(text->length);
    if (fread(text->bytes, 1, text->length, stdin) != text->length) fail("a call is cut off");
    return 1;
}

static uint8_t call(const struct text given[3], struct text rooms[3], size_t lengths[3]) {
    struct x10clock_lengths told = {99, 99, 99};
    uint8_t status = x10clock_call(given[0].bytes, given[0].length, given[1].bytes, given[1].length, given[2].bytes,
                                   given[2].length, rooms[0].bytes, rooms[0].length, rooms[1].bytes, rooms[1].length,
                                   rooms[2].bytes, rooms[2].length, &told);
    lengths[0] = told.out, lengths[1] = told.err, lengths[2] = told.log;
    return status;
}

/* The front of a text is in its room, and nothing behind it is changed, nor behind the room. */
static void compare(const struct text *small, const struct text *whole) {
    size_t front = whole->length < small->length ? whole->length : small->length;
    if (memcmp(small->bytes, whole->bytes, front)) fail("a room hasn't the front of its text");
    for (size_t i = front; i <= small->length; i++)
        if (small->bytes[i] != MARK) fail("a room is changed behind its text");
}

static void answer(const struct text given[3]) {
    struct text small[3], whole[3];
    size_t wanted[3], lengths[3];
    for (int i = 0; i < 3; i++) small[i] = (struct text){room_of(SMALL), SMALL};
    uint8_t first = call(given, small, wanted);
    for (int i = 0; i < 3; i++) whole[i] = (struct text){room_of(wanted[i]), wanted[i]};
    uint8_t status = call(given, whole, lengths);
    if (first != status || memcmp(wanted, lengths, sizeof wanted)) fail("two calls differ");
    putchar(status);
    for (int i = 0; i < 3; i++)
        for (int bit = 0; bit < 64; bit += 8) putchar(lengths[i] >> bit & 0xff);
    for (int i = 0; i < 3; i++) {
        compare(&small[i], &whole[i]);
        fwrite(whole[i].bytes, 1, whole[i].length, stdout);
        free(small[i].bytes);
        free(whole[i].bytes);
    }
}

static void *answer_all(void *unused) {
    struct text given[3];
    while (read_text(&given[0]) && read_text(&given[1]) && read_text(&given[2])) {
        answer(given);
        for (int i = 0; i < 3; i++) free(given[i].bytes);
    }
    return unused;
}

int main(int argc, char **argv) {
    if (argc < 2 || strcmp(argv[1], "deep")) {
        answer_all(NULL);
        return 0;
    }
    pthread_attr_t how;
    pthread_t thread;
    if (pthread_attr_init(&how) || pthread_attr_setstacksize(&how, STACK)) fail("no such stack");
    if (pthread_create(&thread, &how, answer_all, NULL)) fail("no thread");
    pthread_join(thread, NULL);
    return 0;
}
