/* Calls of the library that standard input lists, as tests/library/calls.c reads them, each again and again: its first
   growth of memory is refused, then its second and so on, until a call has none that is refused. Each has status 4, no
   text, and rooms that are as they were, or answers as with ample memory. It writes how many were refused. */
#include "x10clock.h"
#include <errno.h>
#include <stdio.h>
#include <stdlib.h>
#include <string.h>

enum { ROOM = 1 << 16, MARK = 0xa5, MEMORY = 4 };

struct text {
    uint8_t *bytes;
    size_t length;
};

struct told {
    uint8_t status;
    struct x10clock_lengths lengths;
};

extern void *__libc_malloc(size_t);
extern void *__libc_realloc(void *, size_t);

static long growths, refused_at;

static int is_refused(void) {
    if (!refused_at || ++growths != refused_at) return 0;
    errno = ENOMEM;
    return 1;
}

void *malloc(size_t n) { return is_refused() ? NULL : __libc_malloc(n); }
void *realloc(void *p, size_t n) { return is_refused() ? NULL : __libc_realloc(p, n); }

static uint8_t ample[3][ROOM], rooms[3][ROOM];

static void fail(const char *why) {
    fprintf(stderr, "refused: %s\n", why);
    exit(9);
}

static int read_text(struct text *text) {
    uint8_t size[4];
    if (fread(size, 1, 4, stdin) != 4) return 0;
    text->length = size[0] | size[1] << 8 | size[2] << 16 | (size_t)size[3] << 24;
    text->bytes = malloc(text->length + 1);
    if (!text->bytes || fread(text->bytes, 1, text->length, stdin) != text->length) fail("a call is cut off");
    return 1;
}

/* The call whose growth of this number is refused, or none for 0. */
static struct told call(const struct text given[3], uint8_t into[3][ROOM], long at) {
    struct told told;
    memset(&told, MARK, sizeof told);
    memset(into, MARK, 3 * sizeof into[0]);
    growths = 0, refused_at = at;
    told.status = x10clock_call(given[0].bytes, given[0].length, given[1].bytes, given[1].length, given[2].bytes,
                                given[2].length, into[0], ROOM, into[1], ROOM, into[2], ROOM, &told.lengths);
    refused_at = 0;
    return told;
}

static int is_untouched(const struct told *told) {
    if (told->lengths.out || told->lengths.err || told->lengths.log) return 0;
    for (int i = 0; i < 3; i++)
        for (size_t k = 0; k < ROOM; k++)
            if (rooms[i][k] != MARK) return 0;
    return 1;
}

static long refuse_all(const struct text given[3]) {
    struct told whole = call(given, ample, 0);
    for (long at = 1;; at++) {
        struct told told = call(given, rooms, at);
        if (growths < at) return at - 1;
        int is_same = told.status == whole.status && !memcmp(&told.lengths, &whole.lengths, sizeof told.lengths) &&
                      !memcmp(rooms, ample, sizeof rooms);
        if (!is_same && !(told.status == MEMORY && is_untouched(&told))) fail("another answer");
    }
}

int main(void) {
    struct text given[3];
    long count = 0;
    while (read_text(&given[0]) && read_text(&given[1]) && read_text(&given[2])) count += refuse_all(given);
    printf("%ld\n", count);
    return 0;
}
