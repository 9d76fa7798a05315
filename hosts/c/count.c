/* Counts the frames of a capture on standard input, and the bytes that hold none: each search begins behind the frame before. */
#include "eac3.h"
#include <stdio.h>
#include <stdlib.h>

static uint8_t names[EAC3_RECORDS];
static int8_t blocks[EAC3_RECORDS];
static int16_t indexes[EAC3_RECORDS];
static uint16_t firsts[EAC3_RECORDS];
static uint16_t widths[EAC3_RECORDS];
static uint32_t values[EAC3_RECORDS];

/* All of standard input; the length goes to `bytes`. */
static uint8_t *input(size_t *bytes)
{
    size_t room = 1 << 16, n = 0, more;
    uint8_t *all = malloc(room);
    while (all != NULL && (more = fread(all + n, 1, room - n, stdin)) > 0) {
        n += more;
        if (n == room)
            all = realloc(all, room *= 2);
    }
    *bytes = n;
    return all;
}

int main(void)
{
    uint64_t answer[EAC3_FOUND];
    size_t bytes, start = 0, frames = 0, held = 0;
    uint8_t *capture = input(&bytes);
    if (capture == NULL) {
        fprintf(stderr, "no memory\n");
        return 1;
    }
    while (eac3_find(capture, bytes, names, EAC3_RECORDS, blocks, EAC3_RECORDS, indexes, EAC3_RECORDS, firsts, EAC3_RECORDS,
                     widths, EAC3_RECORDS, values, EAC3_RECORDS, start, SIZE_MAX, answer) == 0) {
        frames++;
        held += answer[EAC3_FRAME_BYTES];
        start = answer[EAC3_POSITION] + answer[EAC3_FRAME_BYTES];
    }
    free(capture);
    printf("%zu frames, %zu bytes passed over\n", frames, bytes - held);
    return 0;
}
