/* Puts the text of its argument into auxbits of the frame on standard input, reads it back, and writes the new frame to standard output. */
#include "eac3.h"
#include <stdio.h>
#include <string.h>

#define ROOM EAC3_RECORDS

static uint8_t frame[EAC3_BYTES];
static uint8_t names[ROOM];
static int8_t blocks[ROOM];
static int16_t indexes[ROOM];
static uint16_t firsts[ROOM];
static uint16_t widths[ROOM];
static uint32_t values[ROOM];
static uint32_t ordinals[ROOM];

int main(int count, char **words)
{
    uint8_t back[EAC3_PAYLOAD_BYTES];
    uint64_t answer[EAC3_PAYLOAD];
    if (count != 2)
        return 2;
    size_t n = fread(frame, 1, sizeof frame, stdin);
    size_t size = strlen(words[1]);
    uint8_t number = eac3_set_payload(frame, n, names, ROOM, blocks, ROOM, indexes, ROOM, firsts, ROOM, widths, ROOM, values, ROOM,
                                      ordinals, ROOM, (const uint8_t *)words[1], size, (uint32_t)(8 * size), answer);
    if (number == 0)
        number = eac3_payload(frame, n, names, ROOM, blocks, ROOM, indexes, ROOM, firsts, ROOM, widths, ROOM, values, ROOM,
                              ordinals, ROOM, back, sizeof back, answer);
    if (number != 0) {
        fprintf(stderr, "refused %u at bit %u\n", number, (unsigned)answer[EAC3_PLACE]);
        return 1;
    }
    fprintf(stderr, "%.*s\n", (int)(answer[EAC3_PAYLOAD_BITS] / 8), (const char *)back);
    return fwrite(frame, 1, n, stdout) != n;
}
