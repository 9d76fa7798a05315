/* Lists the frames of a programme on standard input, back to back, and tells of each where its records stand in the list and how many bits
 * they cover; then which bytes hold the first frame of each type and number. */
#include "eac3.h"
#include <stdio.h>

/* Bytes of a programme, and records of its list. */
#define ROOM (1 << 20)

static uint8_t data[ROOM];
static uint8_t names[ROOM];
static int8_t blocks[ROOM];
static int16_t indexes[ROOM];
static uint16_t firsts[ROOM];
static uint16_t widths[ROOM];
static uint32_t values[ROOM];
static uint32_t ordinals[ROOM];

/* The first frame of a type and a number; all frames are in one buffer here. */
static void pick(size_t n, uint8_t strmtyp, uint8_t substreamid)
{
    uint64_t answer[EAC3_PICKED];
    uint8_t number = eac3_pick(data, n, data, n, names, EAC3_RECORDS, blocks, EAC3_RECORDS, indexes, EAC3_RECORDS, firsts, EAC3_RECORDS,
                               widths, EAC3_RECORDS, values, EAC3_RECORDS, ordinals, EAC3_RECORDS, strmtyp, substreamid, answer);
    if (number == 0)
        printf("type %u, number %u: %u bytes from byte %u on\n", strmtyp, substreamid, (unsigned)answer[EAC3_PART_BYTES], (unsigned)answer[EAC3_PART]);
}

int main(void)
{
    uint64_t answer[EAC3_PROGRAMME];
    size_t n = fread(data, 1, sizeof data, stdin);
    uint8_t number = eac3_programme(data, n, names, ROOM, blocks, ROOM, indexes, ROOM, firsts, ROOM,
                                    widths, ROOM, values, ROOM, ordinals, ROOM, answer);
    size_t first = 0;
    for (size_t i = 0; i < answer[EAC3_FIELDS]; i++)
        if (i + 1 == answer[EAC3_FIELDS] || ordinals[i + 1] != ordinals[i]) {
            printf("frame %u: records %u to %u, %u bits\n", (unsigned)ordinals[i], (unsigned)first, (unsigned)i, (unsigned)(firsts[i] + widths[i]));
            first = i + 1;
        }
    if (number != 0)
        printf("frame %u refused %u at bit %u, %u records in all\n", (unsigned)answer[EAC3_FRAMES], number, (unsigned)answer[EAC3_PLACE],
               (unsigned)answer[EAC3_FIELDS]);
    else
        printf("%u frames, %u records\n", (unsigned)answer[EAC3_FRAMES], (unsigned)answer[EAC3_FIELDS]);
    for (uint8_t strmtyp = 0; strmtyp <= 2; strmtyp++)
        for (uint8_t substreamid = 0; substreamid <= 7; substreamid++)
            pick(n, strmtyp, substreamid);
    return 0;
}
