/* Sets dialnorm of a frame: the frame comes on standard input, the new one goes to standard output. Argument: the level, 1 to 31. */
#include "eac3.h"
#include "eac3_names.h"
#include <stdio.h>
#include <stdlib.h>

static uint8_t frame[EAC3_BYTES];
static uint8_t names[EAC3_RECORDS];
static int8_t blocks[EAC3_RECORDS];
static int16_t indexes[EAC3_RECORDS];
static uint16_t firsts[EAC3_RECORDS];
static uint16_t widths[EAC3_RECORDS];
static uint32_t values[EAC3_RECORDS];
static uint64_t answer[EAC3_ANSWER];

static int refused(void)
{
    fprintf(stderr, "refused %u at bit %u after %u records\n", (unsigned)answer[EAC3_NUMBER], (unsigned)answer[EAC3_PLACE],
            (unsigned)answer[EAC3_FIELDS]);
    return 1;
}

int main(int count, char **arguments)
{
    if (count != 2) {
        fprintf(stderr, "usage: dialnorm LEVEL < FRAME > NEW-FRAME\n");
        return 2;
    }
    size_t n = fread(frame, 1, sizeof frame, stdin);
    if (eac3_parse(frame, n, names, EAC3_RECORDS, blocks, EAC3_RECORDS, indexes, EAC3_RECORDS, firsts, EAC3_RECORDS,
                   widths, EAC3_RECORDS, values, EAC3_RECORDS, answer) != 0)
        return refused();
    size_t place = 0;
    while (place < answer[EAC3_FIELDS] && names[place] != EAC3_NAME_DIALNORM)
        place++;
    if (eac3_set_word(frame, n, names, EAC3_RECORDS, blocks, EAC3_RECORDS, indexes, EAC3_RECORDS, firsts, EAC3_RECORDS,
                      widths, EAC3_RECORDS, values, EAC3_RECORDS, place, (uint32_t)strtoul(arguments[1], NULL, 10), answer) != 0)
        return refused();
    return fwrite(frame, 1, answer[EAC3_FRAME_BYTES], stdout) == answer[EAC3_FRAME_BYTES] ? 0 : 1;
}
