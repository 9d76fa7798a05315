/* Reads one frame from standard input and says where its blocks begin, how many bits their slots take, and which loudness words it has; then how the settop
 * entry answers to it, and to the same frame where it announces two bytes more than that entry takes. */
#include "eac3.h"
#include "eac3_names.h"
#include <stdio.h>

static uint8_t data[EAC3_BYTES];
static uint8_t names[EAC3_RECORDS];
static int8_t blocks[EAC3_RECORDS];
static int16_t indexes[EAC3_RECORDS];
static uint16_t firsts[EAC3_RECORDS];
static uint16_t widths[EAC3_RECORDS];
static uint32_t values[EAC3_RECORDS];

static const char *loudness(uint8_t name)
{
    switch (name) {
    case EAC3_NAME_DIALNORM: return "dialnorm";
    case EAC3_NAME_DIALNORM2: return "dialnorm2";
    case EAC3_NAME_COMPR: return "compr";
    case EAC3_NAME_COMPR2: return "compr2";
    case EAC3_NAME_DYNRNG: return "dynrng";
    case EAC3_NAME_DYNRNG2: return "dynrng2";
    default: return NULL;
    }
}

/* How the settop entry answers. */
static void settop(const char *what, size_t n)
{
    uint64_t answer[EAC3_ANSWER];
    uint8_t number = eac3_parse_settop(data, n, names, EAC3_SETTOP_RECORDS, blocks, EAC3_SETTOP_RECORDS, indexes, EAC3_SETTOP_RECORDS,
                                       firsts, EAC3_SETTOP_RECORDS, widths, EAC3_SETTOP_RECORDS, values, EAC3_SETTOP_RECORDS, answer);
    if (number != 0)
        printf("settop, %s: refused %u at bit %u after %u records\n", what, number, (unsigned)answer[EAC3_PLACE], (unsigned)answer[EAC3_FIELDS]);
    else
        printf("settop, %s: accepted, %u records\n", what, (unsigned)answer[EAC3_FIELDS]);
}

int main(void)
{
    uint64_t answer[EAC3_ANSWER];
    size_t n = fread(data, 1, sizeof data, stdin);
    uint8_t number = eac3_parse(data, n, names, EAC3_RECORDS, blocks, EAC3_RECORDS, indexes, EAC3_RECORDS,
                                firsts, EAC3_RECORDS, widths, EAC3_RECORDS, values, EAC3_RECORDS, answer);
    if (number != 0) {
        printf("refused %u at bit %u after %u records\n", number, (unsigned)answer[EAC3_PLACE], (unsigned)answer[EAC3_FIELDS]);
        return 1;
    }
    printf("%u bytes, %u blocks, %u records\n", (unsigned)answer[EAC3_FRAME_BYTES], (unsigned)answer[EAC3_NUMBLKS],
           (unsigned)answer[EAC3_FIELDS]);
    for (unsigned b = 0; b < answer[EAC3_NUMBLKS]; b++) {
        printf("block %u begins at bit %u, its mantissas at bit %u; bits by slot", b, (unsigned)answer[EAC3_BLOCK_STARTS + b],
               (unsigned)answer[EAC3_MANTISSA_STARTS + b]);
        for (unsigned slot = 0; slot < 7; slot++)
            printf(" %u", (unsigned)answer[EAC3_SLOT_BITS + 7 * b + slot]);
        printf("\n");
    }
    printf("audio ends at bit %u\n", (unsigned)answer[EAC3_AUDIO_END]);
    for (size_t i = 0; i < answer[EAC3_FIELDS]; i++)
        if (loudness(names[i]) != NULL)
            printf("%s %u in %u bits from bit %u\n", loudness(names[i]), (unsigned)values[i], widths[i], firsts[i]);
    settop("the frame", n);
    /* frmsiz 768 announces 1,538 bytes */
    data[2] = (data[2] & 0xf8) | 3;
    data[3] = 0;
    settop("two bytes more", n);
    return 0;
}
