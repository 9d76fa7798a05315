/* Reads one frame from standard input and tells the lowest and the highest factor of its gain words. */
#include "eac3.h"
#include <stdio.h>

static uint8_t data[EAC3_BYTES];
static uint8_t names[EAC3_RECORDS];
static int8_t blocks[EAC3_RECORDS];
static int16_t indexes[EAC3_RECORDS];
static uint16_t firsts[EAC3_RECORDS];
static uint16_t widths[EAC3_RECORDS];
static uint32_t values[EAC3_RECORDS];

int main(void)
{
    static const char *words[4] = {"dynrng", "compr", "dynrng2", "compr2"};
    double factors[EAC3_FACTORS];
    uint64_t answer[EAC3_GAINS];
    size_t n = fread(data, 1, sizeof data, stdin);
    uint8_t number = eac3_gain_range(data, n, names, EAC3_RECORDS, blocks, EAC3_RECORDS, indexes, EAC3_RECORDS, firsts, EAC3_RECORDS,
                                     widths, EAC3_RECORDS, values, EAC3_RECORDS, factors, answer);
    if (number != 0) {
        printf("refused %u at bit %u after %u records\n", number, (unsigned)answer[EAC3_PLACE], (unsigned)answer[EAC3_FIELDS]);
        return 1;
    }
    for (int k = 0; k < 4; k++) {
        if (answer[EAC3_DYNRNG_SENT + 2 * k])
            printf("%s: %u words, %.12f to %.12f\n", words[k], (unsigned)answer[EAC3_DYNRNG_WORDS + 2 * k], factors[2 * k], factors[2 * k + 1]);
        else
            printf("%s: no word sent\n", words[k]);
    }
    return 0;
}
