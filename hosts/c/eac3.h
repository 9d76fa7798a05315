/* The E-AC-3 syncframe reader for C, what finds the next frame of a capture, and what changes a frame: link target/hosts/libeac3.a (sh tools/library), x86-64 Linux.
 *
 * The caller owns every array; nothing is kept after the call, nothing is allocated, and the call may be made from
 * any number of threads at once. No array may overlap another. All lengths may be 0, and then the pointers are not read,
 * but must not be null. Each function is proved to end with a defined answer for all arguments.
 */
#ifndef EAC3_H
#define EAC3_H

#include <stddef.h>
#include <stdint.h>

#ifdef __cplusplus
extern "C" {
#endif

/* The room for records that always suffices. */
#define EAC3_RECORDS 32782

/* The longest frame, in bytes. What follows a frame in `data` is not looked at. */
#define EAC3_BYTES 4096

/* The same for eac3_parse_settop. */
#define EAC3_SETTOP_RECORDS 12289
#define EAC3_SETTOP_BYTES 1536

/* The most loudness words that a frame holds, and that eac3_set_words sets. */
#define EAC3_WORDS 16

/* Places in the answer. */
enum eac3_answer {
    EAC3_NUMBER = 0,           /* 0: accepted; otherwise the refusal (docs/REFUSALS.md) */
    EAC3_PLACE = 1,            /* the bit place of a refusal; the frame's end where it is accepted */
    EAC3_FIELDS = 2,           /* the records that were written */
    /* the rest is 0 after a refusal */
    EAC3_FRAME_BYTES = 3,
    EAC3_BSID = 4,
    EAC3_ACMOD = 5,
    EAC3_LFEON = 6,
    EAC3_FSCOD = 7,
    EAC3_STRMTYP = 8,
    EAC3_SUBSTREAMID = 9,
    EAC3_NUMBLKS = 10,
    EAC3_BLOCK_STARTS = 11,    /* six bit places, 0 for blocks that the frame has not */
    EAC3_MANTISSA_STARTS = 17, /* six bit places, likewise */
    EAC3_AUDIO_END = 23,       /* the bit after the last block */
    EAC3_AHT_TAGS = 24,        /* GAQ tags of large mantissas */
    EAC3_AHT_SLOTS = 25,       /* seven, 1 or 0: channels 0 to 4, coupling, LFE */
    EAC3_SPX_BLOCKS = 32,      /* blocks with spectral extension */
    EAC3_CPL_BLOCKS = 33,      /* blocks with coupling */
    EAC3_SLOT_BITS = 34,       /* bits of mantissas: seven for each of six blocks, in the order of EAC3_AHT_SLOTS */
    EAC3_ANSWER = 76
};

/* Reads the frame at the beginning of `data`. Records go into six arrays side by side, as many as the shortest has room
 * for: the name's number, the block and the index (-1 for none), the first bit, the width in bits, the value (0 for a
 * span). Entries past the count are left as they were. Gives answer[EAC3_NUMBER].
 */
uint8_t eac3_parse(const uint8_t *data, size_t bytes,
                   uint8_t *names, size_t names_room,
                   int8_t *blocks, size_t blocks_room,
                   int16_t *indexes, size_t indexes_room,
                   uint16_t *firsts, size_t firsts_room,
                   uint16_t *widths, size_t widths_room,
                   uint32_t *values, size_t values_room,
                   uint64_t answer[EAC3_ANSWER]);

/* The same for frames of at most EAC3_SETTOP_BYTES bytes. A longer one, by its header, is refused with 46 at bit 32, after its
 * first four records, whether `data` holds it or not; the other answers and records are those of eac3_parse. No byte behind
 * the first EAC3_SETTOP_BYTES of `data` is read.
 */
uint8_t eac3_parse_settop(const uint8_t *data, size_t bytes,
                          uint8_t *names, size_t names_room,
                          int8_t *blocks, size_t blocks_room,
                          int16_t *indexes, size_t indexes_room,
                          uint16_t *firsts, size_t firsts_room,
                          uint16_t *widths, size_t widths_room,
                          uint32_t *values, size_t values_room,
                          uint64_t answer[EAC3_ANSWER]);

/* Sets one loudness word of the frame at the beginning of `frame`: dialnorm, dialnorm2, compr, compr2, dynrng or dynrng2, by
 * its place in the list (from 0), and puts crc2 right, also where it was wrong. No other bit changes; bytes behind the frame
 * stay. The answer and the records are those of the new frame. A refusal changes no byte: those of eac3_parse; 41, the place
 * is beyond the list; 42, the record there is not one of the six; 43, the value has more bits than the word (5 for dialnorm
 * and dialnorm2, 8 for the others). After 41 to 43 the records are those of the frame as it is. Gives answer[EAC3_NUMBER].
 */
uint8_t eac3_set_word(uint8_t *frame, size_t bytes,
                      uint8_t *names, size_t names_room,
                      int8_t *blocks, size_t blocks_room,
                      int16_t *indexes, size_t indexes_room,
                      uint16_t *firsts, size_t firsts_room,
                      uint16_t *widths, size_t widths_room,
                      uint32_t *values, size_t values_room,
                      size_t place, uint32_t value,
                      uint64_t answer[EAC3_ANSWER]);

/* Sets up to EAC3_WORDS loudness words of the frame at the beginning of `frame`, as eac3_set_word sets one, or none of them:
 * the word at places[k] of the list is set to words[k], for each k below both counts, and crc2 is put right. Without an item
 * only crc2 is. A refusal changes no byte: those of eac3_parse; 48, more than EAC3_WORDS items; then, by items in order, 41, the
 * place is beyond the list; 47, an earlier item lists it; 42, the record there is not one of the six; 43, the value has too
 * many bits. After these the records are those of the frame as it is. Gives answer[EAC3_NUMBER].
 */
uint8_t eac3_set_words(uint8_t *frame, size_t bytes,
                       uint8_t *names, size_t names_room,
                       int8_t *blocks, size_t blocks_room,
                       int16_t *indexes, size_t indexes_room,
                       uint16_t *firsts, size_t firsts_room,
                       uint16_t *widths, size_t widths_room,
                       uint32_t *values, size_t values_room,
                       const size_t *places, size_t places_count,
                       const uint32_t *words, size_t words_count,
                       uint64_t answer[EAC3_ANSWER]);

/* Further places in the answer of eac3_find. */
enum eac3_found {
    EAC3_POSITION = 76,        /* the byte of the capture at which the frame, or the reading without room, begins */
    EAC3_TRIED = 77,           /* the positions that were read */
    EAC3_FOUND = 78
};

/* Finds the next frame of `capture`: the positions from `start` to the last byte are read in order, at most `most` of them, until one
 * holds a frame. Answer and records are those of eac3_parse for the bytes from answer[EAC3_POSITION] on, bit places count from there,
 * and answer[EAC3_TRIED] is that position minus start plus one. Refusal 33 at a position ends the search likewise: there is no room
 * for the records there. 44: no position is left (also where `start` is at or past the end); 45: `most` positions were read, and more
 * are left. Under both the count is that of the last reading (0 where there was none), answer[EAC3_TRIED] how many were read, and all
 * else is 0. Each reading writes the record arrays from their start, over what the one before left. Gives answer[EAC3_NUMBER].
 */
uint8_t eac3_find(const uint8_t *capture, size_t bytes,
                  uint8_t *names, size_t names_room,
                  int8_t *blocks, size_t blocks_room,
                  int16_t *indexes, size_t indexes_room,
                  uint16_t *firsts, size_t firsts_room,
                  uint16_t *widths, size_t widths_room,
                  uint32_t *values, size_t values_room,
                  size_t start, size_t most,
                  uint64_t answer[EAC3_FOUND]);

/* Places in the answer of eac3_gain_range, behind EAC3_NUMBER, EAC3_PLACE and EAC3_FIELDS: of each of the four gain words whether it was
 * sent (1 or 0), and how many times. */
enum eac3_gains {
    EAC3_DYNRNG_SENT = 3,
    EAC3_DYNRNG_WORDS = 4,
    EAC3_COMPR_SENT = 5,
    EAC3_COMPR_WORDS = 6,
    EAC3_DYNRNG2_SENT = 7,     /* those of the second programme of a 1+1 frame */
    EAC3_DYNRNG2_WORDS = 8,
    EAC3_COMPR2_SENT = 9,
    EAC3_COMPR2_WORDS = 10,
    EAC3_GAINS = 11
};

/* Places among its factors. */
enum eac3_factors {
    EAC3_DYNRNG_LOW = 0,
    EAC3_DYNRNG_HIGH = 1,
    EAC3_COMPR_LOW = 2,
    EAC3_COMPR_HIGH = 3,
    EAC3_DYNRNG2_LOW = 4,
    EAC3_DYNRNG2_HIGH = 5,
    EAC3_COMPR2_LOW = 6,
    EAC3_COMPR2_HIGH = 7,
    EAC3_FACTORS = 8
};

/* Reads the frame at the beginning of `frame` as eac3_parse does, and tells the lowest and the highest factor of its gain words: of the
 * dynrng words of its blocks, where a block without one does not count, and of compr, an equal pair. The factors are exact; a word 0 has
 * the factor 1. Where no word was sent, as under every refusal, both factors are 1. Gives answer[EAC3_NUMBER].
 */
uint8_t eac3_gain_range(const uint8_t *frame, size_t bytes,
                        uint8_t *names, size_t names_room,
                        int8_t *blocks, size_t blocks_room,
                        int16_t *indexes, size_t indexes_room,
                        uint16_t *firsts, size_t firsts_room,
                        uint16_t *widths, size_t widths_room,
                        uint32_t *values, size_t values_room,
                        double factors[EAC3_FACTORS],
                        uint64_t answer[EAC3_GAINS]);

#ifdef __cplusplus
}
#endif

#endif
