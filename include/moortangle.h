/*
 * Moortangle from C: the static library libmoortangle.a, which `make library` builds.
 *
 * Every function takes any numbers. One thing is assumed of the caller and not checked: each pointer is valid for the length
 * that comes after it and aligned for its type, and memory that a function writes overlaps nothing else that it is lent.
 * Where a length is 0 the pointer may be NULL.
 */
#ifndef MOORTANGLE_H
#define MOORTANGLE_H

#include <stddef.h>
#include <stdint.h>

#ifdef __cplusplus
extern "C" {
#endif

/*
 * What a writer answers:
 *    0  done
 *    1  more than 4,096 values
 *    2  a value outside its kind's range
 *    3  an instant below the one before
 *    4  a code not 1 to 5, Rice with a parameter over 31, a kind that is not this function's, or code 5 without kind 1
 *    5  fewer bits left than are to be written
 *   12  a buffer of more than 65,536 bytes, or a start above 8 times its bytes
 * Where several hold, the first of 12, 4, 1 is answered, else the first place with 2 or 3, else 5. A refusal writes nothing.
 * told: success, the bit after what was written; 2 and 3, the value's place from 0; else 0
 */
typedef struct {
    uint32_t answer;
    uint64_t told;
} moortangle_written;

/*
 * Writes a list as one record from bit `start` on and changes no other bit; bit 0 is the highest bit of the first byte.
 * The code is 1 gamma, 2 delta, 3 Rice, 4 variable-byte or 5 interpolative. The parameter is Rice's k, and ignored for the others.
 * Kind 0 is plain, values from 1 to 4,294,967,295; kind 1 is instants, from 0 to 4,294,967,294 and never falling.
 */
moortangle_written moortangle_write(uint8_t *buffer, size_t bytes, uint64_t start, uint32_t code, uint32_t parameter,
                                    uint32_t kind, const uint32_t *values, size_t count);

/* As moortangle_write, for corrections: kind 2, values from -2,147,483,647 to 2,147,483,647 but not 0. */
moortangle_written moortangle_write_corrections(uint8_t *buffer, size_t bytes, uint64_t start, uint32_t code,
                                                uint32_t parameter, uint32_t kind, const int32_t *values, size_t count);

/* Ends a stream: writes four zeros from bit `start` on, and zeros to the end of the byte that the fourth is in. */
moortangle_written moortangle_write_end(uint8_t *buffer, size_t bytes, uint64_t start);

/*
 * What a reader answers:
 *    0  done
 *    5  (moortangle_read, moortangle_read_corrections) the count is above the lent list's length
 *    6  cut short: the stop comes before the end of a field
 *    7  an asked kind that is not this function's; a code over 5; kind 3, a kind that is not the asked one, or code 5 without
 *       kind 1; in look-up and search also an end mark
 *    8  a count over 4,096
 *    9  bits that no word begins with, or an offset that the interpolative code does not have
 *   10  an instant above 4,294,967,294, or the word 1 among corrections
 *   11  (moortangle_check) a stream whose padding is not zero, or that has a byte after it
 *   12  a buffer of more than 65,536 bytes, or, but for moortangle_check, not start <= stop <= 8 times its bytes
 *   13  (the look-ups) a place that is not below the count
 * Where several hold: 12, then an asked kind that is not this function's, then what is wrong with the first field that fails
 * (8 before 5, 9 before 10), then 13.
 * told: 5 to 10, the bit where the failing field starts, but 0 for an asked kind that is not this function's; 11, the bit after
 * the end mark's four zeros; else 0. On a refusal every other field is 0, and a lent list is as it was.
 * No reader uses a bit before `start` or from `stop` on, nor changes the buffer.
 */

/* told: success, the bit after the record or after the end mark's four zeros */
typedef struct {
    uint32_t answer;
    uint64_t told;
    uint32_t end; /* 1 for an end mark, which has no heading, else 0 */
    uint32_t code, kind, parameter, count;
} moortangle_record;

/* told: 0 on success, here and below */
typedef struct {
    uint32_t answer;
    uint64_t told;
    uint32_t value;
} moortangle_value;

typedef struct {
    uint32_t answer;
    uint64_t told;
    int32_t value;
} moortangle_correction;

typedef struct {
    uint32_t answer;
    uint64_t told;
    uint64_t below;
} moortangle_place;

typedef struct {
    uint32_t answer;
    uint64_t told;
    uint64_t records, values;
} moortangle_stream;

/* Reads a record of the asked kind, 0 or 1, into the first `count` places of the list and leaves the others; or an end mark. */
moortangle_record moortangle_read(const uint8_t *buffer, size_t bytes, uint64_t start, uint64_t stop, uint32_t kind,
                                  uint32_t *list, size_t room);

/* As moortangle_read, for corrections: kind 2. */
moortangle_record moortangle_read_corrections(const uint8_t *buffer, size_t bytes, uint64_t start, uint64_t stop,
                                              uint32_t kind, int32_t *list, size_t room);

/* The value at a place, from 0, of a record of the asked kind, 0 or 1: what moortangle_read would put there. */
moortangle_value moortangle_look_up(const uint8_t *buffer, size_t bytes, uint64_t start, uint64_t stop, uint32_t kind,
                                    uint64_t place);

/* As moortangle_look_up, for corrections: kind 2. */
moortangle_correction moortangle_look_up_correction(const uint8_t *buffer, size_t bytes, uint64_t start, uint64_t stop,
                                                    uint32_t kind, uint64_t place);

/* How many instants of a record of kind 1 are below the one sought. */
moortangle_place moortangle_search(const uint8_t *buffer, size_t bytes, uint64_t start, uint64_t stop, uint32_t instant);

/* Whether a whole buffer is a stream: records of any kind, an end mark, and zeros to the byte's end; and how many records and
 * values it has. */
moortangle_stream moortangle_check(const uint8_t *buffer, size_t bytes);

#ifdef __cplusplus
}
#endif

#endif
