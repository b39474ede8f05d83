/* The calls that Tovleng exports for C: one judges the bytes of a table file,
 * the other makes a load from the units in such a file. */
#ifndef TOVLENG_H
#define TOVLENG_H

#include <stddef.h>
#include <stdint.h>

/* The longest a true table file can be: sixteen units, base 4,096. */
#define TOVLENG_FILE_MAX 16422

/* Output bytes that are enough for every file: sixteen units of four bytes. */
#define TOVLENG_OUT_MAX 64

/* The greatest load that tovleng_make takes. */
#define TOVLENG_LOAD_MAX 1000000000

#ifdef __cplusplus
extern "C" {
#endif

/* Judges the bytes of a table file.
 *
 * Answers 0 if the file is accepted. Otherwise the answer holds a refusal:
 * 11 with an offset if the file is not well-formed, 12 with a remainder if its
 * table is not the true one of its units. Nothing is written.
 *
 * The caller owes: file points to file_length bytes that can be read and that
 * nothing writes to during the call. With file_length 0 file may be null. */
uint64_t tovleng_judge(const uint8_t *file, size_t file_length);

/* Makes a load from the units in a table file.
 *
 * Answers 0 if it was made. Then out holds the number of each unit, the base
 * first and the others in ascending order, four bytes each, high byte first;
 * there are as many as byte 5 of the file says, and later bytes are untouched.
 * Otherwise the answer holds the first refusal that fits, and all of out is
 * untouched: 11 or 12 as from tovleng_judge; 10 with 1000000000 if the load is
 * above that; 8 with the bytes needed if out_length is less; 6 with the load's
 * remainder by the base if the load cannot be made from the units.
 *
 * The caller owes: file as above; out points to out_length bytes that can be
 * written and that nothing else reads or writes during the call; the two do
 * not overlap. With out_length 0 out may be null. */
uint64_t tovleng_make(const uint8_t *file, size_t file_length,
                      uint64_t load,
                      uint8_t *out, size_t out_length);

/* The number of the refusal in an answer; 0 if there is none. */
static inline uint32_t tovleng_number(uint64_t answer)
{
    return (uint32_t)(answer >> 32);
}

/* The place of the refusal in an answer. */
static inline uint32_t tovleng_place(uint64_t answer)
{
    return (uint32_t)(answer & 0xFFFFFFFFu);
}

#ifdef __cplusplus
}
#endif

#endif
