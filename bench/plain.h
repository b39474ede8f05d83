/* The two calls for C, written once more in plain C: a second opinion on the
 * library's answers and a measure for its speed. */
#ifndef PLAIN_H
#define PLAIN_H

#include <stddef.h>
#include <stdint.h>

uint64_t plain_judge(const uint8_t *file, size_t file_length);
uint64_t plain_make(const uint8_t *file, size_t file_length,
                    uint64_t load,
                    uint8_t *out, size_t out_length);

#endif
