/* Judge and make in plain C, written from the rules of the table file alone.
 * Nothing is shared with the library, so that a mistake in one of the two shows
 * as a difference. */
#include "plain.h"

#define ABSENT 0xFFFFFFFFu
#define LOAD_MAX 1000000000u

enum { UNITS_MAX = 16, BASE_MAX = 4096 };

/* What the header of a file says. Position 0 of both lists is the base. */
struct row {
    uint32_t units;
    uint32_t base;
    uint32_t size[UNITS_MAX];
    uint32_t turn[UNITS_MAX]; /* size mod base: no division in the loops */
    const uint8_t *entries;
};

static uint64_t refusal(uint32_t number, uint64_t place)
{
    return ((uint64_t)number << 32) + place;
}

static uint32_t two(const uint8_t *p)
{
    return (uint32_t)p[0] << 8 | (uint32_t)p[1];
}

static uint32_t four(const uint8_t *p)
{
    return (uint32_t)p[0] << 24 | (uint32_t)p[1] << 16
         | (uint32_t)p[2] << 8 | (uint32_t)p[3];
}

static uint32_t entry(const struct row *row, uint32_t r)
{
    return four(row->entries + 4 * (size_t)r);
}

/* (r + turn) mod base and (r - turn) mod base, for r and turn below base. */
static uint32_t ahead(const struct row *row, uint32_t r, uint32_t i)
{
    uint32_t a = r + row->turn[i];

    return a >= row->base ? a - row->base : a;
}

static uint32_t back(const struct row *row, uint32_t r, uint32_t i)
{
    return r >= row->turn[i] ? r - row->turn[i] : r + row->base - row->turn[i];
}

/* The position of the smallest other unit that leads to the present entry e at
 * r from another present entry; 0 if there is none. */
static uint32_t step(const struct row *row, uint32_t r, uint32_t e)
{
    uint32_t i;

    for (i = 1; i < row->units; i++) {
        /* e - size is never the mark for absent, as size is at least 1 and no
         * difference is taken below 0. */
        if (e >= row->size[i] && entry(row, back(row, r, i)) == e - row->size[i])
            return i;
    }
    return 0;
}

/* Reads the fields from the front; the first fault decides. */
static uint64_t well_formed(const uint8_t *file, size_t length, struct row *row)
{
    size_t at, proper;
    uint32_t i;

    if (length < 3)
        return refusal(11, length);
    if (file[0] != 0x52 || file[1] != 0x54 || file[2] != 0x42)
        return refusal(11, 0);
    if (length < 5)
        return refusal(11, length);
    if (two(file + 3) != 1)
        return refusal(11, 3);
    if (length < 6)
        return refusal(11, length);
    row->units = file[5];
    if (row->units < 1 || row->units > UNITS_MAX)
        return refusal(11, 5);
    if (length < 8)
        return refusal(11, length);
    row->base = two(file + 6);
    if (row->base < 1 || row->base > BASE_MAX)
        return refusal(11, 6);
    row->size[0] = row->base;
    row->turn[0] = 0;
    at = 8;
    for (i = 1; i < row->units; i++) {
        uint32_t size;

        if (length < at + 2)
            return refusal(11, length);
        size = two(file + at);
        if (size == 0 || size == row->base || (i > 1 && size <= row->size[i - 1]))
            return refusal(11, at);
        row->size[i] = size;
        row->turn[i] = size % row->base;
        at += 2;
    }
    proper = at + 4 * (size_t)row->base;
    if (length < proper)
        return refusal(11, length);
    if (length > proper)
        return refusal(11, proper);
    row->entries = file + at;
    return 0;
}

/* Judges the four rules at each remainder, from 0 up. */
static uint64_t true_table(const struct row *row)
{
    uint32_t r, i;

    if (entry(row, 0) != 0)
        return refusal(12, 0);
    for (r = 0; r < row->base; r++) {
        uint32_t e = entry(row, r);

        if (e == ABSENT)
            continue;
        if (e % row->base != r)
            return refusal(12, r);
        for (i = 1; i < row->units; i++) {
            uint32_t next = entry(row, ahead(row, r, i));

            /* The sum can be above 32 bits. */
            if (next == ABSENT || next > (uint64_t)e + row->size[i])
                return refusal(12, r);
        }
        if (r != 0 && step(row, r, e) == 0)
            return refusal(12, r);
    }
    return 0;
}

static uint64_t judge(const uint8_t *file, size_t length, struct row *row)
{
    uint64_t answer = well_formed(file, length, row);

    return answer != 0 ? answer : true_table(row);
}

uint64_t plain_judge(const uint8_t *file, size_t file_length)
{
    struct row row;

    return judge(file, file_length, &row);
}

uint64_t plain_make(const uint8_t *file, size_t file_length,
                    uint64_t load,
                    uint8_t *out, size_t out_length)
{
    struct row row;
    uint32_t number[UNITS_MAX] = { 0 };
    uint64_t answer = judge(file, file_length, &row);
    uint32_t r, e, i;

    if (answer != 0)
        return answer;
    if (load > LOAD_MAX)
        return refusal(10, LOAD_MAX);
    if (out_length < 4 * (size_t)row.units)
        return refusal(8, 4 * (uint64_t)row.units);
    r = (uint32_t)load % row.base;
    e = entry(&row, r);
    if (e == ABSENT || load < e)
        return refusal(6, r);

    number[0] = ((uint32_t)load - e) / row.base;
    while (r != 0) {
        i = step(&row, r, e);
        number[i]++;
        e -= row.size[i];
        r = back(&row, r, i);
    }
    for (i = 0; i < row.units; i++) {
        out[4 * i] = (uint8_t)(number[i] >> 24);
        out[4 * i + 1] = (uint8_t)(number[i] >> 16);
        out[4 * i + 2] = (uint8_t)(number[i] >> 8);
        out[4 * i + 3] = (uint8_t)number[i];
    }
    return 0;
}
