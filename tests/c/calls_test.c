/* Tests the two calls for C against answers and output bytes that were worked
 * out by hand from the rules of the table file. */
#define _DEFAULT_SOURCE /* for MAP_ANONYMOUS */
#include <inttypes.h>
#include <stdint.h>
#include <stdio.h>
#include <stdlib.h>
#include <string.h>
#include <sys/mman.h>
#include <unistd.h>

#include "tovleng.h"

#define NO(number, place) (((uint64_t)(number) << 32) + (uint64_t)(place))

enum { GUARD = 64, OUT_MAX = 128, FILE_MAX = TOVLENG_FILE_MAX + 1 };

/* ---- files, as hex -------------------------------------------------- */

#define RTB1 "52 54 42 00 01 "
#define ABS "FF FF FF FF "
#define N(last) "00 00 00 " last " "

#define HEAD_F RTB1 "03 00 05 00 08 00 0C "
#define TABLE_F N("00") N("10") N("0C") N("08") N("18")
#define FILE_F HEAD_F TABLE_F
#define FILE_ONE RTB1 "01 00 01 " N("00")
#define FILE_FIVE RTB1 "01 00 05 " N("00") ABS ABS ABS ABS
#define FILE_5_12 RTB1 "02 00 05 00 0C " N("00") N("24") N("0C") N("30") N("18")
#define FILE_6_9 RTB1 "02 00 06 00 09 " N("00") ABS ABS N("09") ABS ABS
#define FILE_6_3 RTB1 "02 00 06 00 03 " N("00") ABS ABS N("03") ABS ABS
#define FILE_4_8 RTB1 "02 00 04 00 08 " N("00") ABS ABS ABS
#define FILE_1_2 RTB1 "02 00 01 00 02 " N("00")
#define FILE_D RTB1 "02 00 05 00 0C " TABLE_F

/* ---- what judge answers --------------------------------------------- */

struct judge_case {
    const char *name;
    const char *file;
    uint64_t answer;
};

static const struct judge_case judge_cases[] = {
    { "row 5 8 12", FILE_F, 0 },
    { "row 1", FILE_ONE, 0 },
    { "row 5", FILE_FIVE, 0 },
    { "row 5 12", FILE_5_12, 0 },
    { "row 6 9", FILE_6_9, 0 },
    { "row 6 3, other below base", FILE_6_3, 0 },
    { "row 4 8, other a multiple of base", FILE_4_8, 0 },
    { "row 1 2", FILE_1_2, 0 },

    /* packed answers as numbers in base ten, so that packing is tested too */
    { "no bytes", "", 47244640256u },
    { "one byte more", FILE_F "00", 47244640288u },
    { "table of another row", FILE_D, 51539607553u },
    { "entry 0 is 5", HEAD_F N("05") N("10") N("0C") N("08") N("18"), 51539607552u },

    /* letters */
    { "letters cut", "52 54", NO(11, 2) },
    { "wrong letters cut", "58 54", NO(11, 2) },
    { "letters alone", "52 54 42", NO(11, 3) },
    { "first letter", "53 54 42 00 01 03 00 05 00 08 00 0C " TABLE_F, NO(11, 0) },
    { "second letter", "52 74 42 00 01 03 00 05 00 08 00 0C " TABLE_F, NO(11, 0) },
    { "third letter", "52 54 62 00 01 03 00 05 00 08 00 0C " TABLE_F, NO(11, 0) },
    { "wrong letters before a cut", "52 54 62", NO(11, 0) },

    /* version */
    { "version cut", "52 54 42 00", NO(11, 4) },
    { "wrong version cut", "52 54 42 01", NO(11, 4) },
    { "version 2 before a cut", "52 54 42 00 02", NO(11, 3) },
    { "version 0", "52 54 42 00 00 03 00 05 00 08 00 0C " TABLE_F, NO(11, 3) },
    { "version 2", "52 54 42 00 02 03 00 05 00 08 00 0C " TABLE_F, NO(11, 3) },
    { "version 256", "52 54 42 01 00 03 00 05 00 08 00 0C " TABLE_F, NO(11, 3) },
    { "version 257", "52 54 42 01 01 03 00 05 00 08 00 0C " TABLE_F, NO(11, 3) },

    /* number of units */
    { "units 0", RTB1 "00 00 05 00 08 00 0C " TABLE_F, NO(11, 5) },
    { "units 17", RTB1 "11 00 05 00 08 00 0C " TABLE_F, NO(11, 5) },
    { "units 255", RTB1 "FF 00 05 00 08 00 0C " TABLE_F, NO(11, 5) },
    { "units 0 before a cut", RTB1 "00", NO(11, 5) },
    { "units 4", RTB1 "04 00 05 00 08 00 0C " TABLE_F, NO(11, 12) },
    { "units 2", RTB1 "02 00 05 00 08 00 0C " TABLE_F, NO(11, 30) },
    { "units 1", RTB1 "01 00 05 00 08 00 0C " TABLE_F, NO(11, 28) },
    { "units 16 cut", RTB1 "10 00 05 00 08 00 0C 00 0D", NO(11, 14) },

    /* base */
    { "base 0", RTB1 "03 00 00 00 08 00 0C " TABLE_F, NO(11, 6) },
    { "base 4097", RTB1 "03 10 01 00 08 00 0C " TABLE_F, NO(11, 6) },
    { "base 65535", RTB1 "03 FF FF 00 08 00 0C " TABLE_F, NO(11, 6) },
    { "base 4096 cut", RTB1 "03 10 00 00 08 00 0C " TABLE_F, NO(11, 32) },
    { "base 0 cut", RTB1 "03 00", NO(11, 7) },
    { "base 0 before a cut", RTB1 "03 00 00", NO(11, 6) },
    { "base 6", RTB1 "03 00 06 00 08 00 0C " TABLE_F, NO(11, 32) },
    { "base 4", RTB1 "03 00 04 00 08 00 0C " TABLE_F, NO(11, 28) },

    /* other sizes */
    { "sizes 0 12", RTB1 "03 00 05 00 00 00 0C " TABLE_F, NO(11, 8) },
    { "sizes 5 12", RTB1 "03 00 05 00 05 00 0C " TABLE_F, NO(11, 8) },
    { "sizes 12 8", RTB1 "03 00 05 00 0C 00 08 " TABLE_F, NO(11, 10) },
    { "sizes 8 8", RTB1 "03 00 05 00 08 00 08 " TABLE_F, NO(11, 10) },
    { "sizes 8 0", RTB1 "03 00 05 00 08 00 00 " TABLE_F, NO(11, 10) },
    { "sizes 8 5", RTB1 "03 00 05 00 08 00 05 " TABLE_F, NO(11, 10) },
    { "sizes 4 5", RTB1 "03 00 05 00 04 00 05 " TABLE_F, NO(11, 10) },
    { "size 0 before a cut", RTB1 "03 00 05 00 00", NO(11, 8) },
    { "size 0 cut", RTB1 "03 00 05 00", NO(11, 9) },
    { "sizes 3 12", RTB1 "03 00 05 00 03 00 0C " TABLE_F, NO(12, 0) },
    { "sizes 8 65535", RTB1 "03 00 05 00 08 FF FF " TABLE_F, NO(12, 2) },

    /* entries of row 5 8 12: raised by the base */
    { "entry 1 is 21", HEAD_F N("00") N("15") N("0C") N("08") N("18"), NO(12, 1) },
    { "entry 2 is 17", HEAD_F N("00") N("10") N("11") N("08") N("18"), NO(12, 0) },
    { "entry 3 is 13", HEAD_F N("00") N("10") N("0C") N("0D") N("18"), NO(12, 0) },
    { "entry 4 is 29", HEAD_F N("00") N("10") N("0C") N("08") N("1D"), NO(12, 1) },
    /* lowered by the base */
    { "entry 1 is 11", HEAD_F N("00") N("0B") N("0C") N("08") N("18"), NO(12, 1) },
    { "entry 2 is 7", HEAD_F N("00") N("10") N("07") N("08") N("18"), NO(12, 2) },
    { "entry 3 is 3", HEAD_F N("00") N("10") N("0C") N("03") N("18"), NO(12, 1) },
    { "entry 4 is 19", HEAD_F N("00") N("10") N("0C") N("08") N("13"), NO(12, 4) },
    /* of another remainder */
    { "entry 0 is 1", HEAD_F N("01") N("10") N("0C") N("08") N("18"), NO(12, 0) },
    { "entry 1 is 17", HEAD_F N("00") N("11") N("0C") N("08") N("18"), NO(12, 1) },
    { "entry 2 is 11", HEAD_F N("00") N("10") N("0B") N("08") N("18"), NO(12, 2) },
    { "entry 3 is 7", HEAD_F N("00") N("10") N("0C") N("07") N("18"), NO(12, 1) },
    { "entry 4 is 23", HEAD_F N("00") N("10") N("0C") N("08") N("17"), NO(12, 4) },
    /* absent */
    { "entry 0 absent", HEAD_F ABS N("10") N("0C") N("08") N("18"), NO(12, 0) },
    { "entry 1 absent", HEAD_F N("00") ABS N("0C") N("08") N("18"), NO(12, 3) },
    { "entry 2 absent", HEAD_F N("00") N("10") ABS N("08") N("18"), NO(12, 0) },
    { "entry 3 absent", HEAD_F N("00") N("10") N("0C") ABS N("18"), NO(12, 0) },
    { "entry 4 absent", HEAD_F N("00") N("10") N("0C") N("08") ABS, NO(12, 1) },
    /* the high byte of an entry counts */
    { "entry 0 high byte", HEAD_F "01 00 00 00 " N("10") N("0C") N("08") N("18"), NO(12, 0) },
    { "entry 4 high byte", HEAD_F N("00") N("10") N("0C") N("08") "80 00 00 18", NO(12, 1) },
    /* whole tables */
    { "each entry its remainder", HEAD_F N("00") N("01") N("02") N("03") N("04"), NO(12, 1) },
    { "table of row 5 12", HEAD_F N("00") N("24") N("0C") N("30") N("18"), NO(12, 0) },
    { "row 5, entry 1 is 1", RTB1 "01 00 05 " N("00") N("01") ABS ABS ABS, NO(12, 1) },
    { "row 5, entry 4 is 4", RTB1 "01 00 05 " N("00") ABS ABS ABS N("04"), NO(12, 4) },
    { "row 5, all entries absent", RTB1 "01 00 05 " ABS ABS ABS ABS ABS, NO(12, 0) },
    { "row 1, entry 1", RTB1 "01 00 01 " N("01"), NO(12, 0) },
    { "row 1, entry absent", RTB1 "01 00 01 " ABS, NO(12, 0) },

    /* Row 6 9, great entries at 1 and 4 that hold each other up. At 1 all
     * rules hold, as 4,294,967,293 + 9 is no small number; (iv) fails at 4. */
    { "sum above 32 bits", RTB1 "02 00 06 00 09 " N("00") "FF FF FF FD " ABS N("09")
      "FF FF FF F4 " ABS, NO(12, 4) },
    /* Row 6 8, entry 7 at 1: 7 less 8 is not the mark for absent at 5, so (iv)
     * fails at 1, before (iii) fails at 3. */
    { "absent is no number", RTB1 "02 00 06 00 08 " N("00") N("07") N("08") N("0F") N("10") ABS,
      NO(12, 1) },

    /* Row 6 8, great entries at 1 and 5, absent at 3: the unit leads from 1 to
     * an absent entry, though its mark is below 4,294,967,293 + 8. */
    { "absent below a sum", RTB1 "02 00 06 00 08 " N("00") "FF FF FF FD " N("08") ABS N("10")
      "FF FF FF F5", NO(12, 1) },
    /* Row 6 9, entries 14 at 1 and 5 at 4: at 1 only (ii) fails. */
    { "wrong remainder alone", RTB1 "02 00 06 00 09 " N("00") N("0E") ABS N("09") N("05") ABS,
      NO(12, 1) },

    /* lengthened */
    { "row 5 8 12 and a byte FF", FILE_F "FF", NO(11, 32) },
    { "row 1 and a byte", FILE_ONE "00", NO(11, 12) },
    { "row 5 and a byte", FILE_FIVE "FF", NO(11, 28) },
    { "row 5 8 12 twice", FILE_F FILE_F, NO(11, 32) },
    { "wrong table and a byte", FILE_D "00", NO(11, 30) },
};

/* ---- what make answers and writes ----------------------------------- */

struct make_case {
    const char *file;
    uint64_t load;
    size_t out_length;
    uint64_t answer;
    const char *out; /* the bytes written; all others stay untouched */
};

#define BILLION 1000000000u

static const struct make_case make_cases[] = {
    { FILE_F, 24, 12, 0, N("00") N("03") N("00") },
    { FILE_F, 37, 12, 0, "00 00 00 05 00 00 00 00 00 00 00 01" },
    { FILE_F, 19, 12, 25769803780u, "" },
    { FILE_F, 24, 11, 34359738380u, "" },
    { FILE_F, 19, 11, 34359738380u, "" },
    { FILE_F, BILLION + 1, 0, 43949672960u, "" },
    { FILE_D, BILLION + 1, 0, 51539607553u, "" },
    { FILE_D, 24, 12, 51539607553u, "" },

    { FILE_F, 0, 12, 0, N("00") N("00") N("00") },
    { FILE_F, 5, 12, 0, N("01") N("00") N("00") },
    { FILE_F, 8, 12, 0, N("00") N("01") N("00") },
    { FILE_F, 10, 12, 0, N("02") N("00") N("00") },
    { FILE_F, 12, 12, 0, N("00") N("00") N("01") },
    { FILE_F, 13, 12, 0, N("01") N("01") N("00") },
    { FILE_F, 16, 12, 0, N("00") N("02") N("00") },
    { FILE_F, 17, 12, 0, N("01") N("00") N("01") },
    { FILE_F, 20, 12, 0, N("04") N("00") N("00") },
    { FILE_F, 28, 12, 0, N("04") N("01") N("00") },
    { FILE_F, 29, 12, 0, N("01") N("03") N("00") },
    { FILE_F, 36, 12, 0, N("04") N("02") N("00") },
    { FILE_F, 999999999, 12, 0, "0B EB C1 FB " N("03") N("00") },
    { FILE_F, BILLION, 12, 0, "0B EB C2 00 " N("00") N("00") },

    /* the loads that cannot be made */
    { FILE_F, 1, 12, NO(6, 1), "" },
    { FILE_F, 2, 12, NO(6, 2), "" },
    { FILE_F, 3, 12, NO(6, 3), "" },
    { FILE_F, 4, 12, NO(6, 4), "" },
    { FILE_F, 6, 12, NO(6, 1), "" },
    { FILE_F, 7, 12, NO(6, 2), "" },
    { FILE_F, 9, 12, NO(6, 4), "" },
    { FILE_F, 11, 12, NO(6, 1), "" },
    { FILE_F, 14, 64, NO(6, 4), "" },
    { FILE_F, 19, 64, NO(6, 4), "" },

    /* lengths of the output */
    { FILE_F, 24, 0, NO(8, 12), "" },
    { FILE_F, 24, 1, NO(8, 12), "" },
    { FILE_F, 24, 4, NO(8, 12), "" },
    { FILE_F, 24, 8, NO(8, 12), "" },
    { FILE_F, 24, 13, 0, N("00") N("03") N("00") },
    { FILE_F, 24, 64, 0, N("00") N("03") N("00") },
    { FILE_F, 24, 128, 0, N("00") N("03") N("00") },
    { FILE_F, BILLION, 11, NO(8, 12), "" },

    /* loads above the limit; those with 24 in the low 32 bits must not pass */
    { FILE_F, BILLION + 1, 12, NO(10, BILLION), "" },
    { FILE_F, 4294967295u, 64, NO(10, BILLION), "" },
    { FILE_F, UINT64_C(4294967296) + 24, 64, NO(10, BILLION), "" },
    { FILE_F, UINT64_C(9223372036854775808) + 24, 64, NO(10, BILLION), "" },
    { FILE_F, UINT64_MAX, 64, NO(10, BILLION), "" },
    { FILE_F, UINT64_MAX, 11, NO(10, BILLION), "" },

    { FILE_ONE, 0, 4, 0, N("00") },
    { FILE_ONE, 7, 4, 0, N("07") },
    { FILE_ONE, BILLION, 4, 0, "3B 9A CA 00" },
    { FILE_ONE, BILLION + 1, 4, NO(10, BILLION), "" },
    { FILE_ONE, 7, 3, NO(8, 4), "" },
    { FILE_ONE, 7, 0, NO(8, 4), "" },

    { FILE_FIVE, 0, 4, 0, N("00") },
    { FILE_FIVE, 10, 4, 0, N("02") },
    { FILE_FIVE, 10, 5, 0, N("02") },
    { FILE_FIVE, 7, 4, NO(6, 2), "" },
    { FILE_FIVE, 999999999, 4, NO(6, 4), "" },
    { FILE_FIVE, 7, 3, NO(8, 4), "" },

    { FILE_5_12, 16, 8, NO(6, 1), "" },
    { FILE_5_12, 22, 8, 0, N("02") N("01") },
    { FILE_5_12, 43, 8, NO(6, 3), "" },
    { FILE_5_12, 48, 8, 0, N("00") N("04") },
    { FILE_5_12, 22, 7, NO(8, 8), "" },

    { FILE_6_9, 9, 8, 0, N("00") N("01") },
    { FILE_6_9, 15, 8, 0, N("01") N("01") },
    { FILE_6_9, 18, 8, 0, N("03") N("00") },
    { FILE_6_9, 3, 8, NO(6, 3), "" },
    { FILE_6_9, 10, 8, NO(6, 4), "" },

    { FILE_6_3, 3, 8, 0, N("00") N("01") },
    { FILE_6_3, 9, 8, 0, N("01") N("01") },
    { FILE_4_8, 8, 8, 0, N("02") N("00") },
    { FILE_1_2, 7, 8, 0, N("07") N("00") },
};

/* ---- the tests ------------------------------------------------------- */

static unsigned long passed, failed;

static uint8_t *page_start; /* ends where a page begins that no one may touch */
static size_t page_bytes;

static void die(const char *what)
{
    fprintf(stderr, "calls_test: %s\n", what);
    exit(2);
}

/* The library may be built without a sanitizer, which then sees none of its
 * reads. A forbidden page behind the file stops those as well. */
static void open_page(void)
{
    size_t page = (size_t)sysconf(_SC_PAGESIZE);
    void *p;

    page_bytes = (FILE_MAX + page - 1) / page * page;
    p = mmap(NULL, page_bytes + page, PROT_READ | PROT_WRITE,
             MAP_PRIVATE | MAP_ANONYMOUS, -1, 0);
    if (p == MAP_FAILED)
        die("no memory");
    page_start = p;
    if (mprotect(page_start + page_bytes, page, PROT_NONE) != 0)
        die("no forbidden page");
}

static int digit(char c)
{
    if (c >= '0' && c <= '9')
        return c - '0';
    if (c >= 'A' && c <= 'F')
        return c - 'A' + 10;
    die("bad hex in a table");
    return 0;
}

static size_t from_hex(const char *hex, uint8_t *bytes, size_t room)
{
    size_t n = 0;

    while (*hex != '\0') {
        if (*hex == ' ') {
            hex++;
            continue;
        }
        if (n == room || hex[1] == '\0')
            die("bad length in a table");
        bytes[n++] = (uint8_t)(digit(hex[0]) << 4 | digit(hex[1]));
        hex += 2;
    }
    return n;
}

/* The byte that stands in the output and around it before a call: never the
 * same twice running, so that bytes that were moved are seen too. */
static uint8_t filler(size_t i)
{
    return (uint8_t)(0xA5 + 7 * i);
}

static int call_judge(const char *name, const uint8_t *file, size_t length, uint64_t want)
{
    uint64_t got = tovleng_judge(file, length);

    if (got == want)
        return 1;
    printf("judge %s: %" PRIu32 " %" PRIu32 ", not %" PRIu32 " %" PRIu32 "\n", name,
           tovleng_number(got), tovleng_place(got), tovleng_number(want), tovleng_place(want));
    return 0;
}

static int call_make(const char *name, const uint8_t *file, size_t length, uint64_t load,
                     size_t out_length, int out_null, uint64_t want,
                     const uint8_t *want_out, size_t want_length)
{
    uint8_t room[GUARD + OUT_MAX + GUARD];
    uint64_t got;
    size_t i;

    if (out_length > OUT_MAX || want_length > out_length)
        die("bad output length in a table");
    for (i = 0; i < sizeof room; i++)
        room[i] = filler(i);
    got = tovleng_make(file, length, load, out_null ? NULL : room + GUARD, out_length);
    if (got != want) {
        printf("make %s, load %" PRIu64 ", %lu bytes: %" PRIu32 " %" PRIu32
               ", not %" PRIu32 " %" PRIu32 "\n", name, load, (unsigned long)out_length,
               tovleng_number(got), tovleng_place(got), tovleng_number(want), tovleng_place(want));
        return 0;
    }
    for (i = 0; i < sizeof room; i++) {
        int written = i >= GUARD && i - GUARD < want_length;
        uint8_t byte = written ? want_out[i - GUARD] : filler(i);

        if (room[i] != byte) {
            printf("make %s, load %" PRIu64 ", %lu bytes: output byte %ld is %02X, not %02X\n",
                   name, load, (unsigned long)out_length, (long)i - GUARD,
                   (unsigned)room[i], (unsigned)byte);
            return 0;
        }
    }
    return 1;
}

static int unchanged(const char *name, const uint8_t *file, const uint8_t *bytes, size_t length)
{
    if (length == 0 || memcmp(file, bytes, length) == 0)
        return 1;
    printf("%s: the file's bytes were changed\n", name);
    return 0;
}

static void count(int good)
{
    if (good)
        passed++;
    else
        failed++;
}

/* Each test runs twice: on a heap block that ends with the file, for the
 * sanitizer, and on a file that ends where the forbidden page begins. A file
 * of no bytes stands at the end of a block of one. */
struct homes {
    uint8_t *block;
    uint8_t *file[2];
};

static struct homes settle(const uint8_t *bytes, size_t length)
{
    struct homes h;

    if (length > page_bytes)
        die("a file is too long for the test");
    h.block = malloc(length == 0 ? 1 : length);
    if (h.block == NULL)
        die("no memory");
    h.file[0] = length == 0 ? h.block + 1 : h.block;
    h.file[1] = page_start + (page_bytes - length);
    if (length != 0) {
        memcpy(h.file[0], bytes, length);
        memcpy(h.file[1], bytes, length);
    }
    return h;
}

static void test_judge(const char *name, const uint8_t *bytes, size_t length, uint64_t want)
{
    struct homes h = settle(bytes, length);
    int good = 1, k;

    for (k = 0; k < 2; k++) {
        good &= call_judge(name, h.file[k], length, want);
        good &= unchanged(name, h.file[k], bytes, length);
    }
    free(h.block);
    count(good);
}

static void test_make(const char *name, const uint8_t *bytes, size_t length, uint64_t load,
                      size_t out_length, uint64_t want, const char *want_hex)
{
    uint8_t want_out[OUT_MAX];
    size_t want_length = from_hex(want_hex, want_out, sizeof want_out);
    struct homes h = settle(bytes, length);
    int good = 1, k;

    for (k = 0; k < 2; k++) {
        good &= call_make(name, h.file[k], length, load, out_length, 0, want, want_out, want_length);
        good &= unchanged(name, h.file[k], bytes, length);
    }
    free(h.block);
    count(good);
}

/* A file that judge refuses gets the same from make, whatever else is wrong. */
static void test_file(const char *name, const uint8_t *bytes, size_t length, uint64_t want)
{
    test_judge(name, bytes, length, want);
    if (want == 0)
        return;
    test_make(name, bytes, length, 24, 64, want, "");
    test_make(name, bytes, length, 19, 11, want, "");
    test_make(name, bytes, length, UINT64_MAX, 0, want, "");
}

static void test_tables(void)
{
    static uint8_t bytes[FILE_MAX];
    size_t i, length;

    for (i = 0; i < sizeof judge_cases / sizeof judge_cases[0]; i++) {
        const struct judge_case *c = &judge_cases[i];

        length = from_hex(c->file, bytes, sizeof bytes);
        test_file(c->name, bytes, length, c->answer);
    }
    for (i = 0; i < sizeof make_cases / sizeof make_cases[0]; i++) {
        const struct make_case *c = &make_cases[i];

        length = from_hex(c->file, bytes, sizeof bytes);
        test_make("from the table", bytes, length, c->load, c->out_length, c->answer, c->out);
    }
}

/* The first n bytes of the file get 11, n. */
static void test_cuts(void)
{
    uint8_t bytes[32];
    char name[32];
    size_t n;

    if (from_hex(FILE_F, bytes, sizeof bytes) != 32)
        die("the file is not 32 bytes");
    for (n = 0; n < 32; n++) {
        snprintf(name, sizeof name, "first %lu bytes", (unsigned long)n);
        test_file(name, bytes, n, NO(11, n));
    }
}

static void test_null(void)
{
    uint8_t bytes[32];
    size_t length = from_hex(FILE_F, bytes, sizeof bytes);

    count(call_judge("null", NULL, 0, NO(11, 0)));
    count(call_make("null", NULL, 0, 24, 0, 1, NO(11, 0), NULL, 0));
    count(call_make("null", NULL, 0, UINT64_MAX, 0, 1, NO(11, 0), NULL, 0));
    count(call_make("null file", NULL, 0, 24, 64, 0, NO(11, 0), NULL, 0));
    count(call_make("null output", bytes, length, 24, 0, 1, NO(8, 12), NULL, 0));
    count(call_make("null output", bytes, length, 19, 0, 1, NO(8, 12), NULL, 0));
    count(call_make("null output", bytes, length, BILLION + 1, 0, 1, NO(10, BILLION), NULL, 0));
    count(call_make("null output", bytes, 31, 24, 0, 1, NO(11, 31), NULL, 0));
}

static void put_entry(uint8_t *at, uint32_t value)
{
    at[0] = (uint8_t)(value >> 24);
    at[1] = (uint8_t)(value >> 16);
    at[2] = (uint8_t)(value >> 8);
    at[3] = (uint8_t)value;
}

/* The longest file: base 4,096 and the sizes 1 to 15. The unit 1 alone makes
 * every remainder, so the entry at r is r and the step is always unit 1. */
static void test_longest(void)
{
    static uint8_t bytes[FILE_MAX];
    const size_t entries = 38, length = 16422;
    uint32_t r;

    from_hex(RTB1 "10 10 00 00 01 00 02 00 03 00 04 00 05 00 06 00 07 00 08 "
             "00 09 00 0A 00 0B 00 0C 00 0D 00 0E 00 0F", bytes, sizeof bytes);
    for (r = 0; r < 4096; r++)
        put_entry(bytes + entries + 4 * r, r);

#define ZEROS_14 N("00") N("00") N("00") N("00") N("00") N("00") N("00") \
                 N("00") N("00") N("00") N("00") N("00") N("00") N("00")
    test_file("longest", bytes, length, 0);
    test_make("longest", bytes, length, 12287, 64, 0, N("02") "00 00 0F FF " ZEROS_14);
    test_make("longest", bytes, length, 4095, 65, 0, N("00") "00 00 0F FF " ZEROS_14);
    test_make("longest", bytes, length, 4096, 64, 0, N("01") N("00") ZEROS_14);
    test_make("longest", bytes, length, 1, 128, 0, N("00") N("01") ZEROS_14);
    test_make("longest", bytes, length, 1, 63, NO(8, 64), "");
    test_file("longest, last byte cut", bytes, length - 1, NO(11, 16421));
    test_file("longest and a byte", bytes, length + 1, NO(11, 16422));

    /* 15 is the greatest unit, so remainder 4,080 is the first that leads to
     * the last entry. */
    put_entry(bytes + entries + 4 * 4095, 8191);
    test_file("longest, last entry 8191", bytes, length, NO(12, 4080));
    put_entry(bytes + entries + 4 * 4095, 0xFFFFFFFEu);
    test_file("longest, last entry greatest", bytes, length, NO(12, 4080));
    put_entry(bytes + entries + 4 * 4095, 0xFFFFFFFFu);
    test_file("longest, last entry absent", bytes, length, NO(12, 4080));
    put_entry(bytes + entries + 4 * 4095, 4094);
    test_file("longest, last entry 4094", bytes, length, NO(12, 4095));
}

/* The row with the greatest entry. 65,535 leaves 4,095, one less than nothing,
 * so remainder r takes 4,096 - r of it. */
static void test_greatest(void)
{
    static uint8_t bytes[FILE_MAX];
    const size_t entries = 10, length = 16394;
    uint32_t r;

    from_hex(RTB1 "02 10 00 FF FF", bytes, sizeof bytes);
    put_entry(bytes + entries, 0);
    for (r = 1; r < 4096; r++)
        put_entry(bytes + entries + 4 * r, (4096 - r) * 65535);

    test_file("greatest", bytes, length, 0);
    test_make("greatest", bytes, length, 268365825, 8, 0, N("00") "00 00 0F FF");
    test_make("greatest", bytes, length, 268361729, 8, NO(6, 1), "");
    test_make("greatest", bytes, length, 268369921, 8, 0, N("01") "00 00 0F FF");
    test_make("greatest", bytes, length, BILLION, 8, 0, "00 03 59 AD 00 00 06 00");
    test_make("greatest", bytes, length, 65535, 8, 0, N("00") N("01"));
    test_make("greatest", bytes, length, 65534, 8, NO(6, 4094), "");
    put_entry(bytes + entries + 4, 268361729);
    test_file("greatest, entry 1 lower", bytes, length, NO(12, 1));
    put_entry(bytes + entries + 4, 268369921);
    test_file("greatest, entry 1 higher", bytes, length, NO(12, 1));
}

int main(void)
{
    open_page();
    test_tables();
    test_cuts();
    test_null();
    test_longest();
    test_greatest();
    printf("c calls: %lu passed, %lu failed\n", passed, failed);
    return failed == 0 ? 0 : 1;
}
