/* Both C functions on good, damaged and random files. Each file stands in memory of just its own length, so that a read
 * beside it is seen by the sanitizers. What is expected was worked out by hand from the rules. */
#include <stdio.h>
#include <stdlib.h>
#include <string.h>

#include "office.h"

enum { HEADER = 24, ROW = 24, MOST_ROWS = 257, MOST_BYTES = HEADER + ROW * MOST_ROWS };

typedef struct {
    uint8_t bytes[MOST_BYTES + 8];
    size_t len;
} File;

static unsigned long done, wrong;

static void put32(uint8_t *at, uint32_t n) {
    for (int i = 0; i < 4; i++) {
        at[i] = (uint8_t)(n >> 8 * i);
    }
}

static uint32_t get32(const uint8_t *at) {
    return at[0] | (uint32_t)at[1] << 8 | (uint32_t)at[2] << 16 | (uint32_t)at[3] << 24;
}

static void begin(File *file, uint32_t kind, uint32_t capacity, uint32_t horizon, uint32_t next) {
    const uint32_t fields[6] = {kind, capacity, horizon, next, 0, HEADER};
    for (int i = 0; i < 6; i++) {
        put32(file->bytes + 4 * i, fields[i]);
    }
    file->len = HEADER;
}

static void add(File *file, uint32_t number, uint32_t start, uint32_t end, uint32_t state, uint64_t claim) {
    uint8_t *at = file->bytes + file->len;
    const uint32_t fields[6] = {number, start, end, state, (uint32_t)claim, (uint32_t)(claim >> 32)};
    for (int i = 0; i < 6; i++) {
        put32(at + 4 * i, fields[i]);
    }
    file->len += ROW;
    put32(file->bytes + 16, get32(file->bytes + 16) + 1);
}

/* Calls on memory of just that length. */
static uint32_t check(const uint8_t *bytes, size_t len) {
    uint8_t *own = len == 0 ? NULL : malloc(len);
    if (len != 0) {
        memcpy(own, bytes, len);
    }
    uint32_t answer = board_file_check(own, len);
    free(own);
    return answer;
}

static uint32_t units(const uint8_t *bytes, size_t len, uint32_t minute) {
    uint8_t *own = len == 0 ? NULL : malloc(len);
    if (len != 0) {
        memcpy(own, bytes, len);
    }
    uint32_t answer = board_file_free(own, len, minute);
    free(own);
    return answer;
}

static void expect(const char *what, uint32_t got, uint32_t wanted) {
    done++;
    if (got != wanted) {
        wrong++;
        printf("%s: %u, where %u was expected\n", what, got, wanted);
    }
}

static void expect_free(const char *what, const File *file, uint32_t minute, uint32_t wanted) {
    expect(what, units(file->bytes, file->len, minute), wanted);
}

/* A crew of 4 until minute 100: 1 and 2 from 0 to 10, 3 and 4 from 5 to 15, 1 and 2 from 10 to 20. */
static void crew_file(File *file) {
    begin(file, 1, 4, 100, 4);
    add(file, 1, 0, 10, 1, 3);
    add(file, 2, 5, 15, 1, 12);
    add(file, 3, 10, 20, 2, 3);
}

/* A stock of 3 until minute 100: 2 from 0 to 10, 2 from 10 to 20. */
static void stock_file(File *file) {
    begin(file, 2, 3, 100, 6);
    add(file, 1, 0, 10, 1, 2);
    add(file, 5, 10, 20, 2, 2);
}

static void good_files(void) {
    File file;
    crew_file(&file);
    expect("crew file", check(file.bytes, file.len), 0);
    const uint32_t crew[][2] = {{0, 2}, {4, 2}, {5, 0}, {9, 0}, {10, 0}, {14, 0}, {15, 2}, {19, 2}, {20, 4}, {99, 4}, {100, BOARD_FILE_NO_ANSWER}, {4294967295u, BOARD_FILE_NO_ANSWER}};
    for (size_t i = 0; i < sizeof crew / sizeof crew[0]; i++) {
        expect_free("crew file, free", &file, crew[i][0], crew[i][1]);
    }
    stock_file(&file);
    expect("stock file", check(file.bytes, file.len), 0);
    const uint32_t stock[][2] = {{0, 1}, {9, 1}, {10, 1}, {19, 1}, {20, 3}, {99, 3}, {100, BOARD_FILE_NO_ANSWER}};
    for (size_t i = 0; i < sizeof stock / sizeof stock[0]; i++) {
        expect_free("stock file, free", &file, stock[i][0], stock[i][1]);
    }
    begin(&file, 1, 64, 1048576, 100000);
    expect("empty file", check(file.bytes, file.len), 0);
    expect_free("empty file, last minute", &file, 1048575, 64);
}

/* 256 rows are allowed, 257 are not. */
static void long_files(void) {
    File file;
    begin(&file, 1, 1, 1000, 300);
    for (uint32_t i = 0; i < 257; i++) {
        add(&file, i + 1, i, i + 1, 1, 1);
        if (i == 255) {
            expect("256 rows", check(file.bytes, file.len), 0);
            expect_free("256 rows, within", &file, 255, 0);
            expect_free("256 rows, behind", &file, 256, 1);
        }
    }
    expect("257 rows", check(file.bytes, file.len), 17);
    expect_free("257 rows, free", &file, 0, BOARD_FILE_NO_ANSWER);
}

/* The crew file with one field changed: where it stands, what it then is, and what is answered. */
static void damaged_fields(void) {
    const uint32_t cases[][3] = {
        {0, 0, 15}, {0, 2, 18}, {0, 3, 15},                                     /* kind */
        {4, 0, 15}, {4, 65, 15}, {4, 64, 0}, {4, 3, 18},                        /* capacity */
        {8, 0, 15}, {8, 1048577, 15}, {8, 1048576, 0}, {8, 20, 0}, {8, 19, 18}, /* horizon */
        {12, 0, 15}, {12, 100001, 15}, {12, 100000, 0}, {12, 3, 18},            /* next number */
        {16, 2, 16}, {16, 4, 16}, {16, 4294967295u, 16},                        /* count */
        {20, 23, 15}, {20, 25, 15}, {20, 0, 15},                                /* offset */
        {24, 0, 18}, {48, 1, 18}, {48, 3, 18}, {72, 4, 18},                     /* numbers */
        {28, 10, 18}, {28, 9, 0}, {32, 0, 18}, {32, 101, 18},                   /* start, end */
        {36, 0, 18}, {36, 2, 0}, {36, 3, 18}, {36, 4294967295u, 18},            /* state */
        {40, 0, 18}, {40, 16, 18}, {44, 1, 18}, {64, 1, 19}, {64, 4, 0},        /* claim */
        {88, 12, 19}, {76, 14, 0}, {76, 9, 19},                                 /* a clash of the last row */
    };
    for (size_t i = 0; i < sizeof cases / sizeof cases[0]; i++) {
        File file;
        char what[64];
        crew_file(&file);
        put32(file.bytes + cases[i][0], cases[i][1]);
        snprintf(what, sizeof what, "crew file with %u at byte %u", cases[i][1], cases[i][0]);
        expect(what, check(file.bytes, file.len), cases[i][2]);
        if (cases[i][2] != 0) {
            expect_free(what, &file, 0, BOARD_FILE_NO_ANSWER);
        }
    }
}

/* The crew file cut short or with a byte more. */
static void damaged_lengths(void) {
    File file;
    crew_file(&file);
    file.bytes[file.len] = 0;
    for (size_t len = 0; len <= file.len + 1; len++) {
        expect("length", check(file.bytes, len), len < HEADER ? 14 : len == file.len ? 0 : 16);
    }
}

static uint64_t seed = 88172645463325252u;

static uint32_t any(uint32_t below) {
    seed ^= seed << 13;
    seed ^= seed >> 7;
    seed ^= seed << 17;
    return (uint32_t)((seed >> 16) % below);
}

/* Whatever the bytes, the two answers go together. */
static void expect_sense(const File *file) {
    uint32_t answer = check(file->bytes, file->len);
    uint32_t minute = any(2) ? any(120) : any(4294967295u);
    uint32_t told = units(file->bytes, file->len, minute);
    int known = answer == 0 || (14 <= answer && answer <= 19);
    int none = answer != 0 || minute >= get32(file->bytes + 8);
    expect("the check is 0 or 14 to 19", known, 1);
    expect("no answer exactly where the file is refused or the minute is not before the horizon", told == BOARD_FILE_NO_ANSWER, none);
    if (!none) {
        expect("no more free than there are", told <= get32(file->bytes + 4), 1);
    }
}

static void random_files(unsigned long many) {
    for (unsigned long i = 0; i < many; i++) {
        File file;
        if (any(2)) {
            crew_file(&file);
        } else {
            stock_file(&file);
        }
        for (uint32_t flips = any(4); flips > 0; flips--) {
            file.bytes[any((uint32_t)file.len)] = (uint8_t)any(any(2) ? 256 : 16);
        }
        expect_sense(&file);
        memset(file.bytes, 0, sizeof file.bytes);
        file.len = any(200);
        for (size_t j = 0; j < file.len; j++) {
            file.bytes[j] = (uint8_t)any(256);
        }
        expect_sense(&file);
    }
}

int main(void) {
    good_files();
    long_files();
    damaged_fields();
    damaged_lengths();
    random_files(200000);
    printf("%lu checks, %lu wrong\n", done, wrong);
    return wrong != 0;
}
