/* Calls the archive from C as firmware does: vectors, guard bytes, short buffers, damaged letters.
 * Prints what went wrong and exits with 1, or prints how many checks passed. */
#include "goxumaphi.h"

#include <stdio.h>
#include <stdlib.h>
#include <string.h>

#define LEN GOXUMAPHI_LETTER_LEN
#define GUARD 0xA5

static unsigned long passed;

static void expect(int ok, const char *what, long detail)
{
    if (!ok) {
        printf("c check: FAILED: %s (%ld)\n", what, detail);
        exit(1);
    }
    passed++;
}

static void expect_place(const uint8_t *bytes, size_t len, uint64_t place, const char *what)
{
    struct goxumaphi_checked r = goxumaphi_letter_check(bytes, len);
    expect(r.denial == GOXUMAPHI_NO_LETTER, what, (long)len);
    expect(r.place == place, what, (long)r.place);
}

static void expect_letter(const uint8_t *bytes)
{
    struct goxumaphi_checked r = goxumaphi_letter_check(bytes, LEN);
    expect(r.denial == 0 && r.place == LEN, "a letter is one", (long)r.place);
}

/* INIT of seat 1 for slot 1: tank 5 holds 12,000 litres. */
static const uint8_t vector[LEN] = {
    0x01, 0x00, 0x01, 0x01, 0x02, 0x00, 0x01, 0x01, 0x03, 0x00, 0x01, 0x01,
    0x04, 0x00, 0x08, 0x00, 0x00, 0x00, 0x00, 0x00, 0x4C, 0x7A, 0x20,
};

static void vectors(void)
{
    uint8_t buffer[LEN];
    expect(goxumaphi_letter_write(1, 1, 1, 5012000, buffer, LEN) == 0, "the vector is written", 0);
    expect(memcmp(buffer, vector, LEN) == 0, "the vector's bytes", 0);
    expect_letter(vector);
    expect(goxumaphi_letter_write(3, 10, 2, UINT64_MAX, buffer, LEN) == 0, "the largest numbers are written", 0);
    expect(buffer[3] == 3 && buffer[7] == 10 && buffer[11] == 2, "their ranges' ends", 0);
    for (size_t i = 15; i < LEN; i++)
        expect(buffer[i] == 0xFF, "every byte of the largest code", (long)i);
    expect_letter(buffer);
}

/* Every length from none to twice a letter's: 23 bytes are filled, the others are as they were. */
static void buffers(void)
{
    for (size_t len = 0; len <= 2 * LEN; len++) {
        uint8_t room[2 * LEN + 8];
        memset(room, GUARD, sizeof room);
        uint64_t r = goxumaphi_letter_write(1, 1, 1, 5012000, room, len);
        expect(r == (len < LEN ? GOXUMAPHI_SHORT_BUFFER : 0), "the answer at this length", (long)len);
        size_t filled = len < LEN ? 0 : LEN;
        expect(memcmp(room, vector, filled) == 0, "the bytes at this length", (long)len);
        for (size_t i = filled; i < sizeof room; i++)
            expect(room[i] == GUARD, "a guard byte", (long)i);
    }
    expect(goxumaphi_letter_write(1, 1, 1, 0, NULL, 0) == GOXUMAPHI_SHORT_BUFFER, "no buffer at all", 0);
}

/* Numbers out of range are denied before the buffer is looked at, and change nothing. */
static void ranges(void)
{
    const uint64_t out[][3] = {
        {0, 1, 1}, {4, 1, 1}, {1, 0, 1}, {1, 11, 1}, {1, 1, 0}, {1, 1, 3},
        {UINT64_MAX, 1, 1}, {1, UINT64_MAX, 1}, {1, 1, UINT64_MAX}, {257, 1, 1}, {1, 257, 1}, {1, 1, 257},
    };
    for (size_t i = 0; i < sizeof out / sizeof out[0]; i++) {
        for (size_t len = 0; len <= LEN; len += LEN) {
            uint8_t room[LEN];
            memset(room, GUARD, sizeof room);
            uint64_t r = goxumaphi_letter_write(out[i][0], out[i][1], out[i][2], 7, room, len);
            expect(r == GOXUMAPHI_OUT_OF_RANGE, "a number out of range", (long)i);
            for (size_t k = 0; k < LEN; k++)
                expect(room[k] == GUARD, "a denied writer's buffer", (long)k);
        }
    }
}

/* Every byte at every place: the place that is named, or a letter. */
static void damaged(void)
{
    for (size_t at = 0; at < LEN; at++) {
        for (unsigned b = 0; b < 256; b++) {
            uint8_t bytes[LEN];
            memcpy(bytes, vector, LEN);
            bytes[at] = (uint8_t)b;
            int fits = at >= 15 || b == vector[at] || (at == 3 && b >= 1 && b <= 3) || (at == 7 && b >= 1 && b <= 10)
                || (at == 11 && b >= 1 && b <= 2);
            if (fits)
                expect_letter(bytes);
            else
                expect_place(bytes, LEN, at, "the damaged byte's place");
        }
    }
}

/* Mere beginnings, a letter with more behind it, nothing, and a megabyte. */
static void lengths(void)
{
    for (size_t len = 0; len < LEN; len++)
        expect_place(vector, len, len, "a mere beginning's length");
    uint8_t longer[LEN + 1];
    memcpy(longer, vector, LEN);
    longer[LEN] = 1;
    expect_place(longer, LEN + 1, LEN, "a byte too many");
    expect_place(NULL, 0, 0, "no bytes at all");
    size_t million = 1000000;
    uint8_t *large = malloc(million);
    expect(large != NULL, "memory for a megabyte", 0);
    memset(large, 1, million);
    expect_place(large, million, 1, "a megabyte of ones");
    memcpy(large, vector, LEN);
    expect_place(large, million, LEN, "a letter before a megabyte");
    free(large);
}

int main(void)
{
    vectors();
    buffers();
    ranges();
    damaged();
    lengths();
    printf("c check: %lu checks passed\n", passed);
    return 0;
}
