/* Times the proved check and writer beside the hand-written ones: one process, the same input, turn about. */
#define _POSIX_C_SOURCE 199309L
#include "plain.h"

#include <stdio.h>
#include <string.h>
#include <time.h>

#define LETTERS 4096
#define ROUNDS 41
#define PASSES 64
#define LEN GOXUMAPHI_LETTER_LEN

typedef struct goxumaphi_checked check_fn(const uint8_t *, size_t);
typedef uint64_t write_fn(uint64_t, uint64_t, uint64_t, uint64_t, uint8_t *, size_t);

static uint8_t whole[LETTERS][LEN], damaged[LETTERS][LEN], out[LETTERS][LEN];
static uint64_t numbers[LETTERS][4];
static volatile uint64_t sink;

static uint64_t random_state = 0x9E3779B97F4A7C15;

static uint64_t next_random(void)
{
    random_state ^= random_state << 13;
    random_state ^= random_state >> 7;
    random_state ^= random_state << 17;
    return random_state;
}

static double now_ns(void)
{
    struct timespec t;
    clock_gettime(CLOCK_MONOTONIC, &t);
    return (double)t.tv_sec * 1e9 + (double)t.tv_nsec;
}

static double time_check(check_fn *check, uint8_t (*letters)[LEN])
{
    uint64_t sum = 0;
    double start = now_ns();
    for (int pass = 0; pass < PASSES; pass++)
        for (int i = 0; i < LETTERS; i++) {
            struct goxumaphi_checked r = check(letters[i], LEN);
            sum += r.denial + r.place;
        }
    double end = now_ns();
    sink = sum;
    return (end - start) / ((double)PASSES * LETTERS);
}

static double time_write(write_fn *write)
{
    uint64_t sum = 0;
    double start = now_ns();
    for (int pass = 0; pass < PASSES; pass++)
        for (int i = 0; i < LETTERS; i++)
            sum += write(numbers[i][0], numbers[i][1], numbers[i][2], numbers[i][3], out[i], LEN);
    double end = now_ns();
    sink = sum;
    return (end - start) / ((double)PASSES * LETTERS);
}

static void sort(double *xs)
{
    for (int i = 1; i < ROUNDS; i++)
        for (int j = i; j > 0 && xs[j] < xs[j - 1]; j--) {
            double x = xs[j];
            xs[j] = xs[j - 1];
            xs[j - 1] = x;
        }
}

/* The median of each side, and their quotient. */
static int report(const char *what, double *ours, double *plain)
{
    sort(ours);
    sort(plain);
    double ratio = ours[ROUNDS / 2] / plain[ROUNDS / 2];
    printf("%-16s  proved %6.2f ns  by hand %6.2f ns  ratio %.2f\n", what, ours[ROUNDS / 2], plain[ROUNDS / 2], ratio);
    return ratio <= 1.2;
}

int main(void)
{
    for (int i = 0; i < LETTERS; i++) {
        numbers[i][0] = next_random() % 3 + 1;
        numbers[i][1] = next_random() % 10 + 1;
        numbers[i][2] = next_random() % 2 + 1;
        numbers[i][3] = next_random();
        plain_letter_write(numbers[i][0], numbers[i][1], numbers[i][2], numbers[i][3], whole[i], LEN);
        memcpy(damaged[i], whole[i], LEN);
        damaged[i][next_random() % 15] ^= 0x80;
    }
    static double ours[3][ROUNDS], plain[3][ROUNDS];
    for (int round = 0; round < ROUNDS; round++) {
        ours[0][round] = time_check(goxumaphi_letter_check, whole);
        plain[0][round] = time_check(plain_letter_check, whole);
        ours[1][round] = time_check(goxumaphi_letter_check, damaged);
        plain[1][round] = time_check(plain_letter_check, damaged);
        ours[2][round] = time_write(goxumaphi_letter_write);
        plain[2][round] = time_write(plain_letter_write);
    }
    int good = report("check, a letter", ours[0], plain[0]);
    good &= report("check, damaged", ours[1], plain[1]);
    good &= report("write", ours[2], plain[2]);
    printf(good ? "all within 1.2 times\n" : "over 1.2 times\n");
    return good ? 0 : 1;
}
