/* Long pictures from C, in a thread that has no more stack than the header asks for, or the least that the system allows: every
 * pixel is compared with a look at it. Prints what is wrong, and exits 1 if anything is. */
#define _POSIX_C_SOURCE 200112L
#include <limits.h>
#include <pthread.h>
#include <stdio.h>
#include <string.h>

#include "erythmoda.h"

#define STACK_BYTES 65536
#define MOST_PIXELS 5000
#define MOST_PLACES (3 * 1025)
#define KEPT 777 /* what lent memory holds beforehand */

static uint16_t raw_codes[3 * MOST_PIXELS], corrected_codes[3 * MOST_PIXELS + 1];
static int64_t samples[MOST_PLACES];
static int wrong = 0;

static void expect(int holds, const char *what) {
    if (!holds) {
        printf("wrong: %s\n", what);
        wrong = 1;
    }
}

/* Numbers that look random, the same at every run. */
static uint64_t draw(uint64_t end) {
    static uint64_t state = 1;
    state = state * 6364136223846793005u + 1442695040888963407u;
    return (state >> 33) % end;
}

static int is_look(const int64_t *description, size_t places, uint32_t raw_bits, uint32_t corrected_bits, size_t at) {
    uint16_t codes[3];
    uint32_t rows[6];
    int64_t weights[6];
    uint32_t answer = erythmoda_look(description, samples, places, raw_bits, corrected_bits, raw_codes + at, codes, rows, weights);
    return answer == ERYTHMODA_ACCEPTED && memcmp(codes, corrected_codes + at, sizeof codes) == 0;
}

/* A picture of random codes through a random table with the domain 0 to 1. */
static void picture(int kind, int64_t n, uint32_t raw_bits, uint32_t corrected_bits, size_t pixels, const char *what) {
    int64_t description[ERYTHMODA_DESCRIPTION_PLACES] = {0, 0, 0, 0, 0, 1000, 1000, 1000, 0, 0, 0};
    size_t places = (size_t)(kind == 3 ? 3 * n * n * n : 3 * n), i, alike = 0;
    uint32_t answer;
    description[0] = kind;
    description[1] = n;
    for (i = 0; i < places; i++) samples[i] = (int64_t)draw(12000001) - 1000000;
    for (i = 0; i < 3 * pixels; i++) raw_codes[i] = (uint16_t)draw((uint64_t)1 << raw_bits);
    corrected_codes[3 * pixels] = KEPT;
    answer = erythmoda_picture(description, samples, places, raw_bits, corrected_bits, raw_codes, 3 * pixels, corrected_codes,
                               3 * pixels + 1);
    for (i = 0; i < 3 * pixels; i += 3) alike += (size_t)is_look(description, places, raw_bits, corrected_bits, i);
    expect(answer == ERYTHMODA_ACCEPTED && alike == pixels && corrected_codes[3 * pixels] == KEPT, what);
}

static void *pictures(void *nothing) {
    picture(3, 9, 8, 8, 200, "3D at 8 bits, more than three blocks");
    picture(3, 9, 16, 16, 65, "3D at 16 bits, a block and a pixel");
    picture(3, 9, 12, 16, 193, "3D from 12 bits to 16");
    picture(1, 17, 8, 8, 300, "1D at 8 bits, more pixels than codes");
    picture(1, 17, 12, 16, MOST_PIXELS, "1D from 12 bits to 16, more pixels than codes");
    picture(1, 1025, 16, 16, 2000, "1D at 16 bits, 1,024 cells");
    picture(1, 17, 16, 12, 300, "1D from 16 bits to 12");
    return nothing;
}

int main(void) {
    size_t least = (size_t)PTHREAD_STACK_MIN, stack = least > STACK_BYTES ? least : STACK_BYTES;
    pthread_attr_t attributes;
    pthread_t thread;
    if (pthread_attr_init(&attributes) || pthread_attr_setstacksize(&attributes, stack) ||
        pthread_create(&thread, &attributes, pictures, NULL) || pthread_join(thread, NULL)) {
        expect(0, "a thread with so small a stack");
    }
    return wrong;
}
