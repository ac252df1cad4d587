/* Measures a peer, ffmpeg or OpenColorIO: how long it takes to correct a picture, and to which codes.
 *
 *   PEER version                                            prints the peer's version
 *   PEER CUBE RAW CORRECTED KIND BITS WIDTH HEIGHT ROUNDS   prints the median of the rounds in nanoseconds a pixel
 *
 * CUBE is the table's file, RAW that of the raw codes and CORRECTED the one that the corrected codes are written to, both as
 * peer.h has them. KIND is 1 or 3, BITS 8 or 16. */
#define _POSIX_C_SOURCE 199309L
#include <stdio.h>
#include <stdlib.h>
#include <string.h>
#include <time.h>

#include "peer.h"

void demand(int holds, const char *what) {
    if (!holds) {
        fprintf(stderr, "%s\n", what);
        exit(1);
    }
}

static void *memory(size_t size) {
    void *lent = malloc(size);
    demand(lent != NULL, "there is no memory");
    return lent;
}

static struct picture read_picture(const char *name, int bits, int width, int height) {
    struct picture raw;
    FILE *file = fopen(name, "rb");
    size_t size;
    demand((bits == 8 || bits == 16) && width > 0 && height > 0, "a picture has 8 or 16 bits and one pixel or more");
    raw.bits = bits, raw.width = width, raw.height = height;
    raw.line_size = (size_t)width * 3 * (size_t)bits / 8;
    size = raw.line_size * (size_t)height;
    raw.codes = (unsigned char *)memory(size);
    demand(file != NULL && fread(raw.codes, 1, size, file) == size && fclose(file) == 0, "the raw codes cannot be read");
    return raw;
}

static void write_codes(const char *name, const struct picture *raw) {
    FILE *file = fopen(name, "wb");
    int y;
    demand(file != NULL, "the corrected codes cannot be written");
    for (y = 0; y < raw->height; y++) {
        demand(fwrite(peer_line(y), 1, raw->line_size, file) == raw->line_size, "the corrected codes cannot be written");
    }
    demand(fclose(file) == 0, "the corrected codes cannot be written");
}

static double nanoseconds(void) {
    struct timespec now;
    clock_gettime(CLOCK_MONOTONIC, &now);
    return (double)now.tv_sec * 1e9 + (double)now.tv_nsec;
}

static int order(const void *one, const void *other) {
    double left = *(const double *)one, right = *(const double *)other;
    return (left > right) - (left < right);
}

static double median_time(int rounds) {
    double *times = (double *)memory((size_t)rounds * sizeof *times);
    int round;
    for (round = 0; round < rounds; round++) {
        double start = nanoseconds();
        peer_correct();
        times[round] = nanoseconds() - start;
    }
    qsort(times, (size_t)rounds, sizeof *times, order);
    return times[rounds / 2];
}

int main(int count, char **words) {
    if (count == 2 && strcmp(words[1], "version") == 0) {
        printf("%s\n", peer_version());
    } else {
        demand(count == 9, "usage: PEER version, or PEER CUBE RAW CORRECTED KIND BITS WIDTH HEIGHT ROUNDS");
        enum kind kind = atoi(words[4]) == 3 ? THREE_D : ONE_D;
        struct picture raw = read_picture(words[2], atoi(words[5]), atoi(words[6]), atoi(words[7]));
        int rounds = atoi(words[8]);
        demand(rounds > 0, "there is one round or more");
        peer_prepare(words[1], kind, &raw);
        printf("%.2f\n", median_time(rounds) / raw.width / raw.height);
        write_codes(words[3], &raw);
    }
    return 0;
}
