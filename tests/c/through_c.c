/* The eight calls from C: document 01's 3D file is judged, read, looked at, at once and by halves, and applied, with one domain
 * and with mixed ones, and written; raw codes are found through a 1D table; every answer is compared, and so is everything lent
 * that a call may not change; then the header's words and version. Prints what is wrong, and exits 1 if anything is. */
#include <stdio.h>
#include <stdlib.h>
#include <string.h>

#include "erythmoda.h"

#define TABLE_PLACES 27 /* three more than the file's eight rows need */
#define ROW_PLACES 24
#define KEPT 77 /* what lent memory holds beforehand; no call writes it here */

#define CUBE_ROWS "0 0 0\n0 0 0\n0 0 0\n0 0 0\n0 0 0\n0 0 0\n0 0 0\n1 1 1\n"
#define CUBE_LINES "LUT_3D_SIZE 2\n" CUBE_ROWS
static const char CUBE[] = CUBE_LINES;
static const int64_t CUBE_DESCRIPTION[ERYTHMODA_DESCRIPTION_PLACES] = {3, 2, 0, 0, 0, 1000, 1000, 1000, 0, 0, 0};

/* An accepted reading of CUBE, shared by the calls after it. */
struct colour_table {
    int64_t description[ERYTHMODA_DESCRIPTION_PLACES];
    int64_t samples[TABLE_PLACES];
};

static int wrong = 0;

static void expect(int holds, const char *what) {
    if (!holds) {
        printf("wrong: %s\n", what);
        wrong = 1;
    }
}

static void expect_number(uint32_t answer, enum erythmoda_number expected, const char *what) {
    if (answer != (uint32_t)expected) {
        printf("wrong: %s: answered %lu, expected %d\n", what, (unsigned long)answer, (int)expected);
        wrong = 1;
    }
}

static int all_are(const int64_t *numbers, size_t count, int64_t value) {
    size_t i;
    for (i = 0; i < count; i++) {
        if (numbers[i] != value) return 0;
    }
    return 1;
}

static void fill(int64_t *numbers, size_t count, int64_t value) {
    size_t i;
    for (i = 0; i < count; i++) numbers[i] = value;
}

static int describes_nothing(const int64_t description[ERYTHMODA_DESCRIPTION_PLACES]) {
    return description[0] == 1 && all_are(description + 1, ERYTHMODA_DESCRIPTION_PLACES - 1, 0);
}

static struct colour_table read_cube(void) {
    struct colour_table table;
    uint64_t line = KEPT;
    uint32_t answer;
    fill(table.description, ERYTHMODA_DESCRIPTION_PLACES, KEPT);
    fill(table.samples, TABLE_PLACES, KEPT);
    answer = erythmoda_read((const uint8_t *)CUBE, sizeof CUBE - 1, table.samples, TABLE_PLACES,
                            table.description, &line);
    expect_number(answer, ERYTHMODA_ACCEPTED, "reading the 3D file");
    expect(line == 0, "an accepted reading has line 0");
    expect(memcmp(table.description, CUBE_DESCRIPTION, sizeof CUBE_DESCRIPTION) == 0, "the description");
    expect(all_are(table.samples, ROW_PLACES - 3, 0), "rows 0 to 6 are zeros");
    expect(all_are(table.samples + ROW_PLACES - 3, 3, 10000000), "row 7 is ones");
    expect(all_are(table.samples + ROW_PLACES, TABLE_PLACES - ROW_PLACES, KEPT), "later places are kept");
    return table;
}

static void refused_reading(void) {
    int64_t samples[TABLE_PLACES], description[ERYTHMODA_DESCRIPTION_PLACES];
    uint64_t line = KEPT;
    uint32_t answer;
    fill(samples, TABLE_PLACES, KEPT);
    fill(description, ERYTHMODA_DESCRIPTION_PLACES, KEPT);
    /* all but the last line: eight lines, and the end stands on the ninth */
    answer = erythmoda_read((const uint8_t *)CUBE, sizeof CUBE - 1 - strlen("1 1 1\n"), samples, TABLE_PLACES,
                            description, &line);
    expect_number(answer, ERYTHMODA_TOO_FEW_ROWS, "reading seven rows of eight");
    expect(line == 9, "the line of the refusal");
    expect(describes_nothing(description), "a refused reading describes nothing");
    expect(all_are(samples, TABLE_PLACES, KEPT), "a refused reading keeps the table");
    answer = erythmoda_read((const uint8_t *)CUBE, sizeof CUBE - 1, samples, ROW_PLACES - 1, description, &line);
    expect_number(answer, ERYTHMODA_TABLE_TOO_SHORT, "reading into 23 places");
    expect(line == 2 && all_are(samples, TABLE_PLACES, KEPT), "a short table is kept, and its line is the first data line");
}

/* Numbers whose point has nothing after it, of a domain and of samples; and a point without a digit, which is none. */
static void points(void) {
    static const char bare[] = "DOMAIN_MIN 0. 0. 0.\nDOMAIN_MAX 2. 2. 2.\nLUT_1D_SIZE 2\n0. -5. 7.E-2\n1. 1. 1.e0\n";
    static const char lone[] = "LUT_1D_SIZE 2\n0 0 0\n1 -. 1\n";
    static const int64_t first_row[] = {0, -50000000, 700000};
    int64_t samples[6], description[ERYTHMODA_DESCRIPTION_PLACES];
    uint64_t line = KEPT;
    uint32_t answer;
    answer = erythmoda_read((const uint8_t *)bare, sizeof bare - 1, samples, 6, description, &line);
    expect_number(answer, ERYTHMODA_ACCEPTED, "reading points with nothing after them");
    expect(memcmp(samples, first_row, sizeof first_row) == 0 && all_are(samples + 3, 3, 10000000), "their samples");
    expect(all_are(description + 2, 3, 0) && all_are(description + 5, 3, 2000), "their domain");
    answer = erythmoda_read((const uint8_t *)lone, sizeof lone - 1, samples, 6, description, &line);
    expect_number(answer, ERYTHMODA_NOT_THREE_NUMBERS, "reading a point without a digit");
    expect(line == 3, "the line of the point without a digit");
}

/* A file whose domain lines are refused, read and checked: both answer the number and this line, and the table is kept. */
static void refused_domain(const char *file, enum erythmoda_number number, uint64_t expected_line) {
    int64_t samples[TABLE_PLACES], description[ERYTHMODA_DESCRIPTION_PLACES];
    uint64_t line = KEPT, places = KEPT;
    uint32_t answer;
    fill(samples, TABLE_PLACES, KEPT);
    fill(description, ERYTHMODA_DESCRIPTION_PLACES, KEPT);
    answer = erythmoda_read((const uint8_t *)file, strlen(file), samples, TABLE_PLACES, description, &line);
    expect_number(answer, number, "reading a refused domain");
    expect(line == expected_line, "the line of a refused domain");
    expect(describes_nothing(description), "a refused domain describes nothing");
    expect(all_are(samples, TABLE_PLACES, KEPT), "a refused domain keeps the table");
    line = KEPT;
    fill(description, ERYTHMODA_DESCRIPTION_PLACES, KEPT);
    answer = erythmoda_check((const uint8_t *)file, strlen(file), description, &line, &places);
    expect_number(answer, number, "checking a refused domain");
    expect(line == expected_line && places == 0, "a refused domain, checked, has the same line, and no places");
    expect(describes_nothing(description), "a refused domain, checked, describes nothing");
}

static void check_then_read(void) {
    int64_t *samples, description[ERYTHMODA_DESCRIPTION_PLACES], read_description[ERYTHMODA_DESCRIPTION_PLACES];
    uint64_t line = KEPT, places = KEPT;
    uint32_t answer;
    fill(description, ERYTHMODA_DESCRIPTION_PLACES, KEPT);
    answer = erythmoda_check((const uint8_t *)CUBE, sizeof CUBE - 1, description, &line, &places);
    expect_number(answer, ERYTHMODA_ACCEPTED, "checking the 3D file");
    expect(line == 0 && places == ROW_PLACES, "an accepted check has line 0, and three places for each row");
    expect(memcmp(description, CUBE_DESCRIPTION, sizeof CUBE_DESCRIPTION) == 0, "the description without a table");
    if (places > ROW_PLACES) return;
    samples = (int64_t *)malloc((size_t)places * sizeof *samples);
    if (samples == NULL) {
        expect(0, "memory for the places");
        return;
    }
    answer = erythmoda_read((const uint8_t *)CUBE, sizeof CUBE - 1, samples, (size_t)places, read_description, &line);
    expect_number(answer, ERYTHMODA_ACCEPTED, "reading into the places that check told");
    expect(memcmp(read_description, description, sizeof description) == 0, "reading describes what check described");
    answer = erythmoda_read((const uint8_t *)CUBE, sizeof CUBE - 1, samples, (size_t)places - 1, read_description, &line);
    expect_number(answer, ERYTHMODA_TABLE_TOO_SHORT, "reading into one place fewer than check told");
    free(samples);
}

static void refused_check(void) {
    static const char size_alone[] = "LUT_3D_SIZE 256\n";
    int64_t description[ERYTHMODA_DESCRIPTION_PLACES];
    uint64_t line = KEPT, places = KEPT;
    uint32_t answer;
    fill(description, ERYTHMODA_DESCRIPTION_PLACES, KEPT);
    answer = erythmoda_check((const uint8_t *)size_alone, sizeof size_alone - 1, description, &line, &places);
    expect_number(answer, ERYTHMODA_TOO_FEW_ROWS, "checking the greatest size with no rows");
    expect(line == 2 && places == 0, "a refused check has its line, and no places");
    expect(describes_nothing(description), "a refused check describes nothing");
    places = KEPT;
    answer = erythmoda_check((const uint8_t *)CUBE, 0, description, &line, &places);
    expect_number(answer, ERYTHMODA_NO_SIZE, "checking no bytes");
    expect(line == 1 && places == 0, "no bytes are refused on line 1, with no places");
}

/* All that a look writes. */
struct looked {
    uint16_t codes[3];
    uint32_t rows[6];
    int64_t weights[6];
};

static struct looked kept_look(void) {
    static const struct looked kept = {{KEPT, KEPT, KEPT},
                                       {KEPT, KEPT, KEPT, KEPT, KEPT, KEPT},
                                       {KEPT, KEPT, KEPT, KEPT, KEPT, KEPT}};
    return kept;
}

static int looks_alike(const struct looked *one, const struct looked *other) {
    return memcmp(one->codes, other->codes, sizeof one->codes) == 0 && memcmp(one->rows, other->rows, sizeof one->rows) == 0 &&
           memcmp(one->weights, other->weights, sizeof one->weights) == 0;
}

static void expect_look(const struct colour_table *table, uint32_t raw_bits, uint32_t corrected_bits, const uint16_t pixel[3],
                        enum erythmoda_number number, const struct looked *expected, const char *what) {
    struct looked seen = kept_look();
    uint32_t answer = erythmoda_look(table->description, table->samples, ROW_PLACES, raw_bits, corrected_bits, pixel, seen.codes,
                                     seen.rows, seen.weights);
    expect_number(answer, number, what);
    expect(looks_alike(&seen, expected), what);
}

/* A fifth, two fifths and four fifths of M: the least of them is what the table gives, in codes of either depth. The rows are
 * the same at every depth, and the weights are those of the raw one. */
static void look(const struct colour_table *table) {
    static const uint16_t of_8[3] = {51, 102, 204}, of_12[3] = {819, 1638, 3276}, of_16[3] = {13107, 26214, 52428};
    static const struct looked from_8_to_8 = {
        {51, 51, 51}, {0, 4, 6, 7, 0, 0}, {51000, 102000, 51000, 51000, 0, 0}};
    static const struct looked from_8_to_16 = {
        {13107, 13107, 13107}, {0, 4, 6, 7, 0, 0}, {51000, 102000, 51000, 51000, 0, 0}};
    static const struct looked from_12_to_16 = {
        {13107, 13107, 13107}, {0, 4, 6, 7, 0, 0}, {819000, 1638000, 819000, 819000, 0, 0}};
    static const struct looked from_16_to_8 = {
        {51, 51, 51}, {0, 4, 6, 7, 0, 0}, {13107000, 26214000, 13107000, 13107000, 0, 0}};
    expect_look(table, 8, 8, of_8, ERYTHMODA_ACCEPTED, &from_8_to_8, "looking at 51 102 204");
    expect_look(table, 8, 16, of_8, ERYTHMODA_ACCEPTED, &from_8_to_16, "looking from 8 bits to 16");
    expect_look(table, 12, 16, of_12, ERYTHMODA_ACCEPTED, &from_12_to_16, "looking from 12 bits to 16, above the raw M");
    expect_look(table, 16, 8, of_16, ERYTHMODA_ACCEPTED, &from_16_to_8, "looking from 16 bits to 8");
}

static void refused_look(const struct colour_table *table) {
    static const uint16_t pixel[3] = {51, 102, 204}, above[3] = {0, 0, 256};
    static const struct looked zeros = {{0, 0, 0}, {0, 0, 0, 0, 0, 0}, {0, 0, 0, 0, 0, 0}};
    struct colour_table unsound;
    memcpy(&unsound, table, sizeof unsound);
    unsound.description[0] = 2;
    expect_look(&unsound, 9, 9, above, ERYTHMODA_COULD_NOT_BE_READ, &zeros, "looking with a table of no kind");
    expect_look(table, 9, 9, pixel, ERYTHMODA_DEPTH_UNKNOWN, &zeros, "looking with 9 bits");
    expect_look(table, 9, 8, pixel, ERYTHMODA_DEPTH_UNKNOWN, &zeros, "looking from 9 bits to 8");
    expect_look(table, 8, 9, pixel, ERYTHMODA_DEPTH_UNKNOWN, &zeros, "looking from 8 bits to 9");
    expect_look(table, 8, 9, above, ERYTHMODA_DEPTH_UNKNOWN, &zeros, "looking from 8 bits to 9 at the code 256");
    expect_look(table, 8, 8, above, ERYTHMODA_CODE_ABOVE_M, &zeros, "looking at the code 256");
    expect_look(table, 8, 16, above, ERYTHMODA_CODE_ABOVE_M, &zeros, "looking from 8 bits to 16 at the code 256");
}

/* The first half of a look. */
static void expect_rows(const struct colour_table *table, uint32_t raw_bits, const uint16_t pixel[3], enum erythmoda_number number,
                        const uint32_t rows[6], const int64_t weights[6], const char *what) {
    struct looked seen = kept_look();
    uint32_t answer = erythmoda_rows(table->description, table->samples, ROW_PLACES, raw_bits, pixel, seen.rows, seen.weights);
    expect_number(answer, number, what);
    expect(memcmp(seen.rows, rows, sizeof seen.rows) == 0 && memcmp(seen.weights, weights, sizeof seen.weights) == 0, what);
}

/* The second half, and that it changes neither rows nor weights. */
static void expect_codes(const struct colour_table *table, uint32_t raw_bits, uint32_t corrected_bits, const uint32_t rows[6],
                         const int64_t weights[6], enum erythmoda_number number, uint16_t code, const char *what) {
    struct looked seen = kept_look(), lent = kept_look();
    uint32_t answer;
    memcpy(lent.rows, rows, sizeof lent.rows);
    memcpy(lent.weights, weights, sizeof lent.weights);
    answer = erythmoda_codes(table->description, table->samples, TABLE_PLACES, raw_bits, corrected_bits, lent.rows, lent.weights,
                             seen.codes);
    expect_number(answer, number, what);
    expect(seen.codes[0] == code && seen.codes[1] == code && seen.codes[2] == code, what);
    expect(memcmp(lent.rows, rows, sizeof lent.rows) == 0 && memcmp(lent.weights, weights, sizeof lent.weights) == 0, what);
}

static const uint32_t NO_ROWS[6] = {0, 0, 0, 0, 0, 0}, ROWS_MET[6] = {0, 4, 6, 7, 0, 0};
static const int64_t NO_WEIGHTS[6] = {0, 0, 0, 0, 0, 0}, WEIGHTS_OF_8[6] = {51000, 102000, 51000, 51000, 0, 0};

static void halves(const struct colour_table *table) {
    static const uint16_t pixel[3] = {51, 102, 204}, above[3] = {0, 0, 256};
    static const uint32_t any_rows[6] = {7, 0, 0, 7, 8, UINT32_MAX};
    static const int64_t any_weights[6] = {51000, 204000, 0, 0, INT64_MIN, INT64_MAX}, of_mixed[6] = {102, 204, 153, 51, 0, 0};
    struct colour_table mixed, unsound;
    memcpy(&mixed, table, sizeof mixed);
    mixed.description[5] = 2000;
    memcpy(&unsound, table, sizeof unsound);
    unsound.description[0] = 2;
    expect_rows(table, 8, pixel, ERYTHMODA_ACCEPTED, ROWS_MET, WEIGHTS_OF_8, "the rows of 51 102 204");
    expect_rows(&mixed, 8, pixel, ERYTHMODA_ACCEPTED, ROWS_MET, of_mixed, "the rows of 51 102 204 through mixed domains");
    expect_rows(&unsound, 9, above, ERYTHMODA_COULD_NOT_BE_READ, NO_ROWS, NO_WEIGHTS, "rows of a table of no kind");
    expect_rows(table, 9, above, ERYTHMODA_DEPTH_UNKNOWN, NO_ROWS, NO_WEIGHTS, "rows at 9 bits");
    expect_rows(table, 8, above, ERYTHMODA_CODE_ABOVE_M, NO_ROWS, NO_WEIGHTS, "rows of the code 256");
    expect_codes(table, 8, 8, ROWS_MET, WEIGHTS_OF_8, ERYTHMODA_ACCEPTED, 51, "the codes of those rows");
    expect_codes(table, 8, 16, ROWS_MET, WEIGHTS_OF_8, ERYTHMODA_ACCEPTED, 13107, "the codes of those rows at 16 bits");
    expect_codes(&mixed, 8, 16, ROWS_MET, of_mixed, ERYTHMODA_ACCEPTED, 6554, "the codes of rows through mixed domains");
    expect_codes(table, 8, 8, any_rows, any_weights, ERYTHMODA_ACCEPTED, 51, "the codes of any rows and last places");
}

static void expect_no_codes(const struct colour_table *table, uint32_t raw_bits, uint32_t corrected_bits, const uint32_t rows[6],
                            const int64_t weights[6], enum erythmoda_number number, const char *what) {
    expect_codes(table, raw_bits, corrected_bits, rows, weights, number, 0, what);
}

/* Each refusal, and those before it where several are due; 26 by each of the four places. */
static void refused_codes(const struct colour_table *table) {
    static const int64_t wraps[6] = {INT64_MAX, INT64_MAX, 2, 255000, 0, 0}, of_16[6] = {65535000, 0, 0, 0, 0, 0};
    static const int64_t ends[2] = {INT64_MIN, INT64_MAX};
    struct colour_table unsound;
    uint32_t rows[6];
    int64_t weights[6];
    size_t at, end;
    memcpy(&unsound, table, sizeof unsound);
    unsound.description[0] = 2;
    for (at = 0; at < 4; at++) {
        memcpy(rows, ROWS_MET, sizeof rows);
        rows[at] = 8;
        expect_no_codes(&unsound, 9, 9, rows, WEIGHTS_OF_8, ERYTHMODA_COULD_NOT_BE_READ, "codes of a table of no kind");
        expect_no_codes(table, 9, 8, rows, WEIGHTS_OF_8, ERYTHMODA_DEPTH_UNKNOWN, "codes from 9 bits to 8");
        expect_no_codes(table, 8, 9, rows, WEIGHTS_OF_8, ERYTHMODA_DEPTH_UNKNOWN, "codes from 8 bits to 9");
        expect_no_codes(table, 8, 8, rows, WEIGHTS_OF_8, ERYTHMODA_ROWS_OR_WEIGHTS_WRONG, "codes of row 8 of eight rows");
        rows[at] = UINT32_MAX;
        fill(weights, 6, 0);
        weights[(at + 1) % 4] = 255000;
        expect_no_codes(table, 8, 8, rows, weights, ERYTHMODA_ROWS_OR_WEIGHTS_WRONG, "codes of the greatest row without weight");
        weights[at] = -1;
        weights[(at + 1) % 4] = 255001;
        expect_no_codes(table, 8, 8, ROWS_MET, weights, ERYTHMODA_ROWS_OR_WEIGHTS_WRONG, "codes of a negative weight");
        weights[at] = 0;
        expect_no_codes(table, 8, 8, ROWS_MET, weights, ERYTHMODA_ROWS_OR_WEIGHTS_WRONG, "codes of weights one too many");
        weights[(at + 1) % 4] = 254999;
        expect_no_codes(table, 8, 8, ROWS_MET, weights, ERYTHMODA_ROWS_OR_WEIGHTS_WRONG, "codes of weights one too few");
        for (end = 0; end < 2; end++) {
            memcpy(weights, WEIGHTS_OF_8, sizeof weights);
            weights[at] = ends[end];
            expect_no_codes(table, 8, 8, ROWS_MET, weights, ERYTHMODA_ROWS_OR_WEIGHTS_WRONG, "codes of a weight at an end");
            fill(weights, 6, ends[end]);
            expect_no_codes(table, 8, 8, ROWS_MET, weights, ERYTHMODA_ROWS_OR_WEIGHTS_WRONG, "codes of weights at an end");
        }
    }
    expect_no_codes(table, 8, 8, ROWS_MET, wraps, ERYTHMODA_ROWS_OR_WEIGHTS_WRONG, "codes of a sum that wraps");
    expect_no_codes(table, 8, 16, ROWS_MET, of_16, ERYTHMODA_ROWS_OR_WEIGHTS_WRONG, "codes of weights at another depth");
}

/* In 1D each colour has two places and a denominator of its own. */
static void codes_of_lines(void) {
    static const int64_t description[ERYTHMODA_DESCRIPTION_PLACES] = {1, 2, 0, 0, 0, 1000, 2000, 3000, 0, 0, 0};
    static const int64_t samples[6] = {0, 0, 0, 10000000, 10000000, 10000000};
    static const uint16_t pixel[3] = {102, 204, 0};
    static const uint32_t rows[6] = {0, 1, 0, 1, 0, 1}, right[6] = {0, 1, 1, 0, 0, 1};
    static const int64_t weights[6] = {153000, 102000, 306000, 204000, 765000, 0};
    static const int64_t fifths[6] = {153000, 102000, 204000, 306000, 459000, 306000};
    static const int64_t swapped[6] = {204000, 306000, 153000, 102000, 459000, 306000};
    struct colour_table table;
    memcpy(table.description, description, sizeof description);
    fill(table.samples, TABLE_PLACES, 0);
    memcpy(table.samples, samples, sizeof samples);
    expect_rows(&table, 8, pixel, ERYTHMODA_ACCEPTED, rows, weights, "the rows of 102 204 0 in 1D");
    expect_codes(&table, 8, 8, right, fifths, ERYTHMODA_ACCEPTED, 102, "codes of two fifths in 1D");
    expect_no_codes(&table, 8, 8, right, swapped, ERYTHMODA_ROWS_OR_WEIGHTS_WRONG, "codes of another colour's weights");
}

#define OUTPUT_PLACES 8

/* Corrects into the first `dst_len` of the output's places, and compares all of them afterwards. */
static void expect_picture(const struct colour_table *table, uint32_t raw_bits, uint32_t corrected_bits, const uint16_t *src,
                           size_t src_len, size_t dst_len, enum erythmoda_number number,
                           const uint16_t expected[OUTPUT_PLACES], const char *what) {
    uint16_t dst[OUTPUT_PLACES] = {KEPT, KEPT, KEPT, KEPT, KEPT, KEPT, KEPT, KEPT};
    uint32_t answer = erythmoda_picture(table->description, table->samples, ROW_PLACES, raw_bits, corrected_bits, src, src_len,
                                        dst, dst_len);
    expect_number(answer, number, what);
    expect(memcmp(dst, expected, sizeof dst) == 0, what);
}

static const uint16_t KEPT_OUTPUT[OUTPUT_PLACES] = {KEPT, KEPT, KEPT, KEPT, KEPT, KEPT, KEPT, KEPT};

static void picture(const struct colour_table *table) {
    static const uint16_t of_8[6] = {51, 102, 204, 255, 255, 255}, of_12[6] = {819, 1638, 3276, 4095, 1, 4095};
    static const uint16_t from_8_to_8[OUTPUT_PLACES] = {51, 51, 51, 255, 255, 255, KEPT, KEPT};
    static const uint16_t from_8_to_10[OUTPUT_PLACES] = {205, 205, 205, 1023, 1023, 1023, KEPT, KEPT};
    static const uint16_t from_12_to_16[OUTPUT_PLACES] = {13107, 13107, 13107, 16, 16, 16, KEPT, KEPT};
    static const uint16_t from_12_to_8[OUTPUT_PLACES] = {51, 51, 51, 0, 0, 0, KEPT, KEPT};
    expect_picture(table, 8, 8, of_8, 6, 8, ERYTHMODA_ACCEPTED, from_8_to_8, "a picture of two pixels");
    expect_picture(table, 8, 10, of_8, 6, 8, ERYTHMODA_ACCEPTED, from_8_to_10, "a picture from 8 bits to 10");
    expect_picture(table, 12, 16, of_12, 6, 8, ERYTHMODA_ACCEPTED, from_12_to_16, "a picture from 12 bits to 16");
    expect_picture(table, 12, 8, of_12, 6, 8, ERYTHMODA_ACCEPTED, from_12_to_8, "a picture from 12 bits to 8");
    expect_picture(table, 8, 8, of_8, 0, 0, ERYTHMODA_ACCEPTED, KEPT_OUTPUT, "a picture of no pixels");
    expect_picture(table, 8, 16, of_8, 0, 8, ERYTHMODA_ACCEPTED, KEPT_OUTPUT, "a picture of no pixels from 8 bits to 16");
}

/* A refused picture, which keeps the output. */
static void expect_refusal(const struct colour_table *table, uint32_t raw_bits, uint32_t corrected_bits, const uint16_t *src,
                           size_t src_len, size_t dst_len, enum erythmoda_number number, const char *what) {
    expect_picture(table, raw_bits, corrected_bits, src, src_len, dst_len, number, KEPT_OUTPUT, what);
}

static void refused_picture(const struct colour_table *table) {
    static const uint16_t src[6] = {51, 102, 204, 255, 255, 255}, above[3] = {0, 0, 256};
    struct colour_table unsound;
    memcpy(&unsound, table, sizeof unsound);
    unsound.samples[ROW_PLACES - 1] = INT64_MAX;
    expect_refusal(&unsound, 9, 9, src, 5, 5, ERYTHMODA_COULD_NOT_BE_READ, "a picture through a sample beyond 1000");
    expect_refusal(table, 9, 9, src, 0, 0, ERYTHMODA_DEPTH_UNKNOWN, "a picture of no pixels with 9 bits");
    expect_refusal(table, 9, 8, src, 5, 8, ERYTHMODA_DEPTH_UNKNOWN, "a picture from 9 bits to 8");
    expect_refusal(table, 8, 9, src, 6, 8, ERYTHMODA_DEPTH_UNKNOWN, "a picture from 8 bits to 9");
    expect_refusal(table, 8, 9, src, 5, 8, ERYTHMODA_DEPTH_UNKNOWN, "a picture from 8 bits to 9 of five codes");
    expect_refusal(table, 8, 9, src, 6, 5, ERYTHMODA_DEPTH_UNKNOWN, "a picture from 8 bits to 9 into five places");
    expect_refusal(table, 8, 9, above, 3, 8, ERYTHMODA_DEPTH_UNKNOWN, "a picture from 8 bits to 9 with the code 256");
    expect_refusal(table, 8, 8, src, 5, 8, ERYTHMODA_PICTURE_LENGTH, "a picture of five codes");
    expect_refusal(table, 8, 8, src, 6, 5, ERYTHMODA_OUTPUT_TOO_SHORT, "a picture into five places");
    expect_refusal(table, 8, 8, above, 3, 8, ERYTHMODA_CODE_ABOVE_M, "a picture with the code 256");
    expect_refusal(table, 8, 16, above, 3, 8, ERYTHMODA_CODE_ABOVE_M, "a picture from 8 bits to 16 with the code 256");
}

/* Document 02's head: red from 0 to 2, green and blue from 0 to 1. */
static struct colour_table read_mixed(void) {
    static const char mixed[] = "DOMAIN_MIN 0 0 0\nDOMAIN_MAX 2 1 1\n" CUBE_LINES;
    static const int64_t described[ERYTHMODA_DESCRIPTION_PLACES] = {3, 2, 0, 0, 0, 2000, 1000, 1000, 0, 0, 0};
    struct colour_table table;
    uint64_t line = KEPT;
    uint32_t answer;
    fill(table.description, ERYTHMODA_DESCRIPTION_PLACES, KEPT);
    fill(table.samples, TABLE_PLACES, KEPT);
    answer = erythmoda_read((const uint8_t *)mixed, sizeof mixed - 1, table.samples, TABLE_PLACES, table.description, &line);
    expect_number(answer, ERYTHMODA_ACCEPTED, "reading mixed domains");
    expect(line == 0 && memcmp(table.description, described, sizeof described) == 0, "the description of mixed domains");
    return table;
}

/* The weights add up to 255 * 2 * 1 * 1 = 510. A red code counts once in it and the others twice, and the least of the three is
 * what the table gives: 51 of 51, 204 and 408, and 255 of 255, 510 and 510. */
static void mixed_domains(void) {
    static const uint16_t pixel[3] = {51, 102, 204}, two[6] = {51, 102, 204, 255, 255, 255};
    static const struct looked zeros = {{0, 0, 0}, {0, 0, 0, 0, 0, 0}, {0, 0, 0, 0, 0, 0}};
    static const struct looked from_8_to_8 = {{26, 26, 26}, {0, 4, 6, 7, 0, 0}, {102, 204, 153, 51, 0, 0}};
    static const struct looked from_8_to_16 = {{6554, 6554, 6554}, {0, 4, 6, 7, 0, 0}, {102, 204, 153, 51, 0, 0}};
    static const struct looked one_domain = {{51, 51, 51}, {0, 4, 6, 7, 0, 0}, {51255, 102000, 51000, 51000, 0, 0}};
    static const uint16_t corrected[OUTPUT_PLACES] = {26, 26, 26, 128, 128, 128, KEPT, KEPT};
    struct colour_table table = read_mixed();
    expect_look(&table, 8, 8, pixel, ERYTHMODA_ACCEPTED, &from_8_to_8, "looking through mixed domains");
    expect_look(&table, 8, 16, pixel, ERYTHMODA_ACCEPTED, &from_8_to_16, "looking through mixed domains from 8 bits to 16");
    expect_picture(&table, 8, 8, two, 6, 8, ERYTHMODA_ACCEPTED, corrected, "a picture through mixed domains");
    table.description[7] = 1001;
    expect_look(&table, 8, 8, pixel, ERYTHMODA_COULD_NOT_BE_READ, &zeros, "looking through a bound that is no whole number");
    expect_refusal(&table, 8, 8, two, 6, 8, ERYTHMODA_COULD_NOT_BE_READ, "a picture through a bound that is no whole number");
    table.description[5] = table.description[6] = 1001;
    expect_look(&table, 8, 8, pixel, ERYTHMODA_ACCEPTED, &one_domain, "looking through one domain that is not whole");
}

/* A table with fewer places than its rows need. */
static void short_table(const struct colour_table *table) {
    static const uint16_t src[3] = {51, 102, 204};
    uint16_t dst[3] = {KEPT, KEPT, KEPT};
    uint32_t answer = erythmoda_picture(table->description, table->samples, ROW_PLACES - 1, 8, 8, src, 3, dst, 3);
    expect_number(answer, ERYTHMODA_COULD_NOT_BE_READ, "a picture through a short table");
    expect(memcmp(dst, KEPT_OUTPUT, sizeof dst) == 0, "a picture through a short table keeps the output");
}

enum colour { RED = 0, GREEN = 1, BLUE = 2 };

/* What an inverse is asked for. */
struct aim {
    uint32_t raw_bits, corrected_bits, colour;
    uint16_t wanted;
    uint32_t tolerance;
};

/* The places beside the code and the count that are lent hold what they held before, and so does all that is read. */
static void expect_inverse(const struct colour_table *table, size_t table_len, struct aim aim, enum erythmoda_number number,
                           uint16_t code, uint64_t count, const char *what) {
    struct colour_table before;
    uint16_t codes[3] = {KEPT, KEPT, KEPT};
    uint64_t counts[3] = {KEPT, KEPT, KEPT};
    uint32_t answer;
    memcpy(&before, table, sizeof before);
    answer = erythmoda_inverse(table->description, table->samples, table_len, aim.raw_bits, aim.corrected_bits, aim.colour,
                               aim.wanted, aim.tolerance, codes + 1, counts + 1);
    expect_number(answer, number, what);
    expect(codes[1] == code && counts[1] == count, what);
    expect(codes[0] == KEPT && codes[2] == KEPT && counts[0] == KEPT && counts[2] == KEPT, what);
    expect(memcmp(&before, table, sizeof before) == 0, what);
}

static void expect_found(const struct colour_table *table, struct aim aim, uint16_t code, uint64_t count, const char *what) {
    expect_inverse(table, ROW_PLACES, aim, ERYTHMODA_ACCEPTED, code, count, what);
}

/* Red rises from 0 to 1 and green falls from 1 to 0; blue rises to 0.5, stays there, and rises to 1. */
static struct colour_table three_lines(void) {
    static const int64_t description[ERYTHMODA_DESCRIPTION_PLACES] = {1, 4, 0, 0, 0, 1000, 1000, 1000, 0, 0, 0};
    static const int64_t samples[12] = {0,       10000000, 0,       3333333,  6666667, 5000000,
                                        6666667, 3333333,  5000000, 10000000, 0,       10000000};
    struct colour_table table;
    memcpy(table.description, description, sizeof description);
    fill(table.samples, TABLE_PLACES, INT64_MAX);
    memcpy(table.samples, samples, sizeof samples);
    return table;
}

static void inverse(void) {
    static const struct aim first = {8, 8, RED, 0, 0}, fifth = {8, 8, RED, 51, 0}, last = {8, 8, RED, 255, UINT32_MAX};
    static const struct aim falls = {8, 8, GREEN, 51, 7}, falls_last = {8, 8, GREEN, 0, 0}, flat = {8, 8, BLUE, 128, 0};
    static const struct aim deeper = {8, 16, RED, 65535, 0}, beside = {8, 16, RED, 65534, 1}, tie = {8, 10, RED, 2, 2};
    static const struct aim any = {8, 16, RED, 65534, UINT32_MAX}, greatest = {16, 8, RED, 255, 0};
    static const struct aim last_of_16 = {16, 16, RED, 65535, 0};
    struct colour_table table = three_lines();
    expect_found(&table, first, 0, 1, "the raw code of red 0");
    expect_found(&table, fifth, 51, 52, "the raw code of red 51");
    expect_found(&table, last, 255, 256, "the raw code of red 255, with the greatest tolerance");
    expect_found(&table, falls, 204, 205, "the raw code of green 51, which falls");
    expect_found(&table, falls_last, 255, 256, "the raw code of green 0, which falls");
    expect_found(&table, flat, 85, 86, "the lowest raw code of a flat stretch");
    expect_found(&table, deeper, 255, 256, "the raw code of 8 bits for 65535 of 16");
    expect_found(&table, beside, 255, 256, "the raw code of 8 bits that comes within one code of 65534");
    expect_found(&table, any, 255, 256, "the same with the greatest tolerance");
    expect_found(&table, tie, 0, 256, "the lowest of two raw codes that come equally near");
    expect_found(&table, greatest, 65407, 65408, "the first raw code of 16 bits for 255 of 8");
    expect_found(&table, last_of_16, 65535, 65536, "the raw code of red 65535, the last of 16 bits");
    table.description[8] = table.description[9] = table.description[10] = INT64_MIN;
    expect_found(&table, fifth, 51, 52, "an inverse whatever the title");
}

/* Each refusal, and those before it where several are due; 28 alone has a count. */
static void refused_inverse(const struct colour_table *cube) {
    static const struct aim unknown = {9, 9, RED, 256, 0}, from_9 = {9, 8, RED, 256, 0}, to_9 = {8, 9, RED, 256, 0};
    static const struct aim above = {8, 8, RED, 256, UINT32_MAX}, above_from_16 = {16, 8, RED, 256, UINT32_MAX};
    static const struct aim good = {8, 8, BLUE, 51, 255}, beside = {8, 16, RED, 65534, 0}, far_off = {16, 16, GREEN, 65535, 0};
    static const uint32_t no_colours[] = {3, 4, 256, 65536, UINT32_MAX};
    struct colour_table table = three_lines(), unsound;
    size_t at;
    expect_inverse(cube, ROW_PLACES, good, ERYTHMODA_COULD_NOT_BE_READ, 0, 0, "an inverse through a 3D table");
    expect_inverse(cube, ROW_PLACES, unknown, ERYTHMODA_COULD_NOT_BE_READ, 0, 0, "an inverse through a 3D table with 9 bits");
    for (at = 0; at < sizeof no_colours / sizeof no_colours[0]; at++) {
        struct aim aim = good, worse = unknown;
        aim.colour = worse.colour = no_colours[at];
        expect_inverse(&table, ROW_PLACES, aim, ERYTHMODA_COULD_NOT_BE_READ, 0, 0, "an inverse on no colour");
        expect_inverse(&table, ROW_PLACES, worse, ERYTHMODA_COULD_NOT_BE_READ, 0, 0, "an inverse on no colour with 9 bits");
    }
    memcpy(&unsound, &table, sizeof unsound);
    unsound.description[0] = 2;
    expect_inverse(&unsound, ROW_PLACES, unknown, ERYTHMODA_COULD_NOT_BE_READ, 0, 0, "an inverse through a table of no kind");
    expect_inverse(&table, 11, good, ERYTHMODA_COULD_NOT_BE_READ, 0, 0, "an inverse through a short table");
    /* of the other colours' samples too */
    table.samples[0] = INT64_MAX;
    expect_inverse(&table, ROW_PLACES, good, ERYTHMODA_COULD_NOT_BE_READ, 0, 0, "an inverse beside a sample beyond 1000");
    table.samples[0] = 0;
    expect_inverse(&table, ROW_PLACES, unknown, ERYTHMODA_DEPTH_UNKNOWN, 0, 0, "an inverse with 9 bits");
    expect_inverse(&table, ROW_PLACES, from_9, ERYTHMODA_DEPTH_UNKNOWN, 0, 0, "an inverse from 9 bits to 8");
    expect_inverse(&table, ROW_PLACES, to_9, ERYTHMODA_DEPTH_UNKNOWN, 0, 0, "an inverse from 8 bits to 9");
    expect_inverse(&table, ROW_PLACES, above, ERYTHMODA_CODE_ABOVE_M, 0, 0, "an inverse for 256 of 8 bits");
    expect_inverse(&table, ROW_PLACES, above_from_16, ERYTHMODA_CODE_ABOVE_M, 0, 0, "an inverse from 16 bits for 256 of 8");
    expect_inverse(&table, ROW_PLACES, beside, ERYTHMODA_NONE_WITHIN_TOLERANCE, 0, 256, "an inverse beside a code that is reached");
    fill(table.samples, 12, 0);
    expect_inverse(&table, ROW_PLACES, far_off, ERYTHMODA_NONE_WITHIN_TOLERANCE, 0, 65536, "an inverse through zeros alone");
}

#define TEXT_BYTES 360 /* a little more than the longest text here */
#define HEAD_LINES "LUT_3D_SIZE 2\nDOMAIN_MIN 0 0 0\nDOMAIN_MAX 1 1 1\n"

/* Writes into the first `out_len` bytes, and compares all of them afterwards: the text, and behind it what was there before. A
 * refused write has no text. */
static void expect_write(const struct colour_table *table, const char *title, size_t out_len, enum erythmoda_number number,
                         const char *text, const char *what) {
    uint8_t out[TEXT_BYTES], expected[TEXT_BYTES];
    uint64_t length = KEPT;
    uint32_t answer;
    memset(out, KEPT, sizeof out);
    memset(expected, KEPT, sizeof expected);
    memcpy(expected, text, strlen(text));
    answer = erythmoda_write(table->description, table->samples, TABLE_PLACES, (const uint8_t *)title, strlen(title), out, out_len,
                             &length);
    expect_number(answer, number, what);
    expect(length == strlen(text) && memcmp(out, expected, sizeof out) == 0, what);
}

static void expect_text(const struct colour_table *table, const char *title, size_t out_len, const char *text, const char *what) {
    expect_write(table, title, out_len, ERYTHMODA_ACCEPTED, text, what);
}

static void expect_no_text(const struct colour_table *table, const char *title, size_t out_len, enum erythmoda_number number,
                           const char *what) {
    expect_write(table, title, out_len, number, "", what);
}

/* The samples past three for each row are KEPT, or beyond 1000. */
static void written(const struct colour_table *table) {
    static const char titled[] = "TITLE \"smoke tape\"\n" HEAD_LINES CUBE_ROWS;
    struct colour_table marked;
    memcpy(&marked, table, sizeof marked);
    expect_text(table, "", TEXT_BYTES, HEAD_LINES CUBE_ROWS, "writing the 3D file");
    expect_text(table, "\n\"\x80", TEXT_BYTES, HEAD_LINES CUBE_ROWS, "writing without the mark, whatever the title");
    marked.description[8] = 1;
    marked.samples[TABLE_PLACES - 1] = INT64_MAX;
    expect_text(&marked, "smoke tape", TEXT_BYTES, titled, "writing with a title");
    expect_text(&marked, "smoke tape", sizeof titled - 1, titled, "writing into as many bytes as the text has");
    expect_text(&marked, "", TEXT_BYTES, "TITLE \"\"\n" HEAD_LINES CUBE_ROWS, "writing with a title of no byte");
    marked.description[8] = INT64_MIN;
    marked.description[9] = marked.description[10] = -1;
    expect_text(&marked, "smoke tape", TEXT_BYTES, titled, "writing with another mark, and any place and length");
}

static void written_numbers(void) {
    static const int64_t description[ERYTHMODA_DESCRIPTION_PLACES] = {1, 2, -10000, 250, 9999, -9999, 750, 10000, 0, 0, 0};
    static const int64_t samples[6] = {0, -5000000, 10000000, 1, -10000000000, 9999999999};
    struct colour_table table;
    memcpy(table.description, description, sizeof description);
    fill(table.samples, TABLE_PLACES, INT64_MIN);
    memcpy(table.samples, samples, sizeof samples);
    expect_text(&table, "", TEXT_BYTES,
                "LUT_1D_SIZE 2\nDOMAIN_MIN -10 0.25 9.999\nDOMAIN_MAX -9.999 0.75 10\n"
                "0 -0.5 1\n0.0000001 -1000 999.9999999\n",
                "writing numbers");
}

/* Each refusal, and those before it where several are due. */
static void refused_write(const struct colour_table *table) {
    static const size_t text_length = sizeof("TITLE \"t\"\n" HEAD_LINES CUBE_ROWS) - 1;
    char long_title[244] = {0};
    struct colour_table marked, unsound;
    memset(long_title, 'x', sizeof long_title - 1);
    memcpy(&marked, table, sizeof marked);
    marked.description[8] = 1;
    memcpy(&unsound, &marked, sizeof unsound);
    unsound.description[0] = 2;
    expect_no_text(&unsound, "\"", 0, ERYTHMODA_COULD_NOT_BE_READ, "writing a table of no kind");
    expect_no_text(&marked, "\"", 0, ERYTHMODA_TITLE_NOT_PLAIN, "writing a title with a quote into no bytes");
    expect_no_text(&marked, "a\x1F", TEXT_BYTES, ERYTHMODA_TITLE_NOT_PLAIN, "writing a title with 0x1F");
    expect_no_text(&marked, "\x7F", TEXT_BYTES, ERYTHMODA_TITLE_NOT_PLAIN, "writing a title with 0x7F");
    expect_no_text(&marked, long_title, TEXT_BYTES, ERYTHMODA_TITLE_NOT_PLAIN, "writing a title of 243 bytes");
    expect_no_text(&marked, "t", text_length - 1, ERYTHMODA_TOO_LITTLE_ROOM, "writing into one byte too few");
    expect_no_text(&marked, "t", 0, ERYTHMODA_TOO_LITTLE_ROOM, "writing into no bytes");
    expect_no_text(table, long_title, 95, ERYTHMODA_TOO_LITTLE_ROOM, "writing 96 bytes into 95, without the mark");
}

/* A text with the longest title is read back, and what was read is written to the same bytes. */
static void written_and_read(const struct colour_table *table) {
    struct colour_table marked, again;
    uint8_t text[TEXT_BYTES], same[TEXT_BYTES], title[242];
    uint64_t length = KEPT, same_length = KEPT, line = KEPT;
    uint32_t answer;
    memset(title, '~', sizeof title);
    memcpy(&marked, table, sizeof marked);
    marked.description[8] = -1;
    answer = erythmoda_write(marked.description, marked.samples, ROW_PLACES, title, sizeof title, text, sizeof text, &length);
    expect_number(answer, ERYTHMODA_ACCEPTED, "writing a title of 242 bytes");
    expect(length == 251 + 96 && text[249] == '"' && text[250] == '\n', "its line has 250 bytes");
    if (length > sizeof text) return;
    fill(again.samples, TABLE_PLACES, KEPT);
    answer = erythmoda_read(text, (size_t)length, again.samples, ROW_PLACES, again.description, &line);
    expect_number(answer, ERYTHMODA_ACCEPTED, "reading what was written");
    marked.description[8] = 1;
    marked.description[9] = 7;
    marked.description[10] = sizeof title;
    expect(memcmp(&again, &marked, sizeof marked) == 0, "what is read is what was written, with the title's new place");
    answer = erythmoda_write(again.description, again.samples, ROW_PLACES, text + 7, sizeof title, same, sizeof same,
                             &same_length);
    expect_number(answer, ERYTHMODA_ACCEPTED, "writing what was read");
    expect(same_length == length && memcmp(same, text, (size_t)length) == 0, "it is the same text");
}

/* Document 01 uses the numbers 0 to 18, 20 to 24 and 30, and document 02 adds 19, 26, 27 and 28. */
static int is_used(uint32_t number) { return number <= 24 || (number >= 26 && number <= 28) || number == 30; }

static void words(void) {
    uint32_t number;
    for (number = 0; number < 100; number++) {
        int is_known = strcmp(erythmoda_words(number), "unknown number") != 0;
        expect(is_known == is_used(number), "every number that is used has words, and no other has");
    }
    expect(strcmp(erythmoda_words(UINT32_MAX), "unknown number") == 0, "the greatest number has no words");
    expect(strcmp(erythmoda_words(ERYTHMODA_TOO_FEW_ROWS), "the file ends with too few rows") == 0, "the words of 18");
}

static void version(void) {
    char text[40];
    sprintf(text, "%d.%d.%d", ERYTHMODA_VERSION_MAJOR, ERYTHMODA_VERSION_MINOR, ERYTHMODA_VERSION_PATCH);
    expect(strcmp(text, ERYTHMODA_VERSION) == 0, "the version's text is its three numbers");
}

int main(void) {
    const struct colour_table table = read_cube();
    struct colour_table before;
    memcpy(&before, &table, sizeof table);
    refused_reading();
    points();
    refused_domain("DOMAIN_MIN -1 -1 -1\nLUT_1D_SIZE 2\n0 0 0\n1 1 1\n", ERYTHMODA_HALF_A_DOMAIN, 3);
    refused_domain("LUT_1D_SIZE 2\nDOMAIN_MAX 2 2 2", ERYTHMODA_HALF_A_DOMAIN, 2);
    refused_domain("DOMAIN_MIN 0 0 0\nDOMAIN_MAX 2 1 1.5\n" CUBE_LINES, ERYTHMODA_DOMAINS_DIFFER, 4);
    refused_domain("LUT_3D_SIZE 2\nDOMAIN_MIN 0 0.5 0\nDOMAIN_MAX 1 1.5 1\n", ERYTHMODA_DOMAINS_DIFFER, 4);
    check_then_read();
    refused_check();
    look(&table);
    refused_look(&table);
    halves(&table);
    refused_codes(&table);
    codes_of_lines();
    picture(&table);
    refused_picture(&table);
    mixed_domains();
    short_table(&table);
    inverse();
    refused_inverse(&table);
    written(&table);
    written_numbers();
    refused_write(&table);
    written_and_read(&table);
    expect(memcmp(&before, &table, sizeof table) == 0,
           "look, its halves, picture, inverse and write change neither description nor table");
    words();
    version();
    if (!wrong) puts("every answer through C is as it should be");
    return wrong ? EXIT_FAILURE : EXIT_SUCCESS;
}
