/* Erythmoda: .cube colour tables read, applied and written, every answer proved. Link liberythmoda.a or liberythmoda.so.
 *
 * Nothing is allocated, kept or shared between calls: all memory is lent by the caller. For each call the caller sees to it that
 *   - a pointer leads to as many places as its length says, or as its type says where there is no length, and is aligned for
 *     their type; no length is 2^63 bytes or more;
 *   - no pointer is null, also where the length is 0: with nothing to lend, lend the address of anything (in C++ the data()
 *     of an empty vector may be null);
 *   - what is lent for writing does not overlap with anything else that is lent to the same call;
 *   - no other thread writes, during the call, what it reads or writes, or reads what it writes. Calls that share only what
 *     they read may run at once;
 *   - 64 kB of stack are left for it.
 *
 * Each call answers a number, 0 for accepted; erythmoda_words below says what the others mean. */
#ifndef ERYTHMODA_H
#define ERYTHMODA_H

#include <stddef.h>
#include <stdint.h>

#ifdef __cplusplus
extern "C" {
#endif

/* The version of this header and of the library beside it. MAJOR is the number in the shared library's name: it grows when
 * a call changes, so that a program never meets a library with other calls than it was compiled for. MINOR grows when a
 * call is new, or a rule changes, so that some file or pixel is answered otherwise. PATCH grows when no answer changes. */
#define ERYTHMODA_VERSION_MAJOR 1
#define ERYTHMODA_VERSION_MINOR 5
#define ERYTHMODA_VERSION_PATCH 0
#define ERYTHMODA_VERSION "1.5.0"

/* What a table is, in eleven numbers:
 *
 *   place     holds
 *   0         1 for a 1D table, 3 for a 3D table
 *   1         N: 2 to 65536 in 1D, 2 to 256 in 3D
 *   2, 3, 4   the lower bounds of the domain for red, green and blue, in thousandths, from -10000 to 10000
 *   5, 6, 7   the upper bounds, likewise, each above its lower bound by at most 10000
 *   8         1 if there is a title, 0 if not
 *   9, 10     the title's first byte place in the file, counted from 0, and its length; both 0 without a title
 *
 * In 1D each colour has its own domain. In 3D all three have one, of any bounds, or the domains differ and all six bounds
 * are whole numbers, that is multiples of 1000 thousandths. Domains differ if any bound does, whatever their widths: 0 to 1
 * and 1 to 2 differ. Where 3D domains differ and one of the six bounds is no whole number, a file is refused with 12, and a
 * description with 24.
 *
 * Samples stand in a table of 64-bit numbers, in ten-millionths, from -10000000000 to 10000000000. The numbers of row n,
 * rows counted from 0, stand at 3n (red), 3n + 1 (green) and 3n + 2 (blue). A 1D table has N rows. A 3D table has N*N*N,
 * and red index r, green g, blue b is row r + N*g + N*N*b.
 *
 * A pixel is three codes in 16-bit numbers, red, green, blue, from 0 to the M of their depth. Four depths are known: 8 bits
 * with M = 255, 10 with 1023, 12 with 4095, 16 with 65535. Raw codes, which are corrected, have one depth, and corrected
 * codes another or the same. */
#define ERYTHMODA_DESCRIPTION_PLACES 11

enum erythmoda_number {
    ERYTHMODA_ACCEPTED = 0,
    /* of a file, with the line; 13 of a write too */
    ERYTHMODA_LINE_TOO_LONG = 1,
    ERYTHMODA_BYTE_NOT_PERMITTED = 2,
    ERYTHMODA_NEITHER_DATA_NOR_KEYWORD = 3,
    ERYTHMODA_KEYWORD_AFTER_DATA = 4,
    ERYTHMODA_KEYWORD_REPEATED = 5,
    ERYTHMODA_PARAMETERS_WRONG = 6,
    ERYTHMODA_N_OUT_OF_RANGE = 7,
    ERYTHMODA_BOUND_WRONG = 8,
    ERYTHMODA_NO_SIZE = 9,
    ERYTHMODA_BOUNDS_NOT_IN_ORDER = 10,
    ERYTHMODA_DOMAIN_TOO_WIDE = 11,
    ERYTHMODA_DOMAINS_DIFFER = 12,
    ERYTHMODA_TOO_LITTLE_ROOM = 13,
    /* its name where a table is meant */
    ERYTHMODA_TABLE_TOO_SHORT = ERYTHMODA_TOO_LITTLE_ROOM,
    ERYTHMODA_TOO_MANY_ROWS = 14,
    ERYTHMODA_NOT_THREE_NUMBERS = 15,
    ERYTHMODA_SAMPLE_BEYOND = 16,
    ERYTHMODA_SAMPLE_TOO_FINE = 17,
    ERYTHMODA_TOO_FEW_ROWS = 18,
    ERYTHMODA_HALF_A_DOMAIN = 19,
    /* of a look, its halves or a picture; 20, 23 and 24 of an inverse, and 24 of a write too */
    ERYTHMODA_DEPTH_UNKNOWN = 20,
    ERYTHMODA_PICTURE_LENGTH = 21,
    ERYTHMODA_OUTPUT_TOO_SHORT = 22,
    ERYTHMODA_CODE_ABOVE_M = 23,
    ERYTHMODA_COULD_NOT_BE_READ = 24,
    /* of the second half of a look alone */
    ERYTHMODA_ROWS_OR_WEIGHTS_WRONG = 26,
    /* of a write alone */
    ERYTHMODA_TITLE_NOT_PLAIN = 27,
    /* of an inverse alone */
    ERYTHMODA_NONE_WITHIN_TOLERANCE = 28,
    /* of the report program alone */
    ERYTHMODA_REPORT_INPUT_TOO_LONG = 30
};

/* What a number means. */
static inline const char *erythmoda_words(uint32_t number) {
    switch (number) {
    case ERYTHMODA_ACCEPTED: return "accepted";
    case ERYTHMODA_LINE_TOO_LONG: return "a line over 250 bytes";
    case ERYTHMODA_BYTE_NOT_PERMITTED: return "a byte other than 0x20 to 0x7E, tab and newline";
    case ERYTHMODA_NEITHER_DATA_NOR_KEYWORD: return "a line that is neither data nor begins with a known keyword";
    case ERYTHMODA_KEYWORD_AFTER_DATA: return "a keyword after data";
    case ERYTHMODA_KEYWORD_REPEATED: return "a keyword for the second time; the two size words count as one";
    case ERYTHMODA_PARAMETERS_WRONG: return "the parameters of a keyword are wrong in count or form";
    case ERYTHMODA_N_OUT_OF_RANGE: return "N is out of range";
    case ERYTHMODA_BOUND_WRONG: return "a domain number is beyond -10 to 10 or no multiple of 0.001";
    case ERYTHMODA_NO_SIZE: return "there is no size";
    case ERYTHMODA_BOUNDS_NOT_IN_ORDER: return "a lower bound is not below its upper bound";
    case ERYTHMODA_DOMAIN_TOO_WIDE: return "a domain is wider than 10";
    case ERYTHMODA_DOMAINS_DIFFER: return "3D with domains that differ between colours, and a bound that is no whole number";
    case ERYTHMODA_TOO_LITTLE_ROOM: return "the lent table is too short for three places a row, or the output for the text";
    case ERYTHMODA_TOO_MANY_ROWS: return "there are more data lines than rows";
    case ERYTHMODA_NOT_THREE_NUMBERS: return "a data line is not three numbers";
    case ERYTHMODA_SAMPLE_BEYOND: return "a sample is beyond -1000 to 1000";
    case ERYTHMODA_SAMPLE_TOO_FINE: return "a sample is no multiple of 0.0000001";
    case ERYTHMODA_TOO_FEW_ROWS: return "the file ends with too few rows";
    case ERYTHMODA_HALF_A_DOMAIN: return "one of DOMAIN_MIN and DOMAIN_MAX is there without the other";
    case ERYTHMODA_DEPTH_UNKNOWN: return "the depth of raw or of corrected codes is not 8, 10, 12 or 16 bits";
    case ERYTHMODA_PICTURE_LENGTH: return "the picture's length is no multiple of 3";
    case ERYTHMODA_OUTPUT_TOO_SHORT: return "the output is shorter than the picture";
    case ERYTHMODA_CODE_ABOVE_M: return "a raw code is above the raw depth's M, or a wanted code above the corrected depth's M";
    case ERYTHMODA_COULD_NOT_BE_READ: return "reading could not have given this description and this table; of an inverse also a 3D table, or a colour that is none";
    case ERYTHMODA_ROWS_OR_WEIGHTS_WRONG: return "a row number not below the count of rows, a negative weight, or weights that do not add up to the denominator";
    case ERYTHMODA_TITLE_NOT_PLAIN: return "the title has more than 242 bytes, a quote, or a byte other than 0x20 to 0x7E";
    case ERYTHMODA_NONE_WITHIN_TOLERANCE: return "no raw code comes within the tolerance of the wanted code";
    case ERYTHMODA_REPORT_INPUT_TOO_LONG: return "the report's input has more than 65536 bytes";
    default: return "unknown number";
    }
}

/* Reads the bytes of one .cube file. It is accepted if it keeps the Cube LUT Specification 1.0 within the limits above and
 * those that the refusals tell, and `table` has three places for each row. A number in it is an optional sign, digits with
 * or without a point before, among or after them (.5, 0.5, 5.), and perhaps an exponent (5e-1, 5.e-1); a point without a
 * digit is none. N is digits alone. DOMAIN_MIN and DOMAIN_MAX are both there or both absent; absent they are 0 0 0 and
 * 1 1 1.
 *
 * Accepted: `table` begins with three numbers for each row, and its later places keep theirs; `description` says what it
 * is, and `*line` is 0. Refused: the answer is 1 to 19, `*line` the line that decided, counted from 1, `description` is
 * 1 and then zeros, and every place of `table` keeps its number. */
uint32_t erythmoda_read(const uint8_t *file, size_t file_len,
                        int64_t *table, size_t table_len,
                        int64_t description[11], uint64_t *line);

/* Judges the bytes of one .cube file with no table, for callers who do not know how long a table has to be:
 *
 *     check the file, and stop unless the answer is 0; lend `*places` numbers; read the file.
 *
 * The answer, `description` and `*line` are those of erythmoda_read with a table that is long enough, so the answer is
 * never 13. Accepted: `*places` is three for each row, 6 to 50331648, and reading the same bytes into a table of that many
 * places, or more, is accepted with the same description; into fewer it is refused with 13. Refused: `*places` is 0, and
 * reading the same bytes into any table is refused too, with the same number, line and description, or with 13 on that
 * line or an earlier one. The samples are not kept: reading judges the file again. */
uint32_t erythmoda_check(const uint8_t *file, size_t file_len,
                         int64_t description[11], uint64_t *line, uint64_t *places);

/* Corrects one pixel, and shows which rows of the table made the codes, and with which weights.
 *
 * `pixel` has codes of `raw_bits`, and `codes` gets codes of `corrected_bits`; each is 8, 10, 12 or 16, and the two may
 * differ either way. Rows and weights go by the raw M alone. What the weights add up to:
 *
 *   1D                        the two of a colour: the raw M times the width of its own domain in thousandths
 *   3D, one domain            the four: the raw M times its width in thousandths
 *   3D, domains that differ   the four: the raw M times the product of the three widths in whole units, so at 8 bits with
 *                             red from 0 to 2, green and blue from 0 to 1, 255 * 2 * 1 * 1 = 510
 *
 * Of weights and samples comes a colour's exact value, a fraction; its code is the one from 0 to the corrected M that is
 * nearest to the corrected M times that value, and of two equally near the greater. So a value below 0 gives 0, and one
 * above 1 the corrected M.
 *
 * 1D: places 2c and 2c + 1 of `rows` and `weights` belong to colour c (0 red, 1 green, 2 blue). 3D: places 0 to 3 are
 * the rows met, and 4 and 5 are zero. Rows with weight 0 are shown too.
 *
 * Refused: the answer is 24, 20 or 23, tried in that order, and all codes, rows and weights are zero. 20 is for either
 * depth, the raw one tried first; both come before 23, which is for a code above the raw M, whatever the corrected M.
 * Places 8 to 10 of `description` change no answer. */
uint32_t erythmoda_look(const int64_t description[11], const int64_t *table, size_t table_len,
                        uint32_t raw_bits, uint32_t corrected_bits, const uint16_t pixel[3],
                        uint16_t codes[3], uint32_t rows[6], int64_t weights[6]);

/* The first half of a look: the rows of the table that make one pixel's codes, and their weights.
 *
 * `pixel` has codes of `raw_bits`; no corrected depth plays a part. `rows` and `weights` are those that erythmoda_look shows,
 * at the same places: in 1D 2c and 2c + 1 for colour c, in 3D 0 to 3, and 4 and 5 are zero. They can be kept, and
 * erythmoda_codes makes the codes of them later. With known depths the two calls, one after the other, give the codes, or the
 * refusal, that erythmoda_look gives.
 *
 * Refused: the answer is 24, 20 or 23, tried in that order, and all rows and weights are zero. 20 is for `raw_bits`, 23 for a
 * code above their M. So where `corrected_bits` are unknown and a code is above the raw M, erythmoda_look answers 20 and this
 * call 23. Places 8 to 10 of `description` change no answer. */
uint32_t erythmoda_rows(const int64_t description[11], const int64_t *table, size_t table_len,
                        uint32_t raw_bits, const uint16_t pixel[3], uint32_t rows[6], int64_t weights[6]);

/* The second half of a look: the codes of rows and weights, which may be those that erythmoda_rows found, or any others that
 * keep these rules, for each colour in 1D and for the pixel in 3D:
 *
 *   - a row number is below the count of rows: N in 1D, N*N*N in 3D. One that is not is refused also where its weight is 0,
 *     and however long the table is;
 *   - no weight is negative;
 *   - the weights add up to the denominator, which is what those of erythmoda_look add up to: in 1D, for each colour by
 *     itself, the raw M times the width of its own domain in thousandths; in 3D, for the four, the raw M times the width of
 *     the one domain in thousandths, or, where the domains differ, the raw M times the product of the three widths in whole
 *     units. So it goes by `raw_bits`, which have to be those that the weights were found with.
 *
 * How the rows lie to one another is not asked, nor are equal ones refused. In 3D places 4 and 5 of `rows` and `weights` are
 * not judged, whatever they hold, and change no answer. Any 64-bit numbers may be handed in: no sum wraps.
 *
 * Accepted: `codes` has, for each colour, the code of `corrected_bits` that is nearest to the corrected M times the exact
 * value of these weights and samples, as for a look. It lies between the codes that the rows with a weight above 0 give each
 * by itself.
 *
 * Refused: the answer is 24, 20 or 26, tried in that order, and all codes are zero. 20 is for either depth, the raw one tried
 * first; 26 is for rows or weights that do not keep the rules above. Places 8 to 10 of `description` change no answer. */
uint32_t erythmoda_codes(const int64_t description[11], const int64_t *table, size_t table_len,
                         uint32_t raw_bits, uint32_t corrected_bits,
                         const uint32_t rows[6], const int64_t weights[6], uint16_t codes[3]);

/* Corrects a run of pixels, each to the codes that erythmoda_look gives for it at the same two depths: `src` has codes of
 * `raw_bits`, and `dst` gets codes of `corrected_bits`.
 *
 * Accepted: the first `src_len` places of `dst` hold the codes, and its later places keep theirs; a length of 0 is
 * accepted. Refused: the answer is 24, 20, 21, 22 or 23, tried in that order, and nothing is written. 20 and 23 are as
 * for a look: 20 for either depth, the raw one first, and 23 for a code above the raw M. Places 8 to 10 of `description`
 * change no answer. `dst` may not be `src`, nor overlap with it or with the table. */
uint32_t erythmoda_picture(const int64_t description[11], const int64_t *table, size_t table_len,
                           uint32_t raw_bits, uint32_t corrected_bits,
                           const uint16_t *src, size_t src_len, uint16_t *dst, size_t dst_len);

/* The inverse on one colour of a 1D table: the raw code whose corrected code is nearest to a wanted one, the lowest of several
 * that are equally near.
 *
 * `colour` is 0 for red, 1 for green, 2 for blue. `wanted` is a code of `corrected_bits`, and `tolerance` is how many codes at
 * most the corrected code may lie from it, below or above: 0 asks for that very code, and from 65535 on any code will do. Raw
 * codes of `raw_bits` are tried from 0 upward, each corrected as erythmoda_look corrects this colour, up to the raw M or to the
 * first that is corrected to the wanted code itself, an exact hit. One that is only within the tolerance does not end the
 * search. A call tries 65536 codes at most, and nothing is kept between calls.
 *
 * Accepted: `*code` is that raw code, and `*count` is how many codes were tried: `*code` + 1 where it is an exact hit, and
 * otherwise the raw M + 1, the whole range. An exact hit at the raw M has the same count as none.
 *
 * Refused: the answer is 24, 20, 23 or 28, tried in that order, and `*code` is 0. 24 is also for a 3D table, and for another
 * colour. 20 is for either depth, the raw one tried first, and 23 for a wanted code above the corrected M, whatever the raw M.
 * 28 is given exactly if no raw code comes within the tolerance of the wanted code; `*count` is then the raw M + 1, since all
 * were tried, and with the other numbers it is 0. Places 8 to 10 of `description` change no answer. */
uint32_t erythmoda_inverse(const int64_t description[11], const int64_t *table, size_t table_len,
                           uint32_t raw_bits, uint32_t corrected_bits, uint32_t colour, uint16_t wanted, uint32_t tolerance,
                           uint16_t *code, uint64_t *count);

/* Writes the bytes of a .cube file of a description, a table and the bytes of a title. The lines of the text, in their order:
 *
 *   TITLE, and the title between quotes, if place 8 of `description` is not 0
 *   LUT_1D_SIZE or LUT_3D_SIZE, and N
 *   DOMAIN_MIN, and the three lower bounds
 *   DOMAIN_MAX, and the three upper bounds
 *   the three numbers of a row, for each row
 *
 * One space stands between words, and one newline after each line, the last too. A number has the fewest characters that it
 * can have without an exponent and with a 0 before the point: 0, -0.5, 1, 0.0000001, -1000.
 *
 * Where place 8 is 0, the title's bytes are neither written nor judged, however many there are. Places 9 and 10 of
 * `description` change no answer, and neither do places of the table past three for each row.
 *
 * Accepted: `*length` is the length of the text, so many bytes of `out` from its first on are the text, and later bytes keep
 * theirs. 333 + 39 * rows bytes are always long enough. Reading the text into a table that is long enough is accepted, with
 * the same numbers and the same description, but for the title: places 8, 9 and 10 are then 1, 7 and `title_len`, or zeros
 * without a title. What is read from such a text is written to the same bytes.
 *
 * Refused: the answer is 24, 27 or 13, tried in that order, `*length` is 0, and nothing is written. 27 is for a title of
 * more than 242 bytes, with a quote, or with a byte other than 0x20 to 0x7E. 13 is given exactly if `out_len` is less than
 * the length of the text; a table that is too short is 24. */
uint32_t erythmoda_write(const int64_t description[11], const int64_t *table, size_t table_len,
                         const uint8_t *title, size_t title_len,
                         uint8_t *out, size_t out_len, uint64_t *length);

#ifdef __cplusplus
}
#endif

#endif
