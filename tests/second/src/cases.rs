//! The cases of document 01's "Checked by hand" that are not marked P, with samples A.2
//! and A.3, and A.4 by its stated function, and those that document 02 changes or adds. The
//! one of the report program is not here: that program is compared by its own bytes.
//!
//! `second cases` prints one line for each, in the order below, ended by a newline:
//! `name<TAB>fields`, the fields parted by single tabs. Numbers are decimal, a minus sign
//! in front if below 0, no plus, no zeros in front. By the kind of case the fields are:
//!
//! - read: number, line, the eleven numbers of the description, then every place of the
//!   lent table afterwards. Before the call every place held 7. Of the longest table
//!   not every place, but how many hold 0 and how many 7.
//! - check: number, line, the eleven numbers of the description, then the places.
//! - look: number, three codes, six rows, six weights.
//! - picture: number, then every place of the lent output afterwards. Before the call
//!   every place held 7.
//! - write: number, length, how many of the lent bytes hold 7 afterwards, and, unless the length
//!   is 0, so many of the lent bytes from the first on, each newline shown as `|`. Before the call
//!   every byte held 7. Of write-title-242 these bytes are not shown.
//! - rows: number, six rows, six weights.
//! - codes: number, three codes.
//!
//! What is read, `NL` standing for a newline and `CR` for a carriage return. WORD(w) is
//! `LUT_1D_SIZE 2 NL w 0 0 NL 0 0 0 NL` without the blanks around NL, and CUBE is
//! `LUT_3D_SIZE 2 NL`, seven times `0 0 0 NL`, and `1 1 1 NL`, likewise. SMALL is
//! `LUT_1D_SIZE 2 NL 0 0 0 NL 1 1 1 NL`.
//!
//! | name | file | places |
//! |---|---|---|
//! | word-0e999 | WORD(`0e999`) | 6 |
//! | word-10000e-1 | WORD(`10000e-1`) | 6 |
//! | word-1e-thirty-nines | WORD(`1e` and thirty `9`) | 6 |
//! | word-1e-minus-thirty-nines | WORD(`1e-` and thirty `9`) | 6 |
//! | word-5-point | WORD(`5.`) | 6 |
//! | word-7-point-e-minus-2 | WORD(`7.E-2`) | 6 |
//! | word-point | WORD(`.`) | 6 |
//! | word-plus | WORD(`+`) | 6 |
//! | line-250 | SMALL, `#`, 249 `x` | 6 |
//! | line-251 | SMALL, `#`, 250 `x` | 6 |
//! | line-251-cr | SMALL, `#`, 249 `x`, CR | 6 |
//! | line-249-crlf | `#`, 248 `x`, CR, NL | 0 |
//! | line-1-crlf | `#`, CR, NL | 0 |
//! | blank-before-comment | ` #`, NL | 0 |
//! | size-1d-1 | `LUT_1D_SIZE 1`, NL | 0 |
//! | size-3d-1 | `LUT_3D_SIZE 1`, NL | 0 |
//! | size-1d-65536 | `LUT_1D_SIZE 65536`, NL, 65536 times `0 0 0`, NL | 196609 |
//! | size-1d-65537 | `LUT_1D_SIZE 65537`, NL | 0 |
//! | size-3d-256 | `LUT_3D_SIZE 256`, NL | 0 |
//! | size-3d-257 | `LUT_3D_SIZE 257`, NL | 0 |
//! | size-plus-2 | `LUT_1D_SIZE +2`, NL | 0 |
//! | size-2-point | `LUT_1D_SIZE 2.`, NL | 0 |
//! | cube-24-places | CUBE | 24 |
//! | cube-23-places | CUBE | 23 |
//! | sample-a2 | sample A.2, each line ended by NL | 96 |
//! | sample-a3 | sample A.3, each line ended by NL | 9 |
//! | sample-a4 | A.4's first two lines, then r, (3g + b)/4 and b, written 0, 0.25, 0.75 or 1 | 24 |
//! | domain-lower-only | `DOMAIN_MIN -1 -1 -1`, NL, SMALL | 6 |
//! | domain-upper-only-no-data | `LUT_1D_SIZE 2`, NL, `DOMAIN_MAX 2 2 2`, NL | 6 |
//!
//! A 3D table of N = 256 is too long for a program with fixed arrays: that its size passes
//! is shown by the answer 13, for want of places, where 257 gives 7.
//!
//! Looks: 1D, N = 2, no title. Bits are those of raw codes and of corrected codes.
//!
//! | name | bits | domain, each colour | rows, each colour | pixel |
//! |---|---|---|---|---|
//! | look-half-3 | 8 to 8 | 0 to 1000 | 0, 5000000 | 3 3 3 |
//! | look-quarter-255 | 8 to 8 | 250 to 750 | 0, 10000000 | 255 255 255 |
//! | look-code-256 | 8 to 8 | 0 to 1000 | 0, 5000000 | 256 256 256 |
//! | look-8-to-16-fifth | 8 to 16 | 0 to 1000 | 0, 10000000 | 51 51 51 |
//! | look-8-to-16-above-1 | 8 to 16 | 0 to 1000 | 0, 20000000 | 200 200 200 |
//! | look-12-to-16-tie | 12 to 16 | 0 to 1000 | 0, 5000000 | 273 273 273 |
//! | look-12-to-16-below-tie | 12 to 16 | 0 to 1000 | 0, 5000000 | 272 272 272 |
//! | look-16-to-8-tie | 16 to 8 | 0 to 1000 | 0, 5000000 | 257 257 257 |
//! | look-16-to-8-below-tie | 16 to 8 | 0 to 1000 | 0, 5000000 | 256 256 256 |
//! | look-8-to-16-code-256 | 8 to 16 | 0 to 1000 | 0, 5000000 | 256 256 256 |
//! | look-8-to-9-code-256 | 8 to 9 | 0 to 1000 | 0, 5000000 | 256 256 256 |
//! | look-9-to-8-code-3 | 9 to 8 | 0 to 1000 | 0, 5000000 | 3 3 3 |
//!
//! By hand: 51/255 is a fifth, and so is 13107/65535. From 12 bits to 16, 273/8190 of 65535 is
//! 2184 and a half, and 272/8190 of it is 2176 and less than a half; from 16 to 8, 257/131070 of
//! 255 is a half, and 256/131070 of it less. A code above the raw M is 23 where both depths are
//! known, whatever the corrected M.
//!
//! Pictures: CUBE's description and its 24 numbers. PIXELS is 51 102 204 255 0 255, and a pixel's
//! three codes are the least of its raw ones, as a part of the raw M.
//!
//! | name | bits | source | output places |
//! |---|---|---|---|
//! | picture-two-pixels | 8 to 8 | PIXELS | 8 |
//! | picture-of-none | 8 to 8 | nothing | 2 |
//! | picture-of-five-codes | 8 to 8 | the first five of PIXELS | 6 |
//! | picture-into-five-places | 8 to 8 | PIXELS | 5 |
//! | picture-code-256 | 8 to 8 | 0 0 256 | 3 |
//! | picture-12-to-16-two-pixels | 12 to 16 | 819 1638 3276 4095 1 4095 | 8 |
//! | picture-16-to-8-code-256 | 16 to 8 | 65535 256 257 | 3 |
//! | picture-8-to-16-code-256 | 8 to 16 | 0 0 256 | 3 |
//! | picture-8-to-9-code-256 | 8 to 9 | 0 0 256 | 3 |
//! | picture-9-to-8-of-five-codes | 9 to 8 | the first five of PIXELS | 6 |
//!
//! By hand: 819/4095 is a fifth, and 1/4095 of 65535 is 16 and little more; 256/65535 of 255 is
//! nearly 1.
//!
//! Checks, with no table:
//!
//! | name | file |
//! |---|---|
//! | check-size-1d-65536 | `LUT_1D_SIZE 65536`, NL |
//! | check-size-1d-65537 | `LUT_1D_SIZE 65537`, NL |
//! | check-size-3d-256 | `LUT_3D_SIZE 256`, NL |
//! | check-size-3d-257 | `LUT_3D_SIZE 257`, NL |
//! | check-empty | nothing |
//! | check-cube | CUBE |
//! | check-sample-a3 | sample A.3, each line ended by NL |
//!
//! A size that passes is answered 18 here, for want of rows.
//!
//! Mixed domains, in 3D with N = 2. STAIR's rows are 0 but for 1 in red in row 4, in green in row 6
//! and in blue in row 7. HEAD(lower; upper) is `LUT_3D_SIZE 2` and the two lines of the domain, each
//! ended by NL.
//!
//! | name | call | file | places |
//! |---|---|---|---|
//! | domain-mixed | read | HEAD(0 0 0; 2 1 1), STAIR | 24 |
//! | domain-mixed-23-places | read | the same | 23 |
//! | domain-mixed-not-whole | read | HEAD(0 0 0; 2 1.5 1), `0 0 0`, NL | 24 |
//! | domain-mixed-shared-not-whole | read | HEAD(0 -1 0; 1.5 1.5 1.5), `0 0 0`, NL | 24 |
//! | domain-one-not-whole | read | HEAD(0 0 0; 1.5 1.5 1.5), CUBE's rows | 24 |
//! | check-domain-mixed | check | as domain-mixed | |
//!
//! | name | call | bits | lower bounds | upper bounds | pixels |
//! |---|---|---|---|---|---|
//! | look-mixed | look | 8 to 8 | 0 0 0 | 2000 1000 1000 | 51 102 204 |
//! | look-mixed-order | look | 8 to 8 | 0 0 0 | 2000 1000 1000 | 120 100 200 |
//! | look-mixed-12-to-16 | look | 12 to 16 | 0 0 0 | 2000 1000 1000 | 819 1638 3276 |
//! | look-mixed-tie | look | 8 to 8 | 0 0 0 | 1000 2000 1000 | 50 100 25 |
//! | look-mixed-beyond | look | 8 to 8 | 0 -1000 1000 | 2000 0 2000 | 51 102 204 |
//! | look-mixed-equal-widths | look | 8 to 8 | 0 0 1000 | 1000 1000 2000 | 51 102 204 |
//! | look-one-to-two | look | 8 to 8 | 0 0 0 | 2000 2000 2000 | 51 102 204 |
//! | look-mixed-not-whole | look | 8 to 8 | 0 0 0 | 2000 1500 1000 | 51 102 204 |
//! | picture-mixed | picture | 8 to 8 | 0 0 0 | 2000 1000 1000 | 51 102 204 120 100 200 |
//! | picture-mixed-not-whole | picture | 8 to 8 | 0 0 0 | 2000 1500 1000 | the same |
//!
//! All of these have STAIR's 24 numbers. The first picture has 8 places, the other 6.
//!
//! By hand: with red to 2, D is 510, and a red code counts once and the others twice: 51 204 408
//! and 120 200 400, so that blue stands first and red last in both. The weights are 102 204 153 51
//! and 110 200 80 120, and red's code is the weight of row 4 as a part of 510, green's that of row 6
//! and blue's that of row 7: 204/510 of 255 is 102, 153/510 of it 76 and a half, 51/510 of it 25 and
//! a half. With green to 2 the pixel 50 100 25 has 100 of 510 in red and green, and red stands first.
//! Green from -1 to 0 is at its upper bound, blue from 1 to 2 at its lower one. One domain to 2 has
//! D = 510000, as before.
//!
//! Writes. LINE(mark) is the description 1 2 0 0 0 1000 1000 1000 mark 0 0, and HALF the table
//! 0 0 0 5000000 10000000 20000000.
//!
//! | name | description | table | title | bytes |
//! |---|---|---|---|---|
//! | write-titled | LINE(1) | HALF | `smoke` | 80 |
//! | write-title-empty | LINE(1) | HALF | nothing | 80 |
//! | write-mark-below-0 | LINE(-1), but 5000 -3 for its last two | HALF | `smoke` | 80 |
//! | write-unmarked | LINE(0) | HALF | a quote, NL, 0x80 | 80 |
//! | write-kind-2 | LINE(1), but 2 for its first | HALF | a quote | 0 |
//! | write-title-243 | LINE(1) | HALF | 243 `x` | 0 |
//! | write-title-quote | LINE(1) | HALF | `a"b` | 0 |
//! | write-title-1f | LINE(1) | HALF | `a`, 0x1F | 80 |
//! | write-title-7f | LINE(1) | HALF | 0x7F, `a` | 80 |
//! | write-title-242 | LINE(1) | HALF | 242 `x` | 320 |
//! | write-one-byte-short | LINE(1) | HALF | `smoke` | 75 |
//! | write-just-the-text | LINE(1) | HALF | `smoke` | 76 |
//! | write-later-place | LINE(0) | HALF, 10000000001 | nothing | 80 |
//! | write-numbers | LINE(0) | 0 -5000000 10000000 1 -10000000000 9999999999 | nothing | 100 |
//! | write-bounds | 1 2 -10000 250 9999 -9999 750 10000 0 0 0 | HALF | nothing | 100 |
//! | write-mixed | 3 2 0 -1000 1000 2000 0 2000 1 0 0 | STAIR's 24 numbers | `mixed` | 120 |
//!
//! By hand: `TITLE "smoke"` and its newline are 14 bytes, and the other five lines 14, 17, 17, 6
//! and 8, so 76 in all. A line with 242 bytes of title has 250. 24 comes before 27, and 27 before
//! 13.
//!
//! Halves of a look. LINES is the description 1 3 0 0 0 1000 2000 3000 0 0 0 with sample A.3's nine
//! numbers, 0 0 0 5000000 10000000 15000000 10000000 10000000 10000000; RED-TO-2 is
//! 3 2 0 0 0 2000 1000 1000 0 0 0 with STAIR's 24 numbers; CUBE has its description and its 24
//! numbers. KIND-2 is CUBE but 2 for the description's first. LEAST and GREATEST are the ends of 64
//! signed bits.
//!
//! | name | table | raw bits | pixel |
//! |---|---|---|---|
//! | rows-lines | LINES | 8 | 51 102 255 |
//! | rows-cube | CUBE | 8 | 51 102 204 |
//! | rows-mixed | RED-TO-2 | 12 | 819 1638 3276 |
//! | rows-kind-2 | KIND-2 | 9 | 0 0 256 |
//! | rows-9-bits | CUBE | 9 | 0 0 256 |
//! | rows-code-256 | CUBE | 8 | 0 0 256 |
//!
//! | name | table | bits | rows | weights |
//! |---|---|---|---|---|
//! | codes-cube | CUBE | 8 to 16 | 0 4 6 7 0 0 | 51000 102000 51000 51000 0 0 |
//! | codes-mixed | RED-TO-2 | 12 to 16 | 0 4 6 7 0 0 | 1638 3276 2457 819 0 0 |
//! | codes-lines | LINES | 8 to 8 | 0 1 0 1 0 1 | 153000 102000 306000 204000 255000 510000 |
//! | codes-any-rows | LINES | 8 to 8 | 2 0 1 1 0 2 | 51000 204000 510000 0 459000 306000 |
//! | codes-unused-places | CUBE | 8 to 8 | 7 0 0 7 8 4294967295 | 51000 204000 0 0 LEAST -1 |
//! | codes-kind-2 | KIND-2 | 9 to 9 | 8 0 0 0 0 0 | 255000 0 0 0 0 0 |
//! | codes-9-to-8 | CUBE | 9 to 8 | 8 0 0 0 0 0 | 255000 0 0 0 0 0 |
//! | codes-8-to-9 | CUBE | 8 to 9 | 8 0 0 0 0 0 | 255000 0 0 0 0 0 |
//! | codes-row-8 | CUBE | 8 to 8 | 0 0 0 8 0 0 | 255000 0 0 0 0 0 |
//! | codes-row-greatest | LINES | 8 to 8 | 0 0 0 4294967295 0 0 | 255000 0 510000 0 765000 0 |
//! | codes-negative | CUBE | 8 to 8 | 0 0 0 0 0 0 | 255001 -1 0 0 0 0 |
//! | codes-one-less | LINES | 8 to 8 | 0 0 0 0 0 0 | 255000 0 509999 0 765000 0 |
//! | codes-one-more | LINES | 8 to 8 | 0 0 0 0 0 0 | 255000 0 510000 0 765000 1 |
//! | codes-sum-wraps | CUBE | 8 to 8 | 0 0 0 0 0 0 | GREATEST GREATEST 2 255000 0 0 |
//! | codes-all-least | LINES | 8 to 8 | 0 0 0 0 0 0 | LEAST, six times |
//!
//! By hand: with N = 3 a is counted twice, so of LINES 51 is 102000 of 255000 in red, 102 is 204000 of
//! 510000 in green and 255 is 510000 of 765000 in blue, each in the first cell; 0.2, 0.4 and 1 are the
//! values, and 51, 102 and 255 the codes. Of any rows: a fifth of 1 in red, all of 1 in green, two
//! fifths of 1 in blue. GREATEST twice and 2 are 2 to the 64th.
//!
//! # The inverse
//!
//! Name, number, raw code, count of codes tried. SLOPES is a 1D table of two rows and domains from 0
//! to 1: red rises from 0 to 1, green falls from 1 to 0, and blue is 0.5 in both.
//!
//! | name | table | bits | colour | wanted | tolerance |
//! |---|---|---|---|---|---|
//! | inverse-rising | SLOPES | 8 to 8 | 0 | 51 | 0 |
//! | inverse-falling | SLOPES | 8 to 8 | 1 | 51 | 0 |
//! | inverse-first | SLOPES | 8 to 8 | 0 | 0 | 0 |
//! | inverse-last | SLOPES | 8 to 8 | 1 | 0 | 0 |
//! | inverse-flat | SLOPES | 8 to 8 | 2 | 128 | 0 |
//! | inverse-16-to-8 | SLOPES | 16 to 8 | 0 | 100 | 0 |
//! | inverse-16-bits | SLOPES | 16 to 16 | 1 | 0 | 0 |
//! | inverse-near | SLOPES | 8 to 16 | 0 | 1000 | 28 |
//! | inverse-not-near | SLOPES | 8 to 16 | 0 | 1000 | 27 |
//! | inverse-lowest-of-all | SLOPES | 8 to 8 | 2 | 127 | 1 |
//! | inverse-out-of-reach | SLOPES | 16 to 8 | 2 | 0 | 127 |
//! | inverse-any | SLOPES | 16 to 8 | 2 | 0 | 4294967295 |
//! | inverse-cube | CUBE | 9 to 8 | 0 | 256 | 0 |
//! | inverse-kind-2 | SLOPES, but kind 2 | 9 to 8 | 0 | 256 | 0 |
//! | inverse-colour-3 | SLOPES | 9 to 8 | 3 | 256 | 0 |
//! | inverse-9-to-8 | SLOPES | 9 to 8 | 0 | 256 | 0 |
//! | inverse-8-to-9 | SLOPES | 8 to 9 | 0 | 256 | 0 |
//! | inverse-code-256 | SLOPES | 16 to 8 | 2 | 256 | 0 |
//!
//! By hand: rising, each code is its own, and falling 51 is 255 - 204. 0.5 is 127.5 of 255, so its code
//! is 128, of every raw code. At 16 bits a raw code c is c / 257 at 8, which comes to 99.5 or more from
//! 25572 on. From 8 to 16 a raw code is 257 times itself: 1028 is 28 from 1000, and 771 is 229.

use crate::halves::{codes, rows};
use crate::inverse::{inverse, Aim};
use crate::look::{look, Look};
use crate::paper::{place, Bits, Description};
use crate::picture::picture;
use crate::reading::{check, read_into};
use crate::show::list;
use crate::writing::write_into;

pub const SMALL: &str = "LUT_1D_SIZE 2\n0 0 0\n1 1 1\n";
pub const CUBE: &str = "LUT_3D_SIZE 2\n0 0 0\n0 0 0\n0 0 0\n0 0 0\n0 0 0\n0 0 0\n0 0 0\n1 1 1\n";
pub const SAMPLE_A2: &str = include_str!("../../accept/sample-a2.cube");
pub const SAMPLE_A3: &str = include_str!("../../accept/sample-a3.cube");
pub const SAMPLE_A4: &str = include_str!("../../accept/sample-a4-by-function.cube");

/// All lines that `second cases` prints.
pub fn printed() -> String {
    let reads = read_cases().into_iter().map(|(name, file, places)| match name {
        "size-1d-65536" => longest_line(name, &file, places),
        _ => read_line(name, &file, places),
    });
    let checks = [
        check_line("check-size-1d-65536", "LUT_1D_SIZE 65536\n"),
        check_line("check-size-1d-65537", "LUT_1D_SIZE 65537\n"),
        check_line("check-size-3d-256", "LUT_3D_SIZE 256\n"),
        check_line("check-size-3d-257", "LUT_3D_SIZE 257\n"),
        check_line("check-empty", ""),
        check_line("check-cube", CUBE),
        check_line("check-sample-a3", SAMPLE_A3),
    ];
    reads
        .chain(look_lines())
        .chain(picture_lines())
        .chain(checks)
        .chain(mixed_domains())
        .chain(write_lines())
        .chain(rows_lines())
        .chain(codes_lines())
        .chain(inverse_lines())
        .map(|line| line + "\n")
        .collect()
}

fn look_lines() -> [String; 12] {
    let [half, one, two] = [5_000_000, 10_000_000, 20_000_000];
    [
        look_line("look-half-3", [8, 8], [0, 1000], half, 3),
        look_line("look-quarter-255", [8, 8], [250, 750], one, 255),
        look_line("look-code-256", [8, 8], [0, 1000], half, 256),
        look_line("look-8-to-16-fifth", [8, 16], [0, 1000], one, 51),
        look_line("look-8-to-16-above-1", [8, 16], [0, 1000], two, 200),
        look_line("look-12-to-16-tie", [12, 16], [0, 1000], half, 273),
        look_line("look-12-to-16-below-tie", [12, 16], [0, 1000], half, 272),
        look_line("look-16-to-8-tie", [16, 8], [0, 1000], half, 257),
        look_line("look-16-to-8-below-tie", [16, 8], [0, 1000], half, 256),
        look_line("look-8-to-16-code-256", [8, 16], [0, 1000], half, 256),
        look_line("look-8-to-9-code-256", [8, 9], [0, 1000], half, 256),
        look_line("look-9-to-8-code-3", [9, 8], [0, 1000], half, 3),
    ]
}

fn picture_lines() -> [String; 10] {
    let pixels = [51, 102, 204, 255, 0, 255];
    [
        picture_line("picture-two-pixels", [8, 8], &pixels, 8),
        picture_line("picture-of-none", [8, 8], &[], 2),
        picture_line("picture-of-five-codes", [8, 8], &pixels[..5], 6),
        picture_line("picture-into-five-places", [8, 8], &pixels, 5),
        picture_line("picture-code-256", [8, 8], &[0, 0, 256], 3),
        picture_line("picture-12-to-16-two-pixels", [12, 16], &[819, 1638, 3276, 4095, 1, 4095], 8),
        picture_line("picture-16-to-8-code-256", [16, 8], &[65535, 256, 257], 3),
        picture_line("picture-8-to-16-code-256", [8, 16], &[0, 0, 256], 3),
        picture_line("picture-8-to-9-code-256", [8, 9], &[0, 0, 256], 3),
        picture_line("picture-9-to-8-of-five-codes", [9, 8], &pixels[..5], 6),
    ]
}

fn word(word: &str) -> String {
    format!("LUT_1D_SIZE 2\n{word} 0 0\n0 0 0\n")
}

/// A comment of so many bytes, then an ending.
fn comment(length: usize, ending: &str) -> String {
    format!("#{}{ending}", "x".repeat(length - 1))
}

/// The small table, then a comment as its last line.
fn commented(length: usize, ending: &str) -> String {
    format!("{SMALL}{}", comment(length, ending))
}

fn read_cases() -> Vec<(&'static str, String, usize)> {
    let nines = "9".repeat(30);
    vec![
        ("word-0e999", word("0e999"), 6),
        ("word-10000e-1", word("10000e-1"), 6),
        ("word-1e-thirty-nines", word(&format!("1e{nines}")), 6),
        ("word-1e-minus-thirty-nines", word(&format!("1e-{nines}")), 6),
        ("word-5-point", word("5."), 6),
        ("word-7-point-e-minus-2", word("7.E-2"), 6),
        ("word-point", word("."), 6),
        ("word-plus", word("+"), 6),
        ("line-250", commented(250, ""), 6),
        ("line-251", commented(251, ""), 6),
        ("line-251-cr", commented(250, "\r"), 6),
        ("line-249-crlf", comment(249, "\r\n"), 0),
        ("line-1-crlf", comment(1, "\r\n"), 0),
        ("blank-before-comment", " #\n".to_string(), 0),
        ("size-1d-1", "LUT_1D_SIZE 1\n".to_string(), 0),
        ("size-3d-1", "LUT_3D_SIZE 1\n".to_string(), 0),
        ("size-1d-65536", format!("LUT_1D_SIZE 65536\n{}", "0 0 0\n".repeat(65536)), 196_609),
        ("size-1d-65537", "LUT_1D_SIZE 65537\n".to_string(), 0),
        ("size-3d-256", "LUT_3D_SIZE 256\n".to_string(), 0),
        ("size-3d-257", "LUT_3D_SIZE 257\n".to_string(), 0),
        ("size-plus-2", "LUT_1D_SIZE +2\n".to_string(), 0),
        ("size-2-point", "LUT_1D_SIZE 2.\n".to_string(), 0),
        ("cube-24-places", CUBE.to_string(), 24),
        ("cube-23-places", CUBE.to_string(), 23),
        ("sample-a2", SAMPLE_A2.to_string(), 96),
        ("sample-a3", SAMPLE_A3.to_string(), 9),
        ("sample-a4", SAMPLE_A4.to_string(), 24),
        ("domain-lower-only", format!("DOMAIN_MIN -1 -1 -1\n{SMALL}"), 6),
        ("domain-upper-only-no-data", "LUT_1D_SIZE 2\nDOMAIN_MAX 2 2 2\n".to_string(), 6),
    ]
}

/// What a read answers, and the table afterwards.
fn read_fields(file: &str, places: usize) -> (Vec<i64>, Vec<i64>) {
    let mut table = vec![7; places];
    let reading = read_into(file.as_bytes(), &mut table);
    let mut fields = vec![i64::from(reading.number), reading.line as i64];
    fields.extend(reading.description);
    (fields, table)
}

fn read_line(name: &str, file: &str, places: usize) -> String {
    let (mut fields, table) = read_fields(file, places);
    fields.extend(table);
    format!("{name}\t{}", list(&fields, "\t"))
}

fn longest_line(name: &str, file: &str, places: usize) -> String {
    let (mut fields, table) = read_fields(file, places);
    for held in [0, 7] {
        fields.push(table.iter().filter(|place| **place == held).count() as i64);
    }
    format!("{name}\t{}", list(&fields, "\t"))
}

/// A look through a table whose rows are 0 and another number.
fn look_line(
    name: &str,
    [raw, corrected]: [u32; 2],
    [lo, up]: [i64; 2],
    last: i64,
    code: u16,
) -> String {
    let description = [1, 2, lo, lo, lo, up, up, up, 0, 0, 0];
    let table = [0, 0, 0, last, last, last];
    looked(name, look(&description, &table, Bits { raw, corrected }, [code; 3]))
}

fn looked(name: &str, look: Look) -> String {
    let mut fields = vec![i64::from(look.number)];
    fields.extend(look.codes.map(i64::from));
    fields.extend(look.rows.map(i64::from));
    fields.extend(look.weights);
    format!("{name}\t{}", list(&fields, "\t"))
}

/// CUBE's 24 numbers.
fn cube_table() -> [i64; 24] {
    let mut table = [0; 24];
    table[21..].fill(10_000_000);
    table
}

fn picture_line(name: &str, [raw, corrected]: [u32; 2], source: &[u16], places: usize) -> String {
    let description = [3, 2, 0, 0, 0, 1000, 1000, 1000, 0, 0, 0];
    let mut output = vec![7; places];
    let bits = Bits { raw, corrected };
    let number = picture(&description, &cube_table(), bits, source, &mut output);
    pictured(name, number, output)
}

fn pictured(name: &str, number: u32, output: Vec<u16>) -> String {
    let mut fields = vec![i64::from(number)];
    fields.extend(output.into_iter().map(i64::from));
    format!("{name}\t{}", list(&fields, "\t"))
}

fn check_line(name: &str, file: &str) -> String {
    let check = check(file.as_bytes());
    let mut fields = vec![i64::from(check.number), check.line as i64];
    fields.extend(check.description);
    fields.push(check.places as i64);
    format!("{name}\t{}", list(&fields, "\t"))
}

// ---- mixed domains

fn mixed_domains() -> Vec<String> {
    let mut lines = mixed_reads();
    lines.extend(mixed_looks());
    lines.extend(mixed_pictures());
    lines
}

fn headed(lower: &str, upper: &str, rows: &str) -> String {
    format!("LUT_3D_SIZE 2\nDOMAIN_MIN {lower}\nDOMAIN_MAX {upper}\n{rows}")
}

fn mixed_reads() -> Vec<String> {
    let stair = "0 0 0\n0 0 0\n0 0 0\n0 0 0\n1 0 0\n0 0 0\n0 1 0\n0 0 1\n";
    let mixed = headed("0 0 0", "2 1 1", stair);
    let uneven = headed("0 0 0", "2 1.5 1", "0 0 0\n");
    let shared = headed("0 -1 0", "1.5 1.5 1.5", "0 0 0\n");
    let one = headed("0 0 0", "1.5 1.5 1.5", CUBE.split_once('\n').map_or("", |(_, rows)| rows));
    vec![
        read_line("domain-mixed", &mixed, 24),
        read_line("domain-mixed-23-places", &mixed, 23),
        read_line("domain-mixed-not-whole", &uneven, 24),
        read_line("domain-mixed-shared-not-whole", &shared, 24),
        read_line("domain-one-not-whole", &one, 24),
        check_line("check-domain-mixed", &mixed),
    ]
}

/// STAIR's 24 numbers.
fn stair() -> [i64; 24] {
    let mut table = [0; 24];
    for place in [12, 19, 23] {
        table[place] = 10_000_000;
    }
    table
}

fn mixed_looks() -> [String; 8] {
    let (pixel, red_to_2) = ([51, 102, 204], [2000, 1000, 1000]);
    [
        mixed_look("look-mixed", [8, 8], [0; 3], red_to_2, pixel),
        mixed_look("look-mixed-order", [8, 8], [0; 3], red_to_2, [120, 100, 200]),
        mixed_look("look-mixed-12-to-16", [12, 16], [0; 3], red_to_2, [819, 1638, 3276]),
        mixed_look("look-mixed-tie", [8, 8], [0; 3], [1000, 2000, 1000], [50, 100, 25]),
        mixed_look("look-mixed-beyond", [8, 8], [0, -1000, 1000], [2000, 0, 2000], pixel),
        mixed_look("look-mixed-equal-widths", [8, 8], [0, 0, 1000], [1000, 1000, 2000], pixel),
        mixed_look("look-one-to-two", [8, 8], [0; 3], [2000; 3], pixel),
        mixed_look("look-mixed-not-whole", [8, 8], [0; 3], [2000, 1500, 1000], pixel),
    ]
}

fn mixed_look(
    name: &str,
    [raw, corrected]: [u32; 2],
    [r, g, b]: [i64; 3],
    [to_r, to_g, to_b]: [i64; 3],
    pixel: [u16; 3],
) -> String {
    let description = [3, 2, r, g, b, to_r, to_g, to_b, 0, 0, 0];
    looked(name, look(&description, &stair(), Bits { raw, corrected }, pixel))
}

fn mixed_pictures() -> [String; 2] {
    let pixels = [51, 102, 204, 120, 100, 200];
    let bits = Bits { raw: 8, corrected: 8 };
    [("picture-mixed", 1000, 8), ("picture-mixed-not-whole", 1500, 6)].map(
        |(name, green, places)| {
            let description = [3, 2, 0, 0, 0, 2000, green, 1000, 0, 0, 0];
            let mut output = vec![7; places];
            let number = picture(&description, &stair(), bits, &pixels, &mut output);
            pictured(name, number, output)
        },
    )
}

// ---- writes

const HALF: [i64; 6] = [0, 0, 0, 5_000_000, 10_000_000, 20_000_000];

/// LINE(mark).
fn line(mark: i64) -> Description {
    [1, 2, 0, 0, 0, 1000, 1000, 1000, mark, 0, 0]
}

/// LINE(mark) with other numbers from a place on.
fn line_with(mark: i64, from: usize, numbers: &[i64]) -> Description {
    let mut description = line(mark);
    description[from..from + numbers.len()].copy_from_slice(numbers);
    description
}

fn write_lines() -> Vec<String> {
    let titled = |name, title: &[u8], bytes| write_line(name, &line(1), &HALF, title, bytes);
    let below_0 = line_with(-1, place::TITLE_PLACE, &[5000, -3]);
    let kind_2 = line_with(1, place::KIND, &[2]);
    let later = [&HALF[..], &[10_000_000_001]].concat();
    let numbers = [0, -5_000_000, 10_000_000, 1, -10_000_000_000, 9_999_999_999];
    let bounds = line_with(0, place::LOWER, &[-10_000, 250, 9999, -9999, 750, 10_000]);
    let mixed = [3, 2, 0, -1000, 1000, 2000, 0, 2000, 1, 0, 0];
    vec![
        titled("write-titled", b"smoke", 80),
        titled("write-title-empty", b"", 80),
        write_line("write-mark-below-0", &below_0, &HALF, b"smoke", 80),
        write_line("write-unmarked", &line(0), &HALF, b"\"\n\x80", 80),
        write_line("write-kind-2", &kind_2, &HALF, b"\"", 0),
        titled("write-title-243", &[b'x'; 243], 0),
        titled("write-title-quote", b"a\"b", 0),
        titled("write-title-1f", b"a\x1F", 80),
        titled("write-title-7f", b"\x7Fa", 80),
        longest_title_line("write-title-242"),
        titled("write-one-byte-short", b"smoke", 75),
        titled("write-just-the-text", b"smoke", 76),
        write_line("write-later-place", &line(0), &later, b"", 80),
        write_line("write-numbers", &line(0), &numbers, b"", 100),
        write_line("write-bounds", &bounds, &HALF, b"", 100),
        write_line("write-mixed", &mixed, &stair(), b"mixed", 120),
    ]
}

/// What a write answers, and the lent bytes afterwards.
fn write_fields(
    description: &Description,
    table: &[i64],
    title: &[u8],
    bytes: usize,
) -> (Vec<usize>, Vec<u8>) {
    let mut out = vec![7; bytes];
    let writing = write_into(description, table, title, &mut out);
    let held = out.iter().filter(|byte| **byte == 7).count();
    (vec![writing.number as usize, writing.text.len(), held], out)
}

fn write_line(
    name: &str,
    description: &Description,
    table: &[i64],
    title: &[u8],
    bytes: usize,
) -> String {
    let (fields, out) = write_fields(description, table, title, bytes);
    let mut line = format!("{name}\t{}", list(&fields, "\t"));
    if fields[1] > 0 {
        line += "\t";
        line += &String::from_utf8_lossy(&out[..fields[1]]).replace('\n', "|");
    }
    line
}

fn longest_title_line(name: &str) -> String {
    let (fields, _) = write_fields(&line(1), &HALF, &[b'x'; 242], 320);
    format!("{name}\t{}", list(&fields, "\t"))
}

// ---- halves of a look

/// A description and a table.
type Table = (Description, Vec<i64>);

const CUBE_DESCRIPTION: Description = [3, 2, 0, 0, 0, 1000, 1000, 1000, 0, 0, 0];

fn cube() -> Table {
    (CUBE_DESCRIPTION, cube_table().to_vec())
}

fn kind_2() -> Table {
    let mut description = CUBE_DESCRIPTION;
    description[place::KIND] = 2;
    (description, cube_table().to_vec())
}

fn red_to_2() -> Table {
    ([3, 2, 0, 0, 0, 2000, 1000, 1000, 0, 0, 0], stair().to_vec())
}

fn lines() -> Table {
    let samples = [[0, 0, 0], [5_000_000, 10_000_000, 15_000_000], [10_000_000; 3]];
    ([1, 3, 0, 0, 0, 1000, 2000, 3000, 0, 0, 0], samples.concat())
}

fn rows_lines() -> [String; 6] {
    [
        rows_line("rows-lines", lines(), 8, [51, 102, 255]),
        rows_line("rows-cube", cube(), 8, [51, 102, 204]),
        rows_line("rows-mixed", red_to_2(), 12, [819, 1638, 3276]),
        rows_line("rows-kind-2", kind_2(), 9, [0, 0, 256]),
        rows_line("rows-9-bits", cube(), 9, [0, 0, 256]),
        rows_line("rows-code-256", cube(), 8, [0, 0, 256]),
    ]
}

fn rows_line(name: &str, (description, table): Table, raw: u32, pixel: [u16; 3]) -> String {
    let found = rows(&description, &table, raw, pixel);
    let mut fields = vec![i64::from(found.number)];
    fields.extend(found.rows.map(i64::from));
    fields.extend(found.weights);
    format!("{name}\t{}", list(&fields, "\t"))
}

fn codes_lines() -> Vec<String> {
    let (least, greatest) = (i64::MIN, i64::MAX);
    let met = [0, 4, 6, 7, 0, 0];
    let of_cube = [51_000, 102_000, 51_000, 51_000, 0, 0];
    let of_mixed = [1638, 3276, 2457, 819, 0, 0];
    let of_lines = [153_000, 102_000, 306_000, 204_000, 255_000, 510_000];
    let any = [51_000, 204_000, 510_000, 0, 459_000, 306_000];
    let first = [255_000, 0, 0, 0, 0, 0];
    let firsts = [255_000, 0, 510_000, 0, 765_000, 0];
    let unused = [51_000, 204_000, 0, 0, least, -1];
    vec![
        codes_line("codes-cube", cube(), [8, 16], met, of_cube),
        codes_line("codes-mixed", red_to_2(), [12, 16], met, of_mixed),
        codes_line("codes-lines", lines(), [8, 8], [0, 1, 0, 1, 0, 1], of_lines),
        codes_line("codes-any-rows", lines(), [8, 8], [2, 0, 1, 1, 0, 2], any),
        codes_line("codes-unused-places", cube(), [8, 8], [7, 0, 0, 7, 8, u32::MAX], unused),
        codes_line("codes-kind-2", kind_2(), [9, 9], [8, 0, 0, 0, 0, 0], first),
        codes_line("codes-9-to-8", cube(), [9, 8], [8, 0, 0, 0, 0, 0], first),
        codes_line("codes-8-to-9", cube(), [8, 9], [8, 0, 0, 0, 0, 0], first),
        codes_line("codes-row-8", cube(), [8, 8], [0, 0, 0, 8, 0, 0], first),
        codes_line("codes-row-greatest", lines(), [8, 8], [0, 0, 0, u32::MAX, 0, 0], firsts),
        codes_line("codes-negative", cube(), [8, 8], [0; 6], [255_001, -1, 0, 0, 0, 0]),
        codes_line("codes-one-less", lines(), [8, 8], [0; 6], [255_000, 0, 509_999, 0, 765_000, 0]),
        codes_line("codes-one-more", lines(), [8, 8], [0; 6], [255_000, 0, 510_000, 0, 765_000, 1]),
        codes_line(
            "codes-sum-wraps",
            cube(),
            [8, 8],
            [0; 6],
            [greatest, greatest, 2, 255_000, 0, 0],
        ),
        codes_line("codes-all-least", lines(), [8, 8], [0; 6], [least; 6]),
    ]
}

fn codes_line(
    name: &str,
    (description, table): Table,
    [raw, corrected]: [u32; 2],
    rows: [u32; 6],
    weights: [i64; 6],
) -> String {
    let given = codes(&description, &table, Bits { raw, corrected }, &rows, &weights);
    let mut fields = vec![i64::from(given.number)];
    fields.extend(given.codes.map(i64::from));
    format!("{name}\t{}", list(&fields, "\t"))
}

// ---- the inverse

const SLOPES: [i64; 6] = [0, 10_000_000, 5_000_000, 10_000_000, 0, 5_000_000];

fn inverse_lines() -> [String; 18] {
    let [red, green, blue] = [0, 1, 2];
    let kind_2 = (kind_2().0, SLOPES.to_vec());
    [
        slope("inverse-rising", [8, 8], red, 51, 0),
        slope("inverse-falling", [8, 8], green, 51, 0),
        slope("inverse-first", [8, 8], red, 0, 0),
        slope("inverse-last", [8, 8], green, 0, 0),
        slope("inverse-flat", [8, 8], blue, 128, 0),
        slope("inverse-16-to-8", [16, 8], red, 100, 0),
        slope("inverse-16-bits", [16, 16], green, 0, 0),
        slope("inverse-near", [8, 16], red, 1000, 28),
        slope("inverse-not-near", [8, 16], red, 1000, 27),
        slope("inverse-lowest-of-all", [8, 8], blue, 127, 1),
        slope("inverse-out-of-reach", [16, 8], blue, 0, 127),
        slope("inverse-any", [16, 8], blue, 0, u32::MAX),
        inverse_line("inverse-cube", cube(), [9, 8], red, 256, 0),
        inverse_line("inverse-kind-2", kind_2, [9, 8], red, 256, 0),
        slope("inverse-colour-3", [9, 8], 3, 256, 0),
        slope("inverse-9-to-8", [9, 8], red, 256, 0),
        slope("inverse-8-to-9", [8, 9], red, 256, 0),
        slope("inverse-code-256", [16, 8], blue, 256, 0),
    ]
}

/// Of SLOPES.
fn slope(name: &str, bits: [u32; 2], colour: u32, wanted: u16, tolerance: u32) -> String {
    let line = [1, 2, 0, 0, 0, 1000, 1000, 1000, 0, 0, 0];
    inverse_line(name, (line, SLOPES.to_vec()), bits, colour, wanted, tolerance)
}

fn inverse_line(
    name: &str,
    (description, table): Table,
    [raw, corrected]: [u32; 2],
    colour: u32,
    wanted: u16,
    tolerance: u32,
) -> String {
    let aim = Aim { colour, wanted, tolerance };
    let found = inverse(&description, &table, Bits { raw, corrected }, aim);
    format!("{name}\t{}\t{}\t{}", found.number, found.code, found.count)
}
