"""Reads and writes .cube colour tables and corrects pictures by them, over the proved library liberythmoda.

    table = erythmoda.read(open("look.cube", "rb").read())
    table.look(8, (51, 102, 204))       # codes, and the rows and weights that made them
    table.picture(8, array("H", [51, 102, 204, 255, 255, 255]))
    table.picture(12, array("H", [819, 1638, 3276]), corrected_bits=16)
    found = table.rows(8, (51, 102, 204))       # a look by halves: rows and weights, to be kept,
    table.codes(8, *found, corrected_bits=16)   # and their codes
    line = erythmoda.read(open("line.cube", "rb").read())
    line.inverse(12, "red", 13107, 3, corrected_bits=16)    # the raw code of a 1D table that gives this code, or one near it
    open("new.cube", "wb").write(table.write())

What the library refuses raises `Refused`. A wrong argument raises TypeError or ValueError before anything is called.

The library is the file that ERYTHMODA_LIBRARY names; without it, the one beside this module or in the folder lib that the
module was installed below; else the one that the system finds. The interpreter's lock is held during a call, so that no
other thread of Python changes what was lent to it.
"""

import ctypes
import operator
import os
import sys
from array import array
from ctypes import POINTER, byref, c_int64, c_size_t, c_uint8, c_uint16, c_uint32, c_uint64
from pathlib import Path
from typing import NamedTuple, Optional, Tuple

__version__ = "1.5.0"
__all__ = ["Description", "Inverse", "Look", "Refused", "Rows", "Table", "WORDS", "check", "read"]

WORDS = {
    1: "a line over 250 bytes",
    2: "a byte other than 0x20 to 0x7E, tab and newline",
    3: "a line that is neither data nor begins with a known keyword",
    4: "a keyword after data",
    5: "a keyword for the second time; the two size words count as one",
    6: "the parameters of a keyword are wrong in count or form",
    7: "N is out of range",
    8: "a domain number is beyond -10 to 10 or no multiple of 0.001",
    9: "there is no size",
    10: "a lower bound is not below its upper bound",
    11: "a domain is wider than 10",
    12: "3D with domains that differ between colours, and a bound that is no whole number",
    13: "the lent table is too short for three places a row, or the output for the text",
    14: "there are more data lines than rows",
    15: "a data line is not three numbers",
    16: "a sample is beyond -1000 to 1000",
    17: "a sample is no multiple of 0.0000001",
    18: "the file ends with too few rows",
    19: "one of DOMAIN_MIN and DOMAIN_MAX is there without the other",
    20: "the depth of raw or of corrected codes is not 8, 10, 12 or 16 bits",
    21: "the picture's length is no multiple of 3",
    22: "the output is shorter than the picture",
    23: "a raw code is above the raw depth's M, or a wanted code above the corrected depth's M",
    24: "reading could not have given this description and this table; of an inverse also a 3D table, or a colour that is none",
    26: "a row number not below the count of rows, a negative weight, or weights that do not add up to the denominator",
    27: "the title has more than 242 bytes, a quote, or a byte other than 0x20 to 0x7E",
    28: "no raw code comes within the tolerance of the wanted code",
}


class Refused(ValueError):
    """The library's refusal: its `number`, the `words` for it, for a file the `line`, counted from 1 (else None), and for 28
    the `count` of raw codes that were tried (else None)."""

    def __init__(self, number, line=None, count=None):
        self.number = number
        self.line = line
        self.count = count
        self.words = WORDS.get(number, "unknown number")
        where = "" if line is None else f" on line {line}"
        super().__init__(f"refused {number}{where}: {self.words}")


class Description(NamedTuple):
    """What a file says of its table.

    `kind` is 1 for a 1D table and 3 for a 3D table, `domain` has for red, green and blue the lower and the upper bound in
    thousandths, `title` is None if there is none, and `places` counts the samples: three for each row. In 3D the three
    domains are one, or they differ and all six bounds are whole numbers, that is multiples of 1000.
    """

    kind: int
    n: int
    domain: Tuple[Tuple[int, int], Tuple[int, int], Tuple[int, int]]
    title: Optional[bytes]
    places: int


class Look(NamedTuple):
    """A pixel's corrected codes, and six rows and weights as the library shows them.

    1D: places 2c and 2c + 1 belong to colour c (0 red, 1 green, 2 blue). 3D: places 0 to 3 are the rows met, and the last
    two are zero. Rows with weight 0 are shown too.

    With M the greatest raw code, weights add up to M times the domain's width in thousandths, in 1D for each colour by its
    own domain; in 3D, where the domains differ, to M times the product of the three widths in whole units.
    """

    codes: Tuple[int, ...]
    rows: Tuple[int, ...]
    weights: Tuple[int, ...]


class Rows(NamedTuple):
    """Six rows and weights, as a `Look` has them."""

    rows: Tuple[int, ...]
    weights: Tuple[int, ...]


class Inverse(NamedTuple):
    """A raw code, and the count of raw codes tried: this code plus 1 where it is an exact hit, else all there are."""

    code: int
    count: int


class Table:
    """A colour table: `kind`, `n`, `domain` and `title` as `Description` has them, and its `samples`.

    The samples are an array("q") of ten-millionths: red, green and blue of row 0, then those of row 1, and so on. They may be
    changed, and a table may be made by hand: each call judges what it is given, and what no file can say is refused as 24.
    """

    def __init__(self, kind, n, domain, title, samples):
        self.kind = kind
        self.n = n
        self.domain = domain
        self.title = title
        self.samples = samples

    def __repr__(self):
        return f"<erythmoda.Table of kind {self.kind}, n {self.n}, domain {self.domain}, title {self.title}>"

    def look(self, bits, pixel, *, corrected_bits=None):
        """Corrects one pixel, three codes of 8, 10, 12 or 16 bits, and shows which rows made it: a `Look`.

        Its codes are of `corrected_bits`; without them, of as many bits as the pixel's. Its rows and weights go by the
        pixel's depth alone.
        """
        raw = _three_codes(pixel)
        codes, rows, weights = (c_uint16 * 3)(), (c_uint32 * 6)(), (c_int64 * 6)()
        number = _library.erythmoda_look(*self._lent(), *_depths(bits, corrected_bits), raw, codes, rows, weights)
        if number:
            raise Refused(number)
        return Look(tuple(codes), tuple(rows), tuple(weights))

    def rows(self, bits, pixel):
        """Finds the rows and weights of one pixel, three codes of `bits` bits: the first half of a look, a `Rows`."""
        raw = _three_codes(pixel)
        rows, weights = (c_uint32 * 6)(), (c_int64 * 6)()
        number = _library.erythmoda_rows(*self._lent(), _depth(bits), raw, rows, weights)
        if number:
            raise Refused(number)
        return Rows(tuple(rows), tuple(weights))

    def codes(self, bits, rows, weights, *, corrected_bits=None):
        """Gives the three codes of six rows and six weights: the second half of a look.

        `bits` is the depth of the raw codes that the weights were found with; the codes are of `corrected_bits`, or of as
        many bits without them. Rows and weights may be those that `rows` found, or any others: row numbers below the count
        of rows, also where the weight is 0, and weights that are not negative and add up as those of a `Look` do. Others are
        refused as 26. In 3D the last two of each are not judged, but numbers of 32 and 64 bits they have to be.
        """
        lent = _six(rows, _ROWS, "rows"), _six(weights, _WEIGHTS, "weights")
        codes = (c_uint16 * 3)()
        number = _library.erythmoda_codes(*self._lent(), *_depths(bits, corrected_bits), *lent, codes)
        if number:
            raise Refused(number)
        return tuple(codes)

    def picture(self, bits, source, output=None, *, corrected_bits=None):
        """Corrects the pixels of `source` into `output`, and gives the output back; without one, a new array("H").

        The source has codes of so many bits, and the output of `corrected_bits`, or of as many as the source without them.
        Both are buffers of 16-bit numbers without gaps: red, green and blue of one pixel, then of the next. An array("H"), a
        numpy array of uint16 and a memoryview of either are such. The output may be longer, and keeps what it has there; it
        may not overlap the source or the samples. A source that cannot be written to is copied first.
        """
        number, output = self._pictured(_depths(bits, corrected_bits), source, output)
        if number:
            raise Refused(number)
        return output

    def _pictured(self, depths, source, output):
        # a function of its own, so that what is borrowed is given back before a refusal is raised
        src, src_count = _borrowed(source, _CODES, "the source")
        if output is None:
            output = array("H", bytes(2 * src_count))
        dst, dst_count = _borrowed(output, _CODES, "the output", to_write=True)
        table = self._lent()
        if _overlap(dst, src) or _overlap(dst, table[1]):
            raise ValueError("the output overlaps the source or the table's samples")
        return _library.erythmoda_picture(*table, *depths, src, src_count, dst, dst_count), output

    def inverse(self, bits, colour, wanted, tolerance=0, *, corrected_bits=None):
        """Finds, in one colour of a 1D table, the raw code whose corrected code is nearest to a wanted one: an `Inverse`.

        The colour is "red", "green" or "blue". The wanted code is of `corrected_bits`, or of as many bits as the raw ones
        without them; the corrected code may lie at most `tolerance` codes from it. Of several raw codes that come equally
        near, the lowest is given. Raw codes are tried from 0 upward, to the greatest or to the first exact hit.

        Where none comes within the tolerance, 28 is raised, and its `count` says that all were tried. A 3D table is refused
        as 24.
        """
        aim = _colour(colour), _code(wanted), _tolerance(tolerance)
        code, count = c_uint16(), c_uint64()
        number = _library.erythmoda_inverse(*self._lent(), *_depths(bits, corrected_bits), *aim, byref(code), byref(count))
        if number:
            raise Refused(number, count=count.value if number == 28 else None)
        return Inverse(code.value, count.value)

    def write(self):
        """Gives the bytes of a .cube file with this table, and with its title if it has one.

        The lines are the title, the size, the two of the domain, and one for each row; a number has the fewest characters
        that it can have without an exponent. Reading these bytes gives the same table, which is written to the same bytes.

        A title is at most 242 bytes from 0x20 to 0x7E, none of them a quote; another one is refused as 27.
        """
        number, text = self._written()
        if number:
            raise Refused(number)
        return text

    def _written(self):
        # a function of its own, so that what is borrowed is given back before a refusal is raised
        title, title_count = _borrowed(b"" if self.title is None else self.title, _BYTES, "the title")
        table = self._lent()
        # 333 bytes and 39 for each row are always enough, and the samples make no fewer rows than are written
        room = bytearray(333 + 13 * table[2])
        out, count = _borrowed(room, _BYTES, "the output", to_write=True)
        length = c_uint64()
        number = _library.erythmoda_write(*table, title, title_count, out, count, byref(length))
        return number, bytes(memoryview(room)[: length.value])

    def _lent(self):
        """The description, the samples and how many they are, as a call takes them. No call asks for the title's place."""
        (red, to_red), (green, to_green), (blue, to_blue) = self.domain
        try:
            titled = self.title is not None
            eleven = array("q", [self.kind, self.n, red, green, blue, to_red, to_green, to_blue, titled, 0, 0])
        except OverflowError:
            raise ValueError("a number of the description has more than 64 bits") from None
        return ((c_int64 * 11).from_buffer(eleven), *_borrowed(self.samples, _SAMPLES, "the table's samples"))


def read(file):
    """Reads the bytes of a .cube file, in any buffer of bytes, and gives its `Table`."""
    about = check(file)
    samples = array("q", bytes(8 * about.places))
    number, line = _filled(file, samples)
    if number:
        raise Refused(number, line)
    return Table(about.kind, about.n, about.domain, about.title, samples)


def check(file):
    """Judges the bytes of a .cube file as `read` does, without a place for its samples, and gives its `Description`."""
    number, line, about = _checked(file)
    if number:
        raise Refused(number, line)
    return about


def _checked(file):
    lent, count = _borrowed(file, _BYTES, "the file")
    description, line, places = (c_int64 * 11)(), c_uint64(), c_uint64()
    number = _library.erythmoda_check(lent, count, description, byref(line), byref(places))
    kind, n, red, green, blue, to_red, to_green, to_blue, titled, first, length = description
    title = bytes(lent[first : first + length]) if titled else None
    domain = ((red, to_red), (green, to_green), (blue, to_blue))
    return number, line.value, Description(kind, n, domain, title, places.value)


def _filled(file, samples):
    lent, count = _borrowed(file, _BYTES, "the file")
    table, places = _borrowed(samples, _SAMPLES, "the samples", to_write=True)
    description, line = (c_int64 * 11)(), c_uint64()
    number = _library.erythmoda_read(lent, count, table, places, description, byref(line))
    return number, line.value


# ---- what is lent to the library

# the type of a place, and the letters by which buffers name it
_BYTES = (c_uint8, ("B", "b", "c"))
_CODES = (c_uint16, ("H",))
_SAMPLES = (c_int64, ("q", "l"))
_OWN_ORDER = "@=" + ("<" if sys.byteorder == "little" else ">!")


def _borrowed(owner, wanted, what, to_write=False):
    """The memory of a buffer as a ctypes array, and its length; a copy where it is only to be read and cannot be lent."""
    place, letters = wanted
    bits = 8 * ctypes.sizeof(place)
    try:
        view = memoryview(owner)
    except TypeError:
        raise TypeError(f"{what} has to be a buffer of {bits}-bit numbers, not {type(owner).__name__}") from None
    with view:
        if view.itemsize != ctypes.sizeof(place) or view.format.lstrip(_OWN_ORDER) not in letters:
            raise TypeError(f"{what} has to be a buffer of {bits}-bit numbers, and its format is {view.format}")
        if not view.c_contiguous:
            raise ValueError(f"{what} has gaps: its numbers have to stand one after another")
        if to_write and view.readonly:
            raise TypeError(f"{what} cannot be written to")
        count, readonly = view.nbytes // view.itemsize, view.readonly
    if count == 0:
        return (place * 1)(), 0  # a pointer is never null
    if readonly:
        return (place * count).from_buffer_copy(owner), count
    lent = (place * count).from_buffer(owner)
    if ctypes.addressof(lent) % ctypes.alignment(place) == 0:
        return lent, count
    if to_write:
        raise ValueError(f"{what} begins at an address where no {bits}-bit number may stand")
    return (place * count).from_buffer_copy(owner), count


def _overlap(one, other):
    first, second = ctypes.addressof(one), ctypes.addressof(other)
    return first < second + ctypes.sizeof(other) and second < first + ctypes.sizeof(one)


def _three_codes(pixel):
    try:
        codes = array("H", list(pixel))
    except OverflowError:
        raise ValueError(f"codes are from 0 to 65535, and the pixel is {tuple(pixel)}") from None
    if len(codes) != 3:
        raise ValueError(f"a pixel has three codes, and this one has {len(codes)}")
    return (c_uint16 * 3).from_buffer(codes)


_COLOURS = ("red", "green", "blue")


def _colour(name):
    """A colour's number: no other name reaches the library."""
    if name not in _COLOURS:
        raise ValueError(f"a colour is one of {', '.join(_COLOURS)}, and not {name!r}")
    return _COLOURS.index(name)


def _code(wanted):
    wanted = operator.index(wanted)
    if not 0 <= wanted < 1 << 16:
        raise ValueError(f"codes are from 0 to 65535, and the wanted one is {wanted}")
    return wanted


def _tolerance(codes):
    """The tolerance as a 32-bit number. No two codes lie further apart than that, so a greater one is the same."""
    codes = operator.index(codes)
    if codes < 0:
        raise ValueError(f"a tolerance is 0 or more, and not {codes}")
    return min(codes, (1 << 32) - 1)


# the type of a row number and of a weight, the letter of an array of them, and what they are
_ROWS = (c_uint32, "I", "from 0 to 4294967295")
_WEIGHTS = (c_int64, "q", "of 64 bits with their sign")


def _six(numbers, wanted, what):
    place, letter, limits = wanted
    numbers = list(numbers)
    try:
        six = array(letter, numbers)
    except OverflowError:
        raise ValueError(f"{what} are numbers {limits}, and these are {numbers}") from None
    if len(six) != 6:
        raise ValueError(f"there are six {what}, and these are {len(six)}")
    return (place * 6).from_buffer(six)


def _depths(bits, corrected_bits):
    """The depths of raw and of corrected codes; the second is as the first where it is not given."""
    return _depth(bits), _depth(bits if corrected_bits is None else corrected_bits)


def _depth(bits):
    """The width as a 32-bit number; one that is none is no known depth, as 0 is none."""
    bits = operator.index(bits)
    return bits if 0 <= bits < 1 << 32 else 0


# ---- the library

_TABLE = (POINTER(c_int64), POINTER(c_int64), c_size_t)
_DEPTHS = (c_uint32, c_uint32)
_TAKES = {
    "erythmoda_check": (POINTER(c_uint8), c_size_t, POINTER(c_int64), POINTER(c_uint64), POINTER(c_uint64)),
    "erythmoda_read": (POINTER(c_uint8), c_size_t, POINTER(c_int64), c_size_t, POINTER(c_int64), POINTER(c_uint64)),
    "erythmoda_look": (*_TABLE, *_DEPTHS, POINTER(c_uint16), POINTER(c_uint16), POINTER(c_uint32), POINTER(c_int64)),
    "erythmoda_rows": (*_TABLE, c_uint32, POINTER(c_uint16), POINTER(c_uint32), POINTER(c_int64)),
    "erythmoda_codes": (*_TABLE, *_DEPTHS, POINTER(c_uint32), POINTER(c_int64), POINTER(c_uint16)),
    "erythmoda_picture": (*_TABLE, *_DEPTHS, POINTER(c_uint16), c_size_t, POINTER(c_uint16), c_size_t),
    "erythmoda_inverse": (*_TABLE, *_DEPTHS, c_uint32, c_uint16, c_uint32, POINTER(c_uint16), POINTER(c_uint64)),
    "erythmoda_write": (*_TABLE, POINTER(c_uint8), c_size_t, POINTER(c_uint8), c_size_t, POINTER(c_uint64)),
}


def _library_name():
    named = os.environ.get("ERYTHMODA_LIBRARY")
    if named:
        return named
    name = "liberythmoda.so." + __version__.split(".")[0]
    here = Path(__file__).absolute().parent
    for folder in (here, *(above for above in here.parents if above.name in ("lib", "lib64"))):
        if (folder / name).exists():
            return str(folder / name)
    return name


def _loaded():
    name = _library_name()
    try:
        library = ctypes.PyDLL(name)
        for call, takes in _TAKES.items():
            getattr(library, call).argtypes = takes
            getattr(library, call).restype = c_uint32
    except (OSError, AttributeError) as error:
        raise ImportError(f"no library of Erythmoda {__version__}: {error}. ERYTHMODA_LIBRARY can name its file") from None
    return library


_library = _loaded()
