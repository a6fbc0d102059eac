"""The model: answers cases by the rules of docs/RULES.md, written from the rules and from nothing else.

    model.py < cases > answers

A case is one line: a verb and its arguments, one space between them, ended by LF (the last may lack it), at most
65,536 bytes without the LF. A line that is no case is answered `?`.
"""

import bisect
import functools
import itertools
import math
import sys

LONGEST_LINE = 65_536
LARGEST = 18_446_744_073_709_551_615
LARGEST_ROOM = 4_096
LONGEST_ROW = 4_096
MOST_ENDS = 1_024
MOST_ALLELES = 64
LARGEST_VERSION = 4_294_967_295
LARGEST_BYTE = 255
LONGEST_SLICE = 9_223_372_036_854_775_807

DONE, AT_END, EMPTY, LINE_ENDS, CUT, NOT_UTF8, BEYOND, KEY_ENDS, NO_KEY, VALUE_ENDS, NONE_SUCH = range(11)
NO_ALLELES, BAD_NUMBER, NOT_IMPLIED, BAD_FILTER, BAD_ALT = 11, 12, 13, 14, 15
BAD_ENDS, TOO_SHORT, BAD_COLUMN, BAD_COUNT, ABOVE_ALT, BAD_POS = 16, 17, 18, 19, 20, 21
OUT_OF_RANGE, TOO_LARGE, TOO_MANY, NO_VECTOR, NO_WIDTH, NOT_MADE = 23, 24, 25, 26, 27, 32
UNEQUAL = BAD_ENDS

FIELDS = (b"chrom", b"pos", b"id", b"ref", b"alt", b"qual", b"filter", b"info", b"format", b"samples")
INFO, FORMAT, SAMPLES = 7, 8, 9

# What may end a line, and the word for it.
ENDINGS = {b"": "none", b"\n": "lf", b"\r\n": "crlf"}


class NoCase(Exception):
    """The line is no case."""


# ---- arguments: each reader takes one argument's bytes and gives its value, or raises NoCase


def hexed(argument):
    """Bytes, as two lower-case hex digits each; `-` for none."""
    if argument == b"-":
        return b""
    digits = [b"0123456789abcdef".find(byte) for byte in argument]
    if not digits or len(digits) % 2 or -1 in digits:
        raise NoCase
    return bytes(16 * high + low for high, low in zip(digits[::2], digits[1::2]))


def number(argument, largest=LARGEST):
    """A number without sign or leading zero."""
    value = digits_value(argument)
    if value is None or value > largest or (len(argument) > 1 and argument[0] == ord("0")):
        raise NoCase
    return value


def room(argument):
    """The length of an output."""
    return number(argument, LARGEST_ROOM)


def field_name(argument):
    if argument not in FIELDS:
        raise NoCase
    return argument


def line_ending(argument):
    """The bytes of an ending, by its word."""
    for ending, word in ENDINGS.items():
        if argument == word.encode():
            return ending
    raise NoCase


def number_list(argument, most):
    """Numbers joined by commas; `-` for none."""
    found = [] if argument == b"-" else [number(one) for one in argument.split(b",")]
    if len(found) > most:
        raise NoCase
    return found


def list_ends(argument):
    return number_list(argument, MOST_ENDS)


def plain_alleles(argument):
    """Alleles that are numbers alone."""
    return tuple(number_list(argument, MOST_ALLELES))


def row_length(argument):
    """The length of a row, or of a slice."""
    return number(argument, MOST_ALLELES)


def long_row(argument):
    """The length of a row of numbers alone."""
    return number(argument, LONGEST_ROW)


def version(argument):
    """Either number of a file format."""
    return number(argument, LARGEST_VERSION)


def allele_list(arguments, largest_mark):
    """Alleles, an argument of number, missing mark and phasing each; the one argument `-` for none."""
    if arguments == [b"-"]:
        return []
    if not 1 <= len(arguments) <= MOST_ALLELES:
        raise NoCase
    return [allele(argument, largest_mark) for argument in arguments]


def allele(argument, largest_mark):
    parts = argument.split(b":")
    if len(parts) != 3:
        raise NoCase
    value, missing, phased = parts
    return number(value), number(missing, largest_mark), number(phased, largest_mark)


def alleles_of_bytes(arguments):
    return allele_list(arguments, LARGEST_BYTE)


def alleles_of_structs(arguments):
    return allele_list(arguments, LARGEST)


# ---- the rules


def digits_value(text):
    """What one or more digits are worth; None where the text is anything else."""
    value = 0
    for byte in text:
        if not ord("0") <= byte <= ord("9"):
            return None
        value = 10 * value + byte - ord("0")
    return value if text else None


def decimal_value(text):
    """What a decimal is worth; None where the text is none."""
    value = digits_value(text[1:] if text[:1] == b"+" else text)
    return None if value is None or value > LARGEST else value


def decimal_fault(text):
    """The offset at which a text goes wrong: the length of its longest front that some decimal begins with.

    Such a front is empty, a `+` or a decimal itself. It is the whole text where only a digit is missing.
    """
    fronts = (text[:length] for length in range(len(text), -1, -1))
    return next(len(front) for front in fronts if front in (b"", b"+") or decimal_value(front) is not None)


# Each row: the first byte from .. to, the second byte from .. to, the bytes in all. Bytes after the second are 80-BF.
CHARACTERS = (
    (0x00, 0x7F, None, None, 1),
    (0xC2, 0xDF, 0x80, 0xBF, 2),
    (0xE0, 0xE0, 0xA0, 0xBF, 3),
    (0xE1, 0xEC, 0x80, 0xBF, 3),
    (0xED, 0xED, 0x80, 0x9F, 3),
    (0xEE, 0xEF, 0x80, 0xBF, 3),
    (0xF0, 0xF0, 0x90, 0xBF, 4),
    (0xF1, 0xF3, 0x80, 0xBF, 4),
    (0xF4, 0xF4, 0x80, 0x8F, 4),
)
# The bits of the first byte that belong to the code point, by the bytes in all.
FIRST_BITS = {1: 0x7F, 2: 0x1F, 3: 0x0F, 4: 0x07}

WHITE_SPACE = (
    (0x0009, 0x000D), (0x0020, 0x0020), (0x0085, 0x0085), (0x00A0, 0x00A0), (0x1680, 0x1680), (0x2000, 0x200A),
    (0x2028, 0x2028), (0x2029, 0x2029), (0x202F, 0x202F), (0x205F, 0x205F), (0x3000, 0x3000),
)


def character(text, at):
    """The code point and the length of the character at a place; None where none is."""
    for first, last, second_from, second_to, length in CHARACTERS:
        if first <= text[at] <= last:
            rest = text[at + 1 : at + length]
            if len(rest) != length - 1:
                return None
            if rest and not second_from <= rest[0] <= second_to:
                return None
            if any(not 0x80 <= byte <= 0xBF for byte in rest[1:]):
                return None
            point = text[at] & FIRST_BITS[length]
            for byte in rest:
                point = point << 6 | byte & 0x3F
            return point, length
    return None


def points(text):
    """The code points of a text; None where it is not UTF-8."""
    found, at = [], 0
    while at < len(text):
        here = character(text, at)
        if here is None:
            return None
        found.append(here[0])
        at += here[1]
    return found


def is_utf8(text):
    return points(text) is not None


def is_white_space(point):
    return any(first <= point <= last for first, last in WHITE_SPACE)


def list_entries(text, ends):
    """The entries of a list; None where its ends fall, or pass the text."""
    bounds = [0, *ends]
    if bounds != sorted(bounds) or bounds[-1] > len(text):
        return None
    return [text[start:end] for start, end in zip(bounds, ends)]


def line_and_ending(text, at):
    """The line at a place, up to its LF or the end of the text, and its ending, to which a CR belongs before an LF."""
    line, fed, _ = text[at:].partition(b"\n")
    if fed and line.endswith(b"\r"):
        return line[:-1], b"\r\n"
    return line, fed


def read_line(text, at):
    """The answer of the line reader, the next place and, where it is 0, the ten places.

    The line is parted from its ending first, then cut at its tabs, and judged from left to right.
    """
    if at > len(text):
        return BEYOND, at, None
    if at == len(text):
        return AT_END, at, None
    line, ending = line_and_ending(text, at)
    past = at + len(line) + len(ending)
    columns = line.split(b"\t")
    last = len(columns) - 1
    starts = [at]
    for column in columns[:last]:
        starts.append(starts[-1] + len(column) + 1)
    for index, column in enumerate(columns):
        if index == last and (index < INFO or index == FORMAT):
            return LINE_ENDS if ending else CUT, past, None
        if not column:
            if index == last:
                return EMPTY if ending else CUT, past, None
            return EMPTY, starts[index + 1], None
    if not all(map(is_utf8, columns)):
        return NOT_UTF8, past, None
    end = starts[last] + len(columns[last])
    places = list(zip(starts, map(len, columns)))
    if last == INFO:
        places += [(end, 0), (end, 0)]
    else:
        places[SAMPLES:] = [(starts[SAMPLES], end - starts[SAMPLES])]
    return DONE, past, places


def start_and_ends(places):
    """Where the line's text starts, and where each of its ten fields ends; the last ends where the text does."""
    first_start, _ = places[0]
    return [first_start, *map(sum, places)]


def places_between(start, ends):
    """The ten places of fields that end there, each past one tab after the end before it.

    FORMAT is absent where it ends where INFO does: neither it nor the samples then pass a tab. A length is negative
    where ends fall.
    """
    tabs = [0, *[1] * INFO, *[int(ends[FORMAT] != ends[INFO])] * 2]
    starts = [before + tab for before, tab in zip((start, *ends), tabs)]
    return [(first, end - first) for first, end in zip(starts, ends)]


def can_be_made(ending, places):
    """Whether there is an input on which the line reader makes these ten places and that ending.

    FORMAT and the samples are absent where both are empty at INFO's end; else they are columns as all others are.
    """
    absent = (sum(places[INFO]), 0)
    columns = places[:FORMAT] if places[FORMAT:] == [absent, absent] else places
    filled = all(length > 0 for _, length in columns)
    past_tabs = all(start == sum(before) + 1 for before, (start, _) in zip(columns, columns[1:]))
    return filled and past_tabs and sum(columns[-1]) + len(ending) <= LONGEST_SLICE


def joined(text, ends, ending):
    """The line of the columns given, with its ending; or the numbers of a refusal.

    A CR at the end of the last column is refused only where an LF alone is to follow, which would make it part of the
    ending.
    """
    columns = list_entries(text, ends)
    if columns is None:
        return (BAD_ENDS,)
    if len(columns) < 8 or len(columns) == 9:
        return (BAD_COUNT,)
    for index, column in enumerate(columns):
        becomes_ending = index == len(columns) - 1 and ending == b"\n" and column.endswith(b"\r")
        if not column or b"\t" in column or b"\n" in column or becomes_ending:
            return BAD_COLUMN, index
        if not is_utf8(column):
            return NOT_UTF8, index
    return b"\t".join(columns) + ending


def part(text, place):
    start, length = place
    return text[start : start + length]


def info_step(text, at):
    """The answer of a step over INFO, the next place and, where it is 0, the places of the key and of the value.

    The entry is taken to its semicolon or the end of the text first, then cut at its first `=`. A value that is absent
    has the place None.
    """
    if at > len(text):
        return BEYOND, at, None, None
    if at == len(text):
        return NONE_SUCH, at, None, None
    entry, semicolon, rest = text[at:].partition(b";")
    key, equals, value = entry.partition(b"=")
    last_byte = semicolon and not rest
    if last_byte and not equals:
        return KEY_ENDS, len(text), None, None
    if not key:
        return NO_KEY, at + 1, None, None
    if last_byte:
        return VALUE_ENDS, len(text), None, None
    shown_value = (at + len(key) + 1, len(value)) if equals else None
    return DONE, at + len(entry) + len(semicolon), (at, len(key)), shown_value


def info_steps(text):
    """Every step from the start of the text, up to and with the one that answers 10."""
    answered, past = None, 0
    while answered != NONE_SUCH:
        step = info_step(text, past)
        answered, past, _, _ = step
        yield step


def info_lookup(text, wanted):
    """The first step that is a refusal or whose key is equal to the one wanted."""
    for step in info_steps(text):
        answered, _, key, _ = step
        if answered != DONE or part(text, key) == wanted:
            return step


def piece_places(text, separator):
    """The place of each piece; the empty text holds none."""
    found, start = [], 0
    for piece in text.split(separator) if text else ():
        found.append((start, len(piece)))
        start += len(piece) + 1
    return found


MARKS = (b"|", b"/")


def genotype_pieces(text):
    """The text cut before each `|` or `/` other than at byte 0."""
    cuts = [at for at in range(1, len(text)) if text[at : at + 1] in MARKS]
    return [text[start:end] for start, end in zip([0, *cuts], [*cuts, len(text)])]


def implied(later_marks):
    """The first phasing where its mark is absent."""
    return b"/" if b"/" in later_marks else b"|"


def piece_meanings(pieces):
    """What each piece means, (number, missing, phased); None where it means nothing."""
    marks, bodies = [], []
    for piece in pieces:
        marked = piece[:1] in MARKS
        marks.append(piece[:marked])
        bodies.append(piece[marked:])
    marks[0] = marks[0] or implied(marks[1:])
    values = [0 if body == b"." else decimal_value(body) for body in bodies]
    found = zip(values, bodies, marks)
    return [None if value is None else (value, int(body == b"."), int(mark == b"|")) for value, body, mark in found]


def piece_fault(piece):
    """The offset at which a piece that means nothing goes wrong: where its decimal does, past its mark."""
    marked = piece[:1] in MARKS
    return marked + decimal_fault(piece[marked:])


def alt_count(column):
    """How many ALT alleles a column has: none where it is empty or one dot, else one more than its commas."""
    return 0 if column in (b"", b".") else column.count(b",") + 1


def read_genotype(text):
    """The list that a text means; or the numbers of a refusal."""
    if not text:
        return (NO_ALLELES,)
    pieces = genotype_pieces(text)
    made = piece_meanings(pieces)
    if None in made:
        bad = made.index(None)
        return BAD_NUMBER, bad, sum(map(len, pieces[:bad])) + piece_fault(pieces[bad])
    return made


def checked_genotype(text, alt):
    """The same, where no allele's number may be above the ALT count."""
    made = read_genotype(text)
    if isinstance(made, list):
        most = alt_count(alt)
        above = [value > most for value, _, _ in made]
        if any(above):
            return ABOVE_ALT, above.index(True)
    return made


def list_fault(alleles):
    """The numbers of the refusal of a list that means no genotype; None where it means one."""
    if not alleles:
        return (NO_ALLELES,)
    bad = [missing != 0 and value != 0 for value, missing, _ in alleles]
    return (BAD_NUMBER, bad.index(True)) if any(bad) else None


def spelt_genotype(alleles, file_format):
    """The shortest permitted spelling of a list; or the numbers of a refusal."""
    fault = list_fault(alleles)
    if fault:
        return fault
    marks = [b"|" if phased else b"/" for _, _, phased in alleles]
    bodies = [b"." if missing else str(value).encode() for value, missing, _ in alleles]
    if marks[0] == implied(marks[1:]):
        marks[0] = b""
    elif file_format < (4, 4):
        return (NOT_IMPLIED,)
    return b"".join(itertools.chain(*zip(marks, bodies)))


# By the bytes of each entry of a BCF vector, from the fewest on: the entry that pads it, and the largest allele.
WIDTHS = {1: (b"\x81", 62), 2: (b"\x01\x80", 16_382), 4: (b"\x01\x00\x00\x80", 1_073_741_822)}


def bcf_width(alleles):
    """The smallest width that holds every allele; None where none does."""
    fitting = (width for width, (_, largest) in WIDTHS.items() if all(value <= largest for value, _, _ in alleles))
    return next(fitting, None)


def bcf_entry(one, width):
    value, missing, phased = one
    above = 0 if missing else value + 1
    return (2 * above + (phased != 0)).to_bytes(width, "little")


def bcf_vector(alleles, length):
    """A list as a BCF vector of so many entries; or the numbers of a refusal.

    One that is longer than any output is made one entry longer than these have bytes: it fits nowhere either way.
    """
    fault, width = list_fault(alleles), bcf_width(alleles)
    if fault:
        return fault
    if width is None:
        return (TOO_LARGE,)
    if len(alleles) > length:
        return (TOO_MANY,)
    padding, _ = WIDTHS[width]
    entries = [bcf_entry(one, width) for one in alleles]
    entries += [padding] * (min(length, LARGEST_ROOM + 1) - len(entries))
    return b"".join(entries)


def bcf_list(vector, width):
    """The list that a BCF vector means; or the numbers of a refusal.

    It is what stands before the padding at the end: one entry or more, none of them negative.
    """
    if width not in WIDTHS:
        return (NO_WIDTH,)
    if len(vector) % width:
        return (NO_VECTOR,)
    padding, _ = WIDTHS[width]
    entries = [vector[at : at + width] for at in range(0, len(vector), width)]
    while entries[-1:] == [padding]:
        entries.pop()
    values = [int.from_bytes(entry, "little", signed=True) for entry in entries]
    if not values or min(values) < 0:
        return (NO_VECTOR,)
    halves = (divmod(value, 2) for value in values)
    return [(above - 1, 0, phased) if above else (0, 1, phased) for above, phased in halves]


# The limits of the numbers of genotypes.
HIGHEST_PLOIDY, HIGHEST_ALLELE_COUNT = 8, 64

# The order of genotypes is made where it has no more of them. Longer ones are not made: binomials say what is in them.
MOST_MADE = 10_000


@functools.cache
def ordering(ploidy, alleles):
    """All genotypes in order, as the specification writes it: for each allele in turn, the order of one ploidy less
    over the alleles up to it, each followed by it."""
    if ploidy == 0:
        return ((),)
    return tuple((*before, last) for last in range(alleles) for before in ordering(ploidy - 1, last + 1))


@functools.cache
def order_indexes(ploidy, alleles):
    """The index of each genotype in the order."""
    return {genotype: index for index, genotype in enumerate(ordering(ploidy, alleles))}


def order_number(alleles, genotype):
    return order_indexes(len(genotype), alleles).get(genotype)


def order_genotype(value, ploidy, alleles):
    found = ordering(ploidy, alleles)
    return found[value] if value < len(found) else None


def binomial_count(ploidy, alleles):
    return math.comb(alleles + ploidy - 1, ploidy)


@functools.cache
def lower_genotypes(place):
    """For each allele, how many genotypes of so many alleles have only lower ones."""
    return [math.comb(allele + place - 1, place) for allele in range(HIGHEST_ALLELE_COUNT)]


def binomial_number(alleles, genotype):
    """The sum over all places, counted from 1, of (allele + place - 1 over place)."""
    if list(genotype) != sorted(genotype) or genotype[-1] >= alleles:
        return None
    return sum(math.comb(allele + place - 1, place) for place, allele in enumerate(genotype, 1))


def binomial_genotype(value, ploidy, alleles):
    """From the last place to the first, the highest allele whose part of the sum is not above what is left of it."""
    if value >= binomial_count(ploidy, alleles):
        return None
    found = []
    for place in range(ploidy, 0, -1):
        parts = lower_genotypes(place)
        found.append(bisect.bisect_right(parts, value) - 1)
        value -= parts[found[-1]]
    return tuple(reversed(found))


def has_order(ploidy, alleles):
    """Whether both are within their limits."""
    return 1 <= ploidy <= HIGHEST_PLOIDY and 1 <= alleles <= HIGHEST_ALLELE_COUNT


def is_made(ploidy, alleles):
    return binomial_count(ploidy, alleles) <= MOST_MADE


def genotype_count(ploidy, alleles):
    """How many genotypes there are; None where a limit is passed."""
    if not has_order(ploidy, alleles):
        return None
    return len(ordering(ploidy, alleles)) if is_made(ploidy, alleles) else binomial_count(ploidy, alleles)


def genotype_number(alleles, genotype):
    """The number of a genotype; None where it is none, or a limit is passed."""
    if not has_order(len(genotype), alleles):
        return None
    return (order_number if is_made(len(genotype), alleles) else binomial_number)(alleles, genotype)


def numbered_genotype(value, ploidy, alleles):
    """The genotype of a number; None where it has none, or a limit is passed."""
    if not has_order(ploidy, alleles):
        return None
    return (order_genotype if is_made(ploidy, alleles) else binomial_genotype)(value, ploidy, alleles)


def hold_binomials_to_orders():
    """Raises an AssertionError where the two ways differ: on every order that is made, on all lists of alleles up to
    one past the last where these are few, and where each order, made or not, ends and goes on with one allele more."""
    for ploidy, alleles in itertools.product(range(1, HIGHEST_PLOIDY + 1), range(1, HIGHEST_ALLELE_COUNT + 1)):
        here, count = (ploidy, alleles), binomial_count(ploidy, alleles)
        assert binomial_genotype(count - 1, *here) == (alleles - 1,) * ploidy, here
        assert binomial_number(alleles, (alleles - 1,) * ploidy) == count - 1, here
        assert binomial_number(alleles + 1, (*[0] * (ploidy - 1), alleles)) == count, here
        if is_made(*here):
            found = ordering(*here)
            assert sorted(found) == list(itertools.combinations_with_replacement(range(alleles), ploidy)), here
            few = (alleles + 1) ** ploidy <= MOST_MADE
            for genotype in (*found, *(itertools.product(range(alleles + 1), repeat=ploidy) if few else ())):
                assert binomial_number(alleles, genotype) == order_number(alleles, genotype), (here, genotype)
            for value in range(count + 2):
                assert binomial_genotype(value, *here) == order_genotype(value, *here), (here, value)


def is_filter(entry):
    return entry not in (b"", b".", b"0") and b";" not in entry


def is_alt(entry):
    if entry.startswith(b"<") and entry[1:].endswith(b">"):
        inside = entry[1:-1]
        return inside != b"" and not any(byte in inside for byte in b"<>,")
    return entry != b"" and b"," not in entry


def joined_entries(text, ends, separator, is_valid, bad):
    """The entries of a list with a separator between them, `.` for none; or the numbers of a refusal."""
    entries = list_entries(text, ends)
    if entries is None:
        return (BAD_ENDS,)
    for index, entry in enumerate(entries):
        characters = points(entry)
        if characters is None:
            return NOT_UTF8, index
        if not is_valid(entry) or any(map(is_white_space, characters)):
            return bad, index
    return separator.join(entries) if entries else b"."


# ---- answers


def shown(output):
    return output.hex() or "-"


def words(*values):
    return " ".join(map(str, values))


def laid_out(length, at, made, *told):
    """A writer's answer and its whole output. What it makes is bytes, or the numbers of a refusal; what else it tells
    of bytes that it wrote stands before how many they are."""
    output = bytearray(b"\xee" * length)
    if at > length:
        made = (BEYOND,)
    elif isinstance(made, bytes):
        if len(made) > length - at:
            made = (TOO_SHORT,)
        else:
            output[at : at + len(made)] = made
            made = (DONE, *told, len(made))
    return words(*made, shown(output))


def utf8(text):
    return words(DONE if is_utf8(text) else NOT_UTF8)


def space(text):
    found = points(text)
    if found is None:
        return words(NOT_UTF8)
    return words(DONE, int(any(map(is_white_space, found))))


def decimal(text):
    value = decimal_value(text)
    return words(BAD_NUMBER, decimal_fault(text)) if value is None else words(DONE, value)


def print_number(length, value):
    return laid_out(length, 0, str(value).encode())


def line_places(text, at):
    answered, past, places = read_line(text, at)
    if answered != DONE:
        return words(answered, past)
    _, ending = line_and_ending(text, at)
    return words(answered, past, ENDINGS[ending], *itertools.chain(*places))


def small(text, at):
    answered, past, places = read_line(text, at)
    if answered != DONE:
        return words(answered, past)
    _, ending = line_and_ending(text, at)
    return words(answered, past, ENDINGS[ending], *start_and_ends(places))


def widen(ending, start, *ends):
    places = places_between(start, ends)
    return words(DONE, *itertools.chain(*places)) if can_be_made(ending, places) else words(NOT_MADE)


def narrow(ending, *numbers):
    places = list(zip(numbers[::2], numbers[1::2]))
    return words(DONE, *start_and_ends(places)) if can_be_made(ending, places) else words(NOT_MADE)


def field(name, text, at):
    answered, _, places = read_line(text, at)
    if answered != DONE:
        return words(answered)
    start, length = places[FIELDS.index(name)]
    if text[start : start + length] == b".":
        if name == b"qual":
            return words(DONE, "absent")
        if name in (b"id", b"alt", b"filter", b"info"):
            return words(DONE, start + length, 0)
    return words(DONE, start, length)


def place(text, start, length):
    beyond = start > len(text) or length > len(text) - start
    return words(BEYOND) if beyond else words(DONE, start, length)


def pos(text):
    if text == b"0":
        return words(DONE, "none")
    value = decimal_value(text)
    # of a text worth 0 the longest front is all of it
    return words(DONE, value) if value else words(BAD_POS, decimal_fault(text))


def join(length, at, ending, text, ends):
    return laid_out(length, at, joined(text, ends, ending))


def step_words(step):
    answered, past, key, value = step
    if answered != DONE:
        return words(answered, past)
    return words(answered, past, *key, *(value or ("absent",)))


def info(text, at):
    return step_words(info_step(text, at))


def find(text, wanted):
    return step_words(info_lookup(text, wanted))


def value_of(text, wanted):
    _, _, _, value = info_lookup(text, wanted)
    return shown(part(text, value) if value else b"")


def scan(text):
    return ", ".join(map(step_words, info_steps(text)))


def count(text):
    return words(text.count(b";") + 1 if text else 0)


def samples(text):
    return words(len(piece_places(text, b"\t")))


def walk(text):
    places = piece_places(text, b"\t")
    return ", ".join(words(*one) for one in places) or words(NONE_SUCH)


def numbered(places, index):
    """The place of the piece of that number."""
    return words(DONE, *places[index]) if index < len(places) else words(NONE_SUCH)


def sample(text, index):
    return numbered(piece_places(text, b"\t"), index)


def key_index(text, wanted):
    keys = [part(text, one) for one in piece_places(text, b":")]
    return words(DONE, keys.index(wanted)) if wanted in keys else words(NONE_SUCH)


def subfield(text, index):
    return numbered(piece_places(text, b":"), index)


def laid_in_row(length, start, made):
    """A reader's numbers and its whole row. What it made is alleles, or the numbers of a refusal."""
    row = [start] * length
    if isinstance(made, list):
        if len(made) > length:
            made = (TOO_SHORT,)
        else:
            row[: len(made)] = made
            made = (DONE, len(made))
    return made, row


# What each place of a row starts as.
ROW_START, STRUCTS_START = (7, 7, 7), (7, 1, 1)


def allele_shown(one):
    return ":".join(map(str, one))


def row_words(made, row):
    return words(*made, *(map(allele_shown, row) if row else "-"))


def slice_words(made, slices):
    return words(*made, *(",".join(map(str, one)) or "-" for one in slices))


def read(length, text):
    return row_words(*laid_in_row(length, ROW_START, read_genotype(text)))


def read_alt(length, text, alt):
    return row_words(*laid_in_row(length, ROW_START, checked_genotype(text, alt)))


def altcount(column):
    return words(alt_count(column))


def unequal(numbers, missing, phased, text):
    if not numbers == missing == phased:
        return slice_words((UNEQUAL,), ([7] * length for length in (numbers, missing, phased)))
    made, row = laid_in_row(numbers, ROW_START, read_genotype(text))
    return slice_words(made, zip(*row) if row else ((), (), ()))


def gtstep(text, at):
    if at > len(text):
        return words(BEYOND)
    if not text:
        return words(NO_ALLELES)
    if at == len(text):
        return words(NONE_SUCH)
    pieces = genotype_pieces(text[at:])
    first = piece_meanings(pieces)[0]
    if first is None:
        return words(BAD_NUMBER, at + piece_fault(pieces[0]))
    return words(DONE, at + len(pieces[0]), allele_shown(first))


def alleles(length, text):
    return row_words(*laid_in_row(length, STRUCTS_START, read_genotype(text)))


def alleles_alt(length, text, alt):
    return row_words(*laid_in_row(length, STRUCTS_START, checked_genotype(text, alt)))


def write(major, minor, length, at, listed):
    return laid_out(length, at, spelt_genotype(listed, (major, minor)))


def write_unequal(numbers, missing, phased, length):
    if not numbers == missing == phased:
        return laid_out(length, 0, (UNEQUAL,))
    return write(4, 4, length, 0, [(0, 0, 0)] * numbers)


def bcf_write(entries, length, at, listed):
    return laid_out(length, at, bcf_vector(listed, entries), bcf_width(listed))


def bcf_read(width, length, vector):
    return row_words(*laid_in_row(length, ROW_START, bcf_list(vector, width)))


# What each place of a row of numbers alone starts as.
NUMBER_START = 7


def number_of(allele_count, genotype):
    value = genotype_number(allele_count, genotype)
    return words(OUT_OF_RANGE) if value is None else words(DONE, value)


def genotype_of(value, ploidy, allele_count, length):
    genotype = numbered_genotype(value, ploidy, allele_count)
    made, row = laid_in_row(length, NUMBER_START, (OUT_OF_RANGE,) if genotype is None else list(genotype))
    return slice_words(made, (row,))


def all_genotypes(ploidy, allele_count, length):
    count, row = genotype_count(ploidy, allele_count), [NUMBER_START] * length
    if count is None:
        return slice_words((OUT_OF_RANGE,), (row,))
    if ploidy * count > length:
        return slice_words((TOO_SHORT,), (row,))
    row[: ploidy * count] = itertools.chain(*ordering(ploidy, allele_count))
    return slice_words((DONE, count), (row,))


def count_genotypes(ploidy, allele_count):
    value = genotype_count(ploidy, allele_count)
    return words(OUT_OF_RANGE) if value is None else words(DONE, value)


def filters(length, at, text, ends):
    return laid_out(length, at, joined_entries(text, ends, b";", is_filter, BAD_FILTER))


def alts(length, at, text, ends):
    return laid_out(length, at, joined_entries(text, ends, b",", is_alt, BAD_ALT))


# Each verb: what answers it, and the readers of its arguments; last, where there is one, that of all further arguments.
VERBS = {
    b"utf8": (utf8, (hexed,)),
    b"space": (space, (hexed,)),
    b"decimal": (decimal, (hexed,)),
    b"print": (print_number, (room, number)),
    b"line": (line_places, (hexed, number)),
    b"plain": (line_places, (hexed, number)),
    b"small": (small, (hexed, number)),
    b"widen": (widen, (line_ending, *[number] * 11)),
    b"narrow": (narrow, (line_ending, *[number] * 20)),
    b"field": (field, (field_name, hexed, number)),
    b"place": (place, (hexed, number, number)),
    b"pos": (pos, (hexed,)),
    b"join": (join, (room, number, line_ending, hexed, list_ends)),
    b"info": (info, (hexed, number)),
    b"find": (find, (hexed, hexed)),
    b"value": (value_of, (hexed, hexed)),
    b"scan": (scan, (hexed,)),
    b"count": (count, (hexed,)),
    b"samples": (samples, (hexed,)),
    b"walk": (walk, (hexed,)),
    b"sample": (sample, (hexed, number)),
    b"key": (key_index, (hexed, hexed)),
    b"subfield": (subfield, (hexed, number)),
    b"read": (read, (row_length, hexed)),
    b"readalt": (read_alt, (row_length, hexed, hexed)),
    b"altcount": (altcount, (hexed,)),
    b"unequal": (unequal, (row_length, row_length, row_length, hexed)),
    b"gtstep": (gtstep, (hexed, number)),
    b"alleles": (alleles, (row_length, hexed)),
    b"allelesalt": (alleles_alt, (row_length, hexed, hexed)),
    b"write": (write, (version, version, room, number), alleles_of_bytes),
    b"writeunequal": (write_unequal, (row_length, row_length, row_length, room)),
    b"writealleles": (write, (version, version, room, number), alleles_of_structs),
    b"filters": (filters, (room, number, hexed, list_ends)),
    b"alts": (alts, (room, number, hexed, list_ends)),
    b"number": (number_of, (number, plain_alleles)),
    b"genotype": (genotype_of, (number, number, number, long_row)),
    b"genotypes": (all_genotypes, (number, number, long_row)),
    b"genotypecount": (count_genotypes, (number, number)),
    b"bcfwrite": (bcf_write, (number, room, number), alleles_of_bytes),
    b"bcfread": (bcf_read, (number, row_length, hexed)),
}


def answer(line):
    """The answer to one line, given without its LF."""
    verb, *arguments = line.split(b" ")
    if len(line) > LONGEST_LINE or verb not in VERBS:
        return "?"
    act, readers, *further = VERBS[verb]
    first, rest = arguments[: len(readers)], arguments[len(readers) :]
    if len(first) < len(readers) or (rest and not further):
        return "?"
    try:
        values = [reader(argument) for reader, argument in zip(readers, first)]
        return act(*values, *(reader(rest) for reader in further))
    except NoCase:
        return "?"


def answers(cases):
    """The answers to all lines of an input, in order."""
    lines = cases.split(b"\n")
    if lines[-1] == b"":
        lines.pop()
    return [answer(line) for line in lines]


if __name__ == "__main__":
    for one in answers(sys.stdin.buffer.read()):
        print(one)
