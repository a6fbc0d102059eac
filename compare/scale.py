"""The cases of a comparison at scale: in parts, each made by itself, the same at each run.

They are of four kinds: those of `generate` at its large size; all short texts of the bytes that count; random ones
about each boundary; and damaged copies of good texts and of good cases.
"""

import itertools

import generate
from generate import ENDINGS, FAR, FIELDS, LARGEST, Dice, ask, listed, needed, row, seven, short_texts

# ---- more of what `generate` makes at random


def more_texts(dice):
    for text in generate.random_texts(True, dice):
        yield ask("utf8", text)
        yield ask("space", text)


def more_lines(dice):
    for text, at in generate.random_reads(True, dice):
        yield ask("line", text, at)


def more_fields(dice):
    for text, at in itertools.islice(generate.random_reads(True, dice), 6_000):
        for name in FIELDS:
            yield ask("field", name, text, at)


def more_columns(dice):
    return generate.random_columns(True, dice)


def more_samples(dice):
    return generate.random_samples(True, dice)


def more_genotypes(dice):
    return generate.random_genotypes(True, dice)


def more_lists(dice):
    yield from generate.random_lists(True, dice)
    yield from generate.random_entries(True, dice)
    yield from generate.random_joins(True, dice)


def more_alts(dice):
    return generate.random_alts(True, dice)


def more_endings(dice):
    return generate.random_endings(True, dice)


def more_forms(dice):
    return generate.random_forms(True, dice)


def more_rows(dice):
    return generate.random_rows(True, dice)


def more_orders(dice):
    return generate.random_orders(True, dice)


def more_vectors(dice):
    return generate.random_vectors(True, dice)


# ---- all short texts

# The bytes at the edges of UTF-8's table, and those of white space; then fewer of them.
UTF8_EDGES = b" a\x7f\x80\x85\x8f\x90\x9f\xa0\xbf\xc0\xc1\xc2\xdf\xe0\xe1\xe2\xe3\xec\xed\xee\xf0\xf1\xf3\xf4\xf5\xff"
FEWER_EDGES = b"a\x80\x8f\x90\x9f\xa0\xbf\xc2\xe0\xe2\xed\xf0\xf4"
# Entries of a BCF vector with each bit alone, and about each limit.
VECTOR_EDGES = bytes(sorted({*(1 << bit for bit in range(8)), *generate.EDGE_ENTRIES, 5, 0x7D, 0x83, 0xC0, 0xC1, 0xFD}))


def of_length(alphabet, length):
    return map(bytes, itertools.product(alphabet, repeat=length))


def short_characters():
    for text in (*of_length(UTF8_EDGES, 3), *of_length(FEWER_EDGES, 4)):
        yield ask("utf8", text)
        yield ask("space", text)


def short_numbers():
    for text in (*short_texts(b"09+- ", 6), *short_texts(b"0123456789", 4)):
        yield ask("decimal", text)
        yield ask("pos", text)
    for value, room in itertools.product(range(1_200), range(6)):
        yield ask("print", room, value)


def short_line_ends():
    """Where INFO starts."""
    for text in short_texts(b"a\t\n\r", 8):
        yield ask("line", seven(text), 0)


def short_line_tails():
    """Within INFO, FORMAT and a sample; and alone, from every place."""
    for columns in ((b"I",), (b"I", b"F"), (b"I", b"F", b"s")):
        for text in of_length(b"a\t\n\r", 7):
            yield ask("line", seven(*columns) + text, 0)
        for text in of_length(b"\xc3\xa9\t\n", 7):
            yield ask("line", seven(*columns) + text, 0)
    for text in short_texts(b"a\t\n\r", 5):
        for at in range(len(text) + 2):
            yield ask("line", text, at)


def columns_of_every_kind():
    """Lines of 8 to 11 columns, the last four of every kind, by every ending; all columns filled or empty."""
    kinds = (b"", b"a", b"\r", b"\xc3", b"\xa9", b"a\r")
    for count, ending in itertools.product((8, 9, 10, 11), (b"\n", b"\r\n", b"")):
        for last in itertools.product(kinds, repeat=4):
            yield ask("line", row((*generate.COLUMNS[: count - 4], *last)) + ending, 0)
        for columns in itertools.product((b"", b"a"), repeat=count):
            yield ask("line", row(columns) + ending, 0)


def dots_of_every_kind():
    """Fields of one dot, of two and of none, in every column."""
    for columns in itertools.product((b".", b"..", b"a"), repeat=8):
        text = row(columns)
        for index, name in enumerate(FIELDS):
            if index < 8 or columns[0] == columns[7] == b".":
                yield ask("field", name, text, 0)


def short_info_steps():
    columns = (*of_length(b"a=;", 8), *short_texts(b"ab=;", 6), *short_texts(b"a=;.\xc3\xa9", 5))
    for column in columns:
        for at in range(len(column) + 2):
            yield ask("info", column, at)


def short_info_keys():
    for column in of_length(b"a=;", 8):
        for key in (b"a", b"aa", b"", b"="):
            yield ask("find", column, key)
            yield ask("value", column, key)
    for column in of_length(b"ab=;", 7):
        yield ask("scan", column)
        yield ask("count", column)
        for key in (b"a", b"b", b"ab"):
            yield ask("find", column, key)
            yield ask("value", column, key)


def short_samples():
    for text in short_texts(b"a\t\xc3\xa9", 6):
        yield ask("samples", text)
        yield ask("walk", text)
        for number in generate.numbers_about(text, b"\t"):
            yield ask("sample", text, number)
    for text in short_texts(b"ab:", 8):
        for key in (b"", b"a", b"b", b"ab", b"aa"):
            yield ask("key", text, key)
        for number in generate.numbers_about(text, b":"):
            yield ask("subfield", text, number)


def short_genotypes():
    for text in of_length(b"01.|/+", 6):
        yield from generate.both_readers(6, text)


def short_phasings():
    for text in (*short_texts(b"0|/.", 8), *short_texts(b"1|/", 9)):
        yield from generate.both_readers(4, text)


def short_genotype_steps():
    for text in short_texts(b"0|/.+", 6):
        yield from generate.steps_over(text)


def short_faults():
    """Up to one byte longer than those stored, for the offsets."""
    for text in short_texts(generate.OFFSET_BYTES, 5):
        yield ask("decimal", text)
        yield ask("pos", text)
        yield from generate.all_readers(3, text)
        yield from generate.steps_over(text)


def short_checked():
    for text, alt in itertools.product(short_texts(b"012|/.", 5), (*generate.NO_ALTS, b"A", b"A,C")):
        yield from generate.both_checked(5, text, alt)


def short_alts():
    for column in (*short_texts(b".,A<", 8), *short_texts(b".,", 14)):
        yield ask("altcount", column)
    for column, value in itertools.product(short_texts(b".,A", 4), range(4)):
        yield from generate.both_checked(2, b"0/%d" % value, column)


def short_slices():
    """Slices of every mixture of short lengths, and about the longest."""
    for lengths in itertools.product(range(6), repeat=3):
        for text in short_texts(b"0|x", 3):
            yield ask("unequal", *lengths, text)
    for lengths in itertools.product(range(8), repeat=3):
        for room in range(17):
            yield ask("writeunequal", *lengths, room)
    for lengths, room in itertools.product(itertools.product((62, 63, 64), repeat=3), range(122, 130)):
        yield ask("unequal", *lengths, b"0|" * (room - 66) + b"1")
        yield ask("writeunequal", *lengths, room)


def short_lists_of_alleles():
    """Every list of up to three alleles, into no room, almost enough and enough, for file formats about 4.4."""
    kinds = tuple(itertools.product((0, 1, 10), (0, 1), (0, 1)))
    formats = (generate.FORMAT_4_3, generate.FORMAT_4_4, (3, 9), (5, 0))
    for count in range(4):
        for alleles in itertools.product(kinds, repeat=count):
            need = generate.most_needed(alleles)
            for file_format, room in itertools.product(formats, sorted({0, max(0, need - 1), need})):
                yield from generate.both_writers(file_format, room, 0, alleles)


def short_entries():
    """Every text, as one entry and cut in two anywhere."""
    for text in (*short_texts(b"a0.;,<> ", 4), *of_length(b"<>a,;", 5)):
        for cut in range(len(text) + 1):
            ends = (cut, len(text)) if cut else (len(text),)
            yield from generate.both_lists(len(text) + 1, 0, text, ends)


def short_joins():
    """Every two last columns, as a list to join and as a line to read."""
    for before, last in itertools.product((6, 8), itertools.product(short_texts(b"a\t\n\r\xff", 3), repeat=2)):
        yield from generate.both_ways((*generate.COLUMNS[:before], *last))


def short_endings():
    """Every last column of a letter and CR, by every ending: joined into rooms about what is needed, and read before
    every short rest."""
    for count, last, (ending, word) in itertools.product((8, 10), short_texts(b"a\r", 6), ENDINGS.items()):
        columns = generate.with_last(count, last)
        for more in (-1, 0, 1):
            yield ask("join", needed(columns, ending) + more, 0, word, *listed(columns))
        for rest in short_texts(b"a\t\n\r", 3):
            yield ask("line", row(columns) + ending + rest, 0)


def short_forms():
    """Ends each a few bytes past the one before; places with every short length of three fields side by side, and every
    short gap before each."""
    for steps in itertools.product((0, 1), *[(1, 2)] * 7, *[range(5)] * 2):
        yield ask("widen", "lf", *itertools.accumulate(steps, initial=4))
    for count, first, *chosen in itertools.product((8, 10), range(1, 8), *[range(3)] * 6):
        gaps, lengths = [0, *[1] * (count - 1), 0, 0][:10], [*[1] * count, 0, 0][:10]
        gaps[first : first + 3], lengths[first : first + 3] = chosen[:3], chosen[3:]
        numbers, end = [], 4
        for gap, length in zip(gaps, lengths):
            numbers += (end + gap, length)
            end += gap + length
        yield ask("narrow", "lf", *numbers)


def short_orders():
    """Of each ploidy all genotypes and all numbers, over the most alleles with no more than 20,000 of them."""
    for ploidy in generate.PLOIDIES:
        fitting = [count for count in generate.ALLELE_COUNTS if generate.how_many(ploidy, count) <= 20_000]
        yield from generate.with_genotypes(ploidy, fitting[-1])


def short_order_limits():
    """Every ploidy and every allele count to past the limits: the count, lists into rows about as long as needed where
    that is no more than may be, the last number and the next."""
    for ploidy, alleles in itertools.product(range(11), range(67)):
        yield ask("genotypecount", ploidy, alleles)
        count, need = 0, 0
        if ploidy and alleles:
            count, need = generate.how_many(ploidy, alleles), generate.list_length(ploidy, alleles)
        about = (need - 1, need, need + 1) if 0 < need < generate.LONGEST_ROW else (0, 100)
        for row in about:
            yield ask("genotypes", ploidy, alleles, row)
        for value, row in itertools.product((max(0, count - 1), count), (max(0, ploidy - 1), ploidy, ploidy + 1)):
            yield ask("genotype", value, ploidy, alleles, row)


def short_bcf_vectors():
    """All vectors of up to five entries of the kinds that count, and of three at more edges, into rows about as long;
    every two bytes behind an allele, before one and before padding."""
    for vector in short_texts(generate.FEWER_ENTRIES, 5):
        for row in sorted({0, max(0, len(vector) - 2), max(0, len(vector) - 1), len(vector)}):
            yield ask("bcfread", 1, row, vector)
    for vector in of_length(VECTOR_EDGES, 3):
        for row in (2, 3):
            yield ask("bcfread", 1, row, vector)
    for pair in generate.sequences_of_two():
        for vector in (b"\x04" + pair, pair + b"\x04", pair + generate.PADDING):
            yield ask("bcfread", 1, 3, vector)


def short_wide_vectors():
    """Every entry of 16 bits alone, behind an allele, before one and before padding; of 16 and of 32 bits all vectors
    of up to five entries of the kinds that count, every two of the entries that are almost others, and every text of up
    to nine bytes of the padding's."""
    for one in generate.sequences_of_two():
        for row, vector in ((0, one), (1, one), (2, b"\x04\x00" + one), (2, one + b"\x04\x00"), (1, one + b"\x01\x80")):
            yield ask("bcfread", 2, row, vector)
    for width in generate.WIDER:
        for count, vector in generate.vectors_of(generate.fewer_entries(width), 5):
            for row in sorted({0, max(0, count - 1), count}):
                yield ask("bcfread", width, row, vector)
        for pair in itertools.product((*generate.edge_entries(width), *generate.near_entries(width)), repeat=2):
            yield ask("bcfread", width, 2, b"".join(pair))
        for text in short_texts(b"\x00\x01\x80", 9):
            yield ask("bcfread", width, 4, text)


def short_bcf_lists():
    """Every list of up to four alleles, in vectors about as long as it, into rooms about as long as these."""
    kinds = ((0, 0, 0), (0, 1, 0), (62, 0, 1), (63, 0, 1), (1, 1, 1))
    for count in range(5):
        for alleles in itertools.product(kinds, repeat=count):
            for length in range(max(0, count - 1), count + 3):
                need = length * generate.entry_size(alleles)
                for room, at in itertools.product(range(max(0, need - 1), need + 3), range(4)):
                    yield generate.to_vector(length, room, at, alleles)


def short_wide_lists():
    """Every list of up to five numbers at the largest of each width and past it, into vectors that fill the output;
    each number of 16 bits, alone and behind another."""
    for count in range(1, 6):
        for values in itertools.product((0, *generate.LIMIT_NUMBERS), repeat=count):
            alleles = [(value, 0, value % 2) for value in values]
            yield generate.to_vector(count, count * generate.entry_size(alleles), 0, alleles)
    for value in range(2**14 + 2):
        for alleles in ([(value, 0, 0)], [(0, 1, 0), (value, 0, 1)]):
            size = generate.entry_size(alleles)
            yield generate.to_vector(2, 2 * size, 0, alleles)
            yield generate.to_vector(3, 3 * size, 1, alleles)


# ---- random ones about each boundary

LIMITS = (*(10**power for power in range(1, 21)), 2**32, 2**63, LARGEST, 2 * LARGEST, generate.TENTH)


def near(dice, limit, reach=300):
    return max(0, limit + dice.roll(2 * reach + 1) - reach)


def near_numbers(dice):
    """Numbers about each limit, written with signs and zeros before them: as a decimal, a POS and an allele."""
    for _ in range(12_000):
        value = near(dice, dice.pick(LIMITS))
        text = dice.pick((b"", b"+", b"0", b"+00", b"-")) + b"%d" % value
        yield ask("decimal", text)
        yield ask("pos", text)
        row, before = 1 + dice.roll(2), dice.pick((b"", b"0/", b"|", b".|"))
        yield from generate.both_readers(row, before + text)
        yield ask("gtstep", before + text, len(before) // 2)
        if value <= LARGEST:
            yield ask("print", max(0, len(str(value)) + dice.roll(3) - 1), value)
            alleles = [(value, 0, dice.roll(2)), (near(dice, 10), 0, dice.roll(2))]
            room = generate.most_needed(alleles) + dice.roll(4) - 3
            yield from generate.both_writers((4, 3 + dice.roll(2)), room, 0, alleles)


def near_faults(dice):
    """Numbers about the largest and ten times it, with a wrong byte in every place, put in or in place of another: as a
    decimal, a POS and an allele after others, with steps from about its start and from anywhere."""
    for _ in range(500):
        value = near(dice, dice.pick((LARGEST, LARGEST, 10 * LARGEST, 10**19, 10**20)), 30)
        number = dice.pick((b"", b"+")) + b"0" * dice.roll(4) + b"%d" % value
        for at in range(len(number) + 1):
            wrong = bytes([dice.pick(dice.pick((generate.OFFSET_BYTES, range(256))))])
            body = number[:at] + wrong + number[at + dice.roll(2) :]
            yield ask("decimal", body)
            yield ask("pos", body)
            before, later = generate.random_genotype(dice)
            before = dice.pick((b"", b"|", b"/", before + b"|", before + b"/"))
            text = before + body + dice.pick((b"", b"", b"|0", b"/x"))
            yield from generate.all_readers(later + 1 + dice.roll(3), text, b"," * dice.roll(12))
            yield ask("gtstep", text, near(dice, len(before), 2))
            yield ask("gtstep", text, dice.roll(len(text) + 1))


def near_place(dice, text):
    """A place about the text's end, or a far one."""
    return near(dice, len(text), 2) if dice.roll(4) else dice.pick(FAR)


def near_places(dice):
    """Places about the ends of texts and about the largest number."""
    for _ in range(15_000):
        text = bytes(dice.pick(b"ab=;:\t\n.\xc3\xa9") for _ in range(dice.roll(9)))
        yield ask("place", text, near_place(dice, text), near_place(dice, text))
        yield ask("place", text, dice.roll(len(text) + 2), dice.roll(len(text) + 2))
        yield ask("line", text, near_place(dice, text))
        yield ask("info", text, near_place(dice, text))
        yield ask("sample", text, near(dice, text.count(b"\t"), 2))
        yield ask("subfield", text, near(dice, text.count(b":"), 2))
        yield ask("field", dice.pick(FIELDS), seven(text) + b"\n", dice.roll(20))


def near_line_ends(dice):
    """Several lines in one text, read from about the start of each."""
    for _ in range(4_000):
        found = [generate.random_line(dice) for _ in range(3)]
        text = b"".join(found)
        for start in itertools.accumulate(map(len, found), initial=0):
            for at in range(max(0, start - 2), start + 3):
                yield ask("line", text, at)


def near_rooms(dice):
    """Rooms about what is needed and places about the output's end, for each writer."""
    for _ in range(5_000):
        entries = [generate.random_list_entry(dice) for _ in range(dice.roll(4))]
        columns = [generate.random_column(dice) for _ in range(dice.pick((8, 10, 11)))]
        alleles = [(dice.roll(12), 0, dice.roll(2)) for _ in range(1 + dice.roll(4))]
        at = dice.roll(3)
        for step in (-2, -1, 0, 1):
            room = max(0, at + needed(entries) + step)
            yield from generate.both_lists(room, at, *listed(entries))
            for ending, word in ENDINGS.items():
                yield ask("join", at + needed(columns, ending) + step, at, word, *listed(columns))
            yield from generate.both_writers((4, 4), at + generate.most_needed(alleles) + step, at, alleles)
            yield from generate.both_writers((4, 4), at + 2, near(dice, at + 2, 1), alleles)


def near_alt_counts(dice):
    """Alleles about the ALT count."""
    for _ in range(12_000):
        commas = dice.roll(15)
        values = [near(dice, commas + 1, 2) for _ in range(1 + dice.roll(4))]
        text = b"".join(dice.pick((b"|", b"/")) + b"%d" % value for value in values)
        alt = b"," * commas if dice.roll(2) else b",".join([b"A"] * (commas + 1))
        yield from generate.both_checked(len(values) + dice.roll(3) - 1, text[dice.roll(2) :], alt)


def near_no_alt(dice):
    """Columns about those of no ALT, with alleles about their count, and longer ones of the bytes that count."""
    for _ in range(5_000):
        column = bytes(dice.pick(b"...,,A<") for _ in range(dice.roll(4)))
        yield ask("altcount", column)
        yield ask("altcount", bytes(dice.pick(b".,A<") for _ in range(dice.roll(100))))
        values = [dice.pick((b"0", b"0", b".", b"1", b"2", b"3")) for _ in range(1 + dice.roll(4))]
        text = b"".join(dice.pick((b"|", b"/")) + value for value in values)
        alt = dice.pick((b"", b".", column))
        yield from generate.both_checked(len(values) + dice.roll(3) - 1, text[dice.roll(2) :], alt)


def near_forms(dice):
    """Texts that end about the longest slice or the largest number, since they start far on or a field is long; and one
    number of them moved."""
    for _ in range(1_500):
        lengths, (ending, word) = generate.random_lengths(dice), dice.pick(list(ENDINGS.items()))
        end = near(dice, dice.pick((2**63 - 1, 2**63 - 1, LARGEST)), 3) - len(ending)
        far, index = end - generate.as_ends(0, lengths)[-1], dice.roll(len(lengths))
        part = dice.pick((0, far, dice.roll(2**31) * (far >> 31)))
        lengths[index] += far - part
        yield from generate.in_both_forms(word, part, lengths)
        for verb, told in generate.FORMS.items():
            numbers = told(part, lengths)
            numbers[dice.roll(len(numbers))] += generate.random_step(dice)
            yield generate.wrapped(verb, word, numbers)


def near_orders(dice):
    """Numbers about those at which the last allele, or the one before it, rises, with allele counts about that allele
    and rows about as long as needed; genotypes about these."""
    for _ in range(6_000):
        ploidy, last = 1 + dice.roll(8), dice.roll(65)
        lower = dice.roll(last + 1)
        start = generate.how_many(ploidy, last) if last else 0
        value = start + dice.pick((0, generate.how_many(ploidy - 1, lower) if lower and ploidy > 1 else 0))
        alleles, row = dice.pick((last, last + 1, last + 1, 64)), near(dice, ploidy, 2)
        for number in sorted({max(0, value - 1), value, value + 1}):
            yield ask("genotype", number, ploidy, alleles, row)
        genotype = sorted(dice.pick((0, lower, last)) for _ in range(ploidy))
        genotype[dice.roll(ploidy)] = near(dice, dice.pick((lower, last, alleles)), 1)
        yield ask("number", alleles, tuple(genotype))
        yield ask("number", alleles, tuple(sorted(genotype)))


def near_vectors(dice):
    """Alleles about the largest that fits and about each limit; lengths about the list's and the largest number, rooms
    about the bytes and places about the output's end; vectors of about as many alleles as a row has."""
    for _, width in itertools.product(range(4_000), generate.WIDTHS):
        alleles = [generate.random_vector_allele(dice, width) for _ in range(1 + dice.roll(6))]
        if dice.roll(2):
            value = near(dice, dice.pick((62, 62, 127, 255, 2**14 - 2, 2**16, 2**30 - 2, 2**32, 2**63, LARGEST - 3)), 3)
            alleles[dice.roll(len(alleles))] = value, dice.pick((0, 0, 0, 1)), dice.roll(2)
        length, size = near(dice, len(alleles), 2), generate.entry_size(alleles)
        need, at = length * size, dice.roll(5)
        room = near(dice, need + 2, 2)
        yield generate.to_vector(length, room, at, alleles)
        yield generate.to_vector(length, need + at, near(dice, need + at, 1), alleles)
        far = dice.pick((2**32, 2**62, 2**63, LARGEST - 9)) + dice.roll(10)
        yield generate.to_vector(far, room, dice.pick((at, LARGEST + 1 - far, near_place(dice, b""))), alleles)
        yield generate.to_vector(2**64 // size * dice.roll(size) + near(dice, length, 2), need + 8, at, alleles)
        row = 1 + dice.roll(64)
        vector = generate.random_bcf_entries(dice, width, near(dice, row, 2)) + generate.PADDINGS[width] * dice.roll(4)
        yield ask("bcfread", width, row, vector)
        last = near(dice, int.from_bytes(generate.PADDINGS[width], "little"), 3)
        yield ask("bcfread", width, row, vector + generate.bcf_entry(width, last))


def near_widths(dice):
    """A list about the largest of each width, written; and its vector in each width that holds it, read as that and as
    every other, whole, with a byte less and a byte more."""
    for _ in range(6_000):
        alleles, most = [], dice.pick(generate.WIDTHS)
        for _ in range(1 + dice.roll(5)):
            value = near(dice, generate.LARGEST_ALLELES[dice.pick(generate.WIDTHS)], 2)
            value = min(value, generate.LARGEST_ALLELES[most])
            alleles.append((value, 0, dice.roll(2)) if dice.roll(6) else (0, 1, dice.roll(2)))
        length, size = len(alleles) + dice.roll(3), generate.entry_size(alleles)
        yield generate.to_vector(length, length * size + dice.roll(3), dice.roll(2), alleles)
        for width in generate.WIDTHS[generate.WIDTHS.index(size) :]:
            values = [phased if missing else 2 * value + 2 + phased for value, missing, phased in alleles]
            vector = generate.bcf_entries(width, values) + generate.PADDINGS[width] * (length - len(alleles))
            for told in generate.WIDTHS:
                yield ask("bcfread", told, len(alleles), vector)
            yield ask("bcfread", dice.pick(generate.TOLD_WIDTHS), near(dice, len(alleles), 1), vector)
            yield ask("bcfread", width, near(dice, len(alleles), 1), vector[:-1])
            yield ask("bcfread", width, near(dice, len(alleles), 1), vector + bytes([dice.pick(generate.EDGE_ENTRIES)]))


# ---- damaged copies


def harmed(dice, text, times, alphabet=range(256)):
    """The text with so many bytes dropped, put in, changed, changed by one bit or swapped with the next."""
    for _ in range(times):
        at = dice.roll(len(text) + 1)
        kind = dice.roll(5)
        here, after = text[at : at + 1], text[at + 1 :]
        if kind == 0:
            here = b""
        elif kind == 1:
            here = bytes([dice.pick(alphabet)]) + here
        elif kind == 2:
            here = bytes([dice.pick(alphabet)])
        elif kind == 3:
            here = bytes(byte ^ 1 << dice.roll(8) for byte in here)
        else:
            here, after = after[:1] + here, after[1:]
        text = text[:at] + here + after
    return text


GOOD_LINES = (*generate.examples()[1:], row(generate.COLUMNS), seven(b"I"), seven("\u00e9=\u8a9e".encode()))


def good_line(dice):
    """A record of the specification's example or a short one, by any ending, with some columns less."""
    columns = dice.pick(GOOD_LINES).split(b"\t")
    count = dice.pick((8, 10, 11, len(columns), len(columns)))
    return row(columns[:count]) + dice.pick((b"\n", b"\r\n", b""))


def harmed_lines(dice):
    for _ in range(30_000):
        text = harmed(dice, good_line(dice), 1 + dice.roll(3), dice.pick((range(256), b"\t\n\r.", b"\xc3\xa9\t")))
        yield ask("line", text, 0)
        yield ask("line", good_line(dice) + text, dice.roll(len(text)) if text else 0)
        yield ask("field", dice.pick(FIELDS), text, 0)


def harmed_columns(dice):
    columns = [line.split(b"\t")[generate.INFO_INDEX] for line in GOOD_LINES]
    for _ in range(20_000):
        column = harmed(dice, dice.pick(columns), 1 + dice.roll(4), dice.pick((range(256), b";=", b";=DP")))
        key = dice.pick((b"DP", b"AF", b"DB", b"NS", b"H2", b"D", b""))
        yield ask("info", column, dice.roll(len(column) + 1))
        yield ask("scan", column)
        yield ask("count", column)
        yield ask("find", column, key)
        yield ask("value", column, key)


def harmed_samples(dice):
    lines = [line.split(b"\t") for line in GOOD_LINES if line.count(b"\t") > generate.FORMAT_INDEX]
    for _ in range(12_000):
        columns = dice.pick(lines)
        alphabet = dice.pick((range(256), b"\t:"))
        text = harmed(dice, row(columns[generate.SAMPLES_INDEX :]), 1 + dice.roll(3), alphabet)
        keys = harmed(dice, columns[generate.FORMAT_INDEX], 1 + dice.roll(3), alphabet)
        yield ask("samples", text)
        yield ask("walk", text)
        yield ask("sample", text, dice.roll(5))
        yield ask("subfield", text, dice.roll(5))
        yield ask("key", keys, dice.pick((b"GT", b"GQ", b"DP", b"HQ", b"G", b"")))


def harmed_genotypes(dice):
    for _ in range(20_000):
        text = harmed(dice, dice.pick(generate.GENOTYPES), 1 + dice.roll(3), dice.pick((range(256), b"|/.+019")))
        yield from generate.both_readers(dice.roll(5), text)
        yield from generate.both_checked(dice.roll(5), text, dice.pick((b"", b".", b",", b",,")))
        yield from generate.steps_over(text)


def harmed_entries(dice):
    for _ in range(15_000):
        entries = [dice.pick(generate.ENTRIES) for _ in range(1 + dice.roll(3))]
        at = dice.roll(len(entries))
        entries[at] = harmed(dice, entries[at], 1 + dice.roll(2), dice.pick((range(256), b"<>,;.0 a")))
        yield from generate.of_entries(entries)
        yield ask("altcount", b",".join(entries))
        columns = harmed(dice, dice.pick(GOOD_LINES), 1, b"\t\n\r\xff").split(b"\t")
        yield from generate.both_ways(columns)


def harmed_forms(dice):
    """Lines to read, whole and damaged; and their two forms with up to two numbers changed by a bit."""
    for _ in range(4_000):
        line, before = good_line(dice), good_line(dice)
        alphabet = dice.pick((range(256), b"\t\n\r.", b"\xc3\xa9\t"))
        yield ask("small", before + line, dice.pick((0, len(before))))
        yield ask("small", harmed(dice, line, 1 + dice.roll(3), alphabet), 0)
        word = dice.pick(list(ENDINGS.values()))
        for verb, told in generate.FORMS.items():
            numbers = told(len(before), generate.field_lengths(line.rstrip(b"\r\n").split(b"\t")))
            for _ in range(dice.roll(3)):
                numbers[dice.roll(len(numbers))] ^= 1 << dice.pick((dice.roll(4), dice.roll(64)))
            yield ask(verb, word, *numbers)


def harmed_orders(dice):
    """Genotypes with one allele changed by a bit, dropped, put in or moved; a number, its ploidy or its allele count
    changed by a bit."""
    for _ in range(6_000):
        ploidy, alleles = 1 + dice.roll(8), 1 + dice.roll(64)
        genotype = generate.random_alleles(dice, ploidy, alleles)
        changed, moved = list(genotype), list(genotype)
        changed[dice.roll(ploidy)] ^= 1 << dice.pick((dice.roll(6), dice.roll(64)))
        yield ask("number", alleles, tuple(changed))
        allele = moved.pop(dice.roll(ploidy))
        yield ask("number", alleles, tuple(moved))
        moved.insert(dice.roll(ploidy), allele)
        yield ask("number", alleles, tuple(moved))
        yield ask("number", alleles, tuple(sorted((*genotype, allele))))
        asked = [generate.random_number(dice, generate.how_many(ploidy, alleles)), ploidy, alleles]
        asked[dice.roll(3)] ^= 1 << dice.pick((dice.roll(8), dice.roll(64)))
        yield ask("genotype", *asked, near(dice, ploidy, 2))
        yield ask("genotypecount", *asked[1:])


def harmed_vectors(dice):
    """Vectors with up to three bytes damaged, or told another width; lists with a number or a mark changed by a bit,
    and a length."""
    for _, width in itertools.product(range(4_000), generate.WIDTHS):
        alleles = [list(generate.random_vector_allele(dice, width)) for _ in range(1 + dice.roll(5))]
        vector = generate.random_bcf_entries(dice, width, len(alleles)) + generate.PADDINGS[width] * dice.roll(5)
        for alphabet in (range(256), generate.EDGE_ENTRIES):
            yield ask("bcfread", width, near(dice, len(alleles), 1), harmed(dice, vector, 1 + dice.roll(3), alphabet))
        told = width ^ 1 << dice.pick((dice.roll(4), dice.roll(64)))
        yield ask("bcfread", told, near(dice, len(alleles), 1), vector)
        length, bits = len(vector) // width, dice.pick((4, 64))
        room = length * generate.entry_size(alleles) + 1
        yield generate.to_vector(length ^ 1 << dice.roll(bits), room, dice.roll(2), alleles)
        part, bits = dice.pick(((0, 7), (0, 32), (0, 64), (1, 8), (2, 8)))
        alleles[dice.roll(len(alleles))][part] ^= 1 << dice.roll(bits)
        yield generate.to_vector(length, length * generate.entry_size(alleles) + 1, dice.roll(2), alleles)


# A good case of each verb, and of each of its answers that is easily damaged.
GOOD_CASES = (
    b"utf8 c3a9", b"space 61e3808062", b"decimal 2b303132", b"print 5 70", b"line 6309310a 0", b"field alt 6309 1",
    b"field samples - 0", b"place 616263 1 2", b"pos 2b31", b"join 40 0 lf 6162636465666768 1,2,3,4,5,6,7,8",
    b"info 613d313b62 0", b"find 613d313b62 62", b"value 613d313b62 61", b"scan 613d313b62", b"count 613b62",
    b"samples 610962", b"walk 610962", b"sample 610962 1", b"key 47543a4450 4450", b"subfield 303a35 1",
    b"read 3 307c31", b"readalt 3 307c31 412c43", b"unequal 2 2 2 302f31", b"gtstep 307c31 1",
    b"alleles 3 2f307c31", b"allelesalt 3 307c31 41", b"write 4 4 9 0 0:0:0 1:0:1", b"write 4 3 9 0 0:1:0",
    b"writeunequal 1 1 1 9", b"writealleles 4 4 9 1 10:0:1 0:256:0", b"filters 9 0 71313073 3,4",
    b"alts 9 1 413c433e 1,4", b"alts 2 0 - -", b"decimal 3132613334", b"pos 303030", b"read 3 302f31612f32",
    b"gtstep 307c312b32 1", b"allelesalt 3 2e7c2e35 41", b"unequal 1 1 1 31302f",
    b"altcount 412c43", b"altcount 2e", b"readalt 3 302f31 2e", b"allelesalt 3 317c2e -",
    b"line 6109620963096409650966096709680d0a 0", b"join 40 0 crlf 6162636465666768 1,2,3,4,5,6,7,8",
    b"join 40 1 none 61626364656667680d 1,2,3,4,5,6,7,9",
    b"small 6309310a 0", b"small 6109620963096409650966096709680d0a 0", b"widen lf " + generate.GOOD_ENDS,
    b"widen none 4 5 7 9 11 13 15 17 19 19 19", b"narrow crlf " + generate.GOOD_PLACES,
    b"narrow lf 9 1 11 1 13 1 15 1 17 1 19 1 21 1 23 1 24 0 24 0",
    b"plain 6309310a 0", b"plain 6109620963096409650966096709680d0a 0",
    b"number 3 0,1", b"number 64 8,8,20,63", b"genotype 4 2 3 3", b"genotype 65 3 40 2", b"genotypes 2 2 7",
    b"genotypes 3 2 11", b"genotypecount 8 64",
    b"bcfwrite 3 5 1 0:0:0 62:0:1", b"bcfwrite 2 2 0 0:1:0 61:0:255", b"bcfread 1 3 02058181", b"bcfread 1 2 007f81",
    b"bcfwrite 3 7 1 0:0:0 63:0:1", b"bcfwrite 2 8 0 16383:0:0", b"bcfread 2 3 020080000180",
    b"bcfread 4 2 feffff7f01000080", b"bcfread 3 2 020304",
)


def harmed_cases(dice):
    """It is not known whether these are cases still: the Rust is not asked, the model and the program must agree."""
    alphabet = (*range(10), *range(11, 256))
    for _ in range(60_000):
        put = dice.pick((alphabet, b" 0123456789", b":,-abcdef"))
        line = harmed(dice, dice.pick(GOOD_CASES), 1 + dice.roll(2), put)
        if b"\n" not in line:
            yield line, None


# ---- all parts

AGAIN = (
    more_texts, more_lines, more_fields, more_columns, more_samples, more_genotypes, more_lists, more_alts,
    more_endings, more_forms, more_rows, more_orders, more_vectors,
)
EXHAUSTIVE = (
    short_characters, short_numbers, short_line_ends, short_line_tails, columns_of_every_kind, dots_of_every_kind,
    short_info_steps, short_info_keys, short_samples, short_genotypes, short_phasings, short_genotype_steps,
    short_checked, short_slices, short_lists_of_alleles, short_entries, short_joins, short_faults, short_alts,
    short_endings, short_forms, short_orders, short_order_limits, short_bcf_vectors, short_bcf_lists,
    short_wide_vectors, short_wide_lists,
)
NEAR = (
    near_numbers, near_places, near_line_ends, near_rooms, near_alt_counts, near_faults, near_no_alt, near_forms,
    near_orders, near_vectors, near_widths,
)
HARMED = (
    harmed_lines, harmed_columns, harmed_samples, harmed_genotypes, harmed_entries, harmed_cases, harmed_forms,
    harmed_orders, harmed_vectors,
)
ROUNDS = 3


def words_for_endings():
    """Every word of up to four of the letters that an ending is written with."""
    for word in short_texts(b"crlfnoe", 4):
        good = word.decode() in ENDINGS.values()
        yield b"join 9 0 %s 6162 1,2" % word, good
        yield b"widen %s %s" % (word, generate.GOOD_ENDS), good
        yield b"narrow %s %s" % (word, generate.GOOD_PLACES), good


def malformed():
    yield from generate.form(True)
    yield generate.none(b"x" * generate.LONGEST_LINE + b"y")
    yield from words_for_endings()


def with_plain(cases):
    """The cases and, after each of `line`, the same of `plain`."""
    for case in cases:
        yield case
        yield from generate.asked_of_plain((case,))


def parts():
    """Every part's cases, each part with dice of its own; every case of `line` is asked of `plain` too."""
    found = [*generate.areas(True), malformed(), *(make() for make in EXHAUSTIVE)]
    dice = map(Dice, itertools.count(1_000))
    for _, make in itertools.product(range(ROUNDS), (*AGAIN, *NEAR, *HARMED)):
        found.append(make(next(dice)))
    return list(map(with_plain, found))
