"""The generator of cases: the same lines at each run.

It makes questions and no answers. It knows of each line only whether it was built as a case or built to be none, and
hands that on, so that the model's `?` can be held to it. The functions take `large`: false for the cases stored in the
repository, true for many more, for a comparison at scale.
"""

import itertools
import math

LARGEST = 2**64 - 1
LONGEST_LINE = 65_536


class Dice:
    """A linear congruential generator (Knuth's MMIX constants), so that no Python version changes the cases."""

    def __init__(self, seed):
        self.state = seed

    def roll(self, sides):
        self.state = (self.state * 6364136223846793005 + 1442695040888963407) % 2**64
        return (self.state >> 33) % sides

    def pick(self, things):
        return things[self.roll(len(things))]


def ask(*words):
    """A line that is a case: bytes are given as hex, a tuple of numbers with commas, all else as it is."""
    written = []
    for word in words:
        if isinstance(word, bytes):
            word = word.hex() or "-"
        elif isinstance(word, tuple):
            word = ",".join(map(str, word)) or "-"
        written.append(str(word))
    return " ".join(written).encode(), True


def none(line):
    """A line that is no case."""
    return line, False


# ---- utf8 and space

EDGES = (0x7F, 0x80, 0x8F, 0x90, 0x9F, 0xA0, 0xBF, 0xC0)
LEADS_OF_THREE = tuple(range(0xE0, 0xF0))
LEADS_OF_FOUR = tuple(range(0xF0, 0xF6)) + (0xF8, 0xFC, 0xFE, 0xFF)
# The first and last code point of each row of the table of UTF-8.
EDGE_POINTS = (
    0x00, 0x7F, 0x80, 0x7FF, 0x800, 0xFFF, 0x1000, 0xCFFF, 0xD000, 0xD7FF, 0xE000, 0xFFFF, 0x10000, 0x3FFFF, 0x40000,
    0xFFFFF, 0x100000, 0x10FFFF,
)
WHITE = (*range(0x09, 0x0E), 0x20, 0x85, 0xA0, 0x1680, *range(0x2000, 0x200B), 0x2028, 0x2029, 0x202F, 0x205F, 0x3000)
# RFC 3629, section 7, and the sequences that its sections 3 and 10 warn of.
RFC_3629 = (
    "41e289a2ce912e", "ed959ceab5adec96b4", "e697a5e69cace8aa9e", "efbbbff0a38eb4", "efbbbf", "f0a38eb4",
    "c080", "eda18cedbeb4", "2f2e2e2f", "2fc0ae2e2f",
)
# Surrogates, overlong forms, code points past 10FFFF, forms of five and six bytes, stray bytes.
WRONG = (
    "eda080", "edafbf", "edb080", "edbfbf", "c080", "c1bf", "e08080", "e09fbf", "f0808080", "f08fbfbf", "f4908080",
    "f5808080", "f7bfbfbf", "f888808080", "fbbfbfbfbf", "fc8480808080", "fdbfbfbfbfbf", "fe", "ff", "80", "bf", "8080",
)


def encoded(point):
    return chr(point).encode("utf-8", "surrogatepass")


def sequences_of_two():
    return map(bytes, itertools.product(range(256), repeat=2))


def sequences_of_three_and_four(large):
    if large:
        leads = LEADS_OF_THREE + LEADS_OF_FOUR
        for tail in (*itertools.product(EDGES, repeat=2), *itertools.product(EDGES, repeat=3)):
            for lead in leads:
                yield bytes((lead, *tail))
        for lead, second, last in itertools.product(leads, range(256), (0x80, 0xBF)):
            yield bytes((lead, second, last))
            yield bytes((lead, second, last, last))
        return
    for lead, second in itertools.product(LEADS_OF_THREE, EDGES):
        for last in (0x7F, 0x80, 0xBF, 0xC0) if second in (0x9F, 0xA0) else (0x80,):
            yield bytes((lead, second, last))
    tails = ((0x80,), (0xBF, 0xBF), (0x7F, 0x80), (0xC0, 0x80), (0x80, 0x7F), (0x80, 0xC0))
    for lead, second in itertools.product(LEADS_OF_FOUR, EDGES):
        yield bytes((lead, second, 0x80, 0x80))
        for tail in tails if second in (0x8F, 0x90) else ():
            yield bytes((lead, second, *tail))


def cuts():
    """The characters at the edges and the wrong sequences, whole and cut short, bare and between ASCII bytes."""
    for sequence in (*map(encoded, EDGE_POINTS), *map(bytes.fromhex, WRONG)):
        for length in range(1, len(sequence) + 1):
            yield sequence[:length]
            yield b"a" + sequence[:length] + b"z"


def white_space():
    """Each white-space character and its two neighbours, in every place, and with broken bytes about it."""
    near = sorted({point + step for point in WHITE for step in (-1, 0, 1)})
    for point in near:
        mark = encoded(point)
        yield mark
        yield mark + b"ab"
        yield b"a" + mark + b"b"
        yield b"ab" + mark
        yield "\u00e9".encode() + mark + "\u8a9e".encode()
        yield mark + b"\xff"
        yield b"\x80" + mark
        if len(mark) > 1:
            yield b"a" + mark[:-1]
            yield mark + mark[:-1] + b" "
            yield mark[1:]
    # one bit away from white space, at each bit, yet none
    for bit in range(21):
        points = (point ^ 1 << bit for point in WHITE)
        yield b"".join(encoded(point) for point in points if point not in WHITE)


def random_point(dice):
    """A character's code point: each length of UTF-8, and white space, are equally likely."""
    kind = dice.roll(5)
    if kind == 4:
        return dice.pick(WHITE)
    first, last = ((0x21, 0x7E), (0xA1, 0x7FF), (0x3001, 0xD7FF), (0x10000, 0x10FFFF))[kind]
    return first + dice.roll(last - first + 1)


def random_text(dice, characters):
    return b"".join(encoded(random_point(dice)) for _ in range(characters))


def damaged(dice, text, alphabet=range(256)):
    """The text with one byte changed, taken out or put in."""
    at = dice.roll(len(text))
    kind = dice.roll(3)
    put = bytes([dice.pick(alphabet)]) if kind else b""
    return text[:at] + put + text[at + (kind != 2) :]


def random_texts(large, dice):
    for _ in range(6_000 if large else 40):
        yield bytes(dice.roll(256) for _ in range(1 + dice.roll(12)))
        yield bytes(dice.pick(b" a\x80\x85\x8f\x90\x9f\xa0\xbf\xc2\xe0\xe2\xed\xf0\xf4") for _ in range(5))
        text = random_text(dice, 1 + dice.roll(10))
        yield text
        yield damaged(dice, text)


def kilobytes(dice):
    """A long text with no white space but the last character, then cut by a byte."""
    text = bytearray()
    while len(text) < 3_000:
        point = random_point(dice)
        if point not in WHITE:
            text += encoded(point)
    text += encoded(0x3000)
    yield bytes(text[:-3])
    yield bytes(text)
    yield bytes(text[:-1])


def every_character():
    """All code points that UTF-8 can hold, 4,096 at a time, white space left out; and every surrogate."""
    surrogates = range(0xD800, 0xE000)
    for start in range(0, 0x110000, 4_096):
        group = (point for point in range(start, start + 4_096) if point not in WHITE and point not in surrogates)
        yield b"".join(map(encoded, group))
    yield from map(encoded, surrogates)


def texts(large, dice):
    def both(found):
        for text in found:
            yield ask("utf8", text)
            yield ask("space", text)

    def utf8_first(found):
        """In the stored size every eighth text is asked of `space` too."""
        for index, text in enumerate(found):
            yield ask("utf8", text)
            if large or index % 8 == 0:
                yield ask("space", text)

    yield from both([b""] + [bytes([byte]) for byte in range(256)])
    yield from both(map(bytes.fromhex, RFC_3629))
    yield from utf8_first(sequences_of_two())
    yield from utf8_first(sequences_of_three_and_four(large))
    yield from utf8_first(cuts())
    for text in white_space():
        yield ask("space", text)
        if large:
            yield ask("utf8", text)
    yield from both(random_texts(large, dice))
    yield from both(kilobytes(dice))
    if large:
        yield from both(every_character())


# ---- decimal and print

TENTH = LARGEST // 10


def numbers():
    """About each power of ten and each limit, those past the largest included."""
    about_powers = {10**power + step for power in range(26) for step in (-1, 0, 1)}
    limits = [2**bits for bits in (8, 16, 31, 32, 53, 63, 64)] + [TENTH, 10 * TENTH, 10 * (TENTH + 1), 2**65, 2**128]
    about_limits = {limit + step for limit in limits for step in (-2, -1, 0, 1, 2)}
    last_digits = {10 * TENTH + digit for digit in range(10)}
    return sorted(about_powers | about_limits | last_digits)


def decimal_texts(large, dice):
    written = [str(value).encode() for value in numbers()]
    chosen = written if large else [str(n).encode() for n in (0, 1, 10, 255, 2**63, TENTH, LARGEST, LARGEST + 1)]
    for text in written:
        yield text
        yield b"+" + text
    for text in chosen:
        for sign in (b"-", b"++", b"+-", b"-+", b" ", b"+ ", b"0+", b"0x", b"0", b"00", b"+0", b"+00"):
            yield sign + text
        for end in (b" ", b"+", b".", b".0", b"\x00", b"\n", b"\r", b"e0", b"0", b"_0", b"\xff"):
            yield text + end
        for zeros in (20, 300):
            yield b"0" * zeros + text
            yield b"+" + b"0" * zeros + text
    yield from (b"", b"0" * 300, b"+" + b"0" * 300, b"0" * 300 + b"a", b"9" * 300, b"1" + b"0" * 300)
    # digits to Unicode, but not to this rule: Arabic-Indic one, full-width one, superscript two
    for digit in ("\u0661", "\uff11", "\u00b2"):
        yield digit.encode()
        yield b"1" + digit.encode()
    for byte in range(256):
        yield bytes([byte])
        if large or byte in b"\x00\t\n\r +-./09:;A_a\x80\xa0\xff":
            yield bytes((ord("1"), byte))
            yield bytes((byte, ord("1")))
            yield bytes((ord("1"), byte, ord("2")))
    for length in range(1, 5 if large else 3):
        for text in itertools.product(b"09+-.a \t/:", repeat=length):
            yield bytes(text)
    if not large:
        yield from map(bytes, itertools.product(b"09+-", repeat=3))
    for _ in range(5_000 if large else 60):
        digits = bytes(dice.pick(b"0123456789") for _ in range(1 + dice.roll(22)))
        yield digits
        yield damaged(dice, digits)


def decimals(large, dice):
    for text in decimal_texts(large, dice):
        yield ask("decimal", text)


def prints(large, dice):
    for value in numbers():
        if value > LARGEST:
            yield none(f"print 40 {value}".encode())
            continue
        need = len(str(value))
        every_room = large or value == 10 ** (need - 1) or value in (0, LARGEST)
        for room in range(0 if every_room else need - 1, need + 2):
            yield ask("print", room, value)
    for value in (0, LARGEST):
        yield ask("print", 4_096, value)
        yield none(f"print 4097 {value}".encode())
    for _ in range(5_000 if large else 30):
        value = dice.roll(10 ** (1 + dice.roll(9))) * dice.roll(10 ** (1 + dice.roll(9)))
        yield ask("print", dice.roll(24), value)


# ---- line and field

FIELDS = ("chrom", "pos", "id", "ref", "alt", "qual", "filter", "info", "format", "samples")
INFO_INDEX, FORMAT_INDEX, SAMPLES_INDEX = 7, 8, 9
COLUMNS = (b"c", b"12", b"id", b"A", b"GT", b"3.5", b"q1", b"N=1;D", b"GT:DP", b"0|1:7", b".", b"/1")
# What may end a line, and the word of a case for it.
ENDINGS = {b"\n": "lf", b"\r\n": "crlf", b"": "none"}
# About the limits of the types that a place may pass through.
FAR = (2**31, 2**32 - 1, 2**32, 2**32 + 1, 2**63 - 1, 2**63, 2**63 + 1, LARGEST - 2, LARGEST - 1, LARGEST)
# VCF 4.4, section 1.1: the header line and the records of its example, a space here for each tab.
EXAMPLE = (
    b"#CHROM POS ID REF ALT QUAL FILTER INFO FORMAT NA00001 NA00002 NA00003",
    b"20 14370 rs6054257 G A 29 PASS NS=3;DP=14;AF=0.5;DB;H2 GT:GQ:DP:HQ 0|0:48:1:51,51 1|0:48:8:51,51 1/1:43:5:.,.",
    b"20 17330 . T A 3 q10 NS=3;DP=11;AF=0.017 GT:GQ:DP:HQ 0|0:49:3:58,50 0|1:3:5:65,3 0/0:41:3",
    b"20 1110696 rs6040355 A G,T 67 PASS NS=2;DP=10;AF=0.333,0.667;AA=T;DB GT:GQ:DP:HQ 1|2:21:6:23,27 2|1:2:0:18,2 "
    b"2/2:35:4",
    b"20 1230237 . T . 47 PASS NS=3;DP=13;AA=T GT:GQ:DP:HQ 0|0:54:7:56,60 0|0:48:4:51,51 0/0:61:2",
    b"20 1234567 microsat1 GTC G,GTCT 50 PASS NS=3;DP=9;AA=G GT:GQ:DP 0/1:35:4 0/2:17:2 1/1:40:3",
)


def row(columns):
    return b"\t".join(columns)


def seven(*columns):
    """Seven good columns, and those given."""
    return row((b"c", b"1", b".", b"A", b"G", b".", b"P", *columns))


def replaced(columns, changes):
    """The columns with some of them, given by index, changed."""
    return [changes.get(index, column) for index, column in enumerate(columns)]


# Lines one after the other: good ones, and between them one for each refusal.
LINES = (
    seven(b"I") + b"\n",
    seven(b"I", b"F", b"s", b"t") + b"\r\n",
    b"c\t\t" + seven(b"I") + b"\n",
    b"c\t1\t.\r\n",
    b"\n",
    b"\r\n",
    seven(b"I\xff") + b"\n",
    seven(b"I\xc3", b"\xa9F", b"s") + b"\r\n",
    seven(b"", b"F", b"s") + b"\n",
    seven(b"I", b"F") + b"\n",
    seven(b"I", b"F", b"s", b"", b"u") + b"\n",
    seven(b".") + b"\r\r\n",
    seven(b"I", b"F", b""),
)


def reads_of_lines(large):
    """Several lines in one text: four of them read from every place, all of them from about each start."""
    few, every = b"".join(LINES[1:5]), b"".join(LINES)
    starts = itertools.accumulate(map(len, LINES), initial=0)
    about = {start + step for start in starts for step in (-1, 0, 1)} - {-1}
    for at in (*range(len(few) + 3), *FAR):
        yield few, at
    for at in range(len(every) + 3) if large else sorted(about):
        yield every, at


def examples():
    return [record.replace(b" ", b"\t") for record in EXAMPLE]


def terminated():
    """Each terminator at each column, which is empty or not, at the end of the text or before a rest."""
    for count, end, rest in itertools.product(range(1, 13), (b"\t", b"\n", b"\r\n", b"\r", b""), (b"", b"rest\n")):
        yield row(COLUMNS[:count]) + end + rest
        yield row((*COLUMNS[: count - 1], b"")) + end + rest


def with_carriage_returns(large):
    """One CR or two (three at large) in every place of the last two columns."""
    tail = b"ab\tcd"
    spots = range(len(tail) + 1)
    for before, returns in itertools.product((6, 8, 9), range(1, 4 if large else 3)):
        for chosen in itertools.combinations_with_replacement(spots, returns):
            text = b"".join(b"\r" * chosen.count(at) + tail[at : at + 1] for at in spots)
            for ending in ENDINGS:
                yield row((*COLUMNS[:before], text)) + ending


def with_empty_columns(large):
    """Every single column empty, every two of them (at large), all of them."""
    for count, ending in itertools.product((8, 10, 12), (*ENDINGS, b"\r")):
        for chosen in (1, 2, count) if large else (1, count):
            for empty in itertools.combinations(range(count), chosen):
                yield row(replaced(COLUMNS[:count], dict.fromkeys(empty, b""))) + ending


def short_texts(alphabet, longest):
    for length in range(longest + 1):
        yield from map(bytes, itertools.product(alphabet, repeat=length))


def exhaustive(large):
    """All short texts after good columns: where INFO starts, within FORMAT, where a sample starts; and alone."""
    heads = ((seven(b""), 4), (seven(b"I", b"F"), 3), (seven(b"I", b"F", b"s", b""), 3), (b"", 2))
    for head, longest in heads:
        for text in short_texts(b"a\t\n\r", 6 if large else longest):
            yield head + text
    for columns in ((), (b"I", b"F"), (b"I", b"F", b"s")):
        for text in short_texts(b"\xc3\xa9\t\n", 6 if large else 3):
            yield seven(*columns) + text


def broken(large):
    """Bytes that are no UTF-8 within each column, and characters cut by each tab, by two tabs and by an ending."""
    for count in (8, 10, 12) if large else (8, 12):
        columns = COLUMNS[:count]
        for index, wrong in itertools.product(range(count), (b"\xc3", b"\xa9", b"a\xffz", b"\xed\xa0\x80")):
            yield row(replaced(columns, {index: wrong})) + b"\n"
        for index, character in itertools.product(range(count - 1), ("\u00e9", "\u8a9e", "\U000233b4")):
            whole = character.encode()
            for at in range(1, len(whole)):
                yield row(replaced(columns, {index: b"a" + whole[:at], index + 1: whole[at:] + b"z"})) + b"\r\n"
        for index in range(count - 2):
            yield row(replaced(columns, {index: b"\xe8", index + 1: b"\xaa", index + 2: b"\x9e"}))
            # a character cut by a tab, and a byte that is wrong without the tab too
            yield row(replaced(columns, {index: b"\xc3", index + 1: b"\xa9\xa9"})) + b"\n"
            # what would be too long a form, or a surrogate, without the tab
            yield row(replaced(columns, {index: b"\xc0", index + 1: b"\x80"})) + b"\n"
            yield row(replaced(columns, {index: b"\xed", index + 1: b"\xa0\x80"})) + b"\n"
    for end in (b"\xc3\n\xa9", b"\xc3\r\n\xa9", b"\xc3\r\xa9\n", b"\xc3\r", b"\xc3\r\r\n", "\u00e9\r\n".encode()):
        yield seven(b"I" + end)
        yield seven(b"I", b"F", b"s" + end)
    # a structure that is wrong too
    for end in (b"\n", b"", b"\t\t", b"\t\n", b"\t"):
        yield b"\xff" + end
        yield seven()[:-1] + b"\xff" + end
        yield seven(b"I", b"F\xff") + end
        yield seven(b"I", b"F\xc3\t\xa9s") + end


def with_samples():
    """No sample, 1, 3 and 300."""
    for ending in ENDINGS:
        yield seven(b"I") + ending
        for count in (1, 3, 300):
            yield seven(b"I", b"GT", *(b"0|%d" % (number % 7) for number in range(count))) + ending
    yield seven(b"I", b"GT", *[b"0/1"] * 299, b"") + b"\n"
    yield seven(b"I", b"GT", *[b"0/1"] * 299, b"\xc3") + b"\n"


def random_column(dice):
    """Now and then an empty one."""
    length = 1 + dice.roll(3) if dice.roll(30) else 0
    return "".join(dice.pick("a0. \r\x00\u00e9\u2028\u8a9e\U000233b4") for _ in range(length)).encode()


def random_line(dice):
    columns = [random_column(dice) for _ in range(dice.pick((7, 8, 8, 8, 9, 10, 10, 11, 12, 14)))]
    return row(columns) + dice.pick((b"\n", b"\n", b"\r\n", b"\r\r\n", b"\t\n", b"\r", b""))


def random_reads(large, dice):
    """Texts of one line to three, whole and damaged, read from their start and from elsewhere."""
    for _ in range(15_000 if large else 60):
        text = b"".join(random_line(dice) for _ in range(1 + dice.roll(3)))
        yield text, 0
        yield damaged(dice, text), 0
        yield text, dice.roll(len(text) + 2)


def lines(large, dice):
    records = [record + ending for record, ending in itertools.product(examples(), ENDINGS)]
    for record in records:
        yield ask("line", record, 0)
        yield ask("line", records[0] + record, len(records[0]))
    for text, at in (*itertools.product((b"", b"\n"), (0, 1, 2, LARGEST)), *reads_of_lines(large)):
        yield ask("line", text, at)
    shapes = (terminated(), with_carriage_returns(large), with_empty_columns(large), exhaustive(large))
    for text in itertools.chain(*shapes, broken(large), with_samples()):
        yield ask("line", text, 0)
    for text, at in random_reads(large, dice):
        yield ask("line", text, at)


def with_dots():
    """Columns that are one dot or two, each by itself and all of them, with FORMAT and without."""
    for count, dots in itertools.product((8, 10), (b".", b"..")):
        for index in range(count):
            yield row(replaced(COLUMNS[:count], {index: dots})) + b"\n"
        yield row([dots] * count)
    yield row([b"."] * 11)
    # a dot before each ending: CR stays where no LF follows
    for ending in (b"\r\n", b"\r", b"\r\r\n"):
        yield seven(b".") + ending
        yield seven(b"I", b".", b".") + ending


def fields(large, dice):
    asked = [(text, 0) for text in (*examples(), *with_dots(), b"")]
    asked += [(LINES[0] + line, len(LINES[0])) for line in (*LINES, b"")]
    asked += [(LINES[0], at) for at in (len(LINES[0]) + 1, LARGEST)]
    asked += [(seven(b"I\xc3", b"\xa9F", b"s"), 0), (seven(b"I", b"F", b"s\xc3", b"\xa9t"), 0)]
    asked += itertools.islice(random_reads(large, dice), 2_000 if large else 10)
    for (text, at), name in itertools.product(asked, FIELDS):
        yield ask("field", name, text, at)


# ---- place


def places(large):
    """Near places and far ones, whose sum with a length would pass the largest number."""
    for text in (b"", b"a", b"a\t\xff"):
        far = FAR if large or len(text) == 3 else (LARGEST,)
        for start, length in itertools.product((*range(len(text) + 3), *far), repeat=2):
            yield ask("place", text, start, length)


# ---- pos


def pos_texts(large, dice):
    for value in numbers():
        yield str(value).encode()
        yield b"+%d" % value
    for text in (b"0", b"1", b"9", b"%d" % LARGEST, b"%d" % (LARGEST + 1)):
        for sign in (b"0", b"00", b"+0", b"+00", b"-", b"++", b"+-", b" ", b"+" + b"0" * 300, b"0" * 300):
            yield sign + text
        for end in (b" ", b".", b"\r", b"\n", b"\t", b"\x00", b"a", b"\xff", b"\xc3\xa9", b"\xa9"):
            yield text + end
    yield from (b"", b".", b"+", b"-", b"-0", b"-1", b"1,000", b"1e3", b"0x1", b"\xff", b"\xc3", b"\xd9\xa1")
    if large:
        yield from decimal_texts(large, dice)
    else:
        yield from short_texts(b"01+", 3)


def positions(large, dice):
    for text in pos_texts(large, dice):
        yield ask("pos", text)


# ---- join


def listed(columns, tail=b""):
    """The columns as one text, with a tail after them, and the end of each."""
    return b"".join(columns) + tail, tuple(itertools.accumulate(map(len, columns)))


def needed(columns, ending=b"\n"):
    return max(0, sum(map(len, columns)) + len(columns) - 1 + len(ending))


def with_each_ending(room, at, text, ends):
    for word in ENDINGS.values():
        yield ask("join", room, at, word, text, ends)


def both_ways(columns):
    """Columns to join and, since the Rust reads lines but joins none, the line of them to read; with each ending."""
    for ending, word in ENDINGS.items():
        yield ask("join", needed(columns, ending), 0, word, *listed(columns))
        yield ask("line", row(columns) + ending, 0)


def with_faults(large):
    """A column that is empty, holds a tab, LF or CR somewhere or is no UTF-8, or is only near to that."""
    faults = (
        b"", b"\t", b"a\t", b"\ta", b"\n", b"a\n", b"\na", b"\r", b"a\r", b"\ra", b"a\r\r", b"a\r\n", b"\xc3", b"\xff",
        b"\xc3\t", b"\n\xff", b"\xc3\r", b".", b" ", b"\x0b", b"\x00", "\u00e9".encode(), "\u8a9e\r".encode(),
    )
    for count, fault in itertools.product((8, 10, 12) if large else (8, 10), faults):
        for index in range(count) if large else (0, count - 2, count - 1):
            yield replaced(COLUMNS[:count], {index: fault})


def mixed_faults():
    """Every mixture of faults, so that each is seen to go before the next."""
    faults = ({}, {2: b"\t"}, {2: b"\xc3"}, {2: b"\xc3\t"}, {1: b"\xc3", 3: b""}, {1: b"", 3: b"\xc3"})
    for count, fault, (ending, word) in itertools.product((7, 8, 9, 10), faults, ENDINGS.items()):
        columns = replaced(COLUMNS[:count], fault)
        need, (text, good) = needed(columns, ending), listed(columns)
        fall, pass_text = (*good[:5], 0, *good[6:]), (*good[:-1], len(text) + 1)
        for ends, room in itertools.product((good, fall, pass_text), (need, need - 1)):
            yield ask("join", room, 0, word, text, ends)
            yield ask("join", room, room + 1, word, text, ends)


def rooms_and_places():
    """Rooms from none to more than needed, places from the first to past the output."""
    for columns, (ending, word) in itertools.product((COLUMNS[:8], COLUMNS[:11]), ENDINGS.items()):
        need, (text, ends) = needed(columns, ending), listed(columns)
        for room in range(need + 2):
            yield ask("join", room, 0, word, text, ends)
        for room in range(2, need + 5):
            yield ask("join", room, 3, word, text, ends)
        for at in (*range(need + 7), *FAR):
            yield ask("join", need + 4, at, word, text, ends)
        for at in (1, *FAR):
            yield ask("join", 0, at, word, text, ends)


def joined_ends():
    """Ends that fall, stand still or pass the text, at each column; tails; entries that cut a character."""
    text, ends = listed(COLUMNS[:8])
    for index in range(8):
        before = ends[index - 1] if index else 0
        near = {before - 1, before, before + 1, len(text), len(text) + 1} - {-1}
        for end in (*sorted(near), 2**32 + ends[index], LARGEST):
            yield from with_each_ending(40, 1, text, (*ends[:index], end, *ends[index + 1 :]))
    for tail in (b"a", b"\t", b"\n", b"\xff", b"\xa9", b"a" * 300):
        yield from with_each_ending(40, 1, *listed(COLUMNS[:8], tail))
        yield from with_each_ending(40, 1, *listed((*COLUMNS[:7], b"\xc3"), tail))
        yield from with_each_ending(40, 1, *listed((*COLUMNS[:7], b"I\r"), tail))
    for tail in (b"", b"a"):
        yield from with_each_ending(9, 0, tail, ())
        for count in (1, 7, 8, 9, 10, 1_024):
            yield from with_each_ending(9, 0, tail, (0,) * count)
    for first, second in ((b"\xe8", b"\xaa\x9e"), (b"\xe8\xaa", b"\x9e")):
        yield from with_each_ending(40, 0, *listed(replaced(COLUMNS[:8], {3: first, 4: second})))


def wide_joins():
    """As many columns as a case may have, and outputs as long as may be: filled, one byte short, one byte long."""
    for count, (ending, word) in itertools.product((1_023, 1_024), ENDINGS.items()):
        columns = [b"a"] * count
        need = needed(columns, ending)
        for room in (need - 1, need):
            yield ask("join", room, 0, word, *listed(columns))
        yield ask("join", 4_096, 7, word, *listed([*columns[:-1], b"a\r"]))
    for ending, word in ENDINGS.items():
        longest = 4_096 - needed([b"a"] * 7 + [b""], ending)
        for length in (longest - 1, longest, longest + 1):
            yield ask("join", 4_096, 0, word, *listed([b"a"] * 7 + [filler(length)]))


def random_joins(large, dice):
    for _ in range(8_000 if large else 80):
        columns = [random_column(dice) for _ in range(dice.pick((7, 8, 8, 8, 9, 10, 10, 11, 12)))]
        text, ends = listed(columns, random_column(dice))
        if not dice.roll(3):
            text = damaged(dice, text + b"a")
        if not dice.roll(8):
            at = dice.roll(len(ends))
            ends = (*ends[:at], dice.roll(len(text) + 2), *ends[at + 1 :])
        at = dice.roll(4)
        more = dice.roll(6) - 2
        for ending, word in ENDINGS.items():
            yield ask("join", at + needed(columns, ending) + more, at, word, text, ends)


def joins(large, dice):
    for count in range(13):
        yield from both_ways(COLUMNS[:count])
    for record in examples():
        yield from both_ways(record.split(b"\t"))
    for columns in with_faults(large):
        yield from both_ways(columns)
    yield from mixed_faults()
    yield from rooms_and_places()
    yield from joined_ends()
    yield from wide_joins()
    yield from random_joins(large, dice)


# ---- info, find, value, scan and count

INFO_COLUMNS = (
    # values that are empty, absent or a dot, and values with `=`
    b"a=b=c;b==;c=;d=a=1;e==a=", b"a=;b", b"a=.;.=a;.", b".", b"..", b".;.", b".=.", b"a=0,1;b=%3B;c",
    # a key more than once, and keys that are parts of each other
    b"a=1;a=2;a;b=3;b", b"a;a=1", b"a=;a=1", b"aa=1;a=2;aaa=3;aa", b"A=1;a=2;ab=3;ba",
    # a refusal before an entry
    b";a=1;b", b"=;a=1", b"=1;a=2;b", b"==;a=1", b"b;;a=1;b=2", b"b=1;;a=2", b"b=1;=2;a=3", b";;a", b";=;a", b"=a;a",
    # a refusal after an entry
    b"a=1;", b"a;", b"a=1;;b", b"a=1;=2;b=3", b"b=1;a;", b"b;a=1;", b"a;b=1;;", b"a=;", b"a==;", b"a;=", b"a;=;",
    # bytes next to `;` and `=` and one bit away, spaces and control bytes, other characters, no UTF-8
    b"a:b<c=d>e;f", b"a\xbbb\xbdc=d\xbb\xbd;e", b"a{b}c=y;z", b"a b= c;\td=\r\n;\x00=\x00;e", b"\n", b"\x00",
    "\u00e9=\u8a9e;\U000233b4;\u00e9".encode(), b"\xff=\xfe;\xff", b"\xc3=\xa9;\xa9=\xc3;\xc3", b"\xc3;\xa9=1;",
    b"=\xff;\xff",
)


def keys_about(column):
    """Keys that a column has, has almost, or would have if it were cut otherwise."""
    found = {b"", b"=", b";", b".", b"a", b"aa", b"a=", column}
    for entry in column.split(b";"):
        key = entry.partition(b"=")[0]
        found |= {entry, key, key[:-1], key + b"a"}
    return sorted(found)


def short_columns(large):
    """All short columns: steps from every place to one past the end, and lookups with keys that may be there or not."""
    for column in short_texts(b"a=;", 7):
        for at in range(len(column) + 2):
            yield ask("info", column, at)
    for column in short_texts(b"a=;", 7):
        yield ask("scan", column)
        yield ask("count", column)
        for key in (b"a", b"aa", b"", b"="):
            yield ask("find", column, key)
            yield ask("value", column, key)
    for column in short_texts(b"ab=;", 6) if large else ():
        yield ask("scan", column)
        for key in (b"a", b"b", b"ab", b"a=", b";"):
            yield ask("find", column, key)
            yield ask("value", column, key)


def chosen_columns():
    """Every place and every key of interest; a column of every byte too, from about its separators."""
    found = [record.split(b"\t")[INFO_INDEX] for record in examples()]
    for column in (*found, *INFO_COLUMNS):
        yield ask("count", column)
        yield ask("scan", column)
        for at in range(len(column) + 2):
            yield ask("info", column, at)
        for key in keys_about(column):
            yield ask("find", column, key)
            yield ask("value", column, key)
    for column, at in itertools.product((b"", b"a", b"a;", b"a=b;c"), FAR):
        yield ask("info", column, at)
    every = bytes(range(256))
    yield ask("count", every)
    yield ask("scan", every)
    yield ask("find", every[1:], every[1 : ord(";")])
    yield ask("value", every + every[:0:-1], b"<")
    for at in (0, 1, ord(";"), ord("<"), ord("="), ord(">"), 255, 256, 257):
        yield ask("info", every, at)


def entries_of(count):
    """So many entries, each with a key of its own, every third without a value."""
    return b";".join(b"k%d" % number + b"=%d" % (number * number) * (number % 3 > 0) for number in range(count))


def long_columns():
    """Many entries; a long key, a long value; columns that are almost all separators."""
    many = entries_of(100)
    yield ask("count", many)
    yield ask("scan", many)
    for key in (b"k0", b"k1", b"k50", b"k98", b"k99", b"k9", b"k100", b"k"):
        yield ask("find", many, key)
        yield ask("value", many, key)
    for end, key in itertools.product((b";", b"=;;z=1"), (b"k1", b"k99", b"z")):
        yield ask("find", many + end, key)
    name, text = filler(120), filler(130)
    for column in (name, name + b"=" + text, b"=" * 256, b";" * 256, b"a" + b"=" * 256, b"a;" * 128):
        for end in (b"", b"=", b";", b";z"):
            yield ask("info", column + end, 0)
            yield ask("info", column + end, len(column))
            yield ask("find", column + end, b"z")
    yield ask("count", b";" * 300)
    yield ask("scan", b";" * 300)
    yield ask("scan", b"=" * 300 + b"a")
    for wanted in (name, name[:-1], name + b"a"):
        yield ask("find", b"a;" + name + b"=1;b", wanted)
        yield ask("value", b"a;" + name + b"=" + text, wanted)


def random_entry(dice):
    key = "".join(dice.pick("aab.\u00e9") for _ in range(1 + dice.roll(2)))
    value = "".join(dice.pick("a1=,. \u8a9e") for _ in range(dice.roll(4)))
    return (key + "=" * (dice.roll(3) > 0 or value != "") + value).encode()


def random_columns(large, dice):
    """Good columns and damaged ones, with any byte or with a separator, asked from some place and for some key."""
    for _ in range(15_000 if large else 80):
        good = b";".join(random_entry(dice) for _ in range(1 + dice.roll(6)))
        for column in (good, damaged(dice, good), damaged(dice, good, b";=")):
            key = dice.pick((b"a", b"b", b"aa", b"ab", b".", "\u00e9".encode()))
            yield ask("info", column, dice.roll(len(column) + 1))
            yield ask("scan", column)
            yield ask("find", column, key)
            yield ask("value", column, key)
            if large:
                yield ask("count", column)


def infos(large, dice):
    yield from short_columns(large)
    yield from chosen_columns()
    yield from long_columns()
    yield from random_columns(large, dice)


# ---- samples, walk, sample, key and subfield

# With `{` for the separator: bytes next to tab and colon and one bit away, control bytes, other characters, no UTF-8.
PIECES = (
    b".", b"..", b"\x08{\x0a{\x0b{\x89", b"9{;{\xba{z", b"\r{\n{\r\n{\x00{ ", "\u00e9{\u8a9e{\U000233b4".encode(),
    b"\xff{\xc3{\xa9", b"\xc3{\xa9{", b"{{\xff{{",
)
FORMATS = (
    b"", b"GT", b"GT:DP", b"DP:GT", b"DP:GQ:GT:HQ", b"GT:GT", b"DP:GT:GT:DP", b":GT", b"GT:", b"DP::GT", b"::GT::",
    b"gt:GT", b"Gt", b"GTX:XGT:GT", b"G:T:GT", b"G:T", b"GT,DP", b"GT;DP:GT", b"GT\t:GT", b" GT:GT", b"GT\x00:GT", b".",
    b".:GT", b"GT:.",
)
SUBFIELDS = (b"0|1:35:4", b"0/1", b".", b"./.:.:.", b":35:4", b"0|1::4", b"0|1:35:", b"0|1:.,.:4:51,51", b"0|1 35\t4:1")


def separated(pieces, separator):
    """The pieces with a separator for each `{`."""
    return pieces.replace(b"{", separator)


def numbers_about(text, separator):
    """The number of each piece, of two past the last, and the largest."""
    return (*range(text.count(separator) + 3), LARGEST)


def sample_texts(large):
    yield from short_texts(b"a\t", 9 if large else 5)
    yield from short_texts(b"a\t:\n", 5 if large else 2)
    for record in examples():
        yield record.split(b"\t", SAMPLES_INDEX)[SAMPLES_INDEX]
    for pieces in PIECES:
        yield separated(pieces, b"\t")


def many_samples(large):
    """1 to 300 samples: filled, empty, and some of each. In the stored size the last are asked by number too."""
    for count in range(1, 301) if large else (1, 2, 3, 10, 64, 255, 256, 257, 299, 300):
        filled = b"\t".join(b"%d" % (number % 7) for number in range(count))
        some = b"\t".join(b"1" * (number % 3) for number in range(count))
        for text in (filled, b"\t" * (count - 1), some):
            yield ask("samples", text)
            yield ask("walk", text)
            for number in (0, count // 2, count - 1, count, 2**32, LARGEST) if large or count == 300 else ():
                yield ask("sample", text, number)


def format_keys(large):
    """FORMAT texts and the keys asked of them."""
    for text in short_texts(b"a:", 7 if large else 5):
        for key in (b"", b"a", b"aa", b":", b"a:", b":a"):
            yield text, key
    for text in (*FORMATS, *(record.split(b"\t")[FORMAT_INDEX] for record in examples())):
        for key in (b"GT", b"DP", b"HQ", b"G", b"gt", b"GTX", b"GT:", b"GT:DP", b"", b".", text):
            yield text, key
    for text in (separated(pieces, b":") for pieces in PIECES):
        for key in sorted({b"", *text.split(b":"), text, text[:1], text + b"a"}):
            yield text, key
    many = [b"K%d" % number for number in range(30)]
    for key in (b"K0", b"K1", b"K2", b"K28", b"K29", b"K30", b"K", b"GT"):
        yield b":".join(many), key
        yield b":".join((*many, *many)), key
        yield b":".join((*many, b"GT")), key
    yield b":".join(b"%d" % number for number in range(300)), b"299"


def subfields(large):
    texts = [*short_texts(b"a:", 7 if large else 5), *SUBFIELDS, *(separated(pieces, b":") for pieces in PIECES)]
    for record in examples():
        texts += record.split(b"\t")[SAMPLES_INDEX:]
    for text in texts:
        for number in numbers_about(text, b":"):
            yield text, number
    for text, number in itertools.product((b"", b":", b"a:b"), FAR):
        yield text, number
    for number in (0, 150, 299, 300, LARGEST):
        yield b":" * 299, number
        yield b":".join(b"%d" % other for other in range(300)), number


def random_samples(large, dice):
    for _ in range(5_000 if large else 60):
        text = bytes(dice.pick(b"a0|/.,:::\t\t\t\xc3\xa9") for _ in range(dice.roll(14)))
        yield ask("samples", text)
        yield ask("walk", text)
        yield ask("sample", text, dice.roll(6))
        yield ask("subfield", text, dice.roll(6))
        names = [dice.pick((b"GT", b"DP", b"G", b"", b"HQ", b"GTX")) for _ in range(dice.roll(7))]
        yield ask("key", b":".join(names), dice.pick((b"GT", b"G", b"")))


def samples(large, dice):
    for text in sample_texts(large):
        yield ask("samples", text)
        yield ask("walk", text)
        for number in numbers_about(text, b"\t"):
            yield ask("sample", text, number)
    for text, number in itertools.product((b"", b"\t", b"a\tb"), FAR):
        yield ask("sample", text, number)
    yield from many_samples(large)
    for text, key in format_keys(large):
        yield ask("key", text, key)
    for text, number in subfields(large):
        yield ask("subfield", text, number)
    yield from random_samples(large, dice)


# ---- read, alleles, readalt, allelesalt and unequal

MOST_ALLELES = 64
# Genotypes of the VCF specification's examples and text: those of its records, and the forms that came with 4.4.
GENOTYPES = (
    b"0|0", b"1|0", b"1/1", b"0|1", b"0/0", b"1|2", b"2|1", b"2/2", b"0/1", b"0/2", b"0", b"1", b".", b"./.", b".|.",
    b"./1", b"0|.", b"0/1/2", b"0|0|1", b"0/0/1/1", b"0|1|2|3", b"/0/1", b"|0|1", b"/0|1", b"|0/1", b"|0", b"/1", b"/.",
    b"|.", b"0/1|2", b"0|1/2", b"|0/1|2", b"/0|1|2",
)
ALLELE_NUMBERS = (
    0, 1, 9, 10, 255, 256, 2**31, 2**32, 2**63, TENTH, LARGEST - 1, LARGEST, LARGEST + 1, 10**20, 2**65, 10**30,
)
# ALT columns: empty, a dot, none to five commas, entries of other shapes, and bytes that are almost a comma.
ALTS = (
    b"", b".", b"A", b"A,C", b"G,GTCT,T", b"A,C,G,T", b"A,C,G,T,*", b"a,b,c,d,e,f", b",", b",,", b"<DEL>,*", b".,.",
    b"A,", b",A", b"+-\xac\x0c", b"\xff,\xc3", "\u00e9,\u8a9e".encode(), b"A;C\tG",
)


def both_readers(row, text):
    """The same text to a row of slices and to one of structs."""
    yield ask("read", row, text)
    yield ask("alleles", row, text)


def allele_texts():
    """Numbers at each limit with and without `+` and zeros before them, a dot, and what is none of these."""
    for value in ALLELE_NUMBERS:
        digits = b"%d" % value
        for before in (b"", b"+", b"0", b"+0", b"0" * 30, b"-", b"++", b" "):
            yield before + digits
    for value in (b"0", b"1", b"."):
        for byte in b"+-. ,:;0a\x00\t\n\r\x7f\xff":
            yield value + bytes([byte])
    yield from (b"", b"+", b"-", b"..", b"+.", b"a", b"*", b"-0", b"0x1", b"1e3", b"\xd9\xa1")
    yield from (b"9" * 300, b"0" * 300 + b"1")


def in_genotypes(body):
    """An allele's text alone, first and last, after each mark and between good and bad ones."""
    yield from (body, b"0|" + body, body + b"/0", b"/" + body, b"|" + body + b"|.", b".|" + body + b"/x", b"x/" + body)


def rows_of_every_length(large):
    """Rows from none to one more than needed; texts that are bad at one allele, for all of these rows."""
    for count in (1, 2, 3, 4, 5, 10) if large else (1, 2, 4):
        good = [b"%d" % number for number in range(count)]
        for mark, row in itertools.product((b"|", b"/"), range(count + 2)):
            for text in (mark.join(good), mark + mark.join(good)):
                yield from both_readers(row, text)
        for bad, row in itertools.product(range(count), (0, count - 1, count, count + 1)):
            yield from both_readers(row, b"|".join(replaced(good, {bad: b"x"})))
    for row in (0, 1, 2, MOST_ALLELES):
        yield from both_readers(row, b"")


def many_alleles(large):
    """As many alleles as a row may hold, and more than that; each mark in the last place; a bad one about there."""
    for count in (63, 64, 65, 100, 300) if large else (63, 64, 65, 100):
        numbers = [b"%d" % number for number in range(count)]
        for row in (0, 1, 62, 63, 64):
            yield from both_readers(row, b"|".join(numbers))
        yield from both_readers(64, b"|".join(numbers[:-1]) + b"/1")
        yield from both_readers(64, b"/" + b"|".join(numbers))
        yield from both_readers(64, b"/".join(numbers[:-1]) + b"|.")
        yield from both_readers(64, b"|".join((*numbers[:-1], b"")))
        yield from both_readers(0, b"/".join(replaced(numbers, {62: b"x"})))
    yield from both_readers(64, b"|".join([b"%d" % LARGEST] * 64))


def genotype_texts(large):
    """Texts for both readers into a row that is always long enough, and one that is not always."""
    for text in (*GENOTYPES, *short_texts(b"01.|/+", 5)):
        yield from both_readers(3, text)
        if large:
            yield from both_readers(1, text)
    for body in allele_texts():
        for text in in_genotypes(body):
            yield from both_readers(3, text)
    for byte in range(256):
        yield ask("read", 2, b"0" + bytes([byte]) + b"1")
        if large:
            yield ask("alleles", 2, b"0" + bytes([byte]) + b"1")
            yield from both_readers(2, bytes([byte]) + b"1")
            yield from both_readers(2, b"1|" + bytes([byte]))
    yield from rows_of_every_length(large)
    yield from many_alleles(large)


def both_checked(row, text, alt):
    yield ask("readalt", row, text, alt)
    yield ask("allelesalt", row, text, alt)


def with_alts(large):
    """Numbers about the ALT count; those above it beside bad ones, and in rows too short."""
    for alt in ALTS:
        near = range(alt.count(b",") + 4)
        for value in (*near, LARGEST, LARGEST + 1):
            for text in (b"%d" % value, b"0/%d" % value, b"|+0%d|." % value):
                yield from both_checked(2, text, alt)
        for text in (b"", b".", b"./.", b"x", b"9|x", b"x|9", b"9|8", b"0|9|8", b"8|9|x", b"0|x|9", b"1|9"):
            for row in (0, 1, 2, 3) if large or alt in (b"", b"A,C") else (2,):
                yield from both_checked(row, text, alt)
    for text in (*GENOTYPES, *short_texts(b"01.|/+", 4 if large else 2), *short_texts(b"129.|", 4 if large else 3)):
        yield from both_checked(3, text, b"A")
        if large:
            yield from both_checked(1, text, b"A,C")
    for count in (64, 65):
        text = b"|".join(b"%d" % number for number in range(count))
        for commas in (61, 62, 63, 64):
            yield from both_checked(64, text, b"," * commas)
            yield from both_checked(3, text, b"," * commas)


def unequal_reads():
    """Slices of every mixture of lengths, with a text of each answer; and about as long as may be."""
    for text in (b"", b"0", b"0|1", b"x", b"0/1/2"):
        for lengths in itertools.product(range(4), repeat=3):
            yield ask("unequal", *lengths, text)
    for lengths in itertools.product((63, 64), repeat=3):
        yield ask("unequal", *lengths, b"/".join([b"."] * 64))
    for lengths in ((0, 64, 64), (64, 0, 64), (64, 64, 0), (1, 1, 64)):
        yield ask("unequal", *lengths, b"1")


def random_allele(dice):
    return dice.pick((b".", b"0", b"1", b"2", b"10", b"+1", b"007", b"%d" % LARGEST, b"%d" % dice.roll(10**9)))


def random_genotype(dice):
    """A good text, and how many alleles it has after the first."""
    first = random_allele(dice)
    later = [dice.pick((b"|", b"|", b"/")) + random_allele(dice) for _ in range(dice.roll(6))]
    return dice.pick((b"", b"", b"/", b"|")) + first + b"".join(later), len(later)


def random_genotypes(large, dice):
    for _ in range(10_000 if large else 100):
        good, later = random_genotype(dice)
        for text in (good, damaged(dice, good), damaged(dice, good, b"|/.+0")):
            yield from both_readers(later + dice.roll(3), text)
            yield from both_checked(later + dice.roll(3), text, b"," * dice.roll(12))


def genotypes(large, dice):
    yield from genotype_texts(large)
    yield from with_alts(large)
    yield from unequal_reads()
    yield from random_genotypes(large, dice)


# ---- gtstep

STEP_BYTES = b"|/.019+a"


def steps_over(text):
    """From every place, and from one past the end."""
    for at in range(len(text) + 2):
        yield ask("gtstep", text, at)


def steps_at_limits():
    """Each allele's text at the start, from its mark on and from past its mark."""
    for body in allele_texts():
        yield ask("gtstep", body, 0)
        yield ask("gtstep", b"0|" + body, 1)
        yield ask("gtstep", b".|" + body + b"/1", 2)


def steps_by_bytes(large):
    """Each byte within an allele and in place of its mark."""
    for byte in range(256):
        text = b"0|1" + bytes([byte]) + b"2/3"
        for at in range(len(text) + 2) if large else (1, 3):
            yield ask("gtstep", text, at)


def random_steps(large, dice):
    for _ in range(10_000 if large else 80):
        good, _ = random_genotype(dice)
        for text in (good, damaged(dice, good), damaged(dice, good, b"|/.+0")):
            yield ask("gtstep", text, dice.roll(len(text) + 2))


def genotype_steps(large, dice):
    for text in (*short_texts(STEP_BYTES, 4 if large else 3), *GENOTYPES):
        yield from steps_over(text)
    yield from steps_at_limits()
    yield from steps_by_bytes(large)
    for text in ("\u00e9", "0|\u00e9/1", "\u8a9e|0", "1/0\U000233b4"):
        yield from steps_over(text.encode())
    for mark, last in ((b"|", b"/."), (b"/", b"|."), (b"|", b"|.")):
        yield from steps_over(mark.join(b"%d" % number for number in range(300 if large else 40)) + last)
    for text, at in itertools.product((b"", b"0", b"0|1"), FAR):
        yield ask("gtstep", text, at)
    yield from random_steps(large, dice)


# ---- write, writealleles and writeunequal

FORMAT_4_2, FORMAT_4_3, FORMAT_4_4 = (4, 2), (4, 3), (4, 4)
FILE_FORMATS = (
    FORMAT_4_2, FORMAT_4_3, FORMAT_4_4, (4, 5), (5, 0), (3, 9), (0, 0), (2**32 - 1, 0), (4, 10), (3, 2**32 - 1),
    (4, 2**32 - 1),
)


def allele_words(alleles):
    return [":".join(map(str, allele)) for allele in alleles] or ["-"]


def both_writers(file_format, room, at, alleles):
    """The same list as slices and as structs."""
    written = allele_words(alleles)
    yield ask("write", *file_format, room, at, *written)
    yield ask("writealleles", *file_format, room, at, *written)


def most_needed(alleles):
    """The room of the longest spelling."""
    return sum(1 + len(str(value)) for value, _, _ in alleles)


def phasings(large):
    """Every phasing of up to four alleles (five at large), for each file format, into every room for the first five;
    with numbers and with missing ones."""
    for count in range(6 if large else 5):
        for phased in itertools.product((0, 1), repeat=count):
            numbers = [(index + 1, 0, mark) for index, mark in enumerate(phased)]
            mixed = [(0, 1, mark) if index % 2 else (index, 0, mark) for index, mark in enumerate(phased)]
            for file_format in FILE_FORMATS:
                yield from both_writers(file_format, 9, 1, numbers)
            for file_format, room in itertools.product(FILE_FORMATS[:5], range(most_needed(numbers) + 2)):
                yield from both_writers(file_format, room, 0, numbers)
            for file_format in FILE_FORMATS if large else (FORMAT_4_3, FORMAT_4_4):
                yield from both_writers(file_format, 10, 0, mixed)


def written_rooms():
    """Rooms from none to more than needed at the start and further on, and places at the end and past it."""
    lists = (
        [(0, 0, 1)], [(0, 0, 0)], [(0, 1, 0), (1, 0, 1)], [(12, 0, 1), (345, 0, 0)], [(LARGEST, 0, 0), (0, 2, 1)],
        [(1, 0, 0), (0, 1, 1), (10, 0, 1), (0, 0, 1)], [],
    )
    for alleles in lists:
        need = most_needed(alleles)
        for room in range(need + 2):
            yield from both_writers(FORMAT_4_4, room, 0, alleles)
            yield from both_writers(FORMAT_4_3, room + 2, 2, alleles)
        for at in (*range(need + 4), LARGEST):
            yield from both_writers(FORMAT_4_4, need + 2, at, alleles)
    for at in FAR:
        yield from both_writers(FORMAT_4_4, 0, at, [(0, 0, 1)])
        yield from both_writers(FORMAT_4_4, 9, at, [(0, 0, 1)])


def beside_missing():
    """Missing marks beside numbers that are not 0: which is first, and before 13 and room but after the place."""
    choices = ((0, 0), (1, 0), (0, 1), (1, 1), (LARGEST, 2))
    for count in (1, 2, 3):
        for chosen in itertools.product(choices, repeat=count):
            alleles = [(value, missing, (index + count) % 2) for index, (value, missing) in enumerate(chosen)]
            yield from both_writers(FORMAT_4_4, 24, 0, alleles)
            if any(value and missing for value, missing in chosen) and count < 3:
                for room, at in ((0, 0), (0, 1), (9, 9), (9, 10)):
                    yield from both_writers(FORMAT_4_2, room, at, alleles)


def other_marks():
    """Marks that are neither 0 nor 1; as structs, those past a byte too."""
    for missing, phased in itertools.product((0, 1, 2, 127, 128, 254, 255), repeat=2):
        for value, file_format in ((0, FORMAT_4_4), (5, FORMAT_4_4), (0, FORMAT_4_3)):
            yield from both_writers(file_format, 9, 0, [(value, missing, phased), (0, phased, missing)])
    for mark, value in itertools.product((256, 512, 65_536, 2**32, 2**63, LARGEST), (0, 1)):
        for allele in (f"{value}:{mark}:0", f"{value}:0:{mark}", f"{value}:{mark}:{mark}"):
            yield ask("writealleles", 4, 4, 9, 0, allele)
            yield ask("writealleles", 4, 3, 9, 0, allele, allele)
            yield none(f"write 4 4 9 0 {allele}".encode())


def written_numbers():
    """Numbers about each power of ten and each limit, alone and after another."""
    for value in numbers():
        if value <= LARGEST:
            yield from both_writers(FORMAT_4_4, 24, 0, [(value, 0, 1)])
            yield from both_writers(FORMAT_4_3, 24, 1, [(0, 0, 0), (value, 0, 0)])


def many_written():
    """As many alleles as a case may have: short and long, filled, one byte short, marked first and not."""
    shapes = ((1, 0, 0), (1, 0, 1), (1, 1, 0), (1, 1, 1), (LARGEST, 0, 1))
    for count, (value, first, later) in itertools.product((63, 64), shapes):
        alleles = [(value, 0, first), *[(value, 0, later)] * (count - 1)]
        need = most_needed(alleles)
        for room in (need - 2, need - 1, need):
            yield from both_writers(FORMAT_4_4, room, 0, alleles)
    for count in (63, 64):
        alleles = [(0, 0, 1)] * (count - 1)
        yield from both_writers(FORMAT_4_4, 200, 3, [*alleles, (0, 0, 0)])
        yield from both_writers(FORMAT_4_3, 200, 3, [*alleles, (0, 0, 0)])
        yield from both_writers(FORMAT_4_3, 200, 3, [*alleles, (1, 1, 0)])


def unequal_writes():
    """Slices of every mixture of lengths."""
    for lengths in itertools.product(range(4), repeat=3):
        for room in range(7) if len(set(lengths)) == 1 else (0, 3):
            yield ask("writeunequal", *lengths, room)
    for lengths in (*itertools.product((63, 64), repeat=3), (0, 64, 64), (64, 0, 64), (64, 64, 0)):
        for room in (0, 126, 127, 128):
            yield ask("writeunequal", *lengths, room)


def random_lists(large, dice):
    for _ in range(10_000 if large else 100):
        alleles = []
        for _ in range(1 + dice.roll(6)):
            missing = dice.pick((0, 0, 0, 1, 255))
            value = 0 if missing and dice.roll(8) else dice.roll(10 ** (1 + dice.roll(6)))
            alleles.append((value, missing, dice.pick((0, 1, 1, 2))))
        at = dice.roll(4)
        file_format = dice.pick((*FILE_FORMATS, FORMAT_4_3, FORMAT_4_4, FORMAT_4_4))
        yield from both_writers(file_format, at + max(0, most_needed(alleles) + dice.roll(5) - 3), at, alleles)


def written_genotypes(large, dice):
    yield from phasings(large)
    yield from written_rooms()
    yield from beside_missing()
    yield from other_marks()
    yield from written_numbers()
    yield from many_written()
    yield from unequal_writes()
    yield from random_lists(large, dice)


# ---- filters and alts

ENTRIES = (
    # filters and ALT entries of the specification's examples
    b"PASS", b"q10", b"s50", b"A", b"GTCT", b"*", b"<DEL>", b"<INS:ME:ALU>", b"<CN0>", b"<*>", b"]13:123456]T",
    b"G]17:198982]", b"C[2:321682[", b"[<c>:7[T", b"C<ctg1>", b".A", b"G.",
    # what one of the two refuses, and what is near to that
    b"", b".", b"..", b"0", b"00", b"0.", b".0", b"+0", b"a0", b",", b";", b"a,b", b"a;b", b",a", b"a;", b"+", b"-",
    b":", b"=", b"<", b">", b"<>", b"<a>", b"<a", b"a>", b"<<", b">>", b"><", b"<<>", b"<>>", b"<a>b", b"b<a>",
    b"<a<b>", b"<a>b>", b"<<a>>", b"<a,b>", b"<a;b>", b"<,>", b"<;>", b"<.>", b"<0>", b"<a><b>", b"<a>,", b"<a>;",
    b",<a>", b"a<b>c", b"<a><",
    # other characters, control bytes that are no white space, and bytes one bit away from those that count
    "\u00e9".encode(), "<\u8a9e>".encode(), "<\U000233b4".encode(), "\uff0c\uff1b\uff1c\uff1e".encode(), b"\x00",
    b"\x08", b"\x0e", b"\x1c\x1f", b"\x7f", b"<\x00>", b"\x1c\x1e\x0c", b"l{|~",
)
NOT_UTF8_ENTRIES = (
    b"\xff", b"\xc3", b"\xa9", b"a\xffz", b"\xc3\xa9\xa9", b"\xed\xa0\x80", b"\xc0\x80", b"\xe2\x80",
    b"\xf4\x90\x80\x80", b"<\xff>", b"<\xc3", b"\xff>", b"\xbc\xbe\xac\xbb",
    # bad in other ways too
    b"\xff;,", b";,\xff", b"\xff ", b" \xff", b"<>\xff", b".\xff", b"\x85", b"\xa0", b"\xe2\x80 ",
)


def both_lists(room, at, text, ends):
    yield ask("filters", room, at, text, ends)
    yield ask("alts", room, at, text, ends)


def of_entries(entries, tail=b"", at=0):
    """The entries into a byte more than they need; none of them into the one byte of their dot."""
    yield from both_lists(at + max(needed(entries), 1), at, *listed(entries, tail))


def alone_and_not(entry):
    """An entry alone, before a good one, after one, and between two."""
    for entries in ([entry], [entry, b"a"], [b"a", entry], [b"b", entry, b"c"]):
        yield from of_entries(entries)


def about_white_space():
    """Each white-space character and its two neighbours: alone, first, last, within, and between `<` and `>`."""
    for point in sorted({point + step for point in WHITE for step in (-1, 0, 1)}):
        mark = encoded(point)
        for entry in (mark, mark + b"a", b"a" + mark, b"a" + mark + b"b", b"<" + mark + b">"):
            yield from of_entries([entry])
        yield from of_entries([b"a", b"b" + mark, b"c"])
        if len(mark) > 1:
            # cut in two, neither part is a character
            yield from of_entries([b"a", mark[:-1], mark[-1:]])
            yield from of_entries([mark[1:], b"a"])


def short_entries(large):
    """All short entries of the bytes that count."""
    for entry in short_texts(b"<>a,", 6 if large else 5):
        yield ask("alts", len(entry) + 1, 0, *listed([entry]))
    for entry in short_texts(b"0.a; ", 5 if large else 3):
        yield ask("filters", len(entry) + 1, 0, *listed([entry]))
    for entry in short_texts(b"<>0.;,\xc3\xa9 ", 4 if large else 2):
        yield from of_entries([b"a", entry])


def mixed_entry_faults():
    """Every mixture of faults, so that each is seen to go before the next."""
    faults = (
        {}, {1: b""}, {1: b"\xff"}, {1: b" \xff"}, {0: b" ", 2: b"\xff"}, {0: b"\xff", 2: b""}, {1: b";,", 2: b" "},
    )
    for fault in faults:
        entries = replaced([b"q1", b"b", b"<c>"], fault)
        need, (text, good) = needed(entries) - 1, listed(entries)
        fall, pass_text = (good[0], 0, good[2]), (*good[:-1], len(text) + 1)
        for ends, room in itertools.product((good, fall, pass_text), (need, need - 1)):
            yield from both_lists(room, 0, text, ends)
            yield from both_lists(room, room, text, ends)
            yield from both_lists(room, room + 1, text, ends)


def list_rooms():
    """Rooms from none to more than needed, places from the first to past the output."""
    for entries in ([], [b"a"], [b"q10", b"<b>"], [b"a", "\u8a9e".encode(), b"cd", b"<e>"]):
        need, (text, ends) = needed(entries), listed(entries)
        for room in range(need + 3):
            yield from both_lists(room, 0, text, ends)
        for room in range(2, need + 5):
            yield from both_lists(room, 3, text, ends)
        for at in (*range(need + 5), *FAR):
            yield from both_lists(need + 2, at, text, ends)
        for at in (0, 1, *FAR):
            yield from both_lists(0, at, text, ends)


def list_ends():
    """Ends that fall, stand still or pass the text, at each entry; tails; entries that cut a character."""
    text, ends = listed([b"ab", b"c", b"def", b"g"])
    for index in range(4):
        before = ends[index - 1] if index else 0
        near = {before - 1, before, before + 1, len(text), len(text) + 1} - {-1}
        for end in (*sorted(near), 2**32 + ends[index], LARGEST):
            yield from both_lists(14, 1, text, (*ends[:index], end, *ends[index + 1 :]))
    for tail in (b"a", b";", b",", b" ", b"\xff", b"\xa9", b"a" * 300):
        for entries in ([], [b"a"], [b"a", b"b\xc3"], [b"a", b"<b"], [b"a", b""]):
            yield from of_entries(entries, tail, 2)
    for tail, count in itertools.product((b"", b"a"), (1, 2, 1_024)):
        yield from both_lists(9, 0, tail, (0,) * count)
    for ends in ((LARGEST,), (1, 0), (0, 1), (1, 1), (2,), (0, LARGEST, 0), (1, LARGEST), (LARGEST, 1)):
        yield from both_lists(5, 1, b"a", ends)
        yield from both_lists(5, 1, b"", ends)


def many_entries(large):
    """None to 300 entries and as many as a case may have; the last of them bad."""
    for count in range(301) if large else (0, 1, 2, 3, 10, 63, 64, 255, 256, 257, 299, 300):
        good = [b"abc"[number % 3 :][:1] for number in range(count)]
        yield from of_entries(good)
        for bad in (b"", b"\xff", b"<>", b"0") if large else (b"",):
            yield from of_entries([*good, bad])
    for count in (1_023, 1_024):
        text, ends = listed([b"a"] * count)
        for room in (2 * count - 2, 2 * count - 1):
            yield from both_lists(room, 0, text, ends)


def longest_entries():
    """Outputs as long as may be: filled, one byte short, one byte long; by one entry and by two."""
    for length in (4_095, 4_096, 4_097):
        yield ask("filters", 4_096, 0, *listed([filler(length)]))
    for length in (4_092, 4_093):
        yield ask("alts", 4_096, 0, *listed([b"ab", filler(length)]))
    yield ask("filters", 4_096, 1, *listed([filler(4_095)]))
    yield ask("filters", 4_096, 1, *listed([filler(4_096)]))
    yield ask("alts", 4_096, 0, *listed([b"<" + filler(4_094) + b">"]))
    yield ask("alts", 4_096, 0, *listed([b"<" + filler(4_093) + b">>"]))
    yield ask("alts", 0, 0, *listed([b"a" + filler(4_094) + encoded(0x3000)]))


def random_list_entry(dice):
    """Now and then an empty one, or one between `<` and `>`."""
    length = 1 + dice.roll(4) if dice.roll(30) else 0
    entry = "".join(dice.pick("aaaabq10.<>\u00e9\u8a9e\U000233b4\x00") for _ in range(length))
    return (entry if dice.roll(4) else f"<{entry}>").encode()


def random_entries(large, dice):
    for _ in range(10_000 if large else 120):
        entries = [random_list_entry(dice) for _ in range(1 + dice.roll(6))]
        text, ends = listed(entries, random_list_entry(dice))
        if not dice.roll(2):
            text = damaged(dice, text + b"a", dice.pick((range(256), b"<>;, .0\xff")))
        if not dice.roll(8):
            at = dice.roll(len(ends))
            ends = (*ends[:at], dice.roll(len(text) + 2), *ends[at + 1 :])
        at = dice.roll(4)
        yield from both_lists(at + needed(entries) + dice.roll(3) - 1, at, text, ends)


def entry_lists(large, dice):
    for entry in (*ENTRIES, *NOT_UTF8_ENTRIES, *(map(bytes.fromhex, WRONG) if large else ())):
        yield from alone_and_not(entry)
    for first, second in itertools.product((*ENTRIES, *NOT_UTF8_ENTRIES), repeat=2) if large else ():
        yield from of_entries([first, second])
    yield from about_white_space()
    yield from short_entries(large)
    yield from mixed_entry_faults()
    yield from list_rooms()
    yield from list_ends()
    yield from many_entries(large)
    yield from longest_entries()
    yield from random_entries(large, dice)


# ---- the offsets of 12 and 21

OFFSET_BYTES = b"+09a.|/"
# The largest number, the next, and others of 20 digits and of 21.
ABOUT_LARGEST = (
    LARGEST, LARGEST + 1, 10 * (TENTH + 1), 10**19, 2 * 10**19, 10**20 - 1, 10**20, 10 * LARGEST, 10**21 - 1,
)
# Texts of no allele: wrong at once, after a sign, a digit or more, and at the end; led by a dot; past the limit.
BAD_ALLELES = (
    b"", b"a", b"-1", b"\xff", b"+", b"++", b"+a1", b"+.", b"1a", b"+1+", b"007x9", "12\u00e9".encode(), b"1.", b"..",
    b".5", b".+1", b"%d" % (LARGEST + 1), b"+00%da" % (LARGEST + 1), b"%da6" % TENTH, b"0%d0" % LARGEST,
)
# What may stand before them, but for the first mark: none, one and two alleles of several lengths.
BEFORE_ALLELES = (
    b"", b"0|", b"./", b"+12|", b"00345/", b"%d|" % LARGEST, b"0|1/", b".|.|", b"007/+1/", b"./%d|" % LARGEST,
)


def about_largest(every_zeros, wrong):
    """Numbers about the largest with signs and zeros before them: whole, and with a wrong byte put in or in place of
    another, from before the twentieth digit to the end."""
    for value, sign, zeros in itertools.product(ABOUT_LARGEST, (b"", b"+"), every_zeros):
        text = sign + b"0" * zeros + b"%d" % value
        yield text
        for at, byte in itertools.product(range(len(sign) + zeros + 18, len(text) + 1), wrong):
            yield text[:at] + bytes([byte]) + text[at:]
            yield text[:at] + bytes([byte]) + text[at + 1 :]


def all_readers(row, text, alt=b"A"):
    yield from both_readers(row, text)
    yield from both_checked(row, text, alt)
    yield ask("unequal", row, row, row, text)


def steps_about(text, place):
    """From the start, from a place and from about it."""
    for at in sorted({0, max(0, place - 1), place, place + 1, place + 2}):
        yield ask("gtstep", text, at)


def faults_at_limits():
    """Numbers about the largest as a decimal, a POS and an allele; fewer of them by all readers and among others."""
    for text in about_largest(range(4), b"+/:a"):
        yield ask("decimal", text)
        yield ask("pos", text)
        yield ask("read", 3, text)
    for body in about_largest((0, 2), b"a"):
        yield from all_readers(1, body)
        # from past some of its bytes, so that another digit passes the limit, or none does
        for at in (0, 1, 2, 3, 4, len(body) // 2, len(body) - 1):
            yield ask("gtstep", body, at)
        for before in (b"|", b"0/", b".|+12/"):
            yield from both_readers(3, before + body)
            yield from steps_about(before + body, len(before))
        yield from all_readers(3, b"/0|" + body + b"/1")


def faults_in_alleles():
    """Bad alleles first, second and third, with a first mark and without, at the end and before others; far ones."""
    for body, before, mark in itertools.product(BAD_ALLELES, BEFORE_ALLELES, (b"", b"|", b"/")):
        text = mark + before + body
        yield from both_readers(3, text)
        yield ask("read", 0, text + b"/x")
        yield from steps_about(text, len(mark + before))
        if not mark:
            yield from both_checked(3, text, b"," * 12)
            yield ask("unequal", 3, 3, 3, text + b"|1")
    for count in (9, 10, 63, 64, 65):
        text = b"|".join(b"%d" % number for number in range(count)) + b"/1a"
        yield from all_readers(64, text, b"," * 64)
        yield from steps_about(text, len(text) - 2)


def random_faults(large, dice):
    """Short numbers and those about the largest, whole and damaged: by themselves and after good alleles."""
    for _ in range(5_000 if large else 100):
        away = dice.roll(40)
        value = dice.pick((dice.roll(10**4), LARGEST - away, LARGEST + away, 10 * LARGEST + away))
        good = dice.pick((b"", b"+")) + b"0" * dice.roll(4) + b"%d" % value
        for body in (good, damaged(dice, good), damaged(dice, good, OFFSET_BYTES)):
            yield ask("decimal", body)
            yield ask("pos", body)
            before, later = random_genotype(dice)
            text = before + dice.pick((b"|", b"/")) + body + dice.pick((b"", b"|0", b"/x"))
            yield from all_readers(later + 1 + dice.roll(3), text, b"," * dice.roll(12))
            yield ask("gtstep", text, len(before) + dice.roll(len(body) + 2))


def offsets(large, dice):
    for text in short_texts(OFFSET_BYTES, 4):
        yield ask("decimal", text)
        yield ask("pos", text)
        yield ask("read", 3, text)
    for text in short_texts(OFFSET_BYTES, 3):
        yield from all_readers(3, text)
        yield from steps_over(text)
    yield from faults_at_limits()
    yield from faults_in_alleles()
    yield from random_faults(large, dice)


# ---- altcount, and the checked readers at sites with no ALT

NO_ALTS = (b"", b".")
# What is read at such a site, and what is above the count there.
NO_ALT_GENOTYPES = (b"0", b"0|0", b".", b"./.", b"0/.", b"1", b"0/1", b"1|.")
# The same in other spellings; numbers above the count more than once, after others, and beside bad ones.
MORE_AT_NO_ALT = (
    b"/0", b"|.", b"+0", b"00/+00", b".|.|.", b"0|0/0", b"+1", b"01", b"|1", b"/.|1", b"0|1|1", b"1/2/3", b"0/0/1",
    b"./.|9", b"", b"x", b"1|x", b"x|1", b"1|", b"1//0", b"0|1|x", b"1|.5", b"1|%d" % (LARGEST + 1), b"%d/x" % LARGEST,
)
ALT_COLUMNS = (
    # almost a dot alone
    b"..", b"...", b". ", b" .", b" ", b".\x00", b"\x00.", b"\x00", b".\t", b".\n", b"\r", b".A", b"A.", b"-", b"0",
    # entries that are dots or empty
    b".,", b",.", b",", b".,.", b",,", b",.,", b"., .", b"..,", b".,.,.", b"A,.", b".,A", b"A,,C", b",A,", b",,A",
    # entries of other shapes, commas between `<` and `>` too
    b"<DEL>", b"*", b"<*>", b"<DEL>,*", b"A,<INS:ME:ALU>", b"<A,C>", b"<,>", b"<.>", b"<>", b"<,", b">,<",
    b"]13:123456]T", b"G]17:198982],.", b"C[2:321682[,[<c>:7[T", b"GTC,G,GTCT", b"A, C", b"A,C ",
    # bytes next to a comma and a dot and one bit away, and other separators
    b"+", b"+-", b"-/", b"A+C-G", b"\x2d\x2e\x28\x24\x3c\x0c\x6c\xac", b"\x2f\x2c\x2a\x26\x3e\x0e\x6e\xae", b"\xac",
    b"\xae", b"A;C", b"A|C", b"A/C", b"A\tC",
    # other characters, commas and dots of Unicode, NUL, every byte, no UTF-8
    "\u00e9".encode(), "\u8a9e,\U000233b4".encode(), "\uff0c\u060c\u3001".encode(), "\uff0e".encode(),
    "\u2024".encode(), b"A\x00,\x00C", b"\x00,\x00", b",\x00", bytes(range(256)), b"\xff", b".\xff", b"\xff.",
    b"\xc3,\xa9", b"\xff,\xfe,", b",\x80.",
)


def alt_columns(large):
    """Columns of every kind, every byte alone and in some places, and all short ones of the bytes that count."""
    yield from (*NO_ALTS, *ALTS, *ALT_COLUMNS)
    yield from (record.split(b"\t")[FIELDS.index("alt")] for record in examples())
    for byte in range(256):
        put = bytes([byte])
        yield from (put, b"." + put, put + b".", b"A" + put + b"C")
        if large:
            yield from (put + put, b"," + put, put + b",", b"." + put + b".", b".," + put, put + b"A,." + put)
    yield from short_texts(b".,A<", 5)
    yield from short_texts(b".,", 8)


def long_alts(large):
    """Columns of about as many bytes as a block may have: all commas or dots, a comma at either end, about the middle
    and nowhere; and as many entries."""
    about_blocks = (block + step for block in (8, 16, 32, 64, 128, 256) for step in (-1, 0, 1))
    for length in range(1, 301) if large else (*about_blocks, 300):
        one = [b"A" * at + b"," + b"A" * (length - 1 - at) for at in sorted({0, length // 2, length - 1})]
        yield from (b"," * length, b"." * length, b"A" * length, *one)
        yield from (b",".join([entry] * length) for entry in (b"A", b".", b"<DEL>"))
    for length in (1_023, 1_024, 1_025, 4_095, 4_096, 4_097):
        yield from (b"," * length, b"." * length, b"A" * (length - 1) + b",")


def at_no_alt(large):
    """Genotypes at sites with no ALT: into rows of none to more than needed; of every kind, short and long."""
    for alt in NO_ALTS:
        for text, row in itertools.product((*NO_ALT_GENOTYPES, *MORE_AT_NO_ALT), range(5)):
            yield from both_checked(row, text, alt)
        for text in (*GENOTYPES, *short_texts(b"01.|/+", 4 if large else 3)):
            yield from both_checked(3, text, alt)
        for body in allele_texts():
            yield from both_checked(2, body, alt)
            yield from both_checked(2, b"0|" + body, alt)
        for count, row in itertools.product((63, 64, 65), (0, 1, 63, 64)):
            noughts = [b"0"] * count
            for changes in ({}, {0: b"1"}, {62: b"1"}, {count - 1: b"1"}, {0: b"1", count - 1: b"x"}):
                yield from both_checked(row, b"/".join(replaced(noughts, changes)), alt)


def about_alt_counts():
    """Numbers about the count of columns that are near to those of no ALT, and of others."""
    for alt in ALT_COLUMNS:
        for value in range(alt.count(b",") + 4):
            yield from both_checked(2, b"0/%d" % value, alt)


def random_alt(dice):
    """A column of none to six entries."""
    entries = (b"A", b"C", b"GTC", b".", b".", b"*", b"<DEL>", b"", b"[2:3[T", b"\xc3\xa9")
    return b",".join(dice.pick(entries) for _ in range(dice.roll(7)))


def random_alts(large, dice):
    """Good columns and damaged ones, and those of few bytes: the count, and a genotype there."""
    for _ in range(2_000 if large else 100):
        good = random_alt(dice)
        short = bytes(dice.pick(b".,A") for _ in range(dice.roll(4)))
        for column in (good, damaged(dice, good or b"."), damaged(dice, good or b".", b".,"), short):
            yield ask("altcount", column)
            text = dice.pick((b"0", b"1", b"|0")) + dice.pick((b"|", b"/")) + b"%d" % dice.roll(column.count(b",") + 3)
            yield from both_checked(1 + dice.roll(3), text, column)


def alt_counts(large, dice):
    for column in (*alt_columns(large), *long_alts(large)):
        yield ask("altcount", column)
    yield from at_no_alt(large)
    yield from about_alt_counts()
    yield from random_alts(large, dice)


# ---- the endings of lines that are joined and read

LAST_COLUMNS = (
    b"", b"a", b"a\r", b"\r", b"\r\r", b"a\r\r", b"\ra", b"a\rb", b".\r", "\u8a9e\r".encode(), b"\xc3\r", b"\r\xff",
)
# What stands in a text before a line, and what behind it.
BEFORE_LINE = (b"", b"a\r", LINES[1])
BEHIND_LINE = (b"", b"\n", b"\r", b"\r\n", b"\r\r\n", b"a", b"a\r\n", b"\t", b"\tF\ts\r\n", b"\xff\n", LINES[1])


def with_last(count, last):
    """So many columns, the last of them given."""
    return (*COLUMNS[: count - 1], last)


def columns_with_returns():
    """Each last column; a CR at the end of each other column, of all others, and of all."""
    for count, last in itertools.product((8, 10, 12), LAST_COLUMNS):
        yield with_last(count, last)
    for count, column in itertools.product((8, 10), (b"a\r", b"\r")):
        for index in range(count - 1):
            yield replaced(COLUMNS[:count], {index: column})
        yield [column] * (count - 1) + [b"a"]
        yield [column] * count


def last_returns_and_faults():
    """A last column that ends in CR, with every mixture of other faults, so that each is seen to go before the next."""
    faults, lasts = ({}, {2: b"\xc3"}, {2: b""}, {2: b"a\r"}), (b"a\r", b"\xc3\r")
    for count, fault, last, (ending, word) in itertools.product((7, 8, 9, 10), faults, lasts, ENDINGS.items()):
        columns = replaced(with_last(count, last), fault)
        need, (text, ends) = needed(columns, ending), listed(columns)
        for room in (need, need - 1, 0):
            yield ask("join", room, 0, word, text, ends)
        yield ask("join", need, need + 1, word, text, ends)
        yield ask("join", need, 0, word, text, (*ends[:-1], len(text) + 1))


def rooms_about_endings():
    """Rooms about what is needed, at the output's first place and at later ones; and places about its end."""
    for count, last, (ending, word) in itertools.product((8, 10), (b"a", b"a\r", b"\r"), ENDINGS.items()):
        columns = with_last(count, last)
        need, (text, ends) = needed(columns, ending), listed(columns)
        for at, more in itertools.product((0, 1, 20), (-2, -1, 0, 1, 2, 9)):
            yield ask("join", at + need + more, at, word, text, ends)
        for at in (need - 1, need, need + 1):
            yield ask("join", need, at, word, text, ends)


def lines_in_texts():
    """A line at the start, in the middle and at the end of a text: read, and what follows it. Where nothing ends it, it
    runs on into that."""
    for count, last, ending in itertools.product((8, 10), (b"", b"a", b"\r"), ENDINGS):
        line = row(with_last(count, last)) + ending
        for before, behind in itertools.product(BEFORE_LINE, BEHIND_LINE):
            yield before + line + behind, len(before)
            yield before + line + behind, len(before + line)


def random_endings(large, dice):
    """Columns of which many end in CR, to join with each ending, and the line of them in a text."""
    for _ in range(5_000 if large else 60):
        columns = [random_column(dice) + b"\r" * (dice.roll(4) == 0) for _ in range(dice.pick((8, 8, 9, 10, 11)))]
        columns[-1] += b"\r" * dice.roll(3)
        before = dice.pick((b"", b"\r", random_line(dice)))
        behind = dice.pick((b"", b"\n", b"\r\n", b"a", random_line(dice)))
        at, more = dice.roll(4), dice.roll(4) - 1
        for ending, word in ENDINGS.items():
            yield ask("join", at + needed(columns, ending) + more, at, word, *listed(columns))
            yield ask("line", before + row(columns) + ending + behind, len(before))


def line_endings(large, dice):
    for columns in columns_with_returns():
        yield from both_ways(columns)
    yield from last_returns_and_faults()
    yield from rooms_about_endings()
    for text, at in lines_in_texts():
        yield ask("line", text, at)
    yield from random_endings(large, dice)


# ---- small, widen and narrow


def field_lengths(columns):
    """The length of each field of a line, all samples being one: eight lengths, or ten."""
    samples = columns[SAMPLES_INDEX:]
    return (*map(len, columns[:SAMPLES_INDEX]), *((len(row(samples)),) if samples else ()))


def as_ends(start, lengths):
    """A line's text by its start, the end of each field and its own end. Fields without a length end where it does."""
    numbers = [start]
    for index, length in enumerate(lengths):
        numbers.append(numbers[-1] + (index > 0) + length)
    return numbers + numbers[-1:] * (11 - len(numbers))


def as_places(start, lengths):
    """The same by the start and the length of each field. Fields without a length are empty at the text's end."""
    numbers = []
    for length in lengths:
        numbers += (start, length)
        start += length + 1
    return numbers + [start - 1, 0] * (10 - len(lengths))


# Each verb's own form of a line.
FORMS = {"widen": as_ends, "narrow": as_places}
# The fields' lengths, without FORMAT, with one sample and with several; and of one byte each.
WITHOUT_FORMAT, WITH_FORMAT = field_lengths(COLUMNS[:8]), field_lengths(COLUMNS[:10])
EITHER = (WITHOUT_FORMAT, WITH_FORMAT)
LENGTHS = (*EITHER, field_lengths(COLUMNS), field_lengths(examples()[1].split(b"\t")), (1,) * 8, (1,) * 10)
# A slice has no more bytes than the first; with an ending's bytes the last two may be passed.
FORM_LIMITS = (2**63 - 1, 2**63, LARGEST - 1, LARGEST)


def where_fitting(verb, word, numbers):
    """The question, where no number is too large for a case or below 0."""
    if 0 <= min(numbers) and max(numbers) <= LARGEST:
        yield ask(verb, word, *numbers)


def wrapped(verb, word, numbers):
    """The question, where what is past the largest number counts on from 0."""
    return ask(verb, word, *(value % 2**64 for value in numbers))


def in_both_forms(word, start, lengths):
    for verb, told in FORMS.items():
        yield wrapped(verb, word, told(start, lengths))


def one_moved(numbers):
    """Each number one up, one down, 0, and at each limit."""
    for index, value in enumerate(numbers):
        for other in (value + 1, value - 1, 0, *FORM_LIMITS):
            yield replaced(numbers, {index: other})


def two_moved(numbers, pairs):
    """Two numbers, given by index, one up or down each."""
    for (first, second), up, other in itertools.product(pairs, (1, -1), (1, -1)):
        yield replaced(numbers, {first: numbers[first] + up, second: numbers[second] + other})


def starts_moved(numbers):
    """Of places the starts from each one on, one up or down, as if two tabs were before it, or none; and with the
    length before it as much longer or shorter, by which most are lines again."""
    for index, step in itertools.product(range(2, 20, 2), (1, -1)):
        moved = [value + step * (at >= index and at % 2 == 0) for at, value in enumerate(numbers)]
        yield moved
        yield replaced(moved, {index - 1: moved[index - 1] + step})


def moved_forms(large):
    """Lines as they are, and with one number or two moved."""
    for lengths, start, word in itertools.product(LENGTHS, (0, 40), ENDINGS.values()):
        for verb, told in FORMS.items():
            good = told(start, lengths)
            found = [good, *one_moved(good)]
            if large:
                found += two_moved(good, itertools.combinations(range(len(good)), 2))
            elif start and lengths in EITHER:
                found += two_moved(good, itertools.pairwise(range(len(good))))
            if verb == "narrow" and lengths in EITHER:
                found += starts_moved(good)
            for numbers in found:
                yield from where_fitting(verb, word, numbers)


def resized_forms():
    """Each field empty, of one byte and two, and one longer: all others follow."""
    for lengths, start, word in itertools.product(EITHER, (0, 40), ENDINGS.values()):
        for index, length in enumerate(lengths):
            for other in (0, 1, 2, length + 1):
                yield from in_both_forms(word, start, replaced(lengths, {index: other}))
        # fewer columns, and FORMAT without samples
        for count in (1, 7, 9):
            yield from in_both_forms(word, start, WITH_FORMAT[:count])


def about_format():
    """FORMAT and the samples about INFO's end: both there, none, empty, the one without the other, any tabs between."""
    for start, word in itertools.product((0, 40), ENDINGS.values()):
        ends, placed = as_ends(start, WITHOUT_FORMAT), as_places(start, WITHOUT_FORMAT)
        end = ends[-1]
        for last in itertools.product(range(end - 1, end + 4), range(end - 1, end + 7)):
            yield ask("widen", word, *ends[:9], *last)
        for last in itertools.product((0, *range(end - 1, end + 3)), (0, 1), (0, *range(end, end + 5)), (0, 1)):
            yield ask("narrow", word, *placed[:16], *last)


def about_limits(large):
    """The text and its ending up to about the longest slice and about the largest number, since it starts far on or one
    field is long."""
    shapes = LENGTHS if large else EITHER
    for lengths, (ending, word), limit in itertools.product(shapes, ENDINGS.items(), (2**63 - 1, 2**64)):
        for more in range(-9, 10) if large else range(-2, 3):
            far = limit + more - len(ending) - as_ends(0, lengths)[-1]
            yield from in_both_forms(word, far, lengths)
            for index, length in enumerate(lengths):
                yield from in_both_forms(word, 0, replaced(lengths, {index: length + far}))


def past_the_largest(large):
    """Forms that are right but for passing the largest number: at each of their numbers, or by one field's length."""
    for lengths, word in itertools.product(LENGTHS if large else EITHER, ENDINGS.values()):
        for number, more in itertools.product(as_ends(0, lengths), (-1, 0, 1)):
            yield from in_both_forms(word, 2**64 + more - number, lengths)
        for index, start in enumerate(as_places(40, lengths)[: 2 * len(lengths) : 2]):
            # the next field starts where this does, before that, at 1, at 0 and at the largest number
            for less in (1, 2, start, start + 1, start + 2):
                yield from in_both_forms(word, 40, replaced(lengths, {index: 2**64 - less}))


def random_lengths(dice):
    """Now and then with an empty field, or with FORMAT and no samples."""
    return [1 + dice.roll(5) if dice.roll(60) else 0 for _ in range(dice.pick((8, 8, 8, 9, 10, 10, 10, 10)))]


def random_step(dice):
    """Up or down, most often by little, else by any amount."""
    size = (1 + dice.roll(9)) * 2 ** dice.roll(61) if dice.roll(4) == 0 else 1 + dice.roll(3)
    return size if dice.roll(2) else -size


def random_forms(large, dice):
    """Lines at near and far places: as they are, with one field longer or shorter, and with up to three numbers
    moved."""
    for _ in range(4_000 if large else 100):
        lengths, word = random_lengths(dice), dice.pick(list(ENDINGS.values()))
        start = dice.pick((0, dice.roll(9), dice.roll(2**31), 2**63 - 1 - dice.roll(120), 2**64 - 1 - dice.roll(120)))
        yield from in_both_forms(word, start, lengths)
        index = dice.roll(len(lengths))
        yield from in_both_forms(word, start, replaced(lengths, {index: lengths[index] + random_step(dice)}))
        for verb, told in FORMS.items():
            numbers = told(start, lengths)
            for _ in range(1 + dice.roll(3)):
                index = dice.roll(len(numbers))
                numbers = replaced(numbers, {index: numbers[index] + random_step(dice)})
            yield wrapped(verb, word, numbers)


def small_reads(large):
    """What is asked as `line` above, by the same dice; of the lines in texts, which are many, every fifth at the stored
    size."""
    read = (lines(large, Dice(4)), joins(large, Dice(7)), *map(both_ways, columns_with_returns()))
    for case, _ in itertools.chain(*read, random_endings(large, Dice(16))):
        if case.startswith(b"line "):
            yield case.replace(b"line", b"small", 1), True
    for text, at in itertools.islice(lines_in_texts(), 0, None, 1 if large else 5):
        yield ask("small", text, at)


def forms_of_lines(large, dice):
    yield from small_reads(large)
    yield from moved_forms(large)
    yield from resized_forms()
    yield from about_format()
    yield from about_limits(large)
    yield from past_the_largest(large)
    for verb, told in FORMS.items():
        for word, value in itertools.product(ENDINGS.values(), (0, *FORM_LIMITS)):
            yield ask(verb, word, *[value] * len(told(0, WITH_FORMAT)))
    yield from random_forms(large, dice)


# ---- plain

# It is asked all that `line` is: see `asked_of_plain`. Here are more lines, asked of both, for what a reader may get
# wrong that goes over a line three times: for its end, for all its tabs, and to judge its columns.
MANY_COLUMNS = (*COLUMNS, *[b"7"] * 88)
ONE_BYTE_COLUMNS = tuple(bytes([letter]) for letter in b"abcdefghijkl")
# Ends of a line that are wrong by themselves, or near to that.
ODD_ENDS = (b"", b"\r", b"\r\r\n", b"\t", b"\t\n", b"\t\r", b"\t\r\n", b"\xff\n", b"\xc3")


def emptied(columns, *indexes):
    """The line of the columns, some of them, given by index, empty."""
    return row(replaced(columns, dict.fromkeys(indexes, b"")))


# Lines with tabs, empty columns and faults of their own, which say nothing of the line before or behind them.
OTHER_LINES = (
    row(COLUMNS) + b"\n", b"\t" * 12 + b"\n", b"\t\r\n", b"\n", b"\r\n", b"\xff\t\t\n",
    *(emptied(COLUMNS[:8], index) + b"\n" for index in (0, 1, 7)),
)
# Short lines of every kind.
SHORT_LINES = (
    row(ONE_BYTE_COLUMNS[:8]) + b"\n", row(ONE_BYTE_COLUMNS[:10]) + b"\r\n", emptied(ONE_BYTE_COLUMNS[:8], 2) + b"\n",
    emptied(ONE_BYTE_COLUMNS, 10) + b"\r\n", row(ONE_BYTE_COLUMNS[:9]) + b"\n", b"\r\tb\n", b"\t\t\r\n", b"\r\r\n",
    row(replaced(ONE_BYTE_COLUMNS[:8], {3: b"\xc3", 4: b"\xa9"})) + b"\n", row(ONE_BYTE_COLUMNS[:8]) + b"\r",
)


def empty_columns(large):
    """One empty column of 9, 11 and 100; two of 11."""
    for count in (9, 11, 100):
        for index, ending in itertools.product(range(count), ENDINGS if large or count < 100 else (b"\r\n",)):
            yield emptied(MANY_COLUMNS[:count], index) + ending
    for indexes in itertools.combinations(range(11), 2):
        yield emptied(COLUMNS[:11], *indexes) + b"\n"


def empty_before_ends(large):
    """An empty column early or late, and an end of the line that is wrong too."""
    for count, end in itertools.product((3, 7, 8, 9, 10, 11), ODD_ENDS):
        for index in range(count) if large else (1, count - 2):
            yield emptied(COLUMNS[:count], index) + end


def empty_and_broken(large):
    """An empty column, and before it or behind it one that is no UTF-8."""
    for count, wrong in itertools.product((8, 9, 10, 11, 12), (b"\xc3", b"\xff")) if large else ((11, b"\xc3"),):
        for empty, other in itertools.permutations(range(count), 2):
            yield row(replaced(COLUMNS[:count], {empty: b"", other: wrong})) + b"\n"


def tabs_before_ends(large):
    """Tabs right before each end, behind columns and alone."""
    ends = (b"\n", b"\r\n", b"\r\r\n", b"\r", b"")
    for count, tabs, end in itertools.product(range(1, 13) if large else (1, 7, 8, 9, 10), (2, 3), ends):
        yield row(COLUMNS[:count]) + b"\t" * tabs + end
    for tabs, end in itertools.product(range(1, 14) if large else (1, 7, 8, 9, 10, 12), ends):
        yield b"\t" * tabs + end


def returns_before_tabs(large):
    """A CR at the end of each column, alone and behind a letter; and of the one before an empty one."""
    for count, column in itertools.product((9, 11), (b"\r", b"a\r")):
        for index, ending in itertools.product(range(count), ENDINGS if large else (b"\r\n",)):
            yield row(replaced(COLUMNS[:count], {index: column})) + ending
    for index in range(10):
        yield row(replaced(COLUMNS[:11], {index: b"a\r", index + 1: b""})) + b"\r\n"


def of_every_length(large):
    """A first column of each length, so that tabs, CR and LF come to stand in each place of a block of bytes."""
    for length in range(1, 300 if large else 50):
        yield b"a" * length + seven(b"I", b"F", b"s")[1:] + b"\r\n\ta"
        yield b"a" * length + seven(b"I", b"F", b"s", b"", b"u")[1:]


def beside_others():
    """A line before another line and behind it."""
    for count, ending, other in itertools.product((1, 7, 8, 9, 10, 11), (b"\n", b"\r\n"), OTHER_LINES):
        line = row(COLUMNS[:count]) + ending
        yield line + other, 0
        yield other + line, len(other)


def from_every_place(large):
    """Short lines one after the other, from every place to past the end; at large every two of them besides."""
    texts = [b"".join(SHORT_LINES), *(map(b"".join, itertools.product(SHORT_LINES, repeat=2)) if large else ())]
    for text in texts:
        for at in range(len(text) + 3):
            yield text, at


def random_row(dice):
    """A line of any number of columns, of which now and then one is empty, CR or no UTF-8."""
    count = dice.pick((1, 2, 7, 8, 8, 9, 10, 10, 11, 12, 20))
    good, other = (b"a", b"bb", "\u00e9".encode(), b"a\r"), (b"", b"\r", b"\xc3", b"\xa9")
    columns = [dice.pick(good if dice.roll(15) else other) for _ in range(count)]
    return row(columns) + dice.pick((b"\n", b"\r\n", b"\r\r\n", b"\t\n"))


def random_rows(large, dice):
    """Three lines in a text, the last maybe not ended, read from the start of each and from elsewhere."""
    for _ in range(6_000 if large else 40):
        found = [random_row(dice) for _ in range(3)]
        text = b"".join(found)[: -dice.roll(3) or None]
        for at in itertools.accumulate(map(len, found[:-1]), initial=0):
            yield ask("line", text, at)
        yield ask("line", text, dice.roll(len(text) + 2))


def lines_in_passes(large, dice):
    shapes = (
        empty_columns, empty_before_ends, empty_and_broken, tabs_before_ends, returns_before_tabs, of_every_length,
    )
    for text in itertools.chain(*(shape(large) for shape in shapes)):
        yield ask("line", text, 0)
    for text, at in itertools.chain(beside_others(), from_every_place(large)):
        yield ask("line", text, at)
    yield from random_rows(large, dice)


def asked_of_plain(cases):
    """Each case of `line`, asked of `plain`: it is none where the longer verb makes it too long."""
    for line, good in cases:
        if good and line.startswith(b"line "):
            again = line.replace(b"line", b"plain", 1)
            yield again, len(again) <= LONGEST_LINE


# ---- number, genotype, genotypes and genotypecount

PLOIDIES = range(1, 9)
ALLELE_COUNTS = range(1, 65)
LONGEST_ROW = 4_096
# About the limits, and numbers that would be within them without their higher bits.
ODD_PLOIDIES = (0, 1, 2, 7, 8, 9, 16, 64, 2**8 + 2, 2**32, 2**32 + 2, LARGEST)
ODD_ALLELE_COUNTS = (0, 1, 2, 63, 64, 65, 66, 128, 2**8 + 2, 2**32, 2**32 + 2, LARGEST)
ODD_NUMBERS = (2**31, 2**32 - 1, 2**32, 2**32 + 1, 2**33, 2**63, LARGEST - 1, LARGEST)


def how_many(ploidy, alleles):
    """How many genotypes there are, so that questions can be asked about the last."""
    return math.comb(alleles + ploidy - 1, ploidy)


def list_length(ploidy, alleles):
    return ploidy * how_many(ploidy, alleles)


def with_genotypes(ploidy, alleles):
    """Each genotype, and each number to one past the last, into a row that it fills."""
    for genotype in itertools.combinations_with_replacement(range(alleles), ploidy):
        yield ask("number", alleles, genotype)
    for value in range(how_many(ploidy, alleles) + 1):
        yield ask("genotype", value, ploidy, alleles, ploidy)


def whole_orders(large):
    """All ploidies over few alleles, the specification's own tables among them: two of 2 and of 3 alleles, three of 2.
    Lists into no row, one that is short by one or filled, and longer ones."""
    for ploidy, alleles in itertools.product(PLOIDIES, range(1, 8 if large else 5)):
        yield ask("genotypecount", ploidy, alleles)
        yield from with_genotypes(ploidy, alleles)
        need = list_length(ploidy, alleles)
        for row in (0, need - 1, need, need + 1, need + 5):
            if row <= LONGEST_ROW:
                yield ask("genotypes", ploidy, alleles, row)


def long_lists(large):
    """The longest list of each ploidy that a row of a case can hold, and the next."""
    for ploidy in PLOIDIES:
        alleles = max(count for count in ALLELE_COUNTS if list_length(ploidy, count) <= LONGEST_ROW)
        need = list_length(ploidy, alleles)
        for row in (need - 1, need, need + 1, LONGEST_ROW - 1, LONGEST_ROW) if large else (need,):
            yield ask("genotypes", ploidy, alleles, row)
        for row in (need, LONGEST_ROW) if large else (9,):
            yield ask("genotypes", ploidy, alleles + 1, row)
    yield ask("genotypes", 2, 63, 63 * 64 - 1)
    for ploidy, alleles in ((2, 63), (2, 64), (8, 5), (8, 64), (9, 1)):
        yield ask("genotypes", ploidy, alleles, LONGEST_ROW)
    for value in (how_many(8, 64) - 1, how_many(8, 64)):
        yield ask("genotype", value, 8, 64, LONGEST_ROW)


def order_edges(large):
    """The last genotypes over so many alleles and the first ones with one more, as genotypes and by their numbers: over
    so many, over one more, and over 64."""
    for ploidy, alleles in itertools.product(PLOIDIES, ALLELE_COUNTS if large else (5, 8, 16, 17, 33, 62, 63, 64)):
        count, last, first = how_many(ploidy, alleles), [alleles - 1] * ploidy, [*[0] * (ploidy - 1), alleles]
        edges = [last, replaced(last, {0: max(0, alleles - 2)}), first]
        if ploidy > 1:
            edges.append(replaced(first, {ploidy - 2: 1}))
        for limit in sorted({alleles, alleles + 1, 64}):
            yield ask("genotypecount", ploidy, limit)
            for genotype in edges:
                yield ask("number", limit, tuple(genotype))
            for value in range(max(0, count - 2), count + 2):
                yield ask("genotype", value, ploidy, limit, ploidy)


def two_of_many(large):
    """Two alleles, of all that there may be."""
    for high in range(66):
        for low in range(high + 1) if large else sorted({0, high // 2, high - 1, high} - {-1}):
            yield ask("number", 64, (low, high))


def about_order_limits(large):
    """Ploidies, allele counts and numbers about their limits and far past them, in every mixture, with rows that are
    too short and long enough; lists of alleles as long as a case may have."""
    for ploidy, alleles in itertools.product(ODD_PLOIDIES, ODD_ALLELE_COUNTS):
        yield ask("genotypecount", ploidy, alleles)
        for row in (0, 1, 8, 9, 300) if large else (0, 9):
            yield ask("genotypes", ploidy, alleles, row)
            for value in (0, 1, how_many(8, 64) - 1, LARGEST) if large else (0, LARGEST):
                yield ask("genotype", value, ploidy, alleles, row)
    for ploidy, alleles in itertools.product(PLOIDIES, (1, 2, 63, 64)):
        for value in ODD_NUMBERS:
            yield ask("genotype", value, ploidy, alleles, ploidy)
    for length, alleles in itertools.product((*range(11), 16, 63, 64), ODD_ALLELE_COUNTS):
        yield ask("number", alleles, (0,) * length)
        if length in (1, 8, 9, 64):
            yield ask("number", alleles, tuple(range(length)))
            yield ask("number", alleles, tuple(reversed(range(length))))
            yield ask("number", alleles, (63,) * length)
            yield ask("number", alleles, (LARGEST,) * length)


def rows_of_genotypes(large):
    """Rows from none to longer than needed, for numbers that have a genotype, and for a number, an allele count and a
    ploidy that have none: 23 goes before 17."""
    for ploidy in PLOIDIES:
        count = how_many(ploidy, 3)
        for row in range(ploidy + 4):
            for value in (0, count // 2, count - 1, count):
                yield ask("genotype", value, ploidy, 3, row)
            for alleles in (0, 65):
                yield ask("genotype", 0, ploidy, alleles, row)
        for row in (LONGEST_ROW - 1, LONGEST_ROW) if large else ():
            yield ask("genotype", count - 1, ploidy, 3, row)
    for row in (0, 8, 9, 10):
        yield ask("genotype", 0, 0, 3, row)
        yield ask("genotype", 0, 9, 3, row)
        yield ask("genotypes", 0, 3, row)
        yield ask("genotypes", 9, 1, row)
    yield ask("genotype", 7, 2, 4, LONGEST_ROW - 1)


def no_genotypes(large):
    """Every short list of alleles up to two past the last; longer ones with one allele or all later ones changed, by
    which they fall, stand still or pass the last allele at any place."""
    for ploidy, alleles in itertools.product(range(1, 5 if large else 4), range(1, 6 if large else 4)):
        for listed_alleles in itertools.product(range(alleles + 2), repeat=ploidy):
            yield ask("number", alleles, listed_alleles)
    for ploidy, alleles in itertools.product(PLOIDIES, (9, 40, 64) if large else (9, 64)):
        rising = tuple(range(alleles - ploidy, alleles))
        for at, value in enumerate(rising):
            near = {0, value - 1, value, value + 1, alleles - 1, alleles, alleles + 1}
            for other in (*sorted(near), 2**8 + value, 2**32 + value, 2**63, LARGEST):
                yield ask("number", alleles, tuple(replaced(rising, {at: other})))
            for other in (alleles, 2**32, LARGEST):
                yield ask("number", alleles, (*rising[:at], *[other] * (ploidy - at)))


# Ploidies and allele counts with short lists.
SHORT_LISTS = [both for both in itertools.product(PLOIDIES, ALLELE_COUNTS) if list_length(*both) <= 400]


def random_number(dice, below):
    return (dice.roll(2**31) << 31 | dice.roll(2**31)) % below


def random_alleles(dice, ploidy, alleles):
    """A genotype."""
    return sorted(dice.roll(alleles) for _ in range(ploidy))


def random_orders(large, dice):
    """Genotypes of any ploidy over any alleles, as they are and with one allele changed or two swapped; numbers of
    them, into rows about as long as needed; short lists."""
    for _ in range(8_000 if large else 100):
        ploidy, alleles = 1 + dice.roll(8), 1 + dice.roll(64)
        genotype = random_alleles(dice, ploidy, alleles)
        yield ask("number", alleles, tuple(genotype))
        yield ask("number", genotype[-1] + dice.roll(3), tuple(genotype))
        yield ask("number", alleles, tuple(replaced(genotype, {dice.roll(ploidy): dice.roll(alleles + 2)})))
        first, second = dice.roll(ploidy), dice.roll(ploidy)
        swapped = replaced(genotype, {first: genotype[second], second: genotype[first]})
        yield ask("number", alleles, tuple(swapped))
        value = random_number(dice, how_many(ploidy, alleles) + dice.roll(3))
        yield ask("genotype", value, ploidy, alleles, ploidy + dice.roll(6) - 1)
        few = dice.pick(SHORT_LISTS)
        yield ask("genotypes", *few, max(0, list_length(*few) + dice.roll(6) - 2))
        yield ask("genotypecount", dice.roll(10), dice.roll(67))


def genotype_numbers(large, dice):
    yield from whole_orders(large)
    yield from long_lists(large)
    yield from order_edges(large)
    yield from two_of_many(large)
    yield from about_order_limits(large)
    yield from rows_of_genotypes(large)
    yield from no_genotypes(large)
    yield from random_orders(large, dice)


# ---- bcfwrite and bcfread

# By the bytes of each entry: the largest allele, and the padding.
LARGEST_ALLELES = {1: 62, 2: 16_382, 4: 1_073_741_822}
PADDINGS = {1: b"\x81", 2: b"\x01\x80", 4: b"\x01\x00\x00\x80"}
WIDTHS, WIDER = (1, 2, 4), (2, 4)
PADDING = PADDINGS[1]
TOO_LARGE = LARGEST_ALLELES[4] + 1
# Alleles about the largest of 8 bits, and missing ones; then those about the largest of each width. Of both phasings.
VECTOR_ALLELES = tuple(
    (value, missing, phased) for value, missing in ((0, 0), (1, 0), (62, 0), (63, 0), (0, 1)) for phased in (0, 1)
)
LIMIT_NUMBERS = (62, 63, 16_382, 16_383, 1_073_741_822, 1_073_741_823)
LIMIT_ALLELES = (
    *((value, 0, phased) for value in (0, *LIMIT_NUMBERS) for phased in (0, 1)), (0, 1, 0), (0, 1, 1),
)
# Past the largest of 8 bits: about each limit, and those that would fit in fewer bits if they, one more or twice that
# were cut.
PAST_LARGEST = (
    *range(63, 70), *range(124, 132), *range(188, 194), *range(252, 260), 2**9 - 1, 2**9, *range(2**14 - 5, 2**14 + 5),
    *range(2**15 - 2, 2**15 + 3), *range(2**16 - 2, 2**16 + 3), 2**16 + 62, 2**16 + 63, 2**16 + 16_382, 2**17, 2**24,
    *range(2**30 - 5, 2**30 + 5), *range(2**31 - 2, 2**31 + 3), *range(2**32 - 2, 2**32 + 3), 2**32 + 62, 2**32 + 63,
    2**32 + 16_382, 2**32 + 16_383, 2**32 + 2**30 - 2, 2**62, *range(2**63 - 3, 2**63 + 4), 2**63 + 62, 2**63 + 16_382,
    2**63 + 2**30 - 2, LARGEST - 2, LARGEST - 1, LARGEST,
)
# Widths that the reader may be told: the three, all others about them, and those that would be one if they were cut.
TOLD_WIDTHS = (
    *range(18), 24, 31, 32, 33, 64, 127, 128, 129, *range(255, 262), 512, *range(2**16, 2**16 + 5), 2**31,
    *range(2**32 - 1, 2**32 + 6), *range(2**63 - 1, 2**63 + 5), LARGEST - 3, LARGEST - 1, LARGEST,
)


def bcf_entry(width, value):
    """An entry of a vector, of a number without sign."""
    return value.to_bytes(width, "little")


def bcf_entries(width, values):
    return b"".join(bcf_entry(width, value) for value in values)


def edge_entries(width):
    """Entries at the edges: missing, the lowest and the highest allele, the padding and the negative ones about it."""
    low = 2 ** (8 * width - 1)
    values = (0, 1, 2, 3, low - 2, low - 1, low, low + 1, low + 2, 2 * low - 2, 2 * low - 1)
    return [bcf_entry(width, value) for value in values]


def fewer_entries(width):
    found = edge_entries(width)
    return [found[index] for index in (0, 3, 4, 6, 7, 8, 10)]


# Of 8 bits, so that an entry is a byte.
EDGE_ENTRIES, FEWER_ENTRIES = b"".join(edge_entries(1)), b"".join(fewer_entries(1))


def vectors_of(some, longest):
    """All vectors of up to so many of some entries, with how many these are."""
    for count in range(longest + 1):
        for chosen in itertools.product(some, repeat=count):
            yield count, b"".join(chosen)


def to_vector(length, room, at, alleles):
    """A list to be written as a vector of so many entries."""
    return ask("bcfwrite", length, room, at, *allele_words(alleles))


def entry_size(alleles):
    """The bytes that an entry needs to hold every allele of a list, where one can."""
    most = max((value for value, _, _ in alleles), default=0)
    return next((width for width in WIDTHS if most <= LARGEST_ALLELES[width]), 4)


def lists_to_vectors(large):
    """Every list of up to three alleles (at large: four) into vectors of up to five entries that fill the output;
    shorter lists into an output with a byte before the vector and one behind it, too."""
    for count in range(5 if large else 4):
        for alleles in itertools.product(VECTOR_ALLELES, repeat=count):
            for length in range(6):
                need = length * entry_size(alleles)
                yield to_vector(length, need, 0, alleles)
                if count < (4 if large else 3):
                    yield to_vector(length, need + 2, 1, alleles)


def limits_to_vectors(large):
    """Every list of one or two alleles (at large: three) about the largest of each width, into rooms one byte short,
    filled and longer; then of three (at large: four) of each number, so that the largest is first, last or between."""
    for count in range(1, 4 if large else 3):
        for alleles in itertools.product(LIMIT_ALLELES, repeat=count):
            for length in (count, count + 1):
                need = length * entry_size(alleles)
                for room in (need - 1, need, need + 1):
                    yield to_vector(length, room, 0, alleles)
    for chosen in itertools.product((*LIMIT_NUMBERS, None), repeat=4 if large else 3):
        alleles = [(0, 1, 1) if value is None else (value, 0, index % 2) for index, value in enumerate(chosen)]
        need = len(alleles) * entry_size(alleles)
        yield to_vector(len(alleles), need, 0, alleles)
        yield to_vector(len(alleles) + 2, 2 * need, 1, alleles)


def numbers_to_vectors(large):
    """Each number to past the largest, and far ones: alone, and in each place among others."""
    for value, phased in itertools.product((*range(63), *PAST_LARGEST), (0, 1)):
        allele, other = (value, 0, phased), (62, 0, 1 - phased)
        size = entry_size([allele])
        yield to_vector(2, 2 * size + 2, 1, [allele])
        for alleles in ([allele, other], [other, allele], [other, allele, (0, 1, phased)]) if large or phased else ():
            yield to_vector(4, 4 * size, 0, alleles)


def marks_to_vectors():
    """Marks that are neither 0 nor 1."""
    for missing, phased in itertools.product((0, 1, 2, 3, 127, 128, 254, 255), repeat=2):
        for value in (0, 5, 63, 16_383, TOO_LARGE):
            alleles = [(value, missing, phased), (0, phased, missing)]
            yield to_vector(3, 3 * entry_size(alleles), 0, alleles)


def mixed_vector_faults(large):
    """Lists of every mixture of faults, into vectors too short, filled and longer, into enough room, too little and
    none, and beyond the output: the order of the refusals."""
    choices = ((0, 0), (0, 1), (1, 1), (16_383, 0), (TOO_LARGE, 0), (TOO_LARGE, 2))
    for count in range(5 if large else 4):
        for chosen in itertools.product(choices, repeat=count):
            alleles = [(value, missing, (index + count) % 2) for index, (value, missing) in enumerate(chosen)]
            for length in sorted({max(0, count - 1), count, count + 1, *((0, LARGEST) if large or count < 3 else ())}):
                whole = min(length, 6) * entry_size(alleles)
                for room, at in ((whole + 1, 1), (whole, 1), (whole, whole), (whole, whole + 1), (0, LARGEST)):
                    yield to_vector(length, room, at, alleles)


def vector_rooms(large):
    """Every short length into rooms from none to more than needed, from places to past the output and from far ones."""
    for count, length in itertools.product(range(5), range(7)):
        for room in range(length + 3):
            some = sorted({0, max(0, room - length), room, room + 1})
            for at in range(room + 2) if large or count in (1, 3) else some:
                yield to_vector(length, room, at, VECTOR_ALLELES[:count])
    for at, room in itertools.product(FAR, (0, 3)):
        yield to_vector(2, room, at, [(0, 0, 1)])


def wide_vector_rooms(large):
    """The same of 16 and of 32 bits: rooms about the bytes needed and about the entries, an entry less and one more."""
    for width, count, length in itertools.product(WIDER, (1, 2, 3), range(5)):
        alleles = [*VECTOR_ALLELES[: count - 1], (LARGEST_ALLELES[width], 0, 1)]
        need = length * width
        rooms = {0, length, need - width, need - 1, need, need + 1, need + width}
        for room in range(need + width + 2) if large else sorted(room for room in rooms if room >= 0):
            some = {0, 1, room - need - 1, room - need, room - need + 1, room, room + 1}
            for at in sorted(at for at in some if at >= 0):
                yield to_vector(length, room, at, alleles)
    for width, at, room in itertools.product(WIDER, FAR, (0, 9)):
        yield to_vector(2, room, at, [(LARGEST_ALLELES[width], 0, 1)])


def far_lengths(large):
    """Lengths about each limit, and those that would fit if they, or their bytes, were cut, from the start of an output
    and from places with which they pass the largest number; of lists that may be written, that may not be, and of
    none."""
    lengths = {2**bits + step for bits in (8, 16, 31, 32, 33, 61, 62, 63) for step in (-1, 0, 1, 2)}
    lengths |= {3 * 2**62 + step for step in (-1, 0, 1)} | {LARGEST - step for step in range(6)}
    lengths |= {4_094, 4_095, 4_096, 4_097, 4_098}
    lists = (
        [(0, 0, 0)], [(62, 0, 1), (0, 1, 0)], [(63, 0, 0)], [(16_383, 0, 1), (0, 0, 0)], [(TOO_LARGE, 0, 0)],
        [(0, 0, 0), (7, 1, 0)], [],
    )
    rooms = ((0, 0), (2, 0), (2, 2), (2, 3), (5, 1), (5, 3), (5, LARGEST), (8, 0), *(((300, 3),) if large else ()))
    for length, alleles in itertools.product(sorted(lengths), lists):
        for room, at in rooms:
            yield to_vector(length, room, at, alleles)
    for length, at in (
        (4_095, 0), (4_095, 1), (4_095, 2), (4_096, 0), (4_096, 1), (4_097, 0), (2**16 + 2, 0), (2**32 + 2, 0),
        (LARGEST, 1), (LARGEST - 4_094, 4_095), (1, 4_095), (1, 4_096), (1, 4_097), (2, 4_095), (300, 3_796),
        (300, 3_797),
    ):
        yield to_vector(length, 4_096, at, [(1, 0, 1)])
    yield to_vector(4_096, 4_095, 0, [(1, 0, 1)])


def far_wide_lengths():
    """Of 16 and of 32 bits: lengths about those that fill the longest output, and those of which the bytes would fill
    it, or be few, if they were cut to 64 or to 32 bits."""
    for width in WIDER:
        alleles, full = [(LARGEST_ALLELES[width], 0, 1)], 4_096 // width
        for past, step in itertools.product((0, 2**32 // width, 2**64 // width), (-1, 0, 1)):
            for at in (0, 1, width, 4_096 - width, 4_096):
                yield to_vector(past + full + step, 4_096, at, alleles)
        for past, few in itertools.product((2**32 // width, 2**64 // width, (width - 1) * 2**64 // width), range(4)):
            for room, at in itertools.product((0, 1, width, few * width, few * width + 1), (0, 1)):
                yield to_vector(past + few, room, at, alleles)


def many_to_vectors(large):
    """As many alleles as a case may have, with a fault, with wider ones and without, into vectors about as long and
    longer ones."""
    for count in (15, 16, 32, 62, 63, 64) if large else (16, 63, 64):
        good = [(index, 0, index % 2) if index < 63 else (0, 1, 1) for index in range(count)]
        last, above = count - 1, (TOO_LARGE, 0, 0)
        faults = ({}, {0: above}, {last: above}, {last: (1, 1, 0)}, {0: above, last: (9, 1, 0)})
        wide = ({0: (63, 0, 1)}, {7: (16_382, 0, 0)}, {last: (16_383, 0, 1)}, {8: (16_383, 0, 0), last: (63, 0, 1)})
        for length, changes in itertools.product((0, count - 1, count, count + 1, 100, 300), (*faults, *wide)):
            alleles = replaced(good, changes)
            need = length * entry_size(alleles)
            yield to_vector(length, need + 3, 2, alleles)
            yield to_vector(length, need, 1, alleles)
    for width in WIDTHS:
        for length in (4_096 // width, 4_096 // width + 1):
            yield to_vector(length, 4_096, 0, [(LARGEST_ALLELES[width], 0, 1)] * 64)


def short_vectors(large):
    """Every byte, every two bytes, and all vectors of up to three entries (at large: four) at the edges, longer ones of
    fewer kinds; into rows from none to more than needed."""
    for byte, row in itertools.product(range(256), range(3)):
        yield ask("bcfread", 1, row, bytes([byte]))
    for vector in sequences_of_two():
        for row in (1, 2) if large else (2,):
            yield ask("bcfread", 1, row, vector)
    for vector in short_texts(EDGE_ENTRIES, 4 if large else 3):
        for row in range(len(vector) + 2):
            yield ask("bcfread", 1, row, vector)
    for vector in itertools.product(FEWER_ENTRIES, repeat=4):
        for row in range(6) if large else (3, 4):
            yield ask("bcfread", 1, row, bytes(vector))


def short_wide_vectors(large):
    """All vectors of up to two entries (at large: three) of 16 and of 32 bits at the edges, and of three (at large:
    four) of fewer kinds, into rows from none to more than needed; and each of their bytes reversed, one entry long."""
    for width in WIDER:
        for count, vector in vectors_of(edge_entries(width), 3 if large else 2):
            for row in range(count + 2):
                yield ask("bcfread", width, row, vector)
        for count, vector in vectors_of(fewer_entries(width), 4 if large else 3):
            for row in range(count + 2) if large else (2, 3):
                yield ask("bcfread", width, row, vector)
        for one in edge_entries(width):
            for vector in (one[::-1], bcf_entry(width, 2) + one[::-1], one[::-1] + PADDINGS[width]):
                yield ask("bcfread", width, 2, vector)


def near_entries(width):
    """Entries with one bit alone, all but one, or one bit other than the padding; with bytes of the paddings of other
    widths, and the padding with the highest byte first."""
    bits, ones, padding = 8 * width, 256**width - 1, int.from_bytes(PADDINGS[width], "little")
    found = {value ^ 1 << bit for value in (0, ones, padding) for bit in range(bits)}
    some = {bcf_entry(width, value) for value in found} | {PADDINGS[width][::-1]}
    for pattern in (b"\x80", b"\x81", b"\x00\x80", b"\x01\x80", b"\x02\x80", b"\x80\x01"):
        one = pattern[:width]
        some |= {(pattern * width)[:width], one.ljust(width, b"\x00"), one.rjust(width, b"\x00")}
    return sorted(some)


def entries_in_each_place(large):
    """Each byte in every place of vectors of alleles, of alleles and padding, and of padding."""
    for front, length in ((b"\x02\x03\x04\x05", 4), (b"\x02\x05", 4), (b"\x02", 4), (b"", 4), (b"\x00" * 9, 9)):
        vector = front.ljust(length, PADDING)
        for at, byte in itertools.product(range(length), range(0 if large else 0x7C, 256)):
            yield ask("bcfread", 1, length, vector[:at] + bytes([byte]) + vector[at + 1 :])


def wide_entries_in_each_place(large):
    """The same of entries of 16 and of 32 bits, with those that are almost others."""
    for width in WIDER:
        some, padding = (*edge_entries(width), *near_entries(width)), PADDINGS[width]
        for count in range(4):
            for at, one in itertools.product(range(3), some):
                vector = [bcf_entry(width, 2 + index) for index in range(count)] + [padding] * (3 - count)
                yield ask("bcfread", width, 3, b"".join(replaced(vector, {at: one})))
                if large:
                    yield ask("bcfread", width, count, one + b"".join(replaced(vector, {at: one})))


def numbers_in_vectors(large):
    """Each number of 8 bits, and numbers about each limit, in each width that holds them, so also in wider ones than
    they need: first, and last before padding."""
    for value, width in itertools.product((*range(63), *PAST_LARGEST), WIDTHS):
        for phased in (0, 1) if value <= LARGEST_ALLELES[width] else ():
            one, other = bcf_entry(width, 2 * value + 2 + phased), bcf_entry(width, 4 - phased)
            yield ask("bcfread", width, 2 if large else 1, one)
            yield ask("bcfread", width, 2, other + one + PADDINGS[width])
            if large:
                yield ask("bcfread", width, 3, one + other)


def told_widths(large):
    """Every width told, with bytes that are a vector of one width, of several, of none, or leave a part over in some;
    into rows too short and long enough: 27 goes before 26, and that before 17."""
    vectors = (
        "", "02", "80", "81", "0203", "0281", "8102", "0180", "0080", "020304", "02000180", "02000400", "01000080",
        "02000080", "020003000400", "0200000001000080", "0200000000000080", "0200000000000000", "ff" * 8,
    )
    for width, vector in itertools.product(TOLD_WIDTHS, map(bytes.fromhex, vectors)):
        for row in (0, 1, 2, 8, 64) if large else (0, 8):
            yield ask("bcfread", width, row, vector)


def parts_of_entries(large):
    """Vectors of 16 and of 32 bits with bytes dropped at either end or put behind them, up to a whole entry, into rows
    too short and long enough; and all short texts of the bytes that count."""
    for width, count in itertools.product(WIDER, range(4)):
        for front in range(count + 1):
            vector = bcf_entries(width, range(3, 3 + front)) + PADDINGS[width] * (count - front)
            for length, row in itertools.product(range(1, width + 1), (0, 4)):
                yield ask("bcfread", width, row, vector[:-length])
                yield ask("bcfread", width, row, vector[length:])
                for rest in (b"\x00", b"\x81", b"\xff", PADDINGS[width]):
                    yield ask("bcfread", width, row, vector + (rest * width)[:length])
    for width, text in itertools.product(WIDER, short_texts(b"\x00\x01\x02\x80", 6 if large else 4)):
        for row in (0, 1, 2) if large else (1,):
            yield ask("bcfread", width, row, text)


def vector_rows(large, width):
    """Vectors of up to 66 alleles, with padding and without, into rows about as long as the list and as the vector;
    with a bad entry first, last and behind the padding, which goes before a row too short."""
    low, step = 2 ** (8 * width - 1), {1: 5, 2: 4_999, 4: 700_000_001}[width]
    alleles = [2 + step * index % (low - 2) for index in range(66)]
    counts = (1, 2, 3, 4, 8, 15, 16, 17, 63, 64, 65, 66) if width == 1 else (1, 2, 3, 16, 63, 64, 65)
    for count in range(1, 67) if large else counts:
        front = bcf_entries(width, alleles[:count])
        for pads in (0, 1, 2, 64 - count, 65 - count) if count < 63 else (0, 1, 2):
            vector = front + PADDINGS[width] * pads
            rows = {0, 1, count - 1, count, count + 1, count + pads, 64}
            for row in sorted(row for row in rows if row <= 64):
                yield ask("bcfread", width, row, vector)
            for row in sorted({0, min(count - 1, 64), min(count, 64)}):
                for bad in (bcf_entry(width, low), bcf_entry(width, low + 2), bcf_entry(width, 2 * low - 1)):
                    yield ask("bcfread", width, row, bad + vector)
                    yield ask("bcfread", width, row, vector + bad)
                yield ask("bcfread", width, row, PADDINGS[width] + vector)
                yield ask("bcfread", width, row, vector + PADDINGS[width] + bcf_entry(width, 2))
    for row in (0, 1, 2, 63, 64):
        yield ask("bcfread", width, row, b"")


def long_vectors(large, width):
    """Vectors of more entries than a row has: of 1, 64 and 65 alleles and padding, of padding alone, of alleles alone;
    with another entry first, in the middle, before the last and last."""
    low, padding = 2 ** (8 * width - 1), PADDINGS[width]
    fronts = [[5], [0, low - 1] * 32, [4] * 65, []]
    some = [bcf_entry(width, value) for value in (2, low, low + 1, 2 * low - 1)]
    stored_lengths = (100, 257, 1_000) if width == 1 else (100, 257)
    for length in (100, 255, 256, 257, 1_000, 4_095, 4_096, 4_097, 8_000) if large else stored_lengths:
        padded = (bcf_entries(width, front) + padding * (length - len(front)) for front in fronts)
        for vector in (*padded, bcf_entries(width, [2] * length)):
            yield ask("bcfread", width, 64, vector)
            for at in (0, 1, 64, length // 2, length - 2, length - 1):
                for one in some if large or length == 100 else some[1:2]:
                    yield ask("bcfread", width, 64, vector[: at * width] + one + vector[(at + 1) * width :])


def random_vector_allele(dice, width=1):
    """Nearly always one that fits in a width; half of them in 8 bits."""
    if dice.roll(5) == 0:
        return dice.pick((0, 0, 0, 0, 0, 1)), dice.pick((1, 1, 2, 255)), dice.roll(2)
    largest = LARGEST_ALLELES[width]
    value = dice.pick((dice.roll(63), dice.roll(63), largest, dice.roll(largest + 1), largest - 62 + dice.roll(66)))
    return value, 0, dice.pick((0, 1, 1, 2))


def random_bcf_entries(dice, width, count):
    """Alleles of any number that fits, and of low ones."""
    most = 2 ** (8 * width - 1)
    return bcf_entries(width, [dice.roll(dice.pick((most, most, 0x80))) for _ in range(count)])


def random_vectors(large, dice):
    """Lists into vectors, and vectors into rows, about as long as needed; vectors with a byte changed; any bytes."""
    for _, width in itertools.product(range(8_000 if large else 200), WIDTHS):
        alleles = [random_vector_allele(dice, width) for _ in range(1 + dice.roll(dice.pick((4, 4, 12))))]
        length, at = max(0, len(alleles) + dice.roll(8) - 2), dice.roll(4)
        yield to_vector(length, at + max(0, length * entry_size(alleles) + dice.roll(5) - 1), at, alleles)
        vector = random_bcf_entries(dice, width, len(alleles)) + PADDINGS[width] * dice.roll(4)
        row = max(0, len(alleles) + dice.roll(4) - 1)
        yield ask("bcfread", width, row, vector)
        yield ask("bcfread", width, row, damaged(dice, vector))
        yield ask("bcfread", width, row, damaged(dice, vector, EDGE_ENTRIES))
        yield ask("bcfread", width, dice.roll(6), bytes(dice.roll(256) for _ in range(width * dice.roll(6))))
        few = fewer_entries(width)
        yield ask("bcfread", width, dice.roll(6), b"".join(dice.pick(few) for _ in range(dice.roll(9))))
        yield ask("bcfread", dice.pick(TOLD_WIDTHS), row, vector)


def bcf_vectors(large, dice):
    yield from lists_to_vectors(large)
    yield from limits_to_vectors(large)
    yield from numbers_to_vectors(large)
    yield from marks_to_vectors()
    yield from mixed_vector_faults(large)
    yield from vector_rooms(large)
    yield from wide_vector_rooms(large)
    yield from far_lengths(large)
    yield from far_wide_lengths()
    yield from many_to_vectors(large)
    yield from short_vectors(large)
    yield from short_wide_vectors(large)
    yield from entries_in_each_place(large)
    yield from wide_entries_in_each_place(large)
    yield from numbers_in_vectors(large)
    yield from told_widths(large)
    yield from parts_of_entries(large)
    for width in WIDTHS:
        yield from vector_rows(large, width)
        yield from long_vectors(large, width)
    yield from random_vectors(large, dice)


# ---- the form of a case

NO_CASES = (
    # an unknown verb
    b"", b" ", b"  ", b"-", b"?", b"0", b"x", b"#", b"# 41", b"#utf8 41", b"utf 41", b"utf9 41", b"utf88 41",
    b"UTF8 41", b"Utf8 41", b"utf8-41", b"utf841", b"41 utf8", b"spac 41", b"spaces 41", b"decima 31", b"decimals 31",
    b"prin 5 7", b"printf 5 7", b"\x00", b"\r", b"\t", b"\xff", b"\xc3\xa9", b"\xef\xbb\xbfutf8 41", b"\x00\x00\x00",
    b"utf8\x00",
    # an argument too few or too many
    b"utf8", b"space", b"decimal", b"print", b"print 5", b"print -", b"utf8 41 42", b"utf8 - -", b"space 20 20",
    b"decimal 31 32", b"print 5 7 9", b"print 5 7 -",
    # spaces doubled, before and after
    b" utf8 41", b"utf8  41", b"utf8 41 ", b"utf8 ", b"space ", b"decimal ", b"utf8  ", b"utf8 4 1", b"print ",
    b"print  5 7", b"print 5  7", b"print 5 7 ", b"print 5 ", b"print  7", b" print 5 7",
    # other bytes for spaces, and bytes before the line feed
    b"utf8\t41", b"utf8 41\t", b"utf8 41\r", b"utf8 -\r", b"print 5 7\r", b"utf8 41\x00", b"\x00utf8 41", b"utf8\x0041",
    b"utf8 \x00", b"utf8 41\x0b", b"utf8\xa041", b"utf8 41\x85",
    # hex that is odd, upper case or none
    b"utf8 4", b"utf8 414", b"space 2", b"decimal 3", b"utf8 4A", b"utf8 A4", b"space C2A0", b"decimal 3F", b"utf8 --",
    b"utf8 -41", b"utf8 41-", b"utf8 0x41", b"utf8 +1", b"utf8 -1", b"utf8 4g", b"utf8 g4", b"utf8 4/", b"utf8 4:",
    b"utf8 4`", b"utf8 4@", b"utf8 4G", b"utf8 /4", b"utf8 :4", b"utf8 `4", b"utf8 @4", b"utf8 G4", b"utf8 41 ff",
    b"utf8 \xff\xff", b"utf8 \xc3\xa9", b"utf8 4\x00", b"utf8 \x31\xb1", b"utf8 .", b"utf8 4.",
    # a number that is empty, has a sign or a leading zero, passes its type, or is none
    b"print 05 7", b"print 5 07", b"print 00 7", b"print 5 00", b"print 5 007", b"print +5 7", b"print 5 +7",
    b"print -5 7", b"print 5 -7", b"print - 7", b"print 5 -", b"print 5 +", b"print 5 -0", b"print a 7", b"print 5 a",
    b"print 5 7a", b"print 5a 7", b"print 5 7.0", b"print 5 1e3", b"print 5 0x7", b"print 5 1,000", b"print 5 1_0",
    b"print 5 /", b"print 5 :", b"print / 7", b"print : 7", b"print 5 7/", b"print 5 7:", b"print 4097 7",
    b"print 5000 7", b"print 65536 7", b"print 4294967296 7", b"print 4294967300 7", b"print 18446744073709551615 7",
    b"print 18446744073709551616 7", b"print 18446744073709551621 7", b"print 40 18446744073709551616",
    b"print 40 18446744073709551625", b"print 40 99999999999999999999", b"print 40 184467440737095516150",
    b"print 40 36893488147419103239", b"print 40 340282366920938463463374607431768211463", b"print 40 \xb2",
    b"print 40 \xd9\xa1",
)


# The same of line, field, place, pos and join.
NO_RECORD_CASES = (
    # an unknown verb, an argument too few or too many, spaces
    b"lin - 0", b"lines - 0", b"Line - 0", b"line", b"line -", b"line 0", b"line - 0 0", b"line  - 0", b"line -  0",
    b"line - 0 ", b" line - 0", b"line - ", b"line -\t0", b"line - 0\r", b"fields id - 0", b"fiel id - 0", b"field",
    b"field id", b"field id -", b"field - 0", b"field id - 0 0", b"field id 0", b"field  - 0", b"field id  0",
    b"place", b"places - 0 0", b"plac - 0 0", b"place -", b"place - 0", b"place - 0 0 0", b"place 0 0", b"pos",
    b"po 31", b"poss 31", b"POS 31", b"pos 31 32", b"pos 31 ", b"pos  31", b"pos ", b"join", b"joi 9 0 lf - -",
    b"joins 9 0 lf - -", b"join 9 0 lf -", b"join 9 lf - -", b"join 9 0 lf - - -", b"join 9 0 lf  -", b"join 9 0 lf - ",
    b"join 9 0 lf 61 1 2",
    # no name of a field
    b"field x - 0", b"field - - 0", b"field 0 - 0", b"field 2 - 0", b"field CHROM - 0", b"field Chrom - 0",
    b"field chro - 0", b"field chromo - 0", b"field po - 0", b"field poss - 0", b"field ids - 0", b"field i - 0",
    b"field re - 0", b"field reference - 0", b"field alts - 0", b"field quality - 0", b"field filters - 0",
    b"field infos - 0", b"field forma - 0", b"field sample - 0", b"field sampless - 0", b"field 6964 - 0",
    b"field id\x00 - 0", b"field \x00 - 0", b"field id,alt - 0", b"field \xff - 0",
    # hex that is odd, upper case or none
    b"line 6 0", b"line 6A 0", b"line 0x61 0", b"line -- 0", b"field id 616 0", b"field id 6A 0", b"place 6 0 0",
    b"place 6G 0 0", b"pos 3", b"pos 3A", b"pos +1", b"pos 12345", b"join 9 0 lf 6 0", b"join 9 0 lf 6A 1",
    b"join 9 0 lf 61- 1",
    # a number that is empty, has a sign or a leading zero, passes its type, or is none
    b"line - 00", b"line - 01", b"line - +0", b"line - -0", b"line - -", b"line - -1", b"line - a", b"line - 0a",
    b"line - 18446744073709551616", b"line - 18446744073709551620", b"line - 99999999999999999999", b"line - 0,0",
    b"field id - 00", b"field id - -", b"field id - +1", b"field id - 18446744073709551616", b"place - 00 0",
    b"place - 0 00", b"place - - 0", b"place - 0 -", b"place - +0 0", b"place - 0 +0",
    b"place - 18446744073709551616 0", b"place - 0 18446744073709551616", b"place - 0 36893488147419103232",
    b"join 4097 0 lf - -", b"join 09 0 lf - -", b"join - 0 lf - -", b"join +9 0 lf - -",
    b"join 18446744073709551616 0 lf - -", b"join 9 00 lf - -", b"join 9 - lf - -", b"join 9 -1 lf - -",
    b"join 9 18446744073709551616 lf - -",
    # ends
    b"join 9 0 lf - ,", b"join 9 0 lf - 0,", b"join 9 0 lf - ,0", b"join 9 0 lf - 0,,0", b"join 9 0 lf - 0,-",
    b"join 9 0 lf - -,0", b"join 9 0 lf - --", b"join 9 0 lf - -,-", b"join 9 0 lf - 00", b"join 9 0 lf - 0,00",
    b"join 9 0 lf - 00,0", b"join 9 0 lf - 1,02", b"join 9 0 lf - +0", b"join 9 0 lf - -0", b"join 9 0 lf - 0,+0",
    b"join 9 0 lf - 0;0", b"join 9 0 lf - 0.0", b"join 9 0 lf - 0 ,0", b"join 9 0 lf - 0, 0", b"join 9 0 lf - a",
    b"join 9 0 lf - 0,a", b"join 9 0 lf - 0,1a", b"join 9 0 lf - 0,\xff", b"join 9 0 lf - 0\x00",
    b"join 9 0 lf - 18446744073709551616", b"join 9 0 lf - 0,18446744073709551616",
    b"join 9 0 lf - 18446744073709551616,0",
    # one too many, the last of as many as may be none
    b"join 9 0 lf - 0" + b",0" * 1_024, b"join 9 0 lf - 0" + b",0" * 1_022 + b",x", b"join 9 0 lf - 0" + b",0" * 2_000,
)


# The same of info, find, value, scan, count, samples, walk, sample, key and subfield.
NO_INFO_CASES = (
    # an unknown verb, an argument too few or too many, spaces
    b"inf 61 0", b"infos 61 0", b"Info 61 0", b"info", b"info 61", b"info 0", b"info 61 0 0", b"info  61 0",
    b"info 61  0", b"info 61 0 ", b" info 61 0", b"info 61 ", b"info 61 0\r", b"info\t61 0", b"fin 61 61",
    b"finds 61 61", b"find", b"find 61", b"find 61 61 61", b"find 61 61 0", b"find 61  61", b"find 61 ", b"find  61",
    b"values 61 61", b"valu 61 61", b"value", b"value 61", b"value 61 61 61", b"value 61 ", b"sca 61", b"scans 61",
    b"scan", b"scan ", b"scan 61 0", b"scan - -", b"counts 61", b"coun 61", b"count", b"count ", b"count 61 61",
    b"sampl 61 0", b"samples", b"samples 61 0", b"samples 61 ", b"sample", b"sample 61", b"sample 0", b"sample 61 0 0",
    b"sample 61  0", b"walks 61", b"wal 61", b"walk", b"walk 61 0", b"walk ", b"ke 61 61", b"keys 61 61", b"key",
    b"key 61", b"key 61 61 61", b"key 61 ", b"subfields 61 0", b"subfiel 61 0", b"subfield", b"subfield 61",
    b"subfield 61 0 0", b"subfield  0",
    # hex that is odd, upper case or none
    b"info 6 0", b"info 6A 0", b"info 613 0", b"info -- 0", b"info 0x61 0", b"info a=b 0", b"find 6 61", b"find 61 6",
    b"find 6A 61", b"find 61 6A", b"find 61 --", b"find -- 61", b"find 61 a", b"value 616 61", b"value 61 616",
    b"value 61 6G", b"scan 6", b"scan 6A", b"scan 61-", b"count 3b3", b"count 3B", b"count 0", b"samples 0",
    b"samples 9", b"samples 0A", b"walk 6", b"walk 6A", b"walk 61,62", b"sample 6 0", b"sample 6A 0", b"key 6 61",
    b"key 61 6", b"key 6A 61", b"key GT GT", b"subfield 3 0", b"subfield 3A 0", b"subfield 0 0",
    # a number that is empty, has a sign or a leading zero, passes its type, or is none
    b"info 61 00", b"info 61 01", b"info 61 +0", b"info 61 -0", b"info 61 -", b"info 61 -1", b"info 61 a",
    b"info 61 0a", b"info 61 0,0", b"info 61 18446744073709551616", b"info 61 18446744073709551625",
    b"info 61 99999999999999999999", b"info 61 \xb2", b"sample 61 00", b"sample 61 +0", b"sample 61 -", b"sample 61 -1",
    b"sample 61 a", b"sample 61 18446744073709551616", b"sample 61 36893488147419103232", b"subfield 61 00",
    b"subfield 61 01", b"subfield 61 +0", b"subfield 61 -", b"subfield 61 0x0", b"subfield 61 18446744073709551616",
    b"subfield 61 99999999999999999999",
)


# The same of the verbs on genotypes.
NO_GENOTYPE_CASES = (
    # an unknown verb, an argument too few or too many, spaces
    b"rea 2 30", b"reads 2 30", b"Read 2 30", b"read", b"read 2", b"read 30", b"read 2 30 30", b"read  2 30",
    b"read 2  30", b"read 2 30 ", b" read 2 30", b"read 2 ", b"read 2 30\r", b"readalts 2 30 41", b"readal 2 30 41",
    b"readalt", b"readalt 2 30", b"readalt 2 30 41 43", b"readalt 2 30 ", b"readalt 2  41", b"unequals 1 1 1 30",
    b"unequal", b"unequal 1 1 30", b"unequal 1 1 1", b"unequal 1 1 1 1 30", b"unequal 1 1 1 30 30", b"allele 2 30",
    b"alleless 2 30", b"alleles", b"alleles 2", b"alleles 2 30 41", b"allelesal 2 30 41", b"allelesalt",
    b"allelesalt 2 30", b"allelesalt 2 30 41 43", b"writ 4 4 9 0 0:0:1", b"writes 4 4 9 0 0:0:1", b"write",
    b"write 4 4 9 0", b"write 4 4 9 0 ", b"write 4 4 9 0:0:1", b"write 4 9 0 0:0:1", b"write 4.4 9 0 0:0:1",
    b"write 4 4 9 0  0:0:1", b"write 4 4 9 0 0:0:1 ", b"write 4 4 9 0 0:0:1  0:0:1", b"write 4 4 9 0 0:0:1\r",
    b"writeunequals 1 1 1 9", b"writeunequa 1 1 1 9", b"writeunequal", b"writeunequal 1 1 1", b"writeunequal 1 1 1 9 9",
    b"writeunequal 1 1 1 9 -", b"writeallele 4 4 9 0 0:0:1", b"writealleless 4 4 9 0 0:0:1", b"writealleles",
    b"writealleles 4 4 9 0", b"writealleles 4 4 9 0 ",
    # hex that is odd, upper case or none
    b"read 2 3", b"read 2 3A", b"read 2 0|1", b"read 2 --", b"read 2 0x30", b"readalt 2 3 41", b"readalt 2 30 4",
    b"readalt 2 30 4A", b"readalt 2 30 A,C", b"unequal 1 1 1 3", b"unequal 1 1 1 3A", b"unequal 1 1 1 0",
    b"alleles 2 3", b"alleles 2 3A", b"allelesalt 2 3 41", b"allelesalt 2 30 4", b"allelesalt 2 -- 41",
    # a number that is empty, has a sign or a leading zero, passes its type, or is none
    b"read 65 30", b"read 02 30", b"read 00 30", b"read +2 30", b"read - 30", b"read -1 30", b"read a 30",
    b"read 2a 30", b"read 64.0 30", b"read 66 30", b"read 128 30", b"read 256 30", b"read 4294967296 30",
    b"read 18446744073709551616 30", b"readalt 65 30 41", b"readalt 02 30 41", b"readalt - 30 41", b"alleles 65 30",
    b"alleles 02 30", b"alleles 18446744073709551618 30", b"allelesalt 65 30 41", b"unequal 65 1 1 30",
    b"unequal 1 65 1 30", b"unequal 1 1 65 30", b"unequal 65 65 65 30", b"unequal 01 1 1 30", b"unequal 1 01 1 30",
    b"unequal 1 1 01 30", b"unequal - 1 1 30", b"unequal 1 - 1 30", b"unequal 1 1 - 30", b"unequal 1 1 +1 30",
    b"write 4294967296 4 9 0 0:0:1", b"write 4 4294967296 9 0 0:0:1", b"write 04 4 9 0 0:0:1", b"write 4 04 9 0 0:0:1",
    b"write +4 4 9 0 0:0:1", b"write - 4 9 0 0:0:1", b"write 4 - 9 0 0:0:1", b"write v4 4 9 0 0:0:1",
    b"write 4 4 4097 0 0:0:1", b"write 4 4 09 0 0:0:1", b"write 4 4 - 0 0:0:1", b"write 4 4 9 - 0:0:1",
    b"write 4 4 9 00 0:0:1", b"write 4 4 9 18446744073709551616 0:0:1", b"write 18446744073709551620 4 9 0 0:0:1",
    b"writealleles 4294967296 4 9 0 0:0:1", b"writealleles 4 4294967296 9 0 0:0:1", b"writealleles 4 4 4097 0 0:0:1",
    b"writealleles 4 4 9 01 0:0:1", b"writeunequal 01 1 1 9", b"writeunequal 1 01 1 9", b"writeunequal 1 1 01 9",
    b"writeunequal - 1 1 9", b"writeunequal 1 1 1 4097", b"writeunequal 1 1 1 09", b"writeunequal 1 1 1 -",
    # alleles
    b"write 4 4 9 0 0", b"write 4 4 9 0 0:0", b"write 4 4 9 0 0:0:", b"write 4 4 9 0 :0:0", b"write 4 4 9 0 0::0",
    b"write 4 4 9 0 ::", b"write 4 4 9 0 0:0:0:0", b"write 4 4 9 0 0:0:0:", b"write 4 4 9 0 0:0:256",
    b"write 4 4 9 0 0:256:0", b"write 4 4 9 0 00:0:0", b"write 4 4 9 0 0:00:0", b"write 4 4 9 0 0:0:01",
    b"write 4 4 9 0 +1:0:0", b"write 4 4 9 0 -1:0:0", b"write 4 4 9 0 -:0:0", b"write 4 4 9 0 .:1:0",
    b"write 4 4 9 0 0:-:0", b"write 4 4 9 0 0:0:a", b"write 4 4 9 0 0,0,0", b"write 4 4 9 0 0:0:1,0:0:1",
    b"write 4 4 9 0 18446744073709551616:0:0", b"write 4 4 9 0 0:18446744073709551616:0", b"write 4 4 9 0 - -",
    b"write 4 4 9 0 - 0:0:1", b"write 4 4 9 0 0:0:1 -", b"write 4 4 9 0 --", b"write 4 4 9 0 0:0:1 0:0",
    b"write 4 4 9 0 0:0:1 0:0:256", b"write 4 4 9 0 0:0:1 x", b"write 4 4 9 0 0:0:1\x00", b"writealleles 4 4 9 0 0:0",
    b"writealleles 4 4 9 0 0:0:", b"writealleles 4 4 9 0 0:0:0:0", b"writealleles 4 4 9 0 0:0:00",
    b"writealleles 4 4 9 0 0:+1:0", b"writealleles 4 4 9 0 0:true:0", b"writealleles 4 4 9 0 18446744073709551616:0:0",
    b"writealleles 4 4 9 0 0:18446744073709551616:0", b"writealleles 4 4 9 0 0:0:18446744073709551616",
    b"writealleles 4 4 9 0 - -", b"writealleles 4 4 9 0 0:0:1 -",
    # one too many, the last of as many as may be none
    b"write 4 4 200 0" + b" 0:0:1" * 65, b"writealleles 4 4 200 0" + b" 0:0:1" * 65,
    b"write 4 4 200 0" + b" 0:0:1" * 63 + b" 0:0:x", b"write 4 4 200 0" + b" 0:0:1" * 1_000,
)


# The same of filters and alts.
NO_LIST_CASES = (
    # an unknown verb, an argument too few or too many, spaces
    b"filter 9 0 61 1", b"filterss 9 0 61 1", b"Filters 9 0 61 1", b"filters", b"filters 9", b"filters 9 0",
    b"filters 9 0 61", b"filters 9 61 1", b"filters 9 0 61 1 2", b"filters 9 0 61 1 -", b"filters  9 0 61 1",
    b"filters 9 0  1", b"filters 9 0 61 ", b"filters 9 0 61 1 ", b" filters 9 0 61 1", b"filters 9 0 61 1\r",
    b"alt 9 0 61 1", b"altss 9 0 61 1", b"ALTS 9 0 61 1", b"alts", b"alts 9 0 61", b"alts 9 0 61 1 1",
    b"alts 9 0 61  1", b"alts 9 0 - ", b"alts\t9 0 61 1",
    # hex that is odd, upper case or none
    b"filters 9 0 6 1", b"filters 9 0 6A 1", b"filters 9 0 PASS 1", b"filters 9 0 -- -", b"filters 9 0 . -",
    b"alts 9 0 6 1", b"alts 9 0 3C3E 2", b"alts 9 0 <> 2", b"alts 9 0 61- 1",
    # a number that is empty, has a sign or a leading zero, passes its type, or is none
    b"filters 4097 0 61 1", b"filters 09 0 61 1", b"filters - 0 61 1", b"filters +9 0 61 1", b"filters 9 00 61 1",
    b"filters 9 - 61 1", b"filters 9 -1 61 1", b"filters 9 18446744073709551616 61 1",
    b"filters 18446744073709551625 0 61 1", b"alts 4097 0 61 1", b"alts 9 01 61 1", b"alts a 0 61 1", b"alts 9 a 61 1",
    b"alts 9 18446744073709551616 61 1",
    # ends
    b"filters 9 0 61 ,", b"filters 9 0 61 1,", b"filters 9 0 61 ,1", b"filters 9 0 61 0,,1", b"filters 9 0 61 01",
    b"filters 9 0 61 +1", b"filters 9 0 61 0;1", b"filters 9 0 61 -,1", b"filters 9 0 61 --", b"filters 9 0 61 0, 1",
    b"filters 9 0 61 a", b"filters 9 0 61 18446744073709551616", b"alts 9 0 61 ,", b"alts 9 0 61 1,",
    b"alts 9 0 61 0,01", b"alts 9 0 61 1,-", b"alts 9 0 61 -1", b"alts 9 0 61 1,18446744073709551616",
    b"alts 9 0 61 0x1",
    # one too many, the last of as many as may be none
    b"filters 9 0 - 0" + b",0" * 1_024, b"alts 9 0 - 0" + b",0" * 1_024, b"alts 9 0 - 0" + b",0" * 1_022 + b",x",
)


# The same of gtstep.
NO_STEP_CASES = (
    # an unknown verb, an argument too few or too many, spaces
    b"gtste 30 0", b"gtsteps 30 0", b"GTSTEP 30 0", b"gt 30 0", b"step 30 0", b"gtstep", b"gtstep ", b"gtstep 30",
    b"gtstep 30 ", b"gtstep 0", b"gtstep 30 0 0", b"gtstep 30 0 ", b"gtstep  30 0", b"gtstep 30  0", b" gtstep 30 0",
    b"gtstep 30 0\r", b"gtstep\t30 0", b"gtstep 0 30 30",
    # hex that is odd, upper case or none
    b"gtstep 3 0", b"gtstep 307C31 0", b"gtstep 0|1 0", b"gtstep -- 0", b"gtstep 0x30 0", b"gtstep 30- 0", b"gtstep . 0",
    # a number that is empty, has a sign or a leading zero, passes its type, or is none
    b"gtstep 30 00", b"gtstep 30 01", b"gtstep 30 +0", b"gtstep 30 -0", b"gtstep 30 -", b"gtstep 30 -1", b"gtstep 30 a",
    b"gtstep 30 0a", b"gtstep 30 0,0", b"gtstep - 18446744073709551616", b"gtstep 30 18446744073709551616",
    b"gtstep 30 18446744073709551625", b"gtstep 30 99999999999999999999", b"gtstep 30 36893488147419103232",
)


# The same of altcount.
NO_ALT_CASES = (
    # an unknown verb, an argument too few or too many, spaces
    b"altcoun 41", b"altcounts 41", b"altscount 41", b"alt 41", b"acount 41", b"ltcount 41", b"alt count 41",
    b"altcount41", b"ALTCOUNT 41", b"Altcount 41", b"altCount 41", b"alt_count 41", b"altcount", b"altcount ",
    b"altcount  ", b"altcount 41 43", b"altcount 41 0", b"altcount - -", b"altcount 41 -", b"altcount 2 41",
    b"altcount  41", b"altcount 41 ", b" altcount 41", b"altcount 41\r", b"altcount\t41", b"altcount 41\x00",
    b"altcount\x00", b"altcount 4 1", b"alts 41", b"readalt 41",
    # hex that is odd, upper case or none
    b"altcount 4", b"altcount 412", b"altcount 2C", b"altcount 2E", b"altcount 412C43", b"altcount 4g", b"altcount .",
    b"altcount ,", b"altcount A,C", b"altcount A", b"altcount *", b"altcount <DEL>", b"altcount --", b"altcount -2e",
    b"altcount 2e-", b"altcount 0x2e", b"altcount 41,43", b"altcount 0", b"altcount \xff\xff",
)


# The same of the ending that join has, and no other verb.
NO_ENDING_CASES = (
    # none at all, one too many, one in another place
    b"join 9 0 - -", b"join 9 0 61 1", b"join 9 0  61 1", b"join 9 0 lf", b"join lf", b"join 9 0 lf lf 61 1",
    b"join 9 0 cr lf 61 1", b"join 9 0 lf none 61 1", b"join lf 9 0 61 1", b"join 9 lf 0 61 1", b"join 9 0 61 lf 1",
    b"join 9 0 61 1 lf", b"join 9 0 lf  61 1", b"join 9 0  lf 61 1", b"join 9 0 lf\t61 1", b"line lf - 0",
    b"line - lf 0", b"line - 0 lf", b"line - lf", b"filters 9 0 lf 61 1", b"alts 9 0 lf 61 1", b"lf", b"crlf 61",
    # no word for an ending
    *(
        b"join 9 0 %s 61 1" % word
        for word in (
            b"LF", b"Lf", b"lF", b"CRLF", b"CrLf", b"crLF", b"NONE", b"None", b"cr", b"CR", b"l", b"f", b"c", b"crl",
            b"rlf", b"clf", b"n", b"no", b"non", b"one", b"nones", b"nonee", b"nnone", b"lff", b"llf", b"lfx", b"xlf",
            b"lfcr", b"lflf", b"crlff", b"crlfx", b"ccrlf", b"crcrlf", b"crlflf", b"nonelf", b"lfnone", b"cr+lf",
            b"cr,lf", b"lf,", b"nl", b"eol", b"eof", b"end", b"absent", b"0", b"1", b"2", b"-", b"--", b".", b"0a",
            b"0d", b"0d0a", b"6c66", b"\\n", b"\\r\\n", b"\r", b"lf\r", b"\x00", b"lf\x00", b"\x00lf", b"l\x00f",
            b"\xff", b"lf\xff", b"mf", b"lg", b"crle", b"nond",
        )
    ),
)


# Lines in the two forms, of one byte in each field.
GOOD_ENDS = b"0 1 3 5 7 9 11 13 15 17 19"
GOOD_PLACES = b"0 1 2 1 4 1 6 1 8 1 10 1 12 1 14 1 16 1 18 1"


def with_bad_numbers():
    """A number that passes its type or is empty, in each place; others that are none, first, in the middle and last."""
    passing, others = (b"18446744073709551616", b""), (
        b"18446744073709551625", b"36893488147419103233", b"340282366920938463463374607431768211457", b"00", b"01",
        b"+1", b"-1", b"-", b"a", b"1a", b"1.0", b"1,1", b"0x1", b"lf", b"\xff",
    )
    for verb, good in ((b"widen", GOOD_ENDS), (b"narrow", GOOD_PLACES)):
        numbers = good.split(b" ")
        for index in range(len(numbers)):
            edge = index in (0, len(numbers) // 2, len(numbers) - 1)
            for bad in (*passing, *others) if edge else passing:
                yield b"%s lf %s" % (verb, b" ".join(replaced(numbers, {index: bad})))


# The same of small, widen and narrow.
NO_FORM_CASES = (
    # an unknown verb, an argument too few or too many, spaces
    b"smal - 0", b"smalls - 0", b"smaller - 0", b"Small - 0", b"SMALL - 0", b"small", b"small ", b"small -", b"small 0",
    b"small - ", b"small - 0 0", b"small - 0 ", b"small  - 0", b"small -  0", b" small - 0", b"small - 0\r",
    b"small\t- 0", b"small lf - 0", b"small - lf 0", b"small - 0 lf", b"small 0 -", b"small lf " + GOOD_ENDS,
    *(
        line % (verb, good)
        for verb, good in ((b"widen", GOOD_ENDS), (b"narrow", GOOD_PLACES))
        for line in (
            b"%ss lf %s", b"x%s lf %s", b"%s %s", b"%s lf %s 20", b"%s lf 0 %s", b"%s lf lf %s", b"%s  lf %s",
            b"%s lf  %s", b" %s lf %s", b"%s lf %s ", b"%s lf %s\r", b"%s lf\t%s", b"%s\tlf %s", b"%s lf -%s",
        )
    ),
    b"wide lf " + GOOD_ENDS, b"Widen lf " + GOOD_ENDS, b"WIDEN lf " + GOOD_ENDS, b"widen", b"widen ", b"widen lf",
    b"widen lf ", b"widen lf -", b"widen - 0", b"widen lf " + GOOD_ENDS[:-3], b"widen lf " + GOOD_ENDS[2:],
    b"widen lf " + GOOD_ENDS.replace(b" ", b","), b"widen %s lf" % GOOD_ENDS, b"widen lf " + GOOD_PLACES,
    b"narro lf " + GOOD_PLACES, b"Narrow lf " + GOOD_PLACES, b"NARROW lf " + GOOD_PLACES, b"narrow", b"narrow ",
    b"narrow lf", b"narrow lf ", b"narrow lf -", b"narrow - 0", b"narrow lf " + GOOD_PLACES[:-2],
    b"narrow lf " + GOOD_PLACES[:-5], b"narrow lf " + GOOD_PLACES[2:], b"narrow lf " + GOOD_PLACES.replace(b" ", b","),
    b"narrow lf %s %s" % (GOOD_PLACES, GOOD_PLACES), b"narrow %s lf" % GOOD_PLACES, b"narrow lf " + GOOD_ENDS,
    # hex that is odd, upper case or none
    b"small 6 0", b"small 6A 0", b"small 616 0", b"small 0x61 0", b"small -- 0", b"small 61- 0", b"small . 0",
    # no word for an ending
    *(
        b"%s %s %s" % (verb, word, good)
        for verb, good in ((b"widen", GOOD_ENDS), (b"narrow", GOOD_PLACES))
        for word in (
            b"LF", b"Lf", b"CRLF", b"NONE", b"None", b"cr", b"l", b"crl", b"rlf", b"non", b"nones", b"lff", b"lfx",
            b"xlf", b"lfcr", b"crlff", b"nonelf", b"lf,", b"0", b"1", b"2", b"3", b"-", b"", b"0a", b"0d0a", b"\r",
            b"lf\x00", b"\x00", b"\xff", b"mf", b"crle", b"nond",
        )
    ),
    # a number that is empty, has a sign or a leading zero, passes its type, or is none
    b"small - 00", b"small - 01", b"small - +0", b"small - -0", b"small - -", b"small - -1", b"small - a",
    b"small - 0a", b"small - 18446744073709551616", b"small - 99999999999999999999", b"small 61 18446744073709551625",
    *with_bad_numbers(),
)


# The same of plain.
NO_PLAIN_CASES = (
    # an unknown verb, an argument too few or too many, spaces
    b"plai - 0", b"plains - 0", b"plainer - 0", b"plan - 0", b"lain - 0", b"xplain - 0", b"Plain - 0", b"PLAIN - 0",
    b"plaim - 0", b"plainline - 0", b"plain", b"plain ", b"plain -", b"plain 0", b"plain - ", b"plain - 0 0",
    b"plain - 0 ", b"plain  - 0", b"plain -  0", b" plain - 0", b"plain - 0\r", b"plain\t- 0", b"plain -\t0",
    b"plain-0", b"plain -0", b"plain lf - 0", b"plain - lf 0", b"plain - 0 lf", b"plain - lf", b"plain 0 -",
    b"plain id - 0", b"plain line - 0", b"line plain - 0", b"plain 0 1 2 1 4 1",
    # hex that is odd, upper case or none
    b"plain 6 0", b"plain 6A 0", b"plain 616 0", b"plain 0x61 0", b"plain -- 0", b"plain 61- 0", b"plain . 0",
    b"plain 6g 0", b"plain \xff\xff 0",
    # a number that is empty, has a sign or a leading zero, passes its type, or is none
    b"plain - 00", b"plain - 01", b"plain - +0", b"plain - -0", b"plain - -", b"plain - -1", b"plain - a",
    b"plain - 0a", b"plain - 0,0", b"plain - 1.0", b"plain - 0x0", b"plain - 18446744073709551616",
    b"plain - 99999999999999999999", b"plain 61 18446744073709551625", b"plain 61 36893488147419103232",
)


# The verbs on the numbers of genotypes, each with good arguments.
GOOD_NUMBERINGS = (b"number 2 0,1", b"genotype 1 2 2 2", b"genotypes 2 2 6", b"genotypecount 2 2")


def without_form(line, numbers, bad, more):
    """A good case with each of its first `numbers` arguments, which are numbers alone, replaced by one that is none; an
    argument less, one more, spaces."""
    verb, *arguments = line.split(b" ")
    for index in range(len(arguments)):
        yield b" ".join((verb, *arguments[:index], *arguments[index + 1 :]))
        for other in bad if index < numbers else ():
            yield b" ".join((verb, *replaced(arguments, {index: other})))
    for rest in more:
        yield line + rest
    for front in (verb, verb + b" ", verb + b"  ", verb + b" -", b" " + line, line.replace(b" ", b"  ", 1)):
        yield front
    yield line.replace(b" ", b"\t", 1)
    yield line.replace(b" ", b"", 1)


def with_bad_numberings():
    bad = (
        b"", b"00", b"01", b"02", b"+2", b"-2", b"-", b"--", b"a", b"2a", b"2.0", b"2,2", b"0x2", b"2e0", b"\xff",
        b"\xb2", b"2\x00", b"2\r", b"2\t", b"18446744073709551616", b"18446744073709551618", b"36893488147419103234",
        b"99999999999999999999", b"340282366920938463463374607431768211458",
    )
    for line, numbers in zip(GOOD_NUMBERINGS, (1, 4, 3, 2)):
        yield from without_form(line, numbers, bad, (b" 2", b" -", b" 0,1", b" ", b" 2 2", b"\r", b"\x00"))


# The same of number, genotype, genotypes and genotypecount.
NO_NUMBER_CASES = (
    # an unknown verb
    b"numbe 2 0,1", b"numbers 2 0,1", b"Number 2 0,1", b"NUMBER 2 0,1", b"umber 2 0,1", b"xnumber 2 0,1",
    b"numberof 2 0,1", b"number_of 2 0,1", b"numbes 2 0,1", b"genotyp 1 2 2 2", b"Genotype 1 2 2 2",
    b"GENOTYPE 1 2 2 2", b"enotype 1 2 2 2", b"genotypf 1 2 2 2", b"genotypex 1 2 2 2", b"genotype1 2 2 2",
    b"genotypess 2 2 6", b"Genotypes 2 2 6", b"GENOTYPES 2 2 6", b"genotypet 2 2 6", b"genotypec 2 2",
    b"genotypecoun 2 2", b"genotypecounts 2 2", b"genotypescount 2 2", b"genotypeCount 2 2", b"genotype-count 2 2",
    b"GENOTYPECOUNT 2 2", b"genotypecounu 2 2", b"countgenotypes 2 2", b"list 2 2 6", b"number genotype 1 2 2 2",
    # a verb with the arguments of another
    b"number 1 2 2 2", b"number 2 2 6", b"genotype 2 0,1", b"genotype 2 2 6", b"genotype 2 2", b"genotypes 2 0,1",
    b"genotypes 1 2 2 2", b"genotypes 2 2", b"genotypecount 2 0,1", b"genotypecount 2 2 6", b"genotypecount 1 2 2 2",
    # alleles that are none, or are written otherwise
    *(
        b"number 2 " + genotype
        for genotype in (
            b",", b"0,", b",0", b"0,,1", b"0,1,", b",0,1", b",,", b"-,0", b"0,-", b"-,-", b"--", b"0 1", b"0, 1",
            b"0 ,1", b"00", b"00,1", b"0,00", b"0,01", b"01,1", b"+0", b"0,+1", b"-0", b"0,-1", b"-1", b"a", b"0,a",
            b"a,1", b"0,1a", b"0,0x1", b"0;1", b"0:1", b"0.1", b".", b".,0", b"0/1", b"0|1", b"/0", b"0,1\r", b"0\t1",
            b"0,\xff", b"\xff,1", b"0\x001", b"0,1\x00", b"18446744073709551616", b"0,18446744073709551616",
            b"18446744073709551616,0", b"0,36893488147419103233", b"0,99999999999999999999", b"[0,1]", b"(0,1)",
        )
    ),
    # the two arguments swapped, one of them alone, alleles twice, and for the allele count
    b"number 0,1 2", b"number 0,1", b"number 2 0,1 0,1", b"number - 0,1", b"number 2,2 0,1",
    # one too many, the last of as many as may be none, and a row that is too long
    b"number 2 0" + b",0" * 64, b"number 2 0" + b",0" * 62 + b",x", b"number 2 0" + b",0" * 63 + b",",
    b"number 0 0" + b",0" * 64, b"number 64 0" + b",0" * 1_000, b"number 2 18446744073709551615" + b",0" * 64,
    b"genotype 1 2 2 4097", b"genotype 1 2 2 5000", b"genotype 1 2 2 65536", b"genotype 1 2 2 4294967298",
    b"genotype 1 2 2 18446744073709551615", b"genotype 9 9 9 4097", b"genotypes 2 2 4097", b"genotypes 2 2 5000",
    b"genotypes 2 2 65542", b"genotypes 2 2 4294967302", b"genotypes 2 2 18446744073709551615", b"genotypes 0 0 4097",
    *with_bad_numberings(),
)


# The two verbs on BCF, each with good arguments.
GOOD_BCF_CASES = (b"bcfwrite 2 2 0 0:0:1", b"bcfread 1 2 02")


def with_bad_bcf_numbers():
    bad = (
        b"", b"00", b"01", b"02", b"+2", b"-2", b"-", b"--", b"a", b"2a", b"2.0", b"2,2", b"2:0:0", b"0x2", b"2e0",
        b"\xff", b"\xb2", b"2\x00", b"2\r", b"2\t", b"18446744073709551616", b"18446744073709551618",
        b"36893488147419103234", b"99999999999999999999", b"340282366920938463463374607431768211458",
    )
    for line, numbers in zip(GOOD_BCF_CASES, (3, 2)):
        yield from without_form(line, numbers, bad, (b" 02", b" -", b" ", b"  ", b" 2 2", b" x", b"\r", b"\x00"))


# The same of bcfwrite and bcfread.
NO_BCF_CASES = (
    # an unknown verb
    b"bcfwrit 2 2 0 0:0:1", b"bcfwrites 2 2 0 0:0:1", b"bcfwritf 2 2 0 0:0:1", b"Bcfwrite 2 2 0 0:0:1",
    b"BCFWRITE 2 2 0 0:0:1", b"bcfWrite 2 2 0 0:0:1", b"bcf_write 2 2 0 0:0:1", b"bcf write 2 2 0 0:0:1",
    b"cfwrite 2 2 0 0:0:1", b"xbcfwrite 2 2 0 0:0:1", b"bcfwriteunequal 1 1 1 9", b"bcfwritealleles 2 2 0 0:0:1",
    b"bcfrea 1 2 02", b"bcfreads 1 2 02", b"bcfreae 1 2 02", b"Bcfread 1 2 02", b"BCFREAD 1 2 02", b"bcfRead 1 2 02",
    b"bcf_read 1 2 02", b"bcf read 1 2 02", b"cfread 1 2 02", b"xbcfread 1 2 02", b"bcfreadalt 1 2 02 41",
    b"bcf 1 2 02", b"bcf 2 2 0 0:0:1", b"vcfread 1 2 02", b"bcgread 1 2 02", b"write 2 2 0 0:0:1",
    b"bcfunequal 1 1 1 02", b"bcfread1 2 02", b"bcfread8 2 02", b"bcfread16 2 0200", b"bcfwrite1 2 2 0 0:0:1",
    # a verb with the arguments of another, without the width, or with one where none is told
    b"bcfwrite 2 02", b"bcfwrite 4 4 2 0 0:0:1", b"bcfwrite 4.4 2 0 0:0:1", b"bcfwrite 1 2 2 0 0:0:1",
    b"bcfwrite 1 2 2 0 -", b"bcfwrite 1 2 02", b"bcfread 2 2 0 0:0:1", b"bcfread 1 2 0:0:1", b"bcfread 2 0:0:1",
    b"bcfread 02 2", b"bcfread 1 02 2", b"bcfread 02 1 2", b"bcfread 1 2", b"bcfread 2 02", b"bcfread 1 02",
    b"bcfread 64 02", b"bcfread 2 -", b"bcfread 2", b"bcfread 02", b"bcfread -", b"bcfread - -", b"bcfread - - -",
    b"bcfread 1 2 02 41", b"bcfread 1 1 2 02", b"bcfread 1 2 02 1",
    # a width that is no number
    *(
        b"bcfread %s 2 0200" % width
        for width in (
            b"w8", b"w16", b"8bit", b"1b", b"one", b"int8", b"i16", b"u8", b"1/2", b"1:2", b"1,2", b"1.", b"1.5", b".",
            b"001", b"04", b"+1", b"-1", b"-4", b"0x1", b"0x4", b"1_0", b"1e0", b"\xc2\xb2", b"02000000",
        )
    ),
    # hex that is odd, upper case or none
    b"bcfread 1 2 0", b"bcfread 1 2 020", b"bcfread 1 2 7F", b"bcfread 1 2 7G", b"bcfread 1 2 7g", b"bcfread 1 2 0x02",
    b"bcfread 1 2 --", b"bcfread 1 2 02-", b"bcfread 1 2 -02", b"bcfread 1 2 02,04", b"bcfread 1 2 0|1",
    b"bcfread 1 2 .", b"bcfread 1 2 \x81\x81", b"bcfread 1 2 \xff", b"bcfread 2 2 020", b"bcfread 2 2 02000",
    b"bcfread 4 2 0200000", b"bcfread 2 2 0200,0400", b"bcfread 2 2 0200 0400", b"bcfread 3 2 0", b"bcfread 3 2 7F",
    b"bcfread 9 2 x", b"bcfread 0 2 0",
    # a row or an output that is longer than may be
    b"bcfread 1 65 02", b"bcfread 1 66 02", b"bcfread 1 128 02", b"bcfread 1 256 02", b"bcfread 1 4096 02",
    b"bcfread 1 65 -", b"bcfread 2 65 0200", b"bcfread 4 65 02000000", b"bcfread 3 65 02", b"bcfread 0 65 -",
    b"bcfread 64 65 02", b"bcfread 1 4294967298 02", b"bcfread 1 18446744073709551615 02", b"bcfwrite 2 4097 0 0:0:1",
    b"bcfwrite 2 5000 0 0:0:1", b"bcfwrite 2 65538 0 0:0:1", b"bcfwrite 2 4294967298 0 0:0:1",
    b"bcfwrite 2 18446744073709551615 0 0:0:1", b"bcfwrite 2 4097 4098 0:0:1", b"bcfwrite 0 4097 0 -",
    b"bcfwrite 2 4097 0 63:0:1",
    # alleles
    *(
        b"bcfwrite 2 2 0 " + alleles
        for alleles in (
            b"0", b"0:0", b"0:0:", b":0:0", b"0::0", b"::", b"0:0:0:0", b"0:0:0:", b"0:0:256", b"0:256:0", b"0:256:256",
            b"00:0:0", b"0:00:0", b"0:0:01", b"+1:0:0", b"-1:0:0", b"-:0:0", b".:1:0", b"0:-:0", b"0:0:-", b"0:0:a",
            b"a:0:0", b"0,0,0", b"0/0/0", b"0:0:1,0:0:1", b"0:0:1;", b"18446744073709551616:0:0",
            b"0:18446744073709551616:0", b"0:0:18446744073709551616", b"- -", b"- 0:0:1", b"--", b"0:0:1 0:0",
            b"0:0:1 0:0:256", b"0:0:1 0:256:0", b"0:0:1  0:0:1", b"x 0:0:1", b"0:0:\xff", b"02", b"0281", b"0:0:0x1",
            b"0:true:0",
        )
    ),
    # one too many, the last of as many as may be none
    b"bcfwrite 65 65 0" + b" 0:0:1" * 65, b"bcfwrite 65 65 66" + b" 0:0:1" * 65, b"bcfwrite 2 2 0" + b" 63:0:0" * 65,
    b"bcfwrite 64 64 0" + b" 0:0:1" * 63 + b" 0:0:x", b"bcfwrite 64 64 0" + b" 0:0:1" * 63 + b" 0:256:0",
    b"bcfwrite 2 2 0" + b" 0:0:1" * 1_000,
    *with_bad_bcf_numbers(),
)


def spoilt(lines, large):
    """Good lines with one byte put in, in every place, that makes each of them none."""
    for line, byte in itertools.product(lines, b"\x00\t\r \x7f\x80\xffxG" if large else b"\x00 x"):
        for at in range(len(line) + 1):
            yield line[:at] + bytes([byte]) + line[at:]


def filler(length):
    """A text of so many bytes, with characters of every length and no white space."""
    pattern = "a\u00e9\u8a9e\U000233b4".encode()
    whole = pattern * (length // len(pattern))
    return whole + b"z" * (length - len(whole))


def long_lines(large):
    """Lines about as long as may be: what decides the answer of each good one stands at its end."""
    yield ask("utf8", filler(32_764) + b"\xc3")
    yield ask("space", filler(32_762) + encoded(0x3000))
    yield none(ask("utf8", filler(32_766))[0])
    # cut at the longest line, its rest would be a case
    yield none(b"x" * LONGEST_LINE + b"utf8 41")
    if large:
        yield ask("decimal", b"+" + b"0" * 32_743 + str(LARGEST).encode())
        yield ask("decimal", b"+" + b"0" * 32_743 + str(LARGEST + 1).encode())
        yield ask("space", filler(32_765))
        yield none(ask("space", filler(32_766))[0])
        yield none(b" " * LONGEST_LINE)
        yield none(b"utf8 " + b"4" * (LONGEST_LINE - 5))
        yield none(b"print 40 " + b"0" * (LONGEST_LINE - 10) + b"7")
        yield none(b"utf8 41 " * (2 * LONGEST_LINE // 8))
        yield none(b"x" * (2 * LONGEST_LINE) + b"utf8 41")
        yield none(b"\x00" * (3 * LONGEST_LINE + 1))


def long_record_lines(large):
    """The same of the verbs on records."""
    text = b"0123456789" + seven(b"I", b"F", b"")
    text += filler(32_764 - len(text))
    yield ask("line", text, 10)
    if large:
        yield ask("line", text[:-1] + b"\xc3", 10)
        yield ask("line", text[:-1] + b"\n", 10)
        yield ask("line", b"\n" * 32_757, 32_756)
        yield ask("line", b"\t" * 32_757, 32_756)
        yield none(ask("line", text, 100)[0])
        yield ask("field", "samples", text[:-16] + b"\r\n", 10)
        yield ask("place", text[:32_757], 32_756, 1)
        yield ask("place", text[:32_757], 32_756, 2)
        yield ask("pos", b"0" * 32_765 + b"1")
        yield from with_each_ending(4_096, 0, b"a" * 30_000, tuple(range(1, 1_025)))
        yield none(ask("join", 4_096, 0, "lf", b"a" * 32_000, tuple(range(1, 1_025)))[0])


def long_info_lines(large):
    """The same of the verbs on INFO and samples."""
    column = filler(16_000) + b"=" + filler(16_000) + b";"
    wanted = column + b"a" * (32_761 - len(column)) + b";z="
    yield ask("find", wanted, b"z")
    if large:
        yield ask("info", wanted, 0)
        yield none(ask("find", wanted, b"zz")[0])
        yield none(ask("find", wanted + b"1", b"z")[0])
        yield ask("find", wanted[:-2] + b"y=", b"z")
        yield ask("find", b"z=1;" + wanted[:-6], b"z")
        yield ask("find", b"z=", b"z" * 32_763)
        yield ask("info", wanted[:-2], 32_001)
        yield ask("info", b"a" * 32_764, 0)
        yield ask("info", b"a" * 32_763 + b"=", 0)
        yield ask("info", b"a" * 32_763 + b";", 0)
        yield ask("info", b"=" * 32_762, 32_761)
        yield none(ask("info", b"=" * 32_763, 32_762)[0])
        yield ask("value", b"z=" + b"1" * 32_761, b"z")
        yield ask("value", wanted[:-3] + b";z", b"z")
        yield ask("scan", b";" * 32_765)
        yield ask("scan", b"=" * 32_764 + b"a")
        yield ask("scan", b"a;" * 16_382)
        yield ask("scan", b"a=;" * 10_921 + b"aa")
        yield ask("scan", entries_of(2_000))
        yield none(ask("scan", b";" * 32_766)[0])
        yield ask("count", b";" * 32_765)
        yield ask("count", b"a" * 32_765)
        yield ask("samples", b"\t" * 32_764)
        yield ask("walk", b"\t" * 32_765)
        yield ask("walk", b"a\tb" * 10_000)
        yield ask("sample", b"\t" * 32_761, 32_761)
        yield ask("sample", b"\t" * 32_761, 32_762)
        yield ask("sample", b"a" * 32_763, 0)
        yield ask("key", b":" * 32_763 + b"z", b"z")
        yield ask("key", b":" * 32_763 + b"y", b"z")
        yield ask("key", b"a" * 16_000 + b":" + b"a" * 383 + b":a", b"a" * 383)
        yield ask("key", b"b:" + b"a" * 16_381, b"a" * 16_381)
        yield ask("subfield", b":" * 32_760, 32_760)
        yield ask("subfield", b":" * 32_760, 32_761)


def long_genotype_lines():
    """The same of the verbs on genotypes, at large only."""
    yield none(ask("read", 64, b"0" * 32_765)[0])
    yield ask("read", 64, b"0" * 32_763 + b"1")
    yield ask("read", 64, b"0/" + b"0" * 32_760 + b"x")
    yield ask("read", 64, b"|1" * 16_382)
    yield ask("alleles", 64, b"|" * 32_761)
    yield ask("readalt", 64, b"9/32755", b"," * 32_754)
    yield ask("allelesalt", 64, b"32750/32751", b"," * 32_749)
    yield ask("unequal", 64, 64, 64, b"1|" * 16_379 + b"1")


def long_list_lines():
    """The same of filters and alts, at large only."""
    text = filler(32_753)
    for verb, end in itertools.product(("filters", "alts"), (b"", b" ", b"\xff")):
        whole = text[: len(text) - len(end)] + end
        yield ask(verb, 4_096, 0, whole, (len(whole),))
        yield ask(verb, 0, 0, whole, (1, len(whole)))
    yield none(ask("filters", 4_096, 0, filler(32_758), (32_758,))[0])
    yield none(ask("alts", 4_096, 0, filler(32_760), (32_760,))[0])
    for verb in ("filters", "alts"):
        yield ask(verb, 4_096, 0, b"a" * 30_000, tuple(range(1, 1_025)))
        yield ask(verb, 4_096, 0, b"a" * 30_000, (*range(1, 1_024), 3_073))
        yield ask(verb, 4_096, 0, b"a" * 30_000, (*range(1, 1_024), 3_074))


def long_step_lines():
    """The same of gtstep, at large only."""
    yield ask("gtstep", b"0" * 32_762 + b"1", 0)
    yield ask("gtstep", b"0" * 32_762 + b"1", 10)
    yield none(ask("gtstep", b"0" * 32_762 + b"1", 100)[0])
    yield none(ask("gtstep", b"0" * 32_763 + b"1", 0)[0])
    yield ask("gtstep", b"0" + b"|" * 32_760, 0)
    yield ask("gtstep", b"0" + b"|1" * 16_379 + b"/", 0)
    yield ask("gtstep", b"|1" * 16_380, 32_758)
    yield ask("gtstep", b"|1" * 16_380, 32_759)
    yield ask("gtstep", b"|1" * 16_380, 32_760)
    yield ask("gtstep", b"|1" * 16_380, 32_761)


def long_alt_lines(large):
    """The same of altcount and, at large, of the checked readers."""
    yield ask("altcount", filler(32_762) + b",")
    yield ask("altcount", b"," * 32_763)
    if large:
        yield ask("altcount", b"," + filler(32_762))
        yield ask("altcount", b"." * 32_763)
        yield ask("altcount", filler(32_763))
        yield ask("altcount", b".," * 16_381 + b".")
        yield ask("altcount", b"." + b"\x00" * 32_762)
        yield none(ask("altcount", b"," * 32_764)[0])
        yield none(ask("altcount", b"." * 40_000)[0])
        yield ask("readalt", 64, b"1", b"." * 32_761)
        yield ask("allelesalt", 64, b"2", b"." * 32_759)
        yield ask("readalt", 64, b"0|" * 16_380 + b"1", b"")
        yield ask("allelesalt", 64, b"0/" * 16_379 + b"1", b".")


def long_form_lines(large):
    """The same of small, and numbers as long as may be in the other two."""
    text = b"0123456789" + seven(b"I", b"F", b"")
    text += filler(32_763 - len(text))
    yield ask("small", text, 10)
    yield none(b"widen lf %s" % GOOD_ENDS.rjust(LONGEST_LINE - 9, b"0"))
    if large:
        yield ask("small", text[:-1] + b"\xc3", 10)
        yield ask("small", text[:-2] + b"\r\n", 10)
        yield none(ask("small", text, 1_000)[0])
        yield none(b"narrow crlf %s" % GOOD_PLACES.rjust(LONGEST_LINE, b"0"))
        yield none(b"narrow lf %s" % GOOD_PLACES.ljust(LONGEST_LINE - 10, b"1"))
        yield none(b"widen lf" + b" 1" * 32_760)
        yield none(b"narrow lf " + GOOD_PLACES + b" " * LONGEST_LINE)


def long_plain_lines(large):
    """The same of plain, whose arguments have a byte less room than those of line."""
    text = b"0123456789" * 10 + seven(b"I", b"F", b"")
    text += filler(32_763 - len(text))
    yield ask("plain", text, 100)
    if large:
        yield ask("plain", text[:-1] + b"\xc3", 100)
        yield ask("plain", text[:-2] + b"\r\n", 100)
        yield ask("plain", text[:-1] + b"\t", 100)
        yield ask("plain", b"a\t" * 16_381 + b"\t", 100)
        yield ask("plain", b"a\t" * 16_381 + b"a", 100)
        yield none(ask("plain", text, 1_000)[0])
        yield none(b"plain - " + b"0" * (LONGEST_LINE - 8))
        yield none(b"plain " + b"6" * (LONGEST_LINE - 9) + b" 0")


def long_number_lines(large):
    """Lists of as many alleles as may be, of long numbers; and arguments that go on to the end of the longest line."""
    yield ask("number", LARGEST, (LARGEST,) * 64)
    yield none(b"number 2 " + b"0" * (LONGEST_LINE - 9))
    if large:
        yield none(b"number 2 0" + b",0" * ((LONGEST_LINE - 10) // 2))
        yield none(b"number %s 0,1" % b"2".rjust(LONGEST_LINE - 11, b"0"))
        yield none(b"genotype 1 2 2 " + b"2".rjust(LONGEST_LINE - 15, b"0"))
        yield none(b"genotypes 2 2 " + b"9" * (LONGEST_LINE - 14))
        yield none(b"genotypecount 2" + b" 2" * 32_760)
        yield none(b"genotypecount 2 2" + b" " * LONGEST_LINE)


def long_bcf_lines(large):
    """Vectors as long as a case may have, and the longest list: what decides stands at the end."""
    padded = (b"\x02" * 64).ljust(32_761, PADDING)
    yield ask("bcfread", 1, 64, padded)
    yield ask("bcfread", 1, 64, padded[:-1] + b"\x80")
    yield none(ask("bcfread", 1, 64, padded + PADDING)[0])
    for width in WIDER:
        yield ask("bcfread", width, 64, bcf_entries(width, [2] * 64) + PADDINGS[width] * (32_760 // width - 64))
    yield to_vector(LARGEST, 4_096, 4_096, [(62, 255, 255)] * 63 + [(LARGEST, 255, 255)])
    yield to_vector(LARGEST, 4_096, 4_096, [(LARGEST, 0, 255)] * 64)
    if large:
        yield ask("bcfread", 1, 9, b"\x02" + padded)
        yield ask("bcfread", 1, 64, padded[:-1] + b"\x02")
        yield ask("bcfread", 1, 64, PADDING * 32_761)
        yield ask("bcfread", 1, 64, PADDING * 32_760 + b"\x02")
        yield ask("bcfread", 1, 64, b"\x7f" * 32_761)
        yield ask("bcfread", 1, 64, b"\x7f" * 32_760 + b"\xff")
        yield ask("bcfread", 1, 0, b"\x00" * 32_762)
        yield none(ask("bcfread", 1, 0, b"\x00" * 32_763)[0])
        yield ask("bcfread", LARGEST, 0, padded[:32_751])
        for width in WIDER:
            most = 32_760 // width
            wide = bcf_entries(width, [2] * 64) + PADDINGS[width] * (most - 64)
            yield ask("bcfread", width, 64, wide + PADDINGS[width][:1])
            yield ask("bcfread", width, 64, wide[:-1] + b"\x00")
            yield ask("bcfread", width, 64, PADDINGS[width] * most)
            yield ask("bcfread", width, 64, PADDINGS[width] * (most - 1) + bcf_entry(width, 2))
            yield ask("bcfread", width, 64, b"\x7f" * most * width)
            yield ask("bcfread", width, 64, b"\x7f" * (most * width - 1) + b"\xff")
            yield ask("bcfread", width, 0, b"\x00" * 32_762)
            yield none(ask("bcfread", width, 0, b"\x00" * 32_763)[0])
        yield none(b"bcfread 1 2 " + b"0" * (LONGEST_LINE - 11))
        yield none(b"bcfread 1 %s 02" % b"2".rjust(LONGEST_LINE - 13, b"0"))
        yield none(b"bcfread %s 2 02" % b"1".rjust(LONGEST_LINE - 13, b"0"))
        yield none(b"bcfread 1 2 02" + b" " * LONGEST_LINE)
        yield none(b"bcfwrite %s 2 0 0:0:1" % b"2".rjust(LONGEST_LINE - 19, b"0"))
        yield none(b"bcfwrite 2 2 0 " + b"0".rjust(LONGEST_LINE - 19, b"0") + b":0:1")
        yield none(b"bcfwrite 2 2 0" + b" 0:0:1" * 10_900)


def form(large):
    """Lines that are none and long lines, each before a case with an answer of its own: a shift shows at once."""
    good = (b"utf8 41", b"print 5 70", b"space -", b"decimal 2b37") if large else (b"utf8 41", b"print 5 70")
    more = (b"field id 61 0", b"join 9 0 lf 6162 1,2", *((b"line 6109 0", b"place 61 0 1", b"pos 31") if large else ()))
    steps = (b"info 61 0", b"key 61 61", *((b"scan 61", b"value 613d 61", b"sample 61 0") if large else ()))
    calls = (b"read 2 30", b"write 4 4 2 0 0:0:1", *((b"readalt 2 30 41", b"unequal 1 1 1 30") if large else ()))
    lists = (b"filters 2 0 61 1", *((b"alts 2 0 61 1",) if large else ()))
    one_step, one_count = (b"gtstep 30 0",), (b"altcount 2c",)
    ended = (b"join 9 0 crlf 6162 1,2", *((b"join 9 0 none 6162 1,2",) if large else ()))
    formed, plain = (b"small 6109 0", b"widen lf " + GOOD_ENDS, b"narrow none " + GOOD_PLACES), (b"plain 6109 0",)
    lines = (
        *map(none, (*NO_CASES, *spoilt(good, large))), *long_lines(large),
        *map(none, (*NO_RECORD_CASES, *spoilt(more, large))), *long_record_lines(large),
        *map(none, (*NO_INFO_CASES, *spoilt(steps, large))), *long_info_lines(large),
        *map(none, (*NO_GENOTYPE_CASES, *spoilt(calls, large))), *(long_genotype_lines() if large else ()),
        *map(none, (*NO_LIST_CASES, *spoilt(lists, large))), *(long_list_lines() if large else ()),
        *map(none, (*NO_STEP_CASES, *spoilt(one_step, large))), *(long_step_lines() if large else ()),
        *map(none, (*NO_ALT_CASES, *spoilt(one_count, large))), *long_alt_lines(large),
        *map(none, (*NO_ENDING_CASES, *spoilt(ended, large))),
        *map(none, (*NO_FORM_CASES, *spoilt(formed, large))), *long_form_lines(large),
        *map(none, (*NO_PLAIN_CASES, *spoilt(plain, large))), *long_plain_lines(large),
        *map(none, (*NO_NUMBER_CASES, *spoilt(GOOD_NUMBERINGS, large))), *long_number_lines(large),
        *map(none, (*NO_BCF_CASES, *spoilt(GOOD_BCF_CASES, large))), *long_bcf_lines(large),
    )
    for index, case in enumerate(lines):
        yield case
        yield ask("decimal", str(1_000 + index).encode())


def areas(large):
    """The cases of each area, with dice of its own, so that a new area changes no other."""
    return (
        texts(large, Dice(1)), decimals(large, Dice(2)), prints(large, Dice(3)), lines(large, Dice(4)),
        fields(large, Dice(5)), places(large), positions(large, Dice(6)), joins(large, Dice(7)),
        infos(large, Dice(8)), samples(large, Dice(9)), genotypes(large, Dice(10)), written_genotypes(large, Dice(11)),
        entry_lists(large, Dice(12)), genotype_steps(large, Dice(13)), offsets(large, Dice(14)),
        alt_counts(large, Dice(15)), line_endings(large, Dice(16)), forms_of_lines(large, Dice(17)),
        lines_in_passes(large, Dice(18)), genotype_numbers(large, Dice(19)), bcf_vectors(large, Dice(20)),
    )


def stored():
    """The stored lines in order, each with whether it is a case; each question once, as areas overlap."""
    cases = (*dict.fromkeys(itertools.chain(*areas(False))), *form(False))
    yield from cases
    yield from asked_of_plain(cases)
    yield ask("decimal", b"+3629")


def stream(lines):
    """The lines as a program reads them: the last without LF, but where it is empty, and would be none without."""
    return b"\n".join(lines) + b"\n" * (lines[-1] == b"")
