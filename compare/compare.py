"""Puts the same cases to the Rust, to the model and to the program, and holds their answers to each other.

    compare.py ORACLE PROGRAM STORE    at scale, and what is stored in STORE; exit status 1 at the first difference
    compare.py --store ORACLE STORE    writes the stored cases, STORE/stdin and STORE/stdout

ORACLE and PROGRAM are commands that read cases and write an answer line for each. ORACLE is the Rust: it writes `n/a`
where the Rust has no such question. It is asked only what was built as a case: the form of a case is not the Rust's.
"""

import collections
import functools
import itertools
import multiprocessing
import pathlib
import subprocess
import sys
import time

sys.dont_write_bytecode = True  # no compiled files beside the sources

import generate
import model
import scale

PROCESSES = 2
CHUNK = 20_000
NO_QUESTION = "n/a"


# ---- differences that are meant


def is_text(part):
    try:
        part.decode("utf-8")
    except UnicodeDecodeError:
        return False
    return True


def field_bounds(verb, numbers):
    """The start and the end of each field, of the numbers that the Rust answers to `line`, `plain` or `small`."""
    if verb != b"small":
        return [(start, start + length) for start, length in zip(numbers[::2], numbers[1::2])]
    # where FORMAT is absent, the last two start past their ends, and are empty all the same
    start, *ends = numbers
    return list(zip((start, *(end + 1 for end in ends)), ends))


def across_a_tab(line, rust, ours):
    """The Rust accepts a line of which a field by itself is not UTF-8; ours is 5, with the same next place."""
    verb, argument, *_ = line.split(b" ")
    if verb not in (b"line", b"plain", b"small"):
        return False
    number, past, *numbers = map(int, rust.split(" "))
    if number != 0 or ours != f"5 {past}":
        return False
    text = bytes.fromhex(argument.decode())
    bounds = field_bounds(verb, numbers)
    return len(bounds) == 10 and not all(is_text(text[start:end]) for start, end in bounds)


# By their number in docs/DIFFERENCES.md: whether (line, the Rust's answer, the model's) is that difference. All other
# differences listed there are no answers to a case that the Rust and we give differently.
LISTED = {1: across_a_tab}


def listed(line, rust, ours):
    """The number of the listed difference that this is, or None."""
    return next((number for number, is_it in LISTED.items() if is_it(line, rust, ours)), None)


# ---- what the Rust does not answer

# By verb: the number whose answer has a value more than the Rust's, and which of the answer's values that is. Of a
# refusal it is the offset, of an accepted line the ending.
LEFT_OUT = {
    b"decimal": ("12", 1), b"pos": ("21", 1), b"read": ("12", 2), b"alleles": ("12", 2), b"gtstep": ("12", 1),
    b"line": ("0", 2), b"plain": ("0", 2), b"small": ("0", 2),
}


def as_the_rust_has_it(line, ours):
    """The model's answer as the Rust can give it. Where the model left that value out, it is an error or differs."""
    verb = line.split(b" ", 1)[0]
    if verb not in LEFT_OUT:
        return ours
    number, index = LEFT_OUT[verb]
    values = ours.split(" ")
    if values[0] == number:
        del values[index]
    return " ".join(values)


# ---- asking


class Failed(Exception):
    """An answer differs, or a command did not answer."""


def replies(command, lines):
    """A command's answer to each line."""
    if not lines:
        return []
    done = subprocess.run([command], input=generate.stream(lines), stdout=subprocess.PIPE)
    answers = done.stdout.decode("latin-1").split("\n")
    if done.returncode != 0:
        raise Failed(f"{command} ended with status {done.returncode} after {len(answers) - 1} of {len(lines)} answers")
    if len(answers) != len(lines) + 1 or answers[-1] != "":
        raise Failed(f"{command} was asked {len(lines)} cases and wrote {len(answers) - 1} answers")
    return answers[:-1]


def the_rust(oracle, cases):
    """The Rust's answer to each line, None where it has none."""
    left = iter(replies(oracle, [line for line, good in cases if good]))
    said = (next(left) if good else NO_QUESTION for _, good in cases)
    return [None if answer == NO_QUESTION else answer for answer in said]


# ---- holding answers to each other


def expected(case, rust, ours):
    """What is to be answered: the Rust's answer, with the model's offset or ending where one belongs there; or the
    model's where the Rust has none or the difference is listed.

    None where the Rust and the model differ otherwise, or where the model's `?` is not what the line was built as.
    """
    line, good = case
    if good is not None and good != (ours != "?"):
        return None
    if rust is None or rust == as_the_rust_has_it(line, ours):
        return ours
    return ours if listed(line, rust, ours) else None


def kind(case):
    """What a line is counted as."""
    line, good = case
    if good is None:
        return "(damaged case)"
    return line.split(b" ")[0].decode() if good else "(no case)"


def difference(case, rust, ours, theirs):
    """A case and its three answers, to be read."""
    line, good = case
    built = {True: "a case", False: "no case", None: "a case, then damaged"}[good]
    answers = f"  the Rust:    {rust or 'has no such question'}\n  the model:   {ours}\n  the program: {theirs}"
    return f"an answer differs\n  {line!r}, built as {built}\n{answers}"


# ---- round trips in BCF: the program's own answers are put to it again, and neither the model nor the Rust is asked

TRIP = "trip"


def as_read(alleles):
    """The words of alleles with their marks as a reader gives them, 0 or 1."""
    parts = (allele.split(":") for allele in alleles)
    return [f"{number}:{int(missing != '0')}:{int(phased != '0')}" for number, missing, phased in parts]


def in_width(vector, width, other):
    """A vector's entries in another width, with fewer of their bytes or with zeros behind them, and its padding."""
    entries = [vector[at : at + width] for at in range(0, len(vector), width)]
    pads, other_pads = generate.PADDINGS[width], generate.PADDINGS[other]
    return b"".join(other_pads if one == pads else one[:other].ljust(other, b"\x00") for one in entries)


def vector_written(line, answer):
    """The width, the bytes and the alleles' words of a vector that was written."""
    _, _, _, at, *alleles = line.decode().split(" ")
    _, width, length, output = answer.split(" ")
    return int(width), bytes.fromhex(output)[int(at) : int(at) + int(length)], alleles


def vector_read(line, answer):
    """The same of a vector that was read."""
    _, width, _, vector = line.decode().split(" ")
    _, count, *row = answer.split(" ")
    return int(width), bytes.fromhex(vector), row[: int(count)]


def hold_written(program, pairs):
    """Holds each vector that was written to its list: it reads as that in the width answered. So do its entries in
    every wider one; in a smaller one they don't, as the list has no vector there."""
    questions, wanted = [], []
    for width, vector, alleles in itertools.starmap(vector_written, pairs):
        for other in generate.WIDTHS:
            questions.append(generate.ask("bcfread", other, len(alleles), in_width(vector, width, other))[0])
            wanted.append((" ".join(("0", str(len(alleles)), *as_read(alleles))), other >= width))
    for question, answer, (whole, same) in zip(questions, replies(program, questions), wanted, strict=True):
        if (answer == whole) != same:
            said = "not read as it was written" if same else "read in a smaller width than it was written in"
            raise Failed(f"a list in BCF is {said}\n  {question!r}\n  the program: {answer}\n  the list:    {whole}")


def is_written_again(width, vector, question, answer):
    """Whether it is the same bytes, or as many entries in a smaller width."""
    if not answer.startswith("0 "):
        return False
    least, made, _ = vector_written(question, answer)
    return made == vector if least == width else least < width and len(made) * width == len(vector) * least


def hold_read(program, pairs):
    """Holds each vector that was read, where an output can hold it, to the one that its list gives with as many
    entries. Gives these questions and their answers."""
    found = [one for one in itertools.starmap(vector_read, pairs) if len(one[1]) <= model.LARGEST_ROOM]
    questions = [
        generate.ask("bcfwrite", len(vector) // width, len(vector), 0, *alleles)[0] for width, vector, alleles in found
    ]
    again = list(zip(questions, replies(program, questions), strict=True))
    for (width, vector, _), pair in zip(found, again):
        if not is_written_again(width, vector, *pair):
            shown = f"  {pair[0]!r}\n  the program: {pair[1]}\n  read was:    {vector.hex()}, width {width}"
            raise Failed(f"a vector that was read is not written again\n{shown}")
    return again


def hold_trips(program, lines, answers):
    """Counts of vectors that were written and read back, and read and written again."""
    done = [(line, answer) for line, answer in zip(lines, answers) if answer.startswith("0 ")]
    writes, reads = ([one for one in done if one[0].startswith(verb)] for verb in (b"bcfwrite ", b"bcfread "))
    again = hold_read(program, reads)
    hold_written(program, writes + again)
    return collections.Counter({("written", TRIP): len(writes), ("read", TRIP): len(again)})


def hold(cases, oracle, program):
    """Counts of (kind, who answered), and of round trips. Raises Failed at the first answer that differs."""
    lines = [line for line, _ in cases]
    counts, answers = collections.Counter(), replies(program, lines)
    all_answers = zip(the_rust(oracle, cases), map(model.answer, lines), answers, strict=True)
    for case, (rust, ours, theirs) in zip(cases, all_answers):
        if theirs != expected(case, rust, ours):
            raise Failed(difference(case, rust, ours, theirs))
        counts[kind(case), "model" if rust is None else "listed" if listed(case[0], rust, ours) else "rust"] += 1
    return counts + hold_trips(program, lines, answers)


def distinct(cases):
    seen = set()
    for case in cases:
        if case not in seen:
            seen.add(case)
            yield case


def chunks(cases):
    while chunk := list(itertools.islice(cases, CHUNK)):
        yield chunk


def hold_part(oracle, program, index):
    """The counts of a part, or the text of its failure: what a process hands back."""
    counts = collections.Counter()
    try:
        for chunk in chunks(distinct(scale.parts()[index])):
            counts += hold(chunk, oracle, program)
    except Failed as failure:
        return str(failure)
    return counts


def hold_all(oracle, program):
    """The counts of all parts. Raises Failed at the first part, in their order, that did."""
    counts, told = collections.Counter(), 0
    with multiprocessing.Pool(PROCESSES) as pool:
        work = functools.partial(hold_part, oracle, program)
        for found in pool.imap(work, range(len(scale.parts()))):
            if isinstance(found, str):
                raise Failed(found)
            counts += found
            equal = sum(number for (_, who), number in counts.items() if who != TRIP)
            if equal // 1_000_000 > told:
                told = equal // 1_000_000
                print(f"{equal:,} answers are equal", flush=True)
    return counts


# ---- the stored cases


def hold_model():
    """The model numbers genotypes in two ways, which must agree. The Rust has no such question."""
    try:
        model.hold_binomials_to_orders()
    except AssertionError as where:
        raise Failed(f"the model's two ways to number genotypes differ at {where}") from None


def stored(oracle):
    """The stored cases and their answers, as bytes. No answer is from the program under test."""
    hold_model()
    cases = list(generate.stored())
    lines = [line for line, _ in cases]
    answers = []
    for case, rust in zip(cases, the_rust(oracle, cases), strict=True):
        ours = model.answer(case[0])
        answers.append(expected(case, rust, ours))
        if answers[-1] is None:
            raise Failed(difference(case, rust, ours, "not asked"))
    return generate.stream(lines), "".join(f"{answer}\n" for answer in answers).encode()


def hold_stored(oracle, store):
    for name, content in zip(("stdin", "stdout"), stored(oracle)):
        if (store / name).read_bytes() != content:
            raise Failed(f"{store / name} is not what `compare/run --store` writes")
    print("the stored cases are those of the generator, their answers those of the Rust and the model")


def write_stored(oracle, store):
    for name, content in zip(("stdin", "stdout"), stored(oracle)):
        (store / name).write_bytes(content)
    print(f"wrote stdin and stdout in {store}")


# ---- the table


def show(counts):
    row = "{:16}{:>12}{:>20}{:>18}".format
    print(row("verb", "answers", "compared with", "resting on"))
    print(row("", "", "the Rust", "the model alone"))
    kinds = sorted({what for what, who in counts if who != TRIP}, key=lambda what: (what.startswith("("), what))
    totals = collections.Counter()
    for what in kinds:
        totals += collections.Counter({who: counts[what, who] for who in ("rust", "listed", "model")})
        asked = counts[what, "rust"] + counts[what, "listed"]
        print(row(what, f"{asked + counts[what, 'model']:,}", f"{asked:,}", f"{counts[what, 'model']:,}"))
    asked = totals["rust"] + totals["listed"]
    print(row("all", f"{totals.total():,}", f"{asked:,}", f"{totals['model']:,}"))
    print(f"listed differences, counted as compared: {totals['listed']:,}; others: 0")
    print(f"in BCF {counts['written', TRIP]:,} vectors written read as their lists, in no smaller width;", end=" ")
    print(f"{counts['read', TRIP]:,} vectors read are written again, in the smallest width")


def main(arguments):
    began = time.monotonic()
    try:
        match arguments:
            case ["--store", oracle, store]:
                write_stored(oracle, pathlib.Path(store))
            case [oracle, program, store]:
                hold_stored(oracle, pathlib.Path(store))
                show(hold_all(oracle, program))
                print(f"{time.monotonic() - began:.0f} s")
            case _:
                sys.exit("usage: compare.py ORACLE PROGRAM STORE or compare.py --store ORACLE STORE")
    except Failed as failure:
        sys.exit(f"compare: {failure}")


if __name__ == "__main__":
    main(sys.argv[1:])
