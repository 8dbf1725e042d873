"""The lines that the programs recode, sparse, salvage and trial are run on: document 01's edges, its known strings, the papers' worked
examples, every small case, refusals two and more at once, malformed lines, and random cases from a fixed seed.

Here are inputs only. What is to be answered comes from second.py; where a paper or document 01 prints an answer, it is
held against second.py's as the line is made.
"""

import itertools
import math
import pathlib
import random

import second
from second import CLOSEST, LEAST_WIDTH, MOF, MOST_BYTES, MOST_PLACES, MOST_WIDTH, MOST_WORDS, SMALLER, WMOF, WNAF

SEED = 20040815
WIDTHS = range(LEAST_WIDTH, MOST_WIDTH + 1)
FORMS_AND_WIDTHS = [(MOF, LEAST_WIDTH)] + [(form, width) for form in (WNAF, WMOF, CLOSEST, SMALLER) for width in WIDTHS]


# ---- lines, by what they ask
def hexadecimal(data):
    return bytes(data).hex().upper().encode("ascii")


def recode_frame(form, width, scalar):
    return hexadecimal(bytes([form, width, len(scalar)]) + scalar)


def recode(form, width, places, marks, scalar):
    return hexadecimal(bytes([1, form, width]) + places.to_bytes(2, "big") + bytes([marks]) + scalar)


def recode_fitting(form, width, scalar):
    return recode(form, width, 8 * len(scalar) + 1, 9, scalar)


def below(form, width, places, marks, group, scalar):
    return hexadecimal(bytes([11, form, width]) + places.to_bytes(2, "big") + bytes([marks, len(group)]) + group + scalar)


def below_fitting(form, width, group, scalar):
    return below(form, width, min(8 * len(scalar) + 1, 600), 9, group, scalar)


def check(width, scalar, digits, call=2):
    return hexadecimal(bytes([call, width, len(scalar)]) + scalar + second.big_endian(digits, 1))


def nonadjacent(width, scalar, digits):
    return check(width, scalar, digits, call=3)


def tape(width, lent, digits):
    return hexadecimal(bytes([4, width]) + lent.to_bytes(2, "big") + second.big_endian(digits, 1))


def run(width, lent, modulus, base, words):
    numbers = lent.to_bytes(2, "big") + modulus.to_bytes(4, "big") + base.to_bytes(4, "big")
    return hexadecimal(bytes([5, width]) + numbers + second.big_endian(words, 2))


def joint(places, others, lent, a, b):
    numbers = b"".join(n.to_bytes(2, "big") for n in (places, others, lent))
    return hexadecimal(bytes([9]) + numbers + bytes([len(a)]) + a + b)


def joint_fitting(a, b):
    """Room for exactly what is written, as far as the program has it."""
    places = min(8 * len(a) + 1, 600)
    room = second.joint(a, b, [0] * places, [0] * places, [0] * MOST_WORDS)[0][4]
    return joint(places, places, room, a, b)


def run_joint(lent, modulus, g, h, words):
    numbers = lent.to_bytes(2, "big") + b"".join(n.to_bytes(4, "big") for n in (modulus, g, h))
    return hexadecimal(bytes([10]) + numbers + second.big_endian(words, 2))


def powers(width, lent, lent_inverse, modulus, base, inverse, words):
    numbers = second.big_endian([lent, lent_inverse], 2) + second.big_endian([modulus, base, inverse], 4)
    return hexadecimal(bytes([8, width]) + numbers + second.big_endian(words, 2))


def translate(width, lent, words):
    return hexadecimal(bytes([12, width]) + lent.to_bytes(2, "big") + second.big_endian(words, 2))


def run_second(width, lent, modulus, base, words):
    return b"0D" + run(width, lent, modulus, base, words)[2:]


def reader(width, calls, scalar):
    return hexadecimal(bytes([6, width]) + calls.to_bytes(2, "big") + scalar)


def search(width, n):
    return hexadecimal(bytes([7, width]) + n.to_bytes(4, "big"))


def lowest_first(line):
    """The same call on the same bytes, told that they come lowest first."""
    return hexadecimal([second.LOWEST + int(line[:2], 16)]) + line[2:]


def in_set(line, largest):
    """The same line with a largest digit after its width: 40 is added to its call."""
    data = bytes.fromhex(line.decode("ascii"))
    at = 3 if data[0] & 0x3F in (1, 11) else 2
    return hexadecimal(bytes([data[0] | 0x40]) + data[1:at] + bytes([largest]) + data[at:])


def write(version, lent, digits):
    return hexadecimal(bytes([14, version]) + lent.to_bytes(2, "big") + second.big_endian(digits, 1))


def read(lent, line):
    return hexadecimal(bytes([15]) + lent.to_bytes(2, "big") + line)


def choose(entries, scalar):
    return hexadecimal(bytes([16]) + entries.to_bytes(4, "big") + scalar)


def lighter(width, scalar, first, other):
    return hexadecimal(bytes([17, width, len(scalar)]) + scalar + len(first).to_bytes(2, "big") + second.big_endian(first + other, 1))


# ---- strings that a document prints, highest place first
KNOWN = [  # document 01, P1 to P10: scalar, width, forms, nonzero digits by place
    (b"\x0d", 2, [MOF], {4: 1, 2: -1, 1: 1, 0: -1}),
    (b"\x0d", 2, [WNAF, CLOSEST], {4: 1, 2: -1, 0: 1}),
    (b"\x0d", 2, [WMOF], {4: 1, 1: -1, 0: -1}),
    (b"\x2a", 3, [WNAF, WMOF, CLOSEST], {4: 3, 1: -3}),
    (b"\x01\x5d", 4, [WNAF], {9: 1, 5: -5, 0: -3}),
    (b"\x01\x5d", 4, [WMOF, CLOSEST], {6: 5, 2: 7, 0: 1}),
    (b"\xff", 8, [WNAF, WMOF, CLOSEST], {8: 1, 0: -1}),
    (b"", 2, [MOF, WNAF, WMOF, CLOSEST, SMALLER], {}),
    (b"\x03", 2, [MOF], {2: 1, 0: -1}),
    # where the two tie rules part
    (b"\xff", 8, [SMALLER], {1: 127, 0: 1}),
    (b"\x05", 3, [CLOSEST], {1: 3, 0: -1}),
    (b"\x05", 3, [SMALLER], {2: 1, 0: 1}),
    (b"\x01\x7b", 3, [CLOSEST], {7: 3, 1: -3, 0: 1}),
    (b"\x01\x7b", 3, [SMALLER], {7: 3, 2: -1, 0: -1}),
]

KNOWN_TAPES = [  # P11, P12: scalar, width, words, modulus, base, residue, multiples
    (b"\x0d", 2, "1000 0000 0000 4000 0000 0000 3000", 1000, 7, 91, [7]),
    (b"\x2a", 3, "1001 0000 0000 0000 4001 0000", 10, 9, 8, [9, 7]),
]

# Worked examples that stand whole in the papers: document, number, width, forms, digits. Document 002's row for 379 from
# the left is wMOF's: its table takes the smaller candidate at the tie. Rows with lost digits or overlines, which are
# not worth their number, are left out: 000's table at the end of section 4.2, 001's arrays P and Q1 of example 2 and all
# of example 4, and 003's 2MOF, 4MOF and 4NAF of section 3.4.
WORKED = [
    ("000, definition 2", 14818, 2, [MOF], "0 1 0 0 -1 0 1 0 0 0 -1 0 0 1 -1 0"),
    ("000, section 4.3", 42, 2, [WNAF], "1 0 1 0 1 0"),
    ("000, section 4.3", 43, 2, [WNAF], "1 0 -1 0 -1 0 -1"),
    ("001, example 3", 53, 2, [MOF], "1 0 -1 1 -1 1 -1"),
    ("002, section 1", 42, 3, [WNAF], "3 0 0 -3 0"),
    ("002, section 2", 233, 2, [CLOSEST], "1 0 0 0 -1 -1 0 0 1"),
    ("002, section 2", 5, 3, [CLOSEST], "3 -1"),
    ("002, section 4.1", 379, 3, [WNAF], "3 0 0 0 -1 0 0 3"),
    ("002, section 4.2", 379, 3, [WMOF], "3 0 0 0 0 -1 0 -1"),
    ("document 01's tie rule for it", 379, 3, [CLOSEST], "3 0 0 0 0 0 -3 1"),
    ("003, section 3.1.1", 729, 2, [WNAF], "1 0 -1 0 0 -1 0 -1 0 0 1"),
    ("003, section 3.1.2", 729, 5, [WNAF], "1 0 0 0 0 -9 0 0 0 0 -7"),
    ("003, section 3.2.1", 432, 2, [MOF], "1 0 -1 1 0 -1 0 0 0 0"),
    (
        "003, section 3.4",
        2392158554,
        2,
        [MOF],
        "1 -1 0 0 1 0 0 -1 1 -1 0 1 -1 1 -1 1 -1 1 0 0 -1 0 0 1 -1 1 -1 1 0 -1 1 -1 0",
    ),
    ("003, section 3.4", 2392158554, 3, [WMOF], "1 0 0 1 0 0 0 0 -3 0 0 0 3 0 0 -3 1 0 0 -1 0 0 0 0 3 0 -1 0 0 0 -3 0"),
    (
        "003, section 3.4",
        2392158554,
        2,
        [WNAF],
        "1 0 0 1 0 0 -1 0 1 0 1 0 -1 0 -1 0 -1 0 0 -1 0 0 1 0 -1 0 -1 0 -1 0 1 0",
    ),
    ("003, section 3.4", 2392158554, 3, [WNAF], "1 0 0 1 0 0 0 -1 0 0 -3 0 0 -3 0 0 3 0 0 -1 0 0 0 1 0 0 3 0 0 0 -3 0"),
]

# Strings that a paper gives for a number without naming one of the forms: they are legal and worth it.
WORTH = [
    ("001, example 1", 57, 2, "1 0 0 -1 0 0 1"),
    ("001, example 1", 22, 2, "1 0 -1 0 -1 0"),
    ("001, example 2", 4846, 2, "0 1 0 0 1 1 0 0 -1 1 0 0 -1 0"),
    ("001, example 2", 6699, 2, "0 1 1 0 1 0 0 1 0 -1 -1 0 1 1"),
    ("001, example 2", 4846, 2, "0 1 0 0 1 1 0 0 0 -1 0 0 -1 0"),
    ("002, section 2", 5, 3, "1 0 1"),
    ("002, section 4.1", 379, 4, "0 0 5 0 0 7 0 0 3"),
    ("002, section 4.2", 379, 3, "0 0 3 0 0 0 0 -1 0 -1"),
]

# Joint sparse forms that document 001 prints, without its overlines: the arithmetic decides the signs.
PRINTED_PAIRS = [
    (57, 22, "1 0 0 -1 0 0 1", "0 1 0 -1 0 -1 0"),
    (6699, 4846, "1 1 0 1 0 0 1 0 -1 -1 0 1 1", "1 0 0 1 1 0 0 0 -1 0 0 -1 0"),
]

# 000's table 3, width 3: s, u, k. The paper leaves out the u of s = 8, which is -1.
PRINTED_WINDOWS = [(4, 1, 1), (5, 3, 0), (6, 3, 0), (7, 1, 2), (8, -1, 2), (9, -3, 0), (10, -3, 0), (11, -1, 1)]


def from_top(text):
    """A printed string, highest place first, as digits from place 0."""
    return [int(d) for d in text.split()][::-1]


def shortest(n):
    """A number in as few bytes as it needs."""
    return n.to_bytes((n.bit_length() + 7) // 8, "big")


def printed_strings():
    """Scalar, width, form, digits of everything printed, held against second.py."""
    for scalar, width, forms, places in KNOWN:
        digits = [places.get(j, 0) for j in range(8 * len(scalar) + 1)]
        for form in forms:
            yield scalar, width, form, digits
    for _, n, width, forms, text in WORKED:
        scalar = shortest(n)
        digits = from_top(text)
        digits += [0] * (8 * len(scalar) + 1 - len(digits))
        for form in forms:
            yield scalar, width, form, digits


def check_printed():
    for scalar, width, form, digits in printed_strings():
        assert second.form_digits(form, width, scalar) == digits
    for _, n, width, text in WORTH:
        assert second.check(width, shortest(n), from_top(text))[0] == 0
    for scalar, width, text, modulus, base, residue, multiples in KNOWN_TAPES:
        words = [int(x, 16) for x in text.split()]
        assert second.tape_of(second.form_digits(WNAF, width, scalar)) == words
        (_, _, reached, *_), stored = second.run(width, words, modulus, base, [0] * len(multiples))
        assert (reached, stored) == (residue, multiples)
    for a, b, first, other in PRINTED_PAIRS:
        assert second.joint_rows(a, b, len(from_top(first)) - 1) == (from_top(first), from_top(other))
    for s, u, k in PRINTED_WINDOWS:
        assert second.odd_part(second.window(3, s)) == (u, k)
    assert second.recode_answer(b"0202010D") == b"00000300050100FF000100000000"
    assert second.recode_answer(b"0209010D") == b"02"


# ---- scalars
def scalar_like(rng, length):
    """A scalar of one of several kinds: any bytes, long runs of equal bits, one byte over and over, one bit, zeros in front."""
    kind = rng.randrange(6)
    if length == 0:
        return b""
    if kind == 0:
        return bytes([rng.choice([0x00, 0x01, 0x33, 0x55, 0x5A, 0x80, 0xAA, 0xCC, 0xFE, 0xFF])] * length)
    if kind == 1:
        return (1 << rng.randrange(8 * length)).to_bytes(length, "big")
    if kind == 2:
        n, value = 0, rng.randrange(2)
        while n < 8 * length:
            step = rng.randint(1, 14)
            value = (value << step) | (rng.choice([0, 2**step - 1]))
            n += step
        return (value % 256**length).to_bytes(length, "big")
    if kind == 3:
        front = rng.randrange(length + 1)
        return bytes(front) + rng.randbytes(length - front)
    return rng.randbytes(length)


def some_length(rng):
    """Mostly short, now and then up to the longest, seldom too long."""
    return rng.choice([rng.randint(0, most) for most in (4, 9, 16, 24, 69)])


def some_form(rng):
    """A form and a width that go together."""
    return rng.choice(FORMS_AND_WIDTHS)


# ---- malformed lines of either program
def spoiled(line):
    """A good line damaged in every way that a character can be."""
    yield line[:-1]
    yield line + b"0"
    for c in b"\r\0 Gg/:@`xZ\t-+\x7f\x80\xb5\xc3\xff":
        for place in (0, len(line) // 2, len(line) - 1):
            yield line[:place] + bytes([c]) + line[place + 1 :]
    yield line + b"\r"
    yield b" " + line
    yield line + b" "
    yield b"0x" + line
    yield line[::-1] + b"\xc3\xa9"


def any_spoiled(rng, line):
    return rng.choice(list(spoiled(line)))


def any_case(rng, line):
    """The same line with letters in either case."""
    return bytes(rng.choice([c, *bytes([c]).lower()]) for c in line)


# ---- the recode program
def recode_edges():
    yield b"0202010D"
    yield b"0209010D"
    for scalar, width, form, _ in printed_strings():
        yield recode_frame(form, width, scalar)
    for form, width in FORMS_AND_WIDTHS:
        for length in (0, 65, 66, 67, 69):
            yield recode_frame(form, width, b"\xff" * length)
        yield recode_frame(form, width, bytes(3) + b"\x01\x5d")
        yield recode_frame(form, width, bytes(66))
    for form in range(256):
        yield recode_frame(form, 2, b"\x0d")
    for width in range(256):
        yield recode_frame(WNAF, width, b"\x0d")
        yield recode_frame(MOF, width, b"\x0d")
    for form, width, length in itertools.product((0, 1, 2, 6, 255), (0, 1, 2, 3, 8, 9), (1, 66, 67, 69)):
        yield recode_frame(form, width, b"\x80" * length)


def recode_every_byte():
    for form, width in FORMS_AND_WIDTHS:
        for n in range(256):
            yield recode_frame(form, width, bytes([n]))


def recode_malformed():
    yield b""
    yield from spoiled(b"0202010D")
    yield from spoiled(recode_frame(9, 9, b"\xff"))
    for short in (b"0", b"02", b"020", b"0202", b"02020", b"020201", b"090901"):
        yield short
    for stated in (0, 1, 3, 66, 69, 70, 255):
        yield b"0203%02X1234" % stated
    for length in (66, 67, 69, 70, 71, 72, 73, 128, 255):
        yield recode_frame(WNAF, 3, b"\x5a" * length)
    whole = recode_frame(WNAF, 3, b"\x5a" * 69)
    yield whole + b"0"
    yield whole + b"00"
    yield b"G" * 144
    yield b"0" * 145
    yield b"0" * 4096
    yield b"G" * 10001
    yield b"0202010D\r"
    yield b"0202010d"
    yield b"02020aabcdefABCDEFabcd"
    yield b"04080AabCDefABcdEFabCD"


def some_recode_line(rng):
    """A line for the recode program, mostly good."""
    form, width = some_form(rng)
    line = recode_frame(form, width, scalar_like(rng, some_length(rng)))
    kind = rng.randrange(20)
    if kind == 0:
        return any_spoiled(rng, line)
    if kind == 1:
        return line[: rng.randrange(len(line))]
    if kind == 2:
        return recode_frame(rng.randrange(6), rng.randrange(11), scalar_like(rng, some_length(rng)))
    if kind <= 5:
        return any_case(rng, line)
    return line


def recode_input():
    """The stored standard input of recode; its last line has no line feed."""
    check_printed()
    rng = random.Random(SEED)
    lines = [*recode_edges(), *recode_every_byte(), *recode_malformed()]
    lines += [some_recode_line(rng) for _ in range(2500)]
    lines += [recode_frame(CLOSEST, 5, b"\x12\x34\x56")]
    return b"\n".join(lines)


# ---- the trial program: refusals two and more at once
def subsets(numbers):
    return itertools.chain.from_iterable(itertools.combinations(numbers, k) for k in range(len(numbers) + 1))


def set_edges():
    """Every set and its neighbours; every digit about the largest; the entries of a run; forms that have whole sets; and every pair of bytes about the widths."""
    for width, largest in second.sets():
        yield in_set(recode_fitting(WNAF, width, b"\xb7" * 66), largest)
        for scalar in (b"", b"\x0b", b"\x0d", b"\x5d\x01", b"\xb7" * 9):
            line = in_set(recode_fitting(WNAF, width, scalar), largest)
            yield line
            yield lowest_first(line)
            digits = second.form_digits(WNAF, width, scalar, largest=largest)
            for call in (check, nonadjacent):
                yield in_set(call(width, scalar, digits), largest)
                if largest > 1:
                    yield in_set(call(width, scalar, digits), largest - 2)
            yield in_set(tape(width, len(second.tape_of(digits)) + 1, digits), largest)
        for d in (largest - 2, largest - 1, largest, largest + 1, largest + 2):
            for digits in ([d], [-d]):
                if -128 <= digits[0] <= 127:
                    yield in_set(check(width, bytes([abs(d)]), digits), largest)
                    yield in_set(tape(width, 3, digits), largest)
        count = second.entries(width, largest)
        for lent in (count - 1, count, count + 1):
            yield in_set(run(width, lent, 1000, 7, [0x1000 + count - 1, 0, 0x3000]), largest)
        yield in_set(run(width, count, 1000, 7, [0x1000 + count]), largest)
        yield in_set(run(width, count, 1000, 7, []), largest)
        yield in_set(below_fitting(WNAF, width, b"\x0e", b"\x0d"), largest)
        yield in_set(below_fitting(WNAF, width, b"\x0d", b"\x0d"), largest)
        for form in second.FORMS:
            yield in_set(recode_fitting(form, width, b"\x9d"), largest)
    for width in (0, 1, *WIDTHS, 9, 255):
        for largest in {0, 1, 2, 3, 126, 127, 128, 129, 253, 254, 255, *(m + k for w in WIDTHS for m in (2 ** (w - 1) - 1, 2**w - 1) for k in (-2, -1, 0, 1, 2))}:
            if 0 <= largest <= 255:
                yield in_set(recode_fitting(WNAF, width, b"\xc5"), largest)
                yield in_set(check(width, b"\x01", [1]), largest)
                yield in_set(tape(width, 1, [1]), largest)
                yield in_set(run(width, 1, 7, 3, [0x1000]), largest)
    for line in (reader(3, 4, b"\x2a"), search(2, 5), write(1, 28, [1]), read(9, b"0000010001")):
        yield bytes([line[0] + 4]) + line[1:]
    for line in (in_set(tape(2, 1, [1]), 1), in_set(run(2, 1, 7, 3, [0x1000]), 1)):
        yield lowest_first(line)
    yield b"4102"
    yield b"410203"
    yield b"4203"
    yield b"42"


def set_faults():
    """Every set of faults at once, with 22 directly after 2."""
    for faults in subsets((1, 2, 22, 3, 4, 5)):
        length = 67 if 3 in faults else 2
        places = 8 * length + (0 if 4 in faults else 1)
        for form in (0, 6) if 1 in faults else (MOF, WNAF, WMOF):
            width = (3 if form == MOF else 9) if 2 in faults else 2
            for largest in (2, 5) if 22 in faults else (1,) if form != WNAF else (1, 3):
                yield in_set(recode(form, width, places, 8 if 5 in faults else 9, b"\x4d" * length), largest)
    for faults in subsets((2, 22, 3, 7, 8, 9, 10)):
        scalar = b"\x2b" if 9 in faults else b"\x2a"
        digits = [0, -3, 0, 0, 3] if 10 not in faults else [0, 1, 0, 1, 0, 1]
        digits = digits + [0] * (MOST_PLACES if 7 in faults else 0)
        if 8 in faults:
            digits[3] = 4
        for call in (check, nonadjacent):
            yield in_set(call(9 if 2 in faults else 3, bytes(66) + scalar if 3 in faults else scalar, digits), 4 if 22 in faults else 5)
    for faults in subsets((2, 22, 7, 8, 11)):
        digits = [0, -3, 0, 4 if 8 in faults else 0, 3] + [0] * (MOST_PLACES if 7 in faults else 0)
        room = len(second.tape_of(digits)) - (1 if 11 in faults else 0)
        yield in_set(tape(1 if 2 in faults else 3, room, digits), 6 if 22 in faults else 7)
    for faults in subsets((2, 22, 12, 13, 14, 15)):
        words = [0x1001, 0x0000, 0x0000, 0x5000 if 15 in faults else 0x0000, 0x4001, 0x0000]
        if 13 in faults:
            words += [0] * MOST_WORDS
        yield in_set(run(1 if 2 in faults else 3, 2 if 14 in faults else 3, 0 if 12 in faults else 10, 9, words[:1100]), 8 if 22 in faults else 5)


def recode_faults():
    for faults in subsets((1, 2, 3, 4, 5)):
        length = 67 if 3 in faults else 2
        places = 8 * length + (0 if 4 in faults else 1)
        marks = 8 if 5 in faults else 9
        scalar = bytes(range(1, length + 1))
        for form in (0, 5) if 1 in faults else (MOF, WMOF):
            width = (3 if form == MOF else 9) if 2 in faults else 2
            yield recode(form, width, places, marks, scalar)


def below_faults():
    for faults in subsets((1, 2, 3, 19, 20, 4, 5)):
        length = 67 if 3 in faults else 2
        scalar = bytes(range(1, length + 1))
        places = 8 * length + (0 if 4 in faults else 1)
        orders = (b"", bytes(length), b"\xff" * 67, bytes(80)) if 19 in faults else (b"\xff" * min(length, 66),)
        if 20 in faults and 19 not in faults:
            orders = (shortest(min(second.number(scalar), 256**66 - 1)), b"\x01")
        form = 6 if 1 in faults else WMOF
        for group in orders:
            yield below(form, 9 if 2 in faults else 2, places, 8 if 5 in faults else 9, group, scalar)


def check_faults():
    for faults in subsets((2, 3, 7, 8, 9, 10)):
        scalar = b"\x2b" if 9 in faults else b"\x2a"
        digits = [0, -3, 0, 0, 3]
        if 8 in faults:
            digits[2:4] = [4, -2]
        if 10 in faults:
            digits[4:] = [1, 1]
        if 7 in faults:
            digits += [0] * (MOST_PLACES + 1 - len(digits))
        if 3 in faults:
            scalar = bytes(MOST_BYTES) + scalar
        width = 9 if 2 in faults else 3
        yield check(width, scalar, digits)
        yield nonadjacent(width, scalar, digits)


def tape_faults():
    for faults in subsets((2, 7, 8, 11)):
        digits = [0, -3, 0, 4 if 8 in faults else 0, 3]
        if 7 in faults:
            digits += [0] * (MOST_PLACES + 1 - len(digits))
        room = len(second.tape_of(digits)) - (1 if 11 in faults else 0)
        yield tape(1 if 2 in faults else 3, room, digits)


def run_faults():
    for faults in subsets((2, 12, 13, 14, 15)):
        words = [0x1001, 0x0000, 0x0000, 0x5000 if 15 in faults else 0x0000, 0x4001, 0x0000]
        if 13 in faults:
            words += [0x0000] * (MOST_WORDS + 1 - len(words))
        width = (9 if 14 in faults else 1) if 2 in faults else 3
        room = (2 if width == 3 else 80) - (1 if 14 in faults else 0)
        yield run(width, room, 0 if 12 in faults else 10, 9, words)


def joint_faults():
    for faults in subsets((3, 18, 4, 11)):
        for side in (0, 1):  # which of two is at fault
            lengths = [2, 3 if 18 in faults else 2]
            if 3 in faults:
                lengths[side] = 67
            if 18 not in faults and 3 in faults:
                lengths = [67, 67]
            a, b = (bytes(range(1, n + 1)) for n in (lengths if side == 0 else lengths[::-1]))
            rooms = [min(8 * len(a) + 1, 600)] * 2
            if 4 in faults:
                rooms[side] -= 1
            words = 30 if len(a) != len(b) or len(a) > 66 else len(second.joint_tape(list(zip(*second.joint_rows(second.number(a), second.number(b), 8 * len(a))))))
            yield joint(*rooms, words - (1 if 11 in faults else 0), a, b)


def run_joint_faults():
    for faults in subsets((12, 13, 14, 15)):
        words = [0x1003, 0x0000, 0x0000, 0x3004 if 15 in faults else 0x0000, 0x4002, 0x0000]
        if 13 in faults:
            words += [0x0000] * (MOST_WORDS + 1 - len(words))
        yield run_joint(3 if 14 in faults else 4, 0 if 12 in faults else 10, 9, 8, words)


def powers_faults():
    """Each fault, every two of them at once, and all; 14 for either buffer and for both."""
    numbers = (2, 22, 12, 13, 14, 15, 17)
    for faults in [*itertools.chain.from_iterable(itertools.combinations(numbers, k) for k in range(3)), numbers]:
        words = [0x1001, 0x0000, 0x0000, 0x5000 if 15 in faults else 0x0000, 0x4001, 0x0000]
        if 13 in faults:
            words += [0x0000] * (MOST_WORDS + 1 - len(words))
        for lent in ((2, 3), (3, 2), (2, 2)) if 14 in faults else ((3, 3),):
            line = powers(1 if 2 in faults else 3, *lent, 0 if 12 in faults else 10, 9, 8 if 17 in faults else 9, words)
            yield in_set(line, 8 if 22 in faults else 5)


def second_faults():
    """Faults at once in the translation and in the run of the chip without subtraction: every set of them, of those with a long tape the small ones."""
    for faults in subsets((2, 22, 13, 15, 11)):
        words = [0x1001, 0x0000, 0x4002, 0x5000 if 15 in faults else 0x3000, 0x0000]
        if 13 in faults:
            words += [0x0000] * (MOST_WORDS + 1 - len(words))
        if 13 not in faults or len(faults) < 4:
            yield in_set(translate(1 if 2 in faults else 3, min(len(words) - (1 if 11 in faults else 0), 1100), words), 8 if 22 in faults else 5)
    for faults in subsets((2, 22, 12, 13, 14, 15)):
        words = [0x1001, 0x0000, 0x3005, 0x4000 if 15 in faults else 0x3000, 0x0000]
        if 13 in faults:
            words += [0x0000] * (MOST_WORDS + 1 - len(words))
        if 13 not in faults or len(faults) < 4:
            yield in_set(run_second(9 if 2 in faults else 3, 5 if 14 in faults else 6, 0 if 12 in faults else 10, 9, words), 8 if 22 in faults else 5)


def frame_faults():
    """Every set of faults of a written string, and of a line that is read."""
    for version, faults in itertools.product((1, 2), subsets([7, 24])):
        digits = [1, 0, -3] + [0] * (MOST_PLACES - 2 if 7 in faults else 0)
        length = len(second.frame_of(version, digits))
        yield write(version, length - 1 if 24 in faults else length, digits)
    for version, faults in itertools.product((1, 2), subsets([16, 7, 21, 4])):
        digits = [1, 0, -3] + [0] * (MOST_PLACES - 2 if 7 in faults else 0)
        line = second.frame_of(version, digits)
        if 21 in faults:
            line = line[:5] + b"3" + line[6:]
        if 16 in faults:
            line = line[:-1] + b"g"
        yield read(len(digits) - 1 if 4 in faults else len(digits), line)


def small_faults():
    for width, scalar in itertools.product((0, 1, 2, 8, 9, 255), (b"", b"\x9d", bytes(66), bytes(67))):
        yield reader(width, 3, scalar)
    for width, n in itertools.product((0, 1, 2, 3, 4, 8, 255), (0, 127, 128, 255, 256, 65535, 2**31, 2**32 - 1)):
        yield search(width, n)


# ---- the trial program: edges
def trial_recode_edges():
    for scalar, width, form, _ in printed_strings():
        yield recode_fitting(form, width, scalar)
    for form, width in FORMS_AND_WIDTHS:
        for length in (0, 1, 8, 66):
            yield recode_fitting(form, width, b"\xb7" * length)
        yield recode(form, width, 600, 12, b"\x00\x00\x9d")
    for length in (0, 1, 66, 67, 80):
        for spare in (-1, 0, 1):
            if 0 <= 8 * length + 1 + spare <= 600:
                yield recode(WMOF, 4, 8 * length + 1 + spare, 9, b"\xd3" * length)
    for length in (67, 80):
        yield recode(WMOF, 4, 600, 9, b"\xd3" * length)
    for marks in range(13):
        yield recode(WNAF, 2, 25, marks, b"\x01\x02\x03")
    for width in (0, 1, 2, 3, 7, 8, 9, 10, 255):
        for form in (0, 1, 2, 3, 4, 5, 255):
            yield recode(form, width, 9, 9, b"\xc5")
    for places in (0, 1, 2):
        yield recode(WNAF, 3, places, 9, b"")


def lowest_first_edges():
    """Both orders of one number, of bytes that are the same from both ends, and of zeros at either end; and calls that have no scalar."""
    for scalar, width, form, digits in printed_strings():
        yield lowest_first(recode_fitting(form, width, scalar[::-1]))
        yield lowest_first(recode_fitting(form, width, scalar))
        yield lowest_first(check(width, scalar[::-1], digits))
        yield lowest_first(nonadjacent(width, scalar[::-1], digits))
        yield lowest_first(check(width, scalar, digits))
    for form, width in FORMS_AND_WIDTHS:
        for scalar in (b"\x01\x00", b"\x00\x01", b"\x80\x00\x01", bytes(3) + b"\x01\x5d", b"\x5d\x01" + bytes(3), bytes(range(1, 67)), b"\xff" * 67):
            yield lowest_first(recode(form, width, min(8 * len(scalar) + 1, 600), 9, scalar))
        for length in range(1, 18):
            yield lowest_first(recode_fitting(form, width, bytes(range(0xE1, 0xE1 + length))))
    for width in WIDTHS:
        for scalar in (b"", b"\x0d\x00", b"\x00\x0d", bytes(range(9)), b"\xff" * 67):
            yield lowest_first(reader(width, 8 * min(len(scalar), 9) + 3, scalar))
    for line in (tape(2, 1, [1]), run(2, 1, 7, 3, [0x1000]), search(2, 5)):
        yield lowest_first(line)


# Orders of real groups: secp256k1's and P-256's, both printed in SEC 2.
GROUPS = [
    0xFFFFFFFFFFFFFFFFFFFFFFFFFFFFFFFEBAAEDCE6AF48A03BBFD25E8CD0364141,
    0xFFFFFFFF00000000FFFFFFFFFFFFFFFFBCE6FAADA7179E84F3B9CAC2FC632551,
]


def below_edges():
    """About real orders and powers of 256, in bytes of every length and in either order; bytes of nought before both; refused orders."""
    for n in GROUPS:
        group = n.to_bytes(32, "big")
        for off, refusal in ((-1, 0), (0, 20), (1, 20)):
            scalar = (n + off).to_bytes(32, "big")
            assert second.recode(WNAF, 4, scalar, [0] * 257, [0] * 9, group=group)[0][0] == refusal
            for form, width in FORMS_AND_WIDTHS:
                yield below_fitting(form, width, group, scalar)
            for front, more in ((0, 0), (1, 0), (0, 1), (34, 34), (34, 0), (0, 34), (35, 35)):
                yield below_fitting(WMOF, 4, bytes(front) + group, bytes(more) + scalar)
                yield lowest_first(below_fitting(WMOF, 4, bytes(front) + group, scalar[::-1] + bytes(more)))
            yield lowest_first(below_fitting(WNAF, 4, group, scalar))
        for place in range(32):
            for byte in (-1, 1):
                other = n + byte * 256**place
                if 0 <= other < 256**32:
                    yield below_fitting(WNAF, 5, group, other.to_bytes(32, "big"))
                    yield lowest_first(below_fitting(WNAF, 5, group, other.to_bytes(32, "little")))
    for k in (0, 1, 7, 8, 9, 32, 65):
        for off in (-1, 0, 1):
            n = 256**k + off
            for group in (1, 256**k - 1, 256**k, 256**k + 1, 256**66 - 1):
                for size in {(n.bit_length() + 7) // 8, 66}:
                    yield below_fitting(WNAF, 3, shortest(group), n.to_bytes(size, "big"))
    for size in (0, 1, 2, 66, 67, 80):
        for group in (bytes(size), b"\xff" * size, bytes(max(size - 1, 0)) + b"\x01"):
            for scalar in (b"", b"\x00", b"\x01", b"\x00\xff", b"\xff" * 66, bytes(67)):
                yield below_fitting(WMOF, 3, group, scalar)


def on_places(places, digits):
    return digits + [0] * (places - len(digits))


def check_edges():
    for scalar, width, form, digits in printed_strings():
        yield check(width, scalar, digits)
        yield nonadjacent(width, scalar, digits)
        yield check(width, scalar, digits[: second.top(digits)])
    for _, n, width, text in WORTH:
        yield check(width, shortest(n), from_top(text))
        yield nonadjacent(width, shortest(n), from_top(text))
    for call in (check, nonadjacent):
        for scalar in (b"", b"\x00", b"\x01", bytes(66), bytes(65) + b"\x01", bytes(67), bytes(80)):
            yield call(2, scalar, [])
            yield call(2, scalar, [0])
            yield call(2, scalar, [1])
            yield call(2, scalar, [-1])
        for width in (0, 1, 2, 3, 4, 8, 9, 255):
            yield call(width, b"\x04", [4])
            yield call(width, b"\x04", [0, 0, 1])
            yield call(width, b"\x05", [5])
        for places in (528, 529, 530, 600):
            yield call(2, b"\x01", on_places(places, [1]))
            yield call(2, b"\x01", on_places(places, [-1, 1]))
            yield call(2, b"\x01", on_places(places - 1, [1]) + [1])
            yield call(2, b"\x01", on_places(places - 1, [1]) + [2])
        all_ones = b"\xff" * 66
        yield call(2, all_ones, [-1] + [0] * 527 + [1])
        yield call(2, all_ones, [1] * 528)
        yield call(8, all_ones, [127] * 529)
        yield call(8, all_ones, [-127] * 529)
        yield call(8, all_ones, [-1] + [0] * 527 + [127])


def twist_strings():
    """Strings of other makers, from twists.txt, which says whose: width, scalar, digits, and the number and place that check and check_nonadjacent answer."""
    for row in (pathlib.Path(__file__).parent / "twists.txt").read_text().splitlines():
        if not row.startswith("#"):
            width, scalar, places, *answers = row.split("  ")
            digits = {int(j): int(d) for j, d in (place.split(":") for place in places.split())}
            yield int(width), bytes.fromhex(scalar), [digits.get(j, 0) for j in range(max(digits) + 1)], [tuple(map(int, answer.split())) for answer in answers]


def check_twists():
    for width, scalar, digits, (plain, strict) in twist_strings():
        assert second.check(width, scalar, digits)[:2] == plain
        assert second.check(width, scalar, digits, nonadjacent=True)[:2] == strict
        yield check(width, scalar, digits)
        yield nonadjacent(width, scalar, digits)
        yield lowest_first(nonadjacent(width, scalar[::-1], digits))


def check_every_digit():
    """Every byte as the only digit, at every width, against its absolute value."""
    for width in (1, *WIDTHS, 9):
        for d in range(-128, 128):
            yield check(width, bytes([abs(d)]), [d])


def check_far_off():
    """Worth off by a machine word or by its negative, above every scalar, and below 0."""
    for k in (8, 16, 31, 32, 33, 63, 64, 65, 127, 128, 256, 511, 512, 520, 528):
        for n in (0, 1, 13, 2**63 + 5):
            scalar = n.to_bytes(8, "big")
            digits = on_places(529, second.wnaf(n, 64, 3))
            for d in (1, -1):
                if digits[k] == 0:
                    yield check(3, scalar, digits[:k] + [d] + digits[k + 1 :])
    for n in (1, 13, 255, 2**64 - 1, 2**64, 2**127 - 3):
        scalar = n.to_bytes(16, "big")
        digits = second.wnaf(n, 128, 4)
        yield check(4, scalar, digits)
        yield check(4, scalar, [-d for d in digits])
        yield check(4, (2**64 - n % 2**64).to_bytes(16, "big"), [-d for d in digits])


def tape_edges():
    longest = [1, -1] * 264 + [1]
    for lent in (0, 1, 1056, 1057, 1058, 1100):
        yield tape(2, lent, longest)
        yield tape(8, lent, [0] * 529)
    yield tape(8, 1100, [127, -127] * 264 + [-127])
    yield tape(2, 1100, longest + [0])
    yield tape(2, 1100, longest + [2])
    yield tape(2, 1100, [1] * 600)
    for lent in (0, 1):
        for digits in ([], [0], [0] * 529, [1], [-1], [0, 1]):
            yield tape(2, lent, digits)
    for scalar, width, _, digits in printed_strings():
        need = len(second.tape_of(digits))
        for lent in {max(need - 1, 0), need, need + 2}:
            yield tape(width, lent, digits)
            yield tape(width, lent, [-d for d in digits])
    for width in (0, 1, *WIDTHS, 9, 255):
        yield tape(width, 4, [3, 1])
        yield tape(width, 4, [4])
        yield tape(width, 4, [1, 0, 127])
        yield tape(width, 4, [-127, 0, 2, 2])
        yield tape(width, 4, [-128])


def run_edges():
    for _, width, text, modulus, base, _, multiples in KNOWN_TAPES:
        words = [int(x, 16) for x in text.split()]
        for lent in (len(multiples) - 1, len(multiples), len(multiples) + 3):
            yield run(width, lent, modulus, base, words)
    most = 2**32 - 1
    for modulus, base in itertools.product((0, 1, 2, 3, 10, 2**31, most - 1, most), (0, 1, 9, 11, 2**31, most - 1, most)):
        yield run(3, 2, modulus, base, [0x1001, 0, 0, 0, 0x4001, 0])
        yield run(4, 4, modulus, base, [])
        yield run(3, 2, modulus, base, [0x2001, 0, 0x3000, 0x3001, 0x4000])
    for count in (1056, 1057, 1058, 1100):
        yield run(2, 1, 1000003, 5, [0x1000] + [0x0000] * (count - 1))
        yield run(8, 64, most, most, [0x203F] + [0x303F, 0x0000] * ((count - 1) // 2) + [0x403F] * ((count - 1) % 2))
    for width in (0, 1, *WIDTHS, 9, 255):
        need = 2 ** max(width - 2, 0)
        for lent in sorted({0, min(need - 1, 80), min(need, 80), 80}):
            yield run(width, lent, 97, 5, [0x1000, 0x0000, 0x3000])


def run_every_word():
    """Every code with the entries about a width's limit, as the first word, the second and the last."""
    for width in (2, 3, 5):
        limit = 2 ** (width - 2)
        for code, entry in itertools.product(range(16), sorted({0, 1, limit - 1, limit, limit + 1, 2047, 2048, 4095})):
            x = code << 12 | entry
            yield run(width, limit, 1009, 123, [x])
            yield run(width, limit, 1009, 123, [0x1000, x, 0x0000])
            yield run(width, limit, 1009, 123, [0x2000, 0x0000, 0x3000, x])


def joint_edges():
    """Document 001's pairs, every byte beside several, all lengths, and rooms one too few and more."""
    for a, b, _, _ in PRINTED_PAIRS:
        for size in (2, 3, 66):
            yield joint_fitting(a.to_bytes(size, "big"), b.to_bytes(size, "big"))
            yield joint_fitting(b.to_bytes(size, "big"), a.to_bytes(size, "big"))
            yield lowest_first(joint_fitting(a.to_bytes(size, "little"), b.to_bytes(size, "little")))
            yield lowest_first(joint(529, 529, 1057, a.to_bytes(size, "little"), b.to_bytes(size, "little")))
    for n in range(256):
        for other in (0, 1, 2, 3, 22, 85, 170, 255, n):
            yield joint_fitting(bytes([n]), bytes([other]))
    for length in (0, 1, 2, 7, 8, 9, 33, 65, 66, 67, 80):
        for a, b in itertools.product((b"\x00", b"\x01", b"\xff", b"\xaa", b"\x55", b"\xdb", b"\x6d"), repeat=2):
            yield joint_fitting(a * length, b * length)
    for a, b in ((b"", b""), (b"\x00", b"\x00"), (b"\x39", b"\x16"), (b"\x1a\x2b", b"\x12\xee"), (b"\xdb" * 66, b"\x6d" * 66)):
        need = second.joint(a, b, [0] * 529, [0] * 529, [0] * MOST_WORDS)[0][4]
        places = 8 * len(a) + 1
        for rooms in itertools.product((-1, 0, 2), repeat=3):
            yield joint(places + rooms[0], places + rooms[1], max(need + rooms[2], 0), a, b)
    for first, other in itertools.product((0, 1, 2, 66, 67, 80), repeat=2):
        yield joint(600, 600, 20, b"\xd3" * first, b"\x4e" * other)


def run_joint_edges():
    for a, b, _, _ in PRINTED_PAIRS:
        words = second.joint_tape(list(zip(*second.joint_rows(a, b, 14))))
        for lent, modulus in itertools.product((3, 4, 7), (1, 1000, 2**32 - 1)):
            yield run_joint(lent, modulus, 7, 11, words)
    most = 2**32 - 1
    for modulus, g, h in itertools.product((0, 1, 2, 10, 2**31, most), (0, 1, 9, 2**31, most), (0, 3, 11, most - 1, most)):
        yield run_joint(4, modulus, g, h, [0x1003, 0, 0x3002, 0x4001, 0, 0x3000])
        yield run_joint(4, modulus, g, h, [])
        yield run_joint(5, modulus, g, h, [0x2003])
    for count in (1056, 1057, 1058, 1100):
        yield run_joint(4, 1000003, 5, 7, [0x1001] + [0x0000] * (count - 1))
        yield run_joint(4, most, most, most, [0x2002] + [0x3003, 0x0000] * ((count - 1) // 2) + [0x4003] * ((count - 1) % 2))
    for code, entry in itertools.product(range(16), (0, 1, 2, 3, 4, 5, 4095)):
        x = code << 12 | entry
        for words in ([x], [0x1003, x, 0x0000], [0x2001, 0x0000, 0x3002, x]):
            yield run_joint(4, 1009, 123, 456, words)
    for lent in (0, 1, 2, 3, 4, 5, 80):
        yield run_joint(lent, 97, 5, 6, [0x1000])


def chip_words(width, words, largest=None):
    """A good tape in the words of the chip without subtraction."""
    return [second.translated(second.entries(width, largest), x) for x in words]


def second_edges():
    """Known tapes, rooms one too few and more, the largest numbers, the longest tapes, every width about the limits, and in every set a string's tape with its translation and the run of it."""
    for _, width, text, modulus, base, _, multiples in KNOWN_TAPES:
        words, count = [int(x, 16) for x in text.split()], len(multiples)
        for more in (-1, 0, 3):
            yield translate(width, len(words) + more, words)
            yield run_second(width, 2 * count + more, modulus, base, chip_words(width, words))
        yield run_second(width, 2 * count, modulus, base, words)
    most = 2**32 - 1
    for modulus, base in itertools.product((0, 1, 2, 10, 2**31, most), (0, 1, 9, 2**31, most)):
        yield run_second(3, 4, modulus, base, [0x1003, 0, 0x3000, 0x3001, 0x3002])
    for words in ([], [0x1000], [0x2000]):
        for lent in (0, 1, 2):
            yield translate(2, lent, words)
            yield run_second(2, lent, 7, 3, words)
    for count in (1057, 1058):
        words = [0x203F] + [0x303F, 0x0000] * ((count - 1) // 2) + [0x403F] * ((count - 1) % 2)
        yield translate(8, count, words)
        yield run_second(8, 128, most, most, chip_words(8, words))
    for width in (0, 1, *WIDTHS, 9, 255):
        need = min(2 ** max(width - 1, 0), 130)
        yield translate(width, 2, [0x2000, 0x4000 + max(need // 2 - 1, 0)])
        for lent in (need - 1, need):
            yield run_second(width, lent, 97, 5, [0x1000 + need - 1, 0x3000 + need // 2])
    for width, largest in second.sets():
        words = second.tape_of([-d for d in second.form_digits(WNAF, width, b"\xb7\x1d", largest=largest)])
        count = second.entries(width, largest)
        yield in_set(translate(width, len(words), words), largest)
        yield in_set(run_second(width, 2 * count, 1000003, 12345, chip_words(width, words, largest)), largest)
        yield in_set(run_second(width, 2 * count, 1009, 123, [0x1000 + 2 * count - 1, 0x3000 + 2 * count]), largest)


def second_every_word():
    """Every code, those that there are with the entries about the limits of either chip, first and later."""
    for code in range(16):
        for entry in (0, 1, 2, 3, 4, 4095) if code < 5 else (0,):
            for words in ([code << 12 | entry], [0x1000, code << 12 | entry]):
                yield translate(3, 2, words)
                yield run_second(3, 4, 1009, 123, words)


def inverse_of(modulus, base):
    """The inverse of a base that has one, else 1."""
    try:
        return pow(base, -1, modulus)
    except ValueError:
        return 1


def powers_edges():
    """Known tapes, every base and claimed inverse of small moduli, the largest numbers, the longest tapes, room in either buffer, and every set."""
    for _, width, text, _, _, _, multiples in KNOWN_TAPES:
        words, count = [int(x, 16) for x in text.split()], len(multiples)
        for modulus, base in ((7, 3), (1000, 7), (1000003, 5), (2**32 - 5, 123456789)):
            for lent in ((count, count), (count + 2, count), (count, count + 3), (count - 1, count), (count, count - 1)):
                yield powers(width, *lent, modulus, base, inverse_of(modulus, base), words)
    for modulus in (0, 1, 2, 6):
        for base, inverse in itertools.product(range(modulus + 2), repeat=2):
            yield powers(3, 2, 2, modulus, base, inverse, [0x2001, 0x0000, 0x3000])
    most = 2**32 - 1
    tapes = itertools.cycle(([], [0x1001], [0x2001], [0x1001, 0, 0, 0, 0x4001, 0], [0x2001, 0, 0x3000, 0x3001, 0x4000], [0x1000, 0x4000], [0x2000, 0x3001]))
    for modulus, base in itertools.product((1, 10, 2**31, most - 4, most), (0, 1, 2, 9, 2**31, most)):
        inverse = inverse_of(modulus, base)
        for claimed in (inverse, min(inverse + modulus, most), most - inverse):
            yield powers(3, 2, 3, modulus, base, claimed, next(tapes))
    for count in (1056, 1057, 1058, 1100):
        yield powers(2, 1, 1, 1000003, 5, inverse_of(1000003, 5), [0x1000] + [0x0000] * (count - 1))
        yield powers(8, 64, 64, most, 2, 2**31, [0x203F] + [0x303F, 0x0000] * ((count - 1) // 2) + [0x403F] * ((count - 1) % 2))
    for width, largest in second.sets():
        count = second.entries(width, largest)
        side = count % 2  # which buffer has a power more, or one too few
        for lent in ((count + side, count + 1 - side), (count - side, count - 1 + side)):
            yield in_set(powers(width, *lent, 1009, 123, inverse_of(1009, 123), [0x1000 + 0x1000 * side + count - 1, 0, 0x3000, 0x4000 + count - 1]), largest)
    for width in (0, 1, *WIDTHS, 9, 255):
        need = min(2 ** max(width - 2, 0), 80)
        for lent in (need - 1, need):
            yield powers(width, lent, 80, 97, 5, 39, [0x1000, 0x0000, 0x3000])
            yield powers(width, 80, lent, 97, 5, 39, [0x1000, 0x0000, 0x3000])


def powers_every_word():
    """Every code with the entries about a width's limit, as the first word and as a later one."""
    for code, entry in itertools.product(range(16), (0, 1, 2, 4095)):
        x = code << 12 | entry
        for words in ([x], [0x2000, x, 0x0000]):
            yield powers(3, 2, 2, 1009, 123, inverse_of(1009, 123), words)


def reader_edges():
    for n, width in itertools.product(range(256), WIDTHS):
        yield reader(width, 10, bytes([n]))
    for width in WIDTHS:
        for scalar in (b"", b"\x00", b"\x00\x0d", b"\xff\xff", b"\x80\x00\x01"):
            for calls in (0, 1, 8 * len(scalar), 8 * len(scalar) + 1, 8 * len(scalar) + 4):
                yield reader(width, calls, scalar)
        yield reader(width, 531, b"\x6d" * 66)
    yield reader(2, 700, b"\xff" * 66)
    yield reader(2, 700, b"\xff" * 67)
    yield reader(9, 700, b"\xff" * 80)


def cross_check():
    """The search beside the recoders, whose weights agree."""
    for n, width in itertools.product(range(128), (2, 3)):
        scalar = bytes([n])
        yield search(width, n)
        for form in (WNAF, WMOF, CLOSEST, SMALLER):
            yield recode_fitting(form, width, scalar)
            (_, _, weighs, _), _, _ = second.recode(form, width, scalar, [0] * 9, [0] * 9)
            assert (0, weighs) == second.search(n, width)


def write_edges():
    yield write(1, 28, [1, 0, -1, 0, 1, 0, 0, 0, 0])
    yield write(2, 32, [1, 0, -1, 0, 1, 0, 0, 0, 0])
    strings = [[], [0], [1], [-1], [0, 0, -128], [127, -128, 1, -1], [0] * 9, [1] * MOST_PLACES, [0] * MOST_PLACES, [1] * 530, [0] * 600]
    for version, digits in itertools.product((1, 2), strings):
        length = len(second.frame_of(version, digits))
        for lent in (0, length - 1, length, length + 1):
            yield write(version, min(lent, 3300), digits)
    for version in (1, 2):
        yield write(version, 3300, [127] * MOST_PLACES)
        for place in (0, 1, 255, 256, 257, 511, 512, 528):
            yield write(version, 1068, [0] * place + [-3] + [0] * (528 - place))
        for digit in range(-128, 128):
            yield write(version, 20, [digit])
    for version in (0, 3, 162, 255):
        yield write(version, 20, [1])


def read_edges():
    one = second.written
    for b in range(256):  # lines of one byte
        yield read(2, b"%02X" % b)
        yield read(0, b"%02x" % b)
        yield read(2, b"%02X" % b + b"0000000000000000")
    for line in (b"", b"0", b"00", b"A", b"A2", b"a2", b"0a", b"0G", b"06", b"6", b"010", b"0101"):
        yield read(3, line)
    strings = [[], [0], [1], [0, -1, 0], [127, -128], [1] * MOST_PLACES, [0] * MOST_PLACES]
    for digits, version in itertools.product(strings, (1, 2)):
        line = second.frame_of(version, digits)
        for lent in (0, len(digits) - 1, len(digits), len(digits) + 3):
            yield read(max(lent, 0), line)
        if len(line) < 100:
            yield read(9, line.lower())
            yield from (read(9, line[:k]) for k in range(len(line)))
            yield from (read(9, line + more) for more in (b"0", b"00", b"0000", b"000000", b"000101", b"0001FF", b"\n", b"\r"))
            yield from (read(9, spoil) for spoil in spoiled(line))
    # places at and past the count, in each order, twice; a zero digit; weights and tops that do not fit; in version 1 too
    for places in itertools.product((0, 1, 2, 3, 4, 256), repeat=2):
        for first, count, weighs in itertools.product((1, 0, 255), (0, 3, 4), (1, 2)):
            entries = b"".join(second.big_endian([p], 2) + bytes([d]) for p, d in zip(places, (first, 2)))
            yield read(4, one(bytes([162]) + second.big_endian([weighs, max(places) + 1, count], 2) + entries))
    for weighs, tops in itertools.product((0, 1, 2, 3, 256), (0, 1, 2, 3, 4, 256)):
        yield read(4, one(bytes([162]) + second.big_endian([weighs, tops, 3], 2) + bytes([0, 0, 1, 0, 1, 255])))
        yield read(4, one(bytes([0]) + second.big_endian([weighs, tops], 2) + bytes([1, 255, 0])))
    for count in (529, 530, 600, 65535):
        yield read(600, one(bytes([162]) + second.big_endian([0, 0, count], 2)))
    for places in (529, 530, 600):
        yield read(600, one(bytes([0]) + second.big_endian([0, 0], 2) + bytes(places)))


# Numbers of entries about each that a width needs.
ENTRIES = [0, 1, 2, 3, 4, 5, 7, 8, 9, 15, 16, 17, 31, 32, 33, 63, 64, 65, 255, 256, 65536, 2**32 - 1]


def choose_edges():
    """Every scalar of one byte with every number of entries that tells widths apart; zeros; scalars at which another width is best; 66 and 67 bytes; both orders."""
    for n in range(256):
        for entries in range(71):
            yield choose(entries, bytes([n]))
    for entries in ENTRIES:
        for scalar in (b"", bytes(1), bytes(66), b"\x01", b"\x01\x5d", b"\x5d\x01", bytes(range(1, 9)), b"\xff" * 16, bytes(range(100, 132)), b"\xa5" * 66, b"\xff" * 66, bytes(67), b"\xff" * 80):
            yield choose(entries, scalar)
            yield lowest_first(choose(entries, scalar))


def lighter_edges():
    """The forms of one number held against each other, each first once; ties; zeros above the top; the empty string; strings of every length up to the limit."""
    for scalar, width, _, digits in printed_strings():
        for form in (WNAF, WMOF, CLOSEST, SMALLER):
            made = second.form_digits(form, width, scalar)
            yield lighter(width, scalar, digits, made)
            yield lighter(width, scalar, made, digits)
    thirteen = [[1, 0, -1, 0, 1], [-1, 1, -1, 0, 1], [1, 0, 1, 1], [1, 0, 1, 1, 0, 0, 0, 0, 0], [-1, -1, 0, 0, 1], [-1, 1, 1, -1, 1]]
    for first, other in itertools.product(thirteen, repeat=2):
        yield lighter(2, b"\x0d", first, other)
        yield lowest_first(lighter(2, b"\x0d\x00", first, other))
        yield lowest_first(lighter(2, b"\x00\x0d", first, other))
    for scalar in (b"", bytes(1), bytes(66)):
        for first, other in itertools.product(([], [0], [0] * 9, [1, 1, -1, -1], [1]), repeat=2):
            yield lighter(3, scalar, first, other)
    for places in (528, 529, 530, 600):
        for first, other in (([1], on_places(places, [1])), (on_places(places, [-1, 1]), [1]), (on_places(places, [-1, 1]), on_places(places, [1]))):
            yield lighter(2, b"\x01", first, other)
            yield lighter(2, b"\x01", other, first)
    long = [0] * 528 + [1]
    for first, other in ((long, [0] * 527 + [-1, 1]), ([0] * 527 + [-1, 1], [0] * 526 + [-1, -1, 1]), ([0] * 526 + [-1, -1, 1], [0] * 526 + [1, 1])):
        yield lighter(2, b"\xc0" + bytes(65), first, other)
    for digit in range(-128, 128):
        yield lighter(5, b"\x15", [digit], [5, 0, 0, 0, 1])
        yield lighter(5, b"\x15", [5, 0, 0, 0, 1], [5, 0, 0, 0, digit])


def lighter_faults():
    """Every set of faults: of width and scalar, of the first string and of the second."""
    for common, of_first, of_other in itertools.product(subsets((2, 3)), subsets((7, 8, 9)), subsets((7, 8, 9))):
        strings = []
        for faults in (of_first, of_other):
            digits = [0, -3, 0, 0, 3]
            if 8 in faults:
                digits[2:4] = [4, -2]
            if 9 in faults:
                digits[0] = 1
            strings.append(on_places(MOST_PLACES + 1, digits) if 7 in faults else digits)
        yield lighter(9 if 2 in common else 3, (bytes(MOST_BYTES) if 3 in common else b"") + b"\x2a", *strings)


def trial_malformed():
    good = [
        recode_fitting(WNAF, 3, b"\x2a"),
        check(3, b"\x2a", [0, -3, 0, 0, 3]),
        nonadjacent(3, b"\x2a", [0, -3, 0, 0, 3]),
        tape(3, 7, [0, -3, 0, 0, 3]),
        run(3, 3, 10, 9, [0x1001, 0, 0x3000]),
        powers(3, 2, 3, 7, 3, 5, [0x1001, 0, 0x4000]),
        reader(3, 4, b"\x2a"),
        search(3, 42),
        joint_fitting(b"\x39", b"\x16"),
        run_joint(4, 10, 9, 8, [0x1003, 0, 0x3002]),
        translate(3, 4, [0x2001, 0, 0x4000]),
        run_second(3, 4, 10, 9, [0x1003, 0, 0x3002]),
        below_fitting(WNAF, 3, b"\x2b", b"\x2a"),
        write(2, 40, [0, -3, 0, 0, 3]),
        read(6, second.frame_of(2, [0, -3, 0, 0, 3])),
        choose(4, b"\x2a"),
        lighter(3, b"\x2a", [0, -3, 0, 0, 3], [0, -3, 0, 0, 1, 1]),
    ]
    for line in good:
        yield line
        yield line.lower()
        yield from spoiled(line)
        yield from (line[: 2 * k] for k in range(len(line) // 2))
        yield line + b"00"
        yield line + b"1000"
    for call in (0, 8, 13, 16, 18, 32, 33, 46, 63, 64, 65, 97, 127, 128, 136, 138, 142, 143, 160, 161, 192, 193, 255):
        yield b"%02X" % call + good[0][2:]
        yield b"%02X" % call
    yield from at_the_limits()


def at_the_limits():
    """As much as the program has, and one more."""
    for more in (0, 1):
        yield recode(WNAF, 3, 600 + more, 9, b"\x2a")
        yield recode(WNAF, 3, 9, 12 + more, b"\x2a")
        yield recode(WNAF, 3, 9, 9, bytes(80 + more))
        yield check(2, b"\x01", [1] * (600 + more))
        yield check(2, bytes(80 + more), [1])
        yield hexadecimal(bytes([3, 2, 5, 0, 0, 0, 1, 0][: 8 - more]))
        yield tape(2, 1100 + more, [1])
        yield tape(2, 5, [1] * (600 + more))
        yield run(2, 140 + more, 7, 3, [0x1000])
        yield run(2, 1, 7, 3, [0x1000] * (1100 + more))
        yield powers(2, 140 + more, 1, 7, 3, 5, [0x1000])
        yield powers(2, 1, 140 + more, 7, 3, 5, [0x1000])
        yield powers(2, 1, 1, 7, 3, 5, [0x1000] * (1100 + more))
        yield reader(2, 700 + more, b"\x01")
        yield reader(2, 1, bytes(80 + more))
        yield below(WNAF, 3, 600 + more, 9, b"\x2b", b"\x2a")
        yield below(WNAF, 3, 9, 12 + more, b"\x2b", b"\x2a")
        yield below(WNAF, 3, 9, 9, bytes(80 + more), b"\x2a")
        yield below(WNAF, 3, 9, 9, b"\x2b", bytes(80 + more))
        yield joint(600 + more, 9, 20, b"\x39", b"\x16")
        yield joint(9, 600 + more, 20, b"\x39", b"\x16")
        yield joint(9, 9, 1100 + more, b"\x39", b"\x16")
        yield joint(9, 9, 20, bytes(80 + more), b"\x16")
        yield joint(9, 9, 20, b"\x39", bytes(80 + more))
        yield run_joint(140 + more, 7, 3, 2, [0x1000])
        yield run_joint(4, 7, 3, 2, [0x1000] * (1100 + more))
        yield translate(2, 1100 + more, [0x2000])
        yield translate(2, 1, [0x2000] * (1100 + more))
        yield run_second(2, 140 + more, 7, 3, [0x1001])
        yield write(2, 3300 + more, [1])
        yield write(2, 50, [1] * (600 + more))
        yield read(600 + more, b"01")
        yield read(1, b"0" * (3300 + more))
        yield choose(4, bytes(80 + more))
        yield lighter(2, b"\x01", [1] * (600 + more), [1])
        yield lighter(2, b"\x01", [1], [1] * (600 + more))
        yield lighter(2, bytes(80 + more), [1], [1])
    yield joint(600, 600, 1100, b"\xdb" * 66, b"\x6d" * 66)
    yield hexadecimal(bytes([9, 0, 9, 0, 9, 0, 20, 2, 1]))
    yield recode(WNAF, 3, 65535, 9, b"\x2a")
    yield recode(WNAF, 3, 9, 255, b"\x2a")
    yield hexadecimal(bytes([2, 2, 255, 1]))
    yield tape(2, 65535, [1])
    yield run(2, 65535, 7, 3, [])
    yield reader(2, 65535, b"\x01")
    yield run(2, 1, 7, 3, [0x1000] * 1100) + b"0"
    yield run(2, 1, 7, 3, [0x1000] * 1100) + b"00"
    yield run(2, 1, 7, 3, [0x1000] * 4000)


# ---- the trial program: random lines
def some_digits(rng, width, places):
    """Digits of the set, thinly or thickly."""
    allowed = [d for d in second.digit_set(width) if d != 0]
    share = rng.choice([0.1, 0.4, 1.0])
    return [rng.choice(allowed) if rng.random() < share else 0 for _ in range(places)]


def any_recode(rng):
    form, width = some_form(rng)
    scalar = scalar_like(rng, some_length(rng))
    places = 8 * len(scalar) + 1 + rng.choice([0, 0, 0, 0, 1, 5, -1])
    return recode(form, width, min(places, 600), rng.choice([9, 9, 9, 9, 10, 8]), scalar)


def any_below(rng):
    """An order near the scalar, mostly: some off, one byte off, the same, or any; with bytes of nought before either."""
    form, width = some_form(rng)
    scalar = scalar_like(rng, some_length(rng))
    n = second.number(scalar)
    kind = rng.randrange(6)
    if kind == 0:
        group = scalar_like(rng, some_length(rng))
    else:
        off = [1, rng.choice([-1, 0, 0, 1, 2]), 256 ** rng.randrange(len(scalar) + 1), -(256 ** rng.randrange(len(scalar) + 1)), rng.randrange(1, 2**64)][kind - 1]
        group = shortest(max(n + off, 0))
        group = bytes(rng.choice([0, 0, 0, 1, max(len(scalar) - len(group), 0)])) + group
    places = 8 * len(scalar) + 1 + rng.choice([0, 0, 0, 0, 0, 1, 5, -1])
    return below(form, width, min(places, 600), rng.choice([9, 9, 9, 9, 9, 10, 8]), group, scalar)


def any_check(rng):
    """A string of some form or of any digits, often worth its scalar, now and then damaged."""
    width = rng.choice(WIDTHS)
    call = rng.choice([check, nonadjacent])
    if rng.random() < 0.3:
        digits = some_digits(rng, width, rng.randrange(40))
        n = abs(second.worth(digits))
        digits = [-d for d in digits] if second.worth(digits) < 0 and rng.random() < 0.9 else digits
        scalar = bytes(rng.randrange(3)) + shortest(n)
    else:
        scalar = scalar_like(rng, min(some_length(rng), 66))
        digits = second.form_digits(rng.choice([WNAF, WMOF, CLOSEST, SMALLER]), width, scalar)
    kind = rng.randrange(8)
    if kind == 0 and digits:
        digits[rng.randrange(len(digits))] = rng.randint(-128, 127)
    elif kind == 1:
        digits = digits[: rng.randrange(len(digits) + 1)]
    elif kind == 2:
        width = rng.choice(WIDTHS)
    elif kind == 3:
        digits = on_places(min(len(digits) + rng.randrange(30), MOST_PLACES), digits)
    elif kind == 4 and len(scalar) > 0:
        n = second.number(scalar) ^ 1 << rng.randrange(8 * len(scalar))
        scalar = n.to_bytes(len(scalar), "big")
    return call(width, scalar, digits)


def any_tape(rng):
    width = rng.choice(WIDTHS)
    digits = some_digits(rng, width, rng.choice([rng.randrange(12), rng.randrange(60), rng.randrange(200)]))
    if rng.random() < 0.1 and digits:
        digits[rng.randrange(len(digits))] = rng.randint(-128, 127)
    need = len(second.tape_of(digits))
    return tape(width, max(need + rng.choice([0, 0, 1, 3, -1]), 0), digits)


def some_words(rng, width):
    """A tape of a string, or good words in any order after a load, now and then with a bad one."""
    if rng.random() < 0.4:
        words = second.tape_of(some_digits(rng, width, rng.randrange(60)))
    else:
        words = [rng.choice([1, 2]) << 12 | rng.randrange(second.entries(width))]
        for _ in range(rng.randrange(60)):
            add, subtract = (code << 12 | rng.randrange(second.entries(width)) for code in (second.ADD, second.SUBTRACT))
            words.append(rng.choice([0, add, subtract]))
    if rng.random() < 0.15 and words:
        words[rng.randrange(len(words))] = rng.choice([rng.randrange(65536), 0x1000, 0x0001, 0x5000, 0x3040])
    return words


def any_run(rng):
    width = rng.choice(WIDTHS)
    bits = rng.choice([1, 4, 8, 16, 31, 32])
    modulus, base = rng.randrange(2**bits), rng.randrange(2 ** rng.choice([bits, 32]))
    lent = second.entries(width) + rng.choice([0, 0, 0, 2, -1])
    return run(width, lent, modulus, base, some_words(rng, width))


def any_joint(rng):
    """Two scalars of one length, mostly; now and then the same one twice, or one that is near the other."""
    a = scalar_like(rng, some_length(rng))
    b = scalar_like(rng, len(a) if rng.random() < 0.95 else some_length(rng))
    kind = rng.randrange(12)
    if kind == 0:
        b = a
    elif kind == 1 and a:
        b = (second.number(a) ^ 1 << rng.randrange(8 * len(a))).to_bytes(len(a), "big")
    places, others = (min(max(8 * len(a) + 1 + rng.choice([0, 0, 0, 0, 0, 0, 1, 5, -1]), 0), 600) for _ in range(2))
    need = second.joint(a, b, [0] * 529, [0] * 529, [0] * MOST_WORDS)[0][4]
    return joint(places, others, max(need + rng.choice([0, 0, 0, 0, 1, 3, -1]), 0), a, b)


def any_run_joint(rng):
    """A pair's tape, or any words over four entries."""
    bits = rng.choice([1, 4, 8, 16, 31, 32])
    modulus, g, h = rng.randrange(2**bits), rng.randrange(2 ** rng.choice([bits, 32])), rng.randrange(2 ** rng.choice([bits, 32]))
    if rng.random() < 0.5:
        n = rng.randrange(1, 70)
        words = second.joint_tape(list(zip(*second.joint_rows(rng.randrange(2**n), rng.randrange(2**n), n))))
        if rng.random() < 0.15 and words:
            words[rng.randrange(len(words))] = rng.choice([rng.randrange(65536), 0x1000, 0x0001, 0x5000, 0x3004])
    else:
        words = some_words(rng, second.JOINT_WIDTH)
    return run_joint(4 + rng.choice([0, 0, 0, 2, -1]), modulus, g, h, words)


def any_powers(rng):
    """In a whole set or any other, with the true inverse mostly; the tape of a string of the set, of its negative, or any words."""
    width, largest = rng.choice(second.sets())
    bits = rng.choice([1, 4, 8, 16, 31, 32])
    modulus = rng.randrange(2**bits)
    bases = [rng.randrange(2 ** rng.choice([bits, 32])) for _ in range(8)]
    base = next((b for b in bases if math.gcd(b, modulus) == 1), bases[0])
    inverse = rng.randrange(2**32) if modulus == 0 or rng.random() < 0.1 else inverse_of(modulus, base)
    if modulus != 0 and rng.random() < 0.2:
        inverse = (inverse + modulus * rng.randrange(4)) % 2**32
    lent = [second.entries(width, largest) + rng.choice([0, 0, 0, 0, 0, 0, 2, -1]) for _ in range(2)]
    words = some_words(rng, width)
    if rng.random() < 0.5:
        sign = rng.choice([1, -1])
        words = second.tape_of([sign * d for d in second.form_digits(WNAF, width, scalar_like(rng, rng.randrange(9)), largest=largest)])
    line = powers(width, *lent, modulus, base, inverse, words)
    return line if largest == second.whole(width) and rng.randrange(2) else in_set(line, largest)


def any_second(rng):
    """Any tape in any set, translated, or run in the words of the chip without subtraction; now and then with a word that it has not."""
    width, largest = rng.choice(second.sets())
    count = second.entries(width, largest)
    words = some_words(rng, width)
    if rng.randrange(3) == 0:
        line = translate(width, max(len(words) + rng.choice([0, 0, 0, 1, 3, -1]), 0), words)
    else:
        bits = rng.choice([1, 4, 8, 16, 31, 32])
        modulus, base = rng.randrange(2**bits), rng.randrange(2 ** rng.choice([bits, 32]))
        words = words if second.bad_words(count, words) else chip_words(width, words, largest)
        if rng.random() < 0.15 and words:
            words[rng.randrange(len(words))] = rng.choice([rng.randrange(65536), 0x2000, 0x4000, 0x0001, 0x1000, 0x3000 + 2 * count, 0x3000 + 2 * count - 1])
        line = run_second(width, 2 * count + rng.choice([0, 0, 0, 0, 2, -1]), modulus, base, words)
    return line if largest == second.whole(width) and rng.randrange(2) else in_set(line, largest)


def any_reader(rng):
    scalar = scalar_like(rng, min(some_length(rng), 67))
    return reader(rng.choice(WIDTHS), max(8 * len(scalar) + rng.choice([0, 1, 2, 4]), 0), scalar)


def any_search(rng):
    number = rng.choice([rng.randrange(most) for most in (128, 128, 2**32)])
    return search(rng.choice([1, 2, 2, 3, 3, 4]), number)


def any_choose(rng):
    entries = rng.choice([rng.choice(ENTRIES), rng.randrange(70), 2 ** rng.randrange(32)])
    return choose(entries, scalar_like(rng, some_length(rng)))


def any_lighter(rng):
    """Two strings of one number, now and then one of another, one spoiled, or one with places more or fewer."""
    width = rng.choice(WIDTHS)
    scalar = scalar_like(rng, min(some_length(rng), 66))
    strings = [second.form_digits(rng.choice([WNAF, WMOF, CLOSEST, SMALLER]), rng.choice([width, width, LEAST_WIDTH]), scalar) for _ in range(2)]
    kind, k = rng.randrange(10), rng.randrange(2)
    if kind == 0:
        strings[k][rng.randrange(len(strings[k]))] = rng.randint(-128, 127)
    elif kind == 1:
        strings[k] = strings[k][: second.top(strings[k])]
    elif kind == 2:
        strings[k] = on_places(rng.randrange(len(strings[k]), 600), strings[k])
    elif kind == 3:
        width = rng.choice([1, 2, 8, 9])
    return lighter(width, scalar, *strings)


def any_lowest_first(rng, line):
    """The call on bytes that come lowest first: the same bytes, or for a check and beside a group order mostly the same number."""
    call = int(line[:2], 16)
    if call in (2, 3, 17) and rng.random() < 0.8:
        end = 6 + 2 * int(line[4:6], 16)
        scalar = bytes.fromhex(line[6:end].decode("ascii"))
        line = line[:6] + hexadecimal(scalar[::-1]) + line[end:]
    if call == 11 and rng.random() < 0.8:
        start = 14 + 2 * int(line[12:14], 16)
        line = line[:start] + hexadecimal(bytes.fromhex(line[start:].decode("ascii"))[::-1])
    return lowest_first(line) if call in (1, 2, 3, 6, 9, 11, 16, 17) or rng.random() < 0.1 else line


def frame_string(rng):
    """A string to write: thin or thick, of few places or of many."""
    places = rng.choice([rng.randrange(6), rng.randrange(40), rng.randrange(40), rng.randrange(200)])
    often = rng.choice([0.05, 0.3, 1])
    return [rng.randint(-128, 127) if rng.random() < often else 0 for _ in range(places)]


def any_write(rng):
    version, digits = rng.choice([1, 2]), frame_string(rng)
    return write(version, max(len(second.frame_of(version, digits)) + rng.choice([0, 0, 1, 5, -1, -9]), 0), digits)


def damaged(rng, line):
    """A line as a pulled card has it: cut, overwritten, joined to another, in the other case, or with a part moved."""
    kind = rng.randrange(9)
    if kind == 0:
        return line[: rng.randrange(len(line) + 1)]
    if kind == 1:
        return line[rng.randrange(len(line) + 1) :]
    if kind == 2:
        return line + second.frame_of(rng.choice([1, 2]), frame_string(rng))
    if kind == 3:
        return any_case(rng, line)
    if kind == 4 and len(line) >= 26 and line[:2] == b"A2":  # two entries in each other's place
        a, b = sorted(rng.sample(range(14, len(line), 6), 2))
        return line[:a] + line[b : b + 6] + line[a + 6 : b] + line[a : a + 6] + line[b + 6 :]
    if kind == 5:
        at = rng.randrange(len(line) + 1)
        return line[:at] + rng.choice([b"0", b"00", b"000000", b"A2", b"\r", b"g"]) + line[at:]
    for _ in range(rng.choice([1, 1, 2, 5])):
        at = rng.randrange(len(line))
        line = line[:at] + bytes([rng.choice(b"0123456789ABCDEFabcdef" if kind < 8 else bytes(range(256)))]) + line[at + 1 :]
    return line


def any_read(rng):
    digits = frame_string(rng)
    line = second.frame_of(rng.choice([1, 2, 2]), digits) if rng.random() < 0.97 else b"%02X" % rng.randrange(24)
    if rng.random() < 0.6:
        line = damaged(rng, line)
    return read(max(len(digits) + rng.choice([0, 0, 0, 3, -1]), 0), line)


def any_in_set(rng):
    """A call in any set, of a string that the set has, or of its tape; now and then in another set."""
    width, largest = rng.choice(second.sets())
    scalar = scalar_like(rng, some_length(rng))
    digits = second.form_digits(WNAF, width, scalar, largest=largest)[: rng.choice([600, 600, 30])]
    words = second.tape_of(digits)
    line = rng.choice([
        recode_fitting(WNAF, width, scalar) if len(scalar) <= 66 else recode(WNAF, width, 600, 9, scalar),
        below(WNAF, width, min(8 * len(scalar) + 1, 600), 9, shortest(second.number(scalar) + rng.choice([0, 1, 2])), scalar),
        check(width, scalar, digits[:600]),
        nonadjacent(width, scalar, digits[:600]),
        tape(width, rng.choice([1100, len(words), max(len(words) - 1, 0)]) % 1101, digits[:600]),
        run(width, rng.choice([64, second.entries(width, largest), second.entries(width, largest) - 1]), rng.randrange(2**32), rng.randrange(2**32), words[:1100]),
    ])
    if rng.randrange(5) == 0:
        largest = rng.choice([rng.choice(second.sets())[1], rng.randrange(256), largest + 2, max(largest - 2, 0)])
    return in_set(line, largest)


def every_set():
    """Every set over every scalar of one byte, and over 2,000 random ones."""
    rng = random.Random(SEED + 2)
    for width, largest in second.sets():
        for n in range(256):
            yield in_set(recode_fitting(WNAF, width, bytes([n])), largest)
    for _ in range(2000):
        width, largest = rng.choice(second.sets())
        yield in_set(recode_fitting(WNAF, width, rng.randbytes(rng.choice([32, 32, 66, rng.randrange(67)]))), largest)


def good_frame(rng):
    """A line that is read without refusal: a frame of either version, or a refused line."""
    return second.frame_of(rng.choice([1, 2]), frame_string(rng)) if rng.random() < 0.97 else b"%02X" % rng.choice(sorted(second.STATED))


def damaged_file(rng, count):
    """So many frames of both versions as a pulled card has them, about half of the lines damaged; the last one may have no line feed."""
    lines = [good_frame(rng) for _ in range(count)]
    lines = [damaged(rng, line) if rng.random() < 0.5 else line for line in lines]
    return b"\n".join(lines) + rng.choice([b"", b"\n"])


def salvage_edges():
    """Lines at the limits, every line of one byte, and line ends and characters that are no frame's."""
    full, thin = [1] * MOST_PLACES, [0] * MOST_PLACES
    frames = [second.frame_of(version, digits) for version in (1, 2) for digits in ([], [0], [-128, 127], full, thin, full + [1], thin + [0])]
    good = second.frame_of(2, [1, 0, -1])
    yield from frames
    yield from (line.lower() for line in frames)
    yield from (b"%02X" % b for b in range(256))
    yield from (b"%02x" % b for b in range(256))
    yield from (b"", b"0", b"\r", good + b"\r", b" " + good, good + b" ", b"\0", good + b"\0", b"\0" * 40, b"\xff" * 40, good + good, b"g" + good[1:])
    yield from (b"0" * (second.MOST_LINE + more) for more in (-1, 0, 1, 2))
    yield from (second.frame_of(2, full) + more for more in (b"0", b"00", b"000000"))
    yield from (good[:at] for at in range(len(good)))


def salvage_input():
    """The stored standard input of salvage; its last line has no line feed."""
    return b"\n".join(salvage_edges()) + b"\n" + damaged_file(random.Random(SEED + 2), 1200).rstrip(b"\n")


def some_trial_line(rng):
    """A line for the trial program, mostly good."""
    line = rng.choice([any_recode, any_below, any_check, any_check, any_tape, any_run, any_joint, any_joint, any_run_joint, any_powers, any_powers, any_second, any_second, any_reader, any_search, any_write, any_read, any_read, any_in_set, any_in_set, any_choose, any_lighter])(rng)
    if rng.randrange(3) == 0:
        line = any_lowest_first(rng, line)
    kind = rng.randrange(40)
    if kind == 0:
        return any_spoiled(rng, line)
    if kind == 1:
        return line[: rng.randrange(len(line))]
    if kind == 2:
        return hexadecimal([rng.randrange(13)] + list(rng.randbytes(rng.randrange(40))))
    if kind <= 5:
        return any_case(rng, line)
    return line


def trial_input():
    """The stored standard input of trial; its last line has no line feed."""
    rng = random.Random(SEED + 1)
    lines = [
        *trial_recode_edges(),
        *lowest_first_edges(),
        *below_edges(),
        *check_edges(),
        *check_every_digit(),
        *check_far_off(),
        *check_twists(),
        *tape_edges(),
        *run_edges(),
        *run_every_word(),
        *joint_edges(),
        *run_joint_edges(),
        *powers_edges(),
        *powers_every_word(),
        *second_edges(),
        *second_every_word(),
        *reader_edges(),
        *cross_check(),
        *write_edges(),
        *read_edges(),
        *choose_edges(),
        *lighter_edges(),
        *set_edges(),
        *set_faults(),
        *recode_faults(),
        *below_faults(),
        *check_faults(),
        *tape_faults(),
        *run_faults(),
        *joint_faults(),
        *run_joint_faults(),
        *powers_faults(),
        *second_faults(),
        *frame_faults(),
        *lighter_faults(),
        *small_faults(),
        *trial_malformed(),
    ]
    lines += [some_trial_line(rng) for _ in range(4000)]
    lines += [search(3, 11)]
    return b"\n".join(lines)
