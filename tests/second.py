#!/usr/bin/env python3
"""The independent second program: every call of document 01 and of the requests after it, worked out from its definitions alone.

Nothing here is taken from the library. Numbers are Python's integers. MOF comes from bits, wNAF from signed
residues, in a set between two widths by the rule of request 13, wMOF from the document's windows, the closest form from trying candidates, worth from summing, the search
from trying every digit, the joint sparse form from Solinas's rule, and once more by trying every column. The functions are short and slow; that they and the library agree is the point.

    python3 tests/second.py write    writes stdin and stdout of the programs recode, sparse, salvage and trial
    python3 tests/second.py check    makes them again and says where what is stored differs (exit 1)
    python3 tests/second.py widths   weighs every scalar of one and of two bytes at every width, in every form but MOF; minutes
    python3 tests/second.py pairs    searches the joint sparse form of every pair of one-byte scalars: the only one, and of the fewest columns

The first two hold the definitions against each other before (`own_checks`). The lines themselves are made in cases.py.

The trial program
-----------------
It makes every public call from a line of hexadecimal pairs, in either case, and answers each line with one line of
capitals: every field, then every lent buffer whole. Numbers of more than one byte have their high byte first.

    call              then                                                  answers
    01 recode         form 1, width 1, places lent 2, mark words lent 1,    refusal 1, place 2, weight 2, top 2, digits,
                      scalar                                                marks
    02 check          width 1, scalar length 1, scalar, digits              refusal 1, place 2, weight 2, top 2
    03 nonadjacent    as 02                                                 as 02
    04 tape           width 1, words lent 2, digits                         refusal 1, place 2, words 2, doublings 2,
                                                                            additions 2, the words lent
    05 run            width 1, multiples lent 2, modulus 4, base 4, tape    refusal 1, place 2, residue 4, doublings 2,
                                                                            additions 2, cost additions 2, cost
                                                                            doublings 2, the multiples lent
    06 reader         width 1, calls 2, scalar                              refusal 1, then for each call 01 and the
                                                                            digit, or 0000 for done
    07 search         width 1, number 4                                     refusal 1, weight 1
    08 powers         width 1, powers lent 2, inverse powers lent 2,        as 05, with the powers lent and the inverse
                      modulus 4, base 4, inverse 4, tape                    powers lent for the multiples
    09 joint          places lent for a 2, for b 2, words lent 2,           refusal 1, place 2, columns 2, top 2, words 2,
                      length of a 1, a, b                                   doublings 2, additions 2, row a, row b, the
                                                                            words lent
    0A joint run      multiples lent 2, modulus 4, g 4, h 4, tape           as 05
    0B recode below   form 1, width 1, places lent 2, mark words lent 1,    as 01
                      group order's length 1, group order, scalar
    0C translate      width 1, words lent 2, tape                           refusal 1, place 2, words 2, the words lent
    0D second run     as 05                                                 as 05
    0E write          version 1, characters lent 2, digits                  refusal 1, length 2, the line's buffer
    0F read           places lent 2, the line's characters                  refusal 1, stated number 1, weight 2, top 2,
                                                                            places 2, digits
    10 choose         entries 4, scalar                                     refusal 1, width 1, total 2
    11 lighter        width 1, scalar length 1, scalar, first's length 2,   refusal 1, places of the part 2, the part
                      first, second

A digit is one byte in two's complement, a mark word eight bytes, a tape word two, a multiple and a power four. Before
the call every lent digit is 5A, mark word A5A5A5A5A5A5A5A5, tape word EEEE, multiple DEADBEEF, power DEADBEEF, inverse
power C0DEC0DE, character of a line 2E. What has no stated length runs to the end of the line. A line ends at a line
feed; a last line without one counts if not empty.

With 80 added to the call, 81, 82, 83, 86, 89, 8B, 90 and 91, a scalar's bytes come lowest first; else they come highest first.
The group order's come highest first in either.

With 40 added to the call, 41 to 45, 48, 4B, 4C, 4D, C1, C2, C3 and CB, the largest digit (1) of a digit set follows the
width; else the set is the whole width's.

FF answers a line that is no such frame: empty, of odd length, with another character, of another call, without a
part of a fixed field, of the stated scalar or of the stated first string, with half a tape word at its end, with anything after a search, or with
a version that is not 1 or 2. FF
also answers a line that asks for more than the program has: over 600 digits or places, 12 mark words, 1,100 tape
words (given or lent), 140 multiples or powers of either, 80 bytes of a scalar or of a group order, 700 reader calls, 3,300 characters of a line (given or lent). So
the longest frame is that of a line to read: 3,303 bytes, 6,606 characters, and FF answers every longer line.
"""

import functools
import os
import random
import sys

sys.dont_write_bytecode = True  # the tests leave no folder of their own

# ---- limits
LEAST_WIDTH, MOST_WIDTH = 2, 8
MOST_BYTES, MOST_PLACES, MOST_WORDS = 66, 529, 1057
MARK_WORDS, MARK_BITS = 9, 64
SEARCH_PLACES, SEARCH_MOST = 9, 127
MOST_CHARACTERS = 144
FORMS = MOF, WNAF, WMOF, CLOSEST, SMALLER = 1, 2, 3, 4, 5
OPENING = 0xA2  # the first byte of a frame of version 2
STATED = set(range(1, 17)) - {6}  # the numbers that a refused line gives
MOST_LINE = 14 + 6 * MOST_PLACES  # the characters of version 2 with 529 nonzero digits


# ---- scalars and digits
HIGHEST_FIRST, LOWEST_FIRST = "big", "little"  # the orders of a scalar's bytes, as Python names them


def number(scalar, order=HIGHEST_FIRST):
    """What bytes mean in an order."""
    return int.from_bytes(scalar, order)


def bit(n, j):
    """d_j, which is 0 for every j outside the number."""
    return n >> j & 1 if j >= 0 else 0


def digit_set(width):
    """D_w: 0 and the odd numbers of absolute value below 2^(w-1)."""
    half = 2 ** (width - 1)
    return [d for d in range(1 - half, half) if d == 0 or d % 2 == 1]


def whole(width):
    """The largest digit of D_w."""
    return 2 ** (width - 1) - 1


def bad_set(width, largest):
    """22: m is odd, from 2^(w-1) - 1 to 2^w - 1, and w at most 7 where m is above 2^(w-1) - 1."""
    return largest % 2 == 0 or not whole(width) <= largest <= 2**width - 1 or largest > whole(width) and width > 7


def sets():
    """All digit sets, each as its width and its largest digit."""
    return [(w, m) for w in range(LEAST_WIDTH, MOST_WIDTH + 1) for m in range(256) if not bad_set(w, m)]


def worth(digits):
    return sum(d * 2**j for j, d in enumerate(digits))


def weight(digits):
    return sum(1 for d in digits if d != 0)


def top(digits):
    return max((j + 1 for j, d in enumerate(digits) if d != 0), default=0)


# ---- the forms, on n + 1 places
def mof(n, bits):
    """The digit at place j is d_(j-1) - d_j."""
    return [bit(n, j - 1) - bit(n, j) for j in range(bits + 1)]


def signed_residue(n, modulus):
    """The residue above -modulus / 2 and at most modulus / 2."""
    r = n % modulus
    return r - modulus if 2 * r > modulus else r


def wnaf(n, bits, width):
    """At an odd remaining number the digit is its signed residue modulo 2^w."""
    digits = []
    for _ in range(bits + 1):
        d = signed_residue(n, 2**width) if n % 2 == 1 else 0
        digits.append(d)
        n = (n - d) // 2
    assert n == 0
    return digits


def fractional(n, bits, width, largest):
    """At an odd remaining number the signed residue modulo 2^(w+1) if its size is at most m, else the one modulo 2^w."""
    digits = []
    for _ in range(bits + 1):
        d = 0
        if n % 2 == 1:
            d = signed_residue(n, 2 ** (width + 1))
            if abs(d) > largest:
                d = signed_residue(n, 2**width)
        digits.append(d)
        n = (n - d) // 2
    assert n == 0
    return digits


def odd_part(v):
    """u and k of v = u * 2^k with u odd."""
    k = 0
    while v % 2 == 0:
        v //= 2
        k += 1
    return v, k


def window(width, s):
    """What w + 1 bits, read as the number s, are worth: half of s rounded up, less 2^w where the leading bit is 1."""
    half_up = -(-s // 2)
    return half_up - 2**width if bit(s, width) == 1 else half_up


def wmof(n, bits, width):
    """From place n down: 0 where d_i = d_(i-1), else a window of w places with one digit in it."""
    digits = [0] * (bits + 1)
    i = bits
    while i >= 0:
        if bit(n, i) == bit(n, i - 1):
            i -= 1
        else:
            s = sum(bit(n, i - j) * 2 ** (width - j) for j in range(width + 1))
            u, k = odd_part(window(width, s))
            digits[i - width + 1 + k] = u
            i -= width
    return digits


@functools.lru_cache(maxsize=2**16)
def nearest(r, width, favoured):
    """The candidate u * 2^i closest to r, the favoured one on a tie, as (u, i): 1 for the smaller absolute value, -1 for the larger.

    With 2^b the power of two next above |r|, only i from b - w to b are tried: 2^(b-1) is at most |r|, so it is nearer
    than anything smaller, and below i = b - w every candidate is smaller; 2^b is nearer than anything larger."""
    above = abs(r).bit_length()
    tried = [
        (abs(r - u * 2**i), favoured * abs(u * 2**i), u, i)
        for i in range(max(0, above - width), above + 1)
        for u in digit_set(width)
        if u != 0
    ]
    _, _, u, i = min(tried)
    return u, i


def closest(n, bits, width, favoured=-1):
    """While the remaining number is not 0, the closest candidate is put down and subtracted."""
    digits = [0] * (bits + 1)
    while n != 0:
        u, i = nearest(n, width, favoured)
        assert digits[i] == 0
        digits[i] = u
        n -= u * 2**i
    return digits


def form_digits(form, width, scalar, order=HIGHEST_FIRST, largest=None):
    """In the whole set of the width, or in one of another largest digit."""
    n, bits = number(scalar, order), 8 * len(scalar)
    if form == MOF:
        return mof(n, bits)
    if form == WNAF and largest is not None:
        return fractional(n, bits, width, largest)
    if form == SMALLER:
        return closest(n, bits, width, favoured=1)
    return {WNAF: wnaf, WMOF: wmof, CLOSEST: closest}[form](n, bits, width)


# ---- the calls: each returns its fields, and the lent buffers as they are afterwards. Without a largest digit the set is the width's whole one
def bad_width(width):
    return not LEAST_WIDTH <= width <= MOST_WIDTH


def marks_of(digits):
    """Nine words: bit j mod 64 of word j / 64 is set exactly when place j is nonzero."""
    return [
        sum(1 << j % MARK_BITS for j, d in enumerate(digits) if d != 0 and j // MARK_BITS == k)
        for k in range(MARK_WORDS)
    ]


def recode(form, width, scalar, digits, marks, order=HIGHEST_FIRST, group=None, largest=None):
    """refusal, place, weight, top; digits, marks. Where a group order is given the scalar has to be below it."""
    places = 8 * len(scalar) + 1
    if form not in FORMS:
        refusal = 1
    elif bad_width(width) or form == MOF and width != LEAST_WIDTH:
        refusal = 2
    elif largest is not None and (bad_set(width, largest) or form != WNAF and largest != whole(width)):
        refusal = 22
    elif len(scalar) > MOST_BYTES:
        refusal = 3
    elif group is not None and not (1 <= len(group) <= MOST_BYTES and number(group) > 0):
        refusal = 19
    elif group is not None and number(scalar, order) >= number(group):
        refusal = 20
    elif len(digits) < places:
        refusal = 4
    elif len(marks) < MARK_WORDS:
        refusal = 5
    else:
        made = form_digits(form, width, scalar, order, largest)
        return (0, 0, weight(made), top(made)), made + digits[places:], marks_of(made) + marks[MARK_WORDS:]
    return (refusal, 0, 0, 0), digits, marks


def bad_digits(width, digits, largest=None):
    allowed = digit_set(width) if largest is None else [0] + [d for d in range(-largest, largest + 1) if d % 2 == 1]
    return [j for j, d in enumerate(digits) if d not in allowed]


def crowded(width, digits):
    """The lower places of all pairs of nonzero digits fewer than w places apart."""
    nonzero = [j for j, d in enumerate(digits) if d != 0]
    return [low for low in nonzero if any(low < high < low + width for high in nonzero)]


def check(width, scalar, digits, nonadjacent=False, order=HIGHEST_FIRST, largest=None):
    """refusal, place, weight, top"""
    if bad_width(width):
        return 2, 0, 0, 0
    if largest is not None and bad_set(width, largest):
        return 22, 0, 0, 0
    if len(scalar) > MOST_BYTES:
        return 3, 0, 0, 0
    if len(digits) > MOST_PLACES:
        return 7, 0, 0, 0
    if bad_digits(width, digits, largest):
        return 8, min(bad_digits(width, digits, largest)), 0, 0
    if worth(digits) != number(scalar, order):
        return 9, 0, 0, 0
    if nonadjacent and crowded(width, digits):
        return 10, min(crowded(width, digits)), 0, 0
    return 0, 0, weight(digits), top(digits)


# codes of tape words
DOUBLE, LOAD, LOAD_NEGATED, ADD, SUBTRACT = range(5)


def word(code, digit):
    """Code in the top four bits; entry e stands for the odd multiple 2e + 1."""
    return code << 12 | (abs(digit) - 1) // 2


def tape_of(digits):
    """A load for the highest nonzero digit; for each lower place a double, then an add or subtract if it is nonzero."""
    words = []
    for d in reversed(digits):
        if words:
            words.append(DOUBLE << 12)
            if d != 0:
                words.append(word(ADD if d > 0 else SUBTRACT, d))
        elif d != 0:
            words.append(word(LOAD if d > 0 else LOAD_NEGATED, d))
    return words


def tape(width, digits, words, largest=None):
    """refusal, place, word count, doublings, additions; words"""
    made = tape_of(digits)
    if bad_width(width):
        refusal, place = 2, 0
    elif largest is not None and bad_set(width, largest):
        refusal, place = 22, 0
    elif len(digits) > MOST_PLACES:
        refusal, place = 7, 0
    elif bad_digits(width, digits, largest):
        refusal, place = 8, min(bad_digits(width, digits, largest))
    elif len(words) < len(made):
        refusal, place = 11, 0
    else:
        counts = len(made), max(top(digits) - 1, 0), max(weight(digits) - 1, 0)
        return (0, 0, *counts), made + words[len(made) :]
    return (refusal, place, 0, 0, 0), words


def code_of(x):
    return x >> 12


def entry_of(x):
    return x & 0xFFF


def entries(width, largest=None):
    """2^(w-2), or (m + 1) / 2."""
    return 2 ** (width - 2) if largest is None else (largest + 1) // 2


def good(count, index, x):
    """Code 0..4, entry below the count of entries, a double's entry 0, and a load exactly when it is the first word."""
    code, entry = code_of(x), entry_of(x)
    is_load = code in (LOAD, LOAD_NEGATED)
    return code <= SUBTRACT and entry < count and (code != DOUBLE or entry == 0) and is_load == (index == 0)


def bad_words(count, words):
    return [i for i, x in enumerate(words) if not good(count, i, x)]


def tape_value(words):
    """The whole number that a tape leaves."""
    value = 0
    for x in words:
        multiple = 2 * entry_of(x) + 1
        value = {
            DOUBLE: 2 * value,
            LOAD: multiple,
            LOAD_NEGATED: -multiple,
            ADD: value + multiple,
            SUBTRACT: value - multiple,
        }[code_of(x)]
    return value


def cost(count):
    """The additions and doublings that a chip takes to make so many odd multiples of 1: 2, and that added to the last."""
    made, additions, doublings = [1], 0, 0
    while len(made) < count:
        if not doublings:
            twice, doublings = 2 * made[0], doublings + 1
        made, additions = made + [made[-1] + twice], additions + 1
    assert made == [2 * e + 1 for e in range(count)]
    return additions, doublings


def run(width, words, modulus, base, multiples, largest=None):
    """refusal, place, residue, doublings, additions, cost additions, cost doublings; multiples"""
    place = 0
    if bad_width(width):
        refusal = 2
    elif largest is not None and bad_set(width, largest):
        refusal = 22
    elif modulus == 0:
        refusal = 12
    elif len(words) > MOST_WORDS:
        refusal = 13
    elif len(multiples) < entries(width, largest):
        refusal = 14
    elif bad_words(entries(width, largest), words):
        refusal, place = 15, min(bad_words(entries(width, largest), words))
    else:
        doublings = sum(1 for x in words if code_of(x) == DOUBLE)
        additions = sum(1 for x in words if code_of(x) in (ADD, SUBTRACT))
        stored = [(2 * e + 1) * base % modulus for e in range(entries(width, largest))]
        residue = tape_value(words) * base % modulus
        return (0, 0, residue, doublings, additions, *cost(entries(width, largest))), stored + multiples[len(stored) :]
    return (refusal, place, 0, 0, 0, 0, 0), multiples


# ---- the chip without subtraction
def chip_entries(count):
    """What its entries stand for: the odd multiples, and then their negatives."""
    odd = [2 * e + 1 for e in range(count)]
    return odd + [-multiple for multiple in odd]


def translated(count, x):
    """The same step in its words: the entry of what is loaded or added, whichever its sign is."""
    if code_of(x) == DOUBLE:
        return x
    amount = 2 * entry_of(x) + 1
    if code_of(x) in (LOAD_NEGATED, SUBTRACT):
        amount = -amount
    return (LOAD if code_of(x) in (LOAD, LOAD_NEGATED) else ADD) << 12 | chip_entries(count).index(amount)


def translate(width, given, words, largest=None):
    """refusal, place, word count; words"""
    place = 0
    if bad_width(width):
        refusal = 2
    elif largest is not None and bad_set(width, largest):
        refusal = 22
    elif len(given) > MOST_WORDS:
        refusal = 13
    elif bad_words(entries(width, largest), given):
        refusal, place = 15, min(bad_words(entries(width, largest), given))
    elif len(words) < len(given):
        refusal = 11
    else:
        made = [translated(entries(width, largest), x) for x in given]
        return (0, 0, len(made)), made + words[len(made) :]
    return (refusal, place, 0), words


def chip_good(count, index, x):
    """A load of an entry that there is, first; after it doubles without an entry and additions of one that there is."""
    code, there = code_of(x), entry_of(x) < 2 * count
    return code == LOAD and there if index == 0 else x == 0 or code == ADD and there


def run_second(width, words, modulus, base, multiples, largest=None):
    """As run: its entries have signs, its words have none."""
    place = 0
    if bad_width(width):
        refusal = 2
    elif largest is not None and bad_set(width, largest):
        refusal = 22
    else:
        count = entries(width, largest)
        bad = [i for i, x in enumerate(words) if not chip_good(count, i, x)]
        if modulus == 0:
            refusal = 12
        elif len(words) > MOST_WORDS:
            refusal = 13
        elif len(multiples) < 2 * count:
            refusal = 14
        elif bad:
            refusal, place = 15, bad[0]
        else:
            value, doublings, additions = 0, 0, 0
            for index, x in enumerate(words):
                if index == 0:
                    value = chip_entries(count)[entry_of(x)]
                elif code_of(x) == DOUBLE:
                    value, doublings = value + value, doublings + 1
                else:
                    value, additions = value + chip_entries(count)[entry_of(x)], additions + 1
            stored = [multiple * base % modulus for multiple in chip_entries(count)]
            return (0, 0, value * base % modulus, doublings, additions, *cost(count)), stored + multiples[len(stored) :]
    return (refusal, place, 0, 0, 0, 0, 0), multiples


# ---- two scalars together
def joint_digit(n, other):
    """Solinas's rule: 0 for an even number, else its signed residue modulo 4, turned where it is 3 or 5 modulo 8 beside one that is 2 modulo 4."""
    if n % 2 == 0:
        return 0
    u = signed_residue(n, 4)
    return -u if n % 8 in (3, 5) and other % 4 == 2 else u


def joint_rows(a, b, bits):
    """The rows of the joint sparse form on n + 1 places."""
    rows = [], []
    for _ in range(bits + 1):
        u, v = joint_digit(a, b), joint_digit(b, a)
        rows[0].append(u)
        rows[1].append(v)
        a, b = (a - u) // 2, (b - v) // 2
    assert (a, b) == (0, 0)
    return rows


def calm(low, high, other_low, other_high):
    """Two neighbouring nonzero digits of a row have one sign, and the other row is nonzero at the higher place and zero at the lower."""
    return 0 in (low, high) or low == high and other_high != 0 and other_low == 0


def sparse(columns):
    """Of any three consecutive columns one is zero, and both rows are calm."""
    gaps = all((0, 0) in columns[i : i + 3] for i in range(len(columns) - 2))
    pairs = list(zip(columns, columns[1:]))
    return gaps and all(calm(c[0], d[0], c[1], d[1]) and calm(c[1], d[1], c[0], d[0]) for c, d in pairs)


def joint_columns(a, b):
    """Every column that may stand at the lowest place of two rows worth a and b."""
    return [(u, v) for u in (-1, 0, 1) for v in (-1, 0, 1) if (a - u) % 2 == 0 and (b - v) % 2 == 0]


def sparse_columns(a, b, places, under=()):
    """Every pair of rows on so many places that is worth a and b and sparse, as columns from the lowest place, over the two columns under them."""
    if places == 0:
        return [[]] if (a, b) == (0, 0) else []
    found = []
    for u, v in joint_columns(a, b):
        if sparse([*under, (u, v)]):
            rest = sparse_columns((a - u) // 2, (b - v) // 2, places - 1, (*under, (u, v))[-2:])
            found += [[(u, v), *more] for more in rest]
    return found


@functools.lru_cache(maxsize=None)
def least_columns(a, b, places):
    """The fewest nonzero columns of any pair of rows of -1, 0, 1 on so many places worth a and b; None if there is none."""
    if places == 0:
        return 0 if (a, b) == (0, 0) else None
    found = [((u, v), least_columns((a - u) // 2, (b - v) // 2, places - 1)) for u, v in joint_columns(a, b)]
    return min((rest + (column != (0, 0)) for column, rest in found if rest is not None), default=None)


ENTRIES = {(1, 0): 0, (0, 1): 1, (1, 1): 2, (1, -1): 3}  # of g, h, g + h, g - h


def joint_tape(columns):
    """As `tape_of`, with a column for a digit."""
    words = []
    for u, v in reversed(columns):
        if words:
            words.append(DOUBLE << 12)
        if (u, v) in ENTRIES:
            words.append((ADD if words else LOAD) << 12 | ENTRIES[u, v])
        elif (u, v) != (0, 0):
            words.append((SUBTRACT if words else LOAD_NEGATED) << 12 | ENTRIES[-u, -v])
    return words


def joint(a, b, first, second, words, order=HIGHEST_FIRST):
    """refusal, place, columns, top, word count, doublings, additions; first, second, words"""
    places = 8 * len(a) + 1
    refusal = 0
    if max(len(a), len(b)) > MOST_BYTES:
        refusal = 3
    elif len(a) != len(b):
        refusal = 18
    elif min(len(first), len(second)) < places:
        refusal = 4
    else:
        rows = joint_rows(number(a, order), number(b, order), 8 * len(a))
        columns = list(zip(*rows))
        made = joint_tape(columns)
        if len(words) < len(made):
            refusal = 11
    if refusal != 0:
        return (refusal, 0, 0, 0, 0, 0, 0), first, second, words
    full = [j for j, column in enumerate(columns) if column != (0, 0)]
    counts = len(full), max(full, default=-1) + 1, len(made), max(full, default=0), max(len(full) - 1, 0)
    return (0, 0, *counts), rows[0] + first[places:], rows[1] + second[places:], made + words[len(made) :]


def pair_value(words):
    """How often a tape takes g, and h."""
    pairs = {entry: column for column, entry in ENTRIES.items()}
    a = b = 0
    for x in words:
        code, (u, v) = code_of(x), pairs[entry_of(x)]
        if code == DOUBLE:
            a, b = 2 * a, 2 * b
        elif code in (LOAD, LOAD_NEGATED):
            a, b = (u, v) if code == LOAD else (-u, -v)
        else:
            a, b = (a + u, b + v) if code == ADD else (a - u, b - v)
    return a, b


JOINT_WIDTH = 4  # as many entries


def run_joint(words, modulus, g, h, multiples):
    """As `run`, over the entries g, h, g + h and g - h."""
    place = 0
    if modulus == 0:
        refusal = 12
    elif len(words) > MOST_WORDS:
        refusal = 13
    elif len(multiples) < len(ENTRIES):
        refusal = 14
    elif bad_words(JOINT_WIDTH, words):
        refusal, place = 15, min(bad_words(JOINT_WIDTH, words))
    else:
        doublings = sum(1 for x in words if code_of(x) == DOUBLE)
        additions = sum(1 for x in words if code_of(x) in (ADD, SUBTRACT))
        a, b = pair_value(words)
        stored = [x % modulus for x in (g, h, g + h, g - h)]
        return (0, 0, (a * g + b * h) % modulus, doublings, additions, 2, 0), stored + multiples[len(stored) :]
    return (refusal, place, 0, 0, 0, 0, 0), multiples


def power(modulus, base, inverse, value):
    """The base to the value, or for a negative value the inverse to the positive power."""
    return pow(base, value, modulus) if value >= 0 else pow(inverse, -value, modulus)


def run_powers(width, words, modulus, base, inverse, powers, inverses, largest=None):
    """refusal, place, power, squarings, multiplications, cost multiplications, cost squarings; powers, inverse powers"""
    place = 0
    if bad_width(width):
        refusal = 2
    elif largest is not None and bad_set(width, largest):
        refusal = 22
    elif modulus == 0:
        refusal = 12
    elif len(words) > MOST_WORDS:
        refusal = 13
    elif len(powers) < entries(width, largest) or len(inverses) < entries(width, largest):
        refusal = 14
    elif bad_words(entries(width, largest), words):
        refusal, place = 15, min(bad_words(entries(width, largest), words))
    elif base * inverse % modulus != 1 % modulus:
        refusal = 17
    else:
        count = entries(width, largest)
        squarings = sum(1 for x in words if code_of(x) == DOUBLE)
        multiplications = sum(1 for x in words if code_of(x) in (ADD, SUBTRACT))
        stored, undone = ([pow(b, 2 * e + 1, modulus) for e in range(count)] for b in (base, inverse))
        costs = [2 * each for each in cost(count)]
        fields = 0, 0, power(modulus, base, inverse, tape_value(words)), squarings, multiplications, *costs
        return fields, stored + powers[count:], undone + inverses[count:]
    return (refusal, place, 0, 0, 0, 0, 0), powers, inverses


def reader(width, scalar, calls, order=HIGHEST_FIRST):
    """refusal; what each call gives, a digit or None for done"""
    if bad_width(width):
        return 2, [None] * calls
    if len(scalar) > MOST_BYTES:
        return 3, [None] * calls
    sequence = list(reversed(form_digits(WMOF, width, scalar, order)))
    return 0, [sequence[k] if k < len(sequence) else None for k in range(calls)]


@functools.lru_cache(maxsize=None)
def least_weight(z, width, places):
    """The least weight of any string of D_w digits on so many places that is worth z; None if there is none."""
    if places == 0:
        return 0 if z == 0 else None
    found = []
    for d in digit_set(width):
        if (z - d) % 2 == 0:
            rest = least_weight((z - d) // 2, width, places - 1)
            if rest is not None:
                found.append(rest + (1 if d != 0 else 0))
    return min(found, default=None)


def search(n, width):
    """refusal, weight"""
    if width not in (2, 3):
        return 2, 0
    if n > SEARCH_MOST:
        return 3, 0
    return 0, least_weight(n, width, SEARCH_PLACES)


# ---- the choice of a width, and the lighter of two strings
@functools.lru_cache(maxsize=2**16)
def total(n, bits, width):
    """The words of the wNAF's tape that double or add, and what the multiples cost."""
    steps = [x for x in tape_of(wnaf(n, bits, width)) if code_of(x) in (DOUBLE, ADD, SUBTRACT)]
    return len(steps) + sum(cost(entries(width)))


def choose(scalar, room, order=HIGHEST_FIRST):
    """refusal, width, total"""
    if len(scalar) > MOST_BYTES:
        return 3, 0, 0
    allowed = [width for width in range(LEAST_WIDTH, MOST_WIDTH + 1) if entries(width) <= room]
    if not allowed:
        return 23, 0, 0
    totals = {width: total(number(scalar, order), 8 * len(scalar), width) for width in allowed}
    least = min(totals.values())
    return 0, min(width for width in allowed if totals[width] == least), least


def lighter(width, scalar, first, other, order=HIGHEST_FIRST):
    """refusal, which of the two; the part"""
    for digits in (first, other):
        refusal = check(width, scalar, digits, order=order)[0]
        if refusal != 0:
            return (refusal, 0), []
    which = 1 if weight(other) < weight(first) else 0
    picked = (first, other)[which]
    return (0, which), picked[: top(picked)]


# ---- lines of hexadecimal
HEXADECIMAL = b"0123456789ABCDEFabcdef"


def lines_of(data):
    """A line ends at a line feed; a last line without one counts if not empty."""
    lines = data.split(b"\n")
    return lines[:-1] if lines[-1] == b"" else lines


def bytes_of(line):
    """The bytes of a line's pairs, or None where it is empty, of odd length or holds another character."""
    if line == b"" or len(line) % 2 == 1 or any(c not in HEXADECIMAL for c in line):
        return None
    return bytes.fromhex(line.decode("ascii"))


def written(data):
    return data.hex().upper().encode("ascii")


def signed(data):
    """Bytes as digits, in two's complement."""
    return [b - 256 if b >= 128 else b for b in data]


def big_endian(values, size):
    """Numbers of so many bytes each, the high byte first, in two's complement."""
    return b"".join((v % 256**size).to_bytes(size, "big") for v in values)


# ---- frames of both versions
def frame_of(version, digits):
    """The line of a string: all its digits, or its nonzero digits with their places."""
    fields = big_endian([weight(digits), top(digits)], 2)
    if version == 1:
        return written(bytes([0]) + fields + big_endian(digits, 1))
    entries = b"".join(big_endian([j], 2) + big_endian([d], 1) for j, d in enumerate(digits) if d != 0)
    return written(bytes([OPENING]) + fields + big_endian([len(digits)], 2) + entries)


def write(version, digits, line):
    """refusal, length; the line's buffer"""
    if len(digits) > MOST_PLACES:
        return (7, 0), line
    made = list(frame_of(version, digits))
    if len(line) < len(made):
        return (24, 0), line
    return (0, len(made)), made + line[len(made) :]


def parts_of(data):
    """The place count, the digits at their places and whether the places are in order; None where a part is lacking."""
    if data is None or data[0] not in (0, OPENING):
        return None
    if data[0] == 0:
        return None if len(data) < 5 else (len(data) - 5, dict(enumerate(signed(data[5:]))), True)
    if len(data) < 7 or len(data) % 3 != 1:
        return None
    count = number(data[5:7])
    pairs = [(number(data[i : i + 2]), signed(data[i + 2 : i + 3])[0]) for i in range(7, len(data), 3)]
    places = [place for place, _ in pairs]
    in_order = places == sorted(set(places)) and all(place < count and digit != 0 for place, digit in pairs)
    return count, dict(pairs), in_order


def read(line, digits):
    """refusal, stated number, weight, top, places; digits"""
    data = bytes_of(line)
    if data is not None and len(data) == 1 and data[0] in STATED:
        return (0, data[0], 0, 0, 0), digits
    parts = parts_of(data)
    refusal = 0
    if parts is None:
        refusal = 16
    else:
        count, at, in_order = parts
        made = [at.get(j, 0) for j in range(count)]
        if count > MOST_PLACES:
            refusal = 7
        elif not in_order or [number(data[1:3]), number(data[3:5])] != [weight(made), top(made)]:
            refusal = 21
        elif len(digits) < count:
            refusal = 4
    if refusal != 0:
        return (refusal, 0, 0, 0, 0), digits
    return (0, 0, weight(made), top(made), count), made + digits[count:]


# ---- the programs recode and sparse
def recode_answer(line, version=1):
    """One line of the recode program, its line feed left out; of the program sparse in version 2."""
    frame = bytes_of(line)
    if frame is None or len(line) > MOST_CHARACTERS or len(frame) < 3 or len(frame) != 3 + frame[2]:
        return written(bytes([16]))
    form, width, scalar = frame[0], frame[1], frame[3:]
    room = 8 * len(scalar) + 1
    (refusal, *_), digits, _ = recode(form, width, scalar, [0] * room, [0] * MARK_WORDS)
    return written(bytes([refusal])) if refusal != 0 else frame_of(version, digits)


def sparse_answer(line):
    return recode_answer(line, version=2)


# ---- the program salvage
def verdict(line):
    """The refusal of a line of a damaged file, 0 where it is kept."""
    return 16 if len(line) > MOST_LINE else read(line, [0] * MOST_PLACES)[0][0]


def salvage(data):
    """What is kept of a file, and the report."""
    kept, report = [], []
    for count, line in enumerate(lines_of(data), 1):
        refusal = verdict(line)
        if refusal != 0:
            report.append(b"%d dropped %d\n" % (count, refusal))
            continue
        kept.append(line.upper() + b"\n")
        if line.upper() != line:
            report.append(b"%d case only\n" % count)
    return b"".join(kept), b"".join(report)


# ---- the trial program
LENT_DIGIT, LENT_MARK, LENT_WORD, LENT_MULTIPLE, LENT_CHARACTER = 0x5A, 0xA5A5A5A5A5A5A5A5, 0xEEEE, 0xDEADBEEF, 0x2E
LENT_POWER, LENT_INVERSE = 0xDEADBEEF, 0xC0DEC0DE
TRIAL_PLACES, TRIAL_MARKS, TRIAL_WORDS = 600, 12, 1100
TRIAL_MULTIPLES, TRIAL_BYTES, TRIAL_CALLS = 140, 80, 700
TRIAL_LINE = 3300


class NoFrame(Exception):
    """The line is no frame of the trial program, or asks for more than it has."""


class Frame:
    """The bytes of a line after its call, taken field by field, the order of its scalar's bytes, and whether its set has a largest digit."""

    def __init__(self, data, order, between):
        self.rest, self.order, self.between = data, order, between

    def take(self, size):
        if len(self.rest) < size:
            raise NoFrame
        taken, self.rest = self.rest[:size], self.rest[size:]
        return taken

    def number(self, size, most=None):
        n = number(self.take(size))
        if most is not None and n > most:
            raise NoFrame
        return n

    def set(self):
        """A width, and the largest digit where one follows."""
        width = self.number(1)
        return width, self.number(1) if self.between else None

    def remaining(self, most, size=1):
        """All that is left, in elements of so many bytes."""
        data = self.take(len(self.rest))
        if len(data) % size != 0 or len(data) // size > most:
            raise NoFrame
        return data


def trial_recode(frame, below=False):
    form = frame.number(1)
    width, largest = frame.set()
    digits = [LENT_DIGIT] * frame.number(2, TRIAL_PLACES)
    marks = [LENT_MARK] * frame.number(1, TRIAL_MARKS)
    group = frame.take(frame.number(1, TRIAL_BYTES)) if below else None
    (refusal, *fields), digits, marks = recode(form, width, frame.remaining(TRIAL_BYTES), digits, marks, frame.order, group, largest)
    return bytes([refusal]) + big_endian(fields, 2) + big_endian(digits, 1) + big_endian(marks, 8)


def trial_check(frame, nonadjacent=False):
    width, largest = frame.set()
    scalar = frame.take(frame.number(1, TRIAL_BYTES))
    refusal, *fields = check(width, scalar, signed(frame.remaining(TRIAL_PLACES)), nonadjacent, frame.order, largest)
    return bytes([refusal]) + big_endian(fields, 2)


def trial_nonadjacent(frame):
    return trial_check(frame, nonadjacent=True)


def trial_tape(frame):
    width, largest = frame.set()
    words = [LENT_WORD] * frame.number(2, TRIAL_WORDS)
    (refusal, *fields), words = tape(width, signed(frame.remaining(TRIAL_PLACES)), words, largest)
    return bytes([refusal]) + big_endian(fields + words, 2)


def given_words(frame):
    data = frame.remaining(TRIAL_WORDS, 2)
    return [number(data[i : i + 2]) for i in range(0, len(data), 2)]


def ran(answer, multiples):
    refusal, place, residue, *counts = answer
    fields = big_endian([refusal], 1) + big_endian([place], 2) + big_endian([residue], 4) + big_endian(counts, 2)
    return fields + big_endian(multiples, 4)


def trial_run(frame):
    width, largest = frame.set()
    multiples = [LENT_MULTIPLE] * frame.number(2, TRIAL_MULTIPLES)
    modulus, base = frame.number(4), frame.number(4)
    return ran(*run(width, given_words(frame), modulus, base, multiples, largest))


def trial_translate(frame):
    width, largest = frame.set()
    words = [LENT_WORD] * frame.number(2, TRIAL_WORDS)
    (refusal, *fields), words = translate(width, given_words(frame), words, largest)
    return bytes([refusal]) + big_endian(fields + words, 2)


def trial_run_second(frame):
    width, largest = frame.set()
    multiples = [LENT_MULTIPLE] * frame.number(2, TRIAL_MULTIPLES)
    modulus, base = frame.number(4), frame.number(4)
    return ran(*run_second(width, given_words(frame), modulus, base, multiples, largest))


def trial_joint(frame):
    first, second = ([LENT_DIGIT] * frame.number(2, TRIAL_PLACES) for _ in range(2))
    words = [LENT_WORD] * frame.number(2, TRIAL_WORDS)
    a = frame.take(frame.number(1, TRIAL_BYTES))
    (refusal, *fields), first, second, words = joint(a, frame.remaining(TRIAL_BYTES), first, second, words, frame.order)
    return bytes([refusal]) + big_endian(fields, 2) + big_endian(first + second, 1) + big_endian(words, 2)


def trial_run_joint(frame):
    multiples = [LENT_MULTIPLE] * frame.number(2, TRIAL_MULTIPLES)
    modulus, g, h = frame.number(4), frame.number(4), frame.number(4)
    return ran(*run_joint(given_words(frame), modulus, g, h, multiples))


def trial_powers(frame):
    width, largest = frame.set()
    powers = [LENT_POWER] * frame.number(2, TRIAL_MULTIPLES)
    inverses = [LENT_INVERSE] * frame.number(2, TRIAL_MULTIPLES)
    modulus, base, inverse = frame.number(4), frame.number(4), frame.number(4)
    answer, powers, inverses = run_powers(width, given_words(frame), modulus, base, inverse, powers, inverses, largest)
    return ran(answer, powers + inverses)


def trial_reader(frame):
    width, calls = frame.number(1), frame.number(2, TRIAL_CALLS)
    refusal, given = reader(width, frame.remaining(TRIAL_BYTES), calls, frame.order)
    return bytes([refusal]) + b"".join(bytes(2) if d is None else b"\1" + big_endian([d], 1) for d in given)


def trial_search(frame):
    width, n = frame.number(1), frame.number(4)
    frame.remaining(0)
    return bytes(search(n, width))


def trial_write(frame):
    version = frame.number(1)
    if version not in (1, 2):
        raise NoFrame
    line = [LENT_CHARACTER] * frame.number(2, TRIAL_LINE)
    (refusal, length), line = write(version, signed(frame.remaining(TRIAL_PLACES)), line)
    return bytes([refusal]) + big_endian([length], 2) + bytes(line)


def trial_read(frame):
    digits = [LENT_DIGIT] * frame.number(2, TRIAL_PLACES)
    (refusal, stated, *counts), digits = read(frame.remaining(TRIAL_LINE), digits)
    return bytes([refusal, stated]) + big_endian(counts, 2) + big_endian(digits, 1)


def trial_below(frame):
    return trial_recode(frame, below=True)


def trial_choose(frame):
    room = frame.number(4)
    refusal, width, steps = choose(frame.remaining(TRIAL_BYTES), room, frame.order)
    return bytes([refusal, width]) + big_endian([steps], 2)


def trial_lighter(frame):
    width = frame.number(1)
    scalar = frame.take(frame.number(1, TRIAL_BYTES))
    first = signed(frame.take(frame.number(2, TRIAL_PLACES)))
    (refusal, _), part = lighter(width, scalar, first, signed(frame.remaining(TRIAL_PLACES)), frame.order)
    return bytes([refusal]) + big_endian([len(part)], 2) + big_endian(part, 1)


TRIALS = dict(enumerate([trial_recode, trial_check, trial_nonadjacent, trial_tape, trial_run, trial_reader, trial_search], 1))
TRIALS |= {0x08: trial_powers, 0x09: trial_joint, 0x0A: trial_run_joint, 0x0B: trial_below, 0x0C: trial_translate, 0x0D: trial_run_second, 0x0E: trial_write, 0x0F: trial_read, 0x10: trial_choose, 0x11: trial_lighter}
ON_A_SCALAR = [trial_recode, trial_check, trial_nonadjacent, trial_reader, trial_joint, trial_below, trial_choose, trial_lighter]
IN_A_SET = [trial_recode, trial_check, trial_nonadjacent, trial_tape, trial_run, trial_powers, trial_below, trial_translate, trial_run_second]
LOWEST = 0x80  # added to the call: a scalar's bytes come lowest first
BETWEEN = 0x40  # added to the call: the largest digit of a set follows the width


def trial_answer(line):
    """One line of the trial program, its line feed left out."""
    data = bytes_of(line)
    call = None if data is None else TRIALS.get(data[0] % BETWEEN)
    if call is None or data[0] & LOWEST and call not in ON_A_SCALAR or data[0] & BETWEEN and call not in IN_A_SET:
        return b"FF"
    try:
        return written(call(Frame(data[1:], LOWEST_FIRST if data[0] & LOWEST else HIGHEST_FIRST, bool(data[0] & BETWEEN))))
    except NoFrame:
        return b"FF"


ANSWERS = {"recode": recode_answer, "sparse": sparse_answer, "trial": trial_answer}


def output_of(program, data):
    """What a program writes to standard output for its whole input."""
    if program == "salvage":
        return salvage(data)[0]
    return b"".join(ANSWERS[program](line) + b"\n" for line in lines_of(data))


# ---- the definitions held against each other
def check_string(n, bits, width, digits):
    assert len(digits) == bits + 1
    assert not bad_digits(width, digits)
    assert worth(digits) == n


def check_forms():
    """Each form is worth the scalar in its digit set, wNAF is spaced, and all three weigh least and keep the bound."""
    for n in range(256):
        check_string(n, 8, LEAST_WIDTH, mof(n, 8))
        for width in range(LEAST_WIDTH, MOST_WIDTH + 1):
            strings = [form(n, 8, width) for form in (wnaf, wmof, closest)]
            for digits in strings:
                check_string(n, 8, width, digits)
                assert weight(digits) == weight(strings[0]) <= (8 + width) // width
            assert not crowded(width, strings[0])
            if width <= 4:
                assert weight(strings[0]) == least_weight(n, width, 11)


def check_nearest():
    """The candidates that `nearest` tries are enough: with every place tried the answer is the same."""
    for width in (2, 3, 4):
        for r in range(-300, 301):
            for favoured in (-1, 1):
                every = [(abs(r - u * 2**i), favoured * abs(u * 2**i), u, i) for i in range(12) for u in digit_set(width) if u != 0]
                assert r == 0 or nearest(r, width, favoured) == min(every)[2:]


def check_tapes():
    """A tape's value is its string's worth, the run is scalar times base, and the reader is wMOF from the top."""
    for n in range(0, 65536, 97):
        scalar = n.to_bytes(2, "big")
        for width in range(LEAST_WIDTH, MOST_WIDTH + 1):
            for form in (WNAF, WMOF, CLOSEST, SMALLER):
                digits = form_digits(form, width, scalar)
                (refusal, _, count, doublings, additions), words = tape(width, digits, [0] * MOST_WORDS)
                assert refusal == 0 and tape_value(words[:count]) == worth(digits) == n
                ran, _ = run(width, words[:count], 1009, 1234567, [0] * 64)
                assert ran == (0, 0, n * 1234567 % 1009, doublings, additions, 2 ** (width - 2) - 1, 1 if width > 2 else 0)
                assert check(width, scalar, digits) == (0, 0, weight(digits), top(digits))
            assert check(width, scalar, form_digits(WNAF, width, scalar), nonadjacent=True)[0] == 0
            assert reader(width, scalar, 17)[1] == form_digits(WMOF, width, scalar)[::-1]


def check_second():
    """In every set a tape and its negative, translated, run on the chip without subtraction as they run on the other, with as many words and codes 0, 1 and 3 alone."""
    for width, largest in sets():
        count = entries(width, largest)
        assert [e for e in chip_entries(count) if e > 0] == [-e for e in chip_entries(count) if e < 0] and len(chip_entries(count)) == 2 * count
        for n in (0, 1, 13, 42, 349, 46877, 65535):
            for sign in (1, -1):
                words = tape_of([sign * d for d in fractional(n, 16, width, largest)])
                (refusal, place, made), chip = translate(width, words, [0] * len(words), largest)
                assert (refusal, place, made) == (0, 0, len(words)) and {code_of(x) for x in chip} <= {DOUBLE, LOAD, ADD}
                ran, stored = run(width, words, 1009, 123, [0] * count, largest)
                turned, doubled = run_second(width, chip, 1009, 123, [0] * 2 * count, largest)
                assert turned == ran and ran[2] == sign * n * 123 % 1009 and doubled == stored + [-x % 1009 for x in stored]


def check_powers():
    """The run over powers is the walk done with squares and products, an inverse power undoes a power, and empty tapes give 1 modulo m."""
    for modulus, base, inverse in ((1, 0, 0), (1, 5, 9), (7, 3, 5), (1009, 123, pow(123, -1, 1009)), (2**32 - 1, 2, 2**31)):
        powers, inverses = ([pow(b, 2 * e + 1, modulus) for e in range(4)] for b in (base, inverse))
        assert run_powers(4, [], modulus, base, inverse, [9] * 4, [8] * 5)[0] == (0, 0, 1 % modulus, 0, 0, 6, 2)
        for n in range(0, 65536, 997):
            for digits in (form_digits(WNAF, 4, n.to_bytes(2, "big")), [-d for d in form_digits(WMOF, 4, n.to_bytes(2, "big"))]):
                words, reached = tape_of(digits), 1 % modulus
                for x in words:
                    reached = {
                        DOUBLE: reached * reached,
                        LOAD: powers[entry_of(x)],
                        LOAD_NEGATED: inverses[entry_of(x)],
                        ADD: reached * powers[entry_of(x)],
                        SUBTRACT: reached * inverses[entry_of(x)],
                    }[code_of(x)] % modulus
                counts = max(top(digits) - 1, 0), max(weight(digits) - 1, 0)
                ran = run_powers(4, words, modulus, base, inverse, [9] * 4, [8] * 5)
                assert ran == ((0, 0, reached, *counts, 6, 2), powers, inverses + [8])
                assert reached * power(modulus, base, inverse, -worth(digits)) % modulus == 1 % modulus


def check_orders():
    """Bytes lowest first are the reversed bytes highest first, in every call on a scalar."""
    for n in range(0, 65536, 251):
        scalar = n.to_bytes(2, "big")
        turned = scalar[::-1]
        assert number(turned, LOWEST_FIRST) == n
        for width in range(LEAST_WIDTH, MOST_WIDTH + 1):
            for form in (WNAF, WMOF, CLOSEST, SMALLER):
                digits = form_digits(form, width, scalar)
                assert form_digits(form, width, turned, LOWEST_FIRST) == digits
                assert check(width, turned, digits, order=LOWEST_FIRST)[0] == 0
            assert reader(width, turned, 17, LOWEST_FIRST) == reader(width, scalar, 17)


def check_sets():
    """In every set each string is worth its number, in the set, spaced by w and within the bound; both ends are wNAF; a larger set weighs no more; tape and run do it."""
    assert len(sets()) == 70
    for n in range(256):
        scalar = bytes([n])
        weights = {}
        for width, largest in sets():
            digits = fractional(n, 8, width, largest)
            assert len(digits) == 9 and worth(digits) == n and not bad_digits(width, digits, largest) and not crowded(width, digits)
            assert weight(digits) <= (8 + width) // width
            if largest == whole(width):
                assert digits == wnaf(n, 8, width)
            if largest == 2**width - 1:
                assert digits == wnaf(n, 8, width + 1)
            assert weights.setdefault(largest, weight(digits)) == weight(digits)
            assert check(width, scalar, digits, True, largest=largest)[0] == 0
            (refusal, _, count, doublings, additions), words = tape(width, digits, [0] * 20, largest)
            ran, _ = run(width, words[:count], 1009, 1234567, [0] * 64, largest)
            assert refusal == 0 and ran[:5] == (0, 0, n * 1234567 % 1009, doublings, additions)
        by_size = [weights[m] for m in sorted(weights)]
        assert by_size == sorted(by_size, reverse=True)


def check_widths(size):
    """More width never costs additions: at the next width no scalar of so many bytes weighs more, in any form but MOF, whose width is 2."""
    for n in range(256**size):
        scalar = n.to_bytes(size, "big")
        for form in (WNAF, WMOF, CLOSEST, SMALLER):
            weights = [weight(form_digits(form, width, scalar)) for width in range(LEAST_WIDTH, MOST_WIDTH + 1)]
            assert weights == sorted(weights, reverse=True), (form, scalar, weights)


def check_frames():
    """What is written is read back, in either case; and a frame of version 2 that is read is the one that is written for its digits."""
    strings = [[], [0], [-128, 0, 127], [1] * MOST_PLACES, [0] * MOST_PLACES, form_digits(WNAF, 3, b"\x01\x5d")]
    for digits in strings:
        for version in (1, 2):
            line = frame_of(version, digits)
            for given in (line, line.lower()):
                assert read(given, [1] * 600) == ((0, 0, weight(digits), top(digits), len(digits)), digits + [1] * (600 - len(digits)))
    for n in range(65536):
        line = written(bytes([OPENING, 0, n & 1, 0, n >> 1 & 3, 0, 2, 0, n >> 3 & 3]) + bytes([n >> 5 & 0xFF]))
        (refusal, _, _, _, count), digits = read(line, [5] * 4)
        assert refusal in (0, 21) and (refusal != 0 or frame_of(2, digits[:count]) == line)


def check_salvage():
    """What was salvaged is kept whole with no remark, and what follows a line feed is judged as if it stood alone."""
    import cases

    for seed in range(40):
        data = cases.damaged_file(random.Random(f"salvage {seed}"), 12)
        kept, report = salvage(data)
        assert salvage(kept) == (kept, b"")
        for at in (i for i, c in enumerate(data) if c == 10):
            before, after = data[: at + 1], data[at + 1 :]
            moved = [line.split(b" ", 1) for line in lines_of(salvage(after)[1])]
            again = b"".join(b"%d %s\n" % (int(n) + before.count(10), words) for n, words in moved)
            assert kept == salvage(before)[0] + salvage(after)[0] and report == salvage(before)[1] + again


def check_pairs(below, places):
    """The joint sparse form of every pair under a limit: the rule's rows are the only sparse ones on so many places, and no others have fewer columns."""
    for a in range(below):
        for b in range(below):
            columns = list(zip(*joint_rows(a, b, places - 1)))
            assert sparse_columns(a, b, places) == [columns], (a, b)
            assert least_columns(a, b, places + 2) == sum(c != (0, 0) for c in columns), (a, b)


def check_joint():
    """The run of a pair's tape gives a g + b h, and does what the call tells."""
    for a, b in ((0, 0), (57, 22), (22, 57), (6699, 4846), (513, 513), (65535, 0), (0, 65535), (43690, 21845)):
        scalars = a.to_bytes(2, "big"), b.to_bytes(2, "big")
        (refusal, _, _, _, count, doublings, additions), first, second, words = joint(*scalars, [0] * 17, [0] * 17, [0] * MOST_WORDS)
        assert refusal == 0 and pair_value(words[:count]) == (a, b) == (worth(first), worth(second))
        assert run_joint(words[:count], 1009, 123, 4567, [0] * 4)[0] == (0, 0, (a * 123 + b * 4567) % 1009, doublings, additions, 2, 0)


def check_choices():
    """A chosen width is allowed, and its total is no more than what a tape and a run at any allowed width report; the lighter string is worth its scalar."""
    for n in range(0, 65536, 509):
        scalar = n.to_bytes(2, "big")
        reported = {}
        for width in range(LEAST_WIDTH, MOST_WIDTH + 1):
            (_, _, count, doublings, additions), words = tape(width, wnaf(n, 16, width), [0] * MOST_WORDS)
            ran, _ = run(width, words[:count], 1009, 7, [0] * 64)
            assert ran[3:5] == (doublings, additions)
            reported[width] = sum(ran[3:])
        for room in (1, 2, 3, 4, 7, 8, 16, 32, 63, 64, 1000):
            _, width, least = choose(scalar, room)
            fitting = {w: t for w, t in reported.items() if 2 ** (w - 2) <= room}
            assert fitting[width] == least and all((least, width) <= (t, w) for w, t in fitting.items())
        strings = [mof(n, 16), wnaf(n, 16, 2)]
        for first, other in (strings, strings[::-1]):
            (refusal, which), part = lighter(2, scalar, first, other)
            assert refusal == 0 and worth(part) == n and weight(part) == min(map(weight, strings)) and (not part or part[-1] != 0)
            assert which == 0 or weight(other) < weight(first)


def own_checks():
    check_choices()
    check_forms()
    check_nearest()
    check_tapes()
    check_powers()
    check_second()
    check_orders()
    check_frames()
    check_salvage()
    check_sets()
    check_widths(1)
    check_pairs(32, 6)
    check_joint()


# ---- stored files
def stored_files():
    """The contents of each stored file, by its path from the repository's root."""
    import cases

    files = {}
    asked = cases.recode_input()
    for program, data in (("recode", asked), ("sparse", asked), ("salvage", cases.salvage_input()), ("trial", cases.trial_input())):
        files[f"crates/{program}/stdin"] = data
        files[f"crates/{program}/stdout"] = output_of(program, data)
    return files


def differing_line(a, b):
    """The number of the first line in which two files differ."""
    for i, (x, y) in enumerate(zip(a.split(b"\n"), b.split(b"\n"))):
        if x != y:
            return i + 1
    return 1 + min(a.count(b"\n"), b.count(b"\n"))


def main(words):
    if words not in (["write"], ["check"], ["widths"], ["pairs"]):
        sys.exit("usage: second.py write | check | widths | pairs")
    if words == ["widths"]:
        check_widths(1)
        check_widths(2)
        return print("second.py: no scalar of one or two bytes weighs more at the next width")
    if words == ["pairs"]:
        check_pairs(256, 9)
        return print("second.py: the joint sparse form of each of 65,536 pairs is the only one, and has the fewest columns")
    own_checks()
    root = os.path.dirname(os.path.dirname(os.path.abspath(__file__)))
    for path, made in stored_files().items():
        place = os.path.join(root, path)
        if words == ["write"]:
            os.makedirs(os.path.dirname(place), exist_ok=True)
            with open(place, "wb") as file:
                file.write(made)
            print(f"second.py: {path}, {made.count(10)} line feeds, {len(made)} bytes")
            continue
        if not os.path.exists(place):
            sys.exit(f"second.py: {path} is missing")
        with open(place, "rb") as file:
            stored = file.read()
        if stored != made:
            sys.exit(f"second.py: {path} differs in line {differing_line(stored, made)}")
    if words == ["check"]:
        print("second.py: the stored files are as made")


if __name__ == "__main__":
    main(sys.argv[1:])
