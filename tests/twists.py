"""How the strings of other makers differ from our wNAF, as rules: docs/SECOND-MAKERS.md says of each what the checks answer and what to do.

The rules are in our words: node-elliptic's from the text of its function, the others from what was found when their strings were compared. Strings have no zeros on top.
"""

import second

SECP256K1 = 0xFFFFFFFFFFFFFFFFFFFFFFFFFFFFFFFEBAAEDCE6AF48A03BBFD25E8CD0364141  # the order of its group


def trimmed(digits):
    """Without the zeros on top."""
    return digits[: second.top(digits)]


def ours(n, width):
    """The wNAF of a number."""
    return trimmed(second.wnaf(n, n.bit_length(), width))


def shorter_top(n, width):
    """OpenSSL, BoringSSL: where the top digit is 1 and the next lower one d is negative and w places below it, d + 2^(w-1) and the 1 a place lower."""
    digits = ours(n, width)
    low = len(digits) - 1 - width
    if digits and digits[-1] == 1 and low >= 0 and digits[low] < 0:
        digits[low] += 2 ** (width - 1)
        digits[-2:] = [1]
    return digits


def late_turn(n, width):
    """node-elliptic: at an odd remaining number the residue r modulo 2^w, or 2^(w-1) - r where r is over 2^(w-1): the same at width 2, and no residue above it."""
    digits = []
    while n:
        r = n % 2**width if n % 2 else 0
        d = 2 ** (width - 1) - r if r > 2 ** (width - 1) else r
        digits.append(d)
        n = (n - d) // 2
    return digits


def lost_carry(n, width, bits):
    """group: the places of the scalar's own bits alone, so that a digit at place n is lost."""
    return trimmed(ours(n, width)[:bits])


def other_sign(n, width):
    """libsecp256k1: from 2^255 up the digits of the order less the scalar, each negated."""
    return ours(n, width) if n < 2**255 else [-d for d in ours(SECP256K1 - n, width)]


def side_by_side(a, b):
    """BouncyCastle's joint form: the NAF of each number, one beside the other."""
    return ours(a, 2), ours(b, 2)
