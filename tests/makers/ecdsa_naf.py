"""python3-ecdsa's PointJacobi._naf. A line in is `_naf HEXADECIMAL`; a line out the digits, place 0 first."""

import sys

from ecdsa.ellipticcurve import PointJacobi

for line in sys.stdin:
    print(*PointJacobi._naf(int(line.split()[1], 16)))
