# Checks answers of sine and cosine against document 01's rule by whole numbers alone: python3 oracle/trig_whole.py FILE, with a
# FILE that trig_all wrote (rows of three little-endian u32: the angle's bits, the sine's, the cosine's).
import math
import struct
import sys

P = 0x6487ED5110B4611                     # a turn in units of 2^-56
TURN = P << 93                            # the same in units of 2^-149: every finite f32 is a whole number of them


def units(bits):
    """The f32 of these bits in units of 2^-149, with its sign."""
    field, digits = bits >> 23 & 0xFF, bits & 0x7FFFFF
    assert field < 255
    n = (digits + 0x800000) << field - 1 if field else digits
    return -n if bits >> 31 else n


def weights(last):
    """last! / j! with the term's sign, for the exponents j = last, last - 2, .. of the sum that ends with last."""
    return [(-1) ** (j // 2) * (math.factorial(last) // math.factorial(j)) for j in range(last, -1, -2)]


SINE, COSINE = weights(31), weights(30)


def distance(answer, r, terms, last):
    """|answer / 2^149 - the sum at r / 2^149|, as a fraction: numerator and denominator."""
    square, total = r * r, 0
    for k, w in enumerate(terms):                        # by Horner's rule, over 2^149 to the power of last
        total = total * square + (w << 298 * k)
    if last % 2:
        total *= r
    whole = math.factorial(last) << 149 * last
    return abs(answer * whole - (total << 149)), whole << 149


def main():
    data = open(sys.argv[1], "rb").read()
    worst = [(0, 1), (0, 1)]
    count = 0
    for a, s, c in struct.iter_unpack("<III", data):
        n = units(a)
        r = n - (2 * n + TURN) // (2 * TURN) * TURN      # the multiple that leaves the smallest size
        assert 2 * abs(r) < TURN
        for k, (y, terms, last) in enumerate(((s, SINE, 31), (c, COSINE, 30))):
            top, bottom = distance(units(y), r, terms, last)
            assert top << 22 <= bottom, "%08X: beyond 2^-22" % a
            if top * worst[k][1] > worst[k][0] * bottom:
                worst[k] = (top, bottom)
        count += 1
    print("%d angles by whole numbers, all within 2^-22; largest distance: sine %.4g, cosine %.4g" % (count, *[(t << 80) // b / 2 ** 80 for t, b in worst]))


main()
