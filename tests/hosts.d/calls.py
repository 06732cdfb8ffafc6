"""Prints the calls to compare at a width, one a line: CODE COUNT A B C D. The only argument is the width.

An operation gets every combination of arguments at its limits, every number of arguments from 0 to 4, and RANDOM_CALLS
random calls from a fixed seed, with positions, distances and new bits inside their domains. A number that is no word is left
out: at width 64 these are the numbers that are no fixnums.
"""
import random
import sys
from itertools import product

WIDTH = int(sys.argv[1])
GREATEST = 2 ** (WIDTH - 1) - 1
LEAST = -GREATEST - 1
HALF = 2 ** (WIDTH // 2)
ALTERNATING = sum(1 << i for i in range(0, WIDTH - 1, 2))

# Numbers, from many to few. The last two of NUMBERS and SOME, and the last of FEW, are no fixnums.
NUMBERS = [0, 1, -1, 2, -2, 3, -3, 4, 7, -7, 8, 82, -23, 0x1234, -100, ALTERNATING, -ALTERNATING, HALF - 1, HALF, HALF + 1,
           -HALF, -HALF - 1, GREATEST // 2, GREATEST // 2 + 1, LEAST // 2, LEAST // 2 - 1,
           GREATEST - 1, GREATEST, LEAST + 1, LEAST, GREATEST + 1, LEAST - 1]
SOME = [0, 1, -1, 2, 7, HALF, -HALF, GREATEST // 2 + 1, GREATEST, LEAST + 1, LEAST, GREATEST + 1, LEAST - 1]
FEW = [0, 1, -1, GREATEST, LEAST, GREATEST + 1]

POSITIONS = [0, 1, 2, 4, 12, WIDTH - 3, WIDTH - 2, WIDTH - 1, WIDTH, WIDTH + 1, -1, GREATEST, LEAST, GREATEST + 1]
# The machine's shifts take a distance mod 32 or mod 64.
SIZES = [0, 1, 2, 3, 31, 32, 33, WIDTH - 2, WIDTH - 1, WIDTH, WIDTH + 1, 63, 64, 65, 128, 2 ** 32, GREATEST]
DISTANCES = sorted(set(SIZES + [-size for size in SIZES] + [LEAST, GREATEST + 1, LEAST - 1]))
NEW_BITS = [0, 1, 2, -1, GREATEST, LEAST, GREATEST + 1]
RANDOM_CALLS = 300
UNARY = (6, 7, 8, 9, 10, 25, 30, 31, 32)
TERNARY = (22, 23, 24, 29)
FIELD_NUMBERS = [0, 1, -1, 82, 0x1234, ALTERNATING, GREATEST, LEAST, GREATEST + 1]


def rotation_counts(start, end):
    size = end - start
    near = [size - 1, size, size + 1, WIDTH - 1, WIDTH]
    return sorted({-1, 0, 1, 2, GREATEST, LEAST, GREATEST + 1} | {n for n in near if LEAST <= n <= GREATEST})


def numbers(*counts):
    """Arguments that may be any fixnums: every combination, for each of these counts."""
    for count in counts:
        yield from product((NUMBERS, NUMBERS, NUMBERS, SOME, FEW)[count], repeat=count)


def rotations():
    for x, start, end in product(FIELD_NUMBERS, POSITIONS, POSITIONS):
        for count in rotation_counts(start, end):
            yield x, start, end, count


def edges(code):
    """Argument lists of every length that the operation takes, at the limits of its domains."""
    if code <= 5:
        return numbers(2, 3, 4)
    if code in (11, 12):
        return numbers(1, 2, 3, 4)
    if code == 15:
        return numbers(1, 2)
    if code in (26, 27, 28):
        return numbers(0, 1, 2, 3, 4)
    if code == 33:
        return product(NUMBERS, POSITIONS)
    if code == 34:
        return product(NUMBERS, POSITIONS, NEW_BITS)
    if code in (35, 41):
        return product(NUMBERS, POSITIONS, POSITIONS)
    if code == 36:
        return product(FIELD_NUMBERS, POSITIONS, POSITIONS, FEW)
    if code in (37, 38, 39):
        return product(NUMBERS, DISTANCES)
    if code == 40:
        return rotations()
    return numbers(3 if code in TERNARY else 1 if code in UNARY else 2)


def random_number():
    """A fixnum of any length, of either sign."""
    magnitude = random.getrandbits(random.randint(0, WIDTH - 1))
    return random.choice((magnitude, -1 - magnitude))


def random_arguments(code):
    """Positions, distances and new bits are inside their domains. A rotation may be a full one, and a divisor 0."""
    x, y, z = random_number(), random_number(), random_number()
    start, end = sorted((random.randint(0, WIDTH - 1), random.randint(0, WIDTH - 1)))
    if code in (33, 34):
        return (x, end, random.randint(0, 1))[:code - 31]
    if code in (35, 41):
        return x, start, end
    if code == 36:
        return x, start, end, y
    if code == 40:
        return x, start, end, random.randint(0, end - start)
    if 37 <= code <= 39:
        return x, -end if code == 37 and y < 0 else end
    return (x, y, z)[:3 if code in TERNARY else 1 if code in UNARY else 2]


def is_word(x):
    return -2 ** 63 <= x < 2 ** 63


def main():
    random.seed(1)
    for code in range(1, 42):
        lists = {arguments for arguments in edges(code) if all(map(is_word, arguments))}
        for count in range(5):
            lists.update(product((0, 1, 2), repeat=count))
        lists.update(random_arguments(code) for _ in range(RANDOM_CALLS))
        for arguments in sorted(lists, key=lambda a: (len(a), sum(map(abs, a)), a)):
            print(code, len(arguments), *arguments, *[0] * (4 - len(arguments)))


main()
