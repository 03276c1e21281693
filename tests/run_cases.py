"""Writes the stored cases of evaluation: crates/test_run/stdin and crates/test_run/stdout.

    python3 tests/run_cases.py

A case is a label, a source, a module's number, values, and the lengths of scratch and output buffer. In the
input each number has two bytes, low first; label, file and values have the count of their bytes in front. The
source is 0 and a file, or 1 and the width of an adder, or 2 and that of a counter: these two the program
writes itself. The expected line is `label: WORD` with the outputs' values, or `label: refused NUMBER PLACE`.
What the modules of a file give comes from tests/reference.py's evaluation, what written ones give on known bits
from its plain arithmetic.
"""
from itertools import product

from check_cases import AND, INVERTER, NOT, PLAIN, chain, twice_the_next
from reference import ARITY, Refused, adder, adder_sum, bits, encode, evaluate, leading_zeros
from stored import store

DOCUMENT = bytes.fromhex(
    '03 12 03 00 01 02 02 03 04 01 02 03 04 11 03 01 02 00 11 03 00 01 02 02 03 04 03 02 05 06 10 02 00 01'
    '02 03 07 10 02 05 02 01 04 05 02 06 07 10 02 00 01 02 02 03 02 01 02 09 02 00 01 01 03 0A 02 00 01')
XOR = 9
EMPTY = (90, [], [], [])
# one gate of each kind, on the first of four inputs
GATES = (80, [0, 1, 2, 3], list(range(4, 20)), [([4 + g], g, list(range(ARITY[g]))) for g in range(16)])
SCRATCH, OUT = 1024, 256


def stored(label, file, number, values, scratch=SCRATCH, out=OUT):
    """A case on a stored file."""
    try:
        answer = evaluate(file, number, values, scratch, out)
    except Refused as r:
        answer = r
    return label, [0, len(file), file], number, values, scratch, out, answer


def added(width, carry, a, b, scratch=SCRATCH, out=OUT):
    """A case on a written adder; a and b are numbers, or lists of values, low bit first."""
    known = isinstance(a, int) and isinstance(b, int) and carry < 2
    a, b = (x if isinstance(x, list) else bits(x, width) for x in (a, b))
    label = 'adder %d of %d %s %s' % (width, carry, word(a), word(b))
    answer = stored(label, adder(width), 18, [carry] + a + b, scratch, out)[-1]
    if known and not isinstance(answer, Refused):
        assert answer == adder_sum(width, carry, number_of(a), number_of(b))
    return label, [1, width], 18, [carry] + a + b, scratch, out, answer


def counted(width, inputs):
    """A case on a written counter; the inputs are a number, or a list of values, low bit first."""
    values = inputs if isinstance(inputs, list) else bits(inputs, width)
    label = 'counter %d of %s' % (width, word(values))
    return label, [2, width], 32, values, SCRATCH, OUT, leading_zeros(values)


def number_of(values):
    return sum(v << i for i, v in enumerate(values))


def word(values):
    return ''.join(map(str, values))


def cases():
    # the rows of document 01, then every row
    for row in ([0, 1, 1], [1, 1, 1], [2, 0, 0], [2, 1, 1], [2, 1, 0]):
        yield stored('the 67 bytes on %s' % word(row), DOCUMENT, 18, row)
    for row in product(range(4), repeat=3):
        yield added(1, row[0], [row[1]], [row[2]])
    yield stored('the full adder alone', DOCUMENT, 17, [1, 0, 1])
    yield stored('the half adder alone', DOCUMENT, 16, [1, 1])
    # each refusal, at its bound
    yield stored('2 no bytes', b'', 18, [0, 1, 1])
    yield stored('6 number under 16', encode([(15, [0], [1], [([1], NOT, [0])])]), 15, [0])
    yield stored('18 no module of that number', DOCUMENT, 19, [0, 1, 1])
    yield stored('18 the number of a gate', DOCUMENT, AND, [0, 1])
    yield stored('18 a number that no file has', DOCUMENT, 65535, [0, 1, 1])
    yield stored('18 a file of no modules', b'\0', 18, [0, 1, 1])
    yield stored('19 a value too few', DOCUMENT, 18, [0, 1])
    yield stored('19 a value too many', DOCUMENT, 18, [0, 1, 1, 1])
    yield stored('19 no values', DOCUMENT, 18, [])
    yield stored('20 the first value', DOCUMENT, 18, [4, 1, 1])
    yield stored('20 the last value', DOCUMENT, 18, [0, 1, 255])
    yield stored('20 the first of two', DOCUMENT, 18, [3, 4, 5])
    yield stored('21 scratch of 16 where the room is 17', DOCUMENT, 18, [0, 1, 1], scratch=16)
    yield stored('scratch of 17', DOCUMENT, 18, [0, 1, 1], scratch=17)
    yield stored('21 no scratch', DOCUMENT, 18, [0, 1, 1], scratch=0)
    yield stored('22 a byte for two outputs', DOCUMENT, 18, [0, 1, 1], out=1)
    yield stored('two bytes for two outputs', DOCUMENT, 18, [0, 1, 1], out=2)
    yield stored('22 no output buffer', DOCUMENT, 18, [0, 1, 1], out=0)
    # two at once, and all
    yield stored('5 before 18', DOCUMENT + b'\0', 19, [0, 1, 1])
    yield stored('18 before 19', DOCUMENT, 19, [])
    yield stored('19 before 20', DOCUMENT, 18, [4, 1])
    yield stored('20 before 21', DOCUMENT, 18, [0, 4, 1], scratch=16)
    yield stored('21 before 22', DOCUMENT, 18, [0, 1, 1], scratch=16, out=1)
    yield stored('18 before all others', DOCUMENT, 19, [4], scratch=0, out=0)
    yield stored('19 before all others', DOCUMENT, 18, [4], scratch=0, out=0)
    yield stored('20 before all others', DOCUMENT, 18, [0, 0, 4], scratch=0, out=0)
    # hierarchies
    yield stored('an inverter beside the module asked for', encode([PLAIN, INVERTER]), 20, [1, 1])
    yield stored('a later module', encode([PLAIN, INVERTER]), 30, [1])
    swapped = (70, [5, 3], [8, 9], [([9, 8], 71, [3, 5])])
    crossed = (71, [0, 1], [3, 2], [([2], 0, [0]), ([3], NOT, [1])])
    for row in product(range(4), repeat=2):
        yield stored('arguments and outputs in another order on %s' % word(row), encode([swapped, crossed]), 70, list(row))
    for v in range(4):
        yield stored('each module twice the next, on %d' % v, encode(twice_the_next(8, 3)), 50, [v])
    nested = encode([(16 + i, [0], [1], [([1], 17 + i, [0])]) for i in range(127)] + [chain(1, 143)])
    yield stored('128 modules, each in the one before', nested, 16, [1])
    yield stored('21 the same with an entry too few', nested, 16, [1], scratch=255)
    yield stored('the same with the room exactly', nested, 16, [1], scratch=256)
    yield stored('a file above 1024 bytes', encode([chain(501)]), 40, [0])
    yield stored('22 a file above 1024 bytes', encode([chain(501)]), 40, [0], out=0)
    # empty modules
    yield stored('an empty module', encode([EMPTY]), 90, [], scratch=0, out=0)
    yield stored('19 an empty module', encode([EMPTY]), 90, [0])
    yield stored('references to an empty module', encode([(70, [], [], [([], 90, []), ([], 90, [])]), EMPTY]), 70, [], scratch=0, out=0)
    yield stored('inputs and no outputs', encode([(70, [0, 1], [], [([2], AND, [0, 1])])]), 70, [1, 2], scratch=3, out=0)
    # unknown bits
    for row in ([0, 0, 0, 0], [1, 1, 1, 1], [2, 2, 2, 2], [0, 2, 2, 2], [1, 2, 2, 2], [2, 0, 1, 1], [2, 1, 0, 2]):
        yield stored('a gate of each kind on %s' % word(row), encode([GATES]), 80, row)
    # inputs that float
    for row in ([3, 3, 3, 3], [0, 3, 3, 3], [1, 3, 3, 3], [3, 0, 1, 2], [2, 3, 2, 3]):
        yield stored('a gate of each kind on %s' % word(row), encode([GATES]), 80, row)
    yield stored('three buffers in a row on 3', encode([(70, [0], [3, 2, 1], [([1], 0, [0]), ([2], 0, [1]), ([3], 0, [2])])]), 70, [3])
    own = (70, [0], [2, 3], [([1], NOT, [0]), ([2], AND, [0, 1]), ([3], XOR, [0, 0])])
    for v in range(4):
        yield stored('a net with its own negation, on %d' % v, encode([own]), 70, [v])
    # written adders
    for width in 2, 8, 32, 64:
        most = 2 ** width - 1
        stripes = most // 3
        for row in ((0, 0, 0), (1, 0, 0), (0, most, 1), (1, most, 0), (1, most, most), (0, stripes, 2 * stripes),
                    (1, stripes, 2 * stripes), (0, 2 ** (width - 1), 2 ** (width - 1)), (1, 12345678901 & most, 98765432109 & most)):
            yield added(width, *row)
        yield added(width, 2, 0, 0)
        yield added(width, 2, most, most)
        yield added(width, 2, most, 0)
        yield added(width, 0, [2] + bits(stripes, width - 1), bits(stripes, width))
        yield added(width, 1, bits(stripes, width - 1) + [2], bits(most, width))
        yield added(width, 0, [2] * width, [0] * width)
        yield added(width, 0, most, 1, scratch=4 * width + 13, out=width + 1)
        yield added(width, 0, most, 1, scratch=4 * width + 12, out=width + 1)
        yield added(width, 0, most, 1, scratch=4 * width + 13, out=width)
    # written counters
    for width in 1, 2, 3, 4, 5, 7, 8, 12, 16, 17, 31, 32, 33, 48, 63, 64:
        for value in sorted({0, 1, 2 ** (width - 1), 2 ** width - 1, 2 ** (width // 2), 12345678901 % 2 ** width}):
            yield counted(width, value)
        for highest in sorted({0, width // 3, width - 1}):
            yield counted(width, [2] * highest + [1] + [0] * (width - 1 - highest))
        yield counted(width, [3] * (width - 1) + [1])


def main():
    data, lines = bytearray(), []

    def number(n):
        data.extend([n % 256, n // 256])

    for label, source, module, values, scratch, out, answer in cases():
        name = label.encode()
        assert len(name) < 256
        number(len(name))
        data.extend(name)
        for part in source:
            data.extend(part) if isinstance(part, bytes) else number(part)
        number(module)
        number(len(values))
        data.extend(values)
        number(scratch)
        number(out)
        if isinstance(answer, Refused):
            lines.append('%s: refused %d %d\n' % (label, answer.number, answer.place))
        else:
            lines.append(('%s: %s' % (label, word(answer))).rstrip() + '\n')
    store('test_run', data, lines)


if __name__ == '__main__':
    main()
