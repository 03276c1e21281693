"""Writes the stored cases of the check: crates/test_check/stdin and crates/test_check/stdout.

    python3 tests/check_cases.py

A case is a label and a file. In the input each stands as: count of the label's bytes, the label, count of
the file's bytes, the file; a count has two bytes, low first. The expected line is `label: good` or
`label: refused NUMBER PLACE`, by tests/reference.py.
"""
from reference import adder, encode, verdict
from stored import store

NOT, AND = 1, 10
INVERTER = (30, [0], [1], [([1], NOT, [0])])
PLAIN = (20, [0, 1], [2], [([2], AND, [0, 1])])


def chain(gates, number=40, inputs=1):
    """One module of so many gates, each the NOT of the net before."""
    nets = list(range(inputs, inputs + gates))
    return number, list(range(inputs)), nets[-1:], [([n], NOT, [n - 1]) for n in nets]


def twice_the_next(levels, body, first=50):
    """Modules that each refer twice to the next, the last with so many gates."""
    modules = []
    for i in range(levels):
        below = [([1], first + i + 1, [0]), ([2], first + i + 1, [1])]
        modules.append((first + i, [0], [2], below))
    return modules + [chain(body, first + levels)]


def cases():
    yield 'no bytes', b''
    yield 'no modules', b'\0'
    yield 'two modules', encode([PLAIN, INVERTER])
    yield 'adder 1', adder(1)
    yield 'adder 64', adder(64)
    # reading
    yield '2 the file ends where a byte is due', adder(1)[:-1]
    yield '2 in the middle of a number', b'\x80'
    yield '3 second byte 0', b'\x80\0'
    yield '3 second byte 128', b'\x80\x80'
    yield '4 129 modules', b'\x81\1'
    yield '4 193 inputs', b'\1\x14\xc1\1'
    yield '4 4097 occurrences', b'\1\x14\0\0\x81\x20'
    yield '5 bytes follow', adder(1) + b'\0'
    yield '2 before 3: a second byte that is not there', b'\1\x80'
    yield '3 before 4: a count in a longer form', b'\x81\0'
    yield '4 before 5: a count over its ceiling with bytes behind', b'\x81\1\0\0'
    yield '5 before 6', encode([(5, [], [], [])]) + b'\0'
    # one module
    yield '6 number under 16', encode([(15, [0], [1], [([1], NOT, [0])])])
    yield '7 same number on a later module', encode([PLAIN, INVERTER, PLAIN])
    yield '8 an input listed twice', encode([(20, [0, 1, 0], [2], [([2], AND, [0, 1])])])
    yield '9 an output listed twice', encode([(20, [0], [1, 2, 1], [([1], NOT, [0]), ([2], NOT, [0])])])
    yield '10 a net both input and output', encode([(20, [0, 1], [1], [([2], NOT, [0])])])
    yield '11 it drives a net twice', encode([(20, [0], [1], [([1, 1], 30, [0])]), INVERTER])
    yield '11 it drives an input', encode([(20, [0, 1], [2], [([0], NOT, [1]), ([2], NOT, [1])])])
    yield '11 it drives a net already driven', encode([(20, [0], [1], [([1], NOT, [0]), ([1], NOT, [0])])])
    yield '12 an argument from nowhere', encode([(20, [0], [1], [([1], NOT, [7])])])
    yield '12 an argument driven further down', encode([(20, [0], [1, 2], [([1], NOT, [2]), ([2], NOT, [0])])])
    yield '12 an argument that it drives itself', encode([(20, [0], [1], [([1], AND, [0, 1])])])
    yield '13 no such module', encode([(20, [0], [1], [([1], 99, [0])])])
    yield '13 the module itself', encode([(20, [0], [1], [([1], 20, [0])])])
    yield '13 an earlier module', encode([INVERTER, (20, [0], [1], [([1], 30, [0])])])
    yield '14 a gate with an argument too many', encode([(20, [0], [1], [([1], NOT, [0, 0])])])
    yield '14 a gate that drives two nets', encode([(20, [0], [1], [([1, 2], NOT, [0])])])
    yield '14 a module with an argument too few', encode([(20, [0], [1], [([1], 30, [])]), INVERTER])
    yield '14 a module that drives two nets', encode([(20, [0], [1], [([1, 2], 30, [0])]), INVERTER])
    yield '15 an output is not driven', encode([(20, [0], [1, 9], [([1], NOT, [0])])])
    yield '16 4097 nets', encode([chain(4096)])
    yield 'good: 4096 nets', encode([chain(4095)])
    yield 'good: a repeated argument', encode([(20, [0], [1], [([1], AND, [0, 0])])])
    yield 'good: repeats that are no neighbours in different lists', encode([(20, [0, 5], [1], [([1], AND, [5, 0])])])
    yield '8 the first and the last of twenty inputs', encode([(20, list(range(19)) + [0], [40], [([40], NOT, [0])])])
    yield '8 first and last of 192 inputs', encode([(20, list(range(191)) + [0], [400], [([400], NOT, [0])])])
    # two rules broken at once
    yield '6 before 7', encode([(5, [0], [1], [([1], NOT, [0])]), (5, [0], [1], [([1], NOT, [0])])])
    yield '7 before 8', encode([(20, [0, 0], [2], [([2], NOT, [0])]), PLAIN])
    yield '8 before 9', encode([(20, [0, 0], [2, 2], [([2], NOT, [0])])])
    yield '9 before 10', encode([(20, [0, 1], [1, 1], [([2], NOT, [0])])])
    yield '10 before 11', encode([(20, [0, 1], [1], [([0], NOT, [1])])])
    yield '11 before 12', encode([(20, [0], [1], [([0], NOT, [7])])])
    yield '12 before 13', encode([(20, [0], [1], [([1], 99, [7])])])
    yield '13 before 14', encode([(20, [0], [1], [([1, 2], 99, [0, 0])])])
    yield '14 before 15', encode([(20, [0], [9], [([1], NOT, [0, 0])])])
    number, inputs, _, occurrences = chain(4096)
    yield '15 before 16', encode([(number, inputs, [9999], occurrences)])
    yield '16 before 17', encode([chain(4096, 19)] + twice_the_next(12, 20))
    yield '11 in the first occurrence before 12 in the next', encode(
        [(20, [0], [1], [([0], NOT, [0]), ([1], NOT, [7])])])
    yield '14 in the first occurrence before 11 in the next', encode(
        [(20, [0], [1], [([1], NOT, [0, 0]), ([0], NOT, [0])])])
    # which module
    yield '16 at the first module before 6 at the second', encode([chain(4096), (5, [], [], [])])
    yield '6 at the second module', encode([PLAIN, (5, [], [], [])])
    yield '7 at the earlier of two', encode([INVERTER, PLAIN, chain(2), PLAIN])
    yield 'the nearest later module is meant: 14 here', encode(
        [(20, [0], [1], [([1], 30, [0])]), (30, [0, 1], [2], [([2], AND, [0, 1])]), INVERTER])
    yield 'the nearest later module is meant: 7 there', encode(
        [(20, [0], [1], [([1], 30, [0])]), INVERTER, (30, [0, 1], [2], [([2], AND, [0, 1])])])
    # expanded size
    yield 'good: expanded size 65535', encode(exact(65535))
    yield '17 expanded size 65536', encode(exact(65536))
    yield '17 at the highest position that is over', encode([(70, [0], [1], [([1], 60, [0])])] + exact(65536))
    yield '17 empty modules that each refer twice to the next', encode(
        [(20 + i, [], [], [([], 21 + i, []), ([], 21 + i, [])]) for i in range(100)] + [(120, [], [], [])])
    yield 'good: empty modules that each refer twice to the next, fourteen deep', encode(
        [(20 + i, [], [], [([], 21 + i, []), ([], 21 + i, [])]) for i in range(14)] + [(34, [], [], [])])


def exact(size):
    """Two modules, the first of exactly that expanded size: references of 32 each, and gates for the rest."""
    leaf = chain(31, 61)
    calls, gates = divmod(size, 32)
    nets = calls + gates
    occurrences = [([i + 1], 61, [i]) for i in range(calls)] + [([i + 1], NOT, [i]) for i in range(calls, nets)]
    return [(60, [0], [nets], occurrences), leaf]


def main():
    # the program makes the first case itself
    data, lines = bytearray(), ['1 65536 bytes: refused 1 0\n']
    for label, file in cases():
        number, place = verdict(file)
        name = label.encode()
        data += bytes([len(name), 0]) + name + bytes([len(file) % 256, len(file) // 256]) + file
        lines.append('%s: %s\n' % (label, 'refused %d %d' % (number, place) if number else 'good'))
    store('test_check', data, lines)


if __name__ == '__main__':
    main()
