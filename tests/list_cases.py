"""Writes the stored cases of the listing: crates/test_list/stdin and crates/test_list/stdout.

    python3 tests/list_cases.py

A case is a label and a file, written as in tests/check_cases.py. The expected text is the label's line and
the listing, by tests/reference.py.
"""
import functools

import reference
from check_cases import INVERTER, NOT, PLAIN, chain, exact, twice_the_next
from reference import Refused, adder, count, encode, flatten
from stored import store

SCRATCH = 16384

# P has input A and drives O1 by B-NOT of A and O2 by B-NOT of O1; Q drives Y and Z by P, then W by B-NOT of Y
P = (21, [0], [1, 2], [([1], NOT, [0]), ([2], NOT, [1])])
DRIVEN = [(20, [0], [2, 3], [([1, 2], 21, [0]), ([3], NOT, [1])]), P]
DEEP = [(30, [0], [2, 5, 6], [([1, 2], 31, [0]), ([3, 4], 31, [2]), ([5], NOT, [2]), ([6], NOT, [2])]),
        (31, [0], [2, 1], [([1, 2], 21, [0]), ([3], NOT, [1])]), P]

# a listing asks of one file again and again
check = reference.check = functools.lru_cache(maxsize=1)(reference.check)


def listing(data):
    """The text of the listing program."""
    try:
        modules = check(data)
    except Refused as r:
        return 'refused %d %d\n' % (r.number, r.place)
    lines = []
    for position, module in enumerate(modules):
        try:
            inputs, outputs, _, gates, size, room, delay, load = count(data, module[0], SCRATCH)
            # the last is the delay by the unit family
            figures = '%d %d %d %d %d %d %d %d' % (inputs, outputs, gates, size, room, delay, load, delay)
        except Refused as r:
            figures = 'refused %d' % r.number
        lines.append('%d %d %s\n' % (position, module[0], figures))
    return ''.join(lines)


def level(number, nets, below):
    """A module of exactly so many nets: most are driven 192 at a time by module 16, and one by the module below, if there is one."""
    occurrences, free = [], list(range(1, nets))
    if below:
        occurrences.append(([free.pop()], below, [0]))
    while len(free) >= 192:
        occurrences.append((free[-192:], 16, [0]))
        del free[-192:]
    occurrences += [([net], NOT, [0]) for net in free]
    return number, [0], [occurrences[0][0][0]], occurrences


def tower(room):
    """Four modules above module 16, whose room adds up to that of the first."""
    base = (16, [0], list(range(1, 193)), [([net], NOT, [0]) for net in range(1, 193)])
    last = room - 193 - 3 * 4096
    return [level(20, 4096, 21), level(21, 4096, 22), level(22, 4096, 23), level(23, last, None), base]


def wide(number=16383, entries=192):
    """As many inputs and outputs as a list of nets may have."""
    inputs = list(range(entries))
    outputs = list(range(1000, 1000 + entries))
    return number, inputs, outputs, [([o], NOT, [i]) for i, o in zip(inputs, outputs)]


def filled(bytes_wanted):
    """A file of exactly so many bytes: modules that refer to a module without nets, again and again."""
    leaf = (16, [], [], [])
    # an occurrence of the leaf is 00 10 00: three bytes
    modules, number = [], 20
    while True:
        rest = bytes_wanted - len(encode(modules + [leaf]))
        if rest < 3 * 4000 + 20:
            break
        modules.append((number, [], [], [([], 16, [])] * 4000))
        number += 1
    # what is left goes to one module, whose inputs settle the bytes that occurrences do not
    for inputs in range(3, 8):
        few = (rest - 10 - inputs) // 3
        for occurrences in range(max(few, 0), few + 5):
            last = (number, list(range(inputs)), [], [([], 16, [])] * occurrences)
            if len(encode(modules + [last, leaf])) == bytes_wanted:
                return modules + [last, leaf]
    raise ValueError(bytes_wanted)


def cases():
    yield 'no bytes', b''
    yield 'no modules', b'\0'
    yield 'an empty module', encode([(16, [], [], [])])
    yield 'two modules', encode([PLAIN, INVERTER])
    yield 'adder 1', adder(1)
    yield 'adder 2', adder(2)
    yield 'adder 64', adder(64)
    yield 'empty modules that each refer twice to the next', encode(
        [(20 + i, [], [], [([], 21 + i, []), ([], 21 + i, [])]) for i in range(14)] + [(34, [], [], [])])
    yield 'each twice the next, the last of twenty gates', encode(twice_the_next(10, 20))
    yield 'one net at several places', encode(
        [(20, [0], [1], [([1], 22, [0, 0, 0])]), (22, [0, 1, 2], [4], [([3], 11, [0, 1, 1]), ([4], 9, [3, 0])])])
    yield 'load inside a module that is passed over twice', encode(
        [(20, [0, 1], [2, 3], [([2], 22, [0, 1]), ([3], 22, [2, 0])]),
         (22, [0, 1], [3], [([2], 23, [0]), ([3], 10, [2, 1])]),
         (23, [0], [3], [([1], NOT, [0]), ([2], NOT, [0]), ([3], 10, [1, 2])])])
    yield 'load of a driven net inside the module that drives it', encode(DRIVEN)
    yield 'the same flattened', flatten(encode(DRIVEN), 20, SCRATCH, 99)
    yield 'load of a driven net three levels down, its outputs crossed', encode(DEEP)
    yield 'the same flattened', flatten(encode(DEEP), 30, SCRATCH, 99)
    # refusals
    yield '2 the file ends where a byte is due', adder(1)[:-1]
    yield '3 second byte 0', b'\x80\0'
    yield '4 129 modules', b'\x81\1'
    yield '5 bytes follow', adder(1) + b'\0'
    yield '13 no such module', encode([(20, [0], [1], [([1], 99, [0])])])
    yield '17 expanded size 65536', encode(exact(65536))
    # scratch
    yield 'room 16384', encode(tower(16384))
    yield 'room 16385: the first module is refused, the later ones are not', encode(tower(16385))
    yield 'room 16575', encode(tower(16575))
    # ceilings
    yield '128 modules', encode([chain(i % 7 + 1, 16 + i) for i in range(128)])
    yield '192 inputs and outputs', encode([wide()])
    yield '4096 nets', encode([chain(4095)])
    yield '4096 occurrences', encode([(20, [], [], [([], 16, [])] * 4096), (16, [], [], [])])
    yield 'expanded size 65535', encode(exact(65535))
    yield '65535 bytes', encode(filled(65535))


def main():
    # the program makes the first case itself
    data, text = bytearray(), ['1 65536 bytes:\nrefused 1 0\n']
    for label, file in cases():
        name = label.encode()
        data += bytes([len(name), 0]) + name + bytes([len(file) % 256, len(file) // 256]) + file
        text.append('%s:\n%s' % (label, listing(file)))
    store('test_list', data, text)


if __name__ == '__main__':
    main()
