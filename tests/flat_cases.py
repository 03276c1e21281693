"""Writes the stored cases of flattening: crates/test_flatten/stdin and crates/test_flatten/stdout.

    python3 tests/flat_cases.py

A case is a label, a file, a module's number and the lengths of scratch and of the output buffer. In the input each
stands as: count of the label's bytes, the label, count of the file's bytes, the file, number, scratch, out; a number
has two bytes, low first. The expected line has how many entries of scratch and how many bytes of the buffer (which
are FF at first) are changed, then `wrote COUNT` and on the next line the first 256 bytes of the answer, or
`refused NUMBER PLACE`, by tests/reference.py.
"""
from check_cases import AND, INVERTER, NOT, PLAIN, chain, twice_the_next
from reference import Refused, adder, check, encode, find, flatten, room
from stored import store

OR, XOR = 5, 9
NUMBERED = 16383, [900, 7, 16383], [8], [([8], XOR, [900, 16383])]
DEEP = [(20 + i, [5], [9], [([9], 21 + i, [5])]) for i in range(127)] + [(147, [5], [9], [([9], NOT, [5])])]
EMPTY = [(20, [], [], [([], 21, []), ([], 21, [])]), (21, [], [], [([], 22, [])]), (22, [], [], [])]
CROSSED = [
    (20, [4, 3], [1, 2], [([1, 2], 30, [3, 4])]),
    (30, [0, 1], [9, 8], [([7], NOT, [0]), ([8, 6], 31, [7, 1]), ([9], OR, [6, 8])]),
    (31, [1, 2], [3, 4], [([4], AND, [1, 2]), ([3], XOR, [2, 1])])]


def many(gates, inputs):
    """Modules of so many inputs and gates: references to a chain of 64, and gates for the rest."""
    calls, rest = divmod(gates, 64)
    nets = list(range(inputs, inputs + calls + rest))
    body = [([n], 41, [n - 1]) for n in nets[:calls]] + [([n], NOT, [n - 1]) for n in nets[calls:]]
    return encode([(40, list(range(inputs)), nets[-1:], body), chain(64, 41)])


def handed_up(levels, gates):
    """Modules that each hand up the outputs of the next, the last of which has so many gates: much room for few nets."""
    nets = list(range(1, gates + 1))
    through = [(50 + i, [0], nets, [(nets, 51 + i, [0])]) for i in range(levels)]
    return encode(through + [(50 + levels, [0], nets, [([n], NOT, [0]) for n in nets])])


def needs(file, number):
    """The room, and the length of the answer."""
    modules = check(file)
    return room(modules, find(modules, number)), len(flatten(file, number, 65535, 65535))


def cases():
    # answers, each with as much scratch and as long a buffer as it needs
    flat = flatten(adder(1), 18, 17, 40)
    for label, file, number in (
            ('adder 1', adder(1), 18),
            ('full adder', adder(1), 17),
            ('half adder', adder(1), 16),
            ('adder 1, flat', flat, 18),
            ('adder 64', adder(64), 18),
            ('adder 64, flat', flatten(adder(64), 18, 269, 65535), 18),
            ('a gate', encode([INVERTER]), 30),
            ('nets with gaps, and an input that nothing takes', encode([NUMBERED]), 16383),
            ('outputs in another order than driven', encode(CROSSED), 20),
            ('outputs in another order than driven, inside', encode(CROSSED), 30),
            ('128 modules deep', encode(DEEP), 20),
            ('an empty module', encode(EMPTY), 22),
            ('empty modules that are referred to', encode(EMPTY), 20),
            ('inputs only', encode([(20, [3, 4], [], [])]), 20),
            ('twice the next', encode(twice_the_next(8, 3)), 50),
            ('the last module', encode([PLAIN, INVERTER]), 30)):
        yield label, file, number, *needs(file, number)
    # more than is needed
    yield 'more scratch and a longer buffer', adder(1), 18, 20, 50
    # each refusal
    yield '2 no bytes', b'', 18, 100, 100
    yield '6 number under 16', encode([(5, [], [], [])]), 5, 100, 100
    yield '18 no modules', encode([]), 18, 100, 100
    yield '18 no module of that number', adder(1), 19, 100, 100
    yield '18 a gate', adder(1), 9, 100, 100
    yield '18 a number that no file holds', adder(1), 65535, 100, 100
    yield 'inputs plus gates 4096', many(4095, 1), 40, *needs(many(4095, 1), 40)
    yield '24 inputs plus gates 4097', many(4096, 1), 40, 8192, 32768
    yield 'inputs plus gates 4096, of which inputs 192', many(3904, 192), 40, *needs(many(3904, 192), 40)
    yield '24 inputs plus gates 4097, of which inputs 192', many(3905, 192), 40, 8192, 32768
    yield 'inputs plus gates 1024', many(1000, 24), 40, *needs(many(1000, 24), 40)
    yield 'inputs plus gates 1025', many(1000, 25), 40, *needs(many(1000, 25), 40)
    yield 'a room of 1024', handed_up(7, 127), 50, *needs(handed_up(7, 127), 50)
    yield 'a room of 1032', handed_up(7, 128), 50, *needs(handed_up(7, 128), 50)
    yield 'a room of 8085', handed_up(48, 164), 50, *needs(handed_up(48, 164), 50)
    yield '21 one entry less than the room', adder(1), 18, 16, 40
    yield '21 no scratch', adder(1), 18, 0, 40
    yield 'no scratch for an empty module', encode(EMPTY), 22, 0, 6
    yield '22 one byte less than the answer', adder(1), 18, 17, 39
    yield '22 no buffer', adder(1), 18, 17, 0
    yield '22 one byte less than the answer, with more scratch', adder(64), 18, 8192, needs(adder(64), 18)[1] - 1
    # two refusals at once
    yield '5 before 18', adder(1) + b'\0', 19, 0, 0
    yield '18 before 21 and 22', adder(1), 19, 0, 0
    yield '24 before 21', many(4096, 1), 40, 0, 32768
    yield '24 before 22', many(4096, 1), 40, 8192, 0
    yield '21 before 22', adder(1), 18, 16, 39


def main():
    data, lines = bytearray(), []

    def number(n):
        data.extend([n % 256, n // 256])

    for label, file, module, scratch, out in cases():
        name = label.encode()
        number(len(name))
        data.extend(name)
        number(len(file))
        data.extend(file)
        for n in (module, scratch, out):
            number(n)
        try:
            answer = flatten(file, module, scratch, out)
            modules = check(file)
            lines.append('%s: cleared %d filled %d wrote %d\n%s\n' % (
                label, room(modules, find(modules, module)), sum(b != 255 for b in answer), len(answer),
                ''.join(' %02X' % b for b in answer[:256])))
        except Refused as r:
            lines.append('%s: cleared 0 filled 0 refused %d %d\n' % (label, r.number, r.place))
    store('test_flatten', data, lines)


if __name__ == '__main__':
    main()
