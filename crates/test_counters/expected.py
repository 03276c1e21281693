"""What counters must print, by the rows of nets of docs/COUNTER.md. Made by: python3 expected.py > stdout"""
from itertools import count, islice

NOT, OR, XOR, AND, NOR = 1, 5, 9, 10, 13


def rows():
    """Gives the next nets, as many as asked."""
    nets = count()
    return lambda n: list(islice(nets, n))


def choice(empty, high, low, ands, ors):
    return [gate for h, l, a, o in zip(high, low, ands, ors) for gate in (([a], AND, [empty, l]), ([o], OR, [h, a]))]


def block(level):
    row = rows()
    half = 2 ** (level - 1)
    bits = row(2 * half)
    if level == 1:
        one, empty = row(2)
        return 33, bits, [one, empty], [([empty], NOR, bits), ([one], NOR, [bits[1], empty])]
    low, high, ands, ors, (top, empty) = row(level), row(level), row(level - 1), row(level - 1), row(2)
    gates = [(low, 31 + level, bits[:half]), (high, 31 + level, bits[half:])]
    gates += choice(high[-1], high[:-1], low[:-1], ands, ors)
    gates += [([empty], AND, [high[-1], low[-1]]), ([top], XOR, [high[-1], empty])]
    return 32 + level, bits, ors + [top, empty], gates


def counter(width):
    row = rows()
    bits = row(width)
    left, below, gates = bits, [], []
    for level in range(width.bit_length()):
        if width >> level & 1:
            n = len(below)
            low, ands, ors, rest = row(n), row(n), row(n), row(level + 1 - n)
            gates += [(low + rest, 32 + level if level else NOT, left[: 2**level])]
            gates += choice(rest[-1], low, below, ands, ors)
            left, below = left[2**level :], ors + rest
    return [(32, bits, below, gates)] + [block(level) for level in range(width.bit_length() - 1, 0, -1)]


def written(width):
    """The bytes of the file: each of its numbers is below 128."""
    modules = counter(width)
    out = [len(modules)]
    for number, inputs, outputs, gates in modules:
        out += [number, len(inputs), *inputs, len(outputs), *outputs, len(gates)]
        for drives, refers, takes in gates:
            out += [len(drives), *drives, refers, len(takes), *takes]
    assert max(out) < 128
    return out


def order(width, room, shown=True):
    before = [255] * room
    if not 1 <= width <= 64:
        answer, after = "refused 23 0", before
    elif len(written(width)) > room:
        answer, after = "refused 22 0", before
    else:
        answer, after = "wrote %d" % len(written(width)), written(width) + before[len(written(width)) :]
    print("width", width, "buffer", room, answer)
    if shown:
        print("".join(" %02X" % byte for byte in after))


order(0, 4)
order(65, 4)
order(3, 53)
order(3, 54)
order(3, 57)
order(12, len(written(12)))
for width in 32, 64:
    order(width, len(written(width)) - 1, shown=False)
    order(width, len(written(width)), shown=False)
