"""The rules of document 01 once more, plain and obvious, to hold the proved programs against.

Nothing here is fast and nothing here is proved. It reads a shelf file, checks it, runs, counts and
flattens its modules and writes adders, each as the document says it, with the refusals in its order.
"""
from itertools import product

ARITY = [1, 1, 2, 3, 4, 2, 3, 4, 2, 2, 2, 3, 4, 2, 3, 4]


def boolean(gate, bits):
    """The Boolean function of a gate's name on known bits."""
    if gate == 0:
        return bits[0]
    if gate == 1:
        return not bits[0]
    if gate in (2, 3, 4):
        return not all(bits)
    if gate in (5, 6, 7):
        return any(bits)
    if gate == 8:
        return bits[0] == bits[1]
    if gate == 9:
        return bits[0] != bits[1]
    if gate in (10, 11, 12):
        return all(bits)
    return not any(bits)


def gate_value(gate, values):
    """0 or 1 where every filling of the places that are 2 or 3 agrees, else 2."""
    places = [[False], [True], [False, True], [False, True]]
    results = {boolean(gate, filling) for filling in product(*(places[v] for v in values))}
    return int(results.pop()) if len(results) == 1 else 2


class Refused(Exception):
    def __init__(self, number, place):
        super().__init__(number, place)
        self.number, self.place = number, place


# Reading


def read(data):
    """The file's modules, each (number, inputs, outputs, [(drives, refers, takes)])."""
    if len(data) > 65535:
        raise Refused(1, 0)
    at = 0

    def number():
        nonlocal at
        start = at
        if at >= len(data):
            raise Refused(2, len(data))
        first = data[at]
        at += 1
        if first < 128:
            return first
        if at >= len(data):
            raise Refused(2, len(data))
        second = data[at]
        at += 1
        if second == 0 or second >= 128:
            raise Refused(3, start)
        return first - 128 + 128 * second

    def count(ceiling):
        start = at
        n = number()
        if n > ceiling:
            raise Refused(4, start)
        return n

    def nets():
        return [number() for _ in range(count(192))]

    def occurrence():
        drives = nets()
        refers = number()
        return drives, refers, nets()

    def module():
        own = number()
        inputs = nets()
        outputs = nets()
        return own, inputs, outputs, [occurrence() for _ in range(count(4096))]

    modules = [module() for _ in range(count(128))]
    if at < len(data):
        raise Refused(5, at)
    return modules


# The check


def nearest(number, later):
    """The position in `later` of the nearest module of that number."""
    for j, module in enumerate(later):
        if module[0] == number:
            return j
    return None


def twice(nets):
    return len(set(nets)) < len(nets)


def check_module(place, module, later):
    number, inputs, outputs, occurrences = module
    if number < 16:
        raise Refused(6, place)
    if nearest(number, later) is not None:
        raise Refused(7, place)
    if twice(inputs):
        raise Refused(8, place)
    if twice(outputs):
        raise Refused(9, place)
    if set(inputs) & set(outputs):
        raise Refused(10, place)
    known, driven = set(inputs), set()
    for drives, refers, takes in occurrences:
        if twice(drives) or set(drives) & known:
            raise Refused(11, place)
        if set(takes) - known:
            raise Refused(12, place)
        if refers < 16:
            counts = ARITY[refers], 1
        else:
            j = nearest(refers, later)
            if j is None:
                raise Refused(13, place)
            counts = len(later[j][1]), len(later[j][2])
        if (len(takes), len(drives)) != counts:
            raise Refused(14, place)
        known |= set(drives)
        driven |= set(drives)
    if set(outputs) - driven:
        raise Refused(15, place)
    if len(known) > 4096:
        raise Refused(16, place)


def referred(modules, k, refers):
    return k + 1 + nearest(refers, modules[k + 1:])


def sizes(modules):
    """The expanded size of every module, or refusal 17."""
    size = [0] * len(modules)
    for k in reversed(range(len(modules))):
        for _, refers, _ in modules[k][3]:
            size[k] += 1 + (0 if refers < 16 else size[referred(modules, k, refers)])
        if size[k] > 65535:
            raise Refused(17, k)
    return size


def check(data):
    modules = read(data)
    for place, module in enumerate(modules):
        check_module(place, module, modules[place + 1:])
    sizes(modules)
    return modules


def verdict(data):
    try:
        check(data)
        return 0, 0
    except Refused as r:
        return r.number, r.place


# Running, counting, flattening


def run(modules, k, values, gate):
    """The outputs of the module at position k, where `gate` makes one value of a kind's arguments."""
    _, inputs, outputs, occurrences = modules[k]
    env = dict(zip(inputs, values))
    for drives, refers, takes in occurrences:
        arguments = [env[t] for t in takes]
        if refers < 16:
            results = [gate(refers, arguments)]
        else:
            results = run(modules, referred(modules, k, refers), arguments, gate)
        env.update(zip(drives, results))
    return [env[o] for o in outputs]


def find(modules, number):
    for k, module in enumerate(modules):
        if module[0] == number:
            return k
    raise Refused(18, 0)


def room(modules, k):
    _, inputs, _, occurrences = modules[k]
    nets = len(inputs) + sum(len(drives) for drives, _, _ in occurrences)
    below = [room(modules, referred(modules, k, r)) for r in {o[1] for o in occurrences} if r >= 16]
    return nets + max(below, default=0)


def evaluate(data, number, values, scratch, out):
    """The outputs, or a refusal, where scratch and out have so many entries."""
    modules = check(data)
    k = find(modules, number)
    if len(values) != len(modules[k][1]):
        raise Refused(19, 0)
    for i, v in enumerate(values):
        if v > 3:
            raise Refused(20, i)
    if scratch < room(modules, k):
        raise Refused(21, 0)
    if out < len(modules[k][2]):
        raise Refused(22, 0)
    return run(modules, k, values, gate_value)


def tally(modules, k):
    counts = [0] * 16
    for _, refers, _ in modules[k][3]:
        if refers < 16:
            counts[refers] += 1
        else:
            counts = [a + b for a, b in zip(counts, tally(modules, referred(modules, k, refers)))]
    return counts


def loads(modules, k):
    """The load of each net of the module at position k, and the largest load there and below."""
    _, inputs, _, occurrences = modules[k]
    load = {net: 0 for net in inputs}
    largest = 0
    for drives, refers, takes in occurrences:
        if refers < 16:
            inside, driven = [1] * len(takes), [0]
        else:
            j = referred(modules, k, refers)
            below, deepest = loads(modules, j)
            inside, driven = [below[net] for net in modules[j][1]], [below[net] for net in modules[j][2]]
            largest = max(largest, deepest)
        for net, extra in zip(takes, inside):
            load[net] += extra
        for net, extra in zip(drives, driven):
            load[net] = extra
    return load, max([largest] + list(load.values()))


def count(data, number, scratch):
    """inputs, outputs, tally, gates, size, room, delay, largest load."""
    modules = check(data)
    k = find(modules, number)
    if scratch < room(modules, k):
        raise Refused(21, 0)
    inputs, outputs = modules[k][1], modules[k][2]
    times = run(modules, k, [0] * len(inputs), lambda kind, ts: 1 + max(ts))
    counts = tally(modules, k)
    return (len(inputs), len(outputs), counts, sum(counts), sizes(modules)[k], room(modules, k),
            max(times, default=0), loads(modules, k)[1])


def flatten(data, number, scratch, out):
    modules = check(data)
    k = find(modules, number)
    inputs = list(range(len(modules[k][1])))
    if len(inputs) + sum(tally(modules, k)) > 4096:
        raise Refused(24, 0)
    if scratch < room(modules, k):
        raise Refused(21, 0)
    gates = []

    def place(kind, nets):
        gates.append(([len(inputs) + len(gates)], kind, nets))
        return gates[-1][0][0]

    outputs = run(modules, k, inputs, place)
    answer = encode([(number, inputs, outputs, gates)])
    if out < len(answer):
        raise Refused(22, 0)
    return answer


# Writing


def encode(modules):
    data = bytearray()

    def number(n):
        data.extend([n] if n < 128 else [128 + n % 128, n // 128])

    def nets(ns):
        number(len(ns))
        for n in ns:
            number(n)

    number(len(modules))
    for own, inputs, outputs, occurrences in modules:
        number(own)
        nets(inputs)
        nets(outputs)
        number(len(occurrences))
        for drives, refers, takes in occurrences:
            nets(drives)
            number(refers)
            nets(takes)
    return bytes(data)


HALF = (16, [0, 1], [2, 3], [([2], 9, [0, 1]), ([3], 10, [0, 1])])
FULL = (17, [0, 1, 2], [3, 4], [([5, 6], 16, [0, 1]), ([3, 7], 16, [5, 2]), ([4], 5, [6, 7])])


def adder(n):
    cells = [([2 * n + 1 + i, 3 * n + 1 + i], 17, [1 + i, n + 1 + i, 3 * n + i if i else 0]) for i in range(n)]
    return encode([(18, list(range(2 * n + 1)), list(range(2 * n + 1, 3 * n + 1)) + [4 * n], cells), FULL, HALF])


# What written modules compute, in plain arithmetic


def bits(value, width):
    """The binary digits of a number, low bit first."""
    return [value >> i & 1 for i in range(width)]


def adder_sum(width, carry, a, b):
    """What an adder gives on known bits: the sums, then the last carry."""
    return bits(carry + a + b, width + 1)


def leading_zeros(inputs):
    """What a counter gives where its highest 1 and every bit above it are known: the zeros above it, or the width."""
    width = len(inputs)
    count = 0
    for v in reversed(inputs):
        assert v < 2
        if v == 1:
            break
        count += 1
    return bits(count, width.bit_length())
