"""Texts in the published list form (request M-100), read and printed once more, plainly, and held against `shelf_read_text` and
`shelf_print_text`; and what is printed is read back.

    judge.py PROGRAM [CASES [SEED]]     PROGRAM is tests/lists/main.c, linked with the library

The reading follows document 02 and nothing of the code: a text is cut into atoms and brackets, and a stack says what may come next. The
check of the file is that of reference.py.
"""
import os
import random
import struct
import subprocess
import sys

sys.path.insert(0, os.path.join(os.path.dirname(os.path.abspath(__file__)), ".."))
import reference

GATES = ("B-BUF B-NOT B-NAND B-NAND3 B-NAND4 B-OR B-OR3 B-OR4 B-EQV B-XOR B-AND B-AND3 B-AND4 B-NOR B-NOR3 B-NOR4").split()
ATOM = set(b"ABCDEFGHIJKLMNOPQRSTUVWXYZabcdefghijklmnopqrstuvwxyz0123456789-")
BLANK = set(b" \n\r")

# What a list of each kind has in it, one behind the other; a star is a list of any number of such.
PARTS = {
    "modules": ["module*"],
    "module": ["name", "nets", "nets", "body"],
    "nets": ["net*"],
    "body": ["occurrence*"],
    "occurrence": ["nets", "call"],
    "call": ["name", "argument*"],
}
MOST = {"module": 128, "net": 192, "argument": 192, "occurrence": 4096}


class Reader:
    """A text's modules, or the refusal 25 or 26 that comes first."""

    def __init__(self, text):
        self.text, self.names, self.modules = text, {}, []
        self.stack = []  # (kind, index of the part that is due, how many of a star)
        self.quoted = self.over = False
        self.nets, self.tree = {}, None

    def refuse(self, number, place):
        raise reference.Refused(number, place)

    def due(self):
        """The parts that may come next: of the list that is open, or the outer list."""
        if not self.stack:
            return [] if self.over else ["modules"]
        kind, index, _ = self.stack[-1]
        return [PARTS[kind][index]] if index < len(PARTS[kind]) else []

    def may_close(self):
        kind, index, _ = self.stack[-1] if self.stack else ("", 0, 0)
        parts = PARTS.get(kind, [])
        return bool(self.stack) and (index == len(parts) or (index == len(parts) - 1 and parts[index].endswith("*")))

    def passed(self, place):
        """One entry more of the open list; 26 where it is one too many."""
        kind, index, count = self.stack[-1]
        part = PARTS[kind][index]
        if part.endswith("*"):
            if count == MOST[part[:-1]]:
                self.refuse(26, place)
            self.stack[-1] = (kind, index, count + 1)
        else:
            self.stack[-1] = (kind, index + 1, 0)

    def open(self, place):
        wanted = [part.rstrip("*") for part in self.due()]
        if not wanted or wanted[0] not in PARTS:
            self.refuse(25, place)
        if self.stack:
            self.passed(place)
        self.stack.append((wanted[0], 0, 0))
        if wanted[0] == "module":
            self.nets = {}
        self.grow(wanted[0])

    def grow(self, kind):
        node = (kind, [])
        if self.tree is None:
            self.tree = [node]
        else:
            self.tree[-1][1].append(node)
            self.tree.append(node)

    def close(self, place):
        if not self.may_close():
            self.refuse(25, place)
        self.stack.pop()
        if len(self.tree) > 1:
            self.tree.pop()
        if not self.stack:
            self.over = True

    def atom(self, place, word):
        wanted = [part.rstrip("*") for part in self.due()]
        if not wanted or wanted[0] in PARTS:
            self.refuse(25, place)
        if len(word) > 32:
            self.refuse(26, place)
        self.passed(place)
        word = word.upper()
        known = self.names if wanted[0] == "name" else self.nets
        if wanted[0] == "name" and word in GATES:
            number = GATES.index(word)
        else:
            first, most = (16, 16368) if wanted[0] == "name" else (0, 16384)
            if word not in known:
                if len(known) == most:
                    self.refuse(26, place)
                known[word] = first + len(known)
            number = known[word]
        self.tree[-1][1].append(number)

    def read(self):
        text, at = self.text, 0
        while at < len(text):
            byte = text[at]
            if byte in BLANK:
                at += 1
            elif byte in ATOM:
                end = at
                while end < len(text) and text[end] in ATOM:
                    end += 1
                self.atom(at, text[at:end].decode())
                at = end
            elif byte == 0x28:
                self.open(at)
                at += 1
            elif byte == 0x29:
                self.close(at)
                at += 1
            elif byte == 0x27 and not self.stack and not self.over and not self.quoted:
                self.quoted = True
                at += 1
            else:
                self.refuse(25, at)
        if not self.over:
            self.refuse(25, len(text))
        return [self.module(node[1]) for node in self.tree[0][1]]

    @staticmethod
    def module(parts):
        number, inputs, outputs, body = parts
        calls = [(o[1][0][1], o[1][1][1][0], o[1][1][1][1:]) for o in body[1]]
        return (number, inputs[1], outputs[1], calls)


def expected(text, out):
    """What the call comes to: number, place, and the bytes it writes."""
    try:
        if len(text) > 262144:
            raise reference.Refused(33, 0)
        data = bytes(reference.encode(Reader(text).read()))
        if len(data) > 65535:
            raise reference.Refused(1, 0)
        reference.check(data)
        if out < len(data):
            raise reference.Refused(22, 0)
        return 0, 0, data
    except reference.Refused as refused:
        return refused.number, refused.place, b""


# Printing.


def net_names(nets):
    return " ".join(f"N{net}" for net in nets)


def occurrence_list(occurrence):
    drives, refers, takes = occurrence
    name = GATES[refers] if refers < 16 else f"M{refers}"
    return f"(({net_names(drives)}) ({' '.join([name] + [f'N{net}' for net in takes])}))"


def module_list(module):
    number, inputs, outputs, occurrences = module
    lines = "\n   ".join(occurrence_list(o) for o in occurrences)
    return f"(M{number} ({net_names(inputs)}) ({net_names(outputs)})\n  ({lines}))"


def list_text(modules):
    return ("(" + "\n ".join(module_list(m) for m in modules) + ")\n").encode()


def printed(data, out):
    """What printing comes to: number, place, and the bytes it writes."""
    try:
        text = list_text(reference.check(data))
        if out < len(text):
            raise reference.Refused(22, 0)
        return 0, 0, text
    except reference.Refused as refused:
        return refused.number, refused.place, b""


def same_answers(rng, data, back):
    """Each module of the file that comes back has the figures, the outputs and, but for its number, the flattened bytes of the one printed."""
    for one, other in zip(reference.read(data), reference.read(back), strict=True):
        if reference.count(data, one[0], 65536) != reference.count(back, other[0], 65536):
            return False
        for _ in range(3):
            values = [rng.randrange(4) for _ in one[1]]
            if reference.evaluate(data, one[0], values, 65536, 192) != reference.evaluate(back, other[0], values, 65536, 192):
                return False
        flat, flat_back = (reference.read(bytes(reference.flatten(d, m[0], 65536, 65536)))[0][1:] for d, m in ((data, one), (back, other)))
        if flat != flat_back:
            return False
    return True


def renumbered(rng, modules):
    """The same modules under other numbers."""
    numbers = {m[0]: n for m, n in zip(modules, rng.sample(range(16, rng.choice([200, 16384])), len(modules)))}
    number = lambda n: numbers.get(n, n)
    for n, inputs, outputs, occurrences in modules:
        count = 1 + max([0] + inputs + outputs + [net for o in occurrences for net in o[0] + o[2]])
        net = rng.sample(range(rng.choice([count, 200 + count, 16384])), count)
        nets = lambda xs: [net[x] for x in xs]
        yield number(n), nets(inputs), nets(outputs), [(nets(d), number(r), nets(t)) for d, r, t in occurrences]


def file_case(rng):
    modules = Reader(spell(rng, draft(rng))).read()
    data = bytes(reference.encode(list(renumbered(rng, modules))))
    if rng.random() < 0.3:
        data = spoil(rng, data)
    return data, rng.choice([0, 100, 400000, 400000, 400000])


def large_files():
    """One whose text is over 262,144 bytes, and one that is over 65,535 bytes when it comes back."""
    small = [([net], 3, [0, 1, 2]) for net in range(3, 128)]
    yield bytes(reference.encode([(16 + k, [0, 1, 2], [3], small) for k in range(73)])), 400000
    late = lambda count: [([320 + i], 7, [i % 100] * 4) if i >= 100 else ([i], 0, [128]) for i in range(count)]
    yield bytes(reference.encode([(20, list(range(128, 320)), [0], late(3700)), (21, list(range(128, 320)), [0], late(3500))])), 400000
    yield bytes(65536), 400000


# Texts.


def blank(rng):
    return rng.choice([b"", b" ", b"  ", b"\n", b"\r\n", b" \n "])


def word(rng, name):
    """A name, each letter in either case."""
    return "".join(rng.choice([c.lower(), c.upper()]) for c in name).encode()


def spell(rng, part):
    """A part with blanks: a string is an atom, a list is a list."""
    if isinstance(part, str):
        return word(rng, part)
    text = b"("
    before_atom = False
    for entry in part:
        gap = blank(rng)
        if before_atom and isinstance(entry, str) and not gap:
            gap = b" "
        text += gap + spell(rng, entry)
        before_atom = isinstance(entry, str)
    return text + blank(rng) + b")"


def draft(rng):
    """Modules that the check mostly accepts: each refers to gates and to later ones."""
    count = rng.randrange(0, 5)
    shapes = [(rng.randrange(1, 5), rng.randrange(1, 4)) for _ in range(count)]
    modules = []
    for k, (inputs, outputs) in enumerate(shapes):
        ins = [f"I{i}" for i in range(inputs)]
        known, body = list(ins), []
        for i in range(rng.randrange(outputs, outputs + 5)):
            later = [j for j in range(k + 1, count)]
            if later and rng.random() < 0.4:
                j = rng.choice(later)
                driven = [f"D{i}-{n}" for n in range(shapes[j][1])]
                body.append([driven, [f"MOD-{j}"] + [rng.choice(known) for _ in range(shapes[j][0])]])
            else:
                gate = rng.randrange(16)
                driven = [f"D{i}"]
                body.append([driven, [GATES[gate]] + [rng.choice(known) for _ in range(reference.ARITY[gate])]])
            known += driven
        outs = rng.sample([n for o in body for n in o[0]], outputs)
        modules.append([f"MOD-{k}", ins, outs, body])
    return modules


def spoil(rng, text):
    text = bytearray(text)
    for _ in range(rng.randrange(1, 3)):
        at = rng.randrange(len(text) + 1)
        kind = rng.randrange(3)
        byte = rng.choice(b"() \n'AZ-09\tx;")
        if kind == 0:
            text.insert(at, byte)
        elif at < len(text) and kind == 1:
            del text[at]
        elif at < len(text):
            text[at] = byte
    return bytes(text)


def cut(rng, text):
    return text[: rng.randrange(len(text) + 1)]


def case(rng):
    text = blank(rng) + rng.choice([b"", b"'"]) + blank(rng) + spell(rng, draft(rng)) + blank(rng)
    if rng.random() < 0.5:
        text = rng.choice([spoil, cut])(rng, text)
    return text, rng.choice([0, 20, 70000, 70000, 70000])


def ceilings():
    """Texts at each ceiling and one above it."""
    many = lambda n, part, sep=b" ": sep.join(part(i) for i in range(n))
    net = lambda i: b"n%d" % i
    yield b"((m (a) (b) (((b) (b-not a)))))" + b" " * (262144 - 31), 70000
    yield b"((m (a) (b) (((b) (b-not a)))))" + b" " * (262145 - 31), 70000
    for long in (32, 33):
        yield b"((" + b"m" * long + b" () () ()))", 70000
    for n in (128, 129):
        yield b"(" + many(n, lambda i: b"(m%d () () ())" % i) + b")", 70000
    for n in (192, 193):
        yield b"((m (" + many(n, net) + b") () ()))", 70000
        yield b"((m () (" + many(n, net) + b") ()))", 70000
        yield b"((m (a) () ((() (k " + many(n, lambda i: b"a") + b")))))", 70000
    for n in (4096, 4097):
        yield b"((m (a) (b0) (" + many(n, lambda i: b"((b%d)(b-buf a))" % i) + b")))", 70000
        yield b"((m () () (" + many(n, lambda i: b"(()(k))") + b")) (k () () ()))", 70000
    for n in (16384, 16385):
        lists = [b"((" + many(min(192, n - i), lambda j: b"n%x" % (i + j)) + b")(k))" for i in range(0, n, 192)]
        yield b"((m () () (" + b"".join(lists) + b")))", 70000
    for n in (16367, 16368):
        used = [b"(()(k%x))" % i for i in range(n)]
        modules = [b"(m () () (" + b"".join(used[i:i + 4096]) + b"))" for i in range(0, n, 4096)]
        yield b"(" + b"".join(modules) + b")", 70000
    yield b"((m (a) () (" + many(4096, lambda i: b"(()(k" + b" a" * 14 + b"))") + b")))", 70000
    yield b"((m (a) (b) (((b) (b-not a)))))", 19
    yield b"((b-or () () ()))", 70000


def batches(rng, cases, special, one):
    yield list(special)
    for start in range(0, cases, 500):
        yield [one(rng) for _ in range(min(500, cases - start))]


def judge(program, kind, plain, batch, met):
    """Runs a batch through the program and holds each answer against the plain one; gives the answers."""
    stream = b"".join(struct.pack("<III", kind, len(given), out) + given for given, out in batch)
    lines = subprocess.run(program, input=stream, stdout=subprocess.PIPE, check=True).stdout.decode().split("\n")
    answers = []
    for (given, out), line in zip(batch, lines):
        number, place, data = plain(given, out)
        want = f"{number} {place} {data.hex()}"
        met[number] = met.get(number, 0) + 1
        if line != want:
            print(f"lists: DIFFERENT on {given[:400]!r}, {len(given)} bytes, buffer {out}\n ours  {line[:200]}\n plain {want[:200]}")
            sys.exit(1)
        answers.append((number, data))
    return answers


def say_met(met, what):
    print(f"lists: {what}, numbers met " + ", ".join(f"{n}: {met[n]}" for n in sorted(met)))


def main():
    program = sys.argv[1].split()
    cases = int(sys.argv[2]) if len(sys.argv) > 2 else 20000
    rng = random.Random(int(sys.argv[3]) if len(sys.argv) > 3 else 1)
    read, shown, back, total, alike = {}, {}, {}, 0, 0
    for batch in batches(rng, cases, ceilings(), case):
        total += len(judge(program, 0, expected, batch, read))
    say_met(read, "read")
    for batch in batches(rng, cases // 4, large_files(), file_case):
        answers = judge(program, 1, printed, batch, shown)
        total += len(answers)
        pairs = [(data, text) for (data, _), (number, text) in zip(batch, answers) if number == 0]
        again = judge(program, 0, expected, [(text, 70000) for _, text in pairs], back)
        for (data, _), (number, file) in zip(pairs, again):
            if number == 0 and not same_answers(rng, data, file):
                print(f"lists: OTHER ANSWERS when read back: {data.hex()}")
                sys.exit(1)
            alike += number == 0
    say_met(shown, "printed")
    say_met(back, "read back")
    print(f"lists: {total} texts and files, no difference; {alike} files printed and read back answer alike")


main()
