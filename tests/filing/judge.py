"""Filing by the command against a plain reading of the request: whole outputs of `gimlet file` and `gimlet file-sequence` on files that are
made here, plain and FASTA, one of them with a record of 65,535 bases.

    judge.py GIMLET FOLDER [SEED]
"""
import random
import subprocess
import sys
from pathlib import Path

BASES = "ACGT"
SHELVES = 33
MOST = 65535
WIDEST = 50


def shelf(word):
    """The leading zeros of the word's 32 bits."""
    bits = 0
    for base in word:
        bits = bits * 4 + BASES.index(base)
    return 32 - bits.bit_length()


def refusal(sequence, length):
    """Number and place, or None."""
    if not 1 <= length <= 16:
        return 30, 0
    if len(sequence) > MOST:
        return 32, 0
    others = [i for i, base in enumerate(sequence) if base not in BASES]
    return (31, others[0]) if others else None


RULES = {
    30: "the word length is not from 1 to 16",
    31: "it is none of A, C, G and T",
    32: "the sequence is longer than 65,535 bases",
}


def refused(number, place, record=0):
    where = f"record {record}: " if record and number != 30 else ""
    where += f"base {place}: " if number == 31 else ""
    return f"refused {number} {place}\n{where}{RULES[number]}\n"


def file_word(word):
    no = refusal(word, len(word))
    return refused(*no) if no else f"{shelf(word)}\n"


def records(text):
    """What stands before the first header, then what stands behind each."""
    found = [""]
    for line in text.replace("\r", "\n").split("\n"):
        if line.startswith(">"):
            found.append("")
        else:
            found[-1] += line
    return found


def upwards(count, unit):
    return -(-count // unit)


def file_sequence(text, length):
    counts = [0] * SHELVES
    for record, sequence in enumerate(records(text)):
        no = refusal(sequence, length)
        if no:
            return refused(*no, record)
        for at in range(len(sequence) - length + 1):
            counts[shelf(sequence[at : at + length])] += 1
    unit = upwards(max(counts), WIDEST) or 1
    lines = [f"{s} {n}" + (" " + "#" * upwards(n, unit) if n else "") for s, n in enumerate(counts)]
    return "\n".join(lines) + f"\nwords {sum(counts)}\n"


def wrapped(sequence, width, end):
    return "".join(sequence[i : i + width] + end for i in range(0, len(sequence), width))


def drawn(draw, count, spread):
    """Bases, evenly or mostly A, so that every shelf is met."""
    return "".join(draw.choice(BASES) if spread or draw.randrange(24) == 0 else "A" for _ in range(count))


def fasta(draw, counts, front=0):
    """A file of records of so many bases, with lines of many lengths and ends, and some bases before the first header."""
    text = wrapped(drawn(draw, front, True), 50, "\n")
    for number, count in enumerate(counts):
        end = draw.choice(["\n", "\r\n", "\n\n", "\r"])
        header = f">gene {number} of > AACGT"
        text += header + end + wrapped(drawn(draw, count, number % 2 == 0), draw.choice([1, 60, 61, 70, 100000]), end)
    return text if draw.randrange(2) else text.rstrip("\r\n")


def main():
    gimlet, folder = sys.argv[1], Path(sys.argv[2])
    seed = int(sys.argv[3]) if len(sys.argv) > 3 else random.randrange(1 << 32)
    print(f"filing by the command: seed {seed}")
    draw = random.Random(seed)
    files = {
        "several": fasta(draw, [12, 0, 3000, MOST, 15, 1, 20000]),
        "front": fasta(draw, [7, 900], front=333),
        "plain": wrapped(drawn(draw, 5000, False), 80, "\n"),
        "longest": drawn(draw, MOST, True),
        "many": fasta(draw, [draw.randrange(40) for _ in range(700)]),
        "empty": "",
        "header": ">nothing behind it",
        "over": fasta(draw, [20, MOST + 1, 5]),
        "far over": fasta(draw, [200000]),
        "late over": drawn(draw, MOST, True) + "\nA",
        "other": ">one\nACGT\nAC>T\n>two\nNNN\n",
        "other behind": ">one\nACGT\n>two\nACGTacgt\n",
        "space": "ACGT ACGT\n",
    }
    cases = 0
    for word in ["", "AAAA", "C", "GATTACA", "ACGTN", "acgt", "T" * 16, "T" * 17]:
        judge([gimlet, "file", word], file_word(word))
        cases += 1
    for name, text in files.items():
        path = folder / (name.replace(" ", "-") + ".fasta")
        path.write_bytes(text.encode())
        for length in (4, 16) if len(text) > 50000 else (0, 1, 2, 7, 15, 16, 17):
            judge([gimlet, "file-sequence", str(path), str(length)], file_sequence(text, length))
            cases += 1
    path = folder / "front.fasta"
    judge([gimlet, "file-sequence", "-", "3"], file_sequence(files["front"], 3), path)
    print(f"filing by the command: {cases + 1} cases, no difference")


def judge(words, expected, given=None):
    with open(given or "/dev/null", "rb") as source:
        got = subprocess.run(words, stdin=source, stdout=subprocess.PIPE, check=False)
    if got.stdout.decode() != expected or got.returncode != (1 if expected.startswith("refused") else 0):
        sys.exit(f"differs: {words}, status {got.returncode}\n{got.stdout.decode()}\nexpected\n{expected}")


if __name__ == "__main__":
    main()
