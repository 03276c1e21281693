#!/usr/bin/env python3
"""Brings the names that this repository's definitions and lemmas declare to the spelling of today's Rattle.

usage: tools/respell.py [--list]     at the top of the repository; --list prints the renamings and writes nothing

Words are in snake case, where the older spelling had `listNumbers`: `list_numbers`. A dash joins two names, as in `length-encode`,
and a plain word is added by a low line: `list-repeats` becomes `list_repeats`. Types, modules and what the published language names
(`B-NAND3`, `AND`) keep their spelling, and so do functions, fields and strings of the Rust sources, and names that the checker makes.
A renaming that would meet another name is left out and printed.
"""

import os
import re
import sys

NAME = r'[^\s(){}.;,@"«»`]+'
HEAD = re.compile(rf"^ *(?:pub |abbrev |unfoldable |data |record )*({NAME})(?: [({{].*)? :(?: |$)")
FIELD = re.compile(rf"^ +(?:pub )?({NAME}) :(?: |$)")
CAMEL = re.compile(r"^[a-z_][A-Za-z0-9_']*$")
# A proof of a function by hand: the names of its goals are the checker's.
BY_HAND = re.compile(r"/proofs/.*/Proof(?:/[^/]*)?\.antt$")
# A type that was spelled as a word, and a word whose new spelling another has.
OTHERWISE = {"decidedOf": "DecidedOf", "inFrame": "inside_frame"}
# Names of operations and relations that lemmas join by a dash, beside the names that this repository declares.
OPERATIONS = set(
    """append cons nil map filter take drop length set reverse replicate zip sum suc zero add sub mul div mod pow le lt eq
    get_or concat fold all any cond""".split()
)
WORDS = {"getD": "get_or"}
FIELDS = set()


def files(root):
    for folder, dirs, names in os.walk(os.path.join(root, "crates")):
        dirs[:] = sorted(d for d in dirs if d != "out")
        for name in sorted(names):
            if name.endswith((".antt", ".rt", ".edit")):
                yield os.path.join(folder, name)


def snake(word):
    if word in WORDS:
        return WORDS[word]
    if not CAMEL.match(word) or word.isupper():
        return word
    return re.sub(r"(?<=[a-z0-9])([A-Z]+)", lambda m: "_" + m[1].lower(), word)


def declared(path, text):
    for line in text.split("\n"):
        if line.startswith(("use ", "pub use ", "--")):
            continue
        found = HEAD.match(line) or FIELD.match(line)
        if found and "λ" not in found[1] and not ("-" in found[1] and BY_HAND.search(path)):
            yield found[1]


def renamed(name, known):
    if name in OTHERWISE:
        return OTHERWISE[name]
    if name[0].isupper() or not re.search(r"[a-z]", name):
        return name
    parts = [snake(p) for p in name.split("-")]
    if "" in parts:
        return name
    out = parts[0]
    for left, right in zip(parts, parts[1:]):
        plain = re.fullmatch(r"[a-z0-9_']+", left) and re.fullmatch(r"[a-z0-9_']+", right)
        names = left in known and right in known
        out += ("_" if plain and not names else "-") + right
    return out


def of_libraries(texts):
    """The names that some file imports from a library that is not this repository's."""
    found = set()
    for path, text in texts.items():
        for line in text.split("\n"):
            m = re.match(r"(?:pub |ghost )?use ([^\s;{]+)\{([^}]*)\}", line)
            if m and not os.path.isdir(os.path.join("crates", (m[1] + "..").split(".")[1])):
                found.update(w.split(" as ")[0].strip() for w in m[2].split(","))
    return found


def table(texts):
    """The renamings of declared names, without those that would meet another name."""
    own = {}
    for path, text in texts.items():
        if path.endswith(".antt"):
            for name in declared(path, text):
                own.setdefault(name, path)
    known = OPERATIONS | {snake(n) for n in own if "-" not in n}
    to = {n: renamed(n, known) for n in own}
    lent = of_libraries(texts)
    to = {n: m for n, m in to.items() if n != m and n not in lent}
    # Other words in camel case are local: a variable keeps step with what it is named after.
    words = {path: words_of(path, text) for path, text in texts.items()}
    for path, found in words.items():
        for word in found if path.endswith(".antt") else ():
            if word not in to and "-" not in word and CAMEL.match(word) and re.search(r"[a-z0-9][A-Z]", word):
                to[word] = renamed(word, known)
    for old in sorted(to, key=lambda n: ("-" not in n, n)):
        met = meeting(old, to, words)
        if met and "-" in old:
            # Of two that would meet, the joined one keeps its dashes.
            to[old] = "-".join(snake(p) for p in old.split("-"))
            met = old == to[old] or meeting(old, to, words)
        if met:
            if old != to[old]:
                print(f"met: {old} would be {to[old]}, which is there in {met}")
            del to[old]
    return to


def words_of(path, text):
    """The words of a file that a name could meet: none of comments, and none that a path qualifies."""
    lines = (l for l in text.split("\n") if not l.lstrip().startswith(("--", "//", "#")))
    text = "\n".join(lines)
    if path.endswith(".antt"):
        return {m[0] for m in re.finditer(NAME, text) if text[m.start() - 1 : m.start()] != "." and text[m.end() : m.end() + 1] != "."}
    clauses = " ".join(re.sub(r"^ *(?:requires|ensures)\*? \w+", "", l) for l in text.split("\n") if re.search(r"\bghost\b|\brequires\b|\bensures\b", l))
    named = set(re.findall(r"\b([a-z_]\w*)\s*:(?!:)", text))
    return named | set(re.findall(rf"(?<!\.)(?<![^\s(){{}}.;,@\"«»`]){NAME}(?!\.)(?![^\s(){{}}.;,@\"«»`])", clauses))


def meeting(old, to, words):
    """A file that has a word and what it is to be called, or another word that is to be called so."""
    new = to[old]
    others = {n for n, m in to.items() if m == new and n != old}
    for path, found in words.items():
        if old in found and (new in found or found & others):
            return path
    return None


def turned(path, text, to):
    lines = []
    for line in text.split("\n"):
        lines.append(turned_line(path, line, to))
    return "\n".join(lines)


def turned_line(path, line, to):
    comment = line.lstrip().startswith(("--", "//", "#"))
    rust = path.endswith((".rt", ".edit")) and not re.search(r"\bghost\b|\brequires\b|\bensures\b", line)

    def one(m):
        word, before = m[0], line[: m.start()]
        new = to.get(word)
        if new is None:
            return word
        if "-" in word:
            if rust or comment and not (before.endswith("`") and line[m.end() :].startswith("`")):
                return word
            # Behind a dot stands a field that the checker made, but for a path to a module.
            if before.endswith(".") and word not in FIELDS and not re.search(r"\.[A-Z]\w*\.$", before):
                return word
        if rust and re.search(r'"[^"]*$', before) and line[m.end() :].count('"') % 2:
            return word
        return new

    return re.sub(NAME, one, line)


def main(argv):
    root = "."
    texts = {}
    for path in files(root):
        with open(path, encoding="utf-8") as f:
            texts[path] = f.read()
    to = table(texts)
    if argv == ["--list"]:
        for old in sorted(to):
            print(old, to[old])
        return 0
    for path, text in texts.items():
        if path.endswith(".antt"):
            FIELDS.update(m[1] for m in map(FIELD.match, text.split("\n")) if m)
    changed = 0
    for path, text in texts.items():
        new = turned(path, text, to)
        if new != text:
            changed += 1
            with open(path, "w", encoding="utf-8") as f:
                f.write(new)
    print(f"respell: {len(to)} names, {changed} files")
    return 0


if __name__ == "__main__":
    raise SystemExit(main(sys.argv[1:]))
