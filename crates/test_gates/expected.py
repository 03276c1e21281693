"""What gate_table must print, by enumerating fillings. Made by: python3 expected.py > stdout"""
from itertools import product

GATES = [
    ("B-BUF", 1, lambda b: b[0]),
    ("B-NOT", 1, lambda b: not b[0]),
    ("B-NAND", 2, lambda b: not all(b)),
    ("B-NAND3", 3, lambda b: not all(b)),
    ("B-NAND4", 4, lambda b: not all(b)),
    ("B-OR", 2, any),
    ("B-OR3", 3, any),
    ("B-OR4", 4, any),
    ("B-EQV", 2, lambda b: b[0] == b[1]),
    ("B-XOR", 2, lambda b: b[0] != b[1]),
    ("B-AND", 2, all),
    ("B-AND3", 3, all),
    ("B-AND4", 4, all),
    ("B-NOR", 2, lambda b: not any(b)),
    ("B-NOR3", 3, lambda b: not any(b)),
    ("B-NOR4", 4, lambda b: not any(b)),
]

for name, arity, function in GATES:
    for args in product((0, 1, 2, 3), repeat=arity):
        fillings = product(*[(0, 1) if a >= 2 else (a,) for a in args])
        results = {int(function(bits)) for bits in fillings}
        value = results.pop() if len(results) == 1 else 2
        print(name, *args, ":", value)
