"""Compares the package, or a program over another binding, with the program `acsub` on random cases.

usage: python program.py ACSUB [LIST]

ACSUB is the program, whose modes `list` and `overlap` say what is right. LIST is a program that answers lines as the example
`list` of bindings/rust does; it is compared in place of the package. CASES says how many cases there are (10000).
"""
import os
import random
import subprocess
import sys
import tempfile

CASES = int(os.environ.get("CASES") or 10000)
ALPHABETS = [b"ab", b"aAbB", b"abcde", b"\0\xff", bytes(range(256))]


def case(seed):
    """Mode, kind, fold, text and patterns."""
    rng = random.Random(seed)
    alphabet = rng.choice(ALPHABETS)

    def word(most):
        return bytes(rng.choice(alphabet) for _ in range(rng.randint(0, most)))

    mode = rng.choice(["list", "list", "overlap"])
    kind = "standard" if mode == "overlap" else rng.choice(["standard", "leftmost-first", "leftmost-longest"])
    patterns = [word(rng.choice([1, 2, 3, 6])) for _ in range(rng.choice([1, 2, 5, 12, 130]))]
    text = b"".join(rng.choice(patterns) if rng.random() < 0.5 else word(4) for _ in range(rng.choice([0, 1, 5, 40])))
    return mode, kind, rng.random() < 0.3, text, patterns


def by_program(acsub, folder, it):
    mode, kind, fold, text, patterns = it
    with open(folder + "/rules", "w") as file:
        file.write("".join(pattern.hex() + "\t\n" for pattern in patterns))
    words = [acsub, mode, folder + "/rules", "--kind", kind] + ["--fold"] * fold
    said = subprocess.run(words, input=text, stdout=subprocess.PIPE, check=True).stdout.decode()
    return [tuple(map(int, line.split())) for line in said.splitlines()]


def by_package(cases):
    from dadofennel import Automaton
    for mode, kind, fold, text, patterns in cases:
        automaton = Automaton(patterns, kind, fold)
        yield [tuple(found) for found in (automaton.overlapping(text) if mode == "overlap" else automaton.finditer(text))]


def by_lines(program, cases):
    lines = [f"{mode} {kind} {int(fold)} " + " ".join("x" + text.hex() for text in [text, *patterns])
             for mode, kind, fold, text, patterns in cases]
    said = subprocess.run([program], input="\n".join(lines) + "\n", stdout=subprocess.PIPE, check=True, encoding="ascii").stdout
    for line in said.splitlines():
        yield [tuple(map(int, found.split())) for found in line.split(",") if found]


def main():
    if not 2 <= len(sys.argv) <= 3 or sys.argv[1].startswith("-"):
        sys.exit(__doc__)
    cases = [case(seed) for seed in range(CASES)]
    answers = list(by_lines(sys.argv[2], cases) if len(sys.argv) == 3 else by_package(cases))
    if len(answers) != CASES:
        sys.exit(f"{len(answers)} answers to {CASES} cases")
    matches = 0
    with tempfile.TemporaryDirectory() as folder:
        for seed, (it, got) in enumerate(zip(cases, answers)):
            wanted = by_program(sys.argv[1], folder, it)
            matches += len(wanted)
            if got != wanted:
                sys.exit(f"case {seed}, {it}: the program has {wanted}, and not {got}")
    print(f"{CASES} cases with {matches} matches: as the program lists them")


main()
