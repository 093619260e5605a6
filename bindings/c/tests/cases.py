"""Random cases: what the library lists is what the program lists.

usage: cases.py CASES_PROGRAM ACSUB HOW_MANY
"""
import concurrent.futures
import os
import random
import subprocess
import sys
import tempfile

KINDS = ["standard", "leftmost-first", "leftmost-longest"]
ALPHABETS = [b"ab", b"abc", b"abAB", b"abcdefgh", bytes(range(256)), b"\x00\xff\n"]


def some(random_, alphabet, least, most):
    return bytes(random_.choice(alphabet) for _ in range(random_.randint(least, most)))


def case(random_):
    alphabet = random_.choice(ALPHABETS)
    haystack = some(random_, alphabet, 0, random_.choice([0, 5, 40, 40, 300, 3000]))
    least = 0 if random_.random() < 0.2 else 1
    patterns = [some(random_, alphabet, least, random_.choice([1, 3, 8])) for _ in range(random_.choice([0, 1, 2, 3, 8, 40]))]
    mode = random_.choice([0, 0, 0, 1, 1, 2, 2])
    if mode == 2 and b"" in patterns:
        mode = 0
    kind = 0 if mode == 1 else random_.randrange(3)
    room = random_.choice([1, 2, 7, 256]) if mode else random_.choice([0, 1, 2, 7, 256])
    return mode, kind, random_.random() < 0.3, random_.randrange(4), room, haystack, patterns


def line(the_case):
    mode, kind, fold, engine, room, haystack, patterns = the_case
    words = [mode, kind, int(fold), engine, room, "-" + haystack.hex(), len(patterns)]
    return " ".join(map(str, words + ["-" + p.hex() for p in patterns])) + "\n"


def listed(program, folder, number, the_case):
    mode, kind, fold, _, _, haystack, patterns = the_case
    rules = os.path.join(folder, str(number))
    with open(rules, "w", encoding="ascii") as file:
        file.writelines(p.hex() + "\t\n" for p in patterns)
    words = [program, "overlap" if mode == 1 else "list", rules, "--kind", KINDS[kind]] + (["--fold"] if fold else [])
    done = subprocess.run(words, input=haystack, stdout=subprocess.PIPE, check=True)
    os.unlink(rules)
    return done.stdout.decode("ascii")


def main():
    cases_program, program, how_many = sys.argv[1], sys.argv[2], int(sys.argv[3])
    random_ = random.Random(46)
    cases = [case(random_) for _ in range(how_many)]
    done = subprocess.run([cases_program], input="".join(map(line, cases)), stdout=subprocess.PIPE, check=True, text=True)
    ours = done.stdout.split(".\n")[:-1]
    assert len(ours) == how_many, (len(ours), how_many)
    with tempfile.TemporaryDirectory() as folder, concurrent.futures.ThreadPoolExecutor(4) as pool:
        theirs = list(pool.map(lambda n: listed(program, folder, n, cases[n]), range(how_many)))
    wrong = [n for n in range(how_many) if ours[n] != theirs[n]]
    for n in wrong[:5]:
        print(f"case {n}: {cases[n]}\nours {ours[n]!r}\ntheirs {theirs[n]!r}")
    print(f"{how_many} cases, {sum(map(len, theirs))} bytes listed, {len(wrong)} differ")
    return 1 if wrong else 0


if __name__ == "__main__":
    sys.exit(main())
