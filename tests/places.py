#!/usr/bin/env python3
"""Tests where the program puts a fault of a manifest's grammar, on random texts.

    places.py PROGRAM [COUNT [SEED]]

The bytes before the place must be the beginning of some manifest: one of the endings below has to make one of them. The bytes
up to and with the place must not be. Both are proved of the reader; here the program as it is linked is tried.
"""
import os
import random
import subprocess
import sys
import tempfile

PIECES = [
    b"build", b"rule", b"pool", b"a", b"b.c", b"command", b"depth", b" ", b"  ", b"\n", b"\n ", b"\n  ", b"$\n", b"$", b"$$", b"$ ", b"$:", b"${x}", b"${", b"}", b":", b"|", b"||", b"|@", b"@", b"=",
    b"#", b"# c\n", b"default", b"include", b"x = y\n", b"build a: r b\n", b"rule r\n command = z\n", b"pool p\n depth = 1\n", b"-", b"_", b".", b"\xff", b"$x", b"$-",
]
ENDINGS = [
    b"", b"\n", b" = b\n", b"= b\n", b"a\n", b"a = b\n", b" a = b\n", b" x\n", b": r\n", b"a: r\n", b" a: r\n", b"\nx\n", b"\n= b\n", b"\n = b\n", b"\na: r\n", b"\n: r\n", b"r\n", b" r\n", b"\nr\n",
    b"|\n", b"@\n", b"command = x\n", b"depth = 1\n", b"\ncommand = x\n", b"\ndepth = 1\n", b"\n\n", b"\nx = 1\n", b"\n  \n", b" command = x\n", b" depth = 1\n", b"\n a = b\n",
]


def outline(program, path, text):
    with open(path, "wb") as file:
        file.write(text)
    return subprocess.run([program, "outline", path], stdout=subprocess.PIPE, stderr=subprocess.PIPE).stdout


def is_manifest(program, path, text):
    return not outline(program, path, text).startswith(b"refused")


def main():
    program = os.path.abspath(sys.argv[1])
    count = int(sys.argv[2]) if len(sys.argv) > 2 else 400
    rng = random.Random(int(sys.argv[3]) if len(sys.argv) > 3 else 1)
    faults = wrong = 0
    with tempfile.TemporaryDirectory() as folder:
        path = os.path.join(folder, "manifest")
        for _ in range(count):
            text = b"".join(rng.choice(PIECES) for _ in range(rng.randrange(1, 14)))
            said = outline(program, path, text)
            if not said.startswith(b"refused 3 at "):
                continue
            faults += 1
            place = int(said.split()[3])
            begins = any(is_manifest(program, path, text[:place] + ending) for ending in ENDINGS)
            goes_on = place < len(text) and any(is_manifest(program, path, text[: place + 1] + ending) for ending in ENDINGS)
            if not begins or goes_on or place > len(text):
                wrong += 1
                print("wrong place:", place, text)
    print("%d texts, %d faults of the grammar, %d in a wrong place" % (count, faults, wrong))
    return 1 if wrong else 0


if __name__ == "__main__":
    sys.exit(main())
