#!/usr/bin/env python3
"""Compares the program's word `load` with the stored cases and, over random manifests, with its model.

    load_compare.py PROGRAM [COUNT [SEED]]

What PROGRAM prints and its status (0 for a graph, 1 for a refusal) must be the model's, byte for byte. The first manifest that differs is
kept and named, and ends the comparison with status 1. The last line counts the answers of each kind.
"""
import collections
import os
import random
import subprocess
import sys
import tempfile

import load_model

CASES = os.path.join(os.path.dirname(os.path.abspath(__file__)), "load_cases")

# Small sets of names, so that they meet each other.
FILES = [b"a", b"b", b"c", b"d/e", b"f.o", b"g h", b"i:j", b"k$l", b"m|n", b"#o", b"@p", b"q=r", b"\xc3\xa9", b"s\\t"]
VARIABLES = [b"v", b"w", b"x.y", b"u-1", b"in", b"out", b"description", b"command", b"restat", b"depth", b"cflags", b"_", b"9"]
RULES = [b"r", b"s", b"t.u", b"phony", b"depth"]
POOLS = [b"p", b"q", b"console", b"r"]
JUNK = [b"$", b"$\n", b"\n", b" ", b"  ", b":", b"|", b"||", b"|@", b"=", b"#", b"{", b"}", b"${", b"$$", b"$v", b".", b"a", b"\n ", b"build ", b"rule ", b"pool ", b"default", b"\t", b"\0", b"\r", b"\xff"]


def gap(rng, least=b" "):
    """A gap, mostly the least one that will do."""
    kind = rng.random()
    if kind < 0.85:
        return least
    return rng.choice([b"  ", b"   ", b" $\n", b" $\n   ", b"$\n ", b" $\n$\n  "])


def reference(rng, name):
    """A variable in a text."""
    plain = b"." not in name and rng.random() < 0.6
    return b"$" + name if plain else b"${" + name + b"}"


def escaped(path):
    """A literal path as it must be written; a bar cannot be."""
    return path.replace(b"$", b"$$").replace(b" ", b"$ ").replace(b":", b"$:")


def value(rng, names):
    """A value of a few pieces."""
    kind = rng.random()
    if kind < 0.15:
        return b""
    pieces = []
    for _ in range(rng.randrange(1, 5)):
        kind = rng.random()
        if kind < 0.45:
            pieces.append(rng.choice([b"x", b"1", b"cp ", b" -o ", b"a", b"b", b"#", b":|=", b"\x01", b"\x7f\xfe", b"\\", b"{}", b"."]))
        elif kind < 0.85:
            pieces.append(reference(rng, rng.choice(names)))
        else:
            pieces.append(rng.choice([b"$$", b"$ ", b"$:", b"$\n", b"$\n    "]))
    return b"".join(pieces)


class Maker:
    """Makes one manifest; `slips` is how often it does what a manifest should not, `tangled` how often an input may be any file."""

    def __init__(self, rng, slips, tangled):
        self.rng = rng
        self.slips = slips
        self.tangled = tangled
        self.rules = []
        self.pools = []
        self.free = [file for file in FILES if b"|" not in file]
        rng.shuffle(self.free)
        self.made = []

    def slip(self):
        return self.rng.random() < self.slips

    def binding(self, name, text):
        rng = self.rng
        return name + gap(rng, rng.choice([b" ", b" ", b""])) + b"=" + gap(rng, rng.choice([b" ", b" ", b""])) + text + b"\n"

    def block_line(self, name, text):
        rng = self.rng
        indent = rng.choice([b" ", b"  ", b"  ", b"    ", b" $\n"])
        comment = rng.choice([b"# c\n", b"  # c $\n"]) if rng.random() < 0.05 else b""
        return comment + indent + self.binding(name, text)

    def variable(self):
        return self.binding(self.rng.choice(VARIABLES), value(self.rng, VARIABLES))

    def rule(self):
        rng = self.rng
        left = [name for name in RULES if name not in self.rules]
        name = rng.choice(RULES if self.slip() or not left else left)
        self.rules.append(name)
        said = b"rule" + gap(rng) + name + gap(rng, b"") + b"\n"
        lines = [] if self.slip() else [b"command"]
        lines += [word for word in [b"description", b"restat", b"command"] if rng.random() < 0.4]
        if rng.random() < 0.3:
            lines.append(b"pool")
        if self.slip():
            lines.append(rng.choice([b"depth", b"depfile", b"in", b"commands"]))
        rng.shuffle(lines)
        for word in lines:
            said += self.block_line(word, self.pool_name() if word == b"pool" else value(rng, VARIABLES))
        return said

    def pool_name(self):
        rng = self.rng
        kind = rng.random()
        if kind < 0.2:
            return rng.choice([b"", b"$nothing", b"$depth"])
        if self.pools and kind < 0.9 and not self.slip():
            return rng.choice(self.pools)
        return b"" if not self.slip() else rng.choice(POOLS)

    def pool(self):
        rng = self.rng
        left = [name for name in POOLS if name not in self.pools]
        name = rng.choice(POOLS if self.slip() or not left else left)
        self.pools.append(name)
        said = b"pool" + gap(rng) + name + gap(rng, b"") + b"\n"
        for _ in range(0 if self.slip() else rng.choice([1, 1, 1, 2])):
            depth = rng.choice([b"0", b"65", b"07", b"", b"$v", b"4 ", b"128", b"x"]) if self.slip() else b"%d" % rng.randrange(1, 65)
            said += self.block_line(b"depth", rng.choice([depth, depth, depth + b"$\n", b"${nothing}" + depth]))
        return said

    def path(self, file):
        """A path that names this file, or one that names whatever a variable holds."""
        rng = self.rng
        kind = rng.random()
        text = escaped(file)
        if kind < 0.1:
            at = rng.choice([0, len(text)])
            text = text[:at] + (reference(rng, b"nothing") if at else b"${nothing}") + text[at:]
        elif kind < 0.15 and len(file) == 1:
            text += b"$\n"
        elif self.slip():
            text = rng.choice([reference(rng, rng.choice(VARIABLES)), text + reference(rng, rng.choice(VARIABLES))])
        return text

    def output(self):
        if self.free and not self.slip():
            file = self.free.pop()
        else:
            file = self.rng.choice([file for file in FILES if b"|" not in file])
        self.made.append(file)
        return self.path(file)

    def input(self):
        """An input, mostly one that does not make a circle."""
        rng = self.rng
        usable = [b"src", b"a/long/way/to/a/source.txt"] + self.before
        if rng.random() < self.tangled:
            usable = [file for file in FILES if b"|" not in file]
        return self.path(rng.choice(usable))

    def paths(self, make, counts):
        return [make() for _ in range(self.rng.choice(counts))]

    def build(self):
        rng = self.rng
        self.before = list(self.made)
        said = b"build" + gap(rng) + gap(rng).join(self.paths(self.output, [1, 1, 1, 2]))
        if rng.random() < 0.2:
            said += gap(rng, b" ") + b"|" + gap(rng) + gap(rng).join(self.paths(self.output, [0, 1, 1, 2]))
        rule = rng.choice(self.rules) if self.rules and not self.slip() else rng.choice(RULES)
        said += gap(rng, b"") + b":" + gap(rng, rng.choice([b" ", b" ", b""])) + rule
        marks = [(b"", 0.8), (b"|", 0.3), (b"||", 0.25), (b"|@", 0.2)]
        for mark, share in marks:
            if rng.random() < share:
                files = self.input if mark != b"|@" or rng.random() < 0.5 else lambda: self.path(rng.choice(FILES[:4]))
                listed = self.paths(files, [0, 1, 1, 2, 3])
                said += gap(rng) + mark + (gap(rng) if mark else b"") + gap(rng).join(listed)
        said += gap(rng, b"") + b"\n"
        for _ in range(rng.choice([0, 0, 0, 1, 2, 3])):
            if rng.random() < 0.15:
                said += self.block_line(b"pool", self.pool_name())
            else:
                said += self.block_line(rng.choice(VARIABLES), value(rng, VARIABLES))
        return said

    def other(self):
        rng = self.rng
        if self.slip():
            return rng.choice([b"default a\n", b"include x\n", b"subninja y\n", b"  v = 1\n", b"= 1\n", b"v\n", b"build: r\n", b"v = $?\n", b"w = ${x\n", b"build a: r | b | c\n"])
        return rng.choice([b"\n", b"   \n", b"# a comment\n", b"   # another $\n", b"#\n"])

    def manifest(self):
        rng = self.rng
        parts = [self.variable() for _ in range(rng.randrange(4))]
        if rng.random() < 0.5:
            parts += [self.pool() for _ in range(rng.choice([1, 1, 2]))]
        parts += [self.rule() for _ in range(rng.choice([1, 1, 2, 2, 3]))]
        makers = [self.build] * 6 + [self.variable] * 2 + [self.other] * 2
        makers += [self.rule] if rng.random() < 0.4 else []
        makers += [self.pool] if rng.random() < 0.2 else []
        parts += [rng.choice(makers)() for _ in range(rng.choice([0, 2, 4, 6, 8, 10, 12]))]
        if rng.random() < 0.1:
            parts.append(parts.pop(0))
        return b"".join(parts)


def mutated(rng, manifest):
    """A manifest with a few bytes changed."""
    data = bytearray(manifest)
    for _ in range(rng.choice([1, 1, 2, 3])):
        at = rng.randrange(len(data) + 1)
        kind = rng.randrange(5)
        if kind == 0:
            del data[at : at + rng.randrange(1, 4)]
        elif kind == 1:
            data[at:at] = rng.choice(JUNK)
        elif kind == 2:
            data[at : at + 1] = rng.choice(JUNK)
        elif kind == 3:
            data[at:at] = data[rng.randrange(len(data) + 1) :][: rng.randrange(12)]
        elif rng.random() < 0.3:
            del data[at:]
    return bytes(data)


def about(rng, limit):
    """A count near a limit."""
    return limit + rng.choice([-1, 0, 0, 1])


def near_a_limit(rng):
    """A manifest with one count or length near its limit."""
    rule = b"rule r\n  command = c\n"
    kind = rng.randrange(13)
    if kind == 0:
        return b"".join(b"v%d = %d\n" % (n, n) for n in range(about(rng, 128)))
    if kind == 1:
        return b"".join(b"rule r%d\n  command = c\n" % n for n in range(about(rng, 64)))
    if kind == 2:
        return b"".join(b"pool p%d\n  depth = %d\n" % (n, n + 1) for n in range(about(rng, 16)))
    if kind == 3:
        return rule + b"".join(b"build o%d: r s\n" % n for n in range(about(rng, 128)))
    if kind == 4:
        return rule + b"build o: r\n" + b"".join(b"  v%d = $x\n" % n for n in range(about(rng, 16)))
    if kind == 5:
        outputs = [b"o%d" % n for n in range(about(rng, 8))]
        outputs.insert(rng.randrange(1, len(outputs)), b"|")
        return rule + b"build " + b" ".join(outputs) + b": r\n"
    if kind == 6:
        mark, limit = rng.choice([(b"", 64), (b"|", 64), (b"||", 64), (b"|@", 16)])
        return rule + b"build o: r " + mark + b" a" * about(rng, limit) + b"\n"
    if kind == 7:
        files = [b"f%d" % n for n in range(about(rng, 256))]
        cuts = range(0, len(files), 40)
        return rule + b"".join(b"build %s: r || %s\n" % (files[at], b" ".join(files[at + 1 : at + 40])) for at in cuts)
    if kind == 8:
        return b"h = %s\n" % (b"p" * 64) + rule + b"build a: r ${h}$h%s\n" % (b"q" * rng.choice([0, 0, 1]))
    if kind == 9:
        length = about(rng, 1024)
        where = rng.choice([b"v = %s\n", rule + b"build a: r\n  v = %s\n", rule + b"  description = %s\nbuild a: r\n", b"pool p\n  depth = %s\n"])
        return where % (b"1" * length)
    if kind == 10:
        return rule + b"build a: r b\n  command = %s\n" % (b"x" * about(rng, 1024 - 6))
    if kind == 11:
        value = b"v = " + b"x" * 1024 + b"\n"
        question = 5 + rng.randrange(3)
        return value + b"w = $v\n" * 31 + b"w = $\n" + b"y" * about(rng, 1024 - question) + b"$e\n" + rule + b"build a: r\n  command = %s\n" % (b"c" * (question - 4))
    return b"#" + b"x" * about(rng, 65_533) + b"\n"


def random_manifest(rng):
    kind = rng.random()
    if kind < 0.06:
        return near_a_limit(rng)
    slips = rng.choice([0, 0, 0.01, 0.02, 0.05, 0.15])
    tangled = rng.choice([0, 0, 0, 0.02, 0.1, 0.5])
    manifest = Maker(rng, slips, tangled).manifest()
    return mutated(rng, manifest) if kind < 0.26 else manifest


def kind_of(said):
    return "refused " + said.split()[1].decode() if said.startswith(b"refused ") else "accepted"


def first_difference(expected, got):
    """The first line that differs, of both."""
    ours, theirs = expected.split(b"\n"), got.split(b"\n")
    for number in range(max(len(ours), len(theirs))):
        one, other = ours[number : number + 1], theirs[number : number + 1]
        if one != other:
            return "line %d: expected %s, got %s" % (number + 1, one, other)
    return "the statuses"


def agrees(program, path, manifest, expected, what):
    """Runs the program on a manifest and tells any difference."""
    with open(path, "wb") as file:
        file.write(manifest)
    ended = subprocess.run([program, "load", path], stdout=subprocess.PIPE, stderr=subprocess.PIPE)
    status = 1 if expected.startswith(b"refused ") else 0
    if ended.stdout == expected and ended.returncode == status:
        return True
    kept = tempfile.mkdtemp(prefix="differs-") + "/manifest"
    with open(kept, "wb") as file:
        file.write(manifest)
    print("differs: %s, kept as %s" % (what, kept))
    print("status expected %d, got %d; %s" % (status, ended.returncode, first_difference(expected, ended.stdout)))
    if ended.stderr:
        print("standard error:", ended.stderr[:300])
    return False


def stored_cases():
    """Each stored manifest and what is to be printed for it."""
    for name in sorted(os.listdir(CASES)):
        if name.endswith(".ninja"):
            with open(os.path.join(CASES, name), "rb") as manifest, open(os.path.join(CASES, name[:-6] + ".out"), "rb") as out:
                yield name, manifest.read(), out.read()


def model_differs():
    """The stored cases of which the model says something else."""
    return [name for name, manifest, out in stored_cases() if load_model.load(manifest) != out]


def random_cases(count, seed):
    for turn in range(count):
        manifest = random_manifest(random.Random(seed * 1_000_000 + turn))
        yield "random manifest %d" % turn, manifest, load_model.load(manifest)


def compare(program, cases, kinds):
    """Compares up to the first difference, counting the answers; whether there was none."""
    with tempfile.TemporaryDirectory() as folder:
        path = os.path.join(folder, "build.ninja")
        for what, manifest, expected in cases:
            if not agrees(program, path, manifest, expected, what):
                return False
            kinds[kind_of(expected)] += 1
    return True


def main():
    program = os.path.abspath(sys.argv[1])
    count = int(sys.argv[2]) if len(sys.argv) > 2 else 1000
    seed = int(sys.argv[3]) if len(sys.argv) > 3 else 1
    strange = model_differs()
    if strange:
        print("the model differs from the stored cases", *strange)
        return 1
    stored, drawn = collections.Counter(), collections.Counter()
    same = compare(program, stored_cases(), stored) and compare(program, random_cases(count, seed), drawn)
    numbers = sorted(drawn, key=lambda kind: int(kind.split()[1]) if " " in kind else 0)
    counts = ", ".join("%d %s" % (drawn[kind], kind) for kind in numbers)
    print("load: %d stored cases, %d random manifests (%s): %s" % (sum(stored.values()), sum(drawn.values()), counts, "all the same" if same else "DIFFERENT"))
    return 0 if same else 1


if __name__ == "__main__":
    sys.exit(main())
