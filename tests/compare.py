#!/usr/bin/env python3
"""Compares the program with the model of its host scripts, over random scripts.

    compare.py PROGRAM [COUNT [SEED]]

What PROGRAM prints and its status must be the model's, byte for byte. The first scripts that differ are kept and named.
"""
import os
import random
import subprocess
import sys
import tempfile
import time

import model

TEXTS = [b"", b"a", b"ab", b"sift", b"knead and bake", b"fail", b"fail early", b"failure", b"fai", b"fai\0l", b"\0", b"a\0fail", b"fail\0", b": x", b"x: y: z"]


def digits(rng):
    """A number of any size, mostly a small one."""
    kind = rng.random()
    if kind < 0.7:
        return b"%d" % rng.randrange(12)
    if kind < 0.85:
        return b"%d" % rng.choice([63, 64, 127, 128, 254, 255, 256, 2**32 - 1, 2**32, 2**64 - 1, 2**64, 2**64 + 3, 2**128])
    if kind < 0.93:
        return b"0" * rng.randrange(1, 30) + b"%d" % rng.randrange(300)
    return bytes(rng.choice(b"0123456789") for _ in range(rng.randrange(1, 400)))


def edge(rng):
    return b"%d" % rng.randrange(24) if rng.random() < 0.9 else digits(rng)


def mark(rng):
    return b"%d" % rng.randrange(2**32) if rng.random() < 0.5 else digits(rng)


def gap(rng):
    return b" " * (1 if rng.random() < 0.9 else rng.randrange(1, 5))


def files(rng, most):
    count = rng.randrange(5) if rng.random() < 0.93 else rng.randrange(most + 4)
    if rng.random() < 0.8:
        return [b"%d" % file for file in rng.sample(range(80), count)]
    return [digits(rng) for _ in range(count)]


def text(rng):
    kind = rng.random()
    if kind < 0.6:
        return rng.choice(TEXTS)
    if kind < 0.9:
        return bytes(rng.choice([b for b in range(256) if b != 10]) for _ in range(rng.randrange(20)))
    return b"t" * rng.choice([1023, 1024, 1025, 3000])


def start(rng):
    outputs = files(rng, 8) or [b"7"]
    words = [b"start", edge(rng), b"reads"] + files(rng, 64) + [b"outputs"] + outputs
    colon = rng.choice([b": ", b" : ", b"  : "])
    return gap(rng).join(words) + colon + text(rng)


def bad_start(rng):
    line = start(rng)
    kind = rng.randrange(6)
    if kind == 0:
        return line.replace(b": ", b":", 1)
    if kind == 1:
        return line.replace(b"outputs", rng.choice([b"", b"output", b"reads", b"outputs outputs", b": outputs"]), 1)
    if kind == 2:
        return line.replace(b"reads", rng.choice([b"", b"outputs", b"reads x", b"reads #1", b"reads: "]), 1)
    if kind == 3:
        return line[: rng.randrange(len(line))]
    if kind == 4:
        return line.replace(b"start ", rng.choice([b"start: ", b"start x ", b"start -1 "]), 1)
    return line.replace(b" outputs ", b" outputs : ", 1)


def write(rng):
    return gap(rng).join([b"write", b"#" + digits(rng), mark(rng)])


def remove(rng):
    return gap(rng).join([b"remove", b"#" + digits(rng)])


def tell(rng):
    return gap(rng).join([b"tell", b"#" + digits(rng)])


def break_off(rng):
    return gap(rng).join([b"break", edge(rng)])


def junk(rng):
    words = [b"write", b"remove", b"tell", b"clock", b"poll", b"break", b"start", b"reads", b"outputs", b"#", b"#1", b"#x", b"#1#", b"1", b"+1", b"-1", b"1.0", b"0x1", b":", b": ", b"\xff\xfe", b"\0", b"\t", b"\r", b"polls", b"Poll", b"#\xd9\xa1", b"\xd9\xa1", b""]
    return gap(rng).join(rng.choice(words) for _ in range(rng.randrange(1, 5)))


def noise(rng):
    return bytes(rng.choice([b for b in range(256) if b != 10]) for _ in range(rng.randrange(30)))


def passed_over(rng):
    return rng.choice([b"", b" ", b"     ", b"# a comment", b"# ", b"# write #1 1"])


def nearly_passed_over(rng):
    return rng.choice([b"#", b"#comment", b" # comment", b"\t", b"\r", b" \r", b"##"])


def line(rng):
    makers = [write] * 5 + [remove] + [tell] * 2 + [start] * 9 + [bad_start] + [break_off] * 2 + [junk] + [noise]
    makers += [passed_over, nearly_passed_over] + [lambda _: b"poll"] * 6 + [lambda _: b"clock"] * 2
    said = rng.choice(makers)(rng)
    if rng.random() < 0.05:
        said = gap(rng) + said
    if rng.random() < 0.05:
        said += gap(rng)
    return said


def crowd(rng):
    """More starts than a host has room for, many of them due at one tick, and polls for all of them."""
    edges = rng.sample(range(128), rng.randrange(4, 20))
    texts = [rng.choice([b"xx", b"yy", b"xyz", b"fail"]) for _ in edges]
    starts = [b"start %d reads outputs %d: %s" % (edge, rng.randrange(256), text) for edge, text in zip(edges, texts)]
    return starts + [b"poll"] * rng.randrange(len(starts) + 2)


def script(rng):
    lines = []
    for _ in range(rng.randrange(1, 60)):
        lines += crowd(rng) if rng.random() < 0.04 else [line(rng)]
    said = b"\n".join(lines)
    return said if rng.random() < 0.3 else said + b"\n"


def recording(rng):
    kind = rng.random()
    if kind < 0.1:
        return rng.choice([b"", b"N", b"NJ", b"njr", b"NJS\1", b" NJR", b"NJR\x80", b"NJR\1\xff\2", b"NJR" + b"\1" * 513])
    if kind < 0.2:
        return b"NJR" + rng.choice([b"", b"\1" * 512, b"\x7f"])
    return b"NJR" + bytes(rng.randrange(24) if rng.random() < 0.9 else rng.randrange(128) for _ in range(rng.randrange(60)))


def told(program, paths):
    ended = subprocess.run([program, "host", *paths], stdout=subprocess.PIPE, stderr=subprocess.PIPE, timeout=60)
    return ended.stdout, ended.returncode


def put(folder, name, data):
    path = os.path.join(folder, name)
    with open(path, "wb") as file:
        file.write(data)
    return path


def compare(program, folder, parts):
    """Whether the program and the model agree on a script, and perhaps a recording."""
    paths = [put(folder, name, data) for name, data in zip(["script", "recording"], parts)]
    return told(program, paths) == model.run(*parts)


def long_script(program, folder):
    """Agreement on 100,000 lines, and how many seconds the program takes for them."""
    rng = random.Random(7)
    said = b"\n".join(line(rng) for _ in range(100_000))
    path = put(folder, "long", said)
    begun = time.monotonic()
    got = told(program, [path])
    seconds = time.monotonic() - begun
    return got == model.run(said), seconds


def misuses(program, folder):
    """Calls that must end with status 1, a message and no output."""
    script = put(folder, "script", b"poll\n")
    calls = [["hos"], ["host"], ["host", script, script, script], ["--help", "x"], ["host", folder + "/none"], ["host", script, folder + "/none"], ["host", folder]]
    wrong = []
    for words in calls:
        ended = subprocess.run([program, *words], stdout=subprocess.PIPE, stderr=subprocess.PIPE)
        if ended.returncode != 1 or ended.stdout != b"" or ended.stderr == b"":
            wrong.append(words)
    for words in [[], ["--help"]]:
        ended = subprocess.run([program, *words], stdout=subprocess.PIPE, stderr=subprocess.PIPE)
        if ended.returncode != 0 or ended.stdout == b"" or ended.stderr != b"":
            wrong.append(words)
    return wrong


def main():
    program = os.path.abspath(sys.argv[1])
    count = int(sys.argv[2]) if len(sys.argv) > 2 else 2000
    seed = int(sys.argv[3]) if len(sys.argv) > 3 else 1
    different = 0
    with tempfile.TemporaryDirectory() as folder:
        for turn in range(count):
            rng = random.Random(seed * 1_000_000 + turn)
            parts = [script(rng)] + ([recording(rng)] if rng.random() < 0.5 else [])
            if not compare(program, folder, parts):
                different += 1
                kept = tempfile.mkdtemp(prefix="differs-")
                names = [put(kept, name, data) for name, data in zip(["script", "recording"], parts)]
                print("differs:", *names)
                if different == 5:
                    break
        same, seconds = long_script(program, folder)
        wrong = misuses(program, folder)
    print("%d scripts, %d different; 100,000 lines: %s in %.2f s; calls of other words: %s" % (turn + 1, different, "same" if same else "DIFFERENT", seconds, wrong or "as they should be"))
    return 1 if different or not same or wrong else 0


if __name__ == "__main__":
    sys.exit(main())
