#!/usr/bin/env python3
"""A model of `hetunawa host SCRIPT [RECORDING]`, written from the rules and not from the program.

    model.py SCRIPT [RECORDING]

prints what the program has to print, and ends with the status that it has to end with.
"""
import sys

LAST_EDGE = 127
LAST_FILE = 255
LAST_CLOCK = 4_000_000_000
MOST_READS = 64
MOST_OUTPUTS = 8
MOST_QUESTION = 1024
MOST_ENDINGS = 512
BUSY, SPENT, BAD = 26, 27, 28


class Refused(Exception):
    """A call that a host refuses, with its number."""

    def __init__(self, number):
        super().__init__(number)
        self.number = number


class NotUnderstood(Exception):
    """A line that is no call."""


def fnv1a(data):
    value = 2166136261
    for byte in data:
        value = ((value ^ byte) * 16777619) % 2**32
    return value


def command_of(question):
    """The command of a question: its bytes up to the first byte 0."""
    return question.split(b"\0", 1)[0]


class Host:
    """What both hosts do alike. A file is a pair of stamp and mark."""

    def __init__(self):
        self.files = {}
        self.clock = 0
        self.pending = {}

    def tell(self, file):
        if file > LAST_FILE:
            raise Refused(BAD)
        return self.files.get(file)

    def outside_write(self, file, mark):
        if file > LAST_FILE:
            raise Refused(BAD)
        if self.clock > LAST_CLOCK:
            raise Refused(SPENT)
        self.clock += 1
        if mark is None:
            self.files.pop(file, None)
        else:
            self.files[file] = (self.clock, mark)
        return self.clock

    def start(self, edge, question, reads, outputs):
        bad = (
            edge > LAST_EDGE
            or edge in self.pending
            or len(reads) > MOST_READS
            or not outputs
            or len(outputs) > MOST_OUTPUTS
            or len(set(outputs)) < len(outputs)
            or any(file > LAST_FILE for file in reads + outputs)
            or len(question) > MOST_QUESTION
        )
        if bad:
            raise Refused(BAD)
        if len(self.pending) == self.CAPACITY:
            raise Refused(BUSY)
        if self.clock > LAST_CLOCK:
            raise Refused(SPENT)
        self.clock += 1
        self.pending[edge] = (outputs, self.makes(question, reads, len(outputs)))
        self.note_start(edge, question)
        return self.clock

    def makes(self, question, reads, count):
        """The marks of the outputs, or None for a failure."""
        if any(file not in self.files for file in reads) or command_of(question).startswith(b"fail"):
            return None
        marks = b"".join(self.files[file][1].to_bytes(4, "little") for file in reads)
        return [fnv1a(question + marks + bytes([j])) for j in range(count)]

    def poll(self):
        """The edge that ends and whether it is good, or None."""
        if not self.pending:
            return None
        edge = self.choose()
        outputs, marks = self.pending.pop(edge)
        if marks is None:
            self.remove(outputs)
            return edge, False
        for file, mark in zip(outputs, marks):
            if self.REWRITES or file not in self.files or self.files[file][1] != mark:
                self.clock += 1
                self.files[file] = (self.clock, mark)
        return edge, True

    def break_off(self, edge):
        if edge > LAST_EDGE:
            raise Refused(BAD)
        if edge not in self.pending:
            return False
        outputs, _ = self.pending.pop(edge)
        self.remove(outputs)
        return True

    def remove(self, outputs):
        for file in outputs:
            self.files.pop(file, None)


class Simulator(Host):
    CAPACITY = 16
    REWRITES = False

    def __init__(self):
        super().__init__()
        self.tick = 0
        self.due = {}

    def note_start(self, edge, question):
        self.due[edge] = self.tick + len(command_of(question))

    def choose(self):
        self.tick, edge = min((self.due[edge], edge) for edge in self.pending)
        return edge


class Replay(Host):
    CAPACITY = 8
    REWRITES = True

    def __init__(self, endings):
        super().__init__()
        self.endings = list(endings)

    def note_start(self, edge, question):
        pass

    def choose(self):
        for place, edge in enumerate(self.endings):
            if edge in self.pending:
                del self.endings[: place + 1]
                return edge
        return min(self.pending)


def endings_of(recording):
    """The endings of a recording, or None where it is malformed."""
    endings = recording[3:]
    if recording[:3] != b"NJR" or len(endings) > MOST_ENDINGS or any(byte > LAST_EDGE for byte in endings):
        return None
    return endings


def number(word):
    if not word or any(byte not in b"0123456789" for byte in word):
        raise NotUnderstood
    # Python refuses to read thousands of digits; what is that long is past every limit.
    digits = word.lstrip(b"0")
    return int(digits or b"0") if len(digits) <= 30 else 10**30


def file_number(word):
    if word[:1] != b"#":
        raise NotUnderstood
    return number(word[1:])


def mark_number(word):
    mark = number(word)
    if mark >= 2**32:
        raise NotUnderstood
    return mark


def words_of(line):
    return [word for word in line.split(b" ") if word]


def start(host, line):
    head, colon, question = line.partition(b": ")
    words = words_of(head)
    if not colon or len(words) < 4 or words[0] != b"start" or words[2] != b"reads" or b"outputs" not in words[3:]:
        raise NotUnderstood
    parting = words.index(b"outputs", 3)
    edge = number(words[1])
    reads = [number(word) for word in words[3:parting]]
    outputs = [number(word) for word in words[parting + 1 :]]
    return "started at %d" % host.start(edge, question, reads, outputs)


def call(host, line):
    words = words_of(line)
    word, count = words[0], len(words)
    if word == b"start":
        return start(host, line)
    if word == b"write" and count == 3:
        return "written at %d" % host.outside_write(file_number(words[1]), mark_number(words[2]))
    if word == b"remove" and count == 2:
        return "removed at %d" % host.outside_write(file_number(words[1]), None)
    if word == b"tell" and count == 2:
        told = host.tell(file_number(words[1]))
        return "absent" if told is None else "stamp %d mark %d" % told
    if word == b"clock" and count == 1:
        return "clock %d" % host.clock
    if word == b"poll" and count == 1:
        ended = host.poll()
        if ended is None:
            return "none"
        return "%s %d" % ("good" if ended[1] else "failed", ended[0])
    if word == b"break" and count == 2:
        return "broken off" if host.break_off(number(words[1])) else "nothing pending"
    raise NotUnderstood


def answer(host, line):
    try:
        return call(host, line)
    except Refused as refused:
        return "refused %d" % refused.number
    except NotUnderstood:
        return "not understood"


def run(script, recording=None):
    """What the program prints, and its status."""
    if recording is None:
        host = Simulator()
    else:
        endings = endings_of(recording)
        if endings is None:
            return b"refused 13\n", 1
        host = Replay(endings)
    lines = script.split(b"\n")
    if lines[-1] == b"":
        lines.pop()
    said = [answer(host, line) for line in lines if words_of(line) and line[:2] != b"# "]
    said += ["#%d stamp %d mark %d" % (file, *host.files[file]) for file in sorted(host.files)]
    return "".join(text + "\n" for text in said).encode(), 0


def main():
    parts = []
    for path in sys.argv[1:]:
        with open(path, "rb") as file:
            parts.append(file.read())
    text, status = run(*parts)
    sys.stdout.buffer.write(text)
    return status


if __name__ == "__main__":
    sys.exit(main())
