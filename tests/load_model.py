#!/usr/bin/env python3
"""A model of the program's word `load`: what it prints for a manifest. Written from the rules alone, sharing no code with the program.

    load_model.py MANIFEST      prints the graph (status 0) or `refused N at P` (status 1)

As a module: `load(manifest)` is what is printed. `statements(manifest)` reads the text alone, one statement after the other.
"""
import re
import sys

MANIFEST_BYTES = 65_535
FILES, EDGES, RULES, VARIABLES, POOLS, BLOCK_VARIABLES = 256, 128, 64, 128, 16, 16
OUTPUTS, READS, ORDER_ONLY, VALIDATIONS = 8, 64, 64, 16
PATH_BYTES, TEXT_BYTES, QUESTION_BYTES, STORE_BYTES = 128, 1_024, 1_024, 32_768

SIMPLE = frozenset(b"abcdefghijklmnopqrstuvwxyzABCDEFGHIJKLMNOPQRSTUVWXYZ0123456789_-")
NAME = SIMPLE | frozenset(b".")
END, SPACE, LINE_END, DOLLAR, HASH, COLON, BAR, AT, EQUALS, OPEN, CLOSE = -1, *b" \n$#:|@={}"
RULE_NAMES = (b"command", b"description", b"pool", b"restat")
POOL_NAMES = (b"depth",)


class Fault(Exception):
    """The number and the byte place of what is wrong with a manifest."""

    def __init__(self, number, place):
        super().__init__(number, place)
        self.number = number
        self.place = place


# The text


class Text:
    """A value or path: its raw bytes behind the leading gap, and its pieces, which are literal bytes or (name,) for a variable."""

    def __init__(self, raw, pieces):
        self.raw = raw
        self.pieces = pieces
        self.stored = DOLLAR in raw

    def expand(self, look_up):
        return b"".join(look_up(piece[0]) if isinstance(piece, tuple) else piece for piece in self.pieces)


class Statement:
    """A statement as it is read: its place, its kind, its name (a build's is its rule's) and its block's (name, Text) lines."""

    def __init__(self, place, kind, name, lines=(), value=None, outputs=(), inputs=()):
        self.place = place
        self.kind = kind
        self.name = name
        self.lines = lines
        self.value = value
        self.outputs = outputs  # explicit, implicit
        self.inputs = inputs  # explicit, implicit, order-only, validations


class Reader:
    """Reads statements off a manifest. `at` is the place of the next byte; a fault of the grammar is mostly there."""

    def __init__(self, data):
        self.data = data
        self.at = 0

    def byte(self, ahead=0):
        place = self.at + ahead
        return self.data[place] if place < len(self.data) else END

    def spaces(self):
        while self.byte() == SPACE:
            self.at += 1

    def gap(self):
        """Spaces and continuations."""
        while True:
            if self.byte() == SPACE:
                self.at += 1
            elif self.byte() == DOLLAR and self.byte(1) == LINE_END:
                self.at += 2
            else:
                return

    def refuse_here(self):
        raise Fault(3, self.at)

    def refuse_after_gap(self):
        """Where a gap may go on, a `$` could begin a continuation, so it is the byte after it that does not fit."""
        raise Fault(3, self.at + 1 if self.byte() == DOLLAR else self.at)

    def run_of(self, among):
        """The longest run of such bytes from here."""
        begun = self.at
        while self.byte() in among:
            self.at += 1
        return self.data[begun : self.at]

    def name(self):
        """A name, with the gap before it."""
        self.gap()
        if self.byte() not in NAME:
            self.refuse_after_gap()
        return self.run_of(NAME)

    def mark(self, wanted):
        """One byte that must come next, with the gap before it."""
        self.gap()
        if self.byte() != wanted:
            self.refuse_after_gap()
        self.at += 1

    def comment(self):
        while self.byte() not in (LINE_END, END):
            self.at += 1
        if self.byte() == END:
            self.refuse_here()
        self.at += 1

    def dollar(self):
        """What a `$` and the bytes behind it stand for: a piece of a text."""
        place = self.at
        follows = self.byte(1)
        self.at += 2
        if follows == LINE_END:
            self.spaces()
            return b""
        if follows in (SPACE, COLON, DOLLAR):
            return bytes([follows])
        if follows in SIMPLE:
            self.at -= 1
            return (self.run_of(SIMPLE),)
        if follows == OPEN:
            name = self.run_of(NAME)
            if name and self.byte() == CLOSE:
                self.at += 1
                return (name,)
        raise Fault(4, place)

    def text_to(self, ends):
        """A text up to the first unescaped byte of `ends`, or up to the manifest's end."""
        begun = self.at
        pieces = []
        while self.byte() not in ends and self.byte() != END:
            if self.byte() == DOLLAR:
                pieces.append(self.dollar())
            else:
                literal = self.at
                while self.byte() not in ends and self.byte() not in (DOLLAR, END):
                    self.at += 1
                pieces.append(self.data[literal : self.at])
        return Text(self.data[begun : self.at], pieces)

    def path(self):
        return self.text_to((SPACE, COLON, BAR, LINE_END))

    def value(self):
        """What follows a name in a line `NAME = VALUE`."""
        self.mark(EQUALS)
        self.gap()
        value = self.text_to((LINE_END,))
        if self.byte() == END:
            self.refuse_here()
        self.at += 1
        return value

    def block(self, allowed=None):
        """The lines of a block; with `allowed`, any other name is fault 5."""
        lines = []
        while self.byte() in (SPACE, LINE_END, HASH):
            self.spaces()
            if self.byte() == HASH:
                self.comment()
                continue
            if self.byte() == LINE_END:
                self.at += 1
                break
            self.gap()
            place = self.at
            name = self.name()
            if allowed is not None and name not in allowed:
                raise Fault(5, place)
            lines.append((name, self.value()))
        return lines

    def outputs(self):
        """The two lists of outputs, through the colon."""
        lists = [[]]
        while True:
            self.gap()
            if self.byte() == COLON and lists[0]:
                self.at += 1
                return lists + [[]] * (2 - len(lists))
            if self.byte() == BAR and lists[0] and len(lists) == 1:
                self.at += 1
                if self.byte() in (BAR, AT):
                    self.refuse_here()
                lists.append([])
            elif self.byte() in (COLON, BAR, LINE_END, END):
                self.refuse_here()
            else:
                lists[-1].append(self.path())

    def inputs_mark(self, current):
        """The list that the mark here begins, `current` being the number of the list before it."""
        if current == 3:
            self.refuse_here()
        self.at += 1
        if self.byte() == AT:
            self.at += 1
            return 3
        if self.byte() == BAR and current < 2:
            self.at += 1
            return 2
        if self.byte() == BAR or current > 0:
            self.refuse_here()
        return 1

    def inputs(self):
        """The four lists behind the rule's name, through the line's end."""
        lists = [[], [], [], []]
        current = 0
        while True:
            self.gap()
            if self.byte() == LINE_END:
                self.at += 1
                return lists
            if self.byte() == BAR:
                current = self.inputs_mark(current)
            elif self.byte() in (COLON, END):
                self.refuse_here()
            else:
                lists[current].append(self.path())

    def blank_or_comment(self):
        """A line outside blocks that begins with a space."""
        self.spaces()
        if self.byte() == HASH:
            self.comment()
        elif self.byte() == LINE_END:
            self.at += 1
        else:
            self.refuse_here()

    def statement(self):
        """A statement, which begins here."""
        place = self.at
        if self.byte() not in NAME:
            self.refuse_here()
        word = self.run_of(NAME)
        if word in (b"default", b"include", b"subninja"):
            raise Fault(5, place)
        if word in (b"rule", b"pool"):
            name = self.name()
            self.mark(LINE_END)
            lines = self.block(RULE_NAMES if word == b"rule" else POOL_NAMES)
            return Statement(place, word.decode(), name, lines)
        if word == b"build":
            outputs = self.outputs()
            rule = self.name()
            inputs = self.inputs()
            return Statement(place, "build", rule, self.block(), outputs=outputs, inputs=inputs)
        return Statement(place, "variable", word, value=self.value())

    def next(self):
        """The next statement, or None where no more come."""
        while self.byte() != END:
            if self.byte() == HASH:
                self.comment()
            elif self.byte() in (SPACE, LINE_END):
                self.blank_or_comment()
            else:
                return self.statement()
        return None


def check_bytes(data):
    """Faults 1 and 2."""
    if len(data) > MANIFEST_BYTES:
        raise Fault(1, MANIFEST_BYTES)
    unlawful = re.search(b"[\0\t\r]", data)
    if unlawful:
        raise Fault(2, unlawful.start())


def statements(data):
    """The statements of a manifest, one by one, so that what is wrong with one is found before the next is read."""
    check_bytes(data)
    reader = Reader(data)
    while True:
        statement = reader.next()
        if statement is None:
            return
        yield statement


# The graph


class Edge:
    def __init__(self, place, rule, block):
        self.place = place
        self.rule = rule  # the rule's lines: name -> Text
        self.block = block  # name -> expanded text
        self.outputs, self.reads, self.order_only, self.validations = [], [], [], []
        self.explicit_outputs = self.explicit_reads = 0
        self.command = self.description = b""
        self.pool = None
        self.restat = False


class Graph:
    """All that a manifest has said so far."""

    def __init__(self):
        self.variables = {}
        self.rules = {}  # name -> its lines
        self.pools = {}  # name -> depth, by declaration
        self.files = {}  # path -> number, by first mention
        self.makers = []  # of each file: its edge or None
        self.edges = []
        self.store = bytearray()

    def file_variable(self, name):
        return self.variables.get(name, b"")

    def paths(self):
        return list(self.files)

    def keep(self, data, place):
        if len(self.store) + len(data) > STORE_BYTES:
            raise Fault(9, place)
        self.store += data

    def expand_and_keep(self, text, look_up, place):
        """Expands a text of a statement; one with a `$` goes to the store."""
        expanded = text.expand(look_up)
        if len(expanded) > TEXT_BYTES:
            raise Fault(9, place)
        if text.stored:
            self.keep(expanded, place)
        return expanded

    def add_variable(self, said):
        value = self.expand_and_keep(said.value, self.file_variable, said.place)
        set_limited(self.variables, said.name, value, VARIABLES, said.place)

    def add_rule(self, said):
        if said.name in self.rules:
            raise Fault(7, said.place)
        if len(self.rules) == RULES:
            raise Fault(9, said.place)
        lines = dict(said.lines)
        if b"command" not in lines:
            raise Fault(10, said.place)
        self.rules[said.name] = lines

    def add_pool(self, said):
        if said.name in self.pools:
            raise Fault(7, said.place)
        if len(self.pools) == POOLS:
            raise Fault(9, said.place)
        depth = b""
        for _, text in said.lines:
            depth = self.expand_and_keep(text, self.file_variable, said.place)
        if not re.fullmatch(b"[1-9]|[1-5][0-9]|6[0-4]", depth):
            raise Fault(10, said.place)
        self.pools[said.name] = int(depth)

    def add_build(self, said):
        if said.name not in self.rules:
            raise Fault(6, said.place)
        if len(self.edges) == EDGES:
            raise Fault(9, said.place)
        block = {}
        for name, text in said.lines:
            value = self.expand_and_keep(text, self.file_variable, said.place)
            set_limited(block, name, value, BLOCK_VARIABLES, said.place)
        edge = Edge(said.place, self.rules[said.name], block)
        explicit_outputs, implicit_outputs = said.outputs
        explicit, implicit, order_only, validations = said.inputs
        for text in explicit_outputs + implicit_outputs:
            self.add_output(edge, text)
        self.add_files(edge, explicit + implicit, edge.reads, READS)
        self.add_files(edge, order_only, edge.order_only, ORDER_ONLY)
        self.add_files(edge, validations, edge.validations, VALIDATIONS)
        edge.explicit_outputs = len(explicit_outputs)
        edge.explicit_reads = len(explicit)
        self.edges.append(edge)

    def file(self, edge, text):
        """The number of the file that a path of this edge names."""

        def look_up(name):
            return edge.block[name] if name in edge.block else self.file_variable(name)

        path = self.expand_and_keep(text, look_up, edge.place)
        if not 1 <= len(path) <= PATH_BYTES:
            raise Fault(9, edge.place)
        if path not in self.files:
            if len(self.files) == FILES:
                raise Fault(9, edge.place)
            self.files[path] = len(self.files)
            self.makers.append(None)
        return self.files[path]

    def add_output(self, edge, text):
        file = self.file(edge, text)
        if self.makers[file] is not None:
            raise Fault(8, edge.place)
        if len(edge.outputs) == OUTPUTS:
            raise Fault(9, edge.place)
        self.makers[file] = len(self.edges)
        edge.outputs.append(file)

    def add_files(self, edge, texts, files, most):
        for text in texts:
            file = self.file(edge, text)
            if len(files) == most:
                raise Fault(9, edge.place)
            files.append(file)

    def makers_of_inputs(self, number):
        edge = self.edges[number]
        return {self.makers[file] for file in edge.reads + edge.order_only} - {None}

    def on_circle(self, start):
        """Whether an edge comes back to itself by going from edges to the makers of their inputs."""
        seen = set()
        left = [start]
        while left:
            makers = self.makers_of_inputs(left.pop())
            if start in makers:
                return True
            left += makers - seen
            seen |= makers
        return False

    def check_circles(self):
        for number, edge in enumerate(self.edges):
            if self.on_circle(number):
                raise Fault(12, edge.place)

    def expand_edge(self, edge):
        """Gives the edge the values of its rule, those of its block standing before them."""
        paths = self.paths()
        special = {
            b"in": b" ".join(paths[file] for file in edge.reads[: edge.explicit_reads]),
            b"out": b" ".join(paths[file] for file in edge.outputs[: edge.explicit_outputs]),
        }

        def look_up(name):
            for values in (special, edge.block, self.variables):
                if name in values:
                    return values[name]
            return b""

        def value(name):
            if name in edge.block:
                return edge.block[name]
            expanded = edge.rule[name].expand(look_up) if name in edge.rule else b""
            if len(expanded) > TEXT_BYTES:
                raise Fault(9, edge.place)
            return expanded

        edge.command, edge.description, pool, restat = [value(name) for name in RULE_NAMES]
        if pool and pool not in self.pools:
            raise Fault(6, edge.place)
        edge.pool = list(self.pools).index(pool) if pool else None
        edge.restat = restat != b""

    def ask(self, edge):
        """Puts the edge's question into the store."""
        paths = self.paths()
        reads = b"".join(paths[file] + b"\0" for file in edge.reads)
        outputs = b"".join(paths[file] + b"\0" for file in edge.outputs)
        question = edge.command + b"\0" + reads + b"\0" + outputs
        if len(question) > QUESTION_BYTES:
            raise Fault(9, edge.place)
        self.keep(question, edge.place)


def set_limited(values, name, value, most, place):
    if name not in values and len(values) == most:
        raise Fault(9, place)
    values[name] = value


def graph_of(data):
    graph = Graph()
    add = {"variable": graph.add_variable, "rule": graph.add_rule, "pool": graph.add_pool, "build": graph.add_build}
    for said in statements(data):
        add[said.kind](said)
    graph.check_circles()
    for edge in graph.edges:
        graph.expand_edge(edge)
    for edge in graph.edges:
        graph.ask(edge)
    return graph


# What is printed


def fnv(store):
    """32-bit FNV-1a over the store and the zeros behind it, up to its full size."""
    value = 2_166_136_261
    for byte in store:
        value = (value ^ byte) * 16_777_619 % 2**32
    return value * pow(16_777_619, STORE_BYTES - len(store), 2**32) % 2**32


def shown_byte(byte):
    if byte < 32 or byte > 126:
        return b"\\x%02x" % byte
    return b"\\\\" if byte == ord("\\") else bytes([byte])


SHOWN = [shown_byte(byte) for byte in range(256)]


def shown(text):
    return b"".join(SHOWN[byte] for byte in text)


def line(words, text=b""):
    """Words parted by spaces, then the text; what is empty leaves no space."""
    return b" ".join(words + ([shown(text)] if text else [])) + b"\n"


def numbers(values):
    return [b"%d" % value for value in values]


def edge_lines(number, edge):
    label = [b"edge", b"%d" % number]
    pool = b"-" if edge.pool is None else b"%d" % edge.pool
    restat = b"yes" if edge.restat else b"no"
    return [
        line(label + [b"at", b"%d" % edge.place, b"pool", pool, b"restat", restat]),
        line(label + [b"explicit"] + numbers([edge.explicit_outputs, edge.explicit_reads])),
        line(label + [b"outputs"] + numbers(edge.outputs)),
        line(label + [b"reads"] + numbers(edge.reads)),
        line(label + [b"order-only"] + numbers(edge.order_only)),
        line(label + [b"validations"] + numbers(edge.validations)),
        line(label + [b"description"], edge.description),
        line(label + [b"command"], edge.command),
    ]


def printed(graph):
    lines = []
    for (path, file), maker in zip(graph.files.items(), graph.makers):
        lines.append(line([b"file", b"%d" % file] + ([b"source"] if maker is None else [b"made", b"%d" % maker]), path))
    for number, (name, depth) in enumerate(graph.pools.items()):
        lines.append(line([b"pool", b"%d" % number, b"depth", b"%d" % depth], name))
    for number, edge in enumerate(graph.edges):
        lines += edge_lines(number, edge)
    lines.append(line([b"store", b"%d" % len(graph.store), b"fnv", b"%08x" % fnv(graph.store)]))
    return b"".join(lines)


def load(data):
    """What `hetunawa load` prints for a manifest of these bytes."""
    try:
        return printed(graph_of(data))
    except Fault as fault:
        return b"refused %d at %d\n" % (fault.number, fault.place)


def main():
    with open(sys.argv[1], "rb") as file:
        said = load(file.read())
    sys.stdout.buffer.write(said)
    return 1 if said.startswith(b"refused ") else 0


if __name__ == "__main__":
    sys.exit(main())
