#!/usr/bin/env python3
"""Writes tests/load_cases: manifests, NAME.ninja, each with what the word `load` prints for it, NAME.out.

    make_cases.py

What a small case prints is written here by hand, with the bytes of its text store. Of a case at a limit the answer is written by hand, and a
graph that is accepted there comes from the model. The model must agree with all of it.
"""
import os
import sys

import load_model

FOLDER = os.path.join(os.path.dirname(os.path.abspath(__file__)), "load_cases")
CASES = {}

# A rule to begin small cases with, of 21 bytes.
R = b"rule r\n  command = c\n"


def naive_fnv(store):
    value = 2166136261
    for byte in store.ljust(32768, b"\0"):
        value = ((value ^ byte) * 16777619) & 0xFFFFFFFF
    return value


def edge(at, explicit, outputs, reads, command, order_only="", validations="", description="", pool="-", restat="no"):
    """The lines of an edge, without their label."""
    said = ["at %d pool %s restat %s" % (at, pool, restat), "explicit " + explicit]
    for word, text in [("outputs", outputs), ("reads", reads), ("order-only", order_only), ("validations", validations), ("description", description), ("command", command)]:
        said.append(word + (" " + text if text else ""))
    return said


def graph(files=(), edges=(), store=b"", pools=()):
    """A printed graph: its files as `made E PATH` or `source PATH`, its pools as `depth D NAME`, its edges, and its store's bytes."""
    said = ["file %d %s" % (number, file) for number, file in enumerate(files)]
    said += ["pool %d %s" % (number, pool) for number, pool in enumerate(pools)]
    for number, lines in enumerate(edges):
        said += ["edge %d %s" % (number, line) for line in lines]
    said.append("store %d fnv %08x" % (len(store), naive_fnv(store)))
    return "\n".join(said).encode() + b"\n"


def put(name, manifest, out):
    assert name not in CASES, name
    model = load_model.load(manifest)
    assert model == out, "%s\nexpected:\n%s\nmodel:\n%s" % (name, out.decode(), model.decode())
    CASES[name] = manifest, out


def accepted(name, manifest, *parts, **named):
    """A small case with its whole graph."""
    put(name, manifest, graph(*parts, **named))


def refused(name, manifest, number, place):
    put(name, manifest, b"refused %d at %d\n" % (number, place))


def fits(name, manifest, files, edges, store):
    """A case at a limit that is accepted: how many files and edges it has and how many bytes its store."""
    out = load_model.load(manifest)
    lines = out.decode().split("\n")
    assert not out.startswith(b"refused"), "%s: %s" % (name, out)
    counts = [sum(line.startswith("file ") for line in lines), sum(" restat " in line and line.startswith("edge ") for line in lines), int(lines[-2].split()[1])]
    assert counts == [files, edges, store], "%s: %s" % (name, counts)
    put(name, manifest, out)


def text_cases():
    """Faults 1 to 5, and texts that only look like them."""
    accepted("empty", b"")
    accepted("only-comments-and-blanks", b"# x\n   # y\n\n   \n#\n")
    refused("comment-without-line-end", b"# x", 3, 3)
    refused("spaces-without-line-end", b"a = b\n  ", 3, 8)
    refused("value-without-line-end", b"a = b", 3, 5)
    refused("indented-outside-a-block", b"  a = b\n", 3, 2)
    refused("indented-after-a-variable", b"a = b\n  c = d\n", 3, 8)
    refused("indented-after-a-blank-line", R + b"\n  restat = 1\n", 3, 24)
    accepted("comment-does-not-end-a-block", R + b"# x\n   # y\n  restat = 1\nbuild a: r\n", ["made 0 a"], [edge(45, "1 0", "0", "", "c", restat="yes")], b"c\0\0a\0")
    refused("dollar-in-the-first-column", b"$x = 1\n", 3, 0)
    refused("dollar-before-a-name", b"rule $x\n", 3, 6)
    refused("dollar-and-end-after-a-name", b"a $", 3, 3)
    refused("dollar-before-a-rules-name", R + b"build a: $x\n", 3, 31)
    refused("dollar-before-nothing-listed", b"a = b$?\n", 4, 5)
    refused("dollar-before-a-slash-in-a-path", R + b"build a$/: r\n", 4, 28)
    refused("dollar-at-the-end-of-a-value", b"a = $", 4, 4)
    refused("braces-empty", b"a = ${}\n", 4, 4)
    refused("braces-with-a-space", b"a = ${b c}\n", 4, 4)
    refused("braces-left-open", b"a = x${b\n", 4, 5)
    refused("word-default", b"default a\n", 5, 0)
    refused("word-include", b"a = b\ninclude c\n", 5, 6)
    refused("word-subninja-at-the-end", b"subninja", 5, 0)
    accepted("word-default-begins-a-name", b"defaults = 1\ninclude.d = 2\nrules = 3\n")
    accepted("words-in-a-builds-block", R + b"build a: r\n  default = 1\n  build = 2\n  rule = 3\n", ["made 0 a"], [edge(21, "1 0", "0", "", "c")], b"c\0\0a\0")
    refused("word-rule-is-no-variable", b"rule = 1\n", 3, 5)
    refused("word-pool-is-no-variable", b"v = 1\npool = f\n", 3, 11)
    refused("foreign-name-in-a-rules-block", R + b"  depfile = d\n", 5, 23)
    refused("foreign-name-in-a-pools-block", b"pool p\n  depth = 1\n  command = x\n", 5, 21)
    refused("foreign-name-cut-short", b"rule r\n  comman", 5, 9)
    refused("byte-tab", b"a = b\tc\n", 2, 5)
    refused("byte-return-after-a-fault-of-grammar", b"$\nx\r\n", 2, 3)
    refused("byte-0", b"# \0\n", 2, 2)
    fits("manifest-65535", b"#" + b"x" * 65533 + b"\n", 0, 0, 0)
    refused("manifest-65536-with-a-tab", b"#\t" + b"x" * 65533 + b"\n", 1, 65535)
    refused("bar-twice-among-inputs", R + b"build a: r b | c | d\n", 3, 39)
    refused("bar-twice-among-outputs", R + b"build a | b | c: r\n", 3, 33)
    refused("bars-among-outputs", R + b"build a || b: r\n", 3, 30)
    refused("bar-at-among-outputs", R + b"build a |@ b: r\n", 3, 30)
    refused("bar-after-validations", R + b"build a: r |@ b || c\n", 3, 37)
    refused("bars-twice", R + b"build a: r || b || c\n", 3, 38)
    refused("no-explicit-output", R + b"build | a: r\n", 3, 27)
    refused("no-rules-name", R + b"build a:\n", 3, 29)
    refused("colon-among-inputs", R + b"build a: r b:c\n", 3, 33)
    accepted("bars-before-at", R + b"build a: r ||@x\n", ["made 0 a", "source @x"], [edge(21, "1 0", "0", "", "c", order_only="1")], b"c\0\0a\0")
    accepted("no-spaces-around-marks", R + b"build a|b:r|c||d|@e\n", ["made 0 a", "made 0 b", "source c", "source d", "source e"], [edge(21, "1 0", "0 1", "2", "c", "3", "4")], b"c\0c\0\0a\0b\0")
    accepted("empty-lists", R + b"build a | : r | || |@\n", ["made 0 a"], [edge(21, "1 0", "0", "", "c")], b"c\0\0a\0")
    accepted("hash-within-lines", b"v = #1\nrule r\n  command = $v # 2\nbuild #a: r b#\n", ["made 0 #a", "source b#"], [edge(33, "1 1", "0", "1", "#1 # 2")], b"#1 # 2\0b#\0\0#a\0")


def expansion_cases():
    """Escapes, and who gives a variable its value."""
    accepted("continuation-in-a-value", b"a = b$\n   c\nrule r\n  command = $a\nbuild o: r\n", ["made 0 o"], [edge(34, "1 0", "0", "", "bc")], b"bc" b"bc\0\0o\0")
    accepted(
        "continuations-between-words",
        b"v $\n = $\n  1\nrule $\n r\n  $\n command $\n= $v\nbuild $\n  a $\n : r$\n b\n",
        ["made 0 a", "source b"],
        [edge(43, "1 1", "0", "1", "1")],
        b"1\0b\0\0a\0",
    )
    accepted("continuation-in-a-path", R + b"build a$\n  b: r c$\n d\n", ["made 0 ab", "source cd"], [edge(21, "1 1", "0", "1", "c")], b"ab" b"cd" b"c\0cd\0\0ab\0")
    accepted("continuation-behind-a-path", R + b"build a: r b$\n\n", ["made 0 a", "source b"], [edge(21, "1 1", "0", "1", "c")], b"b" b"c\0b\0\0a\0")
    accepted("escapes-in-paths", R + b"build a$ b: r c$:d e$$f\n", ["made 0 a b", "source c:d", "source e$f"], [edge(21, "1 2", "0", "1 2", "c")], b"a b" b"c:d" b"e$f" b"c\0c:d\0e$f\0\0a b\0")
    accepted("escapes-in-values", b"v = $ a$:b$$\nrule r\n  command = [$v]\nbuild o: r\n", ["made 0 o"], [edge(37, "1 0", "0", "", "[ a:b$]")], b" a:b$" b"[ a:b$]\0\0o\0")
    accepted("values-keep-spaces-at-their-end", b"v =   a  \nrule r\n  command = [$v]\nbuild o: r\n", ["made 0 o"], [edge(34, "1 0", "0", "", "[a  ]")], b"[a  ]\0\0o\0")
    accepted("expansion-is-not-repeated", b"v = $$w\nw = 1\nrule r\n  command = $v\nbuild o: r\n", ["made 0 o"], [edge(36, "1 0", "0", "", "$w")], b"$w" b"$w\0\0o\0")
    accepted(
        "braces-take-dots",
        b"a.b = 1\na = 2\nrule r\n  command = ${a.b} $a.b ${a}b $ab\nbuild o: r\n",
        ["made 0 o"],
        [edge(55, "1 0", "0", "", "1 2.b 2b ")],
        b"1 2.b 2b \0\0o\0",
    )
    accepted("names-with-dashes-and-digits", b"-1 = x\n_ = y\nrule r\n  command = $-1 $_\nbuild o: r\n", ["made 0 o"], [edge(39, "1 0", "0", "", "x y")], b"x y\0\0o\0")
    accepted("last-file-value-in-a-rule", b"a = 1\nb = $a\na = 2\nrule r\n  command = $a $b\nbuild o: r\na = 3\n", ["made 0 o"], [edge(44, "1 0", "0", "", "3 1")], b"1" b"3 1\0\0o\0")
    accepted(
        "file-values-so-far-in-paths",
        b"v = x\n" + R + b"build $v: r\nv = y\nbuild $v: r\n",
        ["made 0 x", "made 1 y"],
        [edge(27, "1 0", "0", "", "c"), edge(45, "1 0", "1", "", "c")],
        b"x" b"y" b"c\0\0x\0" b"c\0\0y\0",
    )
    accepted(
        "blocks-before-the-file-in-paths",
        b"v = x\nw = y\n" + R + b"build $v$w: r ${v}\n  v = 1\n  v = 2\n",
        ["made 0 2y", "source 2"],
        [edge(33, "1 1", "0", "1", "c")],
        b"2y" b"2" b"c\0" b"2\0\0" b"2y\0",
    )
    accepted(
        "block-values-look-at-the-file-alone",
        b"v = f\nrule r\n  command = $v $w\nbuild o: r\n  v = b\n  w = $v\nv = g\n",
        ["made 0 o"],
        [edge(31, "1 0", "0", "", "b f")],
        b"f" b"b f\0\0o\0",
    )
    accepted(
        "rules-never-look-at-themselves",
        b"rule r\n  command = [$description$command$restat$pool]\n  description = d\n  restat = 1\nbuild o: r\n",
        ["made 0 o"],
        [edge(85, "1 0", "0", "", "[]", description="d", restat="yes")],
        b"[]\0\0o\0",
    )
    accepted(
        "description-of-the-file-and-of-a-block",
        b"description = f\nrule r\n  command = [$description]\n  description = d\nbuild o: r\nbuild p: r\n  description = b\n",
        ["made 0 o", "made 1 p"],
        [edge(68, "1 0", "0", "", "[f]", description="d"), edge(79, "1 0", "1", "", "[b]", description="b")],
        b"[f]\0\0o\0" b"[b]\0\0p\0",
    )
    accepted(
        "file-variables-stand-for-no-rule-value",
        b"description = f\nrestat = f\n" + R + b"build o: r\n",
        ["made 0 o"],
        [edge(48, "1 0", "0", "", "c")],
        b"c\0\0o\0",
    )
    accepted(
        "in-and-out",
        b"rule r\n  command = $in > $out\n  description = ${out}\nbuild a b | c: r d e | f || g |@ h\n",
        ["made 0 a", "made 0 b", "made 0 c", "source d", "source e", "source f", "source g", "source h"],
        [edge(53, "2 2", "0 1 2", "3 4 5", "d e > a b", "6", "7", "a b")],
        b"d e > a b\0d\0e\0f\0\0a\0b\0c\0",
    )
    accepted("in-of-nothing", b"rule r\n  command = [$in]\nbuild a: r | b\n", ["made 0 a", "source b"], [edge(25, "1 0", "0", "1", "[]")], b"[]\0b\0\0a\0")
    accepted("in-repeats-paths-unquoted", b"rule r\n  command = $in\nbuild a: r b$ c b$ c\n", ["made 0 a", "source b c"], [edge(23, "1 2", "0", "1 1", "b c b c")], b"b c" b"b c" b"b c b c\0b c\0b c\0\0a\0")
    accepted(
        "in-and-out-are-special-in-rules-alone",
        b"in = f\nrule r\n  command = $in $out\nbuild $in: r x\n  out = $in\nbuild $in: r $out\n  in = g\n  out = h\n",
        ["made 0 f", "source x", "made 1 g", "source h"],
        [edge(35, "1 1", "0", "1", "x f"), edge(62, "1 1", "2", "3", "h g")],
        b"f" b"f" b"g" b"h" b"x f\0x\0\0f\0" b"h g\0h\0\0g\0",
    )
    accepted("in-alone-in-a-block-value", R + b"build a: r b\n  command = [$in$out]\n", ["made 0 a", "source b"], [edge(21, "1 1", "0", "1", "[]")], b"[]" b"[]\0b\0\0a\0")
    accepted("block-command-instead", R + b"build a: r\n  command = x\n  command = y\n", ["made 0 a"], [edge(21, "1 0", "0", "", "y")], b"y\0\0a\0")
    accepted("last-line-of-a-rules-block", b"rule r\n  command = x\n  command = y $in\nbuild a: r b\n", ["made 0 a", "source b"], [edge(39, "1 1", "0", "1", "y b")], b"y b\0b\0\0a\0")
    accepted("block-description-alone", R + b"build a: r\n  description = d $\n  e\n", ["made 0 a"], [edge(21, "1 0", "0", "", "c", description="d e")], b"d e" b"c\0\0a\0")
    accepted("empty-command", b"rule r\n  command =\nbuild a: r\n", ["made 0 a"], [edge(19, "1 0", "0", "", "")], b"\0\0a\0")
    accepted(
        "restat",
        b"rule r\n  command = c\n  restat = $on\nbuild a: r\nbuild b: r\n  on = 0\nbuild c: r\n  restat = 1\nbuild d: r\n  on = 1\n  restat =\n",
        ["made 0 a", "made 1 b", "made 2 c", "made 3 d"],
        [edge(36, "1 0", "0", "", "c"), edge(47, "1 0", "1", "", "c", restat="yes"), edge(67, "1 0", "2", "", "c", restat="yes"), edge(91, "1 0", "3", "", "c")],
        b"c\0\0a\0" b"c\0\0b\0" b"c\0\0c\0" b"c\0\0d\0",
    )
    accepted("values-with-a-dollar-are-stored-each-time", b"v = $$\nv = $$\nv = $v\n\nw = $e\n", store=b"$$$")
    accepted("paths-with-a-dollar-are-stored-each-time", b"v = x\n" + R + b"build a: r $v $v x\n", ["made 0 a", "source x"], [edge(27, "1 3", "0", "1 1 1", "c")], b"x" b"x" b"c\0x\0x\0x\0\0a\0")
    accepted(
        "store-in-order",
        b"v = 1$$\npool p\n  depth = $d\n  depth = 2$\n\n" + R + b"  pool = $$\nbuild o$v | q$v: r e$v | i$v || n$v |@ c$v\n  u = u$v\n  pool = p$\n\n",
        ["made 0 o1$", "made 0 q1$", "source e1$", "source i1$", "source n1$", "source c1$"],
        [edge(75, "1 1", "0 1", "2 3", "c", "4", "5", pool="0")],
        b"1$" b"" b"2" b"u1$" b"p" b"o1$" b"q1$" b"e1$" b"i1$" b"n1$" b"c1$" b"c\0e1$\0i1$\0\0o1$\0q1$\0",
        ["depth 2 p"],
    )
    put(
        "bytes-shown",
        b"rule r\n  command = \x01\x1f\\x~\x7f\n  description = \x80 \xff\nbuild \xc3\xa9: r a\\b\n",
        b"file 0 made 0 \\xc3\\xa9\nfile 1 source a\\\\b\nedge 0 at 46 pool - restat no\nedge 0 explicit 1 1\nedge 0 outputs 0\nedge 0 reads 1\nedge 0 order-only\nedge 0 validations\n"
        b"edge 0 description \\x80 \\xff\nedge 0 command \\x01\\x1f\\\\x~\\x7f\nstore 15 fnv %08x\n" % naive_fnv(b"\x01\x1f\\x~\x7f\0a\\b\0\0\xc3\xa9\0"),
    )


def graph_cases():
    """Rules, pools, files, makers and circles."""
    refused("rule-unknown", b"build a: r\n", 6, 0)
    refused("rule-declared-below", b"\nbuild a: r\n" + R, 6, 1)
    refused("rule-phony-is-no-rule", b"build a: phony b\n", 6, 0)
    refused("rule-twice", R + R, 7, 21)
    refused("rule-without-command", b"v = 1\nrule r\n  description = d\nbuild a: r\n", 10, 6)
    refused("rule-without-block", b"rule r\nbuild a: r\n", 10, 0)
    accepted("rule-and-pool-of-one-name", b"pool r\n  depth = 3\n" + R + b"  pool = r\nbuild a: r\n", ["made 0 a"], [edge(51, "1 0", "0", "", "c", pool="0")], b"c\0\0a\0", ["depth 3 r"])
    refused("pool-twice", b"pool p\n  depth = 1\npool p\n  depth = 1\n", 7, 19)
    refused("pool-unknown", R + b"  pool = p\nbuild a: r\n", 6, 32)
    refused("pool-unknown-in-the-second-edge", R + b"  pool = $p\nbuild a: r\nbuild b: r\n  p = q\n", 6, 44)
    accepted("pool-unknown-and-unused", R + b"rule s\n  command = c\n  pool = p\nbuild a: r\n", ["made 0 a"], [edge(53, "1 0", "0", "", "c")], b"c\0\0a\0")
    accepted("pool-empty", R + b"  pool = $p\nbuild a: r\n", ["made 0 a"], [edge(33, "1 0", "0", "", "c")], b"c\0\0a\0")
    accepted("pool-declared-below", R + b"  pool = p\nbuild a: r\npool q\n  depth = 64\npool p\n  depth = 1\n", ["made 0 a"], [edge(32, "1 0", "0", "", "c", pool="1")], b"c\0\0a\0", ["depth 64 q", "depth 1 p"])
    accepted(
        "pool-in-a-block",
        b"pool p\n  depth = 10\n" + R + b"build a: r\n  pool = p\nrule s\n  command = d\n  pool = p\nbuild b: s\n  pool =\n",
        ["made 0 a", "made 1 b"],
        [edge(41, "1 0", "0", "", "c", pool="0"), edge(95, "1 0", "1", "", "d")],
        b"c\0\0a\0" b"d\0\0b\0",
        ["depth 10 p"],
    )
    refused("pool-console-is-unknown", R + b"build a: r\n  pool = console\n", 6, 21)
    refused("output-twice-in-one-edge", R + b"build a a: r\n", 8, 21)
    refused("output-explicit-and-implicit", R + b"build a | b a: r\n", 8, 21)
    refused("output-of-two-edges", R + b"build a: r\nbuild b | a: r\n", 8, 32)
    refused("output-twice-by-expansion", b"v = a\n" + R + b"build a: r\nbuild ${v}: r\n", 8, 38)
    accepted("paths-are-not-made-canonical", R + b"build a: r ./a\nbuild b/../a: r a//\n", ["made 0 a", "source ./a", "made 1 b/../a", "source a//"], [edge(21, "1 1", "0", "1", "c"), edge(36, "1 1", "2", "3", "c")], b"c\0./a\0\0a\0" b"c\0a//\0\0b/../a\0")
    refused("circle-of-itself", R + b"build a: r a\n", 12, 21)
    refused("circle-by-implicit-input", R + b"build a: r | a\n", 12, 21)
    refused("circle-by-order-only", R + b"build a: r || a\n", 12, 21)
    refused("circle-by-an-implicit-output", R + b"build a | b: r b\n", 12, 21)
    refused("circle-of-two", R + b"build a: r b\nbuild b: r a\n", 12, 21)
    refused("circle-half-by-order-only", R + b"build x: r\nbuild a: r b\nbuild b: r || a\n", 12, 32)
    refused("circle-below-an-edge-that-leads-into-it", R + b"build x: r a\nbuild a: r b\nbuild b: r a\n", 12, 34)
    refused("circle-below-an-edge-that-it-leads-into", R + b"build x: r\nbuild a: r b x\nbuild b: r a\n", 12, 32)
    refused("circles-two-the-lower", R + b"build x: r a\nbuild a: r b\nbuild c: r d\nbuild d: r c\nbuild b: r a\n", 12, 34)
    refused("circle-lowest-edge-comes-last-in-it", R + b"build a: r c\nbuild b: r a\nbuild c: r b\n", 12, 21)
    accepted("circle-by-validation", R + b"build a: r b |@ a\n", ["made 0 a", "source b"], [edge(21, "1 1", "0", "1", "c", validations="0")], b"c\0b\0\0a\0")
    accepted("circle-of-two-by-validation", R + b"build a: r b\nbuild b: r |@ a\n", ["made 0 a", "made 1 b"], [edge(21, "1 1", "0", "1", "c"), edge(34, "1 0", "1", "", "c", validations="0")], b"c\0b\0\0a\0" b"c\0\0b\0")
    accepted(
        "diamond-is-no-circle",
        R + b"build d: r b c\nbuild b: r a\nbuild c: r a || b\n",
        ["made 0 d", "made 1 b", "made 2 c", "source a"],
        [edge(21, "1 2", "0", "1 2", "c"), edge(36, "1 1", "1", "3", "c"), edge(49, "1 1", "2", "3", "c", "1")],
        b"c\0b\0c\0\0d\0" b"c\0a\0\0b\0" b"c\0a\0\0c\0",
    )
    accepted(
        "files-by-first-mention",
        R + b"build a | b: r c | d || e |@ f\nbuild d: r g\nbuild f c: r h |@ a i\n",
        ["made 0 a", "made 0 b", "made 2 c", "made 1 d", "source e", "made 2 f", "source g", "source h", "source i"],
        [edge(21, "1 1", "0 1", "2 3", "c", "4", "5"), edge(52, "1 1", "3", "6", "c"), edge(65, "2 1", "5 2", "7", "c", "", "0 8")],
        b"c\0c\0d\0\0a\0b\0" b"c\0g\0\0d\0" b"c\0h\0\0f\0c\0",
    )


def order_cases():
    """Two faults in one manifest: which one is told."""
    refused("order-6-before-3-of-the-next-line", b"build a: nope b\n=\n", 6, 0)
    refused("order-3-of-the-block-before-6", b"build a: nope b\n  =\n", 3, 18)
    refused("order-3-of-a-comment-in-the-block-before-6", b"build a: nope\n#", 3, 15)
    refused("order-3-of-spaces-in-the-block-before-6", b"build a: nope\n  ", 3, 16)
    refused("order-6-before-an-unfinished-statement", b"build a: nope\nx", 6, 0)
    refused("order-6-before-3-behind-a-blank-line", b"build a: nope\n\n  x = 1\n", 6, 0)
    refused("order-4-of-the-block-before-7", R + b"rule r\n  command = $?\n", 4, 40)
    refused("order-5-of-the-block-before-7", R + b"rule r\n  commands = c\n", 5, 30)
    refused("order-7-before-10", R + b"rule r\n", 7, 21)
    refused("order-7-before-10-of-pools", b"pool p\n  depth = 1\npool p\n  depth = 0\n", 7, 19)
    refused("order-10-before-a-later-7", R + b"rule s\n" + R, 10, 21)
    refused("order-6-before-9", b"build $e: nope\n", 6, 0)
    refused("order-9-of-a-path-before-8", R + b"build $e a a: r\n", 9, 21)
    refused("order-8-before-9-of-a-path", R + b"build a a $e: r\n", 8, 21)
    refused("order-8-of-outputs-before-9-of-inputs", R + b"build a a: r $e\n", 8, 21)
    refused("order-9-of-the-block-before-8", R + b"build a a: r\n" + b"".join(b"  v%02d = 1\n" % n for n in range(17)), 9, 21)
    refused("order-8-of-the-ninth-output-before-9", R + b"build a b c d e f g h a: r\n", 8, 21)
    refused("order-9-of-the-ninth-output-before-8", R + b"build a b c d e f g h i a: r\n", 9, 21)
    refused("order-8-before-12", R + b"build a: r a\nbuild a: r\n", 8, 34)
    refused("order-3-before-12", R + b"build a: r a\n ?\n", 3, 35)
    refused("order-12-before-6-of-a-pool", R + b"  pool = p\nbuild b: r\nbuild a: r a\n", 12, 43)
    long = b"v = " + b"x" * 600 + b"\n"
    refused("order-12-before-9-of-a-command", long + b"rule r\n  command = $v$v\nbuild b: r\nbuild a: r a\n", 12, 605 + 24 + 11)
    refused("order-9-before-6-within-an-edge", long + b"rule r\n  command = c\n  restat = $v$v\n  pool = p\nbuild a: r\n", 9, 605 + 21 + 16 + 11)
    refused("order-6-before-9-of-the-next-edge", long + R + b"  pool = $p\n  restat = $w$w\nbuild a: r\n  p = p\nbuild b: r\n  w = $v\n", 6, 605 + 21 + 12 + 16)
    refused("order-9-of-a-block-value-before-6-of-a-pool", long + R + b"  pool = $p\nbuild a: r\n  command = $v$v\nbuild b: r\n  p = p\n", 9, 605 + 21 + 12)
    question = b"v = " + b"x" * 1021 + b"\n"
    refused("order-6-of-the-last-edge-before-9-of-the-first-question", question + R + b"build a: r\n  command = $v\nbuild b: r\n  pool = p\n", 6, 1026 + 21 + 11 + 15)
    refused("order-9-of-the-first-question", question + R + b"build a: r\n  command = $v\nbuild b: r\n", 9, 1026 + 21)


def depth_cases():
    """Depths of pools."""
    for depth in [b"1", b"9", b"10", b"59", b"64"]:
        accepted("depth-" + depth.decode(), b"pool p\n  depth = " + depth + b"\n", pools=["depth %s p" % depth.decode()])
    for name, depth in [("0", b"0"), ("65", b"65"), ("70", b"70"), ("100", b"100"), ("007", b"007"), ("04", b"04"), ("empty", b""), ("signed", b"+4"), ("letter", b"4a"), ("space-behind", b"4 "), ("huge", b"18446744073709551617")]:
        refused("depth-" + name, b"v = 1\npool p\n  depth = " + depth + b"\n", 10, 6)
    refused("depth-none", b"pool p\n", 10, 0)
    accepted("depth-expanded", b"a = 6\nb = 4\npool p\n  depth = $a$b\n", store=b"64", pools=["depth 64 p"])
    accepted("depth-last-counts", b"pool p\n  depth = 0\n  depth = 7\n", pools=["depth 7 p"])
    refused("depth-last-counts-unlawful", b"pool p\n  depth = 7\n  depth = 0\n", 10, 0)
    refused("depth-of-file-values-so-far", b"pool p\n  depth = $a\na = 4\n", 10, 0)
    refused("depth-1024-bytes", b"pool p\n  depth = " + b"1" * 1024 + b"\n", 10, 0)
    refused("depth-1025-bytes", b"pool p\n  depth = " + b"1" * 1025 + b"\n", 9, 0)
    refused("depth-1025-bytes-then-lawful", b"pool p\n  depth = " + b"1" * 1025 + b"\n  depth = 1\n", 9, 0)


def numbered(line, count):
    return b"".join(line % number for number in range(count))


def count_cases():
    """Limits of how many there may be."""
    rules = numbered(b"rule r%02d\n  command = c\n", 64)  # 23 bytes each
    fits("rules-64", rules, 0, 0, 0)
    refused("rules-65", rules + R, 9, 64 * 23)
    refused("rules-65-without-command", rules + b"rule s\n", 9, 64 * 23)
    refused("rules-65-declared-before", rules + b"rule r00\n", 7, 64 * 23)
    pools = numbered(b"pool p%02d\n  depth = 1\n", 16)  # 21 bytes each
    fits("pools-16", pools, 0, 0, 0)
    refused("pools-17", pools + b"pool q\n  depth = 1\n", 9, 16 * 21)
    refused("pools-17-without-depth", pools + b"pool q\n", 9, 16 * 21)
    refused("pools-17-declared-before", pools + b"pool p15\n  depth = 1\n", 7, 16 * 21)
    variables = numbered(b"v%03d = x\n", 128)  # 9 bytes each
    fits("variables-128", variables, 0, 0, 0)
    fits("variables-128-set-again", variables + b"v127 = y\nv000 = z\n", 0, 0, 0)
    refused("variables-129", variables + b"w = x\n", 9, 128 * 9)
    edges = numbered(b"build o%03d: r\n", 128)  # 14 bytes each
    fits("edges-128", R + edges, 128, 128, 128 * 8)
    refused("edges-129", R + edges + b"build p: r\n", 9, 21 + 128 * 14)
    refused("edges-129-of-an-unknown-rule", R + edges + b"build p: s\n", 6, 21 + 128 * 14)
    refused("edges-129-with-an-output-made-twice", R + edges + b"build o000: r\n", 9, 21 + 128 * 14)
    block = R + b"build a: r\n" + numbered(b"  v%02d = x\n", 16)
    fits("block-variables-16", block, 1, 1, 5)
    fits("block-variables-16-set-again", block + b"  v00 = y\n", 1, 1, 5)
    refused("block-variables-17", block + b"  w = y\n", 9, 21)
    fits("outputs-8", R + b"build a b c d e f g h: r\n", 8, 1, 3 + 16)
    fits("outputs-8-some-implicit", R + b"build a b c | d e f g h: r\n", 8, 1, 3 + 16)
    refused("outputs-9", R + b"build a b c d e f g h i: r\n", 9, 21)
    refused("outputs-9-some-implicit", R + b"build a | b c d e f g h i: r\n", 9, 21)
    fits("reads-64", R + b"build a: r" + b" b" * 64 + b"\n", 2, 1, 3 + 2 + 128)
    fits("reads-64-some-implicit", R + b"build a: r" + b" b" * 60 + b" | b b b b\n", 2, 1, 3 + 2 + 128)
    refused("reads-65", R + b"build a: r" + b" b" * 65 + b"\n", 9, 21)
    refused("reads-65-some-implicit", R + b"build a: r b |" + b" b" * 64 + b"\n", 9, 21)
    fits("order-only-64", R + b"build a: r ||" + b" b" * 64 + b"\n", 2, 1, 5)
    refused("order-only-65", R + b"build a: r ||" + b" b" * 65 + b"\n", 9, 21)
    fits("validations-16", R + b"build a: r |@" + b" a" * 16 + b"\n", 1, 1, 5)
    refused("validations-17", R + b"build a: r |@" + b" a" * 17 + b"\n", 9, 21)
    full = R + b"build a b c d e f g h: r" + b" i" * 60 + b" | j j j j ||" + b" k" * 64 + b" |@" + b" l" * 16 + b"\n"
    fits("lists-all-full", full, 12, 1, 2 + 128 + 1 + 16)
    files = R + b"".join(b"build o%d: r ||%s\n" % (e, numbered(b" %d-%%02d" % e, 63)) for e in range(4))
    fits("files-256", files, 256, 4, 4 * 6)
    fits("files-256-named-again", files + b"build 0-00: r || 3-62 |@ o0\n", 256, 5, 4 * 6 + 8)
    refused("files-257-an-output", files + b"build x: r\n", 9, 21 + 4 * (14 + 63 * 5 + 1))
    refused("files-257-a-validation", files + b"build 0-00: r |@ x\n", 9, 21 + 4 * (14 + 63 * 5 + 1))
    refused("files-257-after-an-output-made-twice", files + b"build o0 x: r\n", 8, 21 + 4 * (14 + 63 * 5 + 1))


def size_cases():
    """Limits of how long there may be."""
    fits("path-128", R + b"build " + b"p" * 128 + b": r\n", 1, 1, 3 + 129)
    refused("path-129", R + b"build " + b"p" * 129 + b": r\n", 9, 21)
    refused("path-129-an-order-only-input", R + b"build a: r || " + b"p" * 129 + b"\n", 9, 21)
    half = b"h = " + b"p" * 64 + b"\n"  # 69 bytes
    fits("path-128-expanded", half + R + b"build a: r $h${h}\n", 2, 1, 128 + 2 + 129 + 1 + 2)
    refused("path-129-expanded", half + R + b"build a: r $h${h}q\n", 9, 69 + 21)
    fits("path-1-escaped", R + b"build $$: r\n", 1, 1, 1 + 5)
    refused("path-empty", R + b"build a: r $e\n", 9, 21)
    refused("path-empty-of-a-continuation", R + b"build a: r ${e}$\n\n", 9, 21)
    refused("path-empty-a-validation", R + b"build a: r |@ $e\n", 9, 21)
    text = b"x" * 512
    fits("value-1024", b"v = " + text * 2 + b"\n", 0, 0, 0)
    refused("value-1025", b"\nv = " + text * 2 + b"x\n", 9, 1)
    fits("value-1024-behind-a-gap", b"v =   $\n   " + text * 2 + b"\n", 0, 0, 0)
    half = b"v = " + text + b"\n"  # 517 bytes
    fits("value-1024-expanded", half + b"w = $v$v\n", 0, 0, 1024)
    refused("value-1025-expanded", half + b"w = ${v}x$v\n", 9, 517)
    fits("block-value-1024-expanded", half + R + b"build a: r\n  w = $v$v\n", 1, 1, 1024 + 5)
    refused("block-value-1025-expanded", half + R + b"build a: r\n  w = $v$v$$\n", 9, 517 + 21)
    fits("block-value-1024-twice", half + R + b"build a: r\n  w = $v$v\n  w =\n", 1, 1, 1024 + 5)
    fits("description-1024", half + R + b"  description = $v$v\nbuild a: r\n", 1, 1, 5)
    refused("description-1025", half + R + b"  description = $v$v.\nbuild a: r\n", 9, 517 + 21 + 22)
    fits("description-1025-instead-of-which-the-blocks-stands", half + R + b"  description = $v$v.\nbuild a: r\n  description =\n", 1, 1, 5)
    fits("description-1025-of-an-unused-rule", half + R + b"  description = $v$v.\n", 0, 0, 0)
    refused("restat-1025", half + R + b"  restat = $v$v.\nbuild a: r\n", 9, 517 + 21 + 17)
    # A question has 4 bytes more than its command where the edge reads nothing and has one output of one byte.
    fits("question-1024", R + b"build a: r\n  command = " + b"x" * 1020 + b"\n", 1, 1, 1024)
    refused("question-1025", R + b"build a: r\n  command = " + b"x" * 1021 + b"\n", 9, 21)
    # 7 reads of 128 bytes take 903 bytes of a question, the output and the zeros between 4: a command of 117 bytes fills it.
    reads = b"".join(b" " + b"%d" % n + b"p" * 127 for n in range(7))
    fits("question-1024-of-reads", b"rule r\n  command = " + b"c" * 117 + b"\nbuild a: r" + reads + b"\n", 8, 1, 1024)
    refused("question-1025-of-reads", b"rule r\n  command = " + b"c" * 118 + b"\nbuild a: r" + reads + b"\n", 9, 7 + 12 + 118 + 1)
    whole = b"v = " + text * 2 + b"\n"  # 1029 bytes
    full = whole + b"w = $v\n" * 32
    fits("store-32768", full, 0, 0, 32768)
    fits("store-32768-and-nothing-more", full + b"w = $e\n", 0, 0, 32768)
    fits("store-32768-and-unstored-values", full + b"w = x\n" + R, 0, 0, 32768)
    refused("store-32769-a-value", full + b"w = $$\n", 9, 1029 + 32 * 7)
    refused("store-32769-a-depth", full + b"pool p\n  depth = 4$u\n", 9, 1029 + 32 * 7)
    refused("store-32769-a-block-value", full + R + b"build a a: r\n  w = $$\n", 9, 1029 + 32 * 7 + 21)
    refused("store-32769-a-path", full + R + b"build a: r b$\n\n", 9, 1029 + 32 * 7 + 21)
    refused("store-32769-an-output-made-twice", full + R + b"build a a$\n: r\n", 9, 1029 + 32 * 7 + 21)
    refused("store-32769-a-question", full + R + b"build a: r\n", 9, 1029 + 32 * 7 + 21)
    nearly = whole + b"w = $v\n" * 31
    fits("store-32768-a-question", nearly + R + b"build a: r\n  command = " + b"x" * 1020 + b"\n", 1, 1, 32768)
    refused("store-32769-the-second-question", nearly + R + b"build b: r\nbuild a: r\n  command = " + b"x" * 1016 + b"\n", 9, 1029 + 31 * 7 + 21 + 11)
    fits("store-32768-the-second-question", nearly + R + b"build b: r\nbuild a: r\n  command = " + b"x" * 1015 + b"\n", 2, 2, 32768)


def main():
    for group in [text_cases, expansion_cases, graph_cases, order_cases, depth_cases, count_cases, size_cases]:
        group()
    os.makedirs(FOLDER, exist_ok=True)
    for name in os.listdir(FOLDER):
        os.remove(os.path.join(FOLDER, name))
    for name, (manifest, out) in CASES.items():
        for ending, data in [(".ninja", manifest), (".out", out)]:
            with open(os.path.join(FOLDER, name + ending), "wb") as file:
                file.write(data)
    print("%d cases, %d of them refused" % (len(CASES), sum(out.startswith(b"refused") for _, out in CASES.values())))


if __name__ == "__main__":
    sys.exit(main())
