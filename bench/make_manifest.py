#!/usr/bin/env python3
"""Prints a manifest to measure with: the price tables of ten depots and eight materials, 120 edges in about 58,000 bytes.

    make_manifest.py > build.ninja

Both this project and ninja 1.11.1 accept it. It is the same at every run.
"""
import sys

DEPOTS = ["bremen", "dresden", "erfurt", "hamburg", "kassel", "leipzig", "mainz", "potsdam", "rostock", "stuttgart"]
MATERIALS = ["aluminium", "brass", "copper", "lead", "nickel", "steel", "tin", "zinc"]

HEAD = """\
# Price tables of the depots. A table is made for each depot and material; they are merged, checked, compared and packed by depot
# or by material. The registers, rates and tariffs come from outside.

season = 2026-autumn
currency = EUR
rounding = 0.05
tools = tools/price
flags = --currency $currency --round $rounding
margin = 0.030
columns = grade weight price
valid_from = 2026-10-01
style = plain
audience = staff
level = 3
sheet = none

# Tables need much memory, archives the disk.
pool memory
  depth = 8

pool disk
  depth = 2

rule tabulate
  command = $tools/tabulate -m $margin -o $out
  description = table $out of $in, sheet $sheet, margin $margin, from $valid_from
  pool = memory
  restat = 1

rule merge
  command = $tools/merge $flags -o $out
  description = merge $in into $out
  pool = memory

rule check
  command = $tools/check --level $level $in
  description = check $in for $season
  restat = 1

rule compare
  command = $tools/compare $flags -o $out
  description = compare $columns of $in

rule pack
  command = $tools/pack -o $out
  description = pack $out for $audience
  pool = disk

rule report
  command = $tools/report --style $style -o $out
  description = report $out
"""


def table(depot, material):
    return "tables/%s/%s.table" % (depot, material)


def build(rule, outputs, explicit, implicit=(), order_only=(), validations=(), side=(), block=()):
    """A statement, with each list behind a mark on a line of its own."""
    said = "build %s" % " ".join(outputs)
    if side:
        said += " | %s" % " ".join(side)
    said += ": %s %s" % (rule, " ".join(explicit))
    for mark, files in [("|", implicit), ("||", order_only), ("|@", validations)]:
        if files:
            said += " $\n    %s %s" % (mark, " ".join(files))
    return said + "\n" + "".join("  %s = %s\n" % line for line in block)


def tables(depot, number):
    """The tables of a depot: from its own registers and from the rates and grades of the material."""
    yield "# Tables of %s. The tariff and the layout only have to be there before; each table has the merged one checked." % depot
    for place, material in enumerate(MATERIALS):
        order_only = ["layout/%s/%s.screen.layout" % (depot, "metal" if place % 2 else "alloy"), "tariffs/2026-autumn/%s.tariff.txt" % depot]
        implicit = ["rates/%s/grades.csv" % material, "depots/%s/scales.csv" % depot, "rates/exchange/days.csv"]
        if (place + number) % 3 == 0:
            order_only.append("layout/common/letterhead.layout")
        else:
            implicit.append("depots/%s/freight.csv" % depot)
        block = [("margin", "0.0%d" % (25 + 5 * ((place + number) % 8))), ("columns", "grade weight price per%stonne" % ("$ " if place == 0 else " "))]
        block.append(("description", "prices of %s at the depot of %s" % (material, depot)))
        if place % 2:
            block.append(("valid_from", "2026-1%d-15" % (number % 3)))
        block.append(("sheet", "%s-%s-%02d" % (depot, material, number + 1)))
        yield "# %s at %s, from the register and quotes" % (material, depot)
        yield build(
            "tabulate",
            [table(depot, material)],
            ["depots/%s/register.csv" % depot, "rates/%s/quotes.csv" % material],
            implicit,
            order_only,
            ["checks/%s/price.table.ok" % depot],
            block=block,
        )


def merged(depot):
    """The merged table of a depot, its index and its check."""
    yield build(
        "merge",
        ["merged/%s/price.tbl" % depot],
        [table(depot, material) for material in MATERIALS[:6]],
        ["depots/%s/scales.csv" % depot],
        ["layout/common/letterhead.layout"],
        ["checks/%s/price.table.ok" % depot],
        ["merged/%s/price.idx" % depot],
        [("style", "wide"), ("flags", "--by-weight")],
    )
    yield build(
        "check",
        ["checks/%s/price.table.ok" % depot],
        ["merged/%s/price.tbl" % depot],
        ["merged/%s/price.idx" % depot, "rates/exchange/days.csv", "depots/%s/scales.csv" % depot],
        ["tariffs/${season}/%s.tariff.txt" % depot, "layout/common/letterhead.layout"],
        block=[("level", "4"), ("description", "check the merged prices of %s" % depot)],
    )


def by_material(material, number):
    """What compares a material over the depots, and the archive of it."""
    some = [DEPOTS[(number + step) % len(DEPOTS)] for step in range(5)]
    yield build(
        "compare",
        ["compared/%s/depots.html" % material],
        [table(depot, material) for depot in some],
        ["rates/%s/grades.csv" % material],
        ["layout/common/letterhead.layout", "layout/common/comparison.layout"],
        block=[("columns", "grade price"), ("flags", "--wide"), ("description", "compare the prices of %s over five depots" % material)],
    )
    yield build(
        "pack",
        ["archive/%s/2026-autumn.pack" % material],
        ["compared/%s/depots.html" % material, "rates/%s/quotes.csv" % material],
        ["rates/%s/grades.csv" % material, "rates/exchange/days.csv"],
        ["layout/common/letterhead.layout", "layout/common/archive.labels.layout"],
        block=[("audience", "auditors of the trade in %s" % material)],
    )


def reports():
    """Reports over some of the merged tables."""
    for number, title in enumerate(["north", "south", "rivers", "railways"]):
        depots = [DEPOTS[(number * 3 + step) % len(DEPOTS)] for step in range(4)]
        yield build(
            "report",
            ["reports/%s/autumn.html" % title],
            ["merged/%s/price.tbl" % depot for depot in depots],
            ["rates/exchange/days.csv"],
            ["checks/%s/price.table.ok" % depots[0], "layout/common/letterhead.layout"],
            block=[("style", "letter"), ("description", "report of the depots in the %s" % title)],
        )


def main():
    parts = [HEAD]
    for number, depot in enumerate(DEPOTS):
        parts += tables(depot, number)
    parts.append("# The tables of each depot in one, with an index, and its check.")
    for depot in DEPOTS:
        parts += merged(depot)
    parts.append("# Each material over several depots.")
    for number, material in enumerate(MATERIALS):
        parts += by_material(material, number)
    parts += reports()
    sys.stdout.write("\n".join(parts))


if __name__ == "__main__":
    main()
