#!/usr/bin/env python3
"""Reads a report of qdouble into one object, and prints S and T in the form that another program reads.

    qdouble data 5 < document | qdouble_report.py FORM [--check] [FILE]

FORM is one of

    json     everything that the report has, values as lists of whole numbers and as pairs of real and imaginary part
    csv      a line for each entry of S (i, j, real, imaginary, exact text), then of T
    latex    S and T as two LaTeX arrays, roots of unity in lowest terms
    numpy    Python source that makes S and T as arrays of NumPy
    sage     Sage source that makes S and T exactly, over a cyclotomic field
    svg      a picture of S: a disc for each entry, its size the magnitude and its colour the phase
    none     nothing, as a test that the report is one

The report is read from FILE, or from standard input. --check looks in floating point whether S is symmetric and unitary, whether T and S
satisfy (S T)^3 = S S, and, where the report has fusion numbers, whether Verlinde's formula gives them; it says so on standard error. qdouble has
proved what it prints, so this is for those who like to see it.

As a module: `read_report(text)` gives a `Report`. Nothing is written where the text is no report; the status is then 1, and standard error says
what is wrong. Python 3.9 or later, and nothing but its standard library.
"""

from __future__ import annotations

import argparse
import cmath
import colorsys
import json
import math
import re
import sys
from dataclasses import asdict, dataclass, field
from typing import Iterator, Optional


class NoReport(Exception):
    """The text is no report of qdouble; the message says why."""


# ---------------------------------------------------------------------------- values

TERM = re.compile(r"([+-]?)([1-9][0-9]*)(?:z([1-9][0-9]*))?")


@dataclass(frozen=True)
class Value:
    """A whole polynomial in x = exp(2 pi i / K), K the conductor; `terms` has power and coefficient of each term, powers ascending."""

    conductor: int
    terms: tuple[tuple[int, int], ...]

    @staticmethod
    def read(text: str, conductor: int) -> "Value":
        if text == "0":
            return Value(conductor, ())
        terms, at = [], 0
        while at < len(text):
            term = TERM.match(text, at)
            if term is None or (at > 0 and not term[1]) or (at == 0 and term[1] == "+"):
                raise NoReport(f"'{text}' is no value")
            terms.append((int(term[3] or 0), int(term[1] + term[2])))
            at = term.end()
        return Value(conductor, tuple(terms))

    def coefficients(self) -> list[int]:
        """The coefficients by power, up to the last that isn't 0."""
        numbers = [0] * (1 + self.terms[-1][0] if self.terms else 1)
        for power, coefficient in self.terms:
            numbers[power] = coefficient
        return numbers

    def __complex__(self) -> complex:
        return sum((c * cmath.exp(2j * cmath.pi * p / self.conductor) for p, c in self.terms), 0j)

    def __str__(self) -> str:
        if not self.terms:
            return "0"
        text = "".join(f"{c:+d}" + (f"z{p}" if p else "") for p, c in self.terms)
        return text.removeprefix("+")

    def latex(self) -> str:
        parts = []
        for power, coefficient in self.terms:
            common = math.gcd(power, self.conductor)
            sign, root = root_of(power // common, self.conductor // common)
            coefficient *= sign
            size = abs(coefficient)
            shown = (str(size) if size != 1 or not root else "") + root
            parts.append(("-" if coefficient < 0 else "+") + shown)
        return "".join(parts).removeprefix("+") or "0"


def root_of(number: int, order: int) -> tuple[int, str]:
    """A sign and the LaTeX text of exp(2 pi i number / order), where the two have no common factor; no text for 1."""
    if order == 1:
        return 1, ""
    if order % 4 == 2:
        # minus a root of half the order
        half = order // 2
        return (-1, "") if half == 1 else (-1, root_text((number + half) // 2 % half, half))
    if order == 4:
        return (1, "i") if number == 1 else (-1, "i")
    return 1, root_text(number, order)


def root_text(number: int, order: int) -> str:
    return rf"\zeta_{{{order}}}" + (f"^{{{number}}}" if number != 1 else "")


# ---------------------------------------------------------------------------- reports

@dataclass
class ConjugacyClass:
    representative: int
    size: int
    centraliser: int
    rank: int


@dataclass
class Simple:
    conjugacy_class: int
    degree: int
    dimension: int
    twist: int
    values: list[Value] = field(default_factory=list)


@dataclass
class Report:
    """What a report has; what its command doesn't print is empty, or None."""

    order: int
    identity: int
    exponent: int
    roots: int
    classes: list[ConjugacyClass] = field(default_factory=list)
    ranks: Optional[int] = None
    conductor: Optional[int] = None
    modulus: Optional[tuple[int, int]] = None
    simples: list[Simple] = field(default_factory=list)
    s_numerators: list[list[Value]] = field(default_factory=list)
    fusion: dict[tuple[int, int, int], int] = field(default_factory=dict)
    indicator_order: Optional[int] = None
    indicator_numerators: list[Value] = field(default_factory=list)

    def s(self) -> list[list[complex]]:
        """S, whose numerators the report has over the order of the group."""
        return [[complex(value) / self.order for value in row] for row in self.s_numerators]

    def t(self) -> list[complex]:
        """The diagonal of T."""
        if self.conductor is None:
            raise NoReport("the report has no twists")
        return [cmath.exp(2j * cmath.pi * simple.twist / self.conductor) for simple in self.simples]

    def indicators(self) -> list[complex]:
        return [complex(value) / self.order**2 for value in self.indicator_numerators]


class Lines:
    """The lines of a report, taken one after the other."""

    def __init__(self, text: str):
        if text and not text.endswith("\n"):
            raise NoReport("the report is cut short in its last line")
        self.lines = [line.split(" ") for line in text.splitlines()]
        self.at = 0

    def begins(self, word: str) -> bool:
        return self.at < len(self.lines) and self.lines[self.at][0] == word

    def take(self, *words: str) -> list[str]:
        """The line that is next, which has these words; `*` stands for one of any text, `**` at the end for any number."""
        if self.at == len(self.lines):
            raise NoReport(f"the report is cut short after {self.at} lines")
        line = self.lines[self.at]
        fixed = words[:-1] if words[-1] == "**" else words
        fits = len(line) >= len(fixed) if words[-1] == "**" else len(line) == len(fixed)
        if not fits or any(word not in ("*", found) for word, found in zip(fixed, line)):
            raise NoReport(f"line {self.at + 1} should read '{' '.join(words)}', and is '{' '.join(line)}'")
        self.at += 1
        return line

    def numbers(self, *words: str) -> list[int]:
        line = self.take(*words)
        try:
            return [int(found) for word, found in zip(words, line) if word == "*"]
        except ValueError:
            raise NoReport(f"line {self.at} has a word in the place of a number") from None


def read_report(text: str) -> Report:
    """The report that this text is. Raises NoReport with what is wrong where it is none."""
    lines = Lines(text)
    if lines.begins("refused"):
        raise NoReport(f"qdouble refused: {' '.join(lines.lines[0])}")
    if lines.begins("qdouble"):
        raise NoReport("this is a document, as a command that prints documents writes, and no report")
    order, identity, exponent = lines.numbers("group", "order", "*", "identity", "*", "exponent", "*")
    (roots,) = lines.numbers("cocycle", "roots", "*")
    report = Report(order, identity, exponent, roots)
    if lines.begins("class"):
        read_classes(lines, report)
    if lines.begins("conductor"):
        (report.conductor,) = lines.numbers("conductor", "*")
    if lines.begins("modulus"):
        report.modulus = tuple(lines.numbers("modulus", "*", "root", "*"))
    if lines.begins("simple"):
        read_simples(lines, report)
    if lines.begins("S"):
        read_s(lines, report)
    while lines.begins("N"):
        i, j, k, count = lines.numbers("N", "*", "*", "*", "*")
        report.fusion[i, j, k] = count
    if lines.begins("indicators"):
        read_indicators(lines, report)
    lines.take("end")
    if lines.at < len(lines.lines):
        raise NoReport(f"line {lines.at + 1} stands after the end")
    return report


def read_classes(lines: Lines, report: Report) -> None:
    while lines.begins("class"):
        row = lines.numbers("class", str(len(report.classes)), "at", "*", "size", "*", "centraliser", "*", "rank", "*")
        report.classes.append(ConjugacyClass(*row))
    (report.ranks,) = lines.numbers("simples", "*")


def values_of(words: list[str], report: Report) -> list[Value]:
    if report.conductor is None:
        raise NoReport("there are values before the line with the conductor")
    return [Value.read(word, report.conductor) for word in words]


def read_simples(lines: Lines, report: Report) -> None:
    while lines.begins("simple"):
        number = str(len(report.simples))
        row = lines.numbers("simple", number, "class", "*", "degree", "*", "dimension", "*", "twist", "*")
        report.simples.append(Simple(*row, values_of(lines.take("chi", number, "**")[2:], report)))


def read_s(lines: Lines, report: Report) -> None:
    lines.take("S", "over", str(report.order))
    for i in range(len(report.simples)):
        row = values_of(lines.take("S", str(i), "**")[2:], report)
        if len(row) != len(report.simples):
            raise NoReport(f"row {i} of S has {len(row)} entries for {len(report.simples)} simples")
        report.s_numerators.append(row)


def read_indicators(lines: Lines, report: Report) -> None:
    (report.indicator_order,) = lines.numbers("indicators", "*", "over", str(report.order**2))
    for k in range(len(report.simples)):
        report.indicator_numerators += values_of(lines.take("nu", str(k), "*")[2:], report)


# ---------------------------------------------------------------------------- forms

def exact(value: Value) -> dict:
    number = complex(value)
    return {"exact": value.coefficients(), "real": number.real, "imaginary": number.imag}


def as_json(report: Report) -> str:
    whole = asdict(report)
    whole["simples"] = [{**asdict(simple), "values": [exact(value) for value in simple.values]} for simple in report.simples]
    whole["s_numerators"] = [[exact(value) for value in row] for row in report.s_numerators]
    whole["fusion"] = [[*triple, count] for triple, count in report.fusion.items()]
    whole["indicator_numerators"] = [exact(value) for value in report.indicator_numerators]
    return json.dumps(whole, indent=1) + "\n"


def as_csv(report: Report) -> str:
    lines = ["matrix,i,j,real,imaginary,exact"]
    for i, row in enumerate(report.s_numerators):
        for j, value in enumerate(row):
            number = complex(value) / report.order
            lines.append(f"S,{i},{j},{number.real!r},{number.imag!r},({value})/{report.order}")
    for i, (number, simple) in enumerate(zip(report.t(), report.simples)):
        lines.append(f"T,{i},{i},{number.real!r},{number.imag!r},{Value(report.conductor, ((simple.twist, 1),))}")
    return "\n".join(lines) + "\n"


def as_latex(report: Report) -> str:
    width = len(report.simples)
    rows = [" & ".join(value.latex() for value in row) for row in report.s_numerators]
    twists = [Value(report.conductor, ((simple.twist, 1),)).latex() for simple in report.simples]
    return "\n".join([
        rf"% S and T of a twisted quantum double; \zeta_m = \exp(2 \pi i / m)",
        rf"S = \frac{{1}}{{{report.order}}} \left(\begin{{array}}{{{'r' * width}}}",
        " \\\\\n".join(rows),
        r"\end{array}\right)",
        rf"\qquad T = \mathrm{{diag}}({', '.join(twists)})",
    ]) + "\n"


def as_numpy(report: Report) -> str:
    rows = [[[p, c] for p, c in value.terms] for row in report.s_numerators for value in row]
    return "\n".join([
        "import numpy",
        f"x = numpy.exp(2j * numpy.pi / {report.conductor})",
        f"terms = {rows}",
        f"S = numpy.array([sum(c * x**p for p, c in value) for value in terms], complex).reshape({len(report.simples)}, -1) / {report.order}",
        f"T = numpy.diag(x ** numpy.array({[simple.twist for simple in report.simples]}))",
    ]) + "\n"


def as_sage(report: Report) -> str:
    rows = ",\n  ".join("[" + ", ".join(sage_text(value) for value in row) + "]" for row in report.s_numerators)
    return "\n".join([
        f"K.<x> = CyclotomicField({report.conductor})",
        f"S = matrix(K, [\n  {rows}]) / {report.order}",
        f"T = diagonal_matrix(K, [x^t for t in {[simple.twist for simple in report.simples]}])",
    ]) + "\n"


def sage_text(value: Value) -> str:
    return " + ".join(f"({c})*x^{p}" for p, c in value.terms) or "0"


CELL = 24


def as_svg(report: Report) -> str:
    entries = report.s()
    greatest = max((abs(value) for row in entries for value in row), default=0) or 1
    side = CELL * len(entries)
    lines = [f'<svg xmlns="http://www.w3.org/2000/svg" width="{side}" height="{side}" viewBox="0 0 {side} {side}">',
             f'<rect width="{side}" height="{side}" fill="white"/>']
    for i, row in enumerate(entries):
        for j, value in enumerate(row):
            # the area is that of the magnitude
            radius = CELL * 0.46 * math.sqrt(abs(value) / greatest)
            if radius > 0.05:
                red, green, blue = colorsys.hls_to_rgb(cmath.phase(value) / (2 * math.pi) % 1, 0.5, 0.75)
                colour = f"#{round(red * 255):02x}{round(green * 255):02x}{round(blue * 255):02x}"
                lines.append(f'<circle cx="{CELL * (j + 0.5):g}" cy="{CELL * (i + 0.5):g}" r="{radius:.2f}" fill="{colour}">'
                             f"<title>S {i} {j}: ({report.s_numerators[i][j]})/{report.order}</title></circle>")
    return "\n".join([*lines, "</svg>"]) + "\n"


FORMS = {"json": as_json, "csv": as_csv, "latex": as_latex, "numpy": as_numpy, "sage": as_sage, "svg": as_svg, "none": lambda report: ""}

# those that need S and T
OF_MATRICES = ("csv", "latex", "numpy", "sage", "svg")


# ---------------------------------------------------------------------------- checks in floating point

def product(left: list[list[complex]], right: list[list[complex]]) -> list[list[complex]]:
    columns = list(zip(*right))
    return [[sum(a * b for a, b in zip(row, column)) for column in columns] for row in left]


def distance(left: list[list[complex]], right: list[list[complex]]) -> float:
    return max((abs(a - b) for rows in zip(left, right) for a, b in zip(*rows)), default=0.0)


def checks(report: Report) -> Iterator[tuple[str, float]]:
    """What is looked at, and by how much it fails."""
    s, t = report.s(), report.t()
    size = range(len(s))
    yield "S is symmetric", distance(s, [list(column) for column in zip(*s)])
    one = [[complex(i == j) for j in size] for i in size]
    conjugate = [[value.conjugate() for value in row] for row in s]
    yield "S is unitary", distance(product(s, [list(column) for column in zip(*conjugate)]), one)
    st = [[value * t[j] for j, value in enumerate(row)] for row in s]
    yield "(S T)^3 is S S", distance(product(product(st, st), st), product(s, s))
    if report.fusion:
        yield "Verlinde's formula gives the fusion numbers", max(
            (abs(sum(s[i][l] * s[j][l] * conjugate[k][l] / s[0][l] for l in size) - report.fusion.get((i, j, k), 0))
             for i in size for j in size for k in size), default=0.0)


CLOSE = 1e-9


def main() -> int:
    parser = argparse.ArgumentParser(description=__doc__.splitlines()[0])
    parser.add_argument("form", choices=FORMS)
    parser.add_argument("file", nargs="?", help="the report; standard input where it is not given")
    parser.add_argument("--check", action="store_true", help="look at the laws of S and T in floating point")
    given = parser.parse_intermixed_args()
    try:
        text = open(given.file, encoding="ascii").read() if given.file else sys.stdin.read()
        report = read_report(text)
        if (given.form in OF_MATRICES or given.check) and not report.s_numerators:
            raise NoReport("this report has no S; `data`, `fusion`, `indicators` and `verify` print it")
        shown = FORMS[given.form](report)
        failed = False
        if given.check:
            for what, gap in checks(report):
                failed |= gap > CLOSE
                print(f"{'holds' if gap <= CLOSE else 'FAILS'}, to {gap:.1e}: {what}", file=sys.stderr)
    except (NoReport, OSError, UnicodeDecodeError) as error:
        print(f"qdouble_report: {error}", file=sys.stderr)
        return 1
    sys.stdout.write(shown)
    return int(failed)


if __name__ == "__main__":
    sys.exit(main())
