#!/usr/bin/env python3
"""Counts the places of docs/DESIGN-PASS.md in crates/: forms that today's Rattle says better.

Usage: places.py [-v] [--at FOLDER] [POINT..]    a line for each point; -v lists each place. FOLDER is a checkout, this one if left out.
"""
import argparse
import re
import signal
import sys
from pathlib import Path

COLUMNS = {"nets", "delivered", "lifts", "charges", "issues", "froms", "tos", "lots", "days"}
NONE = r"(?:Refused|Nothing|Other|Wrong|Done|None|Missing|Unknown)\b"
FLAGS = r"(?:pub )?(?:refusal: u32|reason: u32|(?:over|done|failed|good|written|found|some): bool)"
REFUSALS = r"first_no|refus|_asks|sealed|number|Turn|turned|Given|Answer|reason|unread"


class Function:
    """A function of a file: where it begins, its head (to the contract), its contract and its body."""

    def __init__(self, file, line, text):
        self.file, self.line = file, line
        head = re.split(r"\n\s*(?:requires|ensures)\b|\{", text, maxsplit=1)[0]
        self.name = re.search(r"fn (\w+)", head).group(1)
        self.head = head
        rest = text[len(head):]
        # a contract's clauses stand a step in; the body opens at the margin, or at the function's own step
        step = re.match(r" *", text).group(0)
        at = re.search(rf"(?:^|\n){step}\{{", rest)
        self.contract = rest[: at.start()] if at else ""
        self.body = rest[at.start():] if at else rest
        self.answer = (re.search(r"->\s*([^{]+)$", " ".join(head.split())) or [None, ""])[1].strip()
        inside = head[head.index("(") + 1:]
        self.parameters = re.findall(r"(\w+): ((?:&(?:'a )?(?:mut )?)?[\w\[\]<>'; ]+)", inside)


def functions(file, text):
    """The functions of a file. Each ends with the brace that stands as far in as its first line."""
    found = []
    for m in re.finditer(r"^( *)(?:pub )?(?:extern \"C\" )?fn \w+", text, re.M):
        end = re.search(rf"\n{m.group(1)}\}}", text[m.start():])
        body = text[m.start(): m.start() + end.end()] if end else text[m.start():].split("\n\n")[0]
        found.append(Function(file, text.count("\n", 0, m.start()) + 1, body))
    return found


def shape(body):
    """A body with each name but the language's as one word, and each number as another."""
    kept = {"if", "else", "while", "for", "in", "let", "mut", "return", "match", "as", "true", "false", "u32", "usize"}
    words = re.findall(r"[A-Za-z_]\w*|\d[\d_]*|[^\s\w]", re.sub(r"//.*", "", body))
    return tuple(w if w in kept or not re.match(r"\w", w) else ("0" if w[0].isdigit() else "x") for w in words)


class Places:
    def __init__(self, top):
        self.top = top
        self.sources = {f: f.read_text() for f in sorted(top.glob("crates/*/src/**/*.rt"))}
        self.code = {f: re.sub(r"//[^\n]*", "", t) for f, t in self.sources.items()}
        self.functions = [fn for f, t in self.code.items() for fn in functions(f, t)]

    def at(self, file, line, what):
        return f"{file.relative_to(self.top)}:{line}: {' '.join(what.split())}"

    def lines(self, pattern, outside_c=True):
        for f, t in self.code.items():
            if outside_c and re.search(r"crates/\w+_c/", str(f)):
                continue
            for k, line in enumerate(t.splitlines(), 1):
                if re.search(pattern, line):
                    yield self.at(f, k, line)

    def variants(self):
        """1: a variant of an enum that is 'none' or 'refused'"""
        for f, t in self.code.items():
            for m in re.finditer(r"enum (\w+)[^{]*\{(.*?)\n\}", t, re.S):
                for v in re.finditer(rf"^ +{NONE}.*", m.group(2), re.M):
                    yield self.at(f, t.count("\n", 0, m.start(2) + v.start()) + 1, f"{m.group(1)}: {v.group(0)}")

    def flags(self):
        """1: a field that says whether the fields beside it hold"""
        return self.lines(rf"^\s+{FLAGS},")

    def numbers(self):
        """1: a bare number that stands for a refusal or a kind, in what a function answers"""
        for fn in self.functions:
            if fn.file.parts[-3].endswith("_c") or fn.name == "number":
                continue
            if fn.answer not in ("u32", "Turn", "DayTurned", "Found", "Asked", "Seen", "Read", "Amount", "Written", "Told"):
                continue
            if not re.search(REFUSALS, fn.contract + fn.name + fn.answer):
                continue
            for m in re.finditer(r"(?:return |=> |else \{ |if [^{}\n]*\{ |^ {4,8}|refused\(|Refused\()(\d+)(?:[;,)\s}]|$)", fn.body, re.M):
                yield self.at(fn.file, fn.line + fn.head.count("\n") + fn.contract.count("\n") + fn.body.count("\n", 0, m.start()), f"{fn.name}: {m.group(0)}")

    def sentinels(self):
        """1: an answer of a place that is none by being the length"""
        for fn in self.functions:
            if fn.answer == "usize" and re.search(r"passed_by|none|first_among|absent", fn.contract):
                yield self.at(fn.file, fn.line, fn.name)

    def twins(self):
        """2: functions of one crate or two whose bodies differ only in names and numbers"""
        seen = {}
        for fn in self.functions:
            if fn.file.parts[-3].endswith("_c"):
                continue
            s = shape(fn.body)
            if len(s) >= 24:
                seen.setdefault(s, []).append(fn)
        for group in seen.values():
            for fn in group[1:]:
                yield self.at(fn.file, fn.line, f"{fn.name} as {group[0].name}")

    def loops(self):
        """3: a loop that is no `for`"""
        return self.lines(r"^\s*while (?!let)")

    def conversions(self):
        """4: min, max, a difference, a wider number, an enum's number or a copy written by hand"""
        names = r"^(?:smaller|larger|least|less|greater|fewer|wide|signed_\w+|number_of|phase_of|phase_word|reason_of|early|is_same|same|equal|copied|copy)$"
        for fn in self.functions:
            if re.search(names, fn.name):
                yield self.at(fn.file, fn.line, fn.name)

    def columns(self):
        """5: a function with four columns of a book or more among its parameters"""
        for fn in self.functions:
            if len({n for n, t in fn.parameters if n in COLUMNS and "[" in t}) >= 4:
                yield self.at(fn.file, fn.line, fn.name)

    def buffers(self):
        """6: a slice with the number of its places in use beside it"""
        for fn in self.functions:
            if re.search(r"\w+: &(?:'a )?(?:mut )?\[[^\]]*\],\s*(?:n|len|count|entries|used|number): usize", fn.head) or re.search(
                r"entries: usize,\s*(?:at: usize,\s*)?\w+: &", fn.head
            ):
                yield self.at(fn.file, fn.line, fn.name)

    def switches(self):
        """7: a parameter that says which of two steps to run"""
        for fn in self.functions:
            for n, t in fn.parameters:
                if t.strip() == "bool":
                    yield self.at(fn.file, fn.line, f"{fn.name}: {n}")

    def walks(self):
        """8: an answer of a proof that walks back along the code by hand, step by step"""
        for f in sorted(self.top.glob("crates/*/proofs/**/*.antt")):
            for k, line in enumerate(f.read_text().splitlines(), 1):
                if re.search(r"(?:\.before){4}", line):
                    yield self.at(f, k, line.strip()[:100])


POINTS = ["variants", "flags", "numbers", "sentinels", "twins", "loops", "conversions", "columns", "buffers", "switches", "walks"]


def main():
    signal.signal(signal.SIGPIPE, signal.SIG_DFL)
    parser = argparse.ArgumentParser(description=__doc__.splitlines()[0])
    parser.add_argument("-v", action="store_true", help="list each place")
    parser.add_argument("--at", default=Path(__file__).resolve().parent.parent, type=Path, metavar="FOLDER", help="a checkout")
    parser.add_argument("points", nargs="*", choices=POINTS + [[]], metavar="POINT", help=", ".join(POINTS))
    args = parser.parse_args()
    if not (args.at / "crates").is_dir():
        sys.exit(f"places.py: {args.at} has no folder crates")
    places = Places(args.at.resolve())
    for point in args.points or POINTS:
        which = getattr(places, point)
        found = list(which())
        print(f"{len(found):5}  {point:12} {which.__doc__}")
        if args.v:
            print("".join(f"         {p}\n" for p in found), end="")


main()
