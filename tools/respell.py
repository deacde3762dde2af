#!/usr/bin/env python3
"""Brings the names of this repository to Rattle's spelling of today.

Words are in snake case (mostLots -> most_lots, handed-stock -> handed_stock), types and modules in upper
camel case, and a prime is an apostrophe. The kit's port.py respells the names of the kit, and those of ours
that happen to be spelled like one of them; this script respells all other definitions, lemmas, fields and
constructors that are declared in crates/*/specs and crates/*/proofs, wherever they are used:

  - in every .antt file (in comments: camel case anywhere, a name with a dash in backquotes only);
  - in .rt files in `ghost use` items and in contracts, never in code (in // comments in backquotes only);
  - in the lines old: and new: of must-fail edits;
  - in README.md, tests/README.md and docs/**/*.md in backquotes only. Edits and documents are not touched by
    port.py, so there an old name that port.py respelled (orderOf) is respelled too.

It leaves alone: operators; names that begin with an upper-case letter; the names that the checker asks for in
proofs/F/Proof.antt, which are those with a type tie.X or `statement M`; names that a file imports from outside
the repository, or from a module that the checker makes; names of files and modules.

Where a lemma would get its definition's name it gets `_lem` (LEMMAS below), and other collisions are in OTHER.
A collision that neither resolves is an error: then nothing is written.

    python3 tools/respell.py           at the top of the repository; run `rt fmt` in each crate afterwards
    python3 tools/respell.py --check   prints the names and the collisions, and what would change in documents
"""
import collections
import glob
import os
import re
import sys

# Lemmas whose new name is also that of a definition in a crate that they see or that sees them. The lemma is
# the one that was spelled with dashes, or, where the definition is still in camel case, with underscores.
LEMMAS = set("""
amount_in both_fell can_look cell_widths columns_in count_at cut_row dealt_runs entries_on entries_sound
entry_at fails_to few_steps first_lots fresh_in front_lots handed_on head_fits high_word in_settling is_cut
is_handed is_taking issue_fails issue_records joined_runs ledger_sound ledger_widths lengths_right lift_number
lifts_at lots_at lots_word low_word met_from nets_today no_net no_ticket none_of number_of once_in one_unit
order_in order_of overlaps_from paired_off phase_word quotes_right raised_count records_of refused_by run_rest
runs_at same_ask same_call same_simulation same_status same_unit same_words says_end says_failed signed_word
size_of small_part sound_at sum_at units_today was_made was_met with_full with_ledger with_right within_size
words_lent zero_at
""".split())

# Other collisions: one_more is the name of lemmas in five crates, oneMore (desks/specs/Desk: the end of a desk
# with one round more) is a definition.
OTHER = {"oneMore": "one_round_more"}

# Words of the kit within our names, by their names of today.
KIT_WORDS = {"getD": "getOr"}

# Documents of the tools' users: what is in camel case or has dashes there are fields of JSON and names of files.
OTHER_NAMES = {"docs/TAPE.md", "docs/JSON.md"}

RESERVED = set("""
data record deriving module where use mod pub package open as unfoldable abbrev axiom unfold unfolding ruleset
mutual infix infixl infixr elim let in do Type coe fcoe tcoe hcom com search grind simp rw omega cc assumption
ground hlevel result entry exit now old new
""".split())

# A token: a longest run of characters that are no space, bracket or separator.
TOKEN = re.compile(r'[^\s(){}\[\],.;"`]+')
# In documents and in .rt files more characters separate.
WORD = re.compile(r"[\w'′-]+")
NAME = re.compile(r"[a-z][\w'′-]*$")
SIGNATURE = re.compile(
    r'^(\s*)(?:(?:pub|abbrev|unfoldable) )*([^\s(){}\[\],.;":]+) ((?:\{[^}]*\} )*):(?: (.*))?$')
RECORD = re.compile(r"^(\s*)(?:pub )?record \S+.* where$")
ANSWER = re.compile(r"^(?:tie\.|(?:\{M : Type 1\} → )?statement M$)")
USE = re.compile(r"^(\s*(?:pub )?use )([^\s{}]+?)(\.\{.*)?( as \S+)?$")
FILE = re.compile(r"\.(?:txt|md|edit|antt|rt|rs|sh|js|json|h|c|out)\b")
COMMENT = re.compile(r"(^|(?<=\s))--(\s.*)?$")
CLAUSE = re.compile(r"ghost use[^;]*;|\b(?:(?:requires|ensures)(?:\s+\w+)?|ghost\s+\w+\s*:)\s*\{")


def snake(name):
    """The spelling of today: mostLots, most-lots -> most_lots; owesAt0 -> owes_at0."""

    def words(part):
        for old, new in KIT_WORDS.items():
            part = re.sub(old + r"(?![a-z])", new, part)
        part = re.sub(r"([a-z0-9])([A-Z])", r"\1_\2", part)
        part = re.sub(r"([A-Z])([A-Z][a-z])", r"\1_\2", part)
        return part.lower()

    return "_".join(words(part) for part in name.replace("′", "'").split("-"))


def is_old(name):
    return bool(NAME.match(name)) and snake(name) != name


def read(path):
    with open(path, encoding="utf-8", newline="") as f:
        return f.read()


def paths(pattern):
    return sorted(glob.glob(pattern, recursive=True))


def code_of(line):
    """A line of antt without its comment."""
    m = COMMENT.search(line)
    return line[: m.start()].rstrip() if m else line


def crate_of(path):
    return path.split("/")[1]


class Tree:
    def __init__(self):
        self.crates = {d for d in os.listdir("crates") if os.path.isdir("crates/" + d)}
        self.antt = {f: read(f) for f in paths("crates/**/*.antt")}
        self.rt = {f: read(f) for f in paths("crates/**/*.rt")}
        self.edits = {f: read(f) for f in paths("crates/**/must-fail/*.edit")}
        self.docs = {f: read(f) for f in ["README.md", "tests/README.md"] + paths("docs/**/*.md")
                     if os.path.exists(f) and f not in OTHER_NAMES}
        self.own = collections.defaultdict(set)  # a name, and the files that declare it
        self.fields = set()  # the names that are fields of records
        self.asked = collections.defaultdict(set)  # a file, and the names in it that the checker asks for
        self.foreign = collections.defaultdict(set)  # .., that are not of the repository
        self.aliases = collections.defaultdict(dict)  # .., and its names of modules: True where one is ours
        self.brought = collections.defaultdict(set)  # .., and the names that it imports
        for path in self.antt:
            self.collect(path)
        self.mapping()

    def is_own_module(self, module):
        parts = module.split(".")
        if parts[0] != "Rattle" or len(parts) < 3 or parts[1] not in self.crates:
            return False
        return "crates/" + "/".join(parts[1:]) + ".antt" in self.antt

    def collect(self, path):
        lines = [code_of(line) for line in self.antt[path].split("\n")]
        declares = re.match(r"crates/[^/]+/(specs|proofs)/", path)
        record = None
        for i, line in enumerate(lines):
            m = USE.match(line)
            if m:
                ours = self.is_own_module(m[2])
                if m[4]:
                    self.aliases[path][m[4][4:]] = ours
                if m[3]:
                    for item in m[3][2:].rstrip("}").split(","):
                        name = item.strip().split(" as ")[0]
                        self.brought[path].add(name)
                        if not ours:
                            self.foreign[path].add(name)
                continue
            m = RECORD.match(line)
            if m:
                record = len(m[1])
                continue
            if line.strip() and record is not None and len(line) - len(line.lstrip()) <= record:
                record = None
            m = SIGNATURE.match(line)
            if not m or not declares:
                continue
            name = m[2]
            type_ = m[4] if m[4] else (lines[i + 1].strip() if i + 1 < len(lines) else "")
            if ANSWER.match(type_):
                self.asked[path].add(name)
                continue
            self.own[name].add(path)
            if record is not None:
                self.fields.add(name)

    def mapping(self):
        self.new = {}  # an old name, and its new one
        self.moved = {}  # a lemma in today's spelling that makes room for its definition
        camel = {snake(n) for n in self.own if is_old(n) and "-" not in n}
        for name in sorted(self.own):
            if name in OTHER:
                self.new[name] = OTHER[name]
            elif is_old(name):
                s = snake(name)
                self.new[name] = s + "_lem" if s in LEMMAS and "-" in name else s
            elif name in LEMMAS and name in camel:
                self.moved[name] = name + "_lem"

    # the new name of a token in a file of antt or a contract; base is the name before its dot, or None
    def rename(self, path, token, base):
        new = self.new.get(token)
        if base is None:
            if new is None:
                moved = self.moved.get(token)
                return moved if moved and (path in self.own[token] or token in self.brought[path]) else None
            return None if token in self.asked[path] or token in self.foreign[path] else new
        if new is None:
            return None
        if base in self.aliases[path]:
            return new if self.aliases[path][base] else None
        # a step of a function, or a field
        return new if token in self.fields else snake(token)

    # the new name of an old one in an edit or a document
    def recall(self, token):
        if token in self.new:
            return self.new[token]
        if not is_old(token):
            return None
        s = snake(token)
        if "-" in token and s + "_lem" in self.lemmas:
            return s + "_lem"
        return s if s in self.own else None

    @property
    def lemmas(self):
        return set(self.moved.values()) | {n for n in self.own if n.endswith("_lem")}

    def sees(self):
        """Each crate, and those that it is built on."""
        near = collections.defaultdict(set)
        for files in (self.antt, self.rt):
            for path, text in files.items():
                c = crate_of(path)
                near[c].update(re.findall(r"\bRattle\.(\w+)\.", text))
                near[c].update(re.findall(r"\b(\w+)::\w", text))
        far = {}
        for c in self.crates:
            seen, todo = {c}, [c]
            while todo:
                for d in near[todo.pop()] & self.crates:
                    if d not in seen:
                        seen.add(d)
                        todo.append(d)
            far[c] = seen
        return far

    def collisions(self):
        """The collisions that are left, and the pairs of names that share a spelling and never meet."""
        bad, apart = [], []
        sees = self.sees()

        def visible(fs, gs):
            return any(crate_of(g) in sees[crate_of(f)] or crate_of(f) in sees[crate_of(g)] for f in fs for g in gs)

        olds = collections.defaultdict(list)
        for old, new in list(self.new.items()) + list(self.moved.items()):
            olds[new].append(old)
        for new, names in sorted(olds.items()):
            if new in RESERVED:
                bad.append(f"{names[0]} -> {new}: a reserved word")
            if new in self.own and new not in self.moved:
                names = names + [new]
            for k, a in enumerate(names):
                for b in names[k + 1:]:
                    line = f"{a}, {b} -> {new}: {' '.join(sorted(self.own[a]))} | {' '.join(sorted(self.own[b]))}"
                    (bad if visible(self.own[a], self.own[b]) else apart).append(line)
        # a new name that is something else in a file in which the old one stands
        for path, text in self.antt.items():
            before, after = set(), collections.defaultdict(set)
            for token, base in scope(text):
                new = self.rename(path, token, base)
                if new is None and base is None:
                    before.add(token)
                if new is not None and base is None:
                    after[new].add(token)
            for new, names in sorted(after.items()):
                if new in before or len(names) > 1:
                    bad.append(f"{' '.join(sorted(names))} -> {new}: also {new} in {path}")
        return bad, apart


def pieces(line):
    """A line of antt in pieces: (kind, text), kind one of path, code, string, comment."""
    m = COMMENT.search(line)
    code, comment = (line[: m.start()], line[m.start():]) if m else (line, "")
    m = re.match(r"^\s*(?:pub )?use [^\s{}]+", code)
    if m and m[0].endswith("."):
        yield "path", m[0]
        code = code[m.end():]
    elif m:
        yield "path", m[0]
        code = code[m.end():]
    for k, part in enumerate(re.split(r'("(?:[^"\\]|\\.)*")', code)):
        if part:
            yield ("string" if k % 2 else "code"), part
    if comment:
        yield "comment", comment


def tokens(text):
    """The tokens of code, each with the name before its dot."""
    for m in TOKEN.finditer(text):
        base = None
        if m.start() and text[m.start() - 1] == ".":
            base = re.search(r'[^\s(){}\[\],.;"`]*$', text[: m.start() - 1])[0]
        yield m, base


def scope(text):
    for line in text.split("\n"):
        for kind, part in pieces(line):
            if kind == "code":
                for m, base in tokens(part):
                    yield m[0], base


def replace_code(tree, path, text):
    out, last = [], 0
    for m, base in tokens(text):
        new = tree.rename(path, m[0], base)
        if new is not None:
            out += [text[last: m.start()], new]
            last = m.end()
    return "".join(out) + text[last:]


def replace_quoted(text, name):
    """Replaces names in backquotes, but for names of files."""

    def word(m):
        before, after = m.string[: m.start()], m.string[m.end():]
        if before.endswith("/") or after.startswith("/") or FILE.match(after):
            return m[0]
        return name(m[0]) or m[0]

    return re.sub(r"`[^`\n]*`", lambda q: WORD.sub(word, q[0]), text)


def respell_antt(tree, path, text):
    def in_comment(token):
        return tree.rename(path, token, None)

    out = []
    for line in text.split("\n"):
        new = ""
        for kind, part in pieces(line):
            if kind == "code":
                part = replace_code(tree, path, part)
            elif kind == "comment":
                part = replace_quoted(part, in_comment)
                part = WORD.sub(lambda m: (in_comment(m[0]) if "-" not in m[0] and is_old(m[0]) else None) or m[0], part)
            new += part
        out.append(new)
    return "\n".join(out)


def regions(text):
    """An .rt file in parts: (kind, text), kind one of code, comment, contract."""
    i = last = 0
    n = len(text)
    out = []

    def emit(kind, a, b):
        if b > a:
            out.append((kind, text[a:b]))

    while i < n:
        if text.startswith("//", i):
            j = text.find("\n", i)
            j = n if j < 0 else j
            emit("code", last, i)
            emit("comment", i, j)
            i = last = j
            continue
        if text[i] == '"':
            i += 1
            while text[i] != '"':
                i += 2 if text[i] == "\\" else 1
            i += 1
            continue
        m = re.compile(r"'(\\.[^']*|[^'\\])'").match(text, i)
        if m:
            i = m.end()
            continue
        if text[i].isalpha() and not (i and (text[i - 1].isalnum() or text[i - 1] == "_")):
            m = CLAUSE.match(text, i)
            if m:
                j = m.end()
                depth = 1 if m[0].endswith("{") else 0
                while depth:
                    depth += (text[j] == "{") - (text[j] == "}")
                    j += 1
                emit("code", last, i)
                emit("contract", i, j)
                i = last = j
                continue
            while i < n and (text[i].isalnum() or text[i] == "_"):
                i += 1
            continue
        i += 1
    emit("code", last, n)
    return out


def respell_rt(tree, path, text, notes):
    out = []
    for kind, part in regions(text):
        if kind == "contract":
            part = "\n".join(
                "".join(replace_code(tree, path, p) if k == "code" else p for k, p in pieces(line))
                for line in part.split("\n"))
        elif kind == "comment":
            part = replace_quoted(part, lambda t: tree.rename(path, t, None))
        else:
            for m in WORD.finditer(part):
                if m[0] in tree.new and not m[0].startswith("'"):
                    notes.append(f"in code, left alone: {m[0]} in {path}")
        out.append(part)
    return "".join(out)


def respell_edit(tree, path, text):
    target, out = None, []
    crate = path.split("/must-fail/")[0]
    for line in text.split("\n"):
        m = re.match(r"^(file|old|new):(\s?)(.*)$", line)
        if not m:
            out.append(replace_quoted(line, tree.recall) if line.startswith("#") else line)
            continue
        if m[1] == "file":
            target = crate + "/" + m[3].strip()
            out.append(line)
            continue

        def name(token, base):
            if token in tree.asked[target] or token in tree.foreign[target]:
                return None
            if token in tree.new or token in tree.moved:
                return tree.rename(target, token, base)
            # a step keeps its name: what it is called is port.py's matter
            if base is not None and "-" in token or snake(token) in tree.asked[target]:
                return None
            return tree.recall(token)

        body, new = m[3], ""
        for kind, part in pieces(body):
            if kind == "code":
                done, last = "", 0
                for t, base in tokens(part):
                    r = name(t[0], base)
                    if r is not None:
                        done += part[last: t.start()] + r
                        last = t.end()
                part = done + part[last:]
            new += part
        out.append(m[1] + ":" + m[2] + new)
    return "\n".join(out)


def main(args):
    if args not in ([], ["--check"]):
        sys.exit(__doc__)
    if not os.path.isdir("crates"):
        sys.exit("respell: run it at the top of the repository")
    check = bool(args)
    tree = Tree()
    bad, apart = tree.collisions()
    notes = []
    files = {}
    for path, text in tree.antt.items():
        files[path] = (text, respell_antt(tree, path, text))
    for path, text in tree.rt.items():
        files[path] = (text, respell_rt(tree, path, text, notes))
    for path, text in tree.edits.items():
        files[path] = (text, respell_edit(tree, path, text))
    shown = []
    for path, text in tree.docs.items():
        new = replace_quoted(text, tree.recall)
        files[path] = (text, new)
        for k, (a, b) in enumerate(zip(text.split("\n"), new.split("\n")), 1):
            if a != b:
                pairs = [(x, y) for x, y in zip(WORD.findall(a), WORD.findall(b)) if x != y]
                shown.append(f"{path}:{k}: " + ", ".join(f"{x} -> {y}" for x, y in pairs))
    changed = [p for p, (a, b) in files.items() if a != b]
    if check:
        for old, new in list(tree.new.items()) + list(tree.moved.items()):
            print(f"{old} -> {new}")
        for path, names in sorted(tree.foreign.items()):
            for name in sorted(n for n in names if n in tree.new):
                print(f"left alone, not of the repository: {name} in {path}")
        for path, names in sorted(tree.asked.items()):
            for name in sorted(n for n in names if n in tree.new):
                print(f"left alone, asked for by the checker: {name} in {path}")
        for line in apart:
            print("one name for two that never meet: " + line)
    for line in sorted(set(notes)):
        print(line)
    for line in shown:
        print(line)
    for line in bad:
        print("collision: " + line)
    print(f"{len(tree.new) + len(tree.moved)} names, {len(changed)} files, {len(bad)} collisions")
    if bad:
        sys.exit(1)
    if not check:
        for path in changed:
            with open(path, "w", encoding="utf-8", newline="") as f:
                f.write(files[path][1])


if __name__ == "__main__":
    main(sys.argv[1:])
