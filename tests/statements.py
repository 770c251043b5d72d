"""docs/STATEMENTS.md: every promise with the definitions that it rests on, each once, in the order in which a reader needs them.

    statements.py          makes it anew and compares
    statements.py write    writes it

The promises are the fields of crates/promises/specs/Promises.antt; a field `f.statement M` is the contract of f, which stands in src/. A promise
rests on each definition that its statement names, and on each that those name. A definition is a record, a data type, a struct, an enum, or what is
marked `abbrev` or `unfoldable`. Of anything else a statement sees the type alone: it is a proof, and so are marked ones that PROOFS names.
A name means what the file declares or its `use` lines bring in, unless the clause that it stands in binds it."""
import difflib
import pathlib
import re
import sys

DOCUMENT = pathlib.Path("docs/STATEMENTS.md")
WORD = re.compile(r"«[^»]*»|[^\s(){}.;,@\"«»\[\]]+|\.(?=\S)|[(){};,@\[\]]")  # a dot before a space ends the names that a λ binds
USE = re.compile(r"(pub |unfoldable pub |ghost )?use (\S+?)(?:\.\{(.*)\}| as (\S+));?$")
NAME = r"«[^»]+»|[^\s(){}.;,@\"«»]+"
DECLARATION = re.compile(rf"((?:abbrev |unfoldable |pub )*)(?:(record|data) ({NAME})|({NAME})(?: \{{[^}}:]*\}})? :(?: |$))")
FIELD = re.compile(rf"^ +(?:pub )?({NAME}) :", re.M)
# Marked, and proofs all the same.
PROOFS = set("""before_total left_bytes less_total lex_compare lex_head lex_rest lex_total numbers_of on_of on_total same_of the_joined then_first then_second then_total""".split())
BINDERS = [r"[({]([^(){}:=]*?) : ", r"[λ∀] ([^.]*)\.", r"\blet (\S+)", r"[\[|]\s*([^\[|↦]*?)\s*↦", r"^ *open .* using \((.*)\)"]
WIDTH = 150
TABLE_VARIANT, TABLE_CLAUSE = r" +[A-Z]\w*,", r"\w+ [A-Z]\w* = \d+"
MODULE = re.compile(r"Rattle\.(\w+)\.(specs|proofs)\.(.+)")


def bound(text):
    """The names that a text binds: (x : T), {x : T}, λ x. let x, the pattern before ↦, and those that `open` opens."""
    return {name for binder in BINDERS for names in re.findall(binder, text) for name in WORD.findall(names)}


def table(lines):
    """A declaration's lines, those of a table side by side: more than ten plain variants of an enum, whose comments stand in src/, or as many clauses
    that give a number for a constructor."""
    for row, gap, indent in (TABLE_VARIANT, " ", "    "), (TABLE_CLAUSE, "; ", ""):
        rows = [line.strip() for line in lines if re.fullmatch(row, line)]
        if len(rows) > 10:
            kept = [line for line in lines if not re.fullmatch(row, line) and not re.fullmatch(" *// .*", line)]
            shown = [indent + rows[0]]
            for one in rows[1:]:
                longer = f"{shown[-1]}{gap}{one}"
                shown = [*shown[:-1], longer] if len(longer) <= WIDTH else [*shown, indent + one]
            lines = kept[:1] + shown + kept[1:]
    return lines


class Declaration:
    def __init__(self, file, line, kind, name, is_definition, sections=()):
        self.file, self.line, self.end, self.kind, self.name, self.is_definition, self.sections = file, line, line, kind, name, is_definition, sections

    def shown(self):
        """Its text with the comment above it, from the margin."""
        above = self.line
        while above and self.file.whole[above - 1].startswith("#["):  # what a type derives
            above -= 1
        first = above
        while first and re.match(r" *(--|//) (?!----)", self.file.whole[first - 1]):
            first -= 1
        margin = len(self.file.whole[self.line]) - len(self.file.whole[self.line].lstrip())
        return [line[margin:] for line in self.file.whole[first:above]] + table([line[margin:] for line in self.file.whole[self.line:self.end + 1]])

    def parts(self):
        """The signature and each clause, with the names that are bound there."""
        lines = [line for line in self.file.lines[self.line:self.end + 1] if line]
        margin = len(lines[0]) - len(lines[0].lstrip())
        starts = [at for at, line in enumerate(lines) if at and self.kind not in ("struct", "enum", "fn") and not line[margin:].startswith(" ")]
        texts = ["\n".join(lines[a:b]) for a, b in zip([0] + starts, starts + [len(lines)])]
        outside = {self.name}.union(*map(bound, self.sections))
        yield texts[0], outside | bound(texts[0]) | set(FIELD.findall(texts[0]) if self.kind in ("record", "data") else ())
        for clause in texts[1:]:
            if not clause.strip().startswith("unfolding "):
                left, _, right = clause.partition(" =")
                patterns = {word for word in WORD.findall(left) if not self.file.constructs(word)}
                yield clause, outside | patterns | bound(right) | set(FIELD.findall(clause))

    def names(self):
        """The declarations that it names; of a function its contract and its types do."""
        texts = [*((section, bound(section)) for section in self.sections), *self.parts()]
        return [one for text, hidden in texts for one in self.file.named(text, hidden)]


class File:
    """A file of a crate: what it brings in, what it passes on, what it declares."""

    def __init__(self, crate, tree, name, text):
        self.crate, self.tree, self.title, self.whole = crate, tree, f"{crate}/{name.replace('.', '/')}" if tree != "src" else f"crates/{crate}/src/{name}.rt", text.split("\n")
        self.lines = [re.sub(r"(^|\s)(--|//)( .*)?$", "", line).rstrip() for line in self.whole]
        self.imported, self.passed_on, self.aliases, self.declared, self.constructors = {}, {}, {}, {}, {}
        self.read_code() if tree == "src" else self.read_definitions()

    def read_use(self, line):
        found = USE.match(line.strip())
        for path, names, name in re.findall(r"^use (\w+)(?:::\w+)*::(?:\{(.*)\}|(\w+));$", line):
            for name in re.findall(r"\b[A-Z]\w*[a-z]\w*", names or name):  # structs and enums of another crate
                self.imported[name] = f"Rattle.{path}.specs.declared.{name}", name
        if found:
            how, module, names, alias = found.groups()
            if alias:
                self.aliases[alias] = module
            for name in filter(None, map(str.strip, (names or "").split(","))):
                inner, _, local = name.partition(" as ")
                self.imported[local or inner] = module, inner
                if "pub" in (how or ""):
                    self.passed_on[local or inner] = module, inner
        return found

    def read_definitions(self):
        current, sections = None, []  # of each section the margin and the header
        for at, line in enumerate(self.lines):
            start = line.lstrip()
            margin = len(line) - len(start)
            if not start or self.read_use(line):
                continue
            if start.startswith("module "):
                sections, current = [one for one in sections if one[0] < margin] + [(margin, start)], None
            elif sections and sections[-1][1].startswith("module ") and not sections[-1][1].endswith("where"):
                sections[-1] = sections[-1][0], f"{sections[-1][1]} {start}"
            elif current and margin > current.margin:
                current.end = at
            elif start.startswith("open "):
                sections.append((margin - 1, start))
            elif DECLARATION.match(start):
                marks, kind, typed, other = DECLARATION.match(start).groups()
                sections = [one for one in sections if one[0] < margin]
                marked = re.search("abbrev|unfoldable", marks) and (typed or other) not in PROOFS
                current = Declaration(self, at, kind, typed or other, bool(kind or marked), [text for _, text in sections])
                current.margin = margin
                self.declared.setdefault(current.name, current)
            elif current:
                current.end = at
        for one in self.declared.values():
            if one.kind == "data":
                self.constructors.update((name, one) for name in FIELD.findall("\n".join(self.lines[one.line + 1:one.end + 1])))

    def read_code(self):
        for at, line in enumerate(self.lines):
            self.read_use(line)
            found = re.match(r"(?:pub )?(?:extern \"C\" )?(struct|enum|fn) (\w+)", line)
            if found:
                kind, name = found.groups()
                one = self.declared[name if kind != "fn" else f"fn {name}"] = Declaration(self, at, kind, name, kind != "fn")
                last = r"\{|.* \{$" if kind == "fn" else r"\}"
                one.end = next(i for i in range(at, len(self.lines)) if re.match(last, self.lines[i])) - (kind == "fn")

    def look_up(self, name):
        """The declaration that a name means here, None where it is the library's."""
        if name in self.declared or name in self.constructors:
            return self.declared.get(name) or self.constructors[name]
        return find(*self.imported[name]) if name in self.imported else None

    def constructs(self, name):
        found = self.look_up(name)
        return bool(found) and found.name != name

    def named(self, text, hidden):
        words, found = WORD.findall(text), []
        operators = {part: name for name in [*self.imported, *self.declared] if "◌" in name for part in name.split("◌") if part}
        for at, word in enumerate(words):
            name = operators.get(word, word)
            if word in self.aliases and words[at + 1:at + 2] == ["."]:
                found.append(find(self.aliases[word], words[at + 2]))
            elif words[at - 1:at] != ["."] and word not in hidden and name not in hidden:
                found.append(self.look_up(name))
        return [one for one in found if one]


def find(module, name):
    """What a module of a crate has under a name: a declaration of specs/ or proofs/, a struct or enum of src/; of `f.Statement` the function f."""
    placed = MODULE.fullmatch(module)
    if not placed or placed[1] not in CRATES:
        return None
    crate, tree, path = placed.groups()
    if path.startswith("declared."):
        name = path.split(".")[1]
        return next(file.declared[name] for file in FILES.values() if (file.crate, file.tree) == (crate, "src") and name in file.declared)
    if path.endswith(".Statement"):
        *modules, function, _ = path.split(".")
        return FILES[crate, "src", ".".join(modules or ["lib"])].declared[f"fn {function}"]
    file = FILES[crate, tree, path]
    assert name in file.passed_on or file.look_up(name), f"{file.title} has no {name}"
    return find(*file.passed_on[name]) if name in file.passed_on else file.look_up(name)


def load():
    CRATES.extend(re.findall(r"^(\w+):", pathlib.Path("crates.txt").read_text(), re.M))
    for crate in CRATES:
        for tree in ("src", "specs", "proofs"):
            root = pathlib.Path("crates", crate, tree)
            for path in sorted([*root.rglob("*.rt"), *root.rglob("*.antt")]):
                name = ".".join(path.relative_to(root).with_suffix("").parts)
                FILES[crate, tree, name] = File(crate, tree, name, path.read_text())


def order():
    """The files in the order in which they are read: crate by crate, of each the code first, and then each file after those that it uses."""
    placed, ordered = set(), []

    def place(file):
        if file not in placed:
            placed.add(file)
            for module, _ in file.imported.values():
                found = MODULE.fullmatch(module)
                if found and found[1] == file.crate and found.groups() in FILES and file.tree != "src":
                    place(FILES[found.groups()])
            ordered.append(file)

    for file in FILES.values():
        place(file)
    return {file: at for at, file in enumerate(ordered)}


def base(start):
    """The definitions that a list of declarations rests on."""
    found, todo = set(), list(start)
    while todo:
        one = todo.pop()
        if one.is_definition and one not in found:
            found.add(one)
            todo += one.names()
    return found


CRATES, FILES = [], {}

# Found in this: `Told` rests on `brief` and `Word`, and through a module's other name on `Sign` by its constructor; not on `long`, which it binds, nor on
# the proof `long-word`, nor on `unused`.
LOW = """
-- a word
abbrev pub Word : Type 0
Word = List ℕ

unfoldable pub long : Word → Bool
long w = ltb 2 (length w)

unfoldable pub brief : Word → Bool
brief w = not (ltb 2 (length w))

pub data Sign : Type 0 where
  plus : Sign

pub long-word : (w : Word) → long w ≡ true → Word
long-word w h = w
"""
HIGH = """
use Rattle.low.specs.Words.{Word, long, brief as short, long-word}
use Rattle.low.specs.Words as words

module _ (w : Word)
    (h : short w ≡ true)
  where
    -- what is told
    pub record Told (long : ℕ) : Type 0 where
      -- and how
      pub sign : words.plus ≡ words.plus
      pub length-is : long ≡ length (long-word w)

    abbrev pub unused : Bool
    unused = long w
"""


def check_itself():
    CRATES.extend(["low", "high"])
    FILES.update({("low", "specs", "Words"): File("low", "specs", "Words", LOW), ("high", "specs", "Use"): File("high", "specs", "Use", HIGH)})
    told = FILES["high", "specs", "Use"].declared["Told"]
    assert {one.name for one in base([told])} == {"Told", "Word", "brief", "Sign"}, "the check itself: what Told rests on"
    rows = [f"    N{'n' * n}," for n in range(11)]
    assert table(["enum E {", "    // one", *rows, "}"]) == ["enum E {", "    " + " ".join(row.strip() for row in rows), "}"], "the check itself: a table"
    assert table(["enum E {", "    // one", *rows[1:], "}"]) == ["enum E {", "    // one", *rows[1:], "}"], "the check itself: a short list"
    assert told.shown()[0] == "-- what is told" and told.shown()[2] == "  -- and how" and len(told.shown()) == 5, "the check itself: what is shown"
    CRATES.clear()
    FILES.clear()


# The line from a pair to demand 3: of each step its title, what it says, and the definitions that it leads up to.
LINE = [
    ("A pair", "A candidate is a list of pairs `in:out`. In and out are symbols, numbers from 1 on, or the empty symbol, 0. The ins spell the word; an insertion "
     "spells nothing. A candidate's byte string is its pairs' bytes, one pair after another.",
     "machine/Symbols.is_pair candidate/Candidates.spelled candidate/Candidates.bytes_of"),
    ("A machine", "A constraint is a machine. An arc takes a pair in a state, moves on to a state, and gives marks. In a final state the machine may end, with marks of "
     "the ending.",
     "machine/Machine.start_state machine/Machine.step_of machine/Machine.ending_of"),
    ("A candidate and its profile", "A candidate is complete if every machine takes every pair in turn and ends. Its profile has one count for each machine, the marks of "
     "the arcs taken and of the ending.",
     "candidate/Candidates.profile_of candidate/Candidates.IsCandidate"),
    ("The better of two", "A ranking lists the machines, highest first. Of two profiles the one is worse that has more marks at the highest ranked machine where they "
     "differ. Between equal profiles fewer pairs decide, then the smaller byte string.",
     "product/BestCandidate.Beats"),
    ("The best candidate", "The best beats every other candidate for the word, however long.",
     "product/BestCandidate.IsBestCandidate"),
    ("A card", "A card is a byte string. Its parts are its machines, written down.",
     "card/Card.machines_of"),
    ("What is refused", "Before the search a call checks the card (1 to 6), the ranking (7), the word (8) and the work slice (9). It answers the first refusal met.",
     "product/Optimizing.input_refusal"),
    ("What a call answers", "The best as a definition that computes: of the candidates with fewer pairs than there are nodes, the one that is preferred to all others. "
     "That longer lists change nothing is a theorem. The result and the answer slice at exit follow from it: 10 where there is none, 12 where the answer slice is too "
     "short for it.",
     "optimizer/Optimizes.Optimizes"),
    ("Demand 3", "What is promised of an answer, for every card, ranking and word that the checks accept, and every answer slice.",
     "optimizer/Demand3.Demand3"),
]
LINE_PROMISES = ["optimize", "demand_3"]
LINE_PAGES, PAGE = 10, 66  # ten pages of 66 lines

HEAD = """# Statements

Every promise with the definitions that it rests on: what a reader has to read, and to believe that it says what is meant. Each definition stands here once, before
the first promise that needs it. What is proved is that the promises follow; no proof is needed to read them.

This file is made by `tests/statements.py write` from the record of all promises, `crates/promises/specs/Promises.antt`, and `tests/run statements` compares. Definitions
are written in antt, the language of the proofs; a name of the library (`List`, `length`, `map`) means what it says. `now x` is what a slice holds, `x .entry` a
parameter at the start of a call and `x .exit` at its end. docs/FORMAT.md has the same in prose. The rows of a long table stand side by side.
"""


class Promise:
    """A field of the record of all promises: a contract, which stands in src/, or a statement that is proved of what the definitions give."""

    def __init__(self, file, lines):
        self.lines, (self.name, text) = lines, re.match(r"pub (\S+) : (.*)", "\n".join(lines), re.S).groups()
        named = file.named(text, bound(text))
        self.contracts = [one for one in named if one.kind == "fn"]
        self.names = [one for one in named if one.is_definition] + [one for contract in self.contracts for one in contract.names() if one.is_definition]

    def shown(self):
        return [line for contract in self.contracts for line in contract.shown()] or self.lines


def promises(record):
    """The sections of the record: of each its title, and the promises below each comment."""
    sections, comment, lines = [], [], []

    def end():
        if lines:
            sections[-1][1].append([" ".join(comment), []] if comment or not sections[-1][1] else sections[-1][1].pop())
            sections[-1][1][-1][1].append(Promise(record.file, list(lines)))
            comment.clear()
            lines.clear()

    for line in [*record.file.whole[record.line + 1:record.end + 1], ""]:
        text = line.strip()
        if text.startswith("--") or text.startswith("pub ") or not text:
            end()
        if text.startswith("-- ---- "):
            sections.append((text[8:], []))
        elif text.startswith("--"):
            comment.append(text[3:])
        elif text:
            lines.append(line[2:])
    return sections


def sentence(text):
    return text[:1].upper() + text[1:] + "." * (not text.endswith("."))


class Document:
    def __init__(self):
        self.lines, self.places, self.order = HEAD.split("\n"), {}, order()

    def show(self, declarations, place):
        """The definitions that these rest on and that are not shown yet, file by file."""
        new = sorted(base(declarations) - set(self.places), key=lambda one: (self.order[one.file], one.line))
        self.lines += ["```"] * bool(new)
        for before, one in zip([None, *new], new):
            self.places[one] = place
            if not before or before.file is not one.file:
                self.lines += [""] * bool(before) + [f"-- ---- {one.file.title}"]
            self.lines += one.shown()
        self.lines += ["```", ""] * bool(new)

    def say(self, promised, place):
        """Promises below one comment, after the definitions that only they need."""
        above = {one.name: self.places[one] for promise in promised for one in promise.names if one in self.places}
        self.show([one for promise in promised for one in promise.names], place)
        self.lines += ["Promised:", "", "```", *(line for promise in promised for line in promise.shown()), "```", ""]
        if above:
            self.lines += ["It rests on " + ", ".join(f"`{name}` ({at})" for name, at in above.items()) + ", and what these rest on.", ""]


def document():
    made, sections = Document(), promises(FILES["promises", "specs", "Promises"].declared["Promises"])
    first = [promise for _, groups in sections for _, fields in groups for promise in fields if promise.name in LINE_PROMISES]
    whole = base([one for promise in first for one in promise.names])
    made.lines += ["## 1. From a pair to demand 3", ""]
    for at, (title, text, heads) in enumerate(LINE, 1):
        made.lines += [f"### 1.{at} {title}", "", text, ""]
        found = [find("Rattle.{}.specs.{}".format(*head.split(".")[0].split("/")), head.split(".")[1]) for head in heads.split()]
        assert all(one in whole for one in found), f"{title}: demand 3 does not rest on all of {heads}"
        made.show(found, f"1.{at}")
    made.say(first, f"1.{len(LINE)}")
    assert set(made.places) == whole, "the line does not lead to demand 3"
    assert len(made.lines) <= LINE_PAGES * PAGE, f"the line from a pair to demand 3 has {len(made.lines)} lines, more than {LINE_PAGES} pages"
    for at, (title, groups) in enumerate(sections, 2):
        made.lines += [f"## {at}. {title}", ""]
        for number, (comment, fields) in enumerate(groups, 1):
            made.lines += [sentence(comment), ""] * bool(comment)
            rest = [promise for promise in fields if promise not in first]
            for some in [[promise] for promise in rest] if any(promise.contracts for promise in rest) else [rest] * bool(rest):
                made.say(some, f"{at}.{number}")
    return "\n".join(made.lines)


check_itself()
load()
text = document()
if sys.argv[1:] == ["write"]:
    DOCUMENT.write_text(text)
else:
    there = DOCUMENT.read_text() if DOCUMENT.exists() else ""
    print("\n".join(list(difflib.unified_diff(there.split("\n"), text.split("\n"), str(DOCUMENT), "made anew", lineterm="", n=0))[:40]) or "as it is made anew")
    sys.exit(there != text)
