"""Holds the documents to the tree: documents.py LIBRARY, the crate of the static library.

README's lines of C are of examples/c/best.c, its theorem is of crate optimizer, and every path in it is a link; the cards of docs/FORMAT.md are
those of the demo and of the examples; its refusals and calls are those of the header; docs/ARCHITECTURE.md has the crates of crates.txt. In every
document every relative link leads somewhere, and every name in backquotes that looks like one of the code's, and every path, is there."""
import os
import pathlib
import re
import sys

LIBRARY = sys.argv[1]
wrong = []


def documents():
    """Everything that is written for readers, the README of each folder too."""
    for folder, folders, files in os.walk("."):
        folders[:] = sorted(name for name in folders if name not in ("target", ".git", "node_modules"))
        yield from (str(pathlib.Path(folder, file)) for file in sorted(files) if file.endswith(".md"))


DOCUMENTS = list(documents())


def read(path):
    return pathlib.Path(path).read_text()


def must(right, text):
    if not right:
        wrong.append(text)


def cards():
    text = read("docs/FORMAT.md")
    hexes = {}
    for name, block in re.findall(r"```card (\w)\n(.*?)```", text, re.S):
        pairs = [re.match(r"((?:[0-9a-f]{2}(?: +|$))+)", line)[1] for line in block.splitlines()]
        hexes[name] = bytes.fromhex("".join(pairs))
    must(hexes.get("B") == pathlib.Path("demo/card_b/card.bin").read_bytes(), "docs/FORMAT.md: card B is not demo/card_b/card.bin")
    definition = re.search(r"^card_a = (.*)$", read("crates/examples/specs/Cards.antt"), re.M)
    must(hexes.get("A") == bytes(int(n) for n in re.findall(r"\d+", definition[1])), "docs/FORMAT.md: card A is not that of crate examples")


def refusals():
    header, text = read("include/pastaspur.h"), read("docs/FORMAT.md")
    named = {number: name for name, number in re.findall(r"PASTASPUR_REFUSED_(\w+) = (\d+)", header)}
    table = {number: name for number, name in re.findall(r"^\| (\d+) \| `([A-Z_]+)` \|", text, re.M)}
    must(named == table and len(named) == 27, f"docs/FORMAT.md, include/pastaspur.h: other refusals, {sorted(set(named.items()) ^ set(table.items()))}")
    calls = set(re.findall(r"uint32_t (pastaspur_\w+)\(", header))
    must(calls == set(re.findall(r"`(pastaspur_\w+)`", text.split("## 12")[1].split("## 13")[0])), "docs/FORMAT.md: other calls than the header's")
    crate = re.findall(r"Refusal::(\w+) => (\d+)", read("crates/refusals/src/lib.rt")) if pathlib.Path("crates/refusals/src/lib.rt").exists() else []
    for name, number in crate:
        must(named.get(number) == re.sub(r"(?<!^)(?=[A-Z])", "_", name).upper(), f"include/pastaspur.h: {number} is {name} in crate refusals")


def readme():
    text = read("README.md")
    must(len(text.splitlines()) <= 120, f"README.md: {len(text.splitlines())} lines")
    programs = re.findall(r"```c\n(.*?)```", text, re.S)
    must(programs and all(program in read("examples/c/best.c") for program in programs), "README.md: its lines of C are not of examples/c/best.c")
    must(read("examples/c/best.stdout").strip() in text, "README.md: not what examples/c/best prints")
    theorem = re.findall(r"```antt\n(.*?)```", text, re.S)
    fields = {line.strip() for line in read("crates/optimizer/specs/Demands.antt").splitlines()}
    must(len(theorem) == 1, "README.md: no theorem, or two")
    for line in "".join(theorem).splitlines():
        must("pub " + line in fields, f"README.md: no field of crates/optimizer/specs/Demands.antt: {line}")
    bare = re.sub(r"```.*?```|^ {4}.*?$|\[[^\]]*\]\([^)]*\)\]?(\([^)]*\))?", "", text, flags=re.S | re.M)
    for word in re.findall(r"[\w.]+(?:/[\w.]+)*/?", bare):
        path = pathlib.Path(word.rstrip("."))
        must(not ("/" in word or path.suffix) or not path.exists(), f"README.md: {word} is no link")


def versions():
    """One version: of the file VERSION, the header, the newest entry of the changes, and the citation."""
    version = read("VERSION").strip()
    must(f'#define PASTASPUR_VERSION "{version}"' in read("include/pastaspur.h"), f"include/pastaspur.h: not version {version}")
    newest = re.search(r"^## ([\d.]+), ([\d-]+)$", read("CHANGELOG.md"), re.M)
    must(newest and newest[1] == version, f"CHANGELOG.md: its newest entry is not {version}")
    must(f"version: {version}\ndate-released: {newest and newest[2]}\n" in read("CITATION.cff"), f"CITATION.cff: not version {version}, or another date")


def links():
    """Every relative link leads to a file or folder, and one with a heading to that heading."""
    found = 0
    for document in DOCUMENTS:
        for link in re.findall(r"\]\(([^)\s]+)\)", re.sub(r"```.*?```|`[^`\n]*`(?!\])", "", read(document), flags=re.S)):
            if re.match(r"[a-z]+:", link):
                continue
            found += 1
            file, _, heading = link.partition("#")
            target = pathlib.Path(document).parent / file if file else pathlib.Path(document)
            must(target.exists(), f"{document}: no {link}")
            if heading and target.is_file():
                headings = {re.sub(r"[^\w\- ]", "", line.lstrip("#").strip().lower()).replace(" ", "-")
                            for line in target.read_text().splitlines() if line.startswith("#")}
                must(heading in headings, f"{document}: no heading {link}")
    must(found > 20, f"{found} links found: too few")


def architecture():
    """docs/ARCHITECTURE.md has the crates of crates.txt, in its sections and its order, and names the others among the test programs."""
    text = read("docs/ARCHITECTURE.md").split("## The crates")[1].split("## Beside the crates")[0]
    shown = re.findall(r"^\*\*([^*]+)\*\*$|^\| `(\w+)` \|", text, re.M)
    listed, tests = read("crates.txt").split("# Test programs\n")
    due = re.findall(r"^# (?!Crates)(.+)$|^(\w+)(?: staticlib)?:", listed, re.M)
    must([a or b for a, b in shown] == [a or b for a, b in due], "docs/ARCHITECTURE.md: other crates, sections or order than crates.txt's")
    for name in re.findall(r"^(\w+):", tests, re.M):
        must("test" in name or "board" in name or f"`{name}`" in text, f"docs/ARCHITECTURE.md: no test program `{name}`")


NAMES_OF_OTHER_TREES = ["docs/DESIGN-PASS.md", "docs/LANDINGS.md", "docs/LOOK-BACK.md", "docs/PORT.md"]  # each note has the names of its own landing; the pages of the port, the design pass and the look back have those of before, and goals
NAMES_OF_OTHERS = {"SccQueue", "GreetingIs"}  # OpenFst's, the kit's guide's


def names():
    """Every name is somewhere in the crates; one with its crate and file is there."""
    crates = {path.name: path for path in pathlib.Path("crates").iterdir()}
    crates.setdefault("pastaspur", crates[LIBRARY])
    beside = [path for part in ("include", "bench", "reference/src", "demo", "targets", "release", "tests", "firmware", "python", "desk/src") for path in pathlib.Path(part).rglob("*")
              if "target" not in path.parts]
    words = set(crates) | {path.name for path in beside} | NAMES_OF_OTHERS
    for path in beside:
        if path.suffix in (".h", ".cc", ".c", ".rs", ".py", ".ts", ".tsx", ".mjs"):
            words |= set(re.findall(r"[\w-]+", path.read_text()))
    texts = {}
    for path in pathlib.Path("crates").glob("*/*/**/*"):
        if path.parts[2] == "out":  # what the kit makes of a crate: no text of ours
            continue
        if path.suffix in (".antt", ".rt"):
            texts[path] = set(re.findall(r"[\w-]+", path.read_text()))
            words |= texts[path] | {path.stem}
        elif path.suffix == ".edit":
            words.add(path.stem)
    for document in DOCUMENTS:
        if document in NAMES_OF_OTHER_TREES:
            continue
        for name in re.findall(r"`([^`\n]+)`", re.sub(r"```.*?```", "", read(document), flags=re.S)):
            if name.startswith("rattle_") or (pathlib.Path("crates") / name).exists():  # the kit's; a file of a crate
                continue
            placed = re.fullmatch(r"([a-z_0-9]+)/((?:\w+/)*)(\w+)(?:\.([\w-]+))?", name)
            if placed and placed[1] in crates:
                crate, _, stem, inner = placed.groups()
                edit = (crates[crate] / "must-fail" / f"{stem}.edit").exists()
                files = [path for path in texts if path.stem == stem and crates[crate] in path.parents] + [
                    path for path in texts if stem in path.parts and crates[crate] in path.parents]
                must(edit or files and (not inner or any(inner in texts[path] for path in files)), f"{document}: no `{name}`")
            elif re.fullmatch(r"[a-z_0-9]+(::\w+)+", name) and name.split("::")[0] in crates:
                crate, *_, function = name.split("::")
                must(any(function in texts[path] for path in texts if crates[crate] in path.parents and "src" in path.parts), f"{document}: no `{name}`")
            elif re.fullmatch(r"[A-Za-z][\w]*([-_][\w]+|[a-z][A-Z]\w*)+", name) and not name.isupper():
                must(name in words, f"{document}: no `{name}`")


def edits():
    """Every must-fail edit is named in docs/PROMISES.md, where it says what the edit shows."""
    text = read("docs/PROMISES.md")
    for path in sorted(pathlib.Path("crates").glob("*/must-fail/*.edit")):
        must(f"{path.stem}`" in text, f"docs/PROMISES.md: {path} is not named")


def paths():
    """What looks like a path of the repository is one."""
    roots = "docs|bench|demo|include|examples/c|reference|tests"
    for document in DOCUMENTS:
        for path in re.findall(rf"(?<![\w/.])((?:{roots})/[\w/.-]*\w)", read(document)):
            must(pathlib.Path(path).exists() or "/target/" in path, f"{document}: no {path}")


for check in (cards, refusals, readme, versions, links, architecture, names, edits, paths):
    check()
print("\n".join(wrong) or "as the tree has it")
sys.exit(bool(wrong))
