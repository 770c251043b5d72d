"""Holds include/pastaspur.h to the crates and the static library: header.py SOURCE ARCHIVE DIRECTORY [wrong | lists].

Each exported name is declared and each declared one exported; a call has in C the parameters that it has in SOURCE, with their names, types, const
and sizes; the refusals have the numbers of crate refusals; each call's list of refusals is that of SOURCE and of docs/FORMAT.md. The constants, the
values of the other enums and every field are held to what calls answer: tests/border/answers.c is compiled with the header, linked with ARCHIVE and
run in DIRECTORY.

With 'wrong' the check itself is tried: each wrong header of tests/border/wrong_headers.py must be refused. With 'lists' it prints each call with
0 and the refusals of its list."""
import functools
import pathlib
import re
import subprocess
import sys

source, archive, directory = sys.argv[1:4]
NUMBERS = {"u8": "uint8_t", "u16": "uint16_t", "u32": "uint32_t", "u64": "uint64_t", "usize": "pastaspur_length", "Row": "pastaspur_row"}
CALLS = 16
IN_HEADER, DECLARATION = r"/\*(?:[^*]|\*(?!/))*\*/", r"uint32_t (pastaspur_\w+)\("


def without_comments(text):
    return re.sub(r"/\*.*?\*/|//[^\n]*", " ", text, flags=re.S)


def exported():
    """The exported functions of the crate: for each its parameters as C has them (name, type, is it const, elements of a fixed size or None, '*')."""
    calls = {}
    for name, parameters, result in re.findall(r'#\[unsafe\(no_mangle\)\]\s*pub extern "C" fn (\w+)\((.*?)\)\s*->\s*(\w+)', without_comments(pathlib.Path(source).read_text()), re.S):
        assert result == "u32", name
        calls[name] = []
        for parameter in filter(None, (p.strip() for p in parameters.split(","))):
            own, kind = (part.strip() for part in parameter.split(":"))
            own = {"res": "result"}.get(own, own)  # `result` is a word of clauses
            slice_, array = re.fullmatch(r"&(mut )?\[(\w+)\]", kind), re.fullmatch(r"&(mut )?\[(\w+); (\d+)\]", kind)
            if slice_:
                calls[name] += [(own, NUMBERS[slice_[2]], not slice_[1], None, "*"), (own + "_len", NUMBERS["usize"], False, None, "")]
            elif array:
                calls[name].append((own, NUMBERS[array[2]], not array[1], int(array[3]), "*"))
            else:
                calls[name].append((own, NUMBERS[kind], False, None, ""))
    return calls


def declared(header):
    """The functions that the header declares: for each its parameters as text."""
    return {name: [" ".join(p.split()) for p in parameters.split(",")]
            for name, parameters in re.findall(r"uint32_t (pastaspur_\w+)\(([^)]*)\);", without_comments(header))}


def numbers(text):
    """'1 to 3, 8 (length), 25' as 1, 2, 3, 8, 25."""
    listed = []
    for part in re.sub(r"\([^)]*\)", "", text).split(","):
        first, *last = (int(n) for n in part.split("to"))
        listed += range(first, (last or [first])[0] + 1)
    return listed


def refusal_lists(text, comment, call):
    """Of each call the refusals that the comment before it lists; a comment without a list ('the same ..') has that of the call before."""
    lists, last = {}, None
    for comments, name in re.findall(rf"({comment})\s*{call}", text):
        found = re.search(r"(?:refusals?|:)\s+(\d[\d, to]*(?:\([a-z ]+\)[\d, to]*)*)[.;]", re.sub(r"\s*\n\s*(?:\*|//)?", " ", comments))
        last = numbers(found[1]) if found else last
        lists[name] = last
    return lists


def check_contracts():
    """What the exported functions promise: each has the parameters and clauses of the function of crate pastaspur that it calls."""
    def contracts(path):
        text = pathlib.Path(path).read_text()
        return {name: (parameters, clauses) for name, parameters, clauses in re.findall(r'pub (?:extern "C" )?fn (\w+)\((.*?)\) -> u32\n(.*?)\n\{', text, re.S)}
    of_export, of_library = contracts(source), contracts("crates/pastaspur/src/lib.rt")
    return [f"{name} promises something else in {source} than in crates/pastaspur" for name in of_export if of_export[name] != of_library.get(name)] + \
        ([] if len(of_export) == CALLS else [f"{source} has {len(of_export)} contracts, not {CALLS}"])


@functools.cache
def defined():
    """The names that the archive exports."""
    symbols = subprocess.run(["nm", "-g", "--defined-only", archive], capture_output=True, text=True, check=True).stdout
    return {line.split()[2] for line in symbols.splitlines() if " T " in line}


def check_names(header):
    """What the text of the header says wrong: names, parameters, refusals, lists, version, what a card takes."""
    wrong, in_archive = [], defined()
    of_crate, of_header = exported(), declared(header)
    for one, other, text in [(in_archive, of_crate, "in the archive and not in the crate"), (of_crate, in_archive, "in the crate and not in the archive"),
                             (in_archive, of_header, "exported and not declared"), (of_header, in_archive, "declared and not exported")]:
        wrong += [f"{name}: {text}" for name in sorted(set(one) - set(other))]
    if len(in_archive) != CALLS:
        wrong.append(f"{len(in_archive)} calls in the archive, and not {CALLS}")

    # The size of what each pointer of fixed size leads to is asked of the compiler.
    sizes = []
    for name in sorted(set(of_crate) & set(of_header)):
        if len(of_crate[name]) != len(of_header[name]):
            wrong.append(f"{name}: {len(of_header[name])} parameters in C, {len(of_crate[name])} in the crate")
            continue
        for (own, kind, const, elements, pointer), text in zip(of_crate[name], of_header[name]):
            said = re.fullmatch(r"(const )?(\w+) ?(\*?)(\w+)(\[\w+\])?", text)
            if not said or said[4] != own or bool(said[1]) != const or bool(said[3] or said[5]) != bool(pointer):
                wrong.append(f"{name}: '{text}' for {'const ' * const}{kind} {pointer}{own}")
            elif elements is None and said[2] != kind:
                wrong.append(f"{name}: '{text}' for {kind} {pointer}{own}")
            elif elements is not None:
                size = f"sizeof({said[2]})" + (f" * {said[5][1:-1]}" if said[5] else "")
                sizes.append(f'_Static_assert({size} == {elements} * sizeof({kind}) && _Alignof({said[2]}) == _Alignof({kind}), "{name}: {text}");\n')

    named = re.findall(r"PASTASPUR_(?:REFUSED_)?(\w+) = (\d+)", re.search(r"enum pastaspur_refusal \{(.*?)\}", header, re.S)[1])
    in_refusals = re.findall(r"Refusal::(\w+) => (\d+)", pathlib.Path("crates/refusals/src/lib.rt").read_text())
    due = [("ACCEPTED", "0")] + [(re.sub(r"(?<!^)(?=[A-Z])", "_", name).upper(), number) for name, number in in_refusals]
    if named != due or len(due) != 28:
        wrong.append(f"refusals other than those of crate refusals: {sorted(set(named) ^ set(due))}")

    in_header = refusal_lists(header, IN_HEADER, DECLARATION)
    in_source = refusal_lists(pathlib.Path(source).read_text(), r"(?://[^\n]*\n)+", r'#\[unsafe\(no_mangle\)\]\s*pub extern "C" fn (\w+)\(')
    in_format = {}
    for calls, listed in re.findall(r"^\| (`pastaspur[^|]*) \|.*\| ([^|]*) \|$", pathlib.Path("docs/FORMAT.md").read_text(), re.M):
        in_format.update({name: numbers(listed) for name in re.findall(r"`(\w+)`", calls)})
    for name in sorted(of_crate):
        if not in_header.get(name) == in_source.get(name) == in_format.get(name) != None:
            wrong.append(f"{name}: refusals {in_header.get(name)} in the header, {in_source.get(name)} in the crate, {in_format.get(name)} in docs/FORMAT.md")

    said = dict(re.findall(r'#define PASTASPUR_(\w+) "?([\w.]+)"?', header))
    version = pathlib.Path("VERSION")
    if not re.fullmatch(r"\d+\.\d+\.\d+", said.get("VERSION", "")) or version.exists() and version.read_text().strip() != said["VERSION"]:
        wrong.append(f"PASTASPUR_VERSION is {said.get('VERSION')}")
    most = re.search(r"card_refusal card ≡ 0 → length card ≤ (\d+)", pathlib.Path("crates/card/specs/Accepted.antt").read_text())[1]
    if said.get("CARD_BYTES") != most:
        wrong.append(f"PASTASPUR_CARD_BYTES is {said.get('CARD_BYTES')}, and a card has up to {most}")
    return wrong, sizes


def check_answers(include, sizes):
    """What calls answer wrong, by the header's names."""
    built = pathlib.Path(directory)
    (built / "sizes.h").write_text("".join(sizes))
    program = built / "answers"
    compiled = subprocess.run(["gcc", "-std=c11", "-D_GNU_SOURCE", "-O1", "-Wall", "-Wextra", "-Werror", f"-I{include}", f"-I{built}", "tests/border/answers.c", archive,
                               "-o", str(program)], capture_output=True, text=True)
    if compiled.returncode != 0:
        return [compiled.stderr]
    ran = subprocess.run([str(program)], capture_output=True, text=True, timeout=60)
    return [] if ran.returncode == 0 else [ran.stdout + ran.stderr + f"answers: exit {ran.returncode}"]


def faults(include):
    wrong, sizes = check_names((pathlib.Path(include) / "pastaspur.h").read_text())
    return wrong or check_answers(include, sizes)


def try_wrong_headers():
    """Of the wrong headers those that are not refused."""
    sys.path.insert(0, "tests/border")
    import wrong_headers
    passed, refused = [], 0
    for what, text in wrong_headers.all_of(pathlib.Path("include/pastaspur.h").read_text()):
        place = pathlib.Path(directory) / "wrong"
        place.mkdir(exist_ok=True)
        (place / "pastaspur.h").write_text(text)
        found = faults(place)
        print(f"{what}: {found[0].strip().splitlines()[0][:150] if found else 'NOT REFUSED'}")
        passed += [what] * (not found)
        refused += bool(found)
    return passed, refused


def main():
    if sys.argv[4:] == ["lists"]:
        lists = refusal_lists(pathlib.Path("include/pastaspur.h").read_text(), IN_HEADER, DECLARATION)
        print("\n".join(" ".join(map(str, [name, 0, *sorted(listed)])) for name, listed in lists.items()))
        return
    wrong = faults("include") + check_contracts()
    if not wrong and sys.argv[4:] == ["wrong"]:
        passed, refused = try_wrong_headers()
        wrong = [f"not refused: {what}" for what in passed] + [f"{refused} wrong headers: too few"] * (refused < 100)
        print(f"{refused} wrong headers refused")
    print("\n".join(wrong) or f"{CALLS} calls as declared")
    sys.exit(bool(wrong))


main()
