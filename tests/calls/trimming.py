"""Card B without each of its arcs in turn: the answers of four words, and of four heard only in part, by both engines. An answer that does not travel the
arc stays, as S-12 has it; which arcs an answer travels is worked out here, from the candidate. Where one does travel the arc, CHANGED has what comes."""
from calls import case, cull, cull_sets, optimize, optimize_sets, pack
from cards import B, DELETION, INSERTION, ONSET, bits, card, machine

PARTS = ONSET, INSERTION, DELETION
WORDS, SETS = (optimize, cull), (optimize_sets, cull_sets)
TWO, EITHER = bits({2}), bits({1, 2})

# Engines, ranking, word or sets, and card B's answer: the profile and the pairs.
ASKED = [(WORDS, [0, 1, 2], [2], "0,0,1 2:0"), (WORDS, [0, 2, 1], [2], "0,1,0 0:1 2:2"),
         (WORDS, [1, 2, 0], [2], "1,0,0 2:2"), (WORDS, [2, 1, 0], [1, 2, 2], "1,0,0 1:1 2:2 2:2"),
         (SETS, [0, 1, 2], [TWO], "0,0,1 2:0"), (SETS, [0, 2, 1], [EITHER], "0,0,0 1:1"),
         (SETS, [1, 2, 0], [EITHER], "0,0,0 1:1"), (SETS, [2, 0, 1], [TWO, EITHER, TWO], "0,1,0 0:1 2:2 1:1 2:2")]

# By machine and arc: the places in ASKED of the answers that travel the arc, and what is answered without it. No answer travels arcs 3 and 4 of machine 0.
NONE = "refused"
CHANGED = {
    (0, 0): {0: "0,1,0 0:1 2:2", 4: "0,1,0 0:1 2:2"},
    (0, 1): {1: "0,0,1 2:0", 3: "2,0,1 1:0 2:2 2:2", 5: "0,0,1 1:0", 6: "1,0,0 2:2", 7: "3,0,0 2:2 2:2 2:2"},
    (0, 2): {2: "0,0,1 2:0", 3: "0,1,0 1:1 2:2 0:1 2:2"},
    (0, 3): {},
    (0, 4): {},
    (0, 5): {1: "0,0,1 2:0", 3: "2,0,1 1:0 2:2 2:2", 7: "3,0,0 2:2 2:2 2:2"},
    (1, 0): dict.fromkeys(range(8), NONE),
    (1, 1): {1: "0,0,1 2:0", 7: "1,0,0 2:2 1:1 2:2"},
    (2, 0): {3: "2,0,1 1:0 2:2 2:2", 5: "0,1,0 0:1 2:2", 6: "1,0,0 2:2", 7: "0,3,0 0:1 2:2 0:1 2:2 0:1 2:2"},
    (2, 1): {1: "0,0,1 2:0", 2: "0,0,1 2:0", 3: "0,0,2 1:1 2:0 2:0", 7: "0,0,2 2:0 1:1 2:0"},
    (2, 2): {1: "0,0,1 2:0", 7: "1,0,0 2:2 1:1 2:2"},
    (2, 3): {0: "0,1,0 0:1 2:2", 4: "0,1,0 0:1 2:2"},
}


def arcs(part):
    return [part[at:at + 20] for at in range(2 + part[0], len(part), 20)]


def without(part, arc):
    return machine(part[2:2 + part[0]], arcs(part)[:arc] + arcs(part)[arc + 1:])


def travelled(part, answer):
    """The arcs that a candidate travels. Card B has sets of the lowest byte alone, and kind 0."""
    state, by = 0, set()
    for pair in answer.split()[1:]:
        read, written = map(int, pair.split(":"))
        [place] = [n for n, arc in enumerate(arcs(part)) if arc[0] == state and arc[4] >> read & 1 and arc[12] >> written & 1]
        by.add(place)
        state = arcs(part)[place][1]
    return by


def try_card(name, card, answers):
    for place, (engines, ranking, asked, _) in enumerate(ASKED):
        profile, *pairs = answers[place].split()
        for engine in engines:
            call = engine(card, ranking, asked, 64)
            expected = call.refuses(10) if profile == NONE else call.gives(profile.split(","), " ".join(pairs), len(asked))
            case(f"{name}, answer {place}, {engine.__name__}", expected)


FIRST = [answer for *_, answer in ASKED]
try_card("B", B, FIRST)
for (at, arc), changed in CHANGED.items():
    name, parts = f"machine {at} without arc {arc}", list(PARTS)
    parts[at] = without(PARTS[at], arc)
    trimmed = card(2, *parts)
    assert changed.keys() == {place for place, answer in enumerate(FIRST) if arc in travelled(PARTS[at], answer)}, name
    case(f"{name}, packed", pack(2, [len(part) for part in parts], b"".join(parts), 244).gives(trimmed))
    try_card(name, trimmed, [changed.get(place, answer) for place, answer in enumerate(FIRST)])
