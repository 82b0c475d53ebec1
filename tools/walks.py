#!/usr/bin/env python3
"""For who changes the exports of the C library.

Writes the exports (src/lib.rt, behind the line "// The exports.") and the proof of each one (proofs/NAME/Proof.antt)
from the table in walk_table.py: python3 tools/walks.py crates/fustrevol_c

Each export does one of these: it makes a value in the caller's storage, opens a pool over a region, or lends what one
or two pointers point to for one call of the crate below. The proofs of one form are one text in tools/walk_forms, in
which @words@ stand for what differs.
"""
import argparse
import pathlib
import re
from dataclasses import dataclass

from walk_table import EXPORTS, KINDS, WIDTHS

CRATE = "fustrevol_c"
BELOW = "seated_desk"
FORMS = pathlib.Path(__file__).resolve().parent / "walk_forms"
MARK = "// The exports.\n"
# what the clause of a kind's `new` tells of the value `u`
TOLD = {
    "pool": "(u.allocators ≡ 0) × (u.shelf.items ≡ []) × (u.number ≡ 0) × (u.fault ≡ 0)",
    "allocator": "u.station ≡ None",
    "buf": "u.buf ≡ None",
    "burst": "u.parcel ≡ None",
}


def pairs(items):
    """Nested pairs, as Antt writes a tuple of any length."""
    items = list(items)
    return f"({items[0]}, {pairs(items[1:])})" if items else "tt"


def product(types):
    types = list(types)
    return f"({types[0]} × {product(types[1:])})" if types else "Unit {0}"


def at(place):
    """The way to an argument."""
    return ".1" * place + ".0"


def listed(values):
    """A list of values, each with what follows in brackets."""
    return closed("".join(f"{value} ∷ (" for value in values) + "[]")


def closed(text):
    return text + ")" * (text.count("(") - text.count(")"))


def filled(form, words):
    text = (FORMS / f"{form}.antt.in").read_text()
    for word, value in words.items():
        text = text.replace(f"@{word}@", value)
    return closed(re.sub(" +\n", "\n", text).rstrip("\n")) + "\n"


def numbers_words(export, first):
    """The words for the numbers, which stand from this place on among the arguments."""
    numbers = list(enumerate(export.numbers, first))
    return {
        "integers": "".join(f"    let {name} = a{at(place)} in\n" for place, (name, _) in numbers),
        "integer_values": listed(f"vint {WIDTHS[kind]} {name}" for name, kind in export.numbers),
        "more": listed(f"vint {WIDTHS[kind]} {name}" for name, kind in export.numbers),
        "given": owned(export, first),
    }


def owned(export, first):
    """The steps that give the numbers to the callee, the last one first."""
    steps = [
        f"owned ! {kind} _ (uint_Makes 𝓛 {WIDTHS[kind]}) {name} _ (refl, are{at(place)}.1) $ join ! $ "
        for place, (name, kind) in enumerate(export.numbers, first)
    ]
    return "".join(reversed(steps))


def parameter_words(export, pointers, extra=()):
    """The words for the parameters: the pointers, then `extra` (name, kind), then the numbers."""
    numbers = list(extra) + export.numbers
    goes = lambda row: f"Goes-dropped 𝓛 0 (plain (λ _. {row})) yes (λ κs x w. refl)"
    count = len(pointers) + len(numbers)
    return {
        "stays": pairs(["stay_dropped _ yes"] * count),
        "goes": pairs([goes("RawPtr")] * len(pointers) + [goes(kind) for _, kind in numbers]),
        "forms": pairs(["rawptr_vals"] * len(pointers) + [f"uint_vals {WIDTHS[kind]}" for _, kind in numbers]),
        "tells": pairs(["rawptr_Tells"] * len(pointers) + [f"uint_Tells {WIDTHS[kind]}" for _, kind in numbers]),
        "arguments": pairs(pointers + [name for name, _ in numbers]),
        "values": pairs([f"rawptr_vals {p}" for p in pointers] + [f"uint_vals {WIDTHS[k]} {name}" for name, k in numbers]),
    }


def callee_words(export):
    return {
        "crate": CRATE,
        "below": BELOW,
        "name": export.name,
        "callee": export.callee,
        "path": export.path,
    }


def clause_uses(export):
    """The imports for a clause that the export repeats."""
    if not export.clause:
        return ""
    file = export.clause.partition(".")[0]
    words = {"below": BELOW, "file": file, "definition": export.definition}
    return filled("clause_uses", words)


def lends_uses(export):
    """The imports of a walk that lends."""
    told = [f"{kind}_at" for kind in export.pointers if kind not in export.clause_about]
    places = [f"{kind}_row" for kind in export.pointers] + told
    words = callee_words(export) | {"places": ", ".join(dict.fromkeys(places))}
    return filled("lends_uses", words) + clause_uses(export)


@dataclass
class Loan:
    """What a walk calls one pointer: its row, what it is given, its block, and its value before and after the call."""

    row: str
    place: str
    given: str
    block: str
    before: str
    after: str
    told: bool

    def lies(self, value, at):
        return f"lies_at {self.row} full_share {at} {value}"


def loans_of(export):
    names = [("a.0", "(block_ptr b o)", "s", "ws.0"), ("a.1.0", "(block_ptr b₂ o₂)", "s₂", "ws.1.0")]
    return [
        Loan(f"{kind}_row", f"{kind}_at", *name, told=kind in export.clause_about)
        for kind, name in zip(export.pointers, names)
    ]


def clause_words(export):
    """The words for the pointers' values: some value before and after, or these very values of which a clause speaks."""
    loans = loans_of(export)
    told = [loan for loan in loans if loan.told]
    # the ghost argument is the value, or the pair of both values
    ghosts = ["n"] if len(told) < 2 else ["n.0", "n.1"]
    given = dict(zip([loan.row for loan in told], ghosts))

    def owned_now(loan):
        return f"‵ ({loan.lies(given[loan.row], loan.given)})" if loan.told else f"‵ ({loan.place} {loan.given})"

    def picked(loan):
        return f"let {loan.before} = {given[loan.row]} in" if loan.told else f"fpick ! (λ {loan.before}."

    def packed(loan):
        return "" if loan.told else f"fpack ! {loan.row}.Denot (λ t. {loan.lies('t', loan.block)}) {loan.after} $\n    "

    words = {
        "owned": owned_now(loans[0]) if len(loans) < 2 else f"({owned_now(loans[0])} ⊛ {owned_now(loans[1])})",
        "first_picked": picked(loans[0]),
        "last_picked": picked(loans[-1]),
        "first_packed": packed(loans[0]),
        "last_packed": packed(loans[-1]),
    }
    if not told:
        return words | {"told": "emp 𝓤", "hears": "", "gathered": "join ! $ move ! (1 ∷ []) $", "says": ""}

    def clause(answer, values):
        """The clause, with a value after the call for each pointer of which it speaks."""
        about = [word for loan, value in zip(told, values) for word in (loan.before, value)]
        return " ".join([export.definition] + export.clause_of.split() + [answer] + about)

    after = [loan.after for loan in told]
    shown = ["t"] if len(told) < 2 else ["t.0", "t.1"]
    body = f"fact 𝓤 ({clause('u', shown)})"
    for loan, value in reversed(list(zip(told, shown))):
        body = f"sep 𝓤 (sem 𝓛 ({loan.lies(value, loan.block)})) ({body})"
    types = " × ".join(f"{loan.row}.Denot" for loan in told)
    witness = after[0] if len(told) < 2 else f"({', '.join(after)})"
    return words | {
        "told": f"fact 𝓤 ({clause('u', after)})",
        "hears": "move ! (1 ∷ []) $ heard ! _ (λ told. nothing ! $ move ! (1 ∷ 0 ∷ []) $ ",
        "gathered": "move ! (2 ∷ 0 ∷ 1 ∷ []) $",
        "says": "frame ! $ " * (1 + len(loans) - len(told))
        + f"\n    show ! (λ (t : {types}). {body}) {witness} $ "
        + "frame ! $ " * (len(told) - 1)
        + "says ! told $ ",
    }


def lends_walk(export):
    kinds = [KINDS[kind] for kind in export.pointers]
    count = len(kinds) + len(export.numbers)
    rows = [f"{kind}_row" for kind in export.pointers]
    lifetimes, bounds = [], []
    for name, kind in zip(["κ", "λ₂"], kinds):
        lifetimes.append(name)
        # the lifetime of the region is a parameter of the callee's, named once
        if kind.lifetime:
            bounds.append(f"⊑_static {name}")
            if name == "κ":
                lifetimes.append("[]")
    loans = ["r", "r₂"][: len(kinds)]
    numbers = [(name, WIDTHS[kind]) for name, kind in export.numbers]
    fits = [f"(tt, record {{ fits = are{at(place)}.1 }})" for place in range(len(kinds), count)]
    words = {
        "uses": lends_uses(export),
        "row": rows[0],
        "last_row": rows[-1],
        "passed": pairs(["(tt, tt)"] * len(kinds) + fits),
        "lifetimes": pairs(lifetimes),
        "shares": pairs(["full_share"] * len(lifetimes)),
        "bounds": pairs(bounds),
        "lent": pairs(loans + [name for name, _ in numbers]),
        "lent_values": pairs([f"mut_vals {r}" for r in loans] + [f"vint {width} {name} ∷ []" for name, width in numbers]),
        "operands": closed("(and_then ! (get ! refl) " * count + "(no_more !"),
        "lasts": product([f"{row}.Denot" for row in rows] + ["Unit {0}"] * len(numbers))[1:-1],
        "result": export.answer,
        "width": WIDTHS[export.answer],
        "units": pairs(["tt"] * count),
        "joins": "nothing ! $ join ! $ " * count,
    }
    words |= parameter_words(export, ["p", "r"][: len(kinds)]) | callee_words(export)
    words |= numbers_words(export, len(kinds)) | clause_words(export)
    return filled("lends_two" if len(kinds) == 2 else "lends_one", words)


def makes_walk(export):
    kind = export.pointers[0]
    told = TOLD[kind]
    uses = "\nuse contract.Monad.{fact}" + ("\nuse Rattle.std.specs.Prelude.{None}" if "None" in told else "")
    words = {
        "type": KINDS[kind].module,
        "path": KINDS[kind].path,
        "row": f"{kind}_row",
        "at": f"{kind}_at",
        "room": f"{kind}_room",
        "told": f"fact 𝓤 ({told})",
        "told_uses": uses,
    }
    return filled(export.form, callee_words(export) | words)


def opens_walk(export):
    # behind the pool and the region come the region's length and the numbers
    count = 3 + len(export.numbers)
    numbers = [(name, WIDTHS[kind]) for name, kind in export.numbers]
    fits = [f"(tt, record {{ fits = are{at(place)}.1 }})" for place in range(3, count)]
    words = {
        "depth": str(5 + len(numbers)),
        "passed": pairs(["(tt, tt)"] * 2 + ["(tt, record { fits = fits })"] + fits),
        "lent": pairs(["r", "r₂"] + [name for name, _ in numbers]),
        "lent_values": pairs(
            ["mut_vals r", "slice_val (b₂, o₂) size ∷ []"] + [f"vint {width} {name} ∷ []" for name, width in numbers]
        ),
        "owned": owned(export, 3),
        "operands": closed("(and_then ! (get ! refl) " * (count - 1) + "(no_more !"),
        "lasts": product(["row.Denot"] + ["Unit {0}"] * (count - 2))[1:-1],
        "units": pairs(["tt"] * count),
        "joins": "nothing ! $ join ! $ " * count,
    }
    clause = " ".join([export.definition] + export.clause_of.split())
    words |= {"clause": clause, "clause_uses": clause_uses(export)}
    words |= parameter_words(export, ["p", "r"], extra=[("size", "usize")]) | callee_words(export)
    return filled("opens", words | numbers_words(export, 3))


def function(export, parameters, answer, ghosts, requires, ensures, body):
    """The text of an export."""
    head = f'pub unsafe extern "C" fn {export.name}({", ".join(parameters)}){answer}'
    if len(head) > 99:
        lines = "".join(f"    {parameter},\n" for parameter in parameters)
        head = f'pub unsafe extern "C" fn {export.name}(\n{lines}){answer}'
    clauses = f"{ghosts}    requires* {{ {requires} }}\n    ensures* {{ {ensures} }}\n"
    return f"/// {export.doc}\n#[unsafe(no_mangle)]\n{head}\n{clauses}{{\n{body}}}\n"


def pointer(kind):
    return f"{kind}: *mut {KINDS[kind].c}"


def all_at(export):
    return " ∗ ".join(f"sem 𝓛 ({kind}_at {kind})" for kind in export.pointers)


def lent_lines(export):
    return "".join(
        f"    let {kind} = unsafe {{ &mut *({kind} as *mut {KINDS[kind].static}) }};\n" for kind in export.pointers
    )


def makes_export(export):
    kind = export.pointers[0]
    heap = export.form == "makes_with_heap"
    body = f"    let made = {KINDS[kind].rust}::new({'alloc' if heap else ''});\n"
    body += f"    unsafe {{ std::ptr::write({kind} as *mut {KINDS[kind].static}, made) }};\n"
    parameters = (["alloc: Global"] if heap else []) + [pointer(kind)]
    return function(export, parameters, "", "", f"sem 𝓛 ({kind}_room {kind})", all_at(export), body)


def value_of(kind):
    """The name of the type of what lies behind the pointer, as specs/Places.antt has it."""
    return KINDS[kind].c.removeprefix("Fv") + "Value"


def lies(kind, value):
    return f"sem 𝓛 (lies_at {kind}_row full_share {kind} {value})"


def opens_export(export):
    parameters = [pointer("pool"), "at: *mut u8", "len: usize"] + [f"{name}: {kind}" for name, kind in export.numbers]
    region = "(sem 𝓛 (lies_at (Array u8 len) full_share at before.0) ∗ ⌜ len < 2 ^ 63 ⌝)"
    body = lent_lines(export) + "    let region = unsafe { std::slice::from_raw_parts_mut(at, len) };\n"
    body += f"    pool.open({', '.join(['region'] + [name for name, _ in export.numbers])})\n"
    ghosts = "    ghost before: { List ℕ × PoolValue }\n"
    clause = " ".join(filter(None, [export.definition, export.clause_of, "result before.1 after"]))
    after = f"∃ₛ (λ (after : PoolValue). {lies('pool', 'after')} ∗ ⌜ {clause} ⌝)"
    return function(
        export, parameters, f" -> {export.answer}", ghosts, f"{lies('pool', 'before.1')} ∗ {region}", after, body
    )


def lends_export(export):
    about = export.clause_about
    ghosts, before, after = "", all_at(export), all_at(export)
    if export.clause:
        parts = [""] if len(about) < 2 else [".0", ".1"]
        value = " × ".join(value_of(kind) for kind in about)
        others = "".join(f"sem 𝓛 ({kind}_at {kind}) ∗ " for kind in export.pointers if kind not in about)
        spoken = [f"{time}{part}" for part in parts for time in ("before", "after")]
        clause = " ".join(filter(None, [export.definition, export.clause_of, "result", *spoken]))
        then = f"⌜ {clause} ⌝"
        for kind, part in reversed(list(zip(about, parts))):
            then = f"{lies(kind, 'after' + part)} ∗ ({then})" if then.startswith("sem") else f"{lies(kind, 'after' + part)} ∗ {then}"
        ghosts = f"    ghost before: {{ {value} }}\n"
        before = others + " ∗ ".join(lies(kind, "before" + part) for kind, part in zip(about, parts))
        after = f"{others}∃ₛ (λ (after : {value}). {then})"
    parameters = [pointer(kind) for kind in export.pointers] + [f"{name}: {kind}" for name, kind in export.numbers]
    passed = ", ".join(export.pointers[1:] + [name for name, _ in export.numbers])
    body = lent_lines(export) + f"    {export.pointers[0]}.{export.method}({passed})\n"
    return function(export, parameters, f" -> {export.answer}", ghosts, before, after, body)


def size_export(kind):
    return (
        f"/// How many bytes {KINDS[kind].noun} takes.\n#[unsafe(no_mangle)]\n"
        f'pub extern "C" fn fv_{kind}_size() -> usize {{\n    std::mem::size_of::<{KINDS[kind].static}>()\n}}\n'
    )


WRITERS = {
    "makes": (makes_export, makes_walk),
    "makes_with_heap": (makes_export, makes_walk),
    "opens": (opens_export, opens_walk),
    "lends": (lends_export, lends_walk),
}


def arguments():
    parser = argparse.ArgumentParser(description=__doc__, formatter_class=argparse.RawDescriptionHelpFormatter)
    parser.add_argument("crate", type=pathlib.Path, help="its folder")
    return parser.parse_args()


def main():
    crate = arguments().crate
    texts = []
    for export in EXPORTS:
        text, walk = WRITERS[export.form]
        texts.append(text(export))
        folder = crate / "proofs" / export.name
        folder.mkdir(parents=True, exist_ok=True)
        (folder / "Proof.antt").write_text(walk(export))
    texts += [size_export(kind) for kind in ("pool", "allocator", "buf", "burst")]
    lib = crate / "src/lib.rt"
    head = lib.read_text().split(MARK)[0].rstrip("\n")
    lib.write_text(f"{head}\n\n{MARK}" + "\n".join(texts))
    (crate / "proofs/Steps.antt").write_text((FORMS / "steps.antt.in").read_text())
    (crate / "proofs/Lib.antt").write_text("pub mod Steps\n")


if __name__ == "__main__":
    main()
