#!/usr/bin/env python3
"""Makes the functions of each kind and order from those for max-heaps of src/signed.rt and src/keyed.rt, which are
written by hand, and their declarations from those of the header.

    kinds.py            writes them behind the line MARK of each source, and in the header behind the declaration by hand
    kinds.py --check    says instead which files have others there, and fails if one has
"""
import pathlib
import re
import sys

HERE = pathlib.Path(__file__).resolve().parent
SOURCES, HEADER = HERE / "src", HERE / "dary_heap_c.h"
MARK = "// `kinds.py` makes what follows.\n\n"
# What the functions written by hand have for five words: the order, the end of a name, the type of an item, how items
# are compared, and the judge.
BY_HAND = {
    "signed": ("max", "i64", "i64", "int_cmp", "ByOrd::new()"),
    "keyed": ("max", "keyed", "Entry", "by_key", "ByKey::new()"),
}
# A source, that of the functions from which its own are made, and what these have for the five words.
MADE = [
    ("signed", "signed", "min", "i64", "i64", "(flip_args int_cmp)", "LeastFirst(ByOrd::new())"),
    ("unsigned", "signed", "max", "u64", "u64", "nat_cmp", "ByOrd::new()"),
    ("unsigned", "signed", "min", "u64", "u64", "(flip_args nat_cmp)", "LeastFirst(ByOrd::new())"),
    ("double", "signed", "max", "double", "u64", "total_order", "ByKey::new()"),
    ("double", "signed", "min", "double", "u64", "(flip_args total_order)", "LeastFirst(ByKey::new())"),
    ("entry", "signed", "max", "entry", "Entry", "by_key", "ByKey::new()"),
    ("entry", "signed", "min", "entry", "Entry", "(flip_args by_key)", "LeastFirst(ByKey::new())"),
    ("sequenced", "signed", "max", "sequenced", "Item", "key_then_earlier", "ByKey::new()"),
    ("sequenced", "signed", "min", "sequenced", "Item", "(flip_args key_then_later)", "LeastFirst(ByLater::new())"),
    ("keyed", "keyed", "min", "keyed", "Entry", "(flip_args by_key)", "LeastFirst(ByKey::new())"),
]
# What the header has for the type of an item.
IN_C = {
    "i64": "int64_t",
    "u64": "uint64_t",
    "double": "double",
    "entry": "struct dheap_entry",
    "sequenced": "struct dheap_sequenced",
    "keyed": "struct dheap_entry",
}
# A declaration that is written by hand, and those behind it.
DECLARED = re.compile(r"^(DARY_HEAP_MUST_USE bool dheap_max_(\w+)_(i64|keyed)\([^;]*;)\n(?:.+\n)*", re.M)


def path(source):
    return SOURCES / f"{source}.rt"


def parted(source):
    """Returns what is written by hand in a source, and what stands behind the mark."""
    by_hand, mark, rest = path(source).read_text(encoding="utf-8").partition(MARK)
    return (by_hand, rest) if mark else sys.exit(f"src/{source}.rt has no line {MARK.strip()}")


def functions_of(by_hand):
    """Returns the functions of what is written by hand in a source."""
    _, attribute, rest = by_hand.partition("#[unsafe(no_mangle)]")
    return (attribute + rest).rstrip() + "\n"


def made(functions, theirs, which, ending, item, order, judge):
    """Returns the functions written by hand with other words in them."""
    old_which, old_ending, old_item, old_order, old_judge = map(re.escape, theirs)
    words = {
        rf"\bdheap_{old_which}_(\w+)_{old_ending}\b": rf"dheap_{which}_\1_{ending}",
        rf"\b{old_item}\b": item,
        rf"\b{old_order}\b": order,
        rf"\b{old_judge}": judge,
    }
    for old, new in words.items():
        functions = re.sub(old, new, functions)
    # (in a signature of more than 100 columns `rt fmt` gives each parameter its own line)
    return re.sub(r"^(?=.{101})(pub .*?\()(.*)(\).*)", in_lines, functions, flags=re.M)


def in_lines(signature):
    name, parameters, result = signature.groups()
    return "\n".join([name, *(f"    {it}," for it in parameters.split(", ")), result])


def declarations(found):
    """Returns a declaration written by hand, and those of the other kinds and orders."""
    by_hand, function, ending = found.groups()
    origin = next(it for it, words in BY_HAND.items() if words[1] == ending)
    kinds = [words[:2] for _, of, *words in MADE if of == origin]
    plain = re.sub(r"\s+", " ", by_hand)
    made = [
        plain.replace(f"dheap_max_{function}_{ending}", f"dheap_{which}_{function}_{it}").replace(f"{IN_C[ending]} *items", f"{IN_C[it]} *items")
        for which, it in kinds
    ]
    return "".join(f"{in_columns(it)}\n" for it in [plain, *made])


def in_columns(declaration):
    """Breaks a declaration of more than 120 columns before its last parameters."""
    if len(declaration) <= 120:
        return declaration
    at = declaration.rindex(", ", 0, 119) + 1
    return declaration[:at] + "\n" + " " * (declaration.index("(") + 1) + declaration[at + 1 :]


def main():
    if sys.argv[1:] not in ([], ["--check"]):
        sys.exit(__doc__)
    sources = {source: parted(source) for source, *_ in MADE}
    wanted = dict.fromkeys(sources, "")
    for source, origin, *words in MADE:
        functions = made(functions_of(sources[origin][0]), BY_HAND[origin], *words)
        wanted[source] += ("\n" if wanted[source] else "") + functions
    header = DECLARED.sub(declarations, HEADER.read_text(encoding="utf-8"))
    files = {HEADER: header, **{path(it): by_hand + MARK + wanted[it] for it, (by_hand, _) in sources.items()}}
    others = [it for it, text in files.items() if it.read_text(encoding="utf-8") != text]
    for it in others:
        if sys.argv[1:]:
            print(f"{it.relative_to(HERE)} has other functions than kinds.py makes")
        else:
            it.write_text(files[it], encoding="utf-8")
    return 1 if sys.argv[1:] and others else 0


if __name__ == "__main__":
    sys.exit(main())
