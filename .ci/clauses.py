"""The clauses that a document names in parentheses, and the contracts in which they have to stand."""
import re
from functools import cache

from bodies import TOP

# A record or an abbreviation of the specs.
DEFINITION = re.compile(r"^ *(?:pub record|abbrev(?: pub)?) ([A-Z]\w*)[^\n]*\n(.*?)(?=^$|\Z)", re.M | re.S)
# Of a source: where an item begins, the type whose it is, a function with its contract, and a clause.
ITEM = re.compile(r"^(?=(?:impl|pub|fn|struct|enum|trait)\b)", re.M)
OWNER = re.compile(r"(?:impl\b[^{]*? for (?:&(?:'\w+ )?(?:mut )?)?|impl(?:<.*?>)? |(?:pub )?(?:struct|enum|trait) )(\w+)", re.S)
FUNCTION = re.compile(r"^( *)(?:pub(?:\(\w+\))? )?fn (\w+)(.*?)(?:;$|^\1[{}])", re.M | re.S)
CLAUSE = re.compile(r"\b(ensures|requires|ghost)\b\*? *(\w*) *[=:]? *(\{(?:[^{}]|\{(?:[^{}]|\{[^{}]*\})*\})*\})")
# Of a document: a link, its target once it is written `text<target>`, a part of a sentence with the clauses that it ends with, names
# in a list, and clauses with the name after their `of`.
LINK = re.compile(r"\[([^\]]*)\]\(([^()\s]+)\)")
TARGET = re.compile(r"<([^<>\s]+)>")
PART = re.compile(r"(.*?)(\([^()]*`[^()]*\)|[.;] |$)")
LIST = re.compile(r"`[\w:]+`(?:(?:, and |, | and )`[\w:]+`)*")
NAMED = re.compile(r"((?:`\w+` and )*`\w+`)(?!<)(?: of `([\w:]+)`(?:<(\S+?)>)?)?")


@cache
def definitions():
    """Returns the records and abbreviations of all specs, each with the text that defines it."""
    found = [it for path in TOP.glob("crates/*/specs/**/*.antt") for it in DEFINITION.findall(path.read_text(encoding="utf-8"))]
    return {name: "".join(body for other, body in found if other == name) for name, _ in found}


@cache
def fields(name):
    """Returns the fields of a record."""
    return {*re.findall(r"^ +pub (\w+) :", definitions().get(name, ""), re.M)}


def said(clauses):
    """Returns the names of clauses, of the definitions that they use, and of those that such an abbreviation uses; also the fields
    of these where the clause has no name of its own: it has none, or the trait's, as a `ghost` item has."""
    found = set()
    for kind, name, body in clauses:
        used = {*re.findall(r"[A-Z]\w*", body)} & {*definitions()}
        short = " ".join(definitions()[it] for it in used if not fields(it))
        used |= {*re.findall(r"[A-Z]\w*", short)} & {*definitions()}
        found = found.union({name} - {""}, used, *[fields(it) for it in used if kind == "ghost" or not name])
    return found


@cache
def contracts(path):
    """Returns of each function of a module, which is a file with its folder, its name, its type's, and what its contract says, the
    `ghost` items of its impl included. These stand under the type's name alone too."""
    found = []
    for file in [path, *path.with_suffix("").glob("**/*.rt")]:
        for item in ITEM.split(file.read_text(encoding="utf-8")):
            owner, shared = OWNER.match(item), [it for it in CLAUSE.findall(item) if it[0] == "ghost"]
            for _, name, head in [("", "", ""), *FUNCTION.findall(item)]:
                found.append((name, owner and owner[1], said([*shared, *CLAUSE.findall(head)])))
    return [it for it in found if it[2]]


def said_of(name, paths):
    """Returns what the contracts of a function or a type say, in the last of the sources that has one with this name."""
    owner, _, last = name.rpartition("::")
    for path in reversed(paths):
        found = [it for function, of, it in contracts(path) if of == name or function == last and owner in ("", of)]
        if found:
            return set().union(*found)


def said_by(of, target, page, paths):
    """Returns what a function or a type says, or the fields of a record. If a file of specs is linked, it has to have the record, or
    what it defines is returned if it has this name itself."""
    file = page.parent / target
    if file.suffix != ".antt" or not file.is_file():
        return said_of(of, paths) or fields(of)
    own = {name for name, _ in DEFINITION.findall(file.read_text(encoding="utf-8"))}
    return fields(of) if of in own else own if of == file.stem else set()


def said_in(text, paths):
    """Returns what is said by the functions that a text names, of those in a list only what each says, and by the modules that it
    links by their names; or else by the types that it names; or else by any module that it links. None if there is none."""
    lists = [re.findall(r"`([\w:]+)`", it) for it in LIST.findall(TARGET.sub("", text))]
    modules = {it: set().union(*[said for _, _, said in contracts(it)]) for it in paths if f"/{it.name}>" in text}
    for is_type in (False, True):
        sets = [[said_of(it, paths) or set() for it in names if it[0].isupper() == is_type] for names in lists]
        sets += [[it] for path, it in modules.items() if f"`{path.stem}`<" in text and not said_of(path.stem, [path]) and not is_type]
        if any(map(any, sets)):
            return set().union(*[set.intersection(*it) for it in sets if it])
    return set().union(*modules.values()) or None


def check_clauses(page):
    """Returns of each clause that a page names in parentheses what is wrong with it, or None. Only the section of what is proved is
    read, or if it has none, all up to what is only tested."""
    text, _, section = page.read_text(encoding="utf-8").partition("\n## What is proved\n")
    text = section.partition("\n## ")[0] or text.partition("\n## What is only tested\n")[0]
    found, paths, lead = [], [], set()
    for line in LINK.sub(r"\1<\2>", text).splitlines():
        if line.startswith("#"):
            paths, lead = [], set()
        whom = lead
        for part, group in PART.findall(line):
            linked = [(page.parent / it).resolve() for it in TARGET.findall(part + group)]
            paths += [it for it in linked if it.suffix == ".rt" and it.is_file()]
            named = said_in(part, paths)
            whom = whom if named is None else named
            for words, of, target in NAMED.findall(group):
                has = said_by(of, target, page, paths) if of else whom
                fault = f"{page.relative_to(TOP)}: no contract has the `%s` of '{(part + group)[-90:]}'"
                found += [None if it in has else fault.replace("%s", it) for it in re.findall(r"`(\w+)`", words)]
        lead = lead if not line or line.lstrip().startswith(("|", "-")) else whom
    return found
