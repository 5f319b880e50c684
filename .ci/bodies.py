"""The files of the wrong bodies: what each says, and the edit that it makes."""
import pathlib
import re
from dataclasses import dataclass, field

TOP = pathlib.Path(__file__).resolve().parent.parent
# `rt ci` tries the edits of the first, of which it reads the lines `file:`, `old:` and `new:` alone. There the others begin with
# `# `, as comments do.
FOLDERS = ("must-fail", "wrong_bodies")
NEEDED, OTHERS = ("function", "body", "breaks", "case"), ("callers", "without")


@dataclass
class Body:
    crate: str
    folder: str
    name: str
    says: dict = field(default_factory=dict)
    pairs: list = field(default_factory=list)

    def fault(self):
        """Returns what is wrong with the file, if anything is."""
        lacking = [word for word in NEEDED if not self.says.get(word)]
        if lacking or not self.breaks() or not {*self.says} <= {*NEEDED, *OTHERS}:
            return f"it has no line '{[*lacking, 'breaks'][0]}:', or one without a clause, or a line of its own"
        if not self.source() or not all(old and re.match(r"(src|specs|proofs)/(?!.*\.\.)", file) for file, old, _ in self.pairs):
            return "it has no 'old:' and 'new:' of a source, or no 'file:' before them"
        if self.folder == FOLDERS[0] and "without" in self.says:
            return "rt reads no 'without:'"
        return self.edited(TOP / "crates" / self.crate)[1]

    def functions(self):
        """Returns the function whose body it is, and the callers that may have to refuse it."""
        return [it.strip() for it in [self.says["function"], *self.says.get("callers", "").split(",")] if it.strip()]

    def breaks(self):
        """Returns the clauses that it breaks, each with the names of the functions of which one has to refuse it."""
        found = re.findall(r"`([^`]+)`(?: of `([^`]+)`)?", self.says["breaks"])
        return [(clause, {last(it) for it in ([of] if of else self.functions())}) for clause, of in found]

    def source(self):
        """Returns the source that it edits first."""
        return next((file for file, _, _ in self.pairs if file.startswith("src/")), "")

    def has_a_control(self):
        """Returns whether it changes more than sources."""
        return "without" in self.says or any(not file.startswith("src/") for file, _, _ in self.pairs)

    def edited(self, folder, is_control=False):
        """Returns the new texts of the files that it edits, None of one that it takes away, and why it can't be made."""
        texts = {it: None for it in [self.says.get("without")] if it}
        for file, old, new in self.pairs:
            if is_control and file.startswith("src/"):
                continue
            path = folder / file
            text = texts.get(file) or (path.read_text(encoding="utf-8") if path.is_file() else "")
            if text.count(old) != 1:
                return texts, f"{file} has the text of an 'old:' {text.count(old)} times, and not once: {old.strip()}"
            texts[file] = text.replace(old, new)
        lost = [it for it in texts if not (folder / it).is_file()]
        return texts, f"there is no file {lost[0]}" if lost else None


def last(function):
    return function.split("::")[-1]


def read(path):
    """Returns the bodies of a file. Each begins with a line `name:`, and if the file has no such line it has one body, with the
    file's name. A file of several is named as the source that they edit."""
    crate, folder, *below = path.relative_to(TOP / "crates").with_suffix("").parts
    bodies, pair = [], {}
    for line in path.read_text(encoding="utf-8").splitlines():
        word, _, text = line.removeprefix("# ").partition(":")
        text = text.removeprefix(" ")
        if word == "name" or not bodies:
            bodies.append(Body(crate, folder, text.strip() if word == "name" else path.stem))
            pair = {"file": f"src/{'/'.join(below)}.rt" if word == "name" else "", "old": ""}
        if word in pair:
            pair[word] = text
        elif word == "new":
            bodies[-1].pairs.append((pair["file"].strip(), pair["old"], text))
            pair["old"] = ""
        elif word and word != "name":
            bodies[-1].says[word] = text.strip()
    return bodies


def read_all():
    """Returns the wrong bodies of both folders, those of one source beside one another."""
    bodies = [body for folder in FOLDERS for it in TOP.glob(f"crates/*/{folder}/**/*.edit") for body in read(it)]
    return sorted(bodies, key=lambda it: (it.crate, it.source(), it.name))
