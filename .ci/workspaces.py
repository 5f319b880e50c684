"""Repositories of some of the crates, and of a caller of them. As a command it lays crates out: workspaces.py FOLDER CRATE.."""
import pathlib
import re
import shutil
import subprocess
import sys

TOP = pathlib.Path(__file__).resolve().parent.parent
CRATE = TOP / "crates/dary_heap"
# The first line of a block of code that begins a file of a caller.
HEAD = re.compile(r"^(?://|--) ((?:src|specs|proofs)/\S+)\n", re.M)


def lay_out(tree, *names):
    """Copies these crates and those below them to a folder. What was proved there stays. Returns their names, lowest first."""
    lines = (TOP / "crates.txt").read_text(encoding="utf-8").splitlines()
    rows, needed = {re.split(r"\W", it)[0]: it for it in lines if it[:1].isalpha()}, {*names}
    for _ in rows:
        needed.update(below for it in [*needed] for below in rows[it].partition(":")[2].split() if below in rows)
    for name in needed:
        empty(tree / "crates" / name)
        shutil.copytree(TOP / "crates" / name, tree / "crates" / name, ignore=shutil.ignore_patterns("out"), dirs_exist_ok=True)
    set_rows(tree, "".join(f"{row}\n" for it, row in rows.items() if it in needed))
    shutil.copy(TOP / "HANDLES", tree)
    # (crates.txt has each crate below those that stand on it)
    return [it for it in rows if it in needed]


def add_caller(tree, files, *libraries):
    """Adds a crate `my_crate` over these libraries to a repository. Its files are a dict from path to text. Returns its folder."""
    folder = tree / "crates/my_crate"
    for path, text in files.items():
        (folder / path).parent.mkdir(parents=True, exist_ok=True)
        (folder / path).write_text(text, encoding="utf-8")
    rows = (tree / "crates.txt").read_text(encoding="utf-8")
    set_rows(tree, f"{rows}my_crate: {' '.join(libraries)}\n")
    return folder


def set_rows(tree, rows):
    """Writes crates.txt as a new file, since in a copy it may be a link."""
    (tree / "crates.new").write_text(rows, encoding="utf-8")
    (tree / "crates.new").rename(tree / "crates.txt")


def empty(crate):
    """Removes what is in a crate's folder, if it is there, but for what was proved."""
    for it in crate.glob("*"):
        if it.is_dir() and it.name != "out":
            shutil.rmtree(it)
        elif it.name != "out":
            it.unlink()


def rt(folder, *words):
    """Runs a command of `rt` in a folder."""
    return subprocess.run(["rt", *words], cwd=folder, capture_output=True, encoding="utf-8")


if __name__ == "__main__":
    lay_out(pathlib.Path(sys.argv[1]), *sys.argv[2:])
