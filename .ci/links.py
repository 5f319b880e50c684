"""The links of Markdown files, and what is told of faults."""
import re

FENCE = re.compile(r"^```(\w*)\n(.*?)^```$", re.M | re.S)
LINK = re.compile(r"\[[^\]\[]*(?:\[[^\]]*\][^\]\[]*)*\]\(([^()\s]+)\)")


def anchors(path):
    """Returns the anchors of a document's headings, as GitHub makes them."""
    found = set()
    for line in FENCE.sub("", path.read_text(encoding="utf-8")).splitlines():
        if heading := re.match(r"#+ +(.*?)\s*$", line):
            text = re.sub(r"\[([^\]]*)\]\([^)]*\)", r"\1", heading[1]).lower()
            slug = re.sub(r"[^\w\- ]", "", text).replace(" ", "-")
            twins = sum(1 for it in found if re.fullmatch(rf"{re.escape(slug)}(-\d+)?", it))
            found.add(f"{slug}-{twins}" if slug in found else slug)
    return found


def follow(path, target, top):
    """Returns what is wrong with a link of a document, if anything is: it has to name a file or a folder below `top`, and its
    anchor a heading."""
    name, _, anchor = target.partition("#")
    there = (path.parent / name).resolve() if name else path
    if not there.exists() or not there.is_relative_to(top):
        return f"{path.relative_to(top)}: there is no {target}"
    if anchor and there.suffix == ".md" and anchor not in anchors(there):
        return f"{path.relative_to(top)}: {name or 'the page'} has no heading #{anchor}"


def follow_all(pages, top):
    """Returns of each relative link of these documents what is wrong with it, or None."""
    links = [(page, it) for page in pages for it in LINK.findall(FENCE.sub("", page.read_text(encoding="utf-8")))]
    return [follow(page, it, top) for page, it in links if not re.match(r"[a-z]+:", it)]


def programs(page):
    """Returns the programs of a page and what each prints: each block of `rust`, and the block of `text` after it."""
    blocks = [it for it in FENCE.findall(page.read_text(encoding="utf-8")) if it[0] in ("rust", "text")]
    found = [(source, printed) for (one, source), (two, printed) in zip(blocks, blocks[1:]) if (one, two) == ("rust", "text")]
    if not found or len(found) != sum(language == "rust" for language, _ in blocks):
        raise SystemExit(f"{page}: it has a block of `rust` without a block of `text` after it, or none at all")
    return found


def told(summary, *checked):
    """Prints the faults of what was checked, a fault or None each, and how many there are. Returns the status to end with."""
    faults = [it for found in checked for it in found if it]
    for fault in faults:
        print(f"FAILED: {fault}")
    print(f"{summary}, {len(faults)} faults")
    return 1 if faults else 0
