#!/usr/bin/env python3
"""Makes the tables, the pictures and speed.csv of the program's lines.

usage: report.py LINES.. SPEED.md FOLDER

Of several runs, as of builds whose code lies elsewhere, it takes the least time of each heap. If there is a fault or a line is
missing, it says so and writes nothing.
Fills what stands between the marks '<!-- NAME -->' and '<!-- end of NAME -->' of SPEED.md, for the names in BLOCKS, and writes
pop.svg, speed.svg and speed.csv into the folder.
"""
import csv
import io
import math
import sys
from pathlib import Path
from statistics import geometric_mean

# The workloads, with their names in the tables.
NUMBERS = {
    "build": "build",
    "push_random": "push",
    "push_ascending": "push, ascending",
    "pop": "pop",
    "churn": "push, then pop",
    "turns": "pop, then push",
    "extend_eighth": "extend by eighths",
    "retain": "retain the odd",
}
IN_ORDER = {"iter_sorted_ten": "ten in order", "iter_sorted_all": "all in order"}
RECORDS = {
    "build_records": "build, 64 bytes",
    "push_records": "push, 64 bytes",
    "pop_records": "pop, 64 bytes",
    "churn_records": "push, then pop, 64 bytes",
}
WORKLOADS = NUMBERS | IN_ORDER | RECORDS
# The rows of means over several workloads.
MEANS = {"numbers, without `retain`": [it for it in NUMBERS if it != "retain"], "64 bytes": [*RECORDS]}
ARITIES = [2, 3, 4, 8]
# The sizes that a workload has at least.
SIZES = {**dict.fromkeys(WORKLOADS, [10**3, 10**5, 10**6]), **dict.fromkeys(IN_ORDER, [10**5])}
# The heaps that have an arity, those of arity 2 alone, and those whose times this heap's is divided by.
AT_ARITIES = {"here": "this heap", "crate": "the Rust crate"}
AT_TWO = {"rattle_std": "Rattle's std", "std": "Rust's std", "cpp": "C++"}
BESIDE = {"std": "Rust's std", "rattle_std": "Rattle's std", "crate": "the Rust crate", "cpp": "C++", "boost": "boost"}
# The arities of the table of times, and of the other heap that it shows.
SHOWN = [2, 4, 8]
BOOST = ("boost", 4)


def read(path):
    """Returns the lines of a run, each by its workload, size and arity, and what was left out. A dash becomes a NaN."""
    texts = Path(path).read_text(encoding="utf-8").splitlines()
    if faults := [text for text in texts if text.startswith("FAULT")]:
        sys.exit("\n".join(faults))
    left_out = [text.removeprefix("# left out: ") for text in texts if text.startswith("# left out: ")]
    heads, *rows = [text.split() for text in texts if text.strip() and not text.startswith("#")] or [[]]
    lines = {}
    for row in rows:
        if len(row) != len(heads):
            sys.exit(f"{path} has a line that isn't whole: {' '.join(row)}")
        workload, arity, items, *cells = (math.nan if word == "-" else word for word in row)
        lines[workload, int(items), int(arity)] = dict(zip(heads[3:], map(float, cells)))
    return lines, left_out


def least(line, other):
    """Returns the least of each number of two lines, and this heap's times over those of the others."""
    cells = {head: min(there([number, other[head]]), default=math.nan) for head, number in line.items()}
    return cells | {head: over(cells, head.removeprefix("over_")) for head in line if head.startswith("over_")}


def read_all(paths):
    """Returns the lines of the runs, with the least times, in the order of WORKLOADS, and what one of the runs left out."""
    lines, left_out = {}, {}
    for path in paths:
        more, others = read(path)
        lines |= {key: least(line, lines.get(key, line)) for key, line in more.items()}
        left_out |= dict.fromkeys(others)
    sizes = {it: sorted({items for name, items, _ in lines if name == it}.union(SIZES[it])) for it in WORKLOADS}
    wanted = [(it, items, arity) for it in WORKLOADS for items in sizes[it] for arity in ARITIES]
    if missing := [f"{it}, {items} items, arity {arity}" for it, items, arity in wanted if (it, items, arity) not in lines]:
        sys.exit("\n".join(["These lines are missing:", *missing]))
    return {key: lines[key] for key in wanted}, [*left_out]


def over(line, who):
    """Returns this heap's time over that of another."""
    return line["here_ns"] / line[f"{who}_ns"]


def there(numbers):
    """Returns the numbers without those that aren't there."""
    return [number for number in numbers if not math.isnan(number)]


def fixed(number, digits):
    """Returns the number with so many digits behind the point, or nothing if it isn't there."""
    return "" if math.isnan(number) else f"{number:.{digits}f}"


def told(number):
    """Returns the number with as many digits behind the point as show two of its figures."""
    return fixed(number, max(0, 1 - math.floor(math.log10(number))) if number > 0 else 0)


def power(items):
    """Returns the number as a power of ten, if it is one."""
    exponent = str(len(str(items)) - 1).translate(str.maketrans("0123456789", "⁰¹²³⁴⁵⁶⁷⁸⁹"))
    return f"10{exponent}" if str(items).rstrip("0") == "1" else f"{items:,}"


def table(heads, rows, words):
    """Returns a table in Markdown. So many of the first columns are words."""
    marks = ["---"] * words + ["--:"] * (len(heads) - words)
    return "\n".join(f"|{'|'.join(row)}|" for row in [heads, marks, *rows])


def heads_of(name, arities):
    return [f"{name}: {arities[0]}", *map(str, arities[1:])]


def times(lines, _):
    """Returns the table of nanoseconds of an item: a row a workload and size, a column a heap and arity."""
    heads = ["", "items", *[head for name in AT_ARITIES.values() for head in heads_of(name, SHOWN)], *AT_TWO.values()]
    columns = [*[(who, arity) for who in AT_ARITIES for arity in SHOWN], *[(who, 2) for who in AT_TWO], BOOST]
    rows = dict.fromkeys((workload, items) for workload, items, _ in lines)
    cells = [[told(lines[*row, arity][f"{who}_ns"]) for who, arity in columns] for row in rows]
    named = [[WORKLOADS[workload], power(items), *it] for (workload, items), it in zip(rows, cells)]
    return table([*heads, f"{BOOST[0]}: {BOOST[1]}"], named, words=2)


def means(lines, _):
    """Returns the table of means over all sizes: for each other heap and arity the time of this heap over it."""
    rows = MEANS | {name: [workload] for workload, name in WORKLOADS.items()}
    found = []
    for name, workloads in rows.items():
        cells = [
            there(over(line, who) for (workload, _, at), line in lines.items() if workload in workloads and at == arity)
            for who in BESIDE
            for arity in ARITIES
        ]
        found.append([name, *[fixed(geometric_mean(it), 2) if it else "" for it in cells]])
    return table(["", *[head for name in BESIDE.values() for head in heads_of(name, ARITIES)]], found, words=1)


def left_out(_, heaps):
    return f"Left out in this run: {', '.join(heaps)}." if heaps else "No heap was left out in this run."


BLOCKS = {"left out": left_out, "times": times, "means": means}


def filled(text, lines, heaps):
    """Returns the text with what stands between its marks made anew."""
    for name, make in BLOCKS.items():
        first, last = f"<!-- {name} -->\n", f"<!-- end of {name} -->"
        if text.count(first) != 1 or text.count(last) != 1:
            sys.exit(f"The text hasn't the marks of '{name}'")
        before, rest = text.split(first)
        text = f"{before}{first}\n{make(lines, heaps)}\n\n{last}{rest.split(last)[1]}"
    return text


def all_figures(lines):
    """Returns all lines as a file of commas. What isn't there is left empty."""
    file = io.StringIO()
    writer = csv.writer(file, lineterminator="\n")
    writer.writerow(["workload", "arity", "items", *next(iter(lines.values()))])
    for (workload, items, arity), line in lines.items():
        cells = [fixed(number, 2 if head.endswith("_ns") else 3) for head, number in line.items()]
        writer.writerow([workload, arity, items, *cells])
    return file.getvalue()


# The pictures.

# Text is grey, to be read on white and on black.
GREY = "#717a84"
# An arity has one colour. This heap's lines are solid, the crate's dashed; those of arity 2 alone are thin.
COLOURS = {2: "#1f77b4", 4: "#ff7f0e", 8: "#2ca02c"}
DASHES = {"here": "none", "crate": "6 4", "rattle_std": "none", "std": "5 3", "cpp": "1 3"}


def text(left, top, anchor, words, size=12):
    return f'<text x="{left:.1f}" y="{top:.1f}" text-anchor="{anchor}" font-size="{size}" fill="{GREY}">{words}</text>'


def stroke(points, colour, dash, width):
    joined = " ".join(f"{x:.1f},{y:.1f}" for x, y in points)
    return f'<polyline points="{joined}" fill="none" stroke="{colour}" stroke-width="{width}" stroke-dasharray="{dash}"/>'


def ticks_of(low, high, is_log):
    """Returns round numbers from one below the least to one above the greatest, or from 0 on."""
    powers = [10**exponent for exponent in range(-1, 7)]
    if is_log:
        marks = [by * power for power in powers for by in (1, 2, 5)]
        return [it for it, after in zip(marks, marks[1:]) if after > low and it < high] + [min(it for it in marks if it >= high)]
    step = next(by * power for power in powers for by in (1, 2, 5) if by * power * 6 >= high)
    return [step * at for at in range(math.ceil(high / step) + 1)]


def panel(box, title, labels, series, is_log=False):
    """Returns the shapes of a panel: its title, a scale, a label for each place across, and a line for each of the series, which
    are a colour, a dash, a width, and the values."""
    left, top, width, height = box
    values = there(value for *_, line in series for value in line)
    ticks = ticks_of(min(values), max(values), is_log)
    scale = math.log if is_log else float
    across = [left + width * (at + 0.5) / len(labels) for at in range(len(labels))]

    def down(value):
        return top + height * (scale(ticks[-1]) - scale(value)) / (scale(ticks[-1]) - scale(ticks[0]))

    shapes = [text(left + width / 2, top - 8, "middle", title)]
    for tick in ticks:
        shapes.append(stroke([(left, down(tick)), (left + width, down(tick))], GREY, "none", 0.3))
        shapes.append(text(left - 4, down(tick) + 4, "end", f"{tick:,g}"))
    shapes += [text(at, top + height + 16, "middle", label) for at, label in zip(across, labels)]
    for colour, dash, thickness, line in series:
        points = [(at, down(value)) for at, value in zip(across, line) if not math.isnan(value)]
        shapes.append(stroke(points, colour, dash, thickness))
        shapes += [f'<circle cx="{x:.1f}" cy="{y:.1f}" r="{thickness + 1}" fill="{colour}"/>' for x, y in points]
    return shapes


def legend(left, top, names):
    """Returns a line of each look with its name."""
    shapes = []
    for at, (name, (colour, dash, thickness)) in enumerate(names.items()):
        height = top + 20 * at
        shapes += [stroke([(left, height), (left + 28, height)], colour, dash, thickness), text(left + 36, height + 4, "start", name)]
    return shapes


def picture(width, height, shapes):
    head = f'<svg xmlns="http://www.w3.org/2000/svg" viewBox="0 0 {width} {height}" font-family="sans-serif">'
    return "\n".join([head, *shapes, "</svg>", ""])


def looks(arities):
    """Returns for each heap, of an arity if it has one, its name and look."""
    found = {(who, it): (f"{AT_ARITIES[who]}, arity {it}", (COLOURS[it], DASHES[who], 2)) for who in AT_ARITIES for it in arities}
    return found | {(who, 2): (f"{name}, arity 2", (GREY, DASHES[who], 1)) for who, name in AT_TWO.items()}


def pop_picture(lines):
    """Returns the times of a pop by the number of items, on a scale of logarithms."""
    sizes = sorted({items for workload, items, _ in lines if workload == "pop"})
    shown = looks(SHOWN)
    series = [(*look, [lines["pop", it, arity][f"{who}_ns"] for it in sizes]) for (who, arity), (_, look) in shown.items()]
    shapes = panel((50, 30, 480, 290), "nanoseconds of a pop, by the number of items", list(map(power, sizes)), series, is_log=True)
    return picture(760, 350, shapes + legend(550, 60, dict(shown.values())))


def arity_picture(lines):
    """Returns the times by arity, of 10⁶ items. A heap of arity 2 alone has a level line."""
    names = {f"{name}, by arity": ("#d62728", DASHES[who], 2) for who, name in AT_ARITIES.items()}
    names |= {f"{name}, arity 2": (GREY, DASHES[who], 1) for who, name in AT_TWO.items()}
    shapes = []
    for at, workload in enumerate(["push_random", "pop", "churn", "build"]):
        by_arity = [lines[workload, 10**6, arity] for arity in ARITIES]
        values = [[it[f"{who}_ns"] for it in by_arity] for who in AT_ARITIES]
        values += [[by_arity[0][f"{who}_ns"]] * len(ARITIES) for who in AT_TWO]
        series = [(*look, line) for look, line in zip(names.values(), values)]
        shapes += panel((50 + 200 * at, 30, 140, 200), f"{NUMBERS[workload]}: ns", list(map(str, ARITIES)), series)
    return picture(850, 380, shapes + legend(50, 275, names))


def main():
    if len(sys.argv) < 4:
        sys.exit(__doc__)
    *paths, speed, folder = sys.argv[1:]
    lines, heaps = read_all(paths)
    texts = {Path(speed): filled(Path(speed).read_text(encoding="utf-8"), lines, heaps)}
    texts[Path(folder, "speed.csv")] = all_figures(lines)
    texts[Path(folder, "pop.svg")] = pop_picture(lines)
    texts[Path(folder, "speed.svg")] = arity_picture(lines)
    for path, text_of in texts.items():
        path.write_text(text_of, encoding="utf-8")


if __name__ == "__main__":
    main()
