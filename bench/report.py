"""Writes BENCH.md and bench.svg from the medians of one run. usage: report.py RUN_FOLDER DOCS_FOLDER"""

import math
import os
import sys
from collections import defaultdict

LABELS = {
    "dimetumble": "Dimetumble",
    "graphina": "graphina",
    "petgraph": "petgraph",
    "boost": "Boost.Graph",
    "lemon": "LEMON",
    "igraph": "igraph",
    "plain": "plain C",
}
COLOURS = {
    "dimetumble": "#c0392b",
    "graphina": "#2c3e50",
    "petgraph": "#8e6bbf",
    "boost": "#2e86c1",
    "lemon": "#d4a017",
    "igraph": "#27ae60",
    "plain": "#7f8c8d",
}
OURS = "dimetumble"
LARGEST = (1024, 8192)


def rows(folder, name):
    with open(os.path.join(folder, name), encoding="utf-8") as file:
        return [line.rstrip("\n").split("\t") for line in file if line.strip()]


def read_times(folder):
    """{(kind, direction, bound, links): {question: {library: microseconds}}}, and the calls measured."""
    maps, calls = defaultdict(lambda: defaultdict(dict)), 0
    for question, kind, direction, bound, links, library, median, count in rows(folder, "times.tsv"):
        maps[kind, direction, int(bound), int(links)][question][library] = float(median)
        calls += int(count)
    return maps, calls


def micros(x):
    """Three digits that count."""
    if x is None:
        return "-"
    if x >= 100:
        step = 10 ** (int(math.log10(x)) - 2)
        return f"{round(x / step) * step:,}"
    return f"{x:.1f}" if x >= 10 else f"{x:.2f}"


def ratio(times, library):
    return f"{times[OURS] / times[library]:.2f}" if library in times and library != OURS else "-"


def fastest_other(times):
    others = [library for library in times if library != OURS]
    return min(others, key=times.get) if others else None


def fastest_text(times):
    best = fastest_other(times)
    return f"{ratio(times, best)} ({LABELS[best]})" if best else "-"


def table(head, body):
    lines = ["| " + " | ".join(head) + " |", "|" + "---|" * len(head)]
    return "\n".join(lines + ["| " + " | ".join(row) + " |" for row in body])


def machine():
    facts = {}
    with open("/proc/cpuinfo", encoding="utf-8") as file:
        for line in file:
            if ":" in line:
                key, value = line.split(":", 1)
                facts.setdefault(key.strip(), value.strip())
    name = facts.get("model name", os.uname().machine)
    cache = facts.get("cache size", "unknown")
    return f"{name}, {os.cpu_count()} processors, cache {cache}, {os.uname().sysname} {os.uname().machine}"


def comparison(maps, libraries, chosen):
    """A table of the chosen (key, question, text) cases, every library a column."""
    head = ["Question", *(LABELS[x] for x in libraries), "to graphina", "to the fastest other"]
    body = []
    for key, question, text in chosen:
        times = maps[key][question]
        body.append([text, *(micros(times.get(x)) for x in libraries), ratio(times, "graphina"), fastest_text(times)])
    return table(head, body)


def whole_map(maps, key):
    return [(key, question, question) for question in maps[key]]


def power(small, large, factor):
    """The power of the size that the time grew with."""
    return f"{math.log(large / small) / math.log(factor):.2f}"


def growth(maps, keys, factor):
    """Our time for each question along maps that grow by a factor, and the power that each step shows."""
    body = []
    for question in maps[keys[-1]]:
        times = [maps[key].get(question, {}).get(OURS) for key in keys]
        if None in times:
            continue
        powers = [power(a, b, factor) for a, b in zip(times, times[1:])]
        body.append([question, *(micros(x) for x in times), *powers])
    return body


def describe(key):
    kind, direction, bound, links = key
    return f"{kind}, {direction}, {bound:,} indices, {links:,} links"


def worst(cases, other):
    """The case of (key, times) that is worst for ours, held to the library that `other` picks."""
    key, times = max(cases, key=lambda case: case[1][OURS] / case[1][other(case[1])])
    return f"{ratio(times, other(times))} ({LABELS[other(times)]}; {describe(key)})"


def summary(maps):
    """For each question over all its maps: how often ours is the fastest, how often graphina is faster, and the worst."""
    by_question = defaultdict(list)
    for key, questions in maps.items():
        for question, times in questions.items():
            if len(times) > 1:
                by_question[question].append((key, times))
    body = []
    for question, cases in by_question.items():
        first = sum(times[OURS] <= times[fastest_other(times)] for _, times in cases)
        against = [(key, times) for key, times in cases if "graphina" in times]
        behind = sum(times[OURS] > times["graphina"] for _, times in against)
        graphina = worst(against, lambda times: "graphina") if against else "-"
        body.append([question, str(len(cases)), str(first), str(behind) if against else "-", graphina, worst(cases, fastest_other)])
    head = ["Question", "Maps", "ours is the fastest", "graphina is faster", "worst ratio to graphina", "worst ratio to the fastest other"]
    return table(head, body)


def chart(maps, libraries):
    """Each library's time as a part of graphina's, on the largest random maps, as dots on a log scale."""
    low, high, left, width, step, top = 0.05, 8.0, 150, 330, 34, 84
    panels = [key for key in maps if key[0] == "random" and key[2:] == LARGEST]
    questions = [q for q, t in maps[panels[0]].items() if "graphina" in t and len(t) > 2]
    height = top + step * len(questions) + 40

    def across(panel, value):
        part = (math.log(min(max(value, low), high)) - math.log(low)) / (math.log(high) - math.log(low))
        return left + panel * (width + 40) + part * width

    total = left + len(panels) * (width + 40)
    svg = [
        f'<svg xmlns="http://www.w3.org/2000/svg" viewBox="0 0 {total} {height}" font-family="sans-serif" font-size="12">',
        f'<rect width="{total}" height="{height}" fill="white"/>',
        '<text x="16" y="22" font-size="15" font-weight="bold">Time as a part of graphina\'s: 1,024 indices, 8,192 random links (left is faster)</text>',
    ]
    for i, library in enumerate(libraries):
        x = 22 + i * 104
        svg.append(f'<circle cx="{x}" cy="44" r="5" fill="{COLOURS[library]}"/><text x="{x + 9}" y="48">{LABELS[library]}</text>')
    bottom = top + step * len(questions)
    for panel, key in enumerate(panels):
        svg.append(f'<text x="{across(panel, low)}" y="{top - 14}" font-weight="bold">{key[1]}</text>')
        for tick in (0.1, 0.25, 0.5, 1, 2, 4):
            x = across(panel, tick)
            dash = "" if tick == 1 else ' stroke-dasharray="2 3"'
            svg.append(f'<line x1="{x:.1f}" y1="{top - 8}" x2="{x:.1f}" y2="{bottom}" stroke="#aaa"{dash}/>')
            svg.append(f'<text x="{x:.1f}" y="{bottom + 16}" text-anchor="middle" fill="#555">{tick:g}</text>')
        for row, question in enumerate(questions):
            y, times = top + step * row + step / 2, maps[key].get(question, {})
            if panel == 0:
                svg.append(f'<text x="{left - 12}" y="{y + 4}" text-anchor="end">{question}</text>')
            if "graphina" not in times:
                continue
            x = across(panel, times[OURS] / times["graphina"])
            svg.append(f'<text x="{x:.1f}" y="{y - 9}" text-anchor="middle" font-size="10" fill="{COLOURS[OURS]}">{ratio(times, "graphina")}</text>')
            for library in sorted(times, key=lambda name: name != OURS):
                x, radius = across(panel, times[library] / times["graphina"]), 7 if library == OURS else 4
                svg.append(f'<circle cx="{x:.1f}" cy="{y}" r="{radius}" fill="{COLOURS[library]}" stroke="white" stroke-width="0.8"/>')
    return "\n".join(svg + ["</svg>", ""])


INCLUDED = """\
- **Dimetumble**: one call of the C function. In it are the check of the whole table, building the neighbour list, the search, blanking the outputs and clearing the scratch. Nothing is kept from one call to the next.
- **plain C** (`bench/plain.c`): one call that builds its neighbour list from the same links and searches with an indexed binary heap; it checks nothing and clears nothing afterwards. Its memory is there before.
- **graphina, petgraph, Boost.Graph, LEMON, igraph**: one call on the library's own graph, built before and not timed. Where the library returns fresh memory (graphina and petgraph: hash maps), making it is timed, freeing it is not. Boost.Graph is used with `compressed_sparse_row_graph` and LEMON with `StaticDigraph`, their compact structures, and with vectors and search objects that are kept; an undirected link is two arcs there.
- So a figure of the prebuilt libraries leaves out what a changed map costs them, and ours has it in every call. It weighs most where a search is short: A* with a good heuristic, a cutoff.
- The f64 search gives distances and predecessors; petgraph's and igraph's give distances alone. petgraph's `bellman_ford` takes f64 costs, and its `floyd_warshall` (0.6.2) takes an undirected link in one direction only, so it is asked on directed maps alone.
- A library without a figure has no such question. The page check and put are ours alone."""

MAPS = """\
Costs are drawn from 1 to 1,000, f64 costs from the numbers up to 1,100 in steps of 10^-9. *random*: 8 links for each index (and 1, 2, 4 at 1,024 indices); *dense*: every pair, as far as 8,192 links go; *line*: each index to the next; *grid*: a square, directed maps with a link each way; *negative*: random, with heights added at one end of each link and taken at the other, so that many costs are below zero and no loop is. Sixteen sources and targets cycle. A* is asked with heuristic 0 and, as *guided*, with half the cost that is left to the target. A cutoff is a part of the greatest distance: 1, which keeps every index and tests every total, 3/4 or 1/2."""

METHOD = """\
The libraries take turns in one process: in a turn one call that warms the caches, then four that are timed (of all-pairs questions one, timed). A figure is the median of all its timed calls, in microseconds: by the clock on the wall, of the long all-pairs calls by the processor time of the one thread. A ratio is our median divided by the other's: below 1 ours is faster. Every answer of every call is checked: distances, f64 distances (bit for bit), costs and matrices are equal across the libraries, each path and each predecessor adds up; the first difference ends the run with an error."""


def page(folder, maps, calls):
    libraries = [x for x in LABELS if any(x in t for questions in maps.values() for t in questions.values())]
    main = [(f"Random, {d}", ("random", d, *LARGEST)) for d in ("directed", "undirected")]
    parts = [
        "# Speed",
        "`make bench` writes this page and its chart anew, from one run of about four minutes on the machine that it runs on. The times are not promises: nothing about running time is proved. It needs gcc, python3 and our archive; `bench/run` names the Debian packages of the other libraries, and one that is missing is left out, with a line below that says so.",
        "![Time as a part of graphina's](bench.svg)",
        "## What is measured",
        INCLUDED,
        METHOD + f" This run has {calls:,} timed calls.",
        MAPS,
        "## Machine and builds",
        machine() + ".",
        table(["Library", "Version", "Built by"], [[LABELS[r[0]], r[1], r[2]] for r in rows(folder, "builds.tsv")]),
        "Compilers: " + "; ".join(f"{name} is {text}" for name, text in rows(folder, "compilers.tsv")) + ". gcc and rustc are told of no processor: they build for any of this kind.",
    ]
    left_out = rows(folder, "missing.tsv")
    parts += [f"Left out in this run: {LABELS[name]}, {why}." for name, why in left_out]
    parts.append("## 1,024 indices, 8,192 links")
    for text, key in main:
        parts += [f"### {text}", comparison(maps, libraries, whole_map(maps, key))]
    key = ("negative", "directed", *LARGEST)
    parts += ["### Costs below zero, directed", comparison(maps, libraries, whole_map(maps, key))]
    parts += ["## Over all maps", summary(maps)]
    sizes = [("random", "directed", m, 8 * m) for m in (64, 256, 1024)]
    counts = [("random", "directed", 1024, n) for n in (1024, 2048, 4096, 8192)]
    parts += [
        "## How our cost grows",
        "Microseconds, and between two sizes the power of the size that the time grew with: 1 is in proportion. Random directed maps; first with indices and links growing together, 8 links for each index, then with links alone at 1,024 indices. Where a random map has one link for each index, a source reaches few of the others; the first step of the second table is that reach growing, not the cost of a link.",
        table(["Question", "64", "256", "1,024", "64 to 256", "256 to 1,024"], growth(maps, sizes, 4)),
        table(["Question", "1,024 links", "2,048", "4,096", "8,192", "to 2,048", "to 4,096", "to 8,192"], growth(maps, counts, 2)),
        "By their definitions `dijkstra`, the f64 search and A* with a consistent heuristic take a number of steps in proportion to links + indices, for a push to the pending bag stores four words and a take looks at 26 at every size that a map can have; `hops` indices times (indices + links); `johnson` indices times a search; `floyd_warshall` the cube of the indices; `bellman_ford` at most indices times links; the page check and put links + indices.",
        "## Every map",
    ]
    for question in maps[("random", "directed", *LARGEST)]:
        chosen = [(k, question, describe(k)) for k in maps if question in maps[k]]
        parts += [f"### {question}", comparison(maps, libraries, chosen).replace("| Question |", "| Map |", 1)]
    return "\n\n".join(parts) + "\n"


def readme_table(maps):
    """The few lines that README shows."""
    body = []
    directed, undirected = (maps["random", d, *LARGEST] for d in ("directed", "undirected"))
    for question, times in directed.items():
        if "graphina" in times:
            body.append([question, micros(times[OURS]), micros(times["graphina"]), ratio(times, "graphina"), ratio(undirected[question], "graphina"), fastest_text(times)])
    return table(["Question", "Dimetumble", "graphina", "ratio, directed", "ratio, undirected", "to the fastest other, directed"], body) + "\n"


def main():
    folder, docs = sys.argv[1:]
    maps, calls = read_times(folder)
    libraries = [x for x in LABELS if x in maps["random", "directed", *LARGEST]["dijkstra"]]
    for name, text in (("BENCH.md", page(folder, maps, calls)), ("bench.svg", chart(maps, libraries))):
        with open(os.path.join(docs, name), "w", encoding="utf-8") as file:
            file.write(text)
    with open(os.path.join(folder, "readme.md"), "w", encoding="utf-8") as file:
        file.write(readme_table(maps))


main()
