"""Makes what the program `mapcases` reads and has to print, and the packed examples with their sheets.

    python3 tests/mapfile/make_cases.py

A case is a name, a map file and its sheet. Small cases stand in cases.txt with their sheets, the examples in
examples/maps; large ones are made here. The sheets come from the model, which the cases' own sheets are held to.
"""

import importlib.machinery
import importlib.util
import pathlib
import struct

import sheet_model

HERE = pathlib.Path(__file__).resolve().parent
ROOT = HERE.parent.parent
PROGRAM = ROOT / "crates" / "mapcases"
EXAMPLES = ROOT / "examples" / "maps"


def load_tool():
    """tools/mapfile as a module."""
    loader = importlib.machinery.SourceFileLoader("mapfile", str(ROOT / "tools" / "mapfile"))
    module = importlib.util.module_from_spec(importlib.util.spec_from_loader("mapfile", loader))
    loader.exec_module(module)
    return module


tool = load_tool()


def written_cases():
    """The cases of cases.txt: name, file, and the sheet that stands there."""
    cases = []
    for block in ("\n" + (HERE / "cases.txt").read_text()).split("\ncase ")[1:]:
        name, *lines = block.splitlines()
        text = "\n".join(line for line in lines if not line.startswith(">"))
        sheet = "".join(line[2:] + "\n" for line in lines if line.startswith("> "))
        cases.append((name, tool.pack(text)[0], sheet.encode()))
    return cases


def packed(*lines):
    """The file of some lines of the text form."""
    return tool.pack("\n".join(lines))[0]


def sized(size, ending):
    """An f64 map of exactly this size: two links sent again and again, and absent indices named again to fill up."""
    links = 961
    while (size - 8 - len(ending) - 17 * links) % 6:
        links -= 1
    absent = [f"absent {i % 32}" for i in range((size - 8 - len(ending) - 17 * links) // 6)]
    again = [f"link {32 + i % 2} 34 {i}.5" for i in range(links)]
    file = packed("map 64 undirected f64", *absent, *again) + ending
    assert len(file) == size
    return file


def distinct_links(count, cost):
    """Links with different ends in a map of 64 indices, none of them another one turned round."""
    pairs = [(a, b) for step in range(1, 32) for a in range(64) for b in [(a + step) % 64]]
    return [f"link {a} {b} {cost(a, b)}" for a, b in pairs[:count]]


def large_cases():
    """The cases at the limits of a file: its size, 64 indices, room for 512 links, the longest answers."""
    ask_f64 = packed("ask dijkstra_path_f64 from 32")
    chain = [f"link {i} {i + 1} -2147483648" for i in range(63)]
    links = distinct_links(513, lambda a, b: (7 * a + 3 * b) % 50)
    f64_links = distinct_links(513, lambda a, b: (7 * a + 3 * b) % 50 / 8)
    return [
        ("bytes-16384", sized(16384, ask_f64)),
        ("bytes-16384-ask-missing", sized(16384, b"")),
        ("bytes-16385-one-behind-the-ask", sized(16384, ask_f64) + b"\x00"),
        ("bytes-16385-no-head", bytes(16385)),
        ("bytes-16390-else-sound", sized(16390, ask_f64)),
        ("indices-64-a_star", packed("map 64 directed", *[f"link {i} {i + 1} {i}" for i in range(63)], "ask a_star from 0 to 63")),
        ("indices-64-floyd_warshall-longest", packed("map 64 directed", *chain, "ask floyd_warshall")),
        ("indices-64-johnson-longest", packed("map 64 directed", *chain, "ask johnson")),
        ("indices-64-bellman_ford", packed("map 64 directed", *chain, "ask bellman_ford from 0")),
        ("indices-64-hops", packed("map 64 undirected", *[f"link {i} {(i + 1) % 64} 0" for i in range(64)], "ask hops")),
        ("links-512", packed("map 64 directed", *links[:512], "ask dijkstra from 5")),
        ("links-512-undirected-johnson", packed("map 64 undirected", *links[:512], "ask johnson")),
        ("links-512-f64", packed("map 64 undirected f64", *f64_links[:512], "ask dijkstra_path_f64 from 63")),
        ("links-512-one-sent-again", packed("map 64 directed", *links[:512], "link 5 6 0", "ask dijkstra from 5")),
        ("links-512-one-sent-again-turned", packed("map 64 undirected", *links[:512], "link 6 5 0", "ask dijkstra from 5")),
        ("links-512-one-more-turned", packed("map 64 directed", *links[:512], "link 6 5 0", "ask dijkstra from 5")),
        ("links-513", packed("map 64 directed", *links, "ask dijkstra from 5")),
        ("links-513-f64", packed("map 64 undirected f64", *f64_links, "ask dijkstra_path_f64 from 63")),
    ]


def example_files():
    """The examples: name and file."""
    return [(path.stem, tool.pack(path.read_text())[0]) for path in sorted(EXAMPLES.glob("*.txt"))]


def all_cases():
    """Every case of the program: name, file, and the model's sheet."""
    files = [(name, file) for name, file, _ in written_cases()] + large_cases()
    files += [("example-" + name, file) for name, file in example_files()]
    return [(name, file, sheet_model.sheet(file)) for name, file in files]


def framed(cases):
    """What the program reads: for each case the length of its name (8 bits) and of its file (16 bits), name, file."""
    return b"".join(struct.pack("<BH", len(name), len(file)) + name.encode() + file for name, file, _ in cases)


def printed(cases):
    """What the program has to print: for each case a line with its name, and its sheet."""
    return b"".join(b"case " + name.encode() + b"\n" + sheet for name, _, sheet in cases)


def made_files():
    """Each file that is made here, and its bytes."""
    cases = all_cases()
    made = {PROGRAM / "stdin": framed(cases), PROGRAM / "stdout": printed(cases)}
    for name, file in example_files():
        made[EXAMPLES / f"{name}.map"] = file
        made[EXAMPLES / f"{name}.sheet"] = sheet_model.sheet(file)
    return made


if __name__ == "__main__":
    for path, content in made_files().items():
        path.write_bytes(content)
        print(f"{path.relative_to(ROOT)}: {len(content)} bytes")
