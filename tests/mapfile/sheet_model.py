"""What the program `paths` prints for a map file, written from the request alone.

`sheet(file)` takes the file's bytes and gives the text's bytes. It shares no code and no method with the
crates: least totals are found by rounds over all arcs, and where the request says that the pending bag
decides, the bag is a plain list of pairs.
"""

import struct

LIMIT = 16384
INDICES = 64
ROOM = 512

DIJKSTRA, BELLMAN_FORD, A_STAR, FLOYD_WARSHALL, JOHNSON, HOPS, F64 = range(1, 8)
LENGTHS = {1: 6, 2: 4, 3: 10, 4: 15, 5: 7}


class Bad(Exception):
    """The file is no map: `bad map at K`."""


class Refused(Exception):
    """The question is refused by a number."""


class Map:
    """A loaded map: bound, marks, the links in their places, and the question."""

    def __init__(self, bound, directed, f64):
        self.bound = bound
        self.directed = directed
        self.f64 = f64
        self.present = [True] * bound
        self.links = []  # [from, to, cost or bits, open]
        self.ask = None

    def has(self, index):
        """Is the index below the bound and present?"""
        return index < self.bound and self.present[index]

    def nodes(self):
        """The present indices in rising order."""
        return [i for i in range(self.bound) if self.present[i]]

    def put(self, a, b, cost, opened):
        """Replaces the link's cost and mark, or adds the link at the end; False if the put is refused."""
        if not self.has(a) or not self.has(b):
            return False
        for link in self.links:
            same = (link[0], link[1]) == (a, b)
            turned = not self.directed and (link[1], link[0]) == (a, b)
            if same or turned:
                link[2] = cost
                link[3] = opened
                return True
        if len(self.links) == ROOM:
            return False
        self.links.append([a, b, cost, opened])
        return True

    def arcs(self):
        """Each link in its direction, or in either direction if undirected; a self-link once."""
        for a, b, cost, opened in self.links:
            yield a, b, cost, opened
            if not self.directed and a != b:
                yield b, a, cost, opened


def load(file):
    """The map of a file, or Bad with the offset of the first record that breaks a rule."""
    if len(file) > LIMIT:
        raise Bad(LIMIT)
    loaded = None
    at = 0
    while at < len(file):
        if loaded is not None and loaded.ask is not None:
            raise Bad(at)
        if len(file) - at < 4:
            raise Bad(at)
        length, kind = struct.unpack_from("<HH", file, at)
        if LENGTHS.get(kind) != length or at + 2 + length > len(file):
            raise Bad(at)
        body = file[at + 4 : at + 2 + length]
        if (kind == 1) != (loaded is None):
            raise Bad(at)
        if kind == 1:
            bound, directed, f64 = struct.unpack("<HBB", body)
            if bound > INDICES or directed > 1 or f64 > 1:
                raise Bad(at)
            loaded = Map(bound, directed == 1, f64 == 1)
        elif kind == 2:
            (index,) = struct.unpack("<H", body)
            if loaded.links or index >= loaded.bound:
                raise Bad(at)
            loaded.present[index] = False
        elif kind == 3:
            a, b, cost = struct.unpack("<HHi", body)
            if loaded.f64 or not loaded.put(a, b, cost, True):
                raise Bad(at)
        elif kind == 4:
            a, b, bits, opened = struct.unpack("<HHQB", body)
            if not loaded.f64 or opened > 1 or not loaded.put(a, b, bits, opened == 1):
                raise Bad(at)
        else:
            engine, source, target = struct.unpack("<BHH", body)
            wants_f64 = {F64: True, HOPS: loaded.f64}.get(engine, False)
            if not 1 <= engine <= 7 or wants_f64 != loaded.f64:
                raise Bad(at)
            loaded.ask = (engine, source, target)
        at += 2 + length
    if loaded is None or loaded.ask is None:
        raise Bad(len(file))
    return loaded


def reachable(loaded, source):
    """The indices that a walk from the source reaches, over all links."""
    reached = {source}
    grown = True
    while grown:
        grown = False
        for a, b, _, _ in loaded.arcs():
            if a in reached and b not in reached:
                reached.add(b)
                grown = True
    return reached


def least_totals(loaded, source):
    """Least walk totals from the source, or Refused(7) where a closed walk in its reach totals below zero."""
    totals = {source: 0}
    for _ in range(len(loaded.nodes())):
        changed = False
        for a, b, cost, _ in loaded.arcs():
            if a in totals and (b not in totals or totals[a] + cost < totals[b]):
                totals[b] = totals[a] + cost
                changed = True
        if not changed:
            return totals
    raise Refused(7)


def dijkstra(loaded, source):
    """6 exactly when an arc below zero leaves an index reachable from the source."""
    if not loaded.has(source):
        raise Refused(3)
    reached = reachable(loaded, source)
    if any(a in reached and cost < 0 for a, _, cost, _ in loaded.arcs()):
        raise Refused(6)
    return least_totals(loaded, source)


def bellman_ford(loaded, source):
    """A source that is not present has no distances; 7 where costs in its reach loop below zero."""
    return least_totals(loaded, source) if loaded.has(source) else {}


def matrix(loaded):
    """Least totals between all pairs; 7 where a closed walk anywhere totals below zero."""
    return {i: least_totals(loaded, i) for i in loaded.nodes()}


def hops(loaded):
    """Least numbers of arcs; costs and open marks are ignored."""
    counts = {}
    for i in loaded.nodes():
        counts[i] = {i: 0}
        for step in range(1, loaded.bound + 1):
            for a, b, _, _ in loaded.arcs():
                if counts[i].get(a) == step - 1 and b not in counts[i]:
                    counts[i][b] = step
    return counts


def pending_bag(loaded, source, target, cost_of):
    """The request's pending bag with key = distance: distances and predecessors when it stops."""
    totals = {source: 0 if target is not None else 0.0}
    before = {}
    bag = [(totals[source], source)]
    while bag:
        key, u = min(bag)
        bag.remove((key, u))
        if key > totals[u]:
            continue
        if u == target:
            break
        for a, v, cost, opened in loaded.arcs():
            if a != u or not opened:
                continue
            total = totals[u] + cost_of(cost)
            if v not in totals or total < totals[v]:
                totals[v] = total
                before[v] = u
                bag.append((total, v))
    return totals, before


def whole_cost(cost):
    """A cost of an integer map; below zero it is a bad cost."""
    if cost < 0:
        raise Refused(6)
    return cost


def f64_cost(bits):
    """A cost of an f64 map by its pattern; with its sign bit set, or NaN, it is a bad cost."""
    if bits >> 63:
        raise Refused(6)
    (cost,) = struct.unpack("<d", struct.pack("<Q", bits))
    if cost != cost:
        raise Refused(6)
    return cost


def a_star(loaded, source, target):
    """Cost and path to the target with the heuristic 0, or None without a walk."""
    if not loaded.has(source):
        raise Refused(3)
    if not loaded.has(target):
        raise Refused(4)
    totals, before = pending_bag(loaded, source, target, whole_cost)
    if target not in totals:
        return None
    path = [target]
    while path[0] != source:
        path.insert(0, before[path[0]])
    return totals[target], path


def f64_search(loaded, source):
    """Distances and predecessors over open links, without a cutoff."""
    if not loaded.has(source):
        raise Refused(3)
    return pending_bag(loaded, source, None, f64_cost)


def answer_lines(loaded):
    """The lines between `engine E` and `end`."""
    engine, source, target = loaded.ask
    nodes = loaded.nodes()
    if engine in (DIJKSTRA, BELLMAN_FORD):
        totals = (dijkstra if engine == DIJKSTRA else bellman_ford)(loaded, source)
        return [f"{i} {totals.get(i, 'none')}" for i in nodes]
    if engine == A_STAR:
        found = a_star(loaded, source, target)
        if found is None:
            return ["none"]
        return [f"cost {found[0]}", " ".join(["path"] + [str(i) for i in found[1]])]
    if engine in (FLOYD_WARSHALL, JOHNSON, HOPS):
        rows = hops(loaded) if engine == HOPS else matrix(loaded)
        return [" ".join([f"row {i}"] + [str(rows[i].get(j, "none")) for j in nodes]) for i in nodes]
    totals, before = f64_search(loaded, source)
    bits = {i: struct.pack(">d", d).hex() for i, d in totals.items()}
    return [f"{i} {bits.get(i, 'none')} {before.get(i, 'none')}" for i in nodes]


def sheet(file):
    """The program's whole output for the file."""
    try:
        loaded = load(file)
    except Bad as bad:
        return f"bad map at {bad.args[0]}\n".encode()
    try:
        lines = answer_lines(loaded)
    except Refused as refused:
        lines = [f"refused {refused.args[0]}"]
    return "".join(line + "\n" for line in [f"engine {loaded.ask[0]}", *lines, "end"]).encode()
