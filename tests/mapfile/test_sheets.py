"""The model, the cases and the examples: each against the request, against the others, and against what is checked in."""

import pathlib
import random
import sys
import unittest

sys.path.insert(0, str(pathlib.Path(__file__).resolve().parent))
import make_cases
import random_files
import sheet_model


def random_maps(seed, count, f64=None):
    """Loaded maps of random sound files, of one kind if asked."""
    rng = random.Random(seed)
    maps = []
    while len(maps) < count:
        loaded = sheet_model.load(random_files.sound(rng))
        if f64 is None or loaded.f64 == f64:
            maps.append(loaded)
    return maps


def outcome(question, *words):
    """An answer, or the number of its refusal."""
    try:
        return question(*words)
    except sheet_model.Refused as refused:
        return ("refused", refused.args[0])


def is_page(loaded, source, totals):
    """The request's page check: the source has 0, no arc leads to less, and every other distance is met by an arc into it."""
    arcs = list(loaded.arcs())
    return (
        totals.get(source) == 0
        and all(b in totals and totals[b] <= totals[a] + cost for a, b, cost, _ in arcs if a in totals)
        and all(v == source or any(b == v and a in totals and totals[a] + cost == totals[v] for a, b, cost, _ in arcs) for v in totals)
    )


class Model(unittest.TestCase):
    """The model's answers held to what the request says of them, on random maps."""

    def test_the_written_cases(self):
        cases = make_cases.written_cases()
        self.assertEqual(len({name for name, _, _ in cases}), len(cases))
        for name, file, sheet in cases:
            with self.subTest(name):
                self.assertEqual(sheet_model.sheet(file), sheet)

    def test_distances_are_pages(self):
        pages = 0
        for loaded in random_maps(1, 400, f64=False):
            for source in loaded.nodes():
                totals = outcome(sheet_model.bellman_ford, loaded, source)
                if isinstance(totals, dict):
                    pages += len(totals) > 2
                    self.assertTrue(is_page(loaded, source, totals))
                    self.assertFalse(is_page(loaded, source, {**totals, max(totals): totals[max(totals)] + 1}))
        self.assertGreater(pages, 300)

    def test_dijkstra_is_bellman_ford_where_no_cost_below_zero_is_in_reach(self):
        answered = refused = 0
        for loaded in random_maps(2, 400, f64=False):
            for source in loaded.nodes():
                totals = outcome(sheet_model.dijkstra, loaded, source)
                below = any(cost < 0 and a in sheet_model.reachable(loaded, source) for a, _, cost, _ in loaded.arcs())
                if below:
                    refused += 1
                    self.assertEqual(totals, ("refused", 6))
                else:
                    answered += 1
                    self.assertEqual(totals, sheet_model.bellman_ford(loaded, source))
        self.assertGreater(min(answered, refused), 300)

    def test_the_matrix_is_refused_where_some_source_is(self):
        for loaded in random_maps(3, 400, f64=False):
            sources = [outcome(sheet_model.bellman_ford, loaded, i) for i in loaded.nodes()]
            rows = outcome(sheet_model.matrix, loaded)
            self.assertEqual(rows == ("refused", 7), ("refused", 7) in sources)

    def test_a_path_has_its_cost_and_no_walk_has_less(self):
        paths = 0
        for loaded in random_maps(4, 200, f64=False):
            cheapest = {}
            for a, b, cost, _ in loaded.arcs():
                cheapest[a, b] = min(cost, cheapest.get((a, b), cost))
            for source in loaded.nodes():
                for target in loaded.nodes():
                    found = outcome(sheet_model.a_star, loaded, source, target)
                    totals = outcome(sheet_model.dijkstra, loaded, source)
                    if isinstance(totals, dict) and found is None:
                        self.assertNotIn(target, totals)
                    elif isinstance(totals, dict):
                        cost, path = found
                        paths += len(path) > 2
                        self.assertEqual((path[0], path[-1], cost), (source, target, totals[target]))
                        self.assertEqual(sum(cheapest[step] for step in zip(path, path[1:])), cost)
        self.assertGreater(paths, 300)

    def test_whole_f64_costs_are_exact(self):
        compared = 0
        for loaded in random_maps(5, 400, f64=False):
            for source in loaded.nodes():
                totals = outcome(sheet_model.dijkstra, loaded, source)
                links = [[a, b, random_files.as_bits(float(cost)), True] for a, b, cost, _ in loaded.links]
                turned = sheet_model.Map(loaded.bound, loaded.directed, True)
                turned.present, turned.links = loaded.present, links
                found = outcome(sheet_model.f64_search, turned, source)
                if isinstance(totals, dict):
                    compared += 1
                    self.assertEqual(found[0], totals)
                else:
                    self.assertEqual(found, totals)
        self.assertGreater(compared, 300)

    def test_predecessors_are_met_exactly(self):
        met = 0
        for loaded in random_maps(6, 300, f64=True):
            for source in loaded.nodes():
                found = outcome(sheet_model.f64_search, loaded, source)
                if found == ("refused", 6):
                    continue
                totals, before = found
                self.assertEqual(set(before) | {source}, set(totals))
                for v, u in before.items():
                    met += 1
                    sums = [totals[u] + sheet_model.f64_cost(bits) for a, b, bits, opened in loaded.arcs() if (a, b) == (u, v) and opened]
                    self.assertIn(totals[v], sums)
        self.assertGreater(met, 300)

    def test_the_last_record_of_a_link_counts(self):
        rng = random.Random(7)
        shorter = 0
        for _ in range(1000):
            file = random_files.sound(rng)
            loaded = sheet_model.load(file)
            kind = make_cases.tool.F64_LINK if loaded.f64 else make_cases.tool.LINK
            links = [make_cases.tool.record(kind, *link[: 4 if loaded.f64 else 3]) for link in loaded.links]
            rng.shuffle(links)
            head = file[:8] + b"".join(make_cases.tool.record(2, i) for i in range(loaded.bound) if not loaded.present[i])
            again = head + b"".join(links) + file[-9:]
            shorter += len(again) < len(file)
            self.assertEqual(sheet_model.sheet(again), sheet_model.sheet(file))
        self.assertGreater(shorter, 200)


class Made(unittest.TestCase):
    """What make_cases.py makes is what is checked in."""

    def test_made_files_are_current(self):
        for path, content in make_cases.made_files().items():
            with self.subTest(path.name):
                self.assertEqual(path.read_bytes(), content, "run tests/mapfile/make_cases.py")

    def test_no_case_repeats_another(self):
        cases = make_cases.all_cases()
        self.assertEqual(len({name for name, _, _ in cases}), len(cases))
        self.assertEqual(len({file for _, file, _ in cases}), len(cases))

    def test_a_link_sent_again_at_the_limit_changes_the_sheet(self):
        sheets = {name: sheet.decode().splitlines() for name, _, sheet in make_cases.all_cases()}
        self.assertIn("6 3", sheets["links-512"])
        self.assertIn("6 0", sheets["links-512-one-sent-again"])
        self.assertIn("6 0", sheets["links-512-one-sent-again-turned"])

    def test_cases_reach_every_engine_and_every_refusal(self):
        seen = set()
        for _, _, sheet in make_cases.all_cases():
            first, *rest = sheet.decode().splitlines()
            seen.add((first, rest[0] if rest and rest[0].startswith("refused") else "answered"))
        wanted = {(f"engine {engine}", "answered") for engine in range(1, 8)}
        wanted |= {(f"engine {engine}", f"refused {number}") for engine, numbers in {1: "36", 2: "7", 3: "346", 4: "7", 5: "7", 7: "36"}.items() for number in numbers}
        self.assertEqual({pair for pair in seen if pair[0].startswith("engine")}, wanted)


class Examples(unittest.TestCase):
    """The examples that a reader starts with."""

    def test_each_is_told_of(self):
        told = (make_cases.ROOT / "examples" / "README.md").read_text()
        names = [name for name, _ in make_cases.example_files()]
        self.assertGreaterEqual(len(names), 6)
        for name in names:
            self.assertIn(f"`{name}`", told)

    def test_nothing_else_lies_there(self):
        names = {path.name for path in make_cases.EXAMPLES.iterdir()}
        self.assertEqual(names, {name + end for name, _ in make_cases.example_files() for end in (".txt", ".map", ".sheet")})

    def test_all_but_the_damaged_one_are_sound(self):
        for path in make_cases.EXAMPLES.glob("*.txt"):
            if path.stem == "damaged":
                with self.assertRaises(make_cases.tool.Wrong):
                    make_cases.tool.pack_sound(path.read_text())
            else:
                make_cases.tool.pack_sound(path.read_text())

    def test_the_page_can_be_checked_from_the_sheet_alone(self):
        loaded = sheet_model.load((make_cases.EXAMPLES / "page.map").read_bytes())
        lines = (make_cases.EXAMPLES / "page.sheet").read_text().splitlines()[1:-1]
        totals = {int(i): int(d) for i, d in (line.split() for line in lines) if d != "none"}
        self.assertTrue(is_page(loaded, loaded.ask[1], totals))


if __name__ == "__main__":
    unittest.main()
