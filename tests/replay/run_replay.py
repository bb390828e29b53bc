"""Runs the program `replay` on its list, and on lists that are broken in each way that crates/replay/LIST.md rules out.

    python3 tests/replay/run_replay.py PROGRAM

PROGRAM is what `tools/native-program replay` prints. A line that is no case, or whose answer was changed, has to be named with what is wrong with it,
and every count has to be right. The last line is `N passed, M failed`, of runs; the exit status is 1 if some failed or none ran.
"""

import itertools
import pathlib
import subprocess
import sys

CRATE = pathlib.Path(__file__).resolve().parents[2] / "crates" / "replay"
ROOM = 524288

# broken lines in one list, few enough for its room
TOGETHER = 500

NO_QUESTION = "no question from 1 to 9"
NO_WORD = "a word is missing or is not what may stand there"
NO_NEWLINE = "no newline behind its last word"
DIFFERS = "the answer differs"
FILLED = "the list fills its room\n"

# the most that each part can be, where it is a whole number
MOST = {
    "directed": 1,
    "bound": 6,
    "mark": 1,
    "records": 12,
    "end": 65535,
    "open": 255,
    "source": 2**32 - 2,
    "target": 2**32 - 2,
    "capped": 1,
    "number": 8,
    "length": 2**32 - 2,
    "count": 2**32 - 2,
    "size": 2**32 - 2,
    "step": 2**32 - 2,
    "node": 2**32 - 2,
    "hop": 2**32 - 2,
    "predecessor": 2**32 - 2,
}

# the least and the most of each part that may be below zero
SIGNED = {
    "cost": (-(2**31), 2**31 - 1),
    "heuristic": (1 - 2**63, 2**63 - 1),
    "path cost": (1 - 2**63, 2**63 - 1),
    "total": (1 - 2**63, 2**63 - 1),
}

BITS = ("bits", "cutoff", "distance")

# what may be none, with the number that stands for none in the lent slices
NONE = {
    "path cost": -(2**63),
    "total": -(2**63),
    "step": 2**32 - 1,
    "node": 2**32 - 1,
    "hop": 2**32 - 1,
    "predecessor": 2**32 - 1,
    "distance": 0xBFF0000000000000,
}

# no number in any base
NO_NUMBER = ("", "-", "g", "+1", "-0", "--1", "A", " ", "\t0", "\0")


def parts(words):
    """The part of each word of a case, in LIST.md's order."""
    question, bound = int(words[0]), int(words[2])
    named = ["question", "directed", "bound"] + ["mark"] * bound + ["records"]
    named += (["end", "end", "cost"] if question < 7 else ["end", "end", "bits", "open"]) * int(words[len(named) - 1])
    if question in (1, 2, 3, 7, 8):
        named += ["source"]
    if question == 3:
        named += ["target"] + ["heuristic"] * bound
    if question in (7, 8):
        named += ["capped", "cutoff"]
    named += ["number"]
    if words[len(named) - 1] != "0":
        return named
    if question in (1, 2):
        named += ["total"] * bound
    if question == 3:
        named += ["path cost", "length"] + ["step"] * bound
    if question in (6, 9):
        named += ["count"]
        named += ["node"] * int(words[len(named) - 1])
    if question in (4, 5, 6, 9):
        named += ["size"]
        named += ["total" if question < 6 else "hop"] * int(words[len(named) - 1])
    if question in (7, 8):
        named += ["distance"] * bound + ["predecessor"] * bound
    return named


def bad_words(part, word):
    """Words that may not stand in place of this one."""
    bad = list(NO_NUMBER)
    if part in BITS:
        bad += ["1" + 16 * "0", 17 * "f", "00", "01", "-1"]
    else:
        value = 0 if word == "x" else int(word)
        bad += ["a", "00", "01", str(2**64 + value), str(10**19 + value), "9" * 19, "9" * 20]
    if part in MOST:
        bad += ["-1", str(MOST[part] + 1), str(2**32 + value), str(2**16 * (MOST[part] + 1) + value)]
    if part in SIGNED:
        bad += ["-01", str(SIGNED[part][0] - 1), str(SIGNED[part][1] + 1)]
    if part in NONE:
        bad += [f"{NONE[part]:x}" if part in BITS else str(NONE[part])]
    else:
        bad += ["x"]
    if part == "cutoff":
        bad += ["c000000000000000", "7ff8000000000001", "fff8000000000000"]
    return bad


def is_rich(words, named):
    """Has a case a record, a cutoff if it can, and an answer with none and with another entry? Every question has such a case."""
    entries = {word == "x" for part, word in zip(named, words) if part in NONE and part != "node"}
    return "end" in named and entries == {True, False} and ("capped" not in named or words[named.index("capped")] == "1")


def is_refused(words, named):
    """Is the answer of a case a number alone?"""
    return named[-1] == "number"


def is_uncapped(words, named):
    """Is a case without a cutoff?"""
    return "capped" in named and words[named.index("capped")] == "0"


def sample(lines, question, wanted):
    """The first case of a question of which this holds, given its words and their parts; its words, or none."""
    cases = (line.split(" ") for line in lines if line.startswith(f"{question} "))
    return next((words for words in cases if wanted(words, parts(words))), None)


def with_word(words, place, word):
    """The line with one word replaced."""
    return " ".join(words[:place] + [word] + words[place + 1 :])


def broken_as_a_line(words):
    """A case with its line broken: name, line, fault."""
    line = " ".join(words)
    for question in ("", "0", "10", "42", "x", "a", "-1", "01", "00", "9" * 19, str(2**64 + 1)):
        yield f"question {question}", with_word(words, 0, question), NO_QUESTION
    yield "an empty line", "", NO_QUESTION
    yield "a space before it", " " + line, NO_QUESTION
    yield "last word cut", " ".join(words[:-1]), NO_WORD
    yield "two spaces", line.replace(" ", "  ", 1), NO_WORD
    yield "two spaces before the last word", "  ".join(line.rsplit(" ", 1)), NO_WORD
    yield "a letter for a digit", with_word(words, 1, "a"), NO_WORD
    for more in (" 0", " x", " 1 2 3", " " + line, " ", "\r", "\t", "\0", "g", ".0"):
        yield f"{more!r} behind it", line + more, NO_NEWLINE


def broken_in_a_word(words):
    """A case with one word broken, each in its turn: name, line, fault."""
    for place, part in enumerate(parts(words)):
        if place:
            yield f"cut at word {place}", " ".join(words[:place]), NO_WORD
            yield f"two spaces before word {place}", with_word(words, place, " " + words[place]), NO_WORD
            yield f"a tab before word {place}", " ".join(words[:place]) + "\t" + " ".join(words[place:]), NO_WORD
            for bad in bad_words(part, words[place]):
                yield f"{part} {bad!r}, word {place}", with_word(words, place, bad), NO_WORD
        if place < len(words) - 1:
            yield f"a letter behind word {place}", with_word(words, place, words[place] + "g"), NO_WORD
        if part == "end":
            yield f"end at the bound, word {place}", with_word(words, place, words[2]), NO_WORD
            yield f"end absent, word {place}", with_word(words, 3 + int(words[place]), "0"), NO_WORD


def none_everywhere(words):
    """The words of an answer in which every entry is none."""
    question, bound = int(words[0]), int(words[2])
    if question in (4, 5):
        size = words[3 : 3 + bound].count("1") ** 2
        return [str(size)] + ["x"] * size
    return ["x", "0"] * (question == 3) + ["x"] * (2 * bound if question > 6 else bound)


def changed_answers(words):
    """A case that is well formed with another answer, or with one of another size: name, line, fault."""
    named = parts(words)
    for place, part in enumerate(named):
        others = []
        if part == "distance":
            others = ["x", "1", "7ff8000000000000", "fff8000000000000", "c000000000000000", "3ff0000000000001"]
        elif part in NONE:
            others = ["x", "5", "-7" if part in SIGNED else "4294967294"]
        elif part == "length":
            others = ["5", "4294967294"]
        for other in others:
            if other != words[place]:
                yield f"{part} {other} for {words[place]}, word {place}", with_word(words, place, other), DIFFERS
        if part in ("count", "size"):
            yield f"{part} less by one", with_word(words, place, str(int(words[place]) - 1)), NO_NEWLINE
        if part == "count":
            count = int(words[place])
            yield "a node left out", " ".join(words[:place] + [str(count - 1)] + words[place + 1 : place + count] + words[place + count + 1 :]), DIFFERS
        if part == "size":
            entries = words[place + 1 :]
            for size in (0, 1, len(entries) - 1, len(entries) + 1):
                yield f"a matrix of {size} entries", " ".join(words[:place] + [str(size)] + (entries + ["0"])[:size]), DIFFERS
            yield "a matrix of 65 entries", " ".join(words[:place] + ["65"] + ["0"] * 65), NO_NEWLINE
    if named[-1] != "number":
        yield "a refusal before the answer", with_word(words, named.index("number"), "6"), NO_NEWLINE
    else:
        yield "0 for a refusal", with_word(words, len(words) - 1, "0"), NO_WORD
        yield "another refusal", with_word(words, len(words) - 1, "8"), DIFFERS
        yield "none everywhere for a refusal", " ".join(words[:-1] + ["0"] + none_everywhere(words)), DIFFERS


def one_link(indices, records):
    """A case that is sound but for its size: a link that is put so many times, on a map of so many indices."""
    return " ".join(["1", "1", str(indices)] + ["1"] * indices + [str(records)] + ["0", "1", "5"] * records + ["0", "0", "0", "5"] + ["x"] * (indices - 2))


def filled(lines, size):
    """Cases of the list, over and over, of this many bytes together."""
    taken, left = [], size
    while left > 1000:
        taken.append(lines[len(taken) % len(lines)])
        left -= len(taken[-1]) + 1
    by_length = {len(line) + 1: line for line in lines}
    for first in by_length:
        for second in by_length:
            if left - first - second in by_length:
                return taken + [by_length[length] for length in (first, second, left - first - second)]
    raise SystemExit(f"no cases of {size} bytes")


def text_of(lines):
    """The list of these lines."""
    return "".join(line + "\n" for line in lines)


def sound(lines):
    """The rows of lines that are cases: question and no fault."""
    return [(line[0], "") for line in lines]


class Expected:
    """The list of the gate, and what the program has to print for others."""

    def __init__(self):
        self.lines = (CRATE / "stdin").read_text().splitlines()
        self.stdout = (CRATE / "stdout").read_text()
        printed = self.stdout.splitlines(keepends=True)
        self.names = [line.split(":")[0] for line in printed[:9]]
        self.limits = "".join(printed[10:])

    def printed(self, rows):
        """What the program prints for rows of a case's question and its fault, which is empty if there is none."""
        cases, differ, faults = [0] * 10, [0] * 10, []
        for number, (question, fault) in enumerate(rows, 1):
            cases[int(question) if fault in ("", DIFFERS) else 0] += 1
            differ[int(question)] += fault == DIFFERS
            faults += [f"line {number}: {fault}\n"] if fault else []
        counts = [f"{name}: {cases[k]} cases, {differ[k]} differ\n" for k, name in enumerate(self.names, 1)]
        return "".join(faults + counts) + f"lines that are no case: {cases[0]}\n" + self.limits

    def whole_lists(self):
        """Lists sound or broken as a whole: name, list, what is printed."""
        lines = self.lines
        yield "the list", text_of(lines), self.stdout
        yield "no line", "", self.printed([])
        yield "the last line missing", text_of(lines[:-1]), self.printed(sound(lines[:-1]))
        yield "no newline at the end", text_of(lines)[:-1], self.printed(sound(lines[:-1]) + [(lines[-1][0], NO_NEWLINE)])
        yield "carriage returns", text_of(lines).replace("\n", "\r\n"), self.printed([(line[0], NO_NEWLINE) for line in lines])
        for more in ("\n", "\0"):
            yield f"{more!r} at the end", text_of(lines) + more, self.printed(sound(lines) + [(0, NO_QUESTION)])
        sizes = [one_link(6, 12), one_link(7, 12), one_link(6, 13)]
        yield "more indices or records than a case has", text_of(sizes), self.printed([(1, ""), (1, NO_WORD), (1, NO_WORD)])
        below, full = filled(lines, ROOM - 1), filled(lines, ROOM)
        yield "one byte less than the room", text_of(below), self.printed(sound(below))
        yield "as long as the room", text_of(full), FILLED + self.printed(sound(full))
        yield "past the room", text_of(full + lines), FILLED + self.printed(sound(full))

    def one_line_broken(self):
        """The list with one line broken: the first, one in the middle, the last."""
        for number in (1, len(self.lines) // 2, len(self.lines)):
            words = self.lines[number - 1].split(" ")
            for name, line, fault in [*broken_as_a_line(words), *list(changed_answers(words))[:2]]:
                before, behind = self.lines[: number - 1], self.lines[number:]
                rows = sound(before) + [(words[0], fault)] + sound(behind)
                yield f"line {number}, {name}", text_of(before + [line] + behind), self.printed(rows)

    def all_lines_broken(self):
        """Lists of nothing but broken lines, with a sound one last: every break of a case of each question."""
        for question, wanted in itertools.product(range(1, 10), (is_rich, is_refused, is_uncapped)):
            words = sample(self.lines, question, wanted)
            if words is None and wanted is is_rich:
                raise SystemExit(f"no case of question {question} to break")
            if words is None:
                continue
            broken = [*broken_as_a_line(words), *broken_in_a_word(words), *changed_answers(words)]
            if wanted is is_uncapped:
                broken.append(("bits of no cutoff", with_word(words, parts(words).index("cutoff"), "1"), NO_WORD))
            for start in range(0, len(broken), TOGETHER):
                some = broken[start : start + TOGETHER]
                rows = [(question, fault) for _, _, fault in some] + [(question, "")]
                lines = [line for _, line, _ in some] + [" ".join(words)]
                yield f"question {question}, {wanted.__name__}, from break {start} on", text_of(lines), self.printed(rows)


def first_difference(got, expected):
    """The first lines of two texts that differ."""
    pairs = itertools.zip_longest(got.splitlines(), expected.splitlines(), fillvalue="nothing")
    return next((f"printed `{a}`, not `{b}`" for a, b in pairs if a != b), "printed other bytes")


def main(words):
    """The command line; the exit status."""
    if len(words) != 1:
        sys.stderr.write(__doc__)
        return 2
    passed = failed = 0
    expected = Expected()
    for name, text, printed in itertools.chain(expected.whole_lists(), expected.one_line_broken(), expected.all_lines_broken()):
        got = subprocess.run(words, input=text.encode(), stdout=subprocess.PIPE, check=True).stdout.decode()
        if got == printed:
            passed += 1
        else:
            failed += 1
            print(f"{name}: {first_difference(got, printed)}")
    print(f"{passed} passed, {failed} failed")
    return 0 if passed and not failed else 1


if __name__ == "__main__":
    sys.exit(main(sys.argv[1:]))
