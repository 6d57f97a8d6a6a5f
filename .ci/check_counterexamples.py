#!/usr/bin/env python3
"""Has the program look for a counterexample of many applications, and each answer judged.

    .ci/check_counterexamples.py [--jobs N] [--folder FOLDER] [--only KIND] [PROGRAM]

The applications are those of `bench/applications.py`, and the examples. It prints a line for each answer that is wrong, and a table of what was
found by kind. The status is 0 where no answer is wrong, the judge refuses each of two answers in which one thing or another is changed, and of
each kind at least as many counterexamples were found as PINS says. PROGRAM is crates/antipode/out/antipode unless another is named. The
documents and the answers stay in the FOLDER where one is given.

What is found of each kind is pinned for itself, since one that always ships last finds most of the others, and none of the chains.
"""
import argparse
import collections
import concurrent.futures
import glob
import os
import sys
import tempfile
import time

sys.dont_write_bytecode = True  # the repository gets no file by a run
TOP = os.path.dirname(os.path.dirname(os.path.abspath(__file__)))
sys.path += [os.path.join(TOP, "bench"), os.path.join(TOP, "examples")]
import applications
import check_counterexample

# By kind, how many counterexamples have to be found at least, with those that are too long to be written; and how many of these and of runs
# in which something is unguarded or lossy.
PINS = {"small": (16, 25), "flows": (52, 57), "chains": (33, 50), "near": (1, 1), "long": (1, 1), "examples": (11, 13)}

COLUMNS = ["documents", "placed", "unplaced", "found", "long", "hint", "none", "wrong"]


class Answer:
    """What the program wrote of a document, its parts, and what is wrong with it, if anything is."""

    def __init__(self, program, kind, path):
        self.kind, self.path, self.output, self.parts, self.fault = kind, path, "", None, None
        begun = time.monotonic()
        try:
            self.text = check_counterexample.read(path)
            self.output = check_counterexample.asked(program, "counterexample", self.text)
            self.seconds = time.monotonic() - begun
            self.parts = check_counterexample.judge(program, self.text, self.output)
        except (check_counterexample.Wrong, OSError, ValueError) as fault:
            self.fault, self.seconds = str(fault), time.monotonic() - begun

    def column(self):
        """The column of the table that counts it, beside the first."""
        if self.fault:
            return "wrong"
        word, number = self.parts["word"], self.parts["number"]
        if word == "none":
            return "placed" if number == "0" else "hint" if self.parts["block"] else "none"
        return {"counterexample": "found"}.get(word, word)


# What an answer with choices is changed to, which the judge has to refuse.


def with_choices(change):
    """A change of the lines that have choices, which gets a list of them and changes it. The number of choices is told anew."""

    def changed(output):
        lines = output.splitlines(keepends=True)
        choices = lines[2:-3]
        change(choices)
        return "".join([*lines[:2], *choices, *lines[-3:-1], f"end {len(choices)}\n"])

    return changed


def without_choices(output):
    lines = output.splitlines(keepends=True)
    return "".join(lines[:1] + lines[-2:])


def exchange(choices):
    choices[0], choices[1] = choices[1], choices[0]


def exchange_comments(choices):
    (one, behind_one), (other, behind_other) = choices[0].split(" # "), choices[1].split(" # ")
    choices[:2] = [f"{one} # {behind_other}", f"{other} # {behind_one}"]


def change_reply(choices):
    choices[0] = choices[0].replace(" = got 1 ", " = got 2 ")


CHANGES = {
    "a schedule too many": lambda output: output.replace("counterexample ", "counterexample 1000", 1),
    "a run that missed nothing": lambda output: output.replace("counterexample ", "none 512\n", 1),
    "a run that missed a write": lambda output: output.replace("none 512", "counterexample 1", 1),
    "nothing to be tried": lambda output: "none 0\n",
    "too long": lambda output: without_choices(output).replace("counterexample ", "long ").replace("none 512", "long 1"),
    "no choices": without_choices,
    "no newline": lambda output: output[:-1],
    "a line more": lambda output: output + "\n",
    "another end": lambda output: output[:-1] + "0\n",
    "another span": lambda output: output.replace("\nspan ", "\nspan x"),
    "another write": lambda output: output.replace("\nend ", "1\nend "),
    "the read left out": lambda output: with_choices(list.pop)(output) if " misses " in output else output,
    "the first choice left out": with_choices(lambda choices: choices.pop(0)),
    "a choice twice": with_choices(lambda choices: choices.insert(0, choices[0])),
    "choices exchanged": with_choices(exchange),
    "comments exchanged": with_choices(exchange_comments),
    "another reply": with_choices(change_reply),
    "all that can happen": with_choices(lambda choices: choices.insert(0, '    "finish", # x.1 take 1 = done\n')),
}


def accepted(program, answer):
    """The changes of an answer that the judge does not refuse."""
    for name, change in CHANGES.items():
        output = change(answer.output)
        try:
            if output != answer.output:
                check_counterexample.judge(program, answer.text, output)
                yield name
        except check_counterexample.Wrong:
            pass


# The table.


def spread(numbers):
    """The median, what nine of ten do not pass, and the greatest."""
    ranked = sorted(numbers)
    return " / ".join(str(ranked[(len(ranked) - 1) * part // 10]) for part in (5, 9, 10)) if ranked else "-"


def rows(answers):
    """The table of the answers, a line for each kind: how many there are of each sort, and the numbers of the schedules and of the choices of
    those that were found, and of the seconds of all."""
    yield ["kind", *COLUMNS, "schedule", "choices", "seconds"]
    for kind in PINS:
        of_kind = [answer for answer in answers if answer.kind == kind]
        if not of_kind:
            continue
        counts = collections.Counter(answer.column() for answer in of_kind)
        counts["documents"] = len(of_kind)
        counts["unplaced"] = len(of_kind) - counts["placed"] - counts["wrong"]
        found = [answer.parts for answer in of_kind if answer.column() == "found"]
        numbers = [spread(int(parts[name]) for parts in found) for name in ("number", "end")]
        yield [kind, *(str(counts[name]) for name in COLUMNS), *numbers, spread(round(answer.seconds, 1) for answer in of_kind)]


def told(table):
    """A table with columns as wide as they have to be."""
    widths = [max(map(len, column)) for column in zip(*table)]
    return ["  ".join(cell.ljust(width) for cell, width in zip(row, widths)).rstrip() for row in table]


def documents(folder, only):
    """Each document with its kind."""
    for kind, count in applications.SET.items():
        if only in (None, kind):
            yield from ((kind, path) for path in applications.written(folder, kind, count))
    if only in (None, "examples"):
        yield from (("examples", path) for path in sorted(glob.glob(os.path.join(TOP, "examples", "*.toml"))))


def answered(program, folder, jobs, only):
    """The answers of all documents. What was written of each is left in the folder."""
    os.makedirs(folder, exist_ok=True)
    with concurrent.futures.ThreadPoolExecutor(jobs) as pool:
        answers = list(pool.map(lambda asked: Answer(program, *asked), documents(folder, only)))
    for answer in answers:
        name = os.path.basename(answer.path).removesuffix(".toml") + ".counterexample"
        with open(os.path.join(folder, name), "w", encoding="utf-8") as file:
            file.write(answer.output)
    return answers


def faults(program, answers):
    """What is wrong, a line each."""
    yield from (f"{answer.path}: {answer.fault}" for answer in answers if answer.fault)
    for column in ("found", "hint"):
        for answer in [answer for answer in answers if answer.column() == column][:1]:
            yield from (f"{answer.path}: judged right though it was changed: {name}" for name in accepted(program, answer))
    for kind in dict.fromkeys(answer.kind for answer in answers):
        columns = collections.Counter(answer.column() for answer in answers if answer.kind == kind)
        found = columns["found"] + columns["long"]
        counts = (found, found + columns["hint"])
        if any(count < pin for count, pin in zip(counts, PINS[kind])):
            yield f"{kind}: found, and found or hinted at, are {counts}, and {PINS[kind]} are pinned"


if __name__ == "__main__":
    parser = argparse.ArgumentParser(description="Has the program look for counterexamples of many applications, and judges what it writes.")
    parser.add_argument("--jobs", type=int, default=os.cpu_count(), help="how many are judged at a time")
    parser.add_argument("--folder", help="where the documents and the answers are to stay")
    parser.add_argument("--only", choices=PINS, help="one kind alone")
    parser.add_argument("program", nargs="?", default=os.path.join(TOP, "crates/antipode/out/antipode"))
    given = parser.parse_args()
    with tempfile.TemporaryDirectory() as temporary:
        results = answered(given.program, given.folder or temporary, given.jobs, given.only)
        print("\n".join(told(list(rows(results)))))
        wrong = list(faults(given.program, results))
    print("\n".join(wrong) or "counterexamples: each is judged right")
    sys.exit(1 if wrong else 0)
