#!/usr/bin/env python3
"""Judges what `antipode counterexample` writes of a document, by what `step`, `doctor` and `place` say of it.

    examples/check_counterexample.py PROGRAM DOCUMENT [OUTPUT]

OUTPUT is the file with what was written; where none is named PROGRAM is run for it, and `-` is standard input. The choices that were
written are put into the document in the place of its own, with their comments, and PROGRAM plays that. No choice may be a wait; each has
to make the entry that stands behind it, and there may be no other entries; `end` has to tell how many there are. The line of the span has
to be one of the doctor's, or of the record where no read missed a write. Nothing was to be tried just where the application is placed.

It prints nothing where all that holds, and the status is 0. Else it tells the first thing that does not, and the status is 1.
"""
import collections
import json
import re
import subprocess
import sys
import tomllib

# How many schedules are tried, how many entries all their runs may have before the last of them, how many choices and bytes a document may
# have, and how many seconds a run of the program may take.
SCHEDULES, ENTRIES, CHOICES, BYTES, SECONDS = 512, 4_000_000, 4096, 262_144, 600

NUMBER = r"(?:0|[1-9][0-9]{0,9})"
LISTED = re.compile(r'    "([^"\\]+)", # (\S+) (.+)\n')
FORM = re.compile(
    rf"(?P<word>counterexample|long|none) (?P<number>{NUMBER})\n"
    r'(?P<block>choices = \[\n(?:    "[^"\\]+", # \S+ .+\n)+\]\n)?'
    rf"(?:(?P<span>span \S+ (?P<answer>misses|unguarded|lossy) .+)\nend (?P<end>{NUMBER})\n)?"
)

# Of each word whether choices stand behind it, and a span with its answer.
FORMS = {
    "counterexample": [(True, "misses")],
    "long": [(False, "misses")],
    "none": [(False, None), (True, "unguarded"), (True, "lossy")],
}


class Wrong(Exception):
    """What is wrong with what was written."""


def expect(holds, fault):
    if not holds:
        raise Wrong(fault)


# The document that is played.


def toml(value):
    """A value as TOML, in one line: the strings of JSON are strings of TOML, but for one character."""
    if isinstance(value, dict):
        return "{ " + ", ".join(f"{key} = {toml(inner)}" for key, inner in value.items()) + " }"
    if isinstance(value, list):
        return "[" + ", ".join(map(toml, value)) + "]"
    return json.dumps(value, ensure_ascii=False).replace("\x7f", "\\u007f")


def pasted(document, block):
    """The document with a block of choices in the place of its own. All else of it is written anew as top keys, so that the block stands in
    no table wherever its own choices stood."""
    rest = "".join(f"{key} = {toml(value)}\n" for key, value in document.items() if key != "choices")
    if len((block + rest).encode()) > BYTES:  # so long are the comments alone, which have whole lineages
        block = "choices = [\n" + "".join(f'"{choice}",\n' for choice, _, _ in LISTED.findall(block)) + "]\n"
    return block + rest


def asked(program, word, text):
    """What the program writes of a document."""
    try:
        done = subprocess.run([program, word], input=text.encode(), capture_output=True, timeout=SECONDS)
    except subprocess.TimeoutExpired:
        raise Wrong(f"{word} takes more than {SECONDS} s") from None
    expect(done.returncode == 0, f"{word} ends with {done.returncode}: {done.stderr.decode().strip()}")
    return done.stdout.decode("ascii")


# What a choice makes.


def entries_of(record):
    """The actor and the rest of each entry of a record, its call and its reply, by its mark."""
    lines = [line.split(" ", 3) for line in record.splitlines() if line[:1].isdigit()]
    return {mark: (actor, rest) for _, mark, actor, rest in lines}


def is_made_by(choice, mark, actor, rest):
    """Whether a choice asks for an entry."""
    word, *words = choice.split(" ")
    call = rest.split(" = ")[0].split(" ")
    if word == "go":
        return [actor.split("/")[0]] == words and mark not in words
    if word in ("pull", "repull"):
        return call == [word, *words]
    part = ["1"] if word in ("ship", "again") and len(words) == 3 else []
    return mark.split(".")[0] == words[0] and call == [word, *words[1:], *part]


def judge_choices(listed, record):
    """Whether the choices make the entries that stand behind them, one after another, and no others."""
    waits = [line for line in record.splitlines() if line.startswith("wait ")]
    expect(not waits, f"a choice makes no entry: {waits[:1]}")
    entries, made = entries_of(record), collections.Counter()
    for number, (choice, mark, rest) in enumerate(listed, 1):
        name = mark.split(".")[0]
        made[name] += 1
        expect(mark == f"{name}.{made[name]}", f"choice {number}: {mark} stands where {name}.{made[name]} is due")
        expect(mark in entries, f"choice {number}: the record has no entry {mark}")
        actor, due = entries[mark]
        expect(rest == due, f"choice {number}: {mark} is {due}")
        expect(is_made_by(choice, mark, actor, rest), f"choice {number}: {choice} does not make {mark} of {actor}")
    expect(len(entries) == len(listed), f"{len(listed)} choices make {len(entries)} entries")


# What was written.


def parts_of(output):
    """The parts of what was written."""
    parts = FORM.fullmatch(output)
    expect(parts, "it has not the form")
    word, number = parts["word"], int(parts["number"])
    expect((parts["block"] is not None, parts["answer"]) in FORMS[word], f"behind {word} other parts are due")
    expect(word == "none" or 0 < number <= SCHEDULES, f"there is no schedule {number}")
    return parts


def judge_run(program, document, parts):
    """Judges the choices that were written, and what is told of their run."""
    listed, text = LISTED.findall(parts["block"]), pasted(document, parts["block"])
    choices = [choice for choice, _, _ in listed]
    expect(tomllib.loads(text) == {**document, "choices": choices}, "in the document the choices are read as others")
    expect(int(parts["end"]) == len(choices) <= CHOICES, f"it has {len(choices)} choices")
    record = asked(program, "step", text)
    judge_choices(listed, record)
    diagnoses = asked(program, "doctor", text).splitlines()
    if parts["word"] == "none":
        expect(parts["span"] in record.splitlines(), "the record has no such span")
        missed = [line for line in diagnoses if " misses " in line]
        expect(not missed, f"a read of this run missed a write: {missed[:1]}")
    else:
        expect(parts["span"] in diagnoses, f"the doctor has no such span: {diagnoses[1:-1]}")


def judge_tries(program, document, tries):
    """Whether all schedules were tried, or so many that their runs may have as many entries as are made at most: by half or twice as many, for
    which no run is known but one."""
    if tries < SCHEDULES:
        record = asked(program, "step", pasted(document, 'choices = ["finish"]\n'))
        entries = int(record.splitlines()[-1].removeprefix("end "))
        expect(2 * tries * entries >= ENTRIES, f"{tries} schedules were tried, with runs of {entries} entries")


def judge(program, text, output):
    """Judges what was written of a document, the text of which is given, and tells its parts."""
    parts, document = parts_of(output), tomllib.loads(text)
    is_placed = asked(program, "place", text) == "placed\n"
    expect(not is_placed or output == "none 0\n", "the application is placed, so nothing was to be tried")
    if parts["word"] == "none" and not is_placed:
        judge_tries(program, document, int(parts["number"]))
    if parts["word"] == "long":
        expect(int(parts["end"]) > CHOICES, "the choices are not too many for a document")
    elif parts["block"]:
        judge_run(program, document, parts)
    return parts


def read(name):
    """The text of a file, whose newlines stay what they are."""
    with open(0 if name == "-" else name, encoding="utf-8", newline="") as file:
        return file.read()


if __name__ == "__main__":
    if len(sys.argv) not in (3, 4):
        sys.exit("usage: examples/check_counterexample.py PROGRAM DOCUMENT [OUTPUT]")
    try:
        given = read(sys.argv[2])
        judge(sys.argv[1], given, read(sys.argv[3]) if len(sys.argv) > 3 else asked(sys.argv[1], "counterexample", given))
    except (Wrong, OSError, ValueError) as fault:
        sys.exit(f"{sys.argv[2]}: {fault}")
