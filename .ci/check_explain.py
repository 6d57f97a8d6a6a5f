#!/usr/bin/env python3
"""Checks that `tools/explain` judges documents as the program does, and that it says of typical mistakes what it should.

    .ci/check_explain.py [--write] [CHANGES [SEED]]

What it says of each document of `tools/mistakes` has to be the text beside it (`--write` writes these texts anew), and these have to show each
rule, a choice and a text that is no TOML. Of each document of `examples` it has to find nothing wrong. The documents of `test_documents` that are
refused have to be refused with the line that the tests say; and so many documents that are made from the examples by changing words (400, from
the seed 1) with the line that the program writes, where it is built: the one that $ANTIPODE names, or crates/antipode/out/antipode. It prints one line:
what was checked, with status 0, or the first thing that differs, with status 1.
"""
import os
import pathlib
import random
import re
import subprocess
import sys
import tomllib

TOP = pathlib.Path(__file__).resolve().parent.parent
sys.dont_write_bytecode = True
sys.path.insert(0, str(TOP / "tools"))

from explaining.reader import read  # noqa: E402
from explaining.rules import LONGEST_DOCUMENT, RULES  # noqa: E402
from explaining.telling import RIGHT, explained, rule_texts, told  # noqa: E402

TESTS = TOP / "crates" / "test_documents" / "src"
TEXT = r'"((?:[^"\\]|\\.)*)"'
FRAMES = re.compile(rf"(?:const|static) (\w+): &str =\s*(?:{TEXT}|served!\(((?:\s*{TEXT},?)+)\));")
TABLES = re.compile(r"assert_refused\(&rt, [\w.()]+, (\"@\"|\w+), (\w+)\)")
PAIRS = re.compile(rf'\(\s*{TEXT},\s*"((?:app|choice|not toml)[^"]*)\\n",?\s*\)')
SERVED = """choices = [{}]
regions = ['eu']
store = [{{name = 's', kind = 'kv', replicas = ['eu']}}]
request = [{{service = 'w', handler = 'one'}}, {{service = 'w', handler = 'two'}}]
[[service]]
name = 'w'
region = 'eu'
handler = [{{name = 'one', body = [{}]}}, {{name = 'two', body = [{}]}}]"""


class Differs(Exception):
    """The first thing that is not as it should be."""


# ---- the program

def program():
    """The program, where there is one."""
    path = os.environ.get("ANTIPODE") or TOP / "crates" / "antipode" / "out" / "antipode"
    return str(path) if os.access(path, os.X_OK) else None


def line_of_program(data):
    """The line with which the program refuses a document, or none."""
    return subprocess.run([program(), "place"], input=data, capture_output=True).stderr.decode().strip() or None


def agrees(data, name):
    """The line with which a document is refused, which has to be the first of what is said, and that of the program."""
    line, says = told(data)
    if (says[0] if says else None) != line:
        raise Differs(f"{name}: what is said begins with {says[0] if says else 'nothing'}, and the line is {line}")
    if program() and line_of_program(data) != line:
        raise Differs(f"{name}: the program says {line_of_program(data)}, and tools/explain {line}")
    return line


# ---- documents that stand in the repository

def mistakes(writes):
    """Checks the typical mistakes, and answers how many there are."""
    documents, shown = sorted((TOP / "tools" / "mistakes").glob("*.toml")), ""
    for document in documents:
        data, text = document.read_bytes(), document.with_suffix(".txt")
        agrees(data, document.name)
        said, status = explained(data)
        if writes:
            text.write_text(said, encoding="utf-8")
        if not status or not text.exists() or text.read_text(encoding="utf-8") != said:
            raise Differs(f"{text.name} is not what is said of {document.name}:\n{said}")
        shown += said
    numbers = {int(number) for number in re.findall(r"^(?:further: )?app (\d+) ", shown, re.MULTILINE)}
    if numbers != set(range(1, len(RULES) + 1)) or "not toml\n" not in shown or "choice" not in shown:
        raise Differs(f"the mistakes show the rules {sorted(numbers)} alone")
    return len(documents)


def page():
    """Checks that docs/FORMAT.md shows what is said of one of the mistakes."""
    said = "".join(f"    {line}\n" for line in (TOP / "tools" / "mistakes" / "comment_in_a_line.txt").read_text(encoding="utf-8").splitlines())
    if said not in (TOP / "docs" / "FORMAT.md").read_text(encoding="utf-8"):
        raise Differs("docs/FORMAT.md shows something else than what is said of comment_in_a_line.toml")


def plain(node):
    """What was read, as tomllib answers it."""
    if node.kind == "table":
        return {key: plain(each) for key, each in node.of.items()}
    return [plain(each) for each in node.of] if node.kind == "array" else node.of


def examples():
    """Checks that nothing is wrong with the examples, and that they are read as Python reads them; and answers their texts."""
    texts = {}
    for document in sorted((TOP / "examples").glob("*.toml")):
        data = document.read_bytes()
        texts[document.name] = data.decode()
        if agrees(data, document.name) or explained(data) != (RIGHT, 0):
            raise Differs(f"something is said to be wrong with {document.name}")
        if plain(read(data.decode())) != tomllib.loads(data.decode()):
            raise Differs(f"{document.name} is not read as Python reads it")
    return texts


def rows_of(source):
    """The documents of a file of tests that are refused, each with its line."""
    frames = {name: SERVED.format(*re.findall(TEXT, args)) if args else text for name, text, args, _ in FRAMES.findall(source)}
    for frame, table in TABLES.findall(source):
        for row in frames[table].split("\n"):
            text, arrow, line = row.partition(" => ")
            if arrow:
                yield frames.get(frame, "@").replace("@", text), line
    yield from PAIRS.findall(source)


def tests():
    """Checks the documents that the tests refuse, and answers how many there are."""
    rows = [row for name in ("rules.rt", "refusals.rt") for row in rows_of((TESTS / name).read_text(encoding="utf-8"))]
    for document, line in rows:
        if told(document.encode())[0] != line:
            raise Differs(f"the tests say {line}, and tools/explain {told(document.encode())[0]}, of\n{document}")
    return len(rows)


def too_long():
    """Checks a document that is just as long as one may be, and one that is longer."""
    front = b'regions = ["us"]\n#'
    if agrees(front.ljust(LONGEST_DOCUMENT, b"x"), "the longest document") or agrees(front.ljust(LONGEST_DOCUMENT + 1, b"x"), "a longer one") != "too long":
        raise Differs("a document of the greatest length is not told from a longer one")


def calls():
    """Checks the statuses of the command itself, and that a line which is given is explained."""
    right, wrong = "examples/barrier.toml", "tools/mistakes/unknown_kind.toml"
    wanted = [([right], 0), ([wrong], 1), ([wrong, "app", "11", "store", "1", "0"], 1), ([right, "app 23 handler 1 1"], 1), ([wrong, "no memory"], 1),
              ([], 2), ([wrong, "no line"], 2), (["no_such_document"], 2)]
    for words, status in wanted:
        ended = subprocess.run([str(TOP / "tools" / "explain"), *words], cwd=TOP, capture_output=True)
        if ended.returncode != status or (status < 2) != bool(ended.stdout):
            raise Differs(f"tools/explain {' '.join(words)} ends with {ended.returncode} in place of {status}")


# ---- documents that are drawn

def changed(text, draw):
    """A document with some words dropped, doubled, replaced by others of it, swapped or cut."""
    pieces = re.findall(r"[A-Za-z0-9_$.-]+|\s+|.", text)
    words = [at for at, piece in enumerate(pieces) if re.match(r"[A-Za-z0-9_$]", piece) or draw.random() < 0.1 and not piece.isspace()]
    for _ in range(draw.choice((1, 1, 1, 2, 3))):
        at, other = draw.choice(words), draw.choice(words)
        match draw.randrange(5):
            case 0:
                pieces[at] = ""
            case 1:
                pieces[at] += " " + pieces[at]
            case 2:
                pieces[at] = pieces[other]
            case 3:
                pieces[at], pieces[other] = pieces[other], pieces[at]
            case 4:
                pieces[at] = pieces[at][:-1]
    return "".join(pieces)


def changes(texts, count, seed):
    """Checks so many documents that are drawn, and answers how many of them are refused."""
    refused = 0
    for number in range(seed, seed + count):
        draw = random.Random(number)
        text = changed(texts[draw.choice(sorted(texts))], draw)
        refused += agrees(text.encode(), f"the change of seed {number}") is not None
    return refused


def check(words):
    """All of it, as a line."""
    writes, numbers = "--write" in words, [int(word) for word in words if word.isdigit()]
    count, seed = (numbers + [400, 1][len(numbers):])[:2]
    if sorted(rule_texts()) != list(range(1, len(RULES) + 1)):
        raise Differs(f"docs/FORMAT.md has the rules {sorted(rule_texts())}, and tools/explain {len(RULES)}")
    made, texts = mistakes(writes), examples()
    page()
    rows = tests()
    too_long()
    calls()
    refused = changes(texts, count, seed)
    judged = "by the program too" if program() else "and the program is not built, so by tools/explain alone"
    return (f"explain: {made} mistakes are told as they stand, of {len(texts)} examples none, {rows} refusals are those of the tests; "
            f"of {count} changes {refused} are refused, {judged}")


try:
    print(check(sys.argv[1:]))
except Differs as difference:
    print(f"explain: FAILED, {difference}")
    sys.exit(1)
