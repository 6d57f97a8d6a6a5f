#!/usr/bin/env python3
"""Runs the reader and the writer of baggage that `anti_baggage`'s page shows in Python, on the rows of texts that the library's tests have.

    .ci/check_baggage.py

Each text of these rows comes to what the row says: to a lineage whose text of version 2 is read again, and is this text where it is one of
version 2; or to its fault. It prints one line: how many rows it found, with status 0, or the first that differs, with status 1.
"""
import pathlib
import re
import sys

CRATES = pathlib.Path(__file__).resolve().parent.parent / "crates"
BLOCK = re.compile(r"^```python\n(.*?)^```$", re.DOTALL | re.MULTILINE)
ROW = re.compile(r'\(\s*b"([^"]*)",\s*(Ok\(\(\)\)|Err\(BaggageFault::(\w+(?:\(\d+\))?)\)),?\s*\)')
STORES = ["posts", "notes"]


def comes_to(page, text):
    """The fault of a text, as the page's reader tells it, or none."""
    try:
        ids = page["read"](text, STORES)
    except ValueError as fault:
        return str(fault)
    again = page["write"](ids, STORES)
    if page["read"](again, STORES) != ids or text.startswith("2;") and again != text:
        return f"{again} in its place"
    return None


def wrong(page, rows):
    """The first row that comes to something else, or none."""
    for text, _, fault in rows:
        found = comes_to(page, text)
        if found != (fault or None):
            return f"the page's reader of baggage: {text} comes to {found}"
    return None


blocks = BLOCK.findall((CRATES / "anti_baggage" / "CALLING.md").read_text(encoding="utf-8"))
page = {}
exec("".join(blocks), page)
table = (CRATES / "test_libraries" / "src" / "baggage.rt").read_text(encoding="utf-8")
rows = ROW.findall(table[table.index("static TEXTS") : table.index("fn texts_are_read_exactly")])
fault = wrong(page, rows) if blocks and rows else "no reader of baggage, or no row"
print(fault or f"the page's reader of baggage agrees on {len(rows)} texts")
sys.exit(1 if fault else 0)
