#!/usr/bin/env python3
"""Looks up the callers that the pages of the libraries quote: each block of Rust in a `CALLING.md` stands, word for word, in `sample_callers`.

    .ci/check_calling.py

What stands there is proved with that crate, so a page quotes nothing that is not. It prints one line: how many blocks it found, with status 0,
or the first that it did not find, with status 1.
"""
import pathlib
import re
import sys

BLOCK = re.compile(r"^```rust\n(.*?)^```$", re.DOTALL | re.MULTILINE)
CRATES = pathlib.Path(__file__).resolve().parent.parent / "crates"


def text(path):
    """What a file says, with a newline before its first line."""
    return "\n" + path.read_text(encoding="utf-8")


def stray(pages, sources):
    """Where a block stands that is in no source, by its first line, or none."""
    for page in pages:
        blocks = BLOCK.findall(text(page)) or ["no block of Rust"]
        for block in blocks:
            if not any("\n" + block in source for source in sources):
                return f"{page.relative_to(CRATES.parent)}: not in sample_callers: {block.splitlines()[0]}"
    return None


pages = sorted(CRATES.glob("*/CALLING.md"))
sources = [text(path) for path in sorted((CRATES / "sample_callers" / "src").glob("*.rt"))]
fault = stray(pages, sources)
found = sum(len(BLOCK.findall(text(page))) for page in pages)
print(fault or f"{found} blocks on {len(pages)} pages stand in sample_callers")
sys.exit(1 if fault or not pages else 0)
