#!/usr/bin/env python3
"""Writes the text of crates/machine_tests/src/history.rt from examples/history: each trace without its comments, its pace, and its report.
With --check it changes nothing, and fails where the table is not that of the files."""
import pathlib
import re
import sys

TOP = pathlib.Path(__file__).resolve().parent.parent
STORIES = sorted((TOP / "examples" / "history").glob("*.trace"))
TABLE = TOP / "crates" / "machine_tests" / "src" / "history.rt"


def story(path):
    text = path.read_text()
    pace = re.search(r"--preempt (\d+)", text)
    lines = [line for line in text.splitlines() if not line.startswith("#")]
    return "\n".join([
        f"turns --preempt {pace.group(1)}" if pace else "turns",
        f"# {path.stem}",
        *lines,
        "reports",
        path.with_suffix(".report").read_text(),
    ])


def table():
    old = TABLE.read_text()
    head, rest = old.split('static STORIES: &str = "', 1)
    tail = rest.split('";\n', 1)[1]
    text = "---\n".join(story(path) for path in STORIES)
    return f'{head}static STORIES: &str = "{text}";\n{tail}'


new = table()
if "--check" in sys.argv:
    sys.exit(0 if new == TABLE.read_text() else "history.rt is not the text of examples/history")
TABLE.write_text(new)
