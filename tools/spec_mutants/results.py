"""Verdicts, a line of JSON for each, in results.jsonl of the theories' folder."""

import json
import threading

from .theory import DIRECTORY

FILE = DIRECTORY / "results.jsonl"
_lock = threading.Lock()


def known(current, keep=False):
    """The latest verdict of each mutant, by its key: those of the theory as it is, or all."""
    if not FILE.exists():
        return {}
    rows = [json.loads(line) for line in FILE.read_text().splitlines()]
    return {row["key"]: row for row in rows if keep or row["digest"] == current}


def record(row):
    """Appends a verdict, and prints it."""
    with _lock:
        with open(FILE, "a", encoding="utf-8") as file:
            file.write(json.dumps(row, ensure_ascii=False) + "\n")
        print(f"{row['verdict']:10} {row['seconds']:5.1f}s {row['crate']} `{row['definition']}` [{row['kind']}]: {row['what']}"
              f" {' '.join(row['laws'])[:160]}", flush=True)
