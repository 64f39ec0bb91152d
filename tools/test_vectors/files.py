"""The files stdin and stdout of crates/vectors: read, compared and written."""

from pathlib import Path

from .errors import stop

CRATE = Path(__file__).resolve().parent.parent.parent / "crates" / "vectors"


def stored_lines(name):
    try:
        return (CRATE / name).read_bytes().decode("ascii").split("\n")[:-1]
    except (OSError, ValueError) as why:
        stop(f"cannot read the stored file: {why}")


def check(made_texts):
    """Stop where a stored file is not the text made."""
    for name, text in zip(("stdin", "stdout"), made_texts):
        stored = stored_lines(name)
        wanted = text.split("\n")[:-1]
        if stored != wanted:
            at = next((i for i, (a, b) in enumerate(zip(stored, wanted)) if a != b), min(len(stored), len(wanted)))
            stop(f"crates/vectors/{name} is not what generate would write: line {at + 1} is the first that differs")
    print("crates/vectors/stdin and stdout are what generate would write")


def write(made_texts):
    for name, text in zip(("stdin", "stdout"), made_texts):
        (CRATE / name).write_bytes(text.encode("ascii"))
        print(f"wrote crates/vectors/{name}: {text.count(chr(10))} lines, {len(text)} bytes")
