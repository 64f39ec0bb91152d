"""Theories: copies of the repository without functions, one for each worker, in a folder outside it, since the gate refuses definitions that stand in no crate of
the list: THEORY names it, or it is one of the system's temporary directory. Nothing else is written."""

import fcntl
import hashlib
import os
import re
import shutil
import signal
import sys
import tempfile
from contextlib import contextmanager
from pathlib import Path

from . import tree
from .checking import errors, prove

_NAME = "bulwarkle-theory-" + hashlib.sha256(str(tree.ROOT).encode()).hexdigest()[:8]
DIRECTORY = Path(os.environ.get("THEORY") or Path(tempfile.gettempdir()) / _NAME)
FUNCTION = re.compile(r'(pub(\(crate\))? )?(extern "C" )?fn |impl\b|(pub(\(crate\))? )?trait ')
USE_OF_FUNCTION = re.compile(r"(pub )?use (.*::)?[a-z_0-9]+;$")
TRAIT = re.compile(r"^(?:pub(?:\(crate\))? )?trait (\w+)", re.M)
USE_LIST = re.compile(r"^((?:pub )?use [^;{]*\{)([^}]*)(\};)$", re.M)


class NotProved(Exception):
    """A theory whose laws fail without any change."""


def without_functions(text, traits=()):
    """The items of a source file that are no functions, no impls and no traits; of its `use` items those of types."""
    kept, inside = [], False
    for line in text.split("\n"):
        if inside:
            inside = line not in ("}", "{}")
        elif FUNCTION.match(line):
            inside = not line.rstrip().endswith(";")
        elif line.startswith("#![tactic("):
            kept.append("#![tactic(auto)]")  # without the laws that it names for functions
        elif not USE_OF_FUNCTION.match(line) and not line.startswith(("ghost use ", "#[")) or line.startswith("#[derive("):
            kept.append(line)
    return USE_LIST.sub(lambda use: use[1] + ", ".join(name for name in re.split(r",\s*", use[2].strip()) if name not in traits) + use[3], "\n".join(kept))


def texts():
    """The files of a theory, as the repository has them now, by their paths."""
    crates = tree.theory_crates()
    found = {"crates.txt": "".join(f"{name}: {' '.join(below)}\n" for name, below in crates.items())}
    traits = {trait for name in crates for path in tree.sources(name) for trait in TRAIT.findall(path.read_text())}
    for name in crates:
        lib = [path / "Lib.antt" for path in (tree.ROOT / "crates" / name / "specs",) if path.is_dir()]
        for path in [*lib, *tree.specs(name), *tree.laws(name)]:
            found[str(path.relative_to(tree.ROOT))] = path.read_text()
        for path in tree.sources(name):
            found[str(path.relative_to(tree.ROOT))] = without_functions(path.read_text(), traits)
    return found


def digest(files):
    """A digest of all types, definitions and laws of a theory."""
    return hashlib.sha256("\0".join(f"{path}\0{text}" for path, text in sorted(files.items())).encode()).hexdigest()[:16]


class Theory:
    """One copy, in a directory of its own."""

    def __init__(self, number, files):
        self.directory, self.files = DIRECTORY / str(number), files
        self.mark = self.directory / "proved"

    def renew(self):
        """Makes its files those of the repository, and removes others; what the prover left stays."""
        for path in self.directory.glob("crates/**/*.*"):
            below = path.relative_to(self.directory)
            if path.is_file() and below.parts[2] != "out" and str(below) not in self.files:
                path.unlink()
        self.write(self.files)

    def write(self, files):
        """Writes files that differ."""
        for name, text in files.items():
            path = self.directory / name
            path.parent.mkdir(parents=True, exist_ok=True)
            if not path.exists() or path.read_text() != text:
                path.write_text(text)

    @contextmanager
    def changed(self, files):
        """The theory with other texts of some files, for a while."""
        self.write(files)
        try:
            yield
        finally:
            self.write({name: self.files[name] for name in files})

    @property
    def proved(self):
        """Whether it was proved as it is."""
        return self.mark.exists() and self.mark.read_text() == digest(self.files)

    def prove(self):
        """Proves each crate, unless it was proved as it is."""
        for crate in [] if self.proved else tree.theory_crates():
            status, said = prove(self.directory, crate)
            if status:
                raise NotProved(f"{crate} of {self.directory} is not proved:\n" + ("\n".join(map(str, errors(crate, said)[:12])) or said[-2000:]))
            print(f"theory: {crate} proved", flush=True)
        self.mark.write_text(digest(self.files))

    def copy(self, other):
        """Makes it a copy of a proved one, with what the prover left there."""
        self.renew()
        if not self.proved:
            shutil.rmtree(self.directory)
            shutil.copytree(other.directory, self.directory)


@contextmanager
def alone():
    """One run at a time, for two would change the same files. A run that is ended puts them back."""
    DIRECTORY.mkdir(parents=True, exist_ok=True)
    with open(DIRECTORY / "lock", "w") as lock:
        try:
            fcntl.flock(lock, fcntl.LOCK_EX | fcntl.LOCK_NB)
        except OSError:
            raise NotProved(f"another run is under way in {DIRECTORY}") from None
        signal.signal(signal.SIGTERM, lambda *_: sys.exit(143))
        yield
