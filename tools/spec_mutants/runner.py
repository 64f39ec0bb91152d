"""Mutants dealt out to several theories, each worked through by a thread of its own."""

import threading
from queue import Empty, Queue

from . import checking, results, tree
from .edits import read_edit
from .mutants import mutants
from .tables import TOPS
from .theory import Theory, alone, digest, texts


def above(crate):
    """The crates of TOPS that are built on a crate."""
    known = tree.theory_crates()
    return [top for top in TOPS if crate in known[top]]


def selected(crates, names, kinds=()):
    """The mutants of some crates, of the definitions and kinds that are named, or of all."""
    known = tree.theory_crates()
    for crate in crates:
        if crate not in known:
            raise tree.Missing(f"no crate of the theory: {crate} (it has {' '.join(known)})")
    found = [mutant for crate in crates for mutant in mutants(crate, known[crate], names)]
    missing = set(names) - {mutant.definition for mutant in found}
    if missing:
        raise tree.Missing(f"no mutants of {', '.join(sorted(missing))}")
    return [mutant for mutant in found if not kinds or mutant.kind in kinds]


def theories(jobs):
    """The theories of so many workers, renewed: the first is proved, the others are copies of it."""
    files = texts()
    first, *others = (Theory(number + 1, files) for number in range(jobs))
    first.renew()
    first.prove()
    for theory in others:
        theory.copy(first)
    return [first, *others]


def run(chosen, jobs, keep):
    """Checks mutants, but those whose verdict is known."""
    with alone():
        done = results.known(digest(texts()), keep)
        todo = [mutant for mutant in chosen if mutant.key not in done]
        print(f"{len(chosen)} mutants, {len(chosen) - len(todo)} of them known", flush=True)
        if todo:
            _deal(list(map(_work, todo)), theories(jobs))


def _work(mutant):
    """A mutant as it is dealt out: the changed files, the crates whose laws see the definition, and what is recorded of it."""
    path = tree.ROOT / mutant.path
    seen = [mutant.crate, *(top for top in above(mutant.crate) if tree.cites(top, mutant.crate, path.stem))]
    row = {name: getattr(mutant, name) for name in ("key", "crate", "definition", "path", "line", "kind", "what")}
    return {mutant.path: mutant.applied(path.read_text())}, seen, row


def run_edits(crate, paths, jobs, keep):
    """The same of edits by hand."""
    with alone():
        files = texts()
        done = results.known(digest(files), keep)
        edits = [edit for edit in (read_edit(crate, path, files) for path in paths) if edit.row["key"] not in done]
        if edits:
            _deal([(edit.changed, [crate, *above(crate)], edit.row) for edit in edits], theories(jobs))


def _deal(work, found):
    """Deals changes out: each worker takes the next one when it is done with the last."""
    queue = Queue()
    for item in work:
        queue.put(item)

    def worker(theory):
        while True:
            try:
                changed, crates, row = queue.get_nowait()
            except Empty:
                return
            with theory.changed(changed):
                verdict = checking.judged(theory.directory, crates)
            results.record({**verdict, **row, "digest": digest(theory.files)})

    _each([lambda theory=theory: worker(theory) for theory in found])


def _each(actions):
    """Runs actions at once, and ends all where one fails or the run is ended."""
    failures = []

    def guarded(action):
        try:
            action()
        except checking.Ended:
            pass
        except BaseException as failure:  # of a thread: it is raised again below
            failures.append(failure)
            checking.end()

    threads = [threading.Thread(target=guarded, args=(action,)) for action in actions]
    for thread in threads:
        thread.start()
    try:
        for thread in threads:
            thread.join()
    except BaseException:
        checking.end()
        for thread in threads:
            thread.join()
        raise
    if failures:
        raise failures[0]
