"""What the stored set covers, as Markdown: refusals, forms, worked cases, slips, a kernel."""

from collections import Counter

from bulwarkle_model.reasons import REASONS
from bulwarkle_model.script import Malformed, answers, ask, parse
from bulwarkle_model.volume import Volume

from . import cases_kernel, stored
from .allowed import NEVER_TOGETHER, ORDER, REFUSALS, allowed, never_together, possible_pairs
from .corners import pairs_of
from .slips import SLIPS, uncaught

# Scripts say what they cover in a line "# covers: TAG TAG". Starred cases are
# those of document 01's table; they are in `scripts.py selftest` as well.
CASES = {
    "star-padding": "Padding: the starred lengths, seen in the letters shown without the key",
    "star-letters": "Sixteen zero bytes without key: `A` 22 times",
    "letters-160-161": "160 bytes give 214 letters; longer ones give 217",
    "star-policy-valid": "Policy `00 01 04 03` and a descriptor: valid",
    "star-policy-flags": "`00 01 04 04`: EINVAL",
    "star-policy-modes": "`00 05 06 00`: EINVAL",
    "key-lengths": "Key of 64: taken. 65, 63, 0: EINVAL",
    "ninth-key": "Ninth key: ENOSPC",
    "fresh-create-show": "Fresh volume, create `a`, kind 2, in 0; show 0, whole answer",
    "linking-across": "Encrypted file linked into a plain directory: done. Plain file into an "
                      "encrypted one: EXDEV (EPERM before Item 2). Special file: done",
    "exchange-with-itself": "Exchange of an entry with itself: done; ENOKEY without the key",
    "flags-2-against-3": "Same descriptor, flags 2 against 3: policy refusal",
    "slip-1-policy-compare": "Slip 1: comparing policies by length, or by descriptor only",
    "slip-2-swapped-blocks": "Slip 2: the last two blocks unswapped at 32 or 48 bytes",
    "slip-3-exchange-sides": "Slip 3: checking only one side of an exchange",
    "slip-4-special-files": "Slip 4: treating special files like regular ones",
    "slip-5-xts-tweak": "Slip 5: advancing the XTS tweak high byte first",
    "slip-6-parents-key": "Slip 6: using a directory's own key for its own name",
}
FORMS = ("plain", "decrypted", "encoded, short", "encoded, long")


class Tally:
    """Counts over the stored scripts."""

    def __init__(self):
        self.results = Counter()   # (request, reason or None)
        self.pairs = Counter()     # (request, first failing check, other failing check)
        self.forms = Counter()     # (form, whether the name is printed as hex)
        self.tags = {}             # tag: scripts
        self.malformed = self.skipped = 0

    def script(self, name, script):
        fresh = Volume()
        for line in script.split(b"\n"):
            if line.startswith(b"# covers: "):
                for tag in line.decode("ascii").split()[2:]:
                    self.tags.setdefault(tag, []).append((name, script))
            try:
                request = parse(line)
            except Malformed:
                self.malformed += 1
                continue
            if request is None:
                self.skipped += 1
            else:
                self._request(fresh, request)

    def _request(self, volume, request):
        failing = volume.failing(request.method, *request.arguments)
        answer, reason = ask(volume, request)
        self.results[request.word, reason] += 1
        if failing:
            self.pairs.update((request.word, *pair) for pair in pairs_of(failing))
        elif request.word == "show":
            form, _length, name = answer.decode("ascii").split(" ")[4:]
            if form == "encoded":
                form += ", long" if name.startswith("=_") else ", short"
            self.forms[form, not name.startswith("=")] += 1

    def refusal(self, word, refusal):
        """How often a request was refused with this refusal, for whatever reason."""
        return sum(count for (request, reason), count in self.results.items()
                   if request == word and reason and REASONS[reason] == refusal)


def _table(head, rows):
    lines = [head, ["---"] * len(head), *rows]
    return ["| " + " | ".join(str(cell) for cell in line) + " |" for line in lines] + [""]


def _refusal_rows(tally):
    for word in ORDER:
        cells = [tally.refusal(word, name) if allowed(word, name) else "-" for name in REFUSALS]
        yield [word, tally.results[word, None], *cells]


def _reason_rows(tally):
    for word, order in ORDER.items():
        for reason in order:
            yield [word, reason, REASONS[reason], tally.results[word, reason]]


def _pair_rows(tally):
    for word in ORDER:
        pairs = possible_pairs(word)
        yield [word, len(pairs), sum(tally.pairs[(word, *pair)] for pair in pairs)]


def _never_rows():
    for first, second, why in NEVER_TOGETHER:
        yield [", ".join(first), ", ".join(second), why]


def _form_rows(tally):
    for form in FORMS:
        # The letters of a name shown without its key are all printable.
        as_hex = "-" if form.startswith("encoded") else tally.forms[form, True]
        yield [form, tally.forms[form, False], as_hex]


def _case_rows(tally):
    for tag, text in CASES.items():
        yield [text, ", ".join(name for name, _ in tally.tags.get(tag, []))]


def _kernel_outcome(row):
    """The kernel's number where it is required, or why it is not."""
    if cases_kernel.left_out(row):
        return "left out"
    return "other" if cases_kernel.differs(row) else row[2]


def _kernel_rows():
    for group, cases in cases_kernel.ANSWERS.items():
        counts = Counter(_kernel_outcome((group, *answer)) for answer in cases.items())
        yield [group, cases_kernel.SCRIPTS[group], len(cases),
               *(counts[key] for key in ("EXDEV", "ENOKEY", "0", "other", "left out"))]


def _left_out_rows():
    found = {}
    for group, case, errno in cases_kernel.rows():
        why = cases_kernel.left_out((group, case, errno))
        if why:
            found.setdefault((why, group), []).append(f"`{case}`")
    for (why, group), cases in found.items():
        yield [group, ", ".join(cases), why]


def _kernel_section():
    rows = cases_kernel.rows()
    outcomes = Counter(map(_kernel_outcome, rows))
    other, left_out = outcomes.pop("other"), outcomes.pop("left out")
    return [
        "## A kernel's answers", "",
        f"What Linux 6.1 answered to link and rename: {len(rows)} cases, copied in "
        f"`tools/replay_scripts/cases_kernel.py`. {outcomes.total()} are replayed and must get "
        f"the kernel's number: EXDEV, ENOKEY or done. {other} are replayed and must get EEXIST: "
        "the kernel replaced what had the name, and document 01's rename does not replace; it "
        "looks at the name after the policy, so the policy let the move pass. "
        f"{left_out} are left out.", "",
        *_table(["group", "script", "cases", "EXDEV", "ENOKEY", "done",
                 "EEXIST, as rename does not replace", "left out"], _kernel_rows()),
        "Cases left out:", "",
        *_table(["group", "cases", "because"], _left_out_rows()),
    ]


def report(tally, count):
    """The whole report as text."""
    requests = sum(tally.results.values())
    return "\n".join([
        "# What the stored scripts cover", "",
        "Written by `tools/scripts.py coverage --write` from the scripts in "
        "`crates/replay/data`; the reasons are the model's.", "",
        f"{count} scripts, {requests} requests, {tally.malformed} malformed lines, "
        f"{tally.skipped} skipped ones.", "",
        "## Requests and answers", "",
        "How often each request was done (`ok`) and refused; `-` where document 01 doesn't "
        "allow the refusal.", "",
        *_table(["request", "ok", *REFUSALS], _refusal_rows(tally)),
        "## Requests and reasons", "",
        "The checks of each request in document 01's order.", "",
        *_table(["request", "check", "refusal", "count"], _reason_rows(tally)),
        "## Two checks failing at once", "",
        "The earlier check wins. The scripts have every pair of a request's checks that can "
        "fail at once, neighbours in the order and others.", "",
        *_table(["request", "pairs", "occurrences"], _pair_rows(tally)),
        "Checks that can't fail at once:", "",
        *_table(["one of", "with one of", "because"], _never_rows()),
        "## Answers of show", "",
        *_table(["form", "name as `=`", "name as hex"], _form_rows(tally)),
        "## Worked cases and slips", "",
        "A slip counts as covered where a model that makes it answers these scripts otherwise.", "",
        *_table(["case", "scripts"], _case_rows(tally)),
        *_kernel_section(),
    ])


def gaps(tally):
    """All that should be covered and is not."""
    for word, order in ORDER.items():
        for reason in (None, *order):
            if not tally.results[word, reason]:
                yield f"{word}: never {reason or 'ok'}"
        for one, two in possible_pairs(word):
            if not tally.pairs[word, one, two]:
                yield f"{word}: {one} and {two} never fail at once"
    for word, one, two in tally.pairs:
        if never_together(one, two):
            yield f"{word}: {one} and {two} do fail at once"
    for form in FORMS:
        if not tally.forms[form, False]:
            yield f"show: never {form}"
        if not form.startswith("encoded") and not tally.forms[form, True]:
            yield f"show: never {form} as hex"
    for tag in CASES:
        scripts = [script for _, script in tally.tags.get(tag, [])]
        if not scripts:
            yield f"{tag}: in no script"
        elif tag in SLIPS and uncaught(tag, scripts):
            yield f"{tag}: a model that makes it gives the same answers"
    for tag in tally.tags.keys() - CASES.keys():
        yield f"{tag}: a tag that means nothing"


def measured(directory):
    """The report on the stored set of a directory, and all that it should cover and does not."""
    scripts = stored.read(directory)
    tally, expected = Tally(), b""
    for name, script in scripts:
        tally.script(name, script)
        expected += b"# %s\n%s" % (name.encode("ascii"), answers(script))
    missing = list(gaps(tally))
    if (directory / "stdout").read_bytes() != expected:
        missing.append("stdout: not the model's answers; run generate")
    return report(tally, len(scripts)), missing
