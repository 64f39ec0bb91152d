"""Document 01's "two runs": scripts that differ only in key bytes get answers that agree.

Two scripts are made up that are the same but for the bytes of the keys. The
program answers both, and the two texts are compared line by line. Within each
script, the names that show prints are compared with those given.
"""

from bulwarkle_model.names import LETTERS, NAME_MAX
from bulwarkle_model.script import Malformed, byte_string, parse

from .compare import run, save
from .dice import Dice
from .random_scripts import PROFILES, OneKeyEach, random_requests
from .spelling import usual

BLOCK_DIGITS = 8192


class Disagreement(Exception):
    """Two answers that may not differ, or a name that is not the given one."""


def _with_keys(requests, keys):
    """The same requests with other keys for the descriptors."""
    for request in requests:
        if request.word == "add-key":
            name, _ = request.arguments
            request = request._replace(arguments=(name, keys[name]))
        yield request


def script_pair(seed, length):
    """Two scripts that differ only in key bytes; each descriptor has one key in each."""
    dice = Dice(seed)
    one, two = OneKeyEach(dice), OneKeyEach(dice)
    profile = dice.choice([name for name in PROFILES if name != "wrong-keys"])
    requests = random_requests(dice, profile, length, dice.chance(0.3), one)
    return [b"".join(usual(request) + b"\n" for request in _with_keys(requests, plan.keys))
            for plan in (one, two)]


def requests_of(script):
    """The requests of a script in order; None stands for a malformed line."""
    for line in script.split(b"\n"):
        try:
            request = parse(line)
        except Malformed:
            yield None
            continue
        if request is not None:
            yield request


def _shown(answer):
    """The fields of a done show: parent, inode, kind, form and length, and the name."""
    words = answer.split(b" ")
    if len(words) != 7 or words[0] != b"ok":
        raise Disagreement(f"no answer of show: {answer!r}")
    name = byte_string(words[6])
    if len(name) != int(words[5]) or len(name) > NAME_MAX:
        raise Disagreement(f"length and name don't fit: {answer!r}")
    return words[1:6], name


def _encoded_shape(name):
    """Of a name shown without its key all that may not differ: length, `_` and two digits."""
    cut = name.startswith(b"_")
    letters = name[1:-2] if cut else name
    if not set(letters) <= set(LETTERS):
        raise Disagreement(f"letters that are none: {name!r}")
    return len(name), cut, name[-2:] if cut else b""


def agree(request, one, two):
    """Whether two answers to a request agree as document 01 says."""
    if request is None or not (one.startswith(b"ok ") and two.startswith(b"ok ")):
        return one == two
    if request.word in ("seal", "open"):
        return len(one) == len(two) == len(b"ok ") + BLOCK_DIGITS
    if request.word != "show":
        return one == two
    (fields, name), (other_fields, other_name) = _shown(one), _shown(two)
    if fields == other_fields and fields[3] == b"encoded":
        return _encoded_shape(name) == _encoded_shape(other_name)
    return one == two


class GivenNames:
    """The names that requests gave to entries, read from the list and its answers."""

    def __init__(self):
        self.names = {}

    def follow(self, request, answer):
        """Take in one request; a name shown plain or with the key must be the given one."""
        if answer == b"error 117 EUCLEAN":
            raise Disagreement("show says EUCLEAN")
        if request is None or not answer.startswith(b"ok"):
            return
        if request.word == "create":
            self.names[int(answer.split(b" ")[2])] = request.arguments[2]
        elif request.word == "link":
            self.names[int(answer.split(b" ")[1])] = request.arguments[2]
        elif request.word == "rename":
            self.names[request.arguments[0]] = request.arguments[2]
        elif request.word == "show":
            fields, name = _shown(answer)
            given = self.names.get(request.arguments[0])
            if fields[3] != b"encoded" and name != given:
                raise Disagreement(f"shown {name!r}, given {given!r}")


def check_pair(scripts, texts):
    """Check the answers of two runs; returns how many answers differ in letters or blocks."""
    lists = [list(requests_of(script)) for script in scripts]
    lines = [text.split(b"\n")[:-1] for text in texts]
    if {len(part) for part in lists + lines} != {len(lists[0])}:
        raise Disagreement(f"{len(lists[0])} requests, {[len(part) for part in lines]} answers")
    differing, names = 0, (GivenNames(), GivenNames())
    for number, (request, other, one, two) in enumerate(zip(*lists, *lines)):
        try:
            if not agree(request, one, two):
                raise Disagreement(f"{one[:200]!r} and {two[:200]!r}")
            names[0].follow(request, one)
            names[1].follow(other, two)
        except Disagreement as wrong:
            asked = usual(request)[:200] if request else b"(malformed)"
            raise Disagreement(f"request {number} {asked!r}: {wrong}") from None
        differing += one != two
    return differing


def tworuns(program, count, seed, length, save_to):
    """Check `count` pairs of scripts; returns the number of pairs that disagree, 0 or 1."""
    answers = differing = 0
    for turn in range(count):
        scripts = script_pair(f"two runs {seed} {turn}", length)
        texts = [run(program, script) for script in scripts]
        try:
            differing += check_pair(scripts, texts)
        except Disagreement as wrong:
            print(f"pair {turn} of seed {seed}: {wrong}")
            for part, script in zip("ab", scripts):
                save(save_to.with_name(f"{save_to.stem}-{part}{save_to.suffix}"), script)
            return 1
        answers += texts[0].count(b"\n")
    print(f"{count} pairs, {answers} answers each: they agree; "
          f"{differing} differ in letters or blocks only")
    return 0
