"""Random requests, steered by the model.

A volume of the model follows the requests while they are made up. So most name
inodes, entries and directories that exist, and of several tries one is taken
that succeeds or, less often, one that fails as seldom before. Bad numbers, bad
names and so on are mixed in with a small probability.
"""

from bulwarkle_model.reasons import Refused
from bulwarkle_model.script import NUMBER_MAX, Request
from bulwarkle_model.volume import BLOCK_LENGTH, DIRECTORY, KINDS, NAME_BUFFER, ROOT, Volume

from .written import descriptor, policy

# How often each request is made, by the subject of a script.
_MIXED = {"add-key": 4, "remove-key": 3, "set-policy": 8, "get-policy": 3, "create": 26,
          "link": 9, "rename": 15, "exchange": 12, "remove": 7, "find": 9, "show": 12}
PROFILES = {
    "mixed": _MIXED,
    "moves": {**_MIXED, "rename": 35, "exchange": 40, "show": 15},
    "keys": {**_MIXED, "add-key": 30, "remove-key": 9, "find": 15, "show": 20},
    "many-links": {**_MIXED, "create": 60, "link": 40, "remove": 4},
    "many-inodes": {**_MIXED, "create": 90, "link": 3, "remove": 4},
    "wrong-keys": {**_MIXED, "add-key": 25, "remove-key": 25, "show": 40, "find": 20},
}
WITH_BLOCKS = {"seal": 5, "open": 5}

POLICIES = [policy(maker, flags) for maker in "ABCDE" for flags in (0, 3)]
POLICIES += [policy("A", 1), policy("A", 2)]
BAD_POLICIES = [b"", policy("A", 0)[:11], policy("A", 0) + b"\0", policy("A", 4),
                policy("B", 255), b"\1" + policy("A", 0)[1:], b"\0\5\6" + policy("A", 0)[3:],
                b"\0\4\1" + policy("A", 0)[3:], b"\0\1\6" + policy("A", 0)[3:],
                b"\0\5\4" + policy("A", 0)[3:], b"\2" + policy("A", 0)[1:]]
WORDS = [b"a", b"b", b"c", b"firmware.bin", b"probe-7", b"sixteen-bytes-ok", b"LICENSE"]
ODD_NAMES = [b"...", b".a", b" ", b"!", b"~", b"\x7f", b"\x80", b"\n", b"\r", b"-", b"=", b"#"]
LENGTHS = [1, 15, 16, 17, 31, 32, 33, 47, 48, 49, 64, 144, 160, 161, 200, 223, 224, 225, 240, 241,
           248, 249, 252, 253, 254, 255]
BAD_NAMES = [b"", b".", b"..", b"a/b", b"/", b"a\0", b"\0", b"n" * 256, b"/" * 300]
BAD_KINDS = [0, 5, 255, 256, 257, 65537, 2 ** 32 + 1, 2 ** 32 + 2, NUMBER_MAX]
BAD_NUMBERS = [62, 63, 64, 65, 127, 128, 255, 256, 2 ** 16, 2 ** 32, 2 ** 63, NUMBER_MAX]
SIZES = [0, 1, 16, 253, 254, 254, 254, 255, 255, 256, 4095, 4096]
BLOCK_NUMBERS = [0, 1, 255, 256, 2 ** 32 - 1, 2 ** 32, 2 ** 63, NUMBER_MAX - 1, NUMBER_MAX]


class OneKeyEach:
    """A keyring plan in which each descriptor is only ever offered one key."""

    LENGTHS = {"A": 64, "B": 64, "C": 64, "D": 32, "E": 48, "F": 16, "G": 63, "H": 0, "I": 64,
               "J": 64, "K": 64}

    def __init__(self, dice):
        self.keys = {}
        for maker, length in self.LENGTHS.items():
            self.keys[descriptor(maker)] = self._key(dice, length)

    def _key(self, dice, length):
        """Mostly random; sometimes all zeros, two equal halves, or another maker's."""
        alike = [key for key in self.keys.values() if len(key) == length]
        if dice.chance(0.1):
            return bytes(length)
        if dice.chance(0.1):
            return (dice.bytes(32) * 2)[:length]
        return dice.choice(alike) if alike and dice.chance(0.1) else dice.bytes(length)

    def offer(self, dice):
        name = dice.choice(list(self.keys))
        return name, self.keys[name]


class ManyKeys(OneKeyEach):
    """A plan in which a descriptor comes back with another key, or one of another length."""

    def __init__(self, dice, makers="ABCDEFGHIJK"):
        self.choices = {descriptor(maker): [dice.bytes(64) for _ in range(2)] for maker in makers}

    def offer(self, dice):
        name = dice.choice(list(self.choices))
        key = dice.choice(self.choices[name])
        if dice.chance(0.15):
            key = key[:dice.choice((16, 32, 48))]
        elif dice.chance(0.06):
            key = (key + key)[:dice.choice((0, 15, 17, 63, 65, 128))]
        return name, key


class Steered:
    """Makes up requests one after another, with a volume that follows them."""

    def __init__(self, dice, weights, key_plan, success=0.65):
        self.dice, self.weights, self.key_plan = dice, weights, key_plan
        self.success = success
        self.volume = Volume()
        self.requests = []
        self.refused = False       # whether the last request was
        self.seen = {}             # how often each way to fail was met
        self.given = {}            # the name last given to each entry
        self.sealed = bytes(BLOCK_LENGTH)

    # ---- What a request may be given.

    def _live(self, table):
        return [number for number, record in enumerate(table) if record]

    def _number(self, numbers):
        """Mostly one of `numbers`; else a bad one, or a good one with a high bit added."""
        if numbers and not self.dice.chance(0.03):
            return self.dice.choice(numbers)
        if numbers and self.dice.chance(0.3):
            return self.dice.choice(numbers) + self.dice.choice((64, 256, 2 ** 16, 2 ** 32))
        return self.dice.choice(BAD_NUMBERS)

    def _inode(self):
        return self._number(self._live(self.volume.inodes))

    def _entry(self):
        return self._number(self._live(self.volume.entries))

    def _parent(self):
        volume = self.volume
        inodes = self._live(volume.inodes)
        if self.dice.chance(0.04):
            return self._inode()
        directories = [number for number in inodes if volume.is_directory(number)]
        open_ones = [number for number in directories
                     if volume.context(number) and not volume.key_absent(number)]
        if open_ones and self.dice.chance(0.55):
            directories = open_ones
        # The last ones more often, so that directories get deep.
        return self._number(directories[-4:] if self.dice.chance(0.3) else directories)

    def _name(self):
        if self.dice.chance(0.04):
            return self.dice.choice(BAD_NAMES)
        if self.given and self.dice.chance(0.2):
            return self.dice.choice(list(self.given.values()))
        if self.dice.chance(0.05):
            return self.dice.choice(ODD_NAMES)
        if self.dice.chance(0.5):
            return self.dice.choice(WORDS) + b"%d" % self.dice.below(100)
        length = self.dice.choice(LENGTHS) if self.dice.chance(0.4) else 1 + self.dice.below(30)
        if self.dice.chance(0.3):
            return bytes(byte or 1 for byte in self.dice.bytes(length)).replace(b"/", b"|")
        return (self.dice.choice(WORDS) * 255)[:length]

    def _parent_and_name(self, taken):
        """A directory and a name, that is taken there with the probability given."""
        if self.given and self.dice.chance(taken):
            entry = self.dice.choice(list(self.given))
            return self.volume.entries[entry].parent, self.given[entry]
        return self._parent(), self._name()

    def _nonce(self):
        borne = [inode.context.nonce for inode in self.volume.inodes if inode and inode.context]
        if borne and self.dice.chance(0.08):
            return self.dice.choice(borne)
        return bytes(16) if self.dice.chance(0.04) else self.dice.bytes(16)

    def _policy_target(self):
        """Mostly an empty plain directory."""
        volume = self.volume
        fit = [number for number in self._live(volume.inodes)[1:] if volume.is_directory(number)
               and not volume.children(number) and not volume.context(number)]
        return self.dice.choice(fit) if fit and self.dice.chance(0.7) else self._inode()

    def _policy(self, number):
        if self.dice.chance(0.12):
            return self.dice.choice(BAD_POLICIES)
        context = self.volume.context(number)
        if context and self.dice.chance(0.5):
            return context.policy.to_bytes()
        return self.dice.choice(POLICIES)

    def _block(self):
        if self.dice.chance(0.15):
            return bytes(self.dice.choice((0, 1, 16, 512, 4080)))
        return self.sealed if self.dice.chance(0.4) else self.dice.bytes(BLOCK_LENGTH)

    def _file(self):
        files = [number for number in self._live(self.volume.inodes)
                 if self.volume.inodes[number].kind == 2 and self.volume.context(number)]
        return self.dice.choice(files) if files and self.dice.chance(0.7) else self._inode()

    # ---- Requests.

    def propose(self, word):
        """A request that may succeed or not."""
        dice = self.dice
        if word == "add-key":
            return Request(word, self.key_plan.offer(dice))
        if word == "remove-key":
            held = [key.descriptor for key in self.volume.keys if key]
            fits = held and dice.chance(0.8)
            return Request(word, (dice.choice(held) if fits else self.key_plan.offer(dice)[0],))
        if word == "set-policy":
            number = self._policy_target()
            return Request(word, (number, self._policy(number), self._nonce()))
        if word == "create":
            kind = dice.choice(BAD_KINDS if dice.chance(0.02) else (*KINDS, 1, 1, 2, 2))
            parent, name = self._parent_and_name(0.05)
            return Request(word, (parent, kind, name, self._nonce()))
        if word == "find":
            return Request(word, self._parent_and_name(0.6))
        if word == "link":
            return Request(word, (self._inode(), *self._parent_and_name(0.1)))
        if word == "rename":
            return Request(word, (self._entry(), *self._parent_and_name(0.1)))
        if word in ("seal", "open"):
            return Request(word, (self._file(), dice.choice(BLOCK_NUMBERS), self._block()))
        if word == "show":
            size = dice.choice(SIZES) if dice.chance(0.1) else NAME_BUFFER
            return Request(word, (self._entry(), size))
        if word == "exchange":
            return Request(word, (self._entry(), self._entry()))
        return Request(word, (self._entry() if word == "remove" else self._inode(),))

    def choose(self, word):
        """Of several proposals one that succeeds or, less often, one that fails rarely so."""
        wants_success, best = self.dice.chance(self.success), None
        for _ in range(7):
            request = self.propose(word)
            failing = self.volume.failing(request.method, *request.arguments)
            way = (word, *failing[:2])
            if wants_success and not failing:
                return request, way
            rank = self.seen.get(way, 0) if failing else NUMBER_MAX
            if best is None or rank < best[0]:
                best = rank, request, way
        return best[1:]

    def step(self):
        word = self.dice.weighted(self.weights)
        full = None not in self.volume.inodes or None not in self.volume.entries
        if full and self.dice.chance(0.2):
            word = "remove"
        request, way = self.choose(word)
        self.seen[way] = self.seen.get(way, 0) + 1
        self.make(request)

    def make(self, request):
        """Make a request of the volume and keep it."""
        self.requests.append(request)
        self.refused = False
        try:
            answer = getattr(self.volume, request.method)(*request.arguments)
        except Refused:
            self.refused = True
            return
        if request.word == "seal":
            self.sealed = answer
        elif request.word == "remove":
            self.given.pop(request.arguments[0])
        elif request.word == "create":
            self.given[answer[1]] = request.arguments[2]
        elif request.word == "link":
            self.given[answer] = request.arguments[2]
        elif request.word == "rename":
            self.given[request.arguments[0]] = request.arguments[2]

    def begin(self):
        """A few keys, directories and policies to start from."""
        for _ in range(4):
            self.make(self.propose("add-key"))
        for number in range(6):
            self.make(Request("create", (ROOT, DIRECTORY, b"d%d" % number, bytes(16))))
            if number != 3:
                self.make(Request("set-policy", (number + 1, self.dice.choice(POLICIES[:8]),
                                                 self.dice.bytes(16))))

    def end(self):
        """Ask for all that can be seen of the volume, with the keys there are and without."""
        entries = self._live(self.volume.entries)
        shows = [Request("show", (number, NAME_BUFFER)) for number in entries]
        policies = [Request("get-policy", (number,)) for number in self._live(self.volume.inodes)]
        held = [Request("remove-key", (key.descriptor,)) for key in self.volume.keys if key]
        self.requests += shows + policies + held + shows


def random_requests(dice, profile, length, blocks=False, key_plan=None):
    """About `length` random requests on one subject, and then all that can be seen."""
    weights = {**PROFILES[profile], **(WITH_BLOCKS if blocks else {})}
    if key_plan is None:
        few = profile == "wrong-keys"
        key_plan = ManyKeys(dice, "ABC") if few else ManyKeys(dice)
    steered = Steered(dice, weights, key_plan)
    steered.begin()
    while len(steered.requests) < length:
        steered.step()
    steered.end()
    return steered.requests
