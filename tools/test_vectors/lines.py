"""The lines as they are gathered: those of stdin, and those of stdout."""

from .answers import answer, bytes_of, hex_of
from .errors import stop


class Lines:
    """Both files as they grow: each line of stdin is answered by one of stdout."""

    def __init__(self):
        self.stdin, self.stdout = [], []

    def say(self, *lines):
        for line in lines:
            self.take(f"# {line}")

    def group(self, *lines):
        if self.stdin:
            self.take("")
        self.say(*lines)

    def take(self, line):
        self.stdin.append(line)
        self.stdout.append(answer(line))

    def tell(self, name, *words, answer=None):
        """A request, whose whole answer must be `answer` where one is given."""
        line = " ".join([name] + [str(w) if isinstance(w, int) else hex_of(w) for w in words])
        self.take(line)
        if answer not in (None, self.stdout[-1]):
            stop(f"the answer is not {answer[:200]}: {line[:200]}")
        return line

    def ask(self, name, *words, published=None, begins=b"", errno=0):
        """A request. `published` is what a document says that the buffer holds, and `begins` what it says that the buffer begins with."""
        line = self.tell(name, *words)
        got, _, buffer = self.stdout[-1].partition(" ")
        if got != str(errno):
            stop(f"the errno is not {errno}: {line[:200]}")
        buffer = bytes_of(buffer)
        if published not in (None, buffer) or not buffer.startswith(begins):
            stop(f"the independent implementation does not agree with what is published: {line[:200]}")
        return buffer

    def both_ways(self, mode, key, text, published=None, begins=b"", number=()):
        """A text and its ciphertext, each from the other."""
        secret = self.ask(f"{mode}-encrypt", key, *number, text, published=published, begins=begins)
        self.ask(f"{mode}-decrypt", key, *number, secret, published=text)

    def stored_and_read(self, context, master, name, published=None):
        """A plain name as a directory stores it, and the name read back from that."""
        stored = self.ask("store-name", context, master, name, published=published)
        self.ask("read-name", context, master, stored, published=name)
        return stored

    def texts(self):
        """The whole texts of stdin and stdout."""
        return "\n".join(self.stdin) + "\n", "\n".join(self.stdout) + "\n"
