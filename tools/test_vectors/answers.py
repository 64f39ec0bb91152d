"""The requests, and what the program must answer."""

from .ciphers import checked_schedule, cts_decrypt, cts_encrypt, ecb_encrypt, xts
from .errors import EINVAL, Malformed, Refused
from .rules import check_name, context_bytes, encode_name, policy_bytes, read_context, read_name, read_policy, store_name

MOST_BYTES = 4200


def ecb_fits(key, text):
    return len(key) == 16 and len(text) in (16, 32, 48, 64)


def cts_fits(key, text):
    return len(key) in (16, 32) and 16 <= len(text) <= 4096


def xts_fits(key, block):
    return len(key) == 64 and len(block) == 4096


def bytes_of(word):
    """A byte string of the request script, of at most MOST_BYTES bytes: hex digits of either case, `=` and the bytes themselves, or `-` for none."""
    if word.startswith("="):
        data = word[1:].encode("ascii")
    elif word == "-":
        data = b""
    elif word == "" or len(word) % 2 or set(word) - set("0123456789abcdefABCDEF"):
        raise Malformed
    else:
        data = bytes.fromhex(word)
    if len(data) > MOST_BYTES:
        raise Malformed
    return data


def number_of(word):
    """A number of the request script: decimal digits, of at most 64 bits."""
    if word == "" or set(word) - set("0123456789") or int(word) >= 2**64:
        raise Malformed
    return int(word)


def hex_of(data):
    return data.hex() or "-"


def result(fits, run, buffer):
    """The answer of a cipher: what `run` makes of the buffer, or EINVAL and the buffer as it was."""
    return f"0 {hex_of(run())}" if fits else f"{EINVAL} {hex_of(buffer)}"


def words_in(line):
    """The words of a line, with spaces or tabs between them."""
    return [word for word in line.replace("\t", " ").split(" ") if word]


def words_of(words, count):
    """The words after a request's name, of which there must be so many."""
    if len(words) != count:
        raise Malformed
    return words


def only_bytes(words):
    """The one word after a request's name, a byte string."""
    return bytes_of(*words_of(words, 1))


def master_of(word):
    if len(bytes_of(word)) != 64:
        raise Malformed
    return bytes_of(word)


def stored_of(word):
    if not 1 <= len(bytes_of(word)) <= 255:
        raise Malformed
    return bytes_of(word)


def answer_policy_request(name, words):
    if name == "policy":
        return hex_of(policy_bytes(read_policy(only_bytes(words))))
    if name == "context":
        return hex_of(context_bytes(read_context(only_bytes(words))))
    one, other = map(bytes_of, words_of(words, 2))
    return "yes" if read_policy(one) == read_policy(other) else "no"


def answer_name_request(name, words):
    """The answer to a request about names. Every word is read before anything is refused."""
    if name == "check-name":
        return check_name(only_bytes(words))
    if name == "encode-name":
        number, stored = words_of(words, 2)
        return hex_of(encode_name(number_of(number), stored_of(stored)))
    context, master, last = words_of(words, 3)
    context, master = bytes_of(context), master_of(master)
    if name == "store-name":
        last = bytes_of(last)
        return hex_of(store_name(read_context(context), master, last))
    last = stored_of(last)
    return hex_of(read_name(read_context(context), master, last))


def or_errno(run, name, words):
    """0 and what was asked for, or the errno alone."""
    try:
        found = run(name, words)
        return "0" if found is None else f"0 {found}"
    except Refused as refusal:
        return str(refusal.errno)


def answer_request(name, words):
    if name in ("policy", "context", "same-policy"):
        return or_errno(answer_policy_request, name, words)
    if name in ("check-name", "store-name", "read-name", "encode-name"):
        return or_errno(answer_name_request, name, words)
    if name == "key-expansion":
        key = only_bytes(words)
        if len(key) not in range(16, 36, 4):
            raise Malformed
        return f"0 {checked_schedule(key).hex()}"
    if name in ("ecb-encrypt", "cts-encrypt", "cts-decrypt"):
        key, text = map(bytes_of, words_of(words, 2))
        fits = ecb_fits if name == "ecb-encrypt" else cts_fits
        run = {"ecb-encrypt": ecb_encrypt, "cts-encrypt": cts_encrypt, "cts-decrypt": cts_decrypt}[name]
        return result(fits(key, text), lambda: run(key, text), text)
    if name in ("xts-encrypt", "xts-decrypt"):
        key, number, block = words_of(words, 3)
        key, number, block = bytes_of(key), number_of(number), bytes_of(block)
        return result(xts_fits(key, block), lambda: xts(key, number, block, name == "xts-decrypt"), block)
    raise Malformed


def answer(line):
    if line == "" or line.startswith("#"):
        return line
    try:
        name, *words = words_in(line) or [""]
        return answer_request(name, words)
    except Malformed:
        return "malformed"
