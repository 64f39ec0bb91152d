"""Cases about the text itself: lines, words, numbers, byte strings, malformed lines.

These are byte strings with an answer each; None stands for a skipped line.
"""

from bulwarkle_model.script import (LINE_MAX, SHAPES, buffer_size, byte_string, descriptor,
                                    nonce, number)

from .written import Case, CaseError

_PLAIN_A = "ok 0 1 2 plain 1 =a"

LINES = [
    # words and blanks
    (b"create 0 2 =a -", "ok 1 0"),
    (b"  show\t0", _PLAIN_A),
    (b"\t \tshow \t \t 0 \t ", _PLAIN_A),
    (b"show     0", _PLAIN_A),
    # skipped: no word, or the first word begins with #
    (b"", None),
    (b"   ", None),
    (b"\t", None),
    (b" \t \t", None),
    (b"#", None),
    (b"# show 0", None),
    (b"#show 0", None),
    (b"   # show 0", None),
    (b"\t#\t", None),
    (b"##", None),
    (b"#\xff\x00\x01", None),
    # a # further on is no comment
    (b"show 0 # the entry", "malformed"),
    (b"show 0 #", "malformed"),
    (b"show# 0", "malformed"),
    (b"create 0 2 =# -", "ok 2 1"),
    (b"create 0 2 =b#c -", "ok 3 2"),
    # one carriage return at the end of a line is dropped, no other
    (b"show 0\r", _PLAIN_A),
    (b"show 0 \r", _PLAIN_A),
    (b"show 0\t\r", _PLAIN_A),
    (b"\r", None),
    (b" \t\r", None),
    (b"#\r", None),
    (b"\r\r", "malformed"),
    (b"show 0\r\r", "malformed"),
    (b"\rshow 0", "malformed"),
    (b"show\r0", "malformed"),
    (b"show 0 \r\r", "malformed"),
    (b" \r \r", "malformed"),
    (b"create 0 2 =c\r -", "ok 4 3"),
    (b"show 3", "ok 0 4 2 plain 2 630d"),
    (b"find 0 =c\r\r", "ok 3"),
    (b"find 0 =c\r", "no-match"),
    (b"find 0 =\r", "name-empty"),
    # other blanks of other alphabets are bytes like any other
    (b"show\x0b0", "malformed"),
    (b"show 0\x0c", "malformed"),
    (b"show\xa00", "malformed"),
    (b"show\xc2\xa00", "malformed"),
    (b"\xef\xbb\xbfshow 0", "malformed"),
    (b"show\x000", "malformed"),
    (b"show 0\x00", "malformed"),
    (b"\x00", "malformed"),
    (b"\x00show 0", "malformed"),
    (b"\x00#", "malformed"),
    # request words are taken letter for letter
    (b"Show 0", "malformed"),
    (b"SHOW 0", "malformed"),
    (b"sho 0", "malformed"),
    (b"shows 0", "malformed"),
    (b"show-entry 0", "malformed"),
    (b"add_key 0011223344556677 00", "malformed"),
    (b"addkey 0011223344556677 00", "malformed"),
    (b"get policy 0", "malformed"),
    (b"-", "malformed"),
    (b"=", "malformed"),
    (b"=show 0", "malformed"),
    (b"0", "malformed"),
    (b"ok", "malformed"),
    (b"malformed", "malformed"),
    (b"error 2 ENOENT", "malformed"),
    (b"help", "malformed"),
    (b"quit", "malformed"),
    (b"show\xff 0", "malformed"),
    (b"\xff\xfe\xfd", "malformed"),
]

NUMBERS = [
    (b"create 0 2 =a -", "ok 1 0"),
    (b"show 00", _PLAIN_A),
    (b"show 0000000000000000000000000000000000000000", _PLAIN_A),
    (b"show 000000000000000000000000000000000000000063", "no-entry"),
    (b"get-policy 0001", "no-context"),
    (b"create 000 002 =b -", "ok 2 1"),
    (b"create 0 000000000000000000000000000000003 =c -", "ok 3 2"),
    (b"create 0 4294967297 =d -", "kind"),
    (b"create 0 18446744073709551615 =d -", "kind"),
    (b"create 0 18446744073709551616 =d -", "malformed"),
    (b"create 0 18446744073709551617 =d -", "malformed"),
    (b"show 18446744073709551615", "no-entry"),
    (b"show 0018446744073709551615", "no-entry"),
    (b"show 18446744073709551616", "malformed"),
    (b"show 0018446744073709551616", "malformed"),
    (b"show 18446744073709551620", "malformed"),
    (b"show 28446744073709551615", "malformed"),
    (b"show 99999999999999999999", "malformed"),
    (b"show 100000000000000000000", "malformed"),
    (b"show 36893488147419103232", "malformed"),
    (b"show 340282366920938463463374607431768211456", "malformed"),
    (b"show -0", "malformed"),
    (b"show +0", "malformed"),
    (b"show -1", "malformed"),
    (b"show 0x0", "malformed"),
    (b"show 0.0", "malformed"),
    (b"show 0_0", "malformed"),
    (b"show 1e0", "malformed"),
    (b"show a", "malformed"),
    (b"show =0", "malformed"),
    (b"show -", "malformed"),
    (b"show =", "malformed"),
    (b"show 0,", "malformed"),
    (b"show \xd9\xa0", "malformed"),
    (b"show \xb2", "malformed"),
    # the size of show's buffer
    (b"show 0 255", _PLAIN_A),
    (b"show 0 00255", _PLAIN_A),
    (b"show 0 254", "buffer-small"),
    (b"show 0 0", "buffer-small"),
    (b"show 0 00000000000", "buffer-small"),
    (b"show 0 4096", _PLAIN_A),
    (b"show 0 4097", "malformed"),
    (b"show 0 65791", "malformed"),
    (b"show 0 18446744073709551615", "malformed"),
    (b"show 0 18446744073709551616", "malformed"),
    (b"show 0 -", "malformed"),
    (b"show 0 255 255", "malformed"),
    (b"show 99 254", "buffer-small"),
    (b"show 99 4097", "malformed"),
]

STRINGS = [
    # `=` and bytes, hex of either case, `-` and `=` for the empty string
    (b"create 0 2 =a -", "ok 1 0"),
    (b"find 0 61", "ok 0"),
    (b"create 0 2 4a4B -", "ok 2 1"),
    (b"find 0 =JK", "ok 1"),
    (b"find 0 4A4b", "ok 1"),
    (b"find 0 ABCDEFabcdef", "no-match"),
    (b"find 0 -", "name-empty"),
    (b"find 0 =", "name-empty"),
    (b"find 0 =-", "no-match"),
    (b"find 0 ==", "no-match"),
    (b"find 0 --", "malformed"),
    (b"find 0 -=", "malformed"),
    (b"find 0 a", "malformed"),
    (b"find 0 6", "malformed"),
    (b"find 0 616", "malformed"),
    (b"find 0 6g", "malformed"),
    (b"find 0 g6", "malformed"),
    (b"find 0 0x61", "malformed"),
    (b"find 0 61=", "malformed"),
    (b"find 0 a-", "malformed"),
    (b"find 0 6\x001", "malformed"),
    (b"find 0 \xc3\xa9", "malformed"),
    (b"find 0 @@", "malformed"),
    (b"find 0 ``", "malformed"),
    (b"find 0 //", "malformed"),
    (b"find 0 ::", "malformed"),
    (b"find 0 GG", "malformed"),
    (b"find 0 Gg", "malformed"),
    # all bytes but space, tab and newline may stand after `=`
    (b"create 0 2 =\x01\x02\x0b\x0c\x1f\x7f -", "ok 3 2"),
    (b"show 2", "ok 0 3 2 plain 6 01020b0c1f7f"),
    (b"create 0 2 =\x80\xff\xc3\xa9 -", "ok 4 3"),
    (b"show 3", "ok 0 4 2 plain 4 80ffc3a9"),
    (b"create 0 2 =\xef\xbb\xbf -", "ok 5 4"),
    (b"find 0 efbbbf", "ok 4"),
    (b"create 0 2 =a\x00b -", "name-byte"),
    (b"create 0 2 =\x00 -", "name-byte"),
    (b"create 0 2 =a/b -", "name-byte"),
    (b"find 0 =\x00", "name-byte"),
    # descriptors have 8 bytes and nonces 16, in any spelling
    (b"add-key =maker-01 " + b"61" * 64, "ok"),
    (b"add-key 6D616b65722d3031 =" + b"k" * 64, "descriptor-held"),
    (b"add-key \x3dmaker\xff\x00\x01 =" + b"k" * 64, "ok"),
    (b"remove-key 6d616b6572ff0001", "ok"),
    (b"add-key - =" + b"k" * 64, "malformed"),
    (b"add-key = =" + b"k" * 64, "malformed"),
    (b"add-key =maker-1 =" + b"k" * 64, "malformed"),
    (b"add-key =maker-001 =" + b"k" * 64, "malformed"),
    (b"add-key 00112233445566 00", "malformed"),
    (b"add-key 001122334455667788 00", "malformed"),
    (b"add-key 00112233445566778 00", "malformed"),
    (b"remove-key -", "malformed"),
    (b"remove-key =maker-01", "ok"),
    (b"remove-key =maker-01", "key-not-held"),
    (b"create 0 1 =d =", "malformed"),
    (b"create 0 1 =d 00", "malformed"),
    (b"create 0 1 =d " + b"0" * 30, "malformed"),
    (b"create 0 1 =d " + b"0" * 31, "malformed"),
    (b"create 0 1 =d " + b"0" * 34, "malformed"),
    (b"create 0 1 =d =fifteen-bytes-0", "malformed"),
    (b"create 0 1 =d =sixteen-bytes-00", "ok 6 5"),
    (b"set-policy 6 0001040300112233445566AA =sixteen-bytes-00", "ok"),
    (b"get-policy 6", "ok 0001040300112233445566aa"),
    (b"create 0 1 =e -", "ok 7 6"),
    (b"set-policy 7 0001040300112233445566aA 7369787465656e2d62797465732d3030", "nonce-borne"),
    (b"set-policy 7 0001040300112233445566aa -", "ok"),
    (b"set-policy 7 - -", "policy-length"),
    (b"set-policy 7 = -", "policy-length"),
    (b"set-policy 7 -- -", "malformed"),
    # a malformed line never becomes a refusal: the whole line is parsed first
    (b"create 99 2 =/ 00", "malformed"),
    (b"create 99 9 - 18446744073709551616", "malformed"),
    (b"link 99 99 0", "malformed"),
    (b"seal 99 x -", "malformed"),
]


def build(lines):
    case = Case()
    for line, expected in lines:
        answer = case.line(line, expected)
        if (answer is None) != (expected is None):
            raise CaseError(f"{line[:200]!r}: expected {expected!r}, got {answer!r}")
    return case


GOOD = {number: b"0", byte_string: b"=n", descriptor: b"0011223344556677", nonce: b"-",
        buffer_size: b"255"}
BAD = {
    number: (b"x", b"-", b"18446744073709551616"),
    byte_string: (b"x", b"123", b"--"),
    descriptor: (b"-", b"00112233445566", b"001122334455667788", b"0011223344556677x"),
    nonce: (b"=", b"--", b"00", b"0" * 30, b"0" * 34, b"x" * 32),
    buffer_size: (b"x", b"-", b"4097"),
}


def malformed_requests():
    """For each request: a word too few, one too many, and each word bad in several ways."""
    case = build([(b"create 0 2 =n -", "ok 1 0")])
    for request, shape in SHAPES.items():
        words = [request.encode()] + [GOOD[kind] for kind in shape]
        few = words[:-2] if request == "show" else words[:-1]
        for wrong in (words[:1], few, words + [b"0"], words + [b"-", b"-"]):
            case.line(b" ".join(wrong), "malformed")
        for at, kind in enumerate(shape):
            for bad in BAD[kind]:
                case.line(b" ".join(words[:at + 1] + [bad] + words[at + 2:]), "malformed")
    case.line(b"show 0", "ok 0 1 2 plain 1 =n")
    return case


def carriage_returns():
    """A script with CRLF ends, and no end at all after its last line."""
    case = build([(line + b"\r", expected) for line, expected in [
        (b"create 0 1 =dir -", "ok 1 0"), (b"", None), (b"# comment", None),
        (b"create 1 2 =f -", "ok 2 1"), (b"find 1 =f", "ok 1"), (b"show 1", "ok *"),
        (b"rename 1 0 =f", "ok"), (b"show 1", "ok 0 2 2 plain 1 =f")]])
    return case.script()[:-1]


def no_last_newline():
    case = build([(b"create 0 2 =last -", "ok 1 0"), (b"find 0 =last", "ok 0")])
    return case.script()[:-1]


def long_lines_at_the_limit():
    """A line of exactly the limit, its carriage return not counted, and one a byte longer."""
    longest = b"show ".ljust(LINE_MAX, b"0")
    return build([(b"create 0 2 =a -", "ok 1 0"), (longest + b"\r", _PLAIN_A),
                  (longest + b"0", "malformed"), (b"show 0", _PLAIN_A)])


def long_lines_skipped():
    """A comment over the limit is skipped; blanks over the limit and then a request are not."""
    return build([(b"create 0 2 =a -", "ok 1 0"),
                  (b"#" * (LINE_MAX + 1), None),
                  (b"show 0", _PLAIN_A),
                  (b"show 0".rjust(LINE_MAX + 1), "malformed"),
                  (b"show 0", _PLAIN_A)])


def long_lines_return():
    """More blanks than the limit, then a carriage return: a word, unless it is the last byte."""
    blanks = b" " * (LINE_MAX + 50)
    case = build([(b"show 0", "no-entry"), (blanks + b"\rx", "malformed"), (blanks + b"\r", None)])
    return case.script()


def long_lines_blank():
    """A comment after more blanks than the limit, and no newline at the end."""
    case = build([(b"show 0", "no-entry"), (b"#".rjust(LINE_MAX + 100, b"\t"), None)])
    return case.script()[:-1]
