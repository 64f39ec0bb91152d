"""The groups of the ciphers: published values, values of the independent implementation, and wrong lengths."""

from .errors import EINVAL
from .material import counting, made
from .published import (
    FIPS_A1_KEY,
    FIPS_A1_WORDS,
    FIPS_A2_KEY,
    FIPS_A2_WORDS,
    FIPS_A3_KEY,
    FIPS_A3_WORDS,
    FIPS_B,
    FIPS_C1_CIPHER,
    FIPS_C3_CIPHER,
    FIPS_C_PLAIN,
    IEEE_CIPHERS,
    IEEE_KEY_1,
    IEEE_KEY_2,
    RFC_CIPHERS,
    RFC_KEY,
    RFC_TEXT,
    SP_F11_CIPHER,
    SP_F15_CIPHER,
    SP_PLAIN,
)

CTS_LENGTHS = [16, 17, 31, 32, 33, 47, 48, 49, 63, 64, 65, 255, 256, 257, 4079, 4080, 4081, 4095, 4096]
BLOCK_NUMBERS = [0, 1, 2**32 - 1, 2**32, 2**63, 2**64 - 1]


def key_schedules(lines):
    lines.group("FIPS 197 (2001), appendix A.1, A.2 and A.3: the key schedules of the example keys of 128, 192 and 256 bits")
    for key, words in ((FIPS_A1_KEY, FIPS_A1_WORDS), (FIPS_A2_KEY, FIPS_A2_WORDS), (FIPS_A3_KEY, FIPS_A3_WORDS)):
        lines.ask("key-expansion", bytes.fromhex(key), published=bytes.fromhex(key + words))
    lines.group("Independent implementation (KeyExpansion in Python, each schedule tried against OpenSSL's AES): keys of 128, 192 and 256 bits")
    for length in (16, 24, 32):
        for key in (bytes(length), b"\xff" * length, made(f"key schedule {length}", length)):
            lines.ask("key-expansion", key)


def single_blocks(lines):
    lines.group("FIPS 197 (2001), appendix B: AES-128 of one block, and back")
    key, plain, secret = map(bytes.fromhex, FIPS_B)
    lines.ask("ecb-encrypt", key, plain, published=secret)
    lines.both_ways("cts", key, plain, secret)
    lines.group("FIPS 197 (2001), appendix C.1 (AES-128) and C.3 (AES-256): one block, and back")
    plain = bytes.fromhex(FIPS_C_PLAIN)
    lines.ask("ecb-encrypt", counting(16), plain, published=bytes.fromhex(FIPS_C1_CIPHER))
    lines.both_ways("cts", counting(16), plain, bytes.fromhex(FIPS_C1_CIPHER))
    lines.both_ways("cts", counting(32), plain, bytes.fromhex(FIPS_C3_CIPHER))
    lines.group("NIST SP 800-38A, appendix F.1.1: ECB-AES128, four blocks in one call")
    lines.ask("ecb-encrypt", bytes.fromhex(FIPS_A1_KEY), bytes.fromhex(SP_PLAIN), published=bytes.fromhex(SP_F11_CIPHER))
    lines.group("NIST SP 800-38A, appendix F.1.5: ECB-AES256, each block as a text of 16 bytes, and back")
    for plain, secret in zip(SP_PLAIN.split(), SP_F15_CIPHER.split()):
        lines.both_ways("cts", bytes.fromhex(FIPS_A3_KEY), bytes.fromhex(plain), bytes.fromhex(secret))


def rfc_3962(lines):
    lines.group("RFC 3962, appendix B: CBC-CS3 of 17, 31, 32, 47, 48 and 64 bytes under AES-128, and back")
    for secret in map(bytes.fromhex, RFC_CIPHERS):
        lines.both_ways("cts", RFC_KEY, RFC_TEXT[: len(secret)], secret)


def ieee_1619(lines):
    lines.group(
        "IEEE 1619-2007, annex B, vectors 10 to 14: XTS-AES-256 of a data unit of 512 bytes, and back.",
        "The data unit is the start of a block of 4,096 bytes, the rest zeros; the published ciphertext is the answer's first 512 bytes.",
    )
    for number, secret in IEEE_CIPHERS:
        block = counting(512).ljust(4096, b"\0")
        lines.both_ways("xts", bytes.fromhex(IEEE_KEY_1 + IEEE_KEY_2), block, begins=bytes.fromhex(secret), number=(number,))


def independent(lines):
    source = "Independent implementation (Python's cryptography, over OpenSSL)"
    lines.group(f"{source}: AES-128 in ECB, 1 to 4 blocks")
    for count in (1, 2, 3, 4):
        lines.ask("ecb-encrypt", made(f"ecb key {count}", 16), made(f"ecb text {count}", 16 * count))
    for size in (16, 32):
        lines.group(f"{source}, with the stealing written out: CBC-CS3 under a key of {size} bytes at each kind of length, and back")
        for length in CTS_LENGTHS:
            lines.both_ways("cts", made(f"cts key {size} {length}", size), made(f"cts text {size} {length}", length))
    lines.group(f"{source}: XTS-AES-256 of a block of 4,096 bytes at block numbers from 0 to 2^64 - 1, and back")
    for number in BLOCK_NUMBERS:
        lines.both_ways("xts", made(f"xts key {number}", 64), made(f"xts block {number}", 4096), number=(number,))


def wrong_lengths(lines):
    def refused(name, key, length, *number):
        text = made(f"refused text {length}", length)
        lines.ask(name, made(f"refused key {key}", key), *number, text, published=text, errno=EINVAL)

    lines.group("Wrong lengths: errno 22 (EINVAL), and the buffer as it was. ECB: keys of 0, 15, 17, 24, 32 bytes")
    for key in (0, 15, 17, 24, 32):
        refused("ecb-encrypt", key, 16)
    lines.group("Wrong lengths. ECB: texts of 0, 8, 15, 17, 24, 80 bytes")
    for length in (0, 8, 15, 17, 24, 80):
        refused("ecb-encrypt", 16, length)
    lines.group("Wrong lengths. CBC-CS3: keys of 0, 15, 17, 24, 31, 33, 64 bytes")
    for key in (0, 15, 17, 24, 31, 33, 64):
        refused("cts-encrypt", key, 32)
        refused("cts-decrypt", key, 32)
    lines.group("Wrong lengths. CBC-CS3: texts of 0, 1, 15, 4,097 bytes, under keys of 16 and 32")
    for length in (0, 1, 15, 4097):
        for key in (16, 32):
            refused("cts-encrypt", key, length)
            refused("cts-decrypt", key, length)
    lines.group("Wrong lengths. XTS: keys of 0, 16, 32, 63, 65 bytes")
    for key in (0, 16, 32, 63, 65):
        refused("xts-encrypt", key, 4096, 1)
        refused("xts-decrypt", key, 4096, 1)
    lines.group("Wrong lengths. XTS: blocks of 0, 16, 512, 4,095, 4,097 bytes")
    for length in (0, 16, 512, 4095, 4097):
        refused("xts-encrypt", 64, length, 1)
        refused("xts-decrypt", 64, length, 1)
