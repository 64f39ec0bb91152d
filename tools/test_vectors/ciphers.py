"""The independent implementation: AES in ECB, CBC-CS3 and XTS over OpenSSL, and the key schedules."""

from cryptography.hazmat.primitives.ciphers import Cipher, algorithms, modes

from .errors import stop
from .material import made


def xor(a, b):
    return bytes(x ^ y for x, y in zip(a, b))


def aes(key, mode, text, decrypt=False):
    cipher = Cipher(algorithms.AES(key), mode)
    run = cipher.decryptor() if decrypt else cipher.encryptor()
    return run.update(text) + run.finalize()


def ecb_encrypt(key, text):
    return aes(key, modes.ECB(), text)


def cts_encrypt(key, text):
    """CBC-CS3: the text is filled up with zeros and encrypted by CBC; the last two blocks change order, and the last is cut to what the text's end had."""
    if len(text) == 16:
        return ecb_encrypt(key, text)
    blocks = -(-len(text) // 16)
    cbc = aes(key, modes.CBC(bytes(16)), text.ljust(16 * blocks, b"\0"))
    return (cbc[:-32] + cbc[-16:] + cbc[-32:-16])[: len(text)]


def cts_decrypt(key, text):
    """CBC-CS3 back. What was cut off the last block but one is found in the decryption of the other, where the text was filled up with zeros."""
    if len(text) == 16:
        return aes(key, modes.ECB(), text, decrypt=True)
    at = 16 * (-(-len(text) // 16) - 2)
    last, cut = text[at : at + 16], text[at + 16 :]
    whole = cut + aes(key, modes.ECB(), last, decrypt=True)[len(cut) :]
    return aes(key, modes.CBC(bytes(16)), text[:at] + whole + last, decrypt=True)[: len(text)]


def xts(key, number, block, decrypt=False):
    return aes(key, modes.XTS(number.to_bytes(16, "little")), block, decrypt)


# KeyExpansion and Cipher of FIPS 197, for the schedules, which OpenSSL does not show.


def times(a, b):
    """The product in the field of FIPS 197."""
    product = 0
    while b:
        product ^= a * (b & 1)
        a = a << 1 ^ (0x11B if a & 0x80 else 0)
        b >>= 1
    return product


def s_box(b):
    inverse = next((c for c in range(256) if times(b, c) == 1), 0)
    twice = inverse << 8 | inverse
    return (twice ^ twice >> 4 ^ twice >> 5 ^ twice >> 6 ^ twice >> 7) & 0xFF ^ 0x63


S_BOX = [s_box(b) for b in range(256)]


def key_expansion(key):
    words = [key[i : i + 4] for i in range(0, len(key), 4)]
    nk, rcon = len(words), 1
    for i in range(nk, 4 * (nk + 7)):
        temp = words[i - 1]
        if i % nk == 0:
            temp = bytes(S_BOX[b] for b in temp[1:] + temp[:1])
            temp, rcon = xor(temp, bytes([rcon, 0, 0, 0])), times(rcon, 2)
        elif nk > 6 and i % nk == 4:
            temp = bytes(S_BOX[b] for b in temp)
        words.append(xor(words[i - nk], temp))
    return b"".join(words)


def mix_columns(state):
    def below(i, k):
        return state[i // 4 * 4 + (i + k) % 4]

    return bytes(times(below(i, 0), 2) ^ times(below(i, 1), 3) ^ below(i, 2) ^ below(i, 3) for i in range(16))


def rounds_over(schedule, block):
    """Cipher: a block encrypted under a key schedule."""
    state, last = xor(block, schedule), len(schedule) // 16 - 1
    for r in range(1, last + 1):
        state = bytes(S_BOX[state[(i + 4 * (i % 4)) % 16]] for i in range(16))
        state = xor(state if r == last else mix_columns(state), schedule[16 * r :])
    return state


def checked_schedule(key):
    """The schedule of a key. Stops where the rounds over it do not encrypt as OpenSSL does under the key."""
    if len(key) not in (16, 24, 32):
        stop(f"OpenSSL has no AES with a key of {len(key)} bytes")
    schedule = key_expansion(key)
    for block in (bytes(16), made("a block for the rounds", 16)):
        if rounds_over(schedule, block) != ecb_encrypt(key, block):
            stop(f"the rounds over the schedule of {key.hex()} do not encrypt as OpenSSL does")
    return schedule
