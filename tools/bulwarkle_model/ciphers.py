"""The ciphers of document 01, on top of OpenSSL's AES in ECB mode.

Only the block cipher is taken from OpenSSL. Its own XTS mode would not do: it
refuses a key whose two halves are equal, and here such a key is like any other.
"""

from cryptography.hazmat.primitives.ciphers import Cipher, algorithms, modes

AES_BLOCK = 16


def encrypt_ecb(key, data):
    """AES (FIPS 197) over each 16 bytes of `data` on its own."""
    worker = Cipher(algorithms.AES(key), modes.ECB()).encryptor()
    return worker.update(data) + worker.finalize()


def decrypt_ecb(key, data):
    """The inverse of `encrypt_ecb`."""
    worker = Cipher(algorithms.AES(key), modes.ECB()).decryptor()
    return worker.update(data) + worker.finalize()


def xor(left, right):
    """Two byte strings of one length, added bit by bit."""
    mixed = int.from_bytes(left, "big") ^ int.from_bytes(right, "big")
    return mixed.to_bytes(len(left), "big")


def derive_key(master_key, nonce):
    """The derived key: AES-128 in ECB mode over the master key, the nonce being the AES key."""
    return encrypt_ecb(nonce, master_key)


def _blocks(data):
    return [data[at:at + AES_BLOCK] for at in range(0, len(data), AES_BLOCK)]


def encrypt_cts(key, plain):
    """CBC-CS3 (NIST SP 800-38A, addendum) with a zero IV, for 16 bytes or more.

    The text is filled up with zeros to whole blocks and encrypted by CBC. Then
    the last two blocks change order, whatever the length, and the result is cut
    to the length of the text. A single block is plain CBC.
    """
    worker = Cipher(algorithms.AES(key), modes.ECB()).encryptor()
    filled = plain + bytes(-len(plain) % AES_BLOCK)
    chained, previous = [], bytes(AES_BLOCK)
    for block in _blocks(filled):
        previous = worker.update(xor(block, previous))
        chained.append(previous)
    if len(chained) > 1:
        chained[-2:] = [chained[-1], chained[-2]]
    return b"".join(chained)[:len(plain)]


def decrypt_cts(key, stored):
    """The inverse of `encrypt_cts`."""
    worker = Cipher(algorithms.AES(key), modes.ECB()).decryptor()
    blocks = _blocks(stored)
    if len(blocks) > 1:
        # The last block stored is the cut one. What was cut off it is found in
        # the decryption of the block before it: there zeros were encrypted.
        whole, cut = blocks[-2], blocks[-1]
        tail = worker.update(whole)
        blocks[-2:] = [cut + tail[len(cut):], whole]
    plain, previous = [], bytes(AES_BLOCK)
    for block in blocks:
        plain.append(xor(worker.update(block), previous))
        previous = block
    return b"".join(plain)[:len(stored)]


def _xts_tweaks(key, number, count):
    """The first `count` tweaks of the data unit `number` (IEEE 1619), one after another.

    Each is the one before times x in GF(2^128), where the lowest bit of the
    first byte is the coefficient of 1.
    """
    start = encrypt_ecb(key, number.to_bytes(8, "little") + bytes(8))
    tweak, tweaks = int.from_bytes(start, "little"), []
    for _ in range(count):
        tweaks.append(tweak.to_bytes(AES_BLOCK, "little"))
        tweak <<= 1
        if tweak >> 128:
            tweak ^= (1 << 128) | 0x87
    return b"".join(tweaks)


def _xts(cipher, key, number, data):
    half = len(key) // 2
    tweaks = _xts_tweaks(key[half:], number, len(data) // AES_BLOCK)
    return xor(cipher(key[:half], xor(data, tweaks)), tweaks)


def encrypt_xts(key, number, data):
    """XTS-AES over whole blocks: first half of the key for data, second for the tweak."""
    return _xts(encrypt_ecb, key, number, data)


def decrypt_xts(key, number, data):
    """The inverse of `encrypt_xts`."""
    return _xts(decrypt_ecb, key, number, data)
