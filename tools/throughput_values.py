#!/usr/bin/env python3
"""Prints the values of a thousand laps of each keyed operation, which the program `throughput` is held to.

AES, GMAC and CMAC are those of OpenSSL, by way of the Python package `cryptography`; FF1 is written here from its standard,
over OpenSSL's AES, and held against a published sample first.
"""

from cryptography.hazmat.primitives.ciphers import Cipher, algorithms, modes
from cryptography.hazmat.primitives.ciphers.aead import AESGCM
from cryptography.hazmat.primitives.cmac import CMAC

LAPS = 1000
KEY = bytes(16)


def aes(key, block):
    return Cipher(algorithms.AES(key), modes.ECB()).encryptor().update(block)


def cbc_mac(key, message):
    mac = bytes(16)
    for at in range(0, len(message), 16):
        mac = aes(key, bytes(p ^ q for p, q in zip(mac, message[at : at + 16])))
    return mac


def ff1(key, radix, n, tweak, x):
    """FF1 of a number of n digits, as a number."""
    u = n // 2
    v = n - u
    first, second = divmod(x, radix**v)
    b = -(-(radix**v - 1).bit_length() // 8)
    d = 4 * -(-b // 4) + 4
    head = bytes([1, 2, 1]) + radix.to_bytes(3, "big") + bytes([10, u % 256])
    head += n.to_bytes(4, "big") + len(tweak).to_bytes(4, "big")
    for i in range(10):
        rest = tweak + bytes((-len(tweak) - b - 1) % 16) + bytes([i]) + second.to_bytes(b, "big")
        y = int.from_bytes(cbc_mac(key, head + rest)[:d], "big")
        size = radix ** (u if i % 2 == 0 else v)
        first, second = second, (first + y) % size
    return first * radix**v + second


assert ff1(bytes.fromhex("2b7e151628aed2a6abf7158809cf4f3c"), 10, 10, b"", 123456789) == 2433477484


def laps(operation, start):
    value = start
    for _ in range(LAPS):
        value = operation(value)
    return value


def cmac(block):
    mac = CMAC(algorithms.AES(KEY))
    mac.update(block[:12] + bytes(64))
    return mac.finalize()


def number(block):
    return int.from_bytes(block, "big")


print("block", number(laps(lambda b: aes(KEY, b), bytes(16))))
print("gmac", number(laps(lambda b: AESGCM(KEY).encrypt(b[:12], b"", bytes(64)), bytes(16))))
print("cmac", number(laps(cmac, bytes(16))))
print("ff1", laps(lambda x: ff1(KEY, 2, 59, bytes(8), x), 0))
