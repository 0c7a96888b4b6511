#!/usr/bin/env python3
"""AES-128 (FIPS 197), AES-CMAC (RFC 4493) and AES-CMAC-PRF-128 (RFC 4615), by Python alone; slow, for a few segments.

    oracle/aes_cmac.py

Called so it says whether the examples of these three standards come out. Status 0: all do.
"""
import sys

BLOCK = 16


def doubled(byte):
    """Twice a byte in GF(2^8), modulo x^8 + x^4 + x^3 + x + 1 (FIPS 197, section 4.2)."""
    return (byte << 1) ^ (0x11B if byte & 0x80 else 0)


def substitutes():
    """The S-box: the inverse in GF(2^8), 0 for 0, and then an affine map (FIPS 197, section 5.1.1)."""
    powers = [1]
    while len(powers) < 255:
        powers.append(powers[-1] ^ doubled(powers[-1]))
    inverse = {0: 0} | {power: powers[-n % 255] for n, power in enumerate(powers)}
    found = []
    for byte in range(256):
        twice = inverse[byte] * 0x101
        found.append(0x63 ^ inverse[byte] ^ (twice >> 7 ^ twice >> 6 ^ twice >> 5 ^ twice >> 4) & 0xFF)
    return found


S_BOX = substitutes()
DOUBLED = [doubled(byte) for byte in range(256)]
# Byte 4 c + r of a block is in row r and column c; row r is turned by r columns (FIPS 197, sections 3.4 and 5.1.2).
FROM_WHERE = [(4 * (column + row) + row) % BLOCK for column in range(4) for row in range(4)]


def round_keys(key):
    """The eleven keys of the rounds (FIPS 197, section 5.2)."""
    words, constant = [list(key[at:at + 4]) for at in range(0, BLOCK, 4)], 1
    while len(words) < 44:
        word = words[-1]
        if len(words) % 4 == 0:
            word = [S_BOX[byte] for byte in word[1:] + word[:1]]
            word[0] ^= constant
            constant = doubled(constant)
        words.append([a ^ b for a, b in zip(word, words[-4])])
    return [sum(words[at:at + 4], []) for at in range(0, 44, 4)]


def mixed(column):
    """A column of the state, mixed (FIPS 197, section 5.1.3)."""
    every = column[0] ^ column[1] ^ column[2] ^ column[3]
    return [column[n] ^ every ^ DOUBLED[column[n] ^ column[(n + 1) % 4]] for n in range(4)]


def encrypted(keys, block):
    """A block under the keys of the rounds (FIPS 197, section 5.1)."""
    state = [a ^ b for a, b in zip(block, keys[0])]
    for n, key in enumerate(keys[1:], 1):
        state = [S_BOX[state[at]] for at in FROM_WHERE]
        if n < 10:
            state = sum((mixed(state[at:at + 4]) for at in range(0, BLOCK, 4)), [])
        state = [a ^ b for a, b in zip(state, key)]
    return bytes(state)


def subkey(block):
    """A subkey from the one before, or from the block of zeros under the key (RFC 4493, section 2.3)."""
    number = int.from_bytes(block, "big") << 1
    return (number & 2**128 - 1 ^ (0x87 if number >> 128 else 0)).to_bytes(BLOCK, "big")


def xor(one, other):
    return bytes(a ^ b for a, b in zip(one, other))


def cmac(key, message):
    """AES-CMAC (RFC 4493, section 2.4)."""
    keys = round_keys(key)
    whole = subkey(encrypted(keys, bytes(BLOCK)))
    blocks = [message[at:at + BLOCK] for at in range(0, len(message), BLOCK)] or [b""]
    last = blocks.pop()
    last = xor(last, whole) if len(last) == BLOCK else xor((last + b"\x80").ljust(BLOCK, b"\0"), subkey(whole))
    chained = bytes(BLOCK)
    for block in [*blocks, last]:
        chained = encrypted(keys, xor(chained, block))
    return chained


def prf(key, message):
    """AES-CMAC-PRF-128: a key of any length (RFC 4615, section 3)."""
    return cmac(key if len(key) == BLOCK else cmac(bytes(BLOCK), key), message)


# A function, its two arguments, its value: FIPS 197, appendices B and C.1; RFC 4493, section 4; RFC 4615, section 4.
CMAC_KEY = "2b7e151628aed2a6abf7158809cf4f3c"
CMAC_TEXT = (
    "6bc1bee22e409f96e93d7e117393172aae2d8a571e03ac9c9eb76fac45af8e51"
    "30c81c46a35ce411e5fbc1191a0a52eff69f2445df4f9b17ad2b417be66c3710"
)
COUNTED = bytes(range(20)).hex()
EXAMPLES = [
    ("aes", CMAC_KEY, "3243f6a8885a308d313198a2e0370734", "3925841d02dc09fbdc118597196a0b32"),
    ("aes", COUNTED[:32], "00112233445566778899aabbccddeeff", "69c4e0d86a7b0430d8cdb78070b4c55a"),
    ("cmac", CMAC_KEY, "", "bb1d6929e95937287fa37d129b756746"),
    ("cmac", CMAC_KEY, CMAC_TEXT[:32], "070a16b46b4d4144f79bdd9dd04a287c"),
    ("cmac", CMAC_KEY, CMAC_TEXT[:80], "dfa66747de9ae63030ca32611497c827"),
    ("cmac", CMAC_KEY, CMAC_TEXT, "51f0bebf7e3b9d92fc49741779363cfe"),
    ("prf", COUNTED[:32] + "edcb", COUNTED, "84a348a4a45d235babfffc0d2b4da09a"),
    ("prf", COUNTED[:32], COUNTED, "980ae87b5f4c9c5214f5b6a8455e4c2d"),
    ("prf", COUNTED[:20], COUNTED, "290d9e112edb09ee141fcf64c0b72f3d"),
]


def main():
    functions = {"aes": lambda key, block: encrypted(round_keys(key), block), "cmac": cmac, "prf": prf}
    wrong = [n for n, (name, *given, value) in enumerate(EXAMPLES, 1) if functions[name](*map(bytes.fromhex, given)).hex() != value]
    print(f"{len(EXAMPLES)} examples, {len(wrong)} differ", *wrong)
    return int(bool(wrong))


if __name__ == "__main__":
    sys.exit(main())
