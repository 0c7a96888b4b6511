#!/usr/bin/env python3
"""Prints the signed segments of the tests of ao_check, made by Python's hmac and hashlib alone.

It builds the inputs of the key derivation and of the MAC anew, from the rules of RFC 5925 (sections
5.1 and 5.2) and RFC 5926 (section 3.1), over the headers of `vectors_sha256.py`.

    oracle/vectors_check.py
"""
import hashlib
import hmac

from vectors_sha256 import context_bytes, ip_header, pseudo_header, sum16, tcp_header

MASTER = b"testvector"
ONE, TWO = bytes([10, 0, 0, 1]), bytes([10, 0, 0, 2])
PORTS = (1000, 2000)
ISNS = (100, 200)
HASHES = {1: (hashlib.sha1, 20, 12), 3: (hashlib.sha256, 32, 16)}
FIN, RST, ACK = 1, 4, 16


def segment(key_id, number, flags):
    """A segment without payload whose only option is TCP-AO; each option is covered."""
    function, key_length, mac_length = HASHES[key_id]
    option = bytes([29, 4 + mac_length, key_id, key_id])
    fields = (number % 2**32, 0, flags, 512)
    pseudo = pseudo_header(ONE, TWO, 20 + len(option) + mac_length)
    blank = option + bytes(mac_length)
    label = b"\x01TCP-AO" + context_bytes(ONE, TWO, PORTS, ISNS) + (8 * key_length).to_bytes(2, "big")
    key = hmac.new(MASTER, label, function).digest()
    message = (number >> 32).to_bytes(4, "big") + pseudo + tcp_header(PORTS, *fields, blank, 0) + blank
    options = option + hmac.new(key, message, function).digest()[:mac_length]
    checksum = 0xFFFF ^ sum16(pseudo + tcp_header(PORTS, *fields, options, 0) + options)
    header = tcp_header(PORTS, *fields, options, checksum)
    return ip_header(ONE, TWO, 20 + len(options)) + header + options


def main():
    for name, key_id, number, flags in [
        ("PAST_A_LAP", 1, 2**32 + 5, ACK),
        ("BEFORE_A_LAP", 1, 2**32 - 3, ACK),
        ("AT_THE_END", 1, 2**63, ACK),
        ("LAST_FIN", 1, 2**63 - 1, FIN + ACK),
        ("PAST_THE_END", 1, 2**63, FIN + ACK),
        ("RESET", 3, 2**32 + 5, RST),
    ]:
        data = segment(key_id, number, flags)
        print(f"const {name}: [u8; {len(data)}] = [")
        for at in range(0, len(data), 16):
            print("    " + " ".join(f"0x{byte:02x}," for byte in data[at:at + 16]))
        print("];\n")


if __name__ == "__main__":
    main()
