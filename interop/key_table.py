"""Profiles, and keys as ao-nc's key file and the kernel's sockets have them."""
import time

ALGORITHMS = {
    "sha1": ("hmac(sha1)", "HMAC-SHA-1", "HMAC-SHA-1-96", 12),
    "cmac": ("cmac(aes128)", "AES-128-CMAC", "AES-128-CMAC-96", 12),
    "sha256": ("hmac(sha256)", "HMAC-SHA-256", "HMAC-SHA-256-128", 16),
}
MASTERS = ["000102030405060708090a0b0c0d0e0f", "f0e1d2c3b4a5968778695a4b3c2d1e0f", "a1a2a3a4a5a6a7a8a9aaabacadaeafb0", "0d0c0b0a090807060504030201001122"]


def stamp(seconds):
    return time.strftime("%Y%m%d%H%M%SZ", time.gmtime(seconds))


class Profile:
    """A family, an algorithm, and whether the MAC covers the options: v4-sha1-opt."""
    def __init__(self, name):
        family, self.algorithm, options = name.split("-")
        self.name, self.family, self.options = name, int(family[1]), options == "opt"

    def addresses(self, number):
        """Of ao-nc and of the kernel on a device, and ao-nc's and the kernel's as a key file has them."""
        if self.family == 4:
            return f"10.0.{number}.1", f"10.0.{number}.2", f"10.0.{number}.1", f"10.0.{number}.2"
        return f"2001:db8:{number:x}::1", f"2001:db8:{number:x}::2", f"20010db8{number:04x}{1:020x}", f"20010db8{number:04x}{2:020x}"


class Key:
    """A master key with ao-nc's two ids, and the times of its sending and accepting, as (first, last), if they are limited. Its
    algorithm and its option flag are the profile's, if none are given; `ids` are the one that ao-nc sends and the one that it receives.
    The kernel may have it otherwise: `at_kernel` changes its hex, ids, options or MAC length; it hasn't it at all with `missing`."""
    def __init__(self, number, sending=None, accepting=None, algorithm=None, covers=None, master=None, own_ids=None, missing=False, **at_kernel):
        self.send, self.receive = own_ids or (5 + number, 65 + number)
        self.hex = master or MASTERS[number % len(MASTERS)]
        self.sending, self.accepting, self.missing, self.at_kernel = sending, accepting, missing, at_kernel
        self.algorithm, self.covers = algorithm, covers

    def algorithm_in(self, profile):
        return ALGORITHMS[self.algorithm or profile.algorithm]

    def covers_options(self, profile):
        return profile.options if self.covers is None else self.covers

    def row(self, profile, peer, at_nc):
        _, kdf, algorithm, _ = self.algorithm_in(profile)
        ids = (self.receive, self.send) if at_nc else (self.send, self.receive)
        text = f'[[node.key]]\nAdminKeyName = "key-{self.send}-{self.receive}"\nLocalKeyName = "{ids[0]}"\nPeerKeyName = "{ids[1]}"\nPeers = ["{peer}"]\n'
        text += f'Protocol = "TCP-AO"\nProtocolSpecificInfo = "{"options" if self.covers_options(profile) else "no-options"}"\nKDF = "{kdf}"\n'
        text += f'AlgID = "{algorithm}"\nKey = "{self.hex}"\nDirection = "both"\n'
        for word, times in (("Send", self.sending), ("Accept", self.accepting)) if at_nc else ():
            if times:
                text += f'{word}LifetimeStart = "{stamp(times[0])}"\n{word}LifetimeEnd = "{stamp(times[1])}"\n'
        return text

    def words(self, profile):
        """As the guest's word `key` wants it for the kernel: algorithm, ids, whether options are left out, MAC length; and the master key."""
        word, _, _, length = self.algorithm_in(profile)
        ids = self.at_kernel.get("ids", (self.receive, self.send))
        options, length = self.at_kernel.get("options", self.covers_options(profile)), self.at_kernel.get("length", length)
        return f"{word} {ids[0]} {ids[1]} {int(not options)} {length}", self.at_kernel.get("hex", self.hex)


def key_file(profile, keys, number=0):
    _, _, nc, kernel = profile.addresses(number)
    at_kernel = {(key.send, key.receive): key for key in keys}.values()  # the kernel has each id once
    return (f'[[node]]\nname = "nc"\naddress = "{nc}"\n' + "".join(key.row(profile, kernel, True) for key in keys)
            + f'[[node]]\nname = "kernel"\naddress = "{kernel}"\n' + "".join(key.row(profile, nc, False) for key in at_kernel))
