"""The single changes that `aoscope why` tries on a segment, by the words that name them, each as another `Signing`: a mistake of the table is one
of these, and whether a line of `why` is true is seen by making the MAC so.
"""
import dataclasses

from key_rows import Node
from signing import ALGORITHMS, Segment, Signing, right_signing

NAMED = "would pass with "
TRIMMED = "the key without the zeros at its end"


def of_key(change):
    """A change of the master key alone."""
    return lambda segment, right: right.but(master=change(right.master))


def filled(size):
    return of_key(lambda key: key.ljust(size, b"\0"))


def exchanged(right, *names):
    """A context of which these two pairs, or one of them, are exchanged."""
    whole = {"source": right.destination, "destination": right.source, "isns": right.isns[::-1]}
    return right.but(**{name: whole[name] for name in names})


CHANGES = {
    "the key's hexadecimal digits as the key": of_key(lambda key: key.hex().encode()),
    "the key's hexadecimal digits in upper case as the key": of_key(lambda key: key.hex().upper().encode()),
    "a newline behind the key": of_key(lambda key: key + b"\n"),
    "the key's hexadecimal digits and a newline as the key": of_key(lambda key: key.hex().encode() + b"\n"),
    "the key filled with zeros to 16 bytes": filled(16),
    "the key filled with zeros to 20 bytes": filled(20),
    "the key filled with zeros to 32 bytes": filled(32),
    "the key filled with zeros to 64 bytes": filled(64),
    "the key filled with zeros to 80 bytes": filled(80),
    TRIMMED: of_key(lambda key: key.rstrip(b"\0")),
    "the output length in bytes": lambda segment, right: right.but(bits=right.bits // 8),
    "source and destination exchanged in the context": lambda segment, right: exchanged(right, "source", "destination", "isns"),
    "the sockets alone exchanged in the context": lambda segment, right: exchanged(right, "source", "destination"),
    "the initial sequence numbers exchanged in the context": lambda segment, right: exchanged(right, "isns"),
    "a destination's initial sequence number of 0 in the context": lambda segment, right: right.but(isns=(right.isns[0], 0)),
    "the extension one more": lambda segment, right: right.but(extension=right.extension + 1),
    "the extension one less": lambda segment, right: right.but(extension=right.extension - 1),
    "the MAC not zeroed in the MAC's input": lambda segment, right: right.but(in_its_place=right.mac(segment)),
    "the last bytes of the MAC in place of the first": lambda segment, right: right.but(takes_last=True),
    "no pseudo-header in the MAC's input": lambda segment, right: right.but(has_pseudo=False),
}


def cut_sha256(right):
    """The words, and the signing, of HMAC-SHA-256 with the same key, its MAC cut to 96 bits."""
    bits = 8 * ALGORITHMS["sha256"].key_length
    return "the other algorithm: HMAC-SHA-256 cut to 96 bits", right.but(algorithm="sha256", bits=bits, sends=12)


def row_words(number, node):
    return f"another row: row {number} of {node.name}"


def other_flag(right):
    """The words, and the signing, of the other option flag."""
    words = f"the other option flag: {'no-options' if right.covers_options else 'options'}"
    return words, right.but(covers_options=not right.covers_options)


def other_algorithm(right, name):
    """The words, and the signing, of another algorithm with the same key."""
    words = f"the other algorithm: {ALGORITHMS[name].name}"
    return words, right.but(algorithm=name, bits=8 * ALGORITHMS[name].key_length)


def kept_checksum(right, checksum):
    return "the checksum not zeroed in the MAC's input", right.but(checksum=checksum)


def other_connection(right, isns):
    words = f"the initial sequence numbers of another connection on these sockets: {isns[0]} {isns[1]}"
    return words, right.but(isns=isns)


@dataclasses.dataclass(frozen=True)
class Question:
    """A segment with a wrong MAC, the way in which it should have been made, and what else `why` knows: both nodes, of which the sender may be
    none, and the initial sequence numbers of other connections on its sockets, the source's first."""

    segment: Segment
    right: Signing
    mac: bytes
    checksum: int
    receiver: Node
    sender: Node | None
    others: tuple[tuple[int, int], ...] = ()

    def changed(self):
        """The words of each change, and how the MAC is made under it."""
        for node in filter(None, (self.receiver, self.sender)):
            for number, row in enumerate(node.rows, 1):
                yield row_words(number, node), right_signing(row, self.segment, self.right.isns)
        yield other_flag(self.right)
        yield from (other_algorithm(self.right, name) for name in ALGORITHMS)
        yield cut_sha256(self.right)
        yield from ((words, change(self.segment, self.right)) for words, change in CHANGES.items())
        yield kept_checksum(self.right, self.checksum)
        yield from (other_connection(self.right, isns) for isns in self.others)

    def lines(self):
        """The lines that `why` is to write: those of the changes under which the MAC is the segment's."""
        fits = ((words, it) for words, it in self.changed() if it.mac_length == len(self.mac))
        return {NAMED + words for words, it in fits if it.mac(self.segment) == self.mac}
