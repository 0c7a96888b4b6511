"""The table of mistakes that a sender makes when it signs a segment, each with the words by which `aoscope why` names it, and the captures
that have them. A mistake is made under each algorithm under which it matters, over IPv4 and IPv6, at a place of the session in turn.
"""
import dataclasses
import itertools

from sessions import PLACES, SERVER, Capture, Scene
from signing import ALGORITHMS, signed
from single_changes import CHANGES, NAMED, TRIMMED, Question, cut_sha256, other_algorithm, other_flag

REFUSED = "refused bad-mac checksum good"
EVERY = tuple(ALGORITHMS)
HASHES = ("sha1", "sha256")
LATER = ("ack", "request", "reply")
# The other algorithm whose MAC has the same length.
OTHER = {"sha1": "cmac", "cmac": "sha1"}
# Longer than a block of the hash functions, so that HMAC hashes it first.
LONG = bytes(range(0x31, 0x31 + 70))


@dataclasses.dataclass(frozen=True)
class Mistake:
    """A mistake by its name here and the words of its change; `master` is the key for which it matters, if not any does."""

    name: str
    words: str
    places: tuple[str, ...] = PLACES
    algorithms: tuple[str, ...] = EVERY
    master: bytes | None = None


def filled(size, algorithms, master):
    """The master key filled with zeros."""
    words = f"the key filled with zeros to {size} bytes"
    return Mistake(f"filled-{len(master)}-to-{size}", words, algorithms=algorithms, master=master)


def trimmed(algorithms, length, zeros):
    """A master key that is so long without the zeros at its end, taken for a text that a zero ends."""
    master = LONG[:length] + bytes(zeros)
    return Mistake(f"trailing-zeros-{zeros}-of-{len(master)}", TRIMMED, algorithms=algorithms, master=master)


MISTAKES = [
    Mistake("digits", "the key's hexadecimal digits as the key"),
    Mistake("upper-digits", "the key's hexadecimal digits in upper case as the key"),
    Mistake("newline", "a newline behind the key"),
    Mistake("digits-newline", "the key's hexadecimal digits and a newline as the key"),
    # Zeros behind a key change AES-CMAC's, whose length counts; of HMAC's only those of a key that is longer than a block with them.
    filled(16, ("cmac",), LONG[:10]),
    filled(20, ("cmac",), LONG[:16]),
    filled(32, ("cmac",), LONG[:20]),
    filled(64, ("cmac",), LONG[:16]),
    filled(80, ("cmac",), LONG[:24]),
    filled(80, EVERY, LONG),
    filled(80, HASHES, LONG[:20]),
    trimmed(("cmac",), 14, 2),
    trimmed(("cmac",), 16, 4),
    trimmed(("cmac",), 0, 16),
    trimmed(EVERY, 62, 6),
    trimmed(EVERY, 70, 1),
    Mistake("length-in-bytes", "the output length in bytes"),
    Mistake("exchanged", "source and destination exchanged in the context"),
    Mistake("sockets-exchanged", "the sockets alone exchanged in the context"),
    Mistake("isns-exchanged", "the initial sequence numbers exchanged in the context"),
    Mistake("no-destination-isn", "a destination's initial sequence number of 0 in the context", ("syn-ack",)),
    Mistake("no-destination-isn-later", "a destination's initial sequence number of 0 in the context", LATER),
    Mistake("mac-not-zeroed", "the MAC not zeroed in the MAC's input"),
    Mistake("last-bytes", "the last bytes of the MAC in place of the first"),
    Mistake("no-pseudo-header", "no pseudo-header in the MAC's input"),
    Mistake("lap-counted-from-1", "the extension one more"),
    Mistake("lap-below-0", "the extension one less"),
]


def capture(name, scene, front, segment, named, nodes=None, checksum=None, others=()):
    """Right segments in front, as bytes, the wrong one, and behind it the same one made right. What names the mistake is words and a signing;
    the nodes are the scene's, or these, and the checksum is right, or this one."""
    words, signing = named
    nodes = nodes or scene.nodes
    right, mac = scene.signing(segment, nodes), signing.mac(segment)
    if mac == right.mac(segment):
        raise ValueError(f"{name}: the mistake doesn't matter")
    sender, receiver = (nodes.get(node.name) for node in scene.ends_of(segment))
    field = segment.checksum(segment.options(mac)) if checksum is None else checksum
    question = Question(segment, right, mac, field, receiver, sender, others)
    packets = [*front, segment.datagram(segment.ao(mac), checksum), signed(segment, right)]
    said = REFUSED if checksum is None else "refused bad-mac checksum wrong"
    return Capture(name, tuple(nodes.values()), packets, len(front) + 1, said, NAMED + words, question)


def scenes(algorithms=EVERY, start=0, **more):
    """Scenes of both families and these algorithms, with what else differs in turn, each with a number and a name."""
    for n, (family, algorithm) in enumerate(itertools.product((4, 6), algorithms), start):
        yield n, f"v{family}-{algorithm}", Scene(family, algorithm, bool(n % 2), bool(n // 2 % 2), **more)


def of_signing():
    """Captures of the mistakes of the table."""
    for start, mistake in enumerate(MISTAKES):
        for n, what, scene in scenes(mistake.algorithms, start, master=mistake.master):
            *front, segment = scene.up_to(mistake.places[n % len(mistake.places)])
            named = mistake.words, CHANGES[mistake.words](segment, scene.signing(segment))
            yield capture(f"{mistake.name}-{what}", scene, scene.signed(front), segment, named)


def flagged(what, scene, place, nodes=None):
    """The MAC covers the options where it shouldn't, or doesn't where it should."""
    *front, segment = scene.up_to(place)
    named = other_flag(scene.signing(segment))
    flag = "no-options" if scene.covers_options else "options"
    return capture(f"flag-{flag}-{what}", scene, scene.signed(front), segment, named, nodes)


def of_flags():
    """Both flags of each scene; and a sender that the key file doesn't have."""
    for n, what, scene in [*scenes(), *scenes(start=1)]:
        yield flagged(what, scene, PLACES[n % len(PLACES)])
    for scene in (Scene(4, "sha256"), Scene(6, "sha1", covers_options=False)):
        yield flagged(f"unknown-sender-v{scene.family}-{scene.algorithm}", scene, "syn", {SERVER: scene.server})


def of_algorithms():
    """The other algorithm whose MAC has the same length, or HMAC-SHA-256's cut to it, with the key of the row."""
    for n, what, scene in scenes(tuple(OTHER)):
        *front, segment = scene.up_to(PLACES[n % len(PLACES)])
        named = other_algorithm(scene.signing(segment), OTHER[scene.algorithm])
        yield capture(f"algorithm-{what}", scene, scene.signed(front), segment, named)
    for n, what, scene in scenes(tuple(OTHER), 1):
        *front, segment = scene.up_to(PLACES[n % len(PLACES)])
        yield capture(f"algorithm-cut-{what}", scene, scene.signed(front), segment, cut_sha256(scene.signing(segment)))
