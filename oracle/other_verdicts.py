"""Captures of segments that `check` refuses before it looks at the MAC, each with what it says of them, and with what `aoscope why` tells: how a line
begins, and what it has further on. What stands in front of such a segment is under the row of another algorithm, and so is the segment behind it that
passes, where there is one.
"""
import dataclasses
import ipaddress
import time

from mistakes import scenes
from sessions import CLIENT, IDS, LONG_AGO, SEEN, SERVER, Capture, Scene
from signing import ACK, ALGORITHMS, RING, code, signed

# Of a scene: the algorithm of the row by which all goes well.
CARRIER = {"sha1": "cmac", "cmac": "sha256", "sha256": "sha1"}
# When the segment in question is seen: it is the fourth packet.
WHEN = SEEN + 3
FIRST, LAST = 0, 253_402_300_799


def refused(verdict):
    return f"refused {verdict} checksum good"


def instant(seconds):
    return time.strftime("%Y-%m-%dT%H:%M:%SZ", time.gmtime(seconds))


def behind_opening(name, scene, nodes, wrong, verdict, tells=None):
    """A handshake under the carrier's row, a segment in question as bytes, and the same one under the carrier's row."""
    carrier = CARRIER[scene.algorithm]
    front = scene.signed(scene.opening(name=carrier))
    packets = [*front, wrong, *scene.signed([scene.request(name=carrier)])]
    return Capture(name, tuple(nodes.values()), packets, len(front) + 1, refused(verdict), tells=tells)


# A name, what the row has of its own, the verdict, and what is told that it lacks.
ROWS = [
    ("another-peer", {"peers": (bytes([10, 0, 0, 9]), bytes(15) + b"\x09")}, "no-tuple", ", for another peer"),
    ("another-local-port", {"local_port": 180}, "no-tuple", ", for another local port"),
    ("another-peer-port", {"peer_port": 50_001}, "no-tuple", ", for another peer port"),
    ("disabled", {"direction": "disabled"}, "no-tuple", ", not for what comes in"),
    ("sends-only", {"direction": "out"}, "no-tuple", ", not for what comes in"),
    ("ended", {"accepting": (FIRST, WHEN - 1)}, "expired", f", ended at {instant(WHEN - 1)}"),
    ("not-begun", {"accepting": (WHEN + 1, LAST)}, "expired", f", begins at {instant(WHEN + 1)}"),
]


def of_rows():
    """The receiver's row with the KeyID of the segment lacks something."""
    for name, has, verdict, lacks in ROWS:
        for _, what, scene in scenes():
            server, own = scene.server, f"of {scene.algorithm}"
            rows = tuple(row.but(**has) if row.name == own else row for row in server.rows)
            nodes = scene.nodes | {SERVER: dataclasses.replace(server, rows=rows)}
            number = [row.name for row in rows].index(own) + 1
            tells = f"row {number} of {SERVER}", lacks
            yield behind_opening(f"{name}-{what}", scene, nodes, *scene.signed([scene.request()]), verdict, tells)


def of_ids():
    """The segment has a KeyID of no row, or that of a row whose lifetime ended long ago."""
    for _, what, scene in scenes():
        segment = scene.request()
        wrong = signed(dataclasses.replace(segment, ids=(99, segment.ids[1])), scene.signing(segment))
        tells = f"row 1 of {SERVER}", f", for KeyID {IDS['sha1'][0]}"
        yield behind_opening(f"no-row-{what}", scene, scene.nodes, wrong, "no-tuple", tells)
        tells = f"row 4 of {SERVER}", f", ended at {instant(LONG_AGO[1])}"
        old = scene.signed([scene.request(name="old")])
        yield behind_opening(f"old-row-{what}", scene, scene.nodes, *old, "expired", tells)


def length_told(scene, length):
    return f"mac of {length} bytes", f", the row's has {ALGORITHMS[scene.algorithm].mac_length}"


def of_lengths():
    """MACs that aren't as long as the row's algorithm makes them; the last two by another algorithm."""
    for algorithm, length in (("sha1", 20), ("sha1", 16), ("cmac", 16), ("sha256", 12), ("sha256", 20), ("cmac", 8), ("sha1", 0)):
        scene = Scene(4 + 2 * (length % 8 == 0), algorithm)
        segment = dataclasses.replace(scene.request(), front=b"", behind=bytes(-length % 4))
        right = scene.signing(segment)
        mac = code(algorithm, right.traffic_key(), right.but(in_its_place=bytes(length)).message(segment))[:length]
        wrong = segment.datagram(segment.ao(mac))
        name, tells = f"mac-of-{length}-v{scene.family}-{algorithm}", length_told(scene, length)
        yield behind_opening(name, scene, scene.nodes, wrong, "mac-length", tells)
    for algorithm, other in (("sha1", "sha256"), ("sha256", "cmac")):
        scene = Scene(4, algorithm)
        segment = scene.request()
        wrong = signed(segment, scene.signing(segment).but(algorithm=other, bits=8 * ALGORITHMS[other].key_length))
        tells = length_told(scene, ALGORITHMS[other].mac_length)
        yield behind_opening(f"algorithm-{other}-v4-{algorithm}", scene, scene.nodes, wrong, "mac-length", tells)


def of_options():
    """No option of TCP-AO, two of them, or one of TCP MD5 beside it."""
    for _, what, scene in scenes():
        segment = dataclasses.replace(scene.request(), front=b"", behind=b"")
        ao = segment.ao(scene.signing(segment).mac(segment))
        md5 = b"\x01\x01\x13\x12" + bytes(16)
        for name, options, verdict in (("no-ao", b"", "no-ao"), ("two-ao", ao + ao, "two-ao"), ("md5", md5 + ao, "with-md5")):
            if len(options) <= 40:
                yield behind_opening(f"{name}-{what}", scene, scene.nodes, segment.datagram(options), verdict)


def of_connections():
    """The connection's numbers aren't known; the number meant is below 0; no node has the receiver's address."""
    for _, what, scene in scenes():
        request = scene.signed([scene.request()])
        nodes = tuple(scene.nodes.values())
        tells = "no handshake of these sockets passed before it", ""
        yield Capture(f"no-context-{what}", nodes, request, 1, refused("no-context"), tells=tells)
        opening, tells = scene.signed(scene.opening()), ("no node has", f" {ipaddress.ip_address(scene.server.address)}")
        yield Capture(f"no-node-{what}", nodes[:1], [opening[1], *request], 2, "unknown-node", tells=tells)
    for _, what, scene in scenes(isns=(5, 9)):
        below = scene.segment(CLIENT, RING - 1000, 10, ACK, b"below")
        wrong = signed(below, scene.signing(below))
        tells = "the number is below 0: aoscope sessions --laps N tries later laps", ""
        yield behind_opening(f"below-0-{what}", scene, scene.nodes, wrong, "range", tells)
