"""Captures of the mistakes that a session of its own shows: the key of another row, an extension around a lap, a checksum that isn't zeroed,
the initial sequence numbers of an earlier session. Each has the words by which `aoscope why` names it.
"""
import dataclasses

from key_rows import Row
from mistakes import LATER, LONG, OTHER, capture, scenes
from sessions import PLACES, REQUEST
from signing import ALGORITHMS, RING, right_signing
from single_changes import CHANGES, kept_checksum, other_connection, row_words
from vectors_sha256 import sum16


def by_row(name, scene, place, row, named, sender_rows):
    """A segment signed by a row that isn't that of its KeyID; its sender has these rows. What names it is a row's number and its node."""
    *front, segment = scene.up_to(place)
    sender, _ = scene.ends_of(segment)
    nodes = scene.nodes | {sender.name: dataclasses.replace(sender, rows=tuple(sender_rows))}
    wrong = right_signing(row, segment, scene.isns_of(segment))
    return capture(name, scene, scene.signed(front), segment, (row_words(*named), wrong), nodes)


def place_of(rows, name):
    """Where the row of a name is, from 0 on, and the row."""
    return next((n, row) for n, row in enumerate(rows) if row.name == name)


def of_rows():
    """A row that only the receiver has; one that only the sender has; one by which the sender sends with another key than it receives; and one
    that both have."""
    for n, what, scene in scenes():
        place, own = PLACES[n % len(PLACES)], f"of {scene.algorithm}"
        sender, receiver = scene.ends_of(scene.up_to(place)[-1])
        at, old = place_of(receiver.rows, "old")
        others = [row for row in sender.rows if row.name != "old"]
        yield by_row(f"row-of-receiver-{what}", scene, place, old, (at + 1, receiver), others)
        new = Row("new", scene.algorithm, LONG[:23], not scene.covers_options, 61, 62, (receiver.address,))
        yield by_row(f"row-of-sender-{what}", scene, place, new, (len(sender.rows) + 1, sender), [*sender.rows, new])
        at, row = place_of(sender.rows, own)
        typed, right = row.but(master=row.master[:-1] + b"\x17", direction="out"), row.but(direction="in")
        rows = [*sender.rows[:at], typed, right, *sender.rows[at + 1 :]]
        yield by_row(f"row-with-another-key-{what}", scene, place, typed, (at + 1, sender), rows)
        if scene.algorithm in OTHER:
            at, row = place_of(receiver.rows, f"of {OTHER[scene.algorithm]}")
            yield by_row(f"row-of-another-algorithm-{what}", scene, place, row, (at + 1, receiver), sender.rows)


# The client's bytes reach over a lap; or its first byte is behind one.
ACROSS_A_LAP, AT_A_LAP = RING - 17, RING - 1
MORE, LESS = "the extension one more", "the extension one less"


def lapped(name, scene, front, segment, words):
    return capture(name, scene, scene.signed(front), segment, (words, CHANGES[words](segment, scene.signing(segment))))


def of_laps():
    """Extensions that weren't moved at a lap, or too early."""
    for _, what, scene in scenes(isns=(ACROSS_A_LAP, AT_A_LAP)):
        opening, across, behind = scene.opening(), scene.request(), scene.request(start=1 + len(REQUEST))
        yield lapped(f"lap-too-early-{what}", scene, opening, across, MORE)
        yield lapped(f"lap-not-counted-{what}", scene, [*opening, across], behind, LESS)
        yield lapped(f"lap-not-counted-by-server-{what}", scene, [*opening, across], scene.reply(), LESS)
    for _, what, scene in scenes(start=1, isns=(AT_A_LAP, 5)):
        opening = scene.opening()
        yield lapped(f"lap-behind-syn-{what}", scene, opening[:2], opening[2], LESS)
        leaps = [scene.request(b"leap", 1 + k * 2**30) for k in range(9)]
        yield lapped(f"lap-third-too-early-{what}", scene, [*opening, *leaps[:7]], leaps[7], MORE)
        yield lapped(f"lap-third-not-counted-{what}", scene, [*opening, *leaps[:8]], leaps[8], LESS)


def of_checksums():
    """A checksum stands in the MAC's input: the part of it that a sender leaves to its network card, or the segment's right one."""
    for n, what, scene in scenes():
        *front, segment = scene.up_to(PLACES[n % len(PLACES)])
        partial = sum16(segment.pseudo(segment.options(bytes(ALGORITHMS[scene.algorithm].mac_length))))
        named = kept_checksum(scene.signing(segment), partial)
        yield capture(f"checksum-left-to-card-{what}", scene, scene.signed(front), segment, named, checksum=partial)
    for n, what, scene in scenes():
        scene = dataclasses.replace(scene, covers_options=False)
        *front, segment = scene.up_to(LATER[n % len(LATER)])
        segment, named = met_by_stamps(segment, scene.signing(segment))
        yield capture(f"checksum-not-zeroed-{what}", scene, scene.signed(front), segment, named)


def met_by_stamps(segment, right):
    """The segment with other timestamps, which its MAC doesn't cover, so that the checksum under its MAC is its own."""
    checksum = segment.checksum(segment.options(bytes(ALGORITHMS[right.algorithm].mac_length)))
    named = kept_checksum(right, checksum)
    bare = segment.with_stamp(0)
    options = bare.options(named[1].mac(bare))
    return bare.with_stamp((bare.checksum(options) - checksum) % 0xFFFF), named


def of_connections():
    """A session's segment signed as if it were of the one before between these sockets; and one of that which comes late."""
    for n, what, scene in scenes():
        before = (scene.isns[0] - 700_000, scene.isns[1] + 900_000)
        front = [*scene.signed(scene.opening(before), isns=before), *scene.signed(scene.opening())]
        place = ("request", "reply")[n % 2]
        yield earlier(f"connection-before-{what}", scene, front, scene.up_to(place)[-1], before)
        late = dataclasses.replace(scene, isns=before).up_to(place)[-1]
        yield earlier(f"connection-before-late-{what}", scene, front, late, before)


def earlier(name, scene, front, segment, before):
    isns = scene.isns_of(segment, before)
    return capture(name, scene, front, segment, other_connection(scene.signing(segment), isns), others=(isns,))
