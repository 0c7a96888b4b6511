"""The table of `aoscope sessions` as docs/FORMATS.md has it, of captures that are segments alone and of one session."""
import ipaddress
import json
import time


def instant(seconds):
    return time.strftime("%Y-%m-%dT%H:%M:%SZ", time.gmtime(seconds))


def address(data):
    return str(ipaddress.ip_address(data))


def is_later(one, other):
    """Verified segments that go the same way as others, under another KeyID and later."""
    same_way = (one.source, one.destination) == (other.source, other.destination)
    return same_way and one.outcome == "verified" and one.key_id != other.key_id and one.last > other.last


def going_on(uses):
    """What no later segments take the place of."""
    return [it for it in uses if not any(is_later(other, it) for other in uses)]


def is_between(node, row, use):
    """The other socket of the segments, if one of both is the node's and the row is for what goes between them."""
    others = [other for own, other in ((use.source, use.destination), (use.destination, use.source)) if own.address == node.address]
    return any(other.address in row.peers for other in others)


def carries(node, row, use):
    own_id = row.sent if use.source.address == node.address else row.received
    return is_between(node, row, use) and use.key_id == own_id


def asks_for(node, row, use):
    own_id = row.received if use.source.address == node.address else row.sent
    return is_between(node, row, use) and use.asks == own_id


def row_facts(node, row, uses):
    """Of a row: the last segments that carry its KeyID, the first that ask for it, and whether it may go."""
    carrying = [it for it in uses if carries(node, row, it)]
    latest = max((it.last for it in carrying), default=None)
    last = next((it for it in reversed(carrying) if it.last == latest), None)
    asking = next((it for it in going_on(uses) if asks_for(node, row, it)), None)
    wanted = asking is not None or any(carries(node, row, it) for it in going_on(uses))
    return last, asking, False if wanted else True if last else None


def opened(uses):
    return any(it.opens and it.outcome == "verified" for it in uses)


def key_line(node, number, row, uses):
    last, asking, may = row_facts(node, row, uses)
    words = [f"key {number} of {node.name} send-id {row.sent} recv-id {row.received}"]
    words.append(f"last used {instant(last.last)} session 1 from {address(last.source.address)}" if last else "never used")
    words.append(f"asked for by {address(asking.source.address)} session 1" if asking else "asked for by nobody")
    words.append({True: "may go yes", False: "may go no", None: "may go unknown"}[may])
    return " ".join(words)


def text(capture):
    """The table in lines."""
    uses = capture.uses
    times = f"from {instant(min(it.first for it in uses))} to {instant(max(it.last for it in uses))}"
    lines = [f"capture segments {sum(it.segments for it in uses)} other 0 {times}"]
    ends = " ".join(f"{address(it.address)} {it.port}" for it in (uses[0].source, uses[0].destination))
    lines.append(f"session 1 {ends} handshake {'seen' if opened(uses) else 'not seen'}")
    for it in uses:
        way = f"{address(it.source.address)} > {address(it.destination.address)}"
        seen = f"first {instant(it.first)} last {instant(it.last)}"
        lines.append(f"  {way} key {it.key_id} {it.outcome} {it.segments} {seen} asks {it.asks}")
    for node in capture.nodes:
        lines += [key_line(node, number, row, uses) for number, row in enumerate(node.rows, 1)]
    return "".join(line + "\n" for line in lines)


def key_object(node, number, row, uses):
    last, asking, may = row_facts(node, row, uses)
    return {
        "node": node.name,
        "row": number,
        "send_id": row.sent,
        "recv_id": row.received,
        "last_used": last and {"at": instant(last.last), "session": 1, "from": address(last.source.address)},
        "asked_for": asking and {"by": address(asking.source.address), "session": 1},
        "may_go": may,
    }


def direction_object(use, uses):
    return {
        "sender": int(use.source != uses[0].source),
        "key_id": use.key_id,
        "outcome": use.outcome,
        "segments": use.segments,
        "first": instant(use.first),
        "last": instant(use.last),
        "asks": use.asks,
    }


def as_json(capture):
    """The table in JSON."""
    uses = capture.uses
    seen = {"first": instant(min(it.first for it in uses)), "last": instant(max(it.last for it in uses))}
    ends = [{"address": address(it.address), "port": it.port} for it in (uses[0].source, uses[0].destination)]
    session = {
        "number": 1,
        "ends": ends,
        "handshake_seen": opened(uses),
        "directions": [direction_object(it, uses) for it in uses],
    }
    table = {
        "packets": {"segments": sum(it.segments for it in uses), **seen, "other": 0, "reasons": []},
        "sessions": [session],
        "keys": [key_object(node, n, row, uses) for node in capture.nodes for n, row in enumerate(node.rows, 1)],
        "amiss": status(capture) == 1,
    }
    return json.dumps(table, separators=(",", ":")) + "\n"


def table(capture):
    return as_json(capture) if capture.is_json else text(capture)


def status(capture):
    return int(any(it.outcome != "verified" for it in capture.seen))
