"""Rows and nodes of a key file, written as docs/FORMATS.md (Key files) has them."""
import dataclasses
import ipaddress
import time

from signing import ALGORITHMS


@dataclasses.dataclass(frozen=True)
class Row:
    """A row at one node: the KeyIDs that it receives and sends. Lifetimes are pairs of seconds since 1970, or None: always."""

    name: str
    algorithm: str
    master: bytes
    covers_options: bool
    received: int
    sent: int
    peers: tuple[bytes, ...]
    direction: str = "both"
    sending: tuple[int, int] | None = None
    accepting: tuple[int, int] | None = None
    local_port: int | None = None
    peer_port: int | None = None

    def mirrored(self, own):
        """The row at the peer, which knows the node by this address."""
        return dataclasses.replace(self, received=self.sent, sent=self.received, peers=(own,))

    def but(self, **changes):
        """The same, but for these fields."""
        return dataclasses.replace(self, **changes)


@dataclasses.dataclass(frozen=True)
class Node:
    name: str
    address: bytes
    rows: tuple[Row, ...]

    def receiving(self, key_id):
        """The number of the row that receives this KeyID, from 1 on, and the row."""
        receives = ("in", "both")
        return next((n, row) for n, row in enumerate(self.rows, 1) if row.received == key_id and row.direction in receives)


def stamp(seconds):
    return time.strftime("%Y%m%d%H%M%SZ", time.gmtime(seconds))


def address_text(address):
    return str(ipaddress.IPv4Address(address)) if len(address) == 4 else address.hex()


def row_lines(row):
    algorithm = ALGORITHMS[row.algorithm]
    peers = '", "'.join(address_text(peer) for peer in row.peers)
    columns = {
        "AdminKeyName": row.name,
        "LocalKeyName": row.received,
        "PeerKeyName": row.sent,
        "Protocol": "TCP-AO",
        "ProtocolSpecificInfo": "options" if row.covers_options else "no-options",
        "KDF": algorithm.kdf,
        "AlgID": algorithm.name,
        "Key": row.master.hex(),
        "Direction": row.direction,
        "LocalPort": row.local_port,
        "PeerPort": row.peer_port,
    }
    for word, lifetime in (("Send", row.sending), ("Accept", row.accepting)):
        if lifetime:
            columns |= {f"{word}LifetimeStart": stamp(lifetime[0]), f"{word}LifetimeEnd": stamp(lifetime[1])}
    written = [f'{name} = "{value}"' for name, value in columns.items() if value is not None]
    return ["[[node.key]]", f'Peers = ["{peers}"]', *written]


def key_file(nodes):
    """The text of a key file."""
    lines = []
    for node in nodes:
        lines += ["[[node]]", f'name = "{node.name}"', f'address = "{address_text(node.address)}"']
        for row in node.rows:
            lines += row_lines(row)
    return "".join(line + "\n" for line in lines)
