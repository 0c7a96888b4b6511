"""Datagrams that are lost, come twice or come late."""
from scenarios.registry import both_roles, one_connection


@both_roles()
def loss(session, role):
    at = one_connection(session)
    if at.begin(role, "--lose", 5, "--seed", 7):
        at.exchange(40000, 40000, 180)
        at.close(role)


@both_roles()
def heavy_loss(session, role):
    at = one_connection(session)
    if at.begin(role, "--lose", 20, "--seed", 3, seconds=120):
        at.exchange(5000, 5000, 240)


def under(session, role, weather, counts=((5, 5), (1000, 1000)), seconds=120):
    """Under this weather the connection opens, all bytes come through, and it closes."""
    at = one_connection(session)
    if at.begin(role, "--weather", weather):
        for count, back in counts:
            at.exchange(count, back, seconds)
        at.close("nc")


@both_roles()
def lost_syn(session, role):
    under(session, role, "out:syn:drop" if role == "nc" else "in:syn:drop")


@both_roles(amiss=("refused no-context",))
def lost_syn_ack(session, role):
    """Where ao-nc's is lost, the kernel's SYN may come again before ao-nc's timer ends: it is answered by an ACK, whose numbers a reader
    of the capture, which has no SYN with ACK yet, can't know."""
    under(session, role, "in:syn:drop" if role == "nc" else "out:syn:drop")


@both_roles()
def lost_third_segment(session, role):
    """The last segment of the handshake is lost; of the kernel's also its first data."""
    under(session, role, "out:bare:drop" if role == "nc" else "in:2-3:drop")


@both_roles()
def lost_data(session, role):
    """Each fifth segment with data, both ways."""
    under(session, role, "out:data%5:drop,in:data%5:drop", ((1000, 1000), (20000, 20000)), 180)


@both_roles()
def lost_any(session, role):
    """Each fourth segment of any kind, both ways."""
    under(session, role, "out:%4:drop,in:%4:drop", ((5, 5), (10000, 10000)), 240)


@both_roles()
def reorder(session, role):
    """Each third segment with data comes behind the next, both ways."""
    under(session, role, "out:data%3:hold,in:data%3:hold", ((1000, 1000), (20000, 20000)))


@both_roles()
def duplicates(session, role):
    """Each second segment comes twice, both ways."""
    under(session, role, "out:%2:dup,in:%2:dup", ((1000, 1000), (20000, 20000)))
