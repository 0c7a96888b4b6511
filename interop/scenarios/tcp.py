"""What else TCP may send: options, ECN, urgent bytes, keep-alives; and segments that somebody forged."""
import packets
from scenarios.registry import begun, both_roles, one_connection

ESTABLISHED = 1
SOL_SOCKET, SOL_IP, SOL_TCP, SOL_IPV6 = 1, 0, 6, 41


def plainly(session, role):
    at = one_connection(session)
    if at.begin(role):
        for count in (5, 1000, 20000):
            at.exchange(count, count)
        at.close("kernel")
    return session.sent_by("kernel", lambda it: it.flags & packets.SYN)


@both_roles(values=("ipv4/tcp_sack=0",))
def timestamps_on(session, role):
    """Without SACK the kernel has room to offer timestamps beside TCP-AO. ao-nc offers none, so a SYN with ACK has none."""
    syns = plainly(session, role)
    offered = any(kind == 8 for kind, _ in syns[0].options) if syns else None
    session.expect(offered == (role == "kernel"), f"the kernel's SYN has timestamps: {offered}")


@both_roles(values=("ipv4/tcp_ecn=1",))
def ecn_asked(session, role):
    """The kernel's SYN asks for ECN (RFC 3168, section 6.1.1); ao-nc doesn't know of it."""
    syns = plainly(session, role)
    asked = bool(syns) and syns[0].flags & (packets.ECE | packets.CWR) != 0
    session.expect(asked == (role == "kernel"), f"the kernel asks for ECN: {asked}")


@both_roles(values=("ipv4/tcp_ecn=3",))
def accurate_ecn_asked(session, role):
    """The same for accurate ECN, which uses a bit more of the header."""
    plainly(session, role)


@both_roles()
def urgent_byte(session, role):
    """A byte that the kernel sends as urgent stands in the stream."""
    at = begun(session, role)
    if at:
        session.guest.ask(f"urgent {at.kernel} a")
        at.kernel_given += b"a"
        session.pump(at.is_through, 10)
        at.compare("an urgent byte")
        session.expect(session.sent_by("kernel", lambda it: it.flags & packets.URG), "the kernel sent URG")
        at.exchange(50, 50)
        at.close("nc")


@both_roles()
def keep_alive(session, role):
    """The kernel's probes have the number below the next one; ao-nc answers each."""
    at = begun(session, role)
    if at:
        for option, value in ((4, 1), (5, 1), (6, 3)):  # TCP_KEEPIDLE, TCP_KEEPINTVL, TCP_KEEPCNT
            at.set(SOL_TCP, option, value)
        before = len(session.sent_by("nc"))
        at.set(SOL_SOCKET, 9, 1)
        session.wait(6)
        answers = len(session.sent_by("nc")) - before
        session.expect(answers >= 2, f"ao-nc answers ({answers})")
        session.expect(session.kernel_states() == [ESTABLISHED], f"the connection lives ({session.kernel_states()})")
        at.exchange(1000, 1000)
        at.close("nc")


@both_roles(amiss=("bad extension-header",))
def ip_options(session, role):
    """The kernel's datagrams have IPv4 options, which are passed over, or over IPv6 an extension header, which isn't read: then
    no connection comes about."""
    at = one_connection(session)
    is_four = session.profile.family == 4
    option = (SOL_IP, 4, bytes([1, 1, 1, 0])) if is_four else (SOL_IPV6, 59, bytes([0, 0, 1, 4, 0, 0, 0, 0]))
    at.kernel_socket()
    at.bind()
    at.set(*option)
    if role == "nc":
        at.ask(f"listen {at.kernel}")
        at.listener = at.kernel
        at.start_nc()
    else:
        at.listen_nc()
        at.dial()
    opened = session.pump(lambda: at.opened, 20 if is_four else 4)
    if session.expect(bool(opened) == is_four or role == "nc", f"a connection is opened: {bool(opened)}") and is_four:
        if role == "nc":
            at.set(*option)
        at.exchange(1000, 1000)
        at.exchange(20000, 20000)
        at.close("kernel")
        longer = session.sent_by("kernel", lambda it: it.packet[0] == 0x46)
        session.expect(longer, f"datagrams of the kernel have options ({len(longer)})")


def place_of_ao(segment):
    """Where in its TCP header the option of TCP-AO stands."""
    at = 20
    for kind, body in segment.options:
        if kind == 29:
            return at
        at += 1 if kind == 1 else 2 + len(body)
    return None


@both_roles(amiss=("refused bad-mac", "refused no-tuple"))
def forged_both_ways(session, role):
    """Copies of the last segments with data, with another number, PSH flag, window, KeyID, MAC or last byte, and a right checksum:
    each is refused, and nothing is read of it."""
    at = begun(session, role)
    if not at:
        return
    with_data = {who: session.sent_by(who, lambda it: it.length > 0)[-1] for who in ("nc", "kernel")}
    before, refused = session.counters(), len(at.refusals())
    for who, where in (("nc", "kernel"), ("kernel", "t0")):
        ao = place_of_ao(with_data[who])
        for place, mask in ((7, 1), (13, packets.PSH), (15, 1), (ao + 2, 3), (ao + 4, 1), (-1, 1)):
            session.put(where, packets.altered(with_data[who].packet, place, mask))
    session.wait(1)
    after = session.counters()
    bad = sum(after.get(name, 0) - before.get(name, 0) for name in ("TCPAOBad", "TCPAOKeyNotFound"))
    session.expect(bad == 6, f"the kernel drops six ({bad})")
    session.expect(len(at.refusals()) - refused == 6, f"ao-nc refuses six ({at.refusals()})")
    at.compare("nothing is read of forged segments")
    at.exchange(1000, 1000)
    at.close("nc")
