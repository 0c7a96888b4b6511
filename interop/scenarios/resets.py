"""Aborts by either side, and connections that nobody answers."""
from connection import KILL, TERMINATE
from scenarios.registry import begun, both_roles, one_connection, scenario

ESTABLISHED = 1
RST = 4


def states(session, wanted, text):
    found = session.kernel_states()
    session.expect(found == wanted, f"{text}: the kernel's sockets are in states {found}")


@both_roles()
def abort(session, role):
    at = begun(session, role)
    if at:
        at.signal(TERMINATE)
        at.kernel_is_broken()
        at.nc_ends(1)
        states(session, [], "after ao-nc's RST")


@both_roles()
def abort_with_data_lost(session, role):
    """Data in front of the RST is lost, so the RST's number isn't the one that the kernel expects, and the kernel challenges it
    (RFC 5961, section 3.2). ao-nc has ended, and nothing answers the challenge."""
    at = begun(session, role, "--weather", "out:data2-99:drop")
    if at:
        session.guest.write(at.nc, bytes(500))
        session.wait(0.5)
        at.signal(TERMINATE)
        at.nc_ends(1)
        session.wait(1)
        session.expect(session.sent_by("nc", lambda it: it.flags & RST), "ao-nc sent a RST")
        states(session, [ESTABLISHED], "the kernel challenged the RST and stays")


@both_roles()
def abort_with_the_reset_lost(session, role):
    """There is one RST, and it is lost: the kernel stays until its own timeout."""
    at = begun(session, role, "--weather", "out:rst:drop")
    if at:
        at.signal(TERMINATE)
        at.nc_ends(1)
        session.wait(1)
        states(session, [ESTABLISHED], "the RST is lost")


@scenario()
def abort_in_syn_sent(session):
    """ao-nc gives up before the kernel's SYN with ACK comes: nothing is sent (RFC 9293, section 3.10.5)."""
    at = one_connection(session)
    at.start("nc", "--weather", "in:syn1-99:drop")
    session.wait(1)
    at.signal(TERMINATE)
    at.nc_ends(1)
    session.expect(not at.opened, "no connection is opened")
    session.expect(not session.sent_by("nc", lambda it: it.flags & RST), "ao-nc sent no RST")


@scenario()
def abort_in_syn_received(session):
    """What follows the kernel's SYN is lost, and ao-nc aborts in SYN-RECEIVED."""
    at = one_connection(session)
    if at.begin("kernel", "--weather", "in:bare1-99:drop,in:data1-99:drop"):
        session.expect(session.pump(lambda: at.phases()[-1:] == ["SYN-RECEIVED"], 5), f"ao-nc is in SYN-RECEIVED ({at.phases()})")
        at.signal(TERMINATE)
        at.kernel_is_broken()
        at.nc_ends(1)
        states(session, [], "after ao-nc's RST")


@both_roles()
def reset(session, role):
    at = begun(session, role)
    if at:
        session.guest.ask(f"reset {at.kernel}")
        at.nc_ends(1)


@both_roles()
def reset_with_bytes_unread(session, role):
    """The kernel's socket is closed while bytes wait to be read: a RST goes (RFC 2525, section 2.17)."""
    at = begun(session, role)
    if at:
        session.guest.ask(f"read {at.kernel} 0")
        session.guest.write(at.nc, bytes(3000))
        session.wait(0.7)
        session.guest.ask(f"close {at.kernel}")
        at.nc_ends(1)
        session.expect(session.sent_by("kernel", lambda it: it.flags & RST), "the kernel sent a RST")


@both_roles(amiss=("refused no-ao",))
def reset_behind_lost_data(session, role):
    """The kernel's last data is lost and then it resets: the RST's number is past the expected one, and ao-nc challenges it
    (RFC 5961, section 3.2). The kernel has no socket of the connection any more, so no key, and nothing answers; ao-nc stays until it
    is aborted."""
    at = begun(session, role, "--weather", "in:data2-99:drop")
    if at:
        session.guest.write(at.kernel, bytes(500))
        session.wait(0.1)
        before = len(session.sent_by("nc"))
        session.guest.ask(f"reset {at.kernel}")
        session.wait(1.5)
        session.expect(session.sent_by("kernel", lambda it: it.flags & RST), "the kernel sent a RST")
        session.expect(len(session.sent_by("nc")) > before, "ao-nc challenges it")
        session.note(f"ao-nc's status then: {at.status}; refused {at.refusals()}")
        if at.status is None:
            at.signal(TERMINATE)
        at.nc_ends(1)
        states(session, [], "the kernel's socket is gone")


@both_roles()
def kernel_writes_to_none(session, role):
    """ao-nc vanishes, and another one on its device knows nothing of the connection: it answers nothing."""
    at = begun(session, role)
    if at:
        at.signal(KILL)
        at.nc_ends(128 + KILL)
        other = session.connection(at.keys, nc_port=40000)
        other.listen_nc()
        before = len(session.sent_by("nc"))
        session.guest.write(at.kernel, bytes(100))
        session.wait(4)
        session.expect(len(session.sent_by("nc")) == before, "nothing is answered")
        states(session, [ESTABLISHED], "the kernel repeats its data until its own timeout")
        other.signal(TERMINATE)


@scenario()
def nobody_listens_at_nc(session):
    """The kernel connects to a pair for which ao-nc doesn't listen: nothing is answered."""
    at = one_connection(session)
    other = session.connection(at.keys, nc_port=40000)
    other.listen_nc()
    at.kernel_connects()
    session.expect(not session.pump(lambda: at.opened, 5), "no connection is opened")
    session.expect(not session.sent_by("nc"), "nothing is answered")
    other.signal(TERMINATE)
    other.nc_ends(1)


@scenario(amiss=("refused no-ao",))
def nobody_listens_at_kernel(session):
    """Without a socket the kernel has no key, and answers nothing that could pass (RFC 5925, section 7.7)."""
    at = one_connection(session)
    at.start_nc()
    session.wait(4)
    session.expect(at.status is None and not at.opened, f"ao-nc goes on asking ({at.phases()}, refused {at.refusals()})")
    syns = session.sent_by("nc", lambda it: it.flags & 2)
    session.expect(len(syns) >= 2, f"its SYN goes again ({len(syns)})")
    at.signal(TERMINATE)
    at.nc_ends(1)
