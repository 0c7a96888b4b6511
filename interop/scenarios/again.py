"""Connections between sockets that had one before, ports that nobody knew, and two SYNs that meet."""
from connection import KILL
from scenarios.registry import begun, both_roles, one_connection, scenario

ESTABLISHED, SYN_SENT, TIME_WAIT = 1, 2, 6


def second_works(at, text, seconds=40):
    if at.is_up(text, seconds):
        at.exchange(5, 5)
        at.exchange(1000, 1000)
        at.close("kernel")


def after_one(session, isn):
    """ao-nc opens, with this number, between sockets of which the kernel's is in TIME-WAIT."""
    first = begun(session, "nc", "--isn", 1000000)
    if not first or not first.close("kernel"):
        return None
    session.guest.ask(f"close {first.kernel}")
    session.expect(session.kernel_states() == [TIME_WAIT], f"the kernel is in TIME-WAIT ({session.kernel_states()})")
    second = session.connection(first.keys, like=first)
    second.start_nc("--isn", isn)
    return second


@scenario(amiss=("refused bad-mac", "refused no-context"))
def again_between_the_same_sockets(session):
    """A SYN whose number is below those of the connection before isn't taken in TIME-WAIT (RFC 9293, section 3.6.1)."""
    second = after_one(session, 77)
    if second:
        session.expect(not session.pump(lambda: second.opened, 5), "no second connection is opened")
        session.expect(session.kernel_states() == [TIME_WAIT], f"the kernel is still in TIME-WAIT ({session.kernel_states()})")
        second.signal(KILL)


@scenario()
def again_with_a_greater_number(session):
    second = after_one(session, 9000000)
    if second:
        second_works(second, "a second connection")


@scenario(amiss=("refused bad-mac", "refused no-context"))
def again_in_time_wait_of_nc(session):
    """The kernel connects again while ao-nc is in TIME-WAIT: its SYN is answered under the old keys. Once ao-nc has ended, another
    takes the SYN that comes again."""
    first = begun(session, "kernel")
    if not first:
        return
    first.shut_nc()
    first.kernel_reads_end()
    first.shut_kernel()
    session.pump(lambda: "TIME-WAIT" in first.phases(), 10)
    session.guest.ask(f"close {first.kernel}")
    second = session.connection(first.keys)
    second.kernel_connects()
    session.expect(not session.pump(lambda: second.opened, 1), "no second connection is opened in TIME-WAIT")
    first.nc_ends(0)
    second.listen_nc()
    second_works(second, "a second connection after TIME-WAIT")


@scenario(amiss=("refused bad-mac", "refused no-context", "refused no-ao"))
def restart_of_nc(session):
    """ao-nc is killed and opens again between the same sockets: the kernel challenges the SYN under the old keys (RFC 5961, section
    4.2), and no RST could be signed (RFC 5925, section 7.7). From another port it works."""
    first = begun(session, "nc")
    if not first:
        return
    first.signal(KILL)
    first.nc_ends(128 + KILL)
    second = session.connection(first.keys, like=first)
    second.start_nc()
    session.expect(not session.pump(lambda: second.opened, 5), "no connection is opened")
    session.expect(session.kernel_states() == [ESTABLISHED], f"the old connection stays at the kernel ({session.kernel_states()})")
    second.signal(KILL)
    second.nc_ends(128 + KILL)
    second.opened = True  # a SYN of the third is for the third
    third = session.connection(first.keys, nc_port=50001, like=first)
    third.start_nc()
    second_works(third, "from another port a connection is opened")


@scenario(amiss=("refused bad-mac", "refused no-context"))
def restart_of_kernel(session):
    """The kernel's socket vanishes, and the kernel connects again between the same sockets: ao-nc acknowledges under the old keys,
    which the kernel has lost. Once ao-nc is ended, another takes the SYN that comes again."""
    first = begun(session, "kernel")
    if not first:
        return
    session.guest.ask(f"vanish {first.kernel}")
    second = session.connection(first.keys)
    second.kernel_connects()
    session.expect(not session.pump(lambda: second.opened, 4), "no connection is opened")
    session.expect(first.status is None, "ao-nc's old connection stays")
    first.signal(KILL)
    first.nc_ends(128 + KILL)
    second.listen_nc()
    second_works(second, "once ao-nc listens anew, the next SYN connects")


@scenario()
def ephemeral_port(session):
    """The kernel connects from a port of its own choice. An ao-nc listens for one pair, so nothing is answered until one listens for
    the pair of that port."""
    at = one_connection(session)
    other = session.connection(at.keys, kernel_port=1)
    other.listen_nc()
    at.kernel_socket()
    at.dial()
    session.expect(not session.pump(lambda: at.opened, 2), "no connection is opened for a pair that isn't listened for")
    at.kernel_port = session.kernel_port_of(SYN_SENT)
    other.signal(KILL)
    other.nc_ends(128 + KILL)
    at.listen_nc()
    second_works(at, f"connected from port {at.kernel_port}")


@scenario()
def simultaneous_open(session):
    """Both open: ao-nc's first SYN is lost, and the kernel's arrives in SYN-SENT, where it isn't expected; ao-nc's next SYN arrives in
    SYN-SENT of the kernel, whose SYN with ACK it takes."""
    at = one_connection(session)
    at.kernel_socket()
    at.bind()
    at.start_nc("--weather", "out:syn:drop")
    session.pump(at.phases, 30)
    at.dial()
    if at.is_up("SYN meets SYN"):
        at.exchange(5, 5)
        at.exchange(1000, 1000)
        at.close("kernel")
