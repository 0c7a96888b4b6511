"""The ends of a connection: FINs, lost ones too."""
from scenarios.registry import begun, both_roles

TIME_WAIT = 6
TCP, CORK = 6, 3


@both_roles()
def close_both(session, role):
    at = begun(session, role)
    if at:
        at.shut_nc()
        at.shut_kernel()
        at.kernel_reads_end()
        at.nc_ends(0)


@both_roles()
def both_fins_cross(session, role):
    """The FINs are under way at the same time: the kernel's is lost, until ao-nc has sent its own."""
    at = begun(session, role, "--weather", "in:fin:drop")
    if at:
        at.shut_kernel()
        session.wait(0.05)
        at.shut_nc()
        at.kernel_reads_end()
        at.nc_ends(0)




@both_roles()
def close_by_nc_first(session, role):
    """The kernel still writes into the half-closed connection."""
    at = begun(session, role)
    if at:
        at.shut_nc()
        at.kernel_reads_end()
        at.exchange(0, 20000)
        at.shut_kernel()
        at.nc_ends(0)
        session.expect(session.kernel_states() == [], f"the kernel's sockets are gone ({session.kernel_states()})")


@both_roles()
def close_by_kernel_first(session, role):
    at = begun(session, role)
    if at:
        at.shut_kernel()
        session.wait(0.5)
        at.exchange(20000, 0)
        at.shut_nc()
        at.kernel_reads_end()
        at.nc_ends(0)
        session.expect(session.kernel_states() == [TIME_WAIT], f"the kernel is in TIME-WAIT ({session.kernel_states()})")


@both_roles()
def fin_with_data(session, role):
    """The kernel's last data and FIN are in one segment, and ao-nc's FIN goes behind data that isn't acknowledged."""
    at = begun(session, role)
    if at:
        at.set(TCP, CORK, 1)
        at.kernel_gives(700)
        at.shut_kernel()
        at.give(30000)
        at.shut_nc()
        at.kernel_reads_end()
        at.nc_ends(0)
        at.compare("700 bytes with a FIN, 30,000 and a FIN")
        session.expect(session.sent_by("kernel", lambda it: it.flags & 1 and it.length > 0), "a FIN of the kernel came with data")


@both_roles()
def lost_fins(session, role):
    """The first FIN of either side is lost."""
    at = begun(session, role, "--weather", "out:fin:drop,in:fin:drop")
    if at:
        at.close(role)


@both_roles()
def lost_last_ack_of_kernel(session, role):
    """The kernel closes first, and is in TIME-WAIT when ao-nc's FIN comes again."""
    at = begun(session, role, "--weather", "in:ending:drop")
    if at:
        at.close("kernel")
        fins = session.sent_by("nc", lambda it: it.flags & 1)
        session.expect(len(fins) >= 2, f"ao-nc sent its FIN again ({len(fins)})")
        session.expect(session.kernel_states() == [TIME_WAIT], f"the kernel is in TIME-WAIT ({session.kernel_states()})")


@both_roles()
def lost_last_ack_of_nc(session, role):
    """ao-nc closes first, and answers from TIME-WAIT the FIN that comes again."""
    at = begun(session, role, "--weather", "out:ending:drop")
    if at:
        at.close("nc")
        fins = session.sent_by("kernel", lambda it: it.flags & 1)
        session.expect(len(fins) >= 2, f"the kernel sent its FIN again ({len(fins)})")
        session.expect(session.kernel_states() == [], f"the kernel's socket is gone ({session.kernel_states()})")
