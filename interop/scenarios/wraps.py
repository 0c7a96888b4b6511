"""Numbers past 2^32, of either side."""
from connection import TERMINATE
from scenarios.registry import both_roles, one_connection, scenario

LAP = 2**32
LOSS = ("--weather", "out:data%4:drop,in:data%4:drop")


def across(session, role, isn, *words, kernel_isn=None):
    at = one_connection(session)
    if at.begin(role, "--isn", isn, *words, kernel_isn=kernel_isn):
        at.exchange(5, 5)
        at.exchange(1000, 1000)
        at.exchange(20000, 5, 180)
        at.exchange(5, 20000, 180)
        at.close("nc")


@both_roles()
def past_the_last_number(session, role):
    across(session, role, LAP - 8000)


@both_roles()
def past_the_last_number_with_loss(session, role):
    across(session, role, LAP - 8000, *LOSS)


@both_roles()
def isn_two_before_the_last(session, role):
    across(session, role, LAP - 2)


@scenario()
def numbers_of_the_kernel_past_the_last(session):
    across(session, "kernel", 1000000, kernel_isn=LAP - 8000)


@scenario()
def both_numbers_past_the_last_with_loss(session):
    across(session, "kernel", LAP - 5000, *LOSS, kernel_isn=LAP - 8000)


@scenario()
def last_isn_of_the_kernel(session):
    across(session, "kernel", 1000000, kernel_isn=LAP - 1)


def fin_at(session, role, number):
    at = one_connection(session)
    if at.begin(role, "--isn", number - 1001):
        at.exchange(1000, 1000)
        at.shut_nc()
        at.kernel_reads_end()
        at.exchange(0, 100)
        at.shut_kernel()
        at.nc_ends(0)
        fins = session.sent_by("nc", lambda it: it.flags & 1)
        session.expect(fins and fins[0].number == number % LAP, f"ao-nc's FIN has number {number % LAP}")


@both_roles()
def fin_at_the_last_number(session, role):
    fin_at(session, role, LAP - 1)


@both_roles()
def fin_past_the_last_number(session, role):
    fin_at(session, role, LAP)


@both_roles()
def reset_past_the_last_number(session, role):
    at = one_connection(session)
    if at.begin(role, "--isn", LAP - 1001):
        at.exchange(1000, 1000)
        at.signal(TERMINATE)
        at.kernel_is_broken()
        at.nc_ends(1)
        resets = session.sent_by("nc", lambda it: it.flags & 4)
        session.expect(resets and resets[0].number == 0, "ao-nc's RST has number 0")


@both_roles()
def last_isn(session, role):
    """ao-nc's ISN is 2^32 - 1, so its first byte has number 2^32. RFC 5925, section 6.2, has extension 1 for it; Linux counts 0, and
    refuses each segment from there on. A kernel that counts right reads all."""
    at = one_connection(session)
    at.start(role, "--isn", LAP - 1)
    session.pump(lambda: at.opened, 10)
    session.note(f"opened {bool(at.opened)}")
    at.give(100)
    session.pump(at.is_through, 5)
    bad = session.counters().get("TCPAOBad", 0)
    session.expect(at.kernel_taken == at.given or (not at.kernel_taken and bad > 0),
                   f"the kernel read {len(at.kernel_taken)} of 100 bytes, and found {bad} segments bad")
    at.signal(TERMINATE)
    at.nc_ends(1)
