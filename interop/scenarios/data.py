"""Bytes both ways."""
from key_table import Key
from scenarios.registry import both_roles, one_connection, scenario


@both_roles()
def data(session, role):
    at = one_connection(session)
    if at.begin(role):
        for count, back in ((5, 1), (1, 1000), (20000, 5), (1460, 20000)):
            at.exchange(count, back)
        at.close(role)


@both_roles()
def volume(session, role):
    at = one_connection(session)
    if at.begin(role):
        at.exchange(300000, 300000, 180)
        at.close("kernel")


@both_roles(mtu=1280)
def small_mtu(session, role):
    at = one_connection(session)
    if at.begin(role):
        at.exchange(20000, 20000)
        longest = max(len(segment.packet) for segment in session.sent_by("nc"))
        session.expect(longest <= 1280, f"ao-nc's longest datagram has {longest} bytes")
        at.close("nc")


@scenario(connections=20, amiss=("unknown-node",))
def twenty_at_once_opened_by_nc(session):
    twenty(session, "nc")


@scenario(connections=20, amiss=("unknown-node",))
def twenty_at_once_opened_by_kernel(session):
    twenty(session, "kernel")


def twenty(session, role):
    """Twenty devices, each with an ao-nc of its own; the key file beside the capture has the first device's nodes alone."""
    all_of_them = [session.connection([Key(0)], number) for number in range(20)]
    for at in all_of_them:
        at.start(role)
    session.expect(session.pump(lambda: all(at.opened for at in all_of_them), 90), "twenty connections are open")
    for at in all_of_them:
        at.give(5000)
        at.kernel_gives(5000)
    session.pump(lambda: all(at.is_through() for at in all_of_them), 120)
    for at in all_of_them:
        at.compare(f"connection {at.number}")
