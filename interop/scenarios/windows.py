"""Readers that stop reading: windows of 0, and how they open again."""
from scenarios.registry import begun, both_roles


@both_roles()
def window_of_nc_closed(session, role):
    """Nobody reads what ao-nc writes: its window closes, the kernel probes, and all comes once it is read."""
    at = begun(session, role)
    if at:
        session.guest.ask(f"read {at.nc} 0")
        at.kernel_gives(300000)
        session.wait(6)
        session.expect(session.sent_by("nc", lambda it: it.window == 0), "ao-nc offers a window of 0")
        session.expect(len(at.taken) < 200000, f"not all is taken ({len(at.taken)})")
        session.guest.ask(f"read {at.nc} 1")
        session.pump(at.is_through, 120)
        at.compare("300,000 bytes through a closed window of ao-nc")
        at.exchange(1000, 1000)
        at.close("nc")


@both_roles()
def window_of_kernel_closed(session, role):
    """Nobody reads at the kernel: its window closes, ao-nc probes, and all comes once it is read."""
    at = begun(session, role)
    if at:
        at.set(1, 8, 30000)  # SO_RCVBUF
        session.guest.ask(f"read {at.kernel} 0")
        at.give(300000)
        session.wait(6)
        session.expect(session.sent_by("kernel", lambda it: it.window == 0), "the kernel offers a window of 0")
        session.guest.ask(f"read {at.kernel} 1")
        session.pump(at.is_through, 180)
        at.compare("300,000 bytes through a closed window of the kernel")
        at.exchange(1000, 1000)
        at.close("nc")
