"""The session of many minutes, which runs where --long or its name asks for it."""
import os
import time

from scenarios.registry import one_connection, scenario
from scenarios.rollover import four_rows

MEGABYTE = 1_000_000


@scenario(only="long")
def hundred_megabytes(session):
    """100 MB both ways over a way that loses one in a hundred, with three rollovers. INTEROP_MEGABYTES and INTEROP_SECONDS in the
    environment take another number, and end the giving after so long."""
    total = int(os.environ.get("INTEROP_MEGABYTES", 100)) * MEGABYTE
    seconds = int(os.environ.get("INTEROP_SECONDS", 3000))
    at = one_connection(session, four_rows(session))
    if not at.begin("nc", "--lose", 1, "--seed", 1):
        return
    begun = time.monotonic()
    while time.monotonic() < begun + seconds and (len(at.given) < total or len(at.kernel_given) < total):
        if len(at.given) < total and len(at.given) - len(at.kernel_taken) < 2 * MEGABYTE:
            at.give(MEGABYTE // 4)
        if len(at.kernel_given) < total and len(at.kernel_given) - len(at.taken) < 2 * MEGABYTE:
            at.kernel_gives(MEGABYTE // 4)
        session.wait(0.2)
    session.note(f"given {len(at.given)} and {len(at.kernel_given)} bytes in {time.monotonic() - begun:.0f} s")
    session.pump(at.is_through, 600)
    at.compare(f"both ways in {time.monotonic() - begun:.0f} s, packets {session.packets}")
    nc, kernel = at.last_ids()
    session.expect(nc[0] == 8 and kernel[0] == 68, f"the fourth key is in use ({nc}, {kernel})")
    at.close("nc")
