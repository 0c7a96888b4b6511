"""Changes of keys on a live connection: by the clock, by the kernel, by the key file; keys that expire, or that one side lacks."""
from connection import HANGUP
from key_table import Key
from scenarios.registry import begun, both_roles, one_connection

DAY = 86400


def are(session, at, nc, kernel, text):
    """After bytes both ways these are the ids last sent."""
    for _ in range(2):
        at.exchange(300, 300)
    session.wait(0.5)
    found = at.last_ids()
    session.expect(found == (nc, kernel), f"{text}: ao-nc sends {found[0]}, wanted {nc}; the kernel {found[1]}, wanted {kernel}")


def two_rows(session):
    """The first row sends until six seconds from now, and the second from then on. Both accept long enough; the second, which begins
    to accept later, is asked for from three seconds from now on."""
    turn = session.now + 6
    return [Key(0, sending=(session.now - 1000, turn - 1), accepting=(session.now - 1000, turn + 600)),
            Key(1, sending=(turn, turn + DAY), accepting=(turn - 3, turn + DAY))]


@both_roles()
def rollover_by_the_clock(session, role):
    at = one_connection(session, two_rows(session))
    if at.begin(role):
        at.exchange(1000, 1000)
        nc, kernel = at.last_ids()
        session.expect(nc[0] == 5, f"ao-nc sends with KeyID 5 first ({nc})")
        session.wait_until(session.now + 7)
        at.exchange(1000, 1000)
        at.exchange(1000, 1000)
        nc, kernel = at.last_ids()
        session.expect(nc[0] == 6, f"ao-nc sends with KeyID 6 now ({nc})")
        session.expect(kernel[0] == 66, f"the kernel sends with KeyID 66, as it was asked ({kernel})")
        at.close(role)


@both_roles()
def rollover_by_the_kernel(session, role):
    at = begun(session, role, keys=[Key(0), Key(1)])
    if at:
        first, _ = at.last_ids()
        at.choose(66 if first[0] == 5 else 65, 6 if first[0] == 5 else 5)
        at.exchange(1000, 1000)
        at.exchange(1000, 1000)
        nc, kernel = at.last_ids()
        session.expect(nc[0] != first[0], f"ao-nc sends with the key that it was asked for ({first}, then {nc})")
        at.close(role)


@both_roles()
def rollover_under_load(session, role):
    at = one_connection(session, two_rows(session))
    if at.begin(role, "--lose", 2, "--seed", 5):
        for _ in range(12):
            at.give(8000)
            at.kernel_gives(8000)
            session.wait(1)
        session.expect(session.pump(at.is_through, 120), "all is through")
        at.compare("96,000 bytes both ways over the rollover")
        nc, _ = at.last_ids()
        session.expect(nc[0] == 6, f"ao-nc sends with KeyID 6 now ({nc})")
        at.close(role)


@both_roles()
def key_file_read_again(session, role):
    """SIGHUP in the middle: a row more, and then the old one gone."""
    old, new = Key(0), Key(1)
    at = begun(session, role, keys=[old])
    if not at:
        return
    at.kernel_key(new)
    at.keys = [old, new]
    for keys in ([old, new], [new]):
        at.write_keys(keys)
        at.signal(HANGUP)
        session.wait(0.5)
        at.exchange(1000, 1000)
        at.exchange(1000, 1000)
    nc, kernel = at.last_ids()
    session.expect(nc[0] == 6 and kernel[0] == 66, f"both send with the new key ({nc}, {kernel})")
    at.close(role)


@both_roles()
def rollover_there_and_back(session, role):
    """By the clock and by the kernel in turn, and back to the first ids, which a third row has again."""
    first = session.now - 1000
    second, end, third = session.now + 7, session.now + 30, session.now + 34
    at = one_connection(session, [Key(0, (first, end), (first, end + 1)), Key(1, (second, third + DAY), (second, third + DAY)),
                                  Key(0, (third, third + DAY), (third, third + DAY))])
    if not at.begin(role):
        return
    are(session, at, (5, 65), (65, 5), "the first row at both")
    session.wait_until(second)
    are(session, at, (5, 66), (66, 5), "past the second row's beginning ao-nc asks for it, and the kernel sends with it")
    at.choose(-1, 6)
    are(session, at, (6, 66), (66, 6), "the kernel asks for its second key, and ao-nc sends with it")
    at.choose(-1, 5)
    are(session, at, (5, 66), (66, 5), "the kernel asks for its first key again")
    at.choose(65, -1)
    are(session, at, (5, 66), (66, 5), "the kernel sends with its first key, until ao-nc's next segment asks for the second")
    at.choose(-1, 6)
    are(session, at, (6, 66), (66, 6), "the kernel asks for its second key again")
    session.wait_until(third)
    are(session, at, (6, 65), (65, 6), "past the third row's beginning ao-nc asks for the first ids again")
    at.choose(-1, 5)
    are(session, at, (5, 65), (65, 5), "the kernel asks for them too")
    at.close("nc")


def short_rows(session):
    """The first row accepts for 12 seconds from now, and the second row sends and accepts from 6 seconds from now on."""
    first, second, end = session.now - 1000, session.now + 6, session.now + 11
    return [Key(0, (first, end), (first, end + 1)), Key(1, (second, second + DAY), (second, second + DAY))]


def is_stuck_until_nc_sends(session, at):
    """What the kernel sends under the expired row is refused in silence; any segment of ao-nc asks for the row that accepts, and then
    all comes."""
    before = len(at.taken)
    at.kernel_gives(300)
    session.expect(not session.pump(lambda: len(at.taken) > before, 3), "nothing is taken under the expired row")
    session.expect(at.refusals(), f"ao-nc refuses the segments ({at.refusals()[-1:]})")
    at.give(20)
    session.pump(at.is_through, 40)
    at.compare("a segment of ao-nc brings the kernel to the row that accepts")


@both_roles(amiss=("refused expired",))
def expiry(session, role):
    """The first row's sending ends, and ao-nc goes over to the second unasked. Then the kernel goes back to the first, which isn't
    accepted any more."""
    at = begun(session, role, keys=short_rows(session))
    if at:
        session.wait_until(session.now + 7)
        at.exchange(300, 300)
        session.wait_until(session.now + 13)
        at.exchange(300, 300)
        nc, _ = at.last_ids()
        session.expect(nc == (6, 66), f"past its end ao-nc doesn't send with the first row ({nc})")
        session.wait(1)  # a segment of ao-nc that is still under way would ask the kernel for the second
        at.choose(65, -1)
        is_stuck_until_nc_sends(session, at)
        at.close("nc")


@both_roles(amiss=("refused expired",))
def idle_rollover(session, role):
    """Nothing is sent while both rows accept, and the kernel's keys have no lifetimes, so it stays with its first."""
    at = begun(session, role, keys=short_rows(session))
    if at:
        session.wait_until(session.now + 13)
        is_stuck_until_nc_sends(session, at)
        at.close("nc")


@both_roles()
def key_missing_at_the_kernel(session, role):
    """ao-nc asks for a key that the kernel hasn't: both go on with the first."""
    first, second = session.now - 1000, session.now + 4
    at = begun(session, role, keys=[Key(0, (first, first + DAY), (first, first + DAY)),
                                    Key(1, (second, second + DAY), (second, second + DAY), missing=True)])
    if at:
        session.wait_until(second)
        at.exchange(20000, 20000)
        are(session, at, (5, 66), (65, 5), "the kernel can't do what it is asked")
        at.close("nc")


@both_roles()
def key_deleted_at_the_kernel(session, role):
    """After the change of both to the second key the kernel drops the first."""
    first, second = session.now - 1000, session.now + 4
    at = begun(session, role, keys=[Key(0, (first, first + DAY), (first, first + DAY)), Key(1, (second, second + DAY), (second, second + DAY))])
    if at:
        session.wait_until(second)
        at.exchange(300, 300)
        at.choose(-1, 6)
        are(session, at, (6, 66), (66, 6), "both send with the second row")
        peer = session.profile.addresses(at.number)[0]
        at.ask(f"delkey {at.kernel} {peer} 65 5")
        at.exchange(20000, 20000)
        nc, kernel = at.last_ids()
        session.expect(nc[0] == 6 and kernel[0] == 66, f"both send with the second key ({nc}, {kernel})")
        at.close("kernel")


@both_roles()
def mixed_algorithms(session, role):
    """The second row has another algorithm, another MAC length or key size, and the other option flag."""
    other = {"sha1": "sha256", "cmac": "sha1", "sha256": "cmac"}[session.profile.algorithm]
    first, second = session.now - 1000, session.now + 4
    at = begun(session, role, keys=[Key(0, (first, first + DAY), (first, first + DAY)),
                                    Key(1, (second, second + DAY), (second, second + DAY), algorithm=other, covers=not session.profile.options)])
    if at:
        session.wait_until(second)
        at.exchange(3000, 3000)
        at.choose(-1, 6)
        at.exchange(20000, 20000)
        are(session, at, (6, 66), (66, 6), "both send with the second row")
        at.close("nc")


def four_rows(session, seconds=60):
    """Three rollovers, one each minute from now on."""
    turns = [session.now - 1000] + [session.now + seconds * n for n in (1, 2, 3)] + [session.now + DAY]
    return [Key(n, sending=(turns[n], turns[n + 1] - 1), accepting=(turns[n] - 20, turns[n + 1] + 600)) for n in range(4)]
