"""Everything at once, by ten seeds: loss, copies and late segments both ways, pieces of any size, readers that stop for a while, and
changes of keys by either side."""
import random
import time

from key_table import Key
from scenarios.registry import one_connection, scenario

DAY, LAP, COUNT = 86400, 2**32, 40000
WEATHER = "out:~5:drop,in:~5:drop,out:~3:dup,in:~3:dup,out:~7:hold,in:~7:hold"


def rows(session):
    """Both accept all the time; the second row sends from five seconds from now on."""
    first = session.now - 1000
    return [Key(0, (first, first + DAY), (first, first + DAY)), Key(1, (session.now + 5, first + DAY), (first, first + DAY))]


def step(session, at, dice):
    """One of what users of both ends may do."""
    size, choice = dice.choice((1, 7, 500, 1460, 3000, 12000)), dice.random()
    if choice < 0.35 and len(at.given) < COUNT:
        at.give(min(size, COUNT - len(at.given)))
    elif choice < 0.7 and len(at.kernel_given) < COUNT:
        at.kernel_gives(min(size, COUNT - len(at.kernel_given)))
    elif choice < 0.8:
        at.choose(-1, dice.choice((5, 6)))
    elif choice < 0.85:
        at.choose(dice.choice((65, 66)), -1)
    elif choice < 0.95:
        session.guest.ask(f"read {dice.choice((at.nc, at.kernel))} {dice.choice((0, 1))}")


def chaos(session, seed):
    dice = random.Random(f"{seed} {session.name}")
    role = dice.choice(("nc", "kernel"))
    isn = dice.choice((1000000, LAP - 2, LAP - dice.randrange(3, 30000)))
    kernel_isn = LAP - dice.randrange(2, 30000) if role == "kernel" and dice.random() < 0.5 else None
    session.note(f"opened by {role}, ISN {isn}, the kernel's {kernel_isn}")
    at = one_connection(session, rows(session))
    if not at.begin(role, "--weather", WEATHER, "--seed", seed, "--isn", isn, kernel_isn=kernel_isn, seconds=120):
        return
    end = time.monotonic() + 120
    while time.monotonic() < end and (len(at.given) < COUNT or len(at.kernel_given) < COUNT):
        step(session, at, dice)
        session.wait(0.05)
    for slot in (at.nc, at.kernel):
        session.guest.ask(f"read {slot} 1")
    session.pump(at.is_through, 240)
    at.compare("through chaos")
    at.shut_nc()
    at.shut_kernel()
    at.kernel_reads_end(120)
    at.nc_ends(0, 120)


def make_known():
    for seed in range(1, 11):
        def one(session, seed=seed):
            chaos(session, seed)
        one.__name__ = f"chaos_{seed}"
        scenario(amiss=("refused no-context",))(one)  # as where a SYN with ACK is lost


make_known()
