"""The scenarios by name. Each is a function of a session; its attributes say how the session is set up."""
from key_table import Key

ALL = {}
ROLES = ("nc", "kernel")


def scenario(connections=1, mtu=1500, values=(), only=None, amiss=()):
    """`values` are NAME=VALUE of the kernel; `amiss` the verdicts that segments of the capture may have beside `pass`: both ends are
    said to have other keys, or one of them uses a key at a wrong time, as the scenario wants it."""
    def known(function):
        ALL[function.__name__.replace("_", "-")] = function
        function.connections, function.mtu, function.values, function.only, function.amiss = connections, mtu, values, only, amiss
        return function
    return known


def both_roles(**how):
    """A scenario for either side that opens the connection: its name is followed by -opened-by-nc or -opened-by-kernel."""
    def known(function):
        for role in ROLES:
            def one(session, role=role):
                function(session, role)
            one.__name__, one.__module__ = f"{function.__name__}_opened_by_{role}", function.__module__
            scenario(**how)(one)
        return function
    return known


def one_connection(session, keys=None):
    return session.connection(keys or [Key(0)])


def begun(session, role, *words, keys=None, **how):
    """A connection that is up and over which a thousand bytes went each way; None where that isn't so."""
    at = one_connection(session, keys)
    return at if at.begin(role, *words, **how) and at.exchange(1000, 1000) else None
