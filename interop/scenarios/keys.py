"""Keys, ids, option flags and MAC lengths: those that differ, and those at the ends of what there is."""
from key_table import Key
from scenarios.registry import both_roles, one_connection


def nothing_comes(session, role, at, keys=None):
    """No connection comes about, and no byte of the application is handed on."""
    at.start(role, keys=keys)
    session.guest.write(at.nc, b"never")
    session.expect(not session.pump(lambda: at.opened, 4), "no connection is opened")
    session.expect(not at.kernel_taken and not at.taken, "no byte is read")


@both_roles(amiss=("refused bad-mac",))
def wrong_key(session, role):
    nothing_comes(session, role, one_connection(session, [Key(0, hex="ff" * 16)]))


@both_roles(amiss=("refused no-tuple",))
def wrong_ids(session, role):
    nothing_comes(session, role, one_connection(session, [Key(0, ids=(9, 9))]))


@both_roles(amiss=("refused bad-mac",))
def wrong_option_flag(session, role):
    nothing_comes(session, role, one_connection(session, [Key(0, options=not session.profile.options)]))


@both_roles(amiss=("refused mac-length",))
def wrong_mac_length(session, role):
    """Each of our algorithms has one length; the kernel takes others too."""
    nothing_comes(session, role, one_connection(session, [Key(0, length=12 if session.profile.algorithm == "sha256" else 16)]))


@both_roles(amiss=("refused no-ao",))
def no_key_at_the_kernel(session, role):
    nothing_comes(session, role, one_connection(session), keys=[])


def one_key(session, role, key):
    at = one_connection(session, [key])
    if at.begin(role):
        at.exchange(5, 5)
        at.exchange(1000, 1000)
        at.close("nc")


@both_roles()
def key_of_one_byte(session, role):
    one_key(session, role, Key(0, master="7a"))


@both_roles()
def key_of_eighty_bytes(session, role):
    """More bytes than this Linux doesn't take."""
    one_key(session, role, Key(0, master=bytes(range(0x30, 0x80)).hex()))


@both_roles()
def ids_0_and_255(session, role):
    one_key(session, role, Key(0, own_ids=(0, 255)))
