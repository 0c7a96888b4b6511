"""The scenarios, by theme."""
from scenarios import again, chaos, checksum, close, data, keys, long, loss, resets, rollover, tcp, windows, wraps  # noqa: F401: they make themselves known
from scenarios.registry import ALL  # noqa: F401
