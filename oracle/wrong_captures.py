"""All captures with a segment that isn't right, in two lists: those of a mistake that `aoscope why` names, and those of another verdict."""
import dataclasses

import mistaken_sessions
import mistakes
import other_verdicts

# Those that stand in examples/, with the names of their folders.
EXAMPLES = {
    "newline-v4-sha1": "scope-why-a-newline-behind-the-key",
    "flag-no-options-v6-cmac": "scope-why-the-other-option-flag",
    "row-with-another-key-v4-sha256": "scope-why-another-row-of-the-sender",
    "lap-not-counted-v6-sha1": "scope-why-a-lap-not-counted",
    "connection-before-v4-cmac": "scope-why-the-numbers-of-an-earlier-connection",
}
OF_MISTAKES = (
    mistakes.of_signing,
    mistakes.of_flags,
    mistakes.of_algorithms,
    mistaken_sessions.of_rows,
    mistaken_sessions.of_laps,
    mistaken_sessions.of_checksums,
    mistaken_sessions.of_connections,
)
OF_VERDICTS = (
    other_verdicts.of_rows,
    other_verdicts.of_ids,
    other_verdicts.of_lengths,
    other_verdicts.of_options,
    other_verdicts.of_connections,
)


def made(makers):
    """The captures of these functions, every second one in frames of Ethernet."""
    captures = [capture for maker in makers for capture in maker()]
    names = [capture.name for capture in captures]
    twice = {name for name in names if names.count(name) > 1}
    if twice:
        raise ValueError(f"two captures have one name: {', '.join(sorted(twice))}")
    return [dataclasses.replace(it, is_framed=bool(n % 2), example=EXAMPLES.get(it.name)) for n, it in enumerate(captures)]


def with_mistakes():
    captures = made(OF_MISTAKES)
    lost = EXAMPLES.keys() - {capture.name for capture in captures}
    if lost:
        raise ValueError(f"an example that no capture is: {', '.join(sorted(lost))}")
    return captures


def with_verdicts():
    return made(OF_VERDICTS)


def write(captures, folder):
    """Writes each capture and its key file into a folder."""
    for capture in captures:
        (folder / f"{capture.name}.pcap").write_bytes(capture.pcap)
        (folder / f"{capture.name}.toml").write_text(capture.keys, encoding="ascii")
