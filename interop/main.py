"""main.py PORTS FOLDER [--profiles P,..] [--long] [SCENARIO ..]: runs the scenarios, one at a time on each of the guest's ports, which
commas separate, and writes captures, key files and results into FOLDER."""
import argparse
import os
import queue
import sys
import threading
import time
import traceback

import scenarios
from guest import Guest
from key_table import Profile
from session import Session

PROFILES = "v4-sha1-opt,v6-cmac-noopt,v4-sha256-opt,v6-sha256-noopt,v4-cmac-opt,v6-sha1-noopt"


def run(guest, folder, name, profile):
    """One scenario under a profile: whether all was as it should be, and what is to be told of it."""
    begun = time.monotonic()
    what = scenarios.ALL[name]
    session = Session(guest, profile, f"{name}.{profile.name}")
    try:
        session.set_up(what.connections, what.mtu, what.values)
        what(session)
    except Exception as error:  # told as a failure of this scenario
        session.expect(False, f"{type(error).__name__} {error}")
        session.note(traceback.format_exc())
    session.finish(folder)
    head = f"{'PASS' if session.is_right else 'FAIL'} {session.name}: packets {session.packets}, {time.monotonic() - begun:.1f} s"
    return session.is_right, head, "".join(f"    {line}\n" for line in session.lines)


def work(guest, folder, jobs, results, lock):
    """The jobs that are left, one after the other."""
    while True:
        try:
            name, profile = jobs.get_nowait()
        except queue.Empty:
            return
        is_right, head, lines = run(guest, folder, name, Profile(profile))
        with lock:
            results.append(is_right)
            print(head + ("" if is_right else "\n" + lines.rstrip()), flush=True)
            with open(f"{folder}/results.txt", "a") as file:
                file.write(f"{head}\n{lines}")


def main():
    words = argparse.ArgumentParser(description=__doc__)
    words.add_argument("ports")
    words.add_argument("folder")
    words.add_argument("--profiles", default=PROFILES)
    words.add_argument("--long", action="store_true", help="the session of many minutes too")
    words.add_argument("names", nargs="*")
    given = words.parse_intermixed_args()
    os.makedirs(given.folder, exist_ok=True)
    names = given.names or [name for name, what in scenarios.ALL.items() if given.long or what.only != "long"]
    jobs, results, lock = queue.Queue(), [], threading.Lock()
    for profile in given.profiles.split(","):
        for name in names:
            jobs.put((name, profile))
    count = jobs.qsize()
    guests = [Guest(port) for port in given.ports.split(",")]
    workers = [threading.Thread(target=work, args=(guest, given.folder, jobs, results, lock), daemon=True) for guest in guests]
    for worker in workers:
        worker.start()
    for worker in workers:
        worker.join()
    print(f"passed {sum(results)} failed {count - sum(results)}")  # what a guest that went left is failed too
    return 0 if sum(results) == count else 1


sys.exit(main())
