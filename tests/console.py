"""Checks of the console: when replies are put out, and the status where standard output takes nothing."""
import os
import subprocess

from loopback import is_ready, request
from outcomes import Skipped, outcome
from stores import Store, reply

SECONDS = 60
WRITE_FAULT = 5
FULL = "/dev/full"
NETWORK = "net-add,metro,,,,"
MAP = request("/maps/metro")
# More replies than the program gathers before it puts them out.
MANY = 1000


def fault_of_waiting(program, folder):
    """Says where a client that waits for each reply before it asks again has none, or gives None."""
    store = Store(program, folder)
    store.begin(NETWORK)
    with store.pipe() as process:
        try:
            for asked in range(1, 4):
                process.stdin.write(MAP)
                process.stdin.flush()
                if not is_ready(process.stdout, SECONDS):
                    return f"reply {asked} didn't come before more input"
                status, _ = reply(process.stdout)
                if status != b"HTTP/1.1 200 OK":
                    return f"reply {asked} is {status!r}"
        finally:
            process.kill()
    return None


def fault_of_full(program, folder):
    """Says which run ends with another status where nothing can be written, or gives None."""
    if not os.path.exists(FULL):
        raise Skipped(f"there is no {FULL}")
    store = Store(program, folder)
    store.begin(NETWORK)
    runs = [("--version", b""), ("show x metro", b""), ("pipe x", MAP), ("pipe x", MAP * MANY), ("pipe", b"")]
    for words, given in runs:
        with open(FULL, "wb") as full:
            ended = subprocess.run([program, *words.split()], cwd=folder, input=given, stdout=full, timeout=SECONDS)
        if ended.returncode != WRITE_FAULT:
            return f"{words} with {len(given)} bytes of input ended with {ended.returncode}"
    return None


def checks(program):
    """Yields each check's name, and what comes of it."""
    yield "a reply before more input", outcome(fault_of_waiting, program)
    yield "an output that takes nothing", outcome(fault_of_full, program)
