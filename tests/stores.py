"""Checks of stores, each through the program as it is run by hand: files that several runs and several programs use."""
import contextlib
import json
import os
import random
import re
import sqlite3
import subprocess
import threading
import time

from loopback import CSV, csv_of, request
from outcomes import need, outcome

SECONDS = 60
FAULT, OUTSIDE, TOO_LARGE = 3, 2, 13
LONGEST_BODY = 4_194_304
# How many imports are taken by programs that are killed.
KILLED_IMPORTS = 200
ROWS = "SELECT n, hex(bytes) FROM alto_row ORDER BY n"
COMMANDS = ("init", "pipe", "serve", "import", "show", "drill", "trim")


class Store:
    """A store in a folder of its own, and the program."""

    def __init__(self, program, folder):
        self.program, self.folder = program, folder

    def run(self, *words, given=b""):
        """Runs the program, and gives its status and its output."""
        ended = subprocess.run(
            [self.program, *words], cwd=self.folder, input=given, stdout=subprocess.PIPE, stderr=subprocess.DEVNULL, timeout=SECONDS
        )
        return ended.returncode, ended.stdout

    def begin(self, *edits):
        """Begins the store `x`, and imports edits into it under the id `i1`, where some are given."""
        self.run("init", "x", "--epoch", "e1", "--window", "8")
        if edits:
            self.take(1, *edits)

    def take(self, number, *edits):
        """Imports edits under an id of this number."""
        return self.run("import", "x", "--id", f"i{number}", "--form", "csv", given=csv_of(edits).encode())

    @contextlib.contextmanager
    def database(self, name):
        """A file of the folder as another program has it open; closed in the end, since the program refuses it until then."""
        with contextlib.closing(sqlite3.connect(f"{self.folder}/{name}")) as database, database:
            yield database

    def pipe(self):
        """Begins a run of `pipe`, whose streams are open."""
        return subprocess.Popen(
            [self.program, "pipe", "x"], cwd=self.folder, stdin=subprocess.PIPE, stdout=subprocess.PIPE, stderr=subprocess.DEVNULL
        )


def post(number, *edits):
    """Gives the bytes of an import of edits, under an id of this number."""
    return request(f"/edits/p{number}", (CSV, csv_of(edits)))


def reply(stream):
    """Gives the status line and the body of the next reply on a stream, or None at its end."""
    head = b""
    while not head.endswith(b"\r\n\r\n"):
        byte = stream.read(1)
        if not byte:
            return None
        head += byte
    length = next(int(line.split(b": ")[1]) for line in head.split(b"\r\n") if line.startswith(b"Content-Length: "))
    return head.split(b"\r\n")[0], stream.read(length)


def prefixes_of(number):
    return f"10.0.{number}.0/24", f"2001:db8:{number:x}::/48"


def edits_of(number):
    """The edits of an import, none of which may be there alone: a PID with a prefix of each family."""
    pid = f"p{number}"
    return [f"pid-add,metro,{pid},,,", *(f"prefix-put,metro,{pid},{prefix},," for prefix in prefixes_of(number))]


def fault_of_map(store, least, most):
    """Says what is wrong with the map after imports of numbers from 1 to some number in a range, which is given besides."""
    status, shown = store.run("show", "x", "metro")
    if status:
        return f"the store doesn't open: status {status}, printed {shown!r}", 0
    groups = json.loads(shown)["network-map"]
    families = {number: [[prefix] for prefix in prefixes_of(number)] for number in range(1, len(groups) + 1)}
    wanted = {f"p{number}": dict(zip(("ipv4", "ipv6"), lists)) for number, lists in families.items()}
    is_good = groups == wanted and least <= len(groups) <= most
    return None if is_good else f"wanted {least} to {most} imports, found {shown!r}", len(groups)


def killed(process, delay, requests):
    """Gives requests to a run of `pipe` that is killed by SIGKILL after a delay, and counts its replies."""
    killer = threading.Timer(delay, process.kill)
    killer.start()
    count = 0
    with contextlib.suppress(BrokenPipeError), process:
        process.stdin.write(b"".join(requests))
        process.stdin.flush()
        while count < len(requests) and reply(process.stdout):
            count += 1
        killer.join()
    return count


def fault_of_kills(store):
    """Says what is wrong with a store whose program is killed at random moments, while it opens the store or takes one of
    200 imports. Each time the store has all that was acknowledged, nothing that wasn't sent, and no part of an import.
    """
    chance, kept, kills = random.Random(7), 0, 0
    store.begin("net-add,metro,,,,")
    begun = time.monotonic()
    store.run("pipe", "x")
    spent = time.monotonic() - begun
    while kept < KILLED_IMPORTS:
        sent = min(kept + chance.randrange(1, 21), KILLED_IMPORTS)
        requests = [post(number, *edits_of(number)) for number in range(kept + 1, sent + 1)]
        acknowledged = kept + killed(store.pipe(), chance.uniform(0, 2) * spent, requests)
        kills += 1
        fault, kept = fault_of_map(store, acknowledged, sent)
        if fault:
            return f"after kill {kills}: {fault}"
    again = b"".join(post(number, *edits_of(number)) for number in range(1, KILLED_IMPORTS + 1))
    _, replies = store.run("pipe", "x", given=again)
    numbers = [int(number) for number in re.findall(rb'"n":([0-9]+)', replies)]
    return None if numbers == [*range(2, KILLED_IMPORTS + 2)] else f"the imports, sent again, have the numbers {numbers}"


def fault_of_moments(store):
    """Says what is wrong with the moments of two imports on one connection with a second between them."""
    store.begin()
    with store.pipe() as process:
        moments = []
        for number, edit in enumerate(("net-add,metro,,,,", "pid-add,metro,east,,,"), 1):
            process.stdin.write(post(number, edit))
            process.stdin.flush()
            moments.append(json.loads(reply(process.stdout)[1])["moment"])
            time.sleep(1.1)
        process.stdin.close()
    return None if moments[0] < moments[1] else f"the moments are {moments}"


def fault_of_two_programs(store):
    """Says what is wrong where a second program opens a store that another one has open."""
    store.begin()
    with store.pipe() as process:
        process.stdin.write(post(1, "net-add,metro,,,,"))
        process.stdin.flush()
        reply(process.stdout)
        status, printed = store.run("show", "x", "metro")
        process.stdin.close()
        process.stdout.read()
    if (status, printed) != (FAULT, b""):
        return f"the second program ended with status {status} and printed {printed!r}"
    status, shown = store.run("show", "x", "metro")
    return None if status == 0 else f"afterwards the store doesn't open: status {status}"


def fault_of_other_files(store):
    """Says what is wrong where a store is a folder, a text or a database of others, and whether it was left as it was."""
    os.mkdir(f"{store.folder}/folder")
    with open(f"{store.folder}/text", "wb") as file:
        file.write(b"no database, but a text that is longer than the head of one: " * 20)
    with store.database("other") as other:
        other.execute("CREATE TABLE alto_row (n TEXT)")
    for name, wanted in (("folder", FAULT), ("text", FAULT), ("other", FAULT)):
        path = f"{store.folder}/{name}"
        before = os.path.isfile(path) and open(path, "rb").read()
        status, printed = store.run("show", name, "metro")
        if (status, printed) != (wanted, b""):
            return f"{name}: status {status}, printed {printed!r}"
        if os.path.isfile(path) and open(path, "rb").read() != before:
            return f"{name} isn't as it was"
    return None


def fault_of_rows(store):
    """Says what is wrong with the rows of a store, as the sqlite3 module reads them."""
    store.begin("net-add,metro,,,,")
    with store.database("x") as database:
        rows = database.execute(ROWS).fetchall()
        integrity = database.execute("PRAGMA integrity_check").fetchall()
    return fault_of_texts([f"{number}|{text}" for number, text in rows]) or (None if integrity == [("ok",)] else str(integrity))


def fault_of_command(store):
    """Says what is wrong with the rows of a store, as SQLite's own command reads them."""
    need("sqlite3")
    store.begin("net-add,metro,,,,")
    ended = subprocess.run(["sqlite3", "x", ROWS], cwd=store.folder, stdout=subprocess.PIPE, check=True, timeout=SECONDS)
    return fault_of_texts(ended.stdout.decode().splitlines())


def fault_of_texts(rows):
    """Says what is wrong with the two rows of a store of one import, each its number and its bytes as hexadecimal digits."""
    is_good = len(rows) == 2 and rows[0] == "0|410102653100000008" and rows[1].startswith("1|4201026931")
    return None if is_good else f"the rows are {rows}"


def fault_of_damage(store):
    """Says what is wrong where a row isn't one that the program wrote."""
    store.begin("net-add,metro,,,,")
    with store.database("x") as database:
        database.execute("UPDATE alto_row SET bytes = x'4202' WHERE n = 1")
    status, printed = store.run("show", "x", "metro")
    return None if (status, printed) == (9, b"damaged row 1\n") else f"status {status}, printed {printed!r}"


def fault_of_long_body(store):
    """Says what is wrong where an import has one byte more than it may have."""
    store.begin()
    ended = store.run("import", "x", "--id", "i1", "--form", "csv", given=b"a" * (LONGEST_BODY + 1))
    return None if ended == (TOO_LARGE, b"body too large\n") else f"the import ended with {ended}"


def fault_of_help(store):
    """Says what is wrong with the help, and with words that aren't UTF-8."""
    for words in (["--help"], ["--version"], *([command, "--help"] for command in COMMANDS)):
        status, printed = store.run(*words)
        if status or not printed.endswith(b"\n"):
            return f"{words}: status {status}, printed {printed!r}"
    status, printed = store.run(b"show", b"x", b"\xff")
    return None if status == OUTSIDE else f"a word that isn't UTF-8: status {status}, printed {printed!r}"


def of_store(fault_of):
    """A check of a program and a folder, which is one of a store there."""
    return lambda program, folder: fault_of(Store(program, folder))


def checks(program):
    """Yields each check's name, and what comes of it."""
    for name, fault_of in (
        ("programs that are killed during 200 imports", fault_of_kills),
        ("the moments of two imports", fault_of_moments),
        ("a second program on a store", fault_of_two_programs),
        ("files that are no store", fault_of_other_files),
        ("rows as the sqlite3 module reads them", fault_of_rows),
        ("rows as the command sqlite3 reads them", fault_of_command),
        ("a damaged row", fault_of_damage),
        ("an import that is too large", fault_of_long_body),
        ("help, and words that aren't UTF-8", fault_of_help),
    ):
        yield name, outcome(of_store(fault_of), program)
