"""Checks of `trim`: which edges stay and what they hold, that receipts stay, and the pieces of the base as rows of the file."""
import hashlib
import re

from loopback import CSV, csv_of, request
from outcomes import outcome
from stores import Store, of_store

PIDS = [f"pid{number:02}" for number in range(40)]
NETWORK = [
    "net-add,metro,,,,",
    *(f"pid-add,metro,{pid},,," for pid in PIDS),
    *(f"prefix-put,metro,{PIDS[number % 40]},10.{number // 256}.{number % 256}.0/24,," for number in range(600)),
    "metric-add,metro,routingcost,,,",
    *(f"cost-put,metro,routingcost,{source},{destination},1" for source in PIDS for destination in PIDS),
]
# The numbers of imports behind the network's; each puts one cost.
COSTS = range(2, 32)
COST_MAP = "metro:cost:routingcost"
STAYING = [f"/tips/{COST_MAP}/ug/{edge}" for edge in ("27/28", "28/30", "30/31")] + ["/tips/metro/ug/0/1"]
GONE = f"/tips/{COST_MAP}/ug/24/28"
PIECES = "SELECT n, hex(bytes) FROM alto_row WHERE n < 0 ORDER BY n DESC"


def cost_of(number):
    return f"cost-put,metro,routingcost,{PIDS[number]},{PIDS[0]},{number}"


def replies(store, *requests):
    """The replies of a run of `pipe` to requests, each its status and its body."""
    _, printed = store.run("pipe", "x", given=b"".join(requests))
    found = []
    while printed:
        head, _, rest = printed.partition(b"\r\n\r\n")
        length = int(re.search(rb"Content-Length: ([0-9]+)", head)[1])
        found.append((int(head.split()[1]), rest[:length]))
        printed = rest[length:]
    return found


def fault_of_edges(store):
    """Says what is wrong where a store of 31 imports is trimmed so that four stay beside its base."""
    store.begin(*NETWORK)
    for number in COSTS:
        store.take(number, cost_of(number))
    asked = [request(path) for path in STAYING]
    before, map_before = replies(store, *asked), store.run("show", "x", COST_MAP)
    told = [store.run("trim", "x", "--keep", "4") for _ in range(2)]
    if told != [(0, b"trimmed to 27\n")] * 2:
        return f"the trims printed {told}"
    again = request("/edits/i3", (CSV, csv_of([cost_of(3)])))
    *after, gone, known = replies(store, *asked, request(GONE), again)
    if after != before or any(status != 200 for status, _ in after):
        return f"edges that stay are answered by {after}, and were by {before}"
    if gone != (410, b'{"start-seq":27,"status":410}'):
        return f"an edge before the base is answered by {gone}"
    if known[0] != 200 or not known[1].endswith(b'"n":3}'):
        return f"an import that the base has taken in is answered by {known}"
    return None if store.run("show", "x", COST_MAP) == map_before else "the map isn't what it was"


def fault_of_pieces(store):
    """Says what is wrong with the base of a store of one import: its number and its rows, a receipt, and three rows."""
    store.begin("net-add,metro,,,,")
    told = store.run("trim", "x", "--keep", "0")
    if told != (0, b"trimmed to 1\n"):
        return f"the trim printed {told}"
    with store.database("x") as database:
        pieces = [(number, bytes.fromhex(text)) for number, text in database.execute(PIECES)]
    digest = hashlib.sha256(b"net-add,metro,,,,\n").digest()
    sizes = [(number, len(piece)) for number, piece in pieces]
    if sizes != [(-1, 14), (-2, 47), (-3, 46)]:
        return f"the pieces have the numbers and lengths {sizes}"
    (_, first), (_, receipts), (_, rows) = pieces
    is_good = first.hex() == "43010000000000000001" "00000003" and receipts[:39] == bytes.fromhex("44010001026931") + digest
    return None if is_good and rows[:4].hex() == "45010003" else f"the pieces are {[piece.hex() for _, piece in pieces]}"


def fault_of_broken_bases(store):
    """Says what is wrong with a base that has two receipts of one id, and with one whose first piece isn't one."""
    store.begin("net-add,metro,,,,")
    store.take(2, "pid-add,metro,east,,,")
    store.run("trim", "x", "--keep", "0")
    with store.database("x") as database:
        ((receipts,),) = database.execute("SELECT bytes FROM alto_row WHERE n = -2")
        database.execute("UPDATE alto_row SET bytes = ? WHERE n = -2", (receipts.replace(b"\x02i2", b"\x02i1"),))
    repeated = store.run("show", "x", "metro")
    with store.database("x") as database:
        database.execute("UPDATE alto_row SET bytes = x'4302' WHERE n = -1")
    ended = repeated, store.run("show", "x", "metro")
    return None if ended == ((9, b"bad book row 0 rule B6\n"), (9, b"damaged base 0\n")) else f"the runs ended with {ended}"


def fault_of_words(store):
    """Says what is wrong with numbers of batches that are none, and with a store that isn't there."""
    store.begin()
    for keep in ("", "-1", "4097", "00000000000", "x"):
        status, _ = store.run("trim", "x", "--keep", keep)
        if status != 2:
            return f"--keep {keep!r}: status {status}"
    ended = store.run("trim", "y", "--keep", "0")
    return None if ended == (9, b"damaged row 0\n") else f"a store that was never begun: {ended}"


def checks(program):
    """Yields each check's name, and what comes of it."""
    for name, fault_of in (
        ("a trim: edges, receipts and the map", fault_of_edges),
        ("a trim: the pieces of the base", fault_of_pieces),
        ("a broken base", fault_of_broken_bases),
        ("a trim: words", fault_of_words),
    ):
        yield name, outcome(of_store(fault_of), program)
