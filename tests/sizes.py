"""Checks of the largest maps, each through the program as it is run by hand, against texts that are made here."""
from loopback import compact
from outcomes import outcome
from stores import of_store

PIDS = 512
PREFIXES = 16_384
EDITS = 16_000  # of one import
METRIC = "routingcost"


def taken(store, edits):
    """Imports edits in as few imports as take them, and gives how many those are, or None where one is refused."""
    numbers = range(1, 2 + (len(edits) - 1) // EDITS)
    for number in numbers:
        status, _ = store.take(number, *edits[(number - 1) * EDITS:number * EDITS])
        if status:
            return None
    return len(numbers)


def fault_of_costs(store):
    """Says what is wrong with the map of the most costs that a metric may have."""
    names = [f"p{number}" for number in range(PIDS)]
    costs = {source: {to: (at * 7 + place * 13) % 1000 for place, to in enumerate(names)} for at, source in enumerate(names)}
    edits = ["net-add,metro,,,,", f"metric-add,metro,{METRIC},,,", *(f"pid-add,metro,{name},,," for name in names)]
    edits += [f"cost-put,metro,{METRIC},{source},{to},{cost}" for source in names for to, cost in costs[source].items()]
    store.begin()
    if taken(store, edits) is None:
        return "an import is refused"
    status, printed = store.run("show", "x", f"metro:cost:{METRIC}")
    wanted = {
        "cost-map": costs,
        "meta": {
            "cost-type": {"cost-metric": METRIC, "cost-mode": "numerical"},
            "dependent-vtags": [{"resource-id": "metro", "tag": "e1-1"}],
        },
    }
    return None if (status, printed) == (0, f"{compact(wanted)}\n".encode()) else f"status {status}, and {len(printed)} other bytes"


def fault_of_prefixes(store):
    """Says what is wrong with the map of the most prefixes that a network may have."""
    blocks = [f"10.{number // 256}.{number % 256}.0/24" for number in range(PREFIXES)]
    edits = ["net-add,metro,,,,", "pid-add,metro,east,,,", *(f"prefix-put,metro,east,{block},," for block in blocks)]
    store.begin()
    count = taken(store, edits)
    if count is None:
        return "an import is refused"
    status, printed = store.run("show", "x", "metro")
    wanted = {"meta": {"vtag": {"resource-id": "metro", "tag": f"e1-{count}"}}, "network-map": {"east": {"ipv4": blocks}}}
    return None if (status, printed) == (0, f"{compact(wanted)}\n".encode()) else f"status {status}, and {len(printed)} other bytes"


def checks(program):
    """Yields each check's name, and what comes of it."""
    for name, fault_of in (("the most costs of a metric", fault_of_costs), ("the most prefixes of a network", fault_of_prefixes)):
        yield name, outcome(of_store(fault_of), program)
