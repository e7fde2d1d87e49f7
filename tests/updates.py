"""Checks of updates: maps that change at random are followed by each edge that can be had, in both forms of patch."""
import copy
import functools
import json
import random

from loopback import CSV, csv_of, request
from outcomes import outcome
from stores import of_store
from trims import replies

RESOURCES = "metro", "metro:cost:routingcost", "metro:prop"
MERGE, PATCH = "application/merge-patch+json", "application/json-patch+json"
ASK = "application/alto-tipsparams+json"
PIDS = [f"pid-{number}" for number in range(6)]
STRIDES = 1, 2, 4, 8, 16
IMPORTS, EDITS = 28, 6


class Network:
    """What a network holds, and edits that it takes."""

    def __init__(self, draws):
        self.draws, self.pids, self.prefixes, self.costs, self.properties = draws, set(PIDS[:4]), {}, set(), set()

    def put_or_drop_pid(self):
        pid = self.draws.choice(PIDS)
        if pid not in self.pids:
            self.pids.add(pid)
            return f"pid-add,metro,{pid},,,"
        self.pids.remove(pid)
        self.prefixes = {prefix: owner for prefix, owner in self.prefixes.items() if owner != pid}
        self.costs = {pair for pair in self.costs if pid not in pair}
        self.properties = {pair for pair in self.properties if pair[0] != pid}
        return f"pid-drop,metro,{pid},,,"

    def change(self):
        """An edit of a cost, a prefix or a property: put, or taken away where it is there and the draw says so."""
        if not self.pids:
            return self.put_or_drop_pid()
        source, destination = (self.draws.choice(sorted(self.pids)) for _ in range(2))
        goes, kind = self.draws.random() < 0.4, self.draws.randrange(5)
        if kind == 0:
            prefix = self.draws.choice([f"10.0.{number}.0/24" for number in range(6)] + ["2001:db8::/32"])
            if goes and prefix in self.prefixes:
                return f"prefix-del,metro,{self.prefixes.pop(prefix)},{prefix},,"
            self.prefixes[prefix] = source
            return f"prefix-put,metro,{source},{prefix},,"
        if kind == 1:
            pair = source, self.draws.choice(("kind", "region"))
            if goes and pair in self.properties:
                self.properties.remove(pair)
                return f"prop-del,metro,metro.pid:{pair[0]},{pair[1]},,"
            self.properties.add(pair)
            return f"prop-put,metro,metro.pid:{pair[0]},{pair[1]},t,lab-{self.draws.randrange(9)}"
        if goes and (source, destination) in self.costs:
            self.costs.remove((source, destination))
            return f"cost-del,metro,routingcost,{source},{destination},"
        self.costs.add((source, destination))
        return f"cost-put,metro,routingcost,{source},{destination},{self.draws.randrange(1000)}"

    def batch(self):
        edits = [self.change() for _ in range(self.draws.randint(1, EDITS))]
        if self.draws.random() < 0.3:
            edits.append(self.put_or_drop_pid())
        return edits


def merged(target, patch):
    """What a merge patch makes of a value (RFC 7396)."""
    if not isinstance(patch, dict):
        return patch
    kept = dict(target) if isinstance(target, dict) else {}
    for name, value in patch.items():
        if value is None:
            kept.pop(name, None)
        else:
            kept[name] = merged(kept.get(name), value)
    return kept


def operated(document, operations):
    """What a JSON Patch (RFC 6902) makes of a document. A target that isn't there is an error."""
    document = copy.deepcopy(document)
    for operation in operations:
        *parents, name = [part.replace("~1", "/").replace("~0", "~") for part in operation["path"].split("/")[1:]]
        place = functools.reduce(lambda found, parent: found[parent], parents, document)
        if operation["op"] != "add" and name not in place:
            raise LookupError(f"nothing at {operation['path']}")
        if operation["op"] == "remove":
            del place[name]
        else:
            place[name] = operation["value"]
    return document


def edge(resource, i, j, accept):
    return f"GET /tips/{resource}/ug/{i}/{j} HTTP/1.1\r\nAccept: {accept}\r\n\r\n".encode()


def kept_numbers(store, resource):
    """The first and the last number of a resource that are kept."""
    ((_, view),) = replies(store, request("/tips", (ASK, json.dumps({"resource-id": resource}))))
    told = json.loads(view)["tips-view-summary"]["updates-graph-summary"]
    return told["start-seq"], told["end-seq"]


def fault_of_resource(store, resource):
    """Says which edge of a resource doesn't lead from the map at its start to the map at its end."""
    first, last = kept_numbers(store, resource)
    numbers = range(first, last + 1)
    whole = replies(store, *(edge(resource, 0, number, MERGE) for number in numbers))
    held = {number: json.loads(body) for number, (_, body) in zip(numbers, whole)}
    pairs = [(i, i + stride) for i in numbers for stride in STRIDES if i % stride == 0 and i + stride <= last]
    if last - first < 8 or len(pairs) < 8:
        return f"{resource} has too few numbers: {first} to {last}"
    for accept, patched in ((MERGE, merged), (PATCH, operated)):
        found = replies(store, *(edge(resource, i, j, accept) for i, j in pairs))
        for (i, j), (status, body) in zip(pairs, found):
            if status != 200 or patched(held[i], json.loads(body)) != held[j]:
                return f"the edge {i}, {j} of {resource} as {accept} is answered by {status} {body}"
    return None


def fault_of_updates(store):
    """Says what is wrong with an edge of maps that change at random."""
    network = Network(random.Random(9569))
    store.run("init", "x", "--epoch", "e1", "--window", "32")
    first = ["net-add,metro,,,,", "metric-add,metro,routingcost,,,", *(f"pid-add,metro,{pid},,," for pid in sorted(network.pids))]
    batches = [first, *(network.batch() for _ in range(IMPORTS))]
    asked = [request(f"/edits/i{number}", (CSV, csv_of(lines))) for number, lines in enumerate(batches)]
    for lines, (status, body) in zip(batches, replies(store, *asked)):
        if status != 200:
            return f"{lines} is answered by {status} {body}"
    for resource in RESOURCES:
        fault = fault_of_resource(store, resource)
        if fault:
            return fault
    return None


def checks(program):
    """Yields the check's name, and what comes of it."""
    yield "each edge of maps that change at random", outcome(of_store(fault_of_updates), program)
