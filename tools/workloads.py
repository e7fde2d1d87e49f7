"""The requests that benchmark.py measures, and the books that they are measured on. All of it is the same in every run."""
import json
import random

# How many costs the books of the growth have, and the two metrics that share them: one has all pairs of 512 PIDs at most.
BOOKS = 10_000, 100_000, 390_000
METRICS = "routingcost", "hopcount"
PAIRS = 512 * 512
# The most imports and rows that a store keeps, and the parts of them of which opening is measured. All rows but these are costs: the
# epoch, the window, a network, its PIDs and metrics, and the numbers of its four maps.
BATCHES, ROWS = 4_096, 400_000
OPENED = 8, 4, 2, 1
OTHER_ROWS = 2 + 1 + 512 + 2 + 4
COST_TYPE = {"cost-metric": "routingcost", "cost-mode": "numerical"}
NETWORK = ["net-add,metro,,,,"]


class Workload:
    """Requests that are measured behind others that set them up. Where they are imports, each try needs a new store."""

    def __init__(self, name, setup, measured, imports=False):
        self.name, self.setup, self.measured, self.imports = name, setup, measured, imports


def edits(name, lines):
    """An import as a request."""
    return posted(f"/edits/{name}", "text/csv", "".join(f"{line}\n" for line in lines))


def asked(path, kind, tree):
    """A request with a body of JSON."""
    return posted(path, f"application/alto-{kind}+json", json.dumps(tree))


def posted(path, kind, body):
    return f"POST {path} HTTP/1.1\r\nContent-Type: {kind}\r\nContent-Length: {len(body)}\r\n\r\n{body}".encode()


def get(path):
    """A request that reads."""
    return f"GET {path} HTTP/1.1\r\n\r\n".encode()


def followed(view, number):
    """An edge of a view that ends at a number, of one step."""
    return get(f"/tips/{view}/ug/{number - 1}/{number}")


def pid(place):
    return f"pid-{place:04}"


def pids(count):
    """The lines that add PIDs to the network `metro`."""
    return [f"pid-add,metro,{pid(k)},,," for k in range(count)]


def prefixes(first, count, among=1_000, further=0):
    """The lines that put prefixes into so many PIDs in turn, each into the one so much further."""
    return [f"prefix-put,metro,{pid((k + further) % among)},10.{k >> 8}.{k & 255}.0/24,," for k in range(first, first + count)]


def costs(first, count, size):
    """The lines that put costs between so many PIDs, row by row."""
    return [
        f"cost-put,metro,routingcost,{pid(k // size)},{pid(k % size)},{k * 7919 % 1_000}" for k in range(first, first + count)
    ]


def full_book():
    """The imports of 512 PIDs, all their 262,144 costs, and 16,000 prefixes."""
    begun = [edits("many", NETWORK + ["metric-add,metro,routingcost,,,"] + pids(512)), edits("prefixes", prefixes(0, 16_000, 512))]
    return begun + [edits(f"costs-{k}", costs(k * 16_000, min(16_000, PAIRS - k * 16_000), 512)) for k in range(17)]


def addresses(chance, count):
    """Addresses that these prefixes hold, most of them."""
    return [f"ipv4:10.{chance.randrange(64)}.{chance.randrange(256)}.{chance.randrange(256)}" for _ in range(count)]


def question_workloads():
    """Yields the workloads of questions on the full book."""
    chance, full = random.Random(7), full_book()
    names = [pid(k) for k in range(512)]
    filters = [{"srcs": chance.sample(names, 20), "dsts": chance.sample(names, 20)} for _ in range(500)]
    ends = [{"srcs": addresses(chance, 10), "dsts": addresses(chance, 10)} for _ in range(500)]
    cost_filters = [asked("/filter/cost/metro", "costmapfilter", {"cost-type": COST_TYPE, "pids": some}) for some in filters]
    yield Workload("500 filtered costs of 20 by 20 PIDs", full, cost_filters)
    endpoint_costs = [asked("/endpointcost/metro", "endpointcostparams", {"cost-type": COST_TYPE, "endpoints": some}) for some in ends]
    yield Workload("500 endpoint costs of 10 by 10", full, endpoint_costs)
    yield Workload("10,000 look-ups", full, [get(f"/lookup/metro/{address}") for address in addresses(chance, 10_000)])


def cost_workloads():
    """Yields the workloads on cost maps: those of 128 and of 512 PIDs, the second one as large as may be."""
    small = [edits("some", NETWORK + ["metric-add,metro,routingcost,,,"] + pids(128)), edits("costs", costs(0, 16_384 - 1, 128))]
    full = full_book()
    yield Workload("100 cost maps of 128 PIDs", small, [get("/maps/metro:cost:routingcost")] * 100)
    yield Workload("4 cost maps of 512 PIDs", full, [get("/maps/metro:cost:routingcost")] * 4)
    singles = [edits(f"one-{k}", costs(k * 500, 1, 512)) for k in range(500)]
    yield Workload("500 imports of one cost into 262,144", full, singles, imports=True)
    steps = [edits(f"step-{k}", costs(k, 1, 128)) for k in range(3)]
    yield Workload("10,000 steps of one cost", small + steps, [followed("metro:cost:routingcost", 4)] * 10_000)


def network_workloads():
    """Yields the workloads on network maps."""
    thousand, filled = edits("some", NETWORK + pids(1_000)), edits("many", NETWORK + pids(1_000) + prefixes(0, 14_999))
    singles = [edits(f"one-{k}", prefixes(15_000 + k, 1)) for k in range(30)]
    yield Workload("one import of 16,000 edits", [], [filled], imports=True)
    yield Workload("30 imports of one prefix after it", [filled], singles, imports=True)
    yield Workload("one import that moves 8,000 prefixes", [filled], [edits("moved", prefixes(0, 8_000, further=1))], imports=True)
    yield Workload("one import that withdraws all", [filled], [edits("none", ["net-drop,metro,,,,"])], imports=True)
    yield Workload("100 maps of 1,000 PIDs", [thousand], [get("/maps/metro")] * 100)
    yield Workload("20 maps of 16,000 prefixes", [filled, edits("rest", prefixes(14_999, 1_001))], [get("/maps/metro")] * 20)
    steps = [edits(f"step-{k}", [f"pid-drop,metro,{pid(k)},,,"]) for k in range(3)]
    yield Workload("10,000 steps of one PID", [thousand, *steps], [get("/tips/metro/ug/2/3")] * 10_000)
    yield Workload("10,000 edges of two steps", [thousand, *steps], [get("/tips/metro/ug/2/4")] * 10_000)


def workloads():
    """Yields each workload."""
    yield from network_workloads()
    yield from cost_workloads()
    yield from question_workloads()


def cost(place, value):
    """The line that puts the cost at a place of a book of the growth."""
    metric, pair = divmod(place, PAIRS)
    return f"cost-put,metro,{METRICS[metric]},{pid(pair // 512)},{pid(pair % 512)},{value}"


def book(count, imports=None):
    """The requests that set up a book of so many costs, by as few imports as can be, or by so many, all of about a length."""
    begun = [*NETWORK, *(f"metric-add,metro,{metric},,," for metric in METRICS), *pids(512)]
    lines = [cost(place, place * 7919 % 1_000) for place in range(count)]
    further = imports - 1 if imports else -(-count // 16_000)
    ends = [k * count // further for k in range(further + 1)]
    return [edits("begun", begun)] + [edits(f"from-{first}", lines[first:end]) for first, end in zip(ends, ends[1:])]


def largest_book(part=1):
    """The requests that set up a book of as many imports and rows as a store keeps, or of an equal part of them."""
    return book(ROWS // part - OTHER_ROWS, BATCHES // part)


def single_costs(imports, count, name="one"):
    """Imports of one cost each, at places spread over a book of so many costs."""
    return [edits(f"{name}-{k}", [cost(k * count // imports, 1_000 + k)]) for k in range(imports)]
