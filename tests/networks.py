"""Checks of examples/network.csv: what the program answers of it, against the model in examples/network.py."""
import contextlib
import ipaddress
import json
import os
import subprocess
import sys

from loopback import SECONDS, Connection, Server, compact, is_ready

EXAMPLES = f"{os.path.dirname(os.path.dirname(os.path.realpath(__file__)))}/examples"
sys.path.insert(0, EXAMPLES)
import network

NETWORK_MAP, COST_MAP, PROPERTY_MAP = (f"application/alto-{kind}map+json" for kind in ("network", "cost", "prop"))
PATH_VECTOR = f'multipart/related;boundary=alto-part;type="{COST_MAP}"'
PREFIXES = {ipaddress.ip_network(prefix): pid for prefix, pid in network.prefixes().items()}
COSTS, PROPERTIES, LINKS, PATHS = network.costs(), network.properties(), network.links(), network.paths()
MOVED = ipaddress.ip_network("172.16.0.0/24")
# Imports behind the network's: a prefix moves, a cost changes, and a PID goes with all that names it.
UPDATES = (
    (f"prefix-put,metro,core-6,{MOVED},,",),
    ("cost-put,metro,routingcost,core-0,core-1,12",),
    ("pid-drop,metro,access-7-3,,,",),
)


def vtag(version):
    return {"resource-id": "metro", "tag": f"e1-{version}"}


def cost_type(metric, mode="numerical"):
    return {"cost-metric": metric, "cost-mode": mode}


def grouped(pairs):
    """Values of pairs, as members of the objects of their sources."""
    found = {}
    for (source, destination), value in pairs.items():
        found.setdefault(source, {})[destination] = value
    return found


def network_map(version, pids, prefixes):
    """The network map of prefixes with their PIDs."""
    groups = {pid: {} for pid in pids}
    for prefix in sorted(prefixes, key=lambda prefix: (prefix.version, prefix)):
        groups[prefixes[prefix]].setdefault(f"ipv{prefix.version}", []).append(str(prefix))
    return {"meta": {"vtag": vtag(version)}, "network-map": groups}


def cost_map(kind, pairs, version=1):
    return {"cost-map": grouped(pairs), "meta": {"cost-type": kind, "dependent-vtags": [vtag(version)]}}


def property_map(entities):
    return {"meta": {"dependent-vtags": [vtag(1)]}, "property-map": entities}


def pid_of(address):
    """The PID with the longest prefix that holds an address, or None."""
    held = [prefix for prefix in PREFIXES if address in prefix]
    return PREFIXES[max(held, key=lambda prefix: prefix.prefixlen)] if held else None


def inherited(address, names):
    """The properties of an address by these names: each is of the longest block that holds the address and has it."""
    found = {"metro.pid": pid_of(address)}
    blocks = [entity.partition(":")[2] for entity in PROPERTIES if entity.startswith("ipv")]
    for block in sorted(map(ipaddress.ip_network, blocks), key=lambda block: block.prefixlen):
        if address in block:
            found |= PROPERTIES[f"ipv{block.version}:{block}"]
    return {name: value for name, value in found.items() if name in names and value is not None}


def typed(address):
    return f"ipv{address.version}:{address}"


def asked(kind, body):
    """The media type and the text of a request's body."""
    return f"application/alto-{kind}+json", json.dumps(body)


def ranks(pairs):
    """The rank of each cost among the distinct ones, from 1."""
    order = sorted(set(pairs.values()))
    return {pair: order.index(cost) + 1 for pair, cost in pairs.items()}


def path_vector(sources, destinations):
    """The text of the answer on paths between PIDs, which has two parts."""
    own = {"resource-id": "metro:path.costmap", "tag": "e1-1"}
    ways = {pair: way for pair, way in PATHS.items() if pair[0] in sources and pair[1] in destinations}
    first = cost_map(cost_type("ane-path", "array"), ways)
    first["meta"]["vtag"] = own
    elements = {f".ane:{link}": {"max-reservable-bandwidth": LINKS[link]} for way in ways.values() for link in way}
    second = {"meta": {"dependent-vtags": [own]}, "property-map": elements}
    lines = []
    for name, kind, part in ("costmap", COST_MAP, first), ("propmap", PROPERTY_MAP, second):
        lines += ["--alto-part", f"Content-ID: <{name}@alto>", f"Content-Type: {kind}", "", compact(part)]
    return "\r\n".join([*lines, "--alto-part--", ""])


def maps():
    """Yields the resource of each map, its media type and its text."""
    yield "metro", NETWORK_MAP, compact(network_map(1, network.pids(), PREFIXES))
    for metric, pairs in COSTS.items():
        yield f"metro:cost:{metric}", COST_MAP, compact(cost_map(cost_type(metric), pairs))
    yield "metro:prop", PROPERTY_MAP, compact(property_map(PROPERTIES))


def cost_questions():
    """Yields questions on costs and paths of PIDs, each with what is sent, the media type of the answer and its text."""
    some, kind = ["core-0", "access-3-1", "access-6-2"], cost_type("routingcost")
    close = {pair for pair, hops in COSTS["hopcount"].items() if pair[0] in some and hops <= 2}
    near = {pair: COSTS["routingcost"][pair] for pair in close}
    body = {"cost-type": kind, "testable-cost-types": [cost_type("hopcount")], "constraints": ["le 2"], "pids": {"srcs": some}}
    yield "/filter/cost/metro", asked("costmapfilter", body), COST_MAP, compact(cost_map(kind, near))

    kind = cost_type("hopcount", "ordinal")
    ranked = {pair: rank for pair, rank in ranks(COSTS["hopcount"]).items() if pair[1] in some}
    body = {"cost-type": kind, "pids": {"dsts": some}}
    yield "/filter/cost/metro", asked("costmapfilter", body), COST_MAP, compact(cost_map(kind, ranked))

    ends = ["core-0", "core-5"], ["access-3-1", "core-2", "core-5"]
    body = {
        "cost-type": cost_type("ane-path", "array"),
        "pids": dict(zip(("srcs", "dsts"), ends)),
        "ane-property-names": ["max-reservable-bandwidth"],
    }
    yield "/pathvector/metro", asked("costmapfilter", body), PATH_VECTOR, path_vector(*ends)


def address_questions():
    """Yields questions on addresses."""
    sources, destinations = addresses()[::90], addresses()[::70]
    pairs = {
        (typed(source), typed(to)): COSTS["hopcount"][pid_of(source), pid_of(to)]
        for source in sources if pid_of(source) for to in destinations if pid_of(to)
    }
    kind, ends = cost_type("hopcount"), {"srcs": [*map(typed, sources)], "dsts": [*map(typed, destinations)]}
    wanted = {"endpoint-cost-map": grouped(pairs), "meta": {"cost-type": kind}}
    given = asked("endpointcostparams", {"cost-type": kind, "endpoints": ends})
    yield "/endpointcost/metro", given, "application/alto-endpointcost+json", compact(wanted)

    names = ["region", "access-type", "metro.pid"]
    found = {typed(address): inherited(address, names) for address in addresses()[::50]}
    given = asked("propmapparams", {"entities": [*found], "properties": names})
    wanted = property_map({entity: values for entity, values in found.items() if values})
    yield "/filter/prop/metro", given, PROPERTY_MAP, compact(wanted)

    for address in addresses():
        yield f"/lookup/metro/{typed(address)}", None, "application/json", compact({"pid": pid_of(address)})


def addresses():
    """The first and the last address of each prefix, and the one behind it."""
    found = []
    for prefix in PREFIXES:
        found += [prefix[0], prefix[-1], prefix[-1] + 1]
    return [*dict.fromkeys(found)]


def fault_of_answers(client):
    """Says which question isn't answered as the model answers it."""
    whole = [(f"/maps/{resource}", None, kind, text) for resource, kind, text in maps()]
    for path, given, *wanted in [*whole, *cost_questions(), *address_questions()]:
        found = client.ask(path, given)
        if found != (200, *wanted):
            return f"{path} {given}: wanted {wanted}, found {found}"
    return None


def versions():
    """The versions of the network map and of the map of routing costs that UPDATES lead to, by their resources."""
    moved = PREFIXES | {MOVED: "core-6"}
    changed = COSTS["routingcost"] | {("core-0", "core-1"): 12}
    left = [pid for pid in network.pids() if pid != "access-7-3"]
    kept = {prefix: pid for prefix, pid in moved.items() if pid in left}
    fewer = {pair: cost for pair, cost in changed.items() if set(pair) <= set(left)}
    kind = cost_type("routingcost")
    return {
        "metro": [
            network_map(1, network.pids(), PREFIXES),
            network_map(2, network.pids(), moved),
            network_map(3, left, kept),
        ],
        "metro:cost:routingcost": [
            cost_map(kind, COSTS["routingcost"], 1),
            cost_map(kind, COSTS["routingcost"], 2),
            cost_map(kind, changed, 2),
            cost_map(kind, fewer, 3),
        ],
    }


def fault_of_updates(server, clients):
    """Says what is wrong with the versions of two maps that the client of examples/ holds, through UPDATES."""
    followers = {}
    for resource in versions():
        words = [sys.executable, f"{EXAMPLES}/follow.py", f"http://127.0.0.1:{server.public}", resource, "--json-patch"]
        followers[resource] = clients.enter_context(subprocess.Popen(words, stdout=subprocess.PIPE, bufsize=0))
        clients.callback(followers[resource].kill)
    for follower in followers.values():
        if not is_ready(follower.stdout, SECONDS):
            return "a client holds no map"
    for number, lines in enumerate(UPDATES, 1):
        server.take(number, *lines)
    for resource, documents in versions().items():
        for number, document in enumerate(documents, 1):
            stream = followers[resource].stdout
            line = stream.readline().decode() if is_ready(stream, SECONDS) else "nothing"
            if line != f"{number} {compact(document)}\n":
                return f"{resource}: wanted {number} {compact(document)}, found {line}"
    return None


def fault_of_network(program, folder):
    """Says what is wrong with the network as it is imported, answered and updated."""
    with open(f"{EXAMPLES}/network.csv", "rb") as file:
        body = file.read()
    if body.decode() != "".join(f"{line}\n" for line in network.lines()):
        return "examples/network.csv isn't what examples/network.py prints"
    words = [program, "import", "x", "--id", "network", "--form", "csv"]
    ended = subprocess.run(words, cwd=folder, input=body, stdout=subprocess.PIPE, timeout=SECONDS)
    if ended.returncode or not ended.stdout.startswith(b"accepted n 1 moment "):
        return f"the import ends with status {ended.returncode} and prints {ended.stdout!r}"
    with Server(program, folder) as server, contextlib.ExitStack() as clients:
        with Connection(server.public) as client:
            fault = fault_of_answers(client)
        return fault or fault_of_updates(server, clients)
