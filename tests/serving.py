"""Checks of `serve` over loopback: both sides, held edges, clients that stall, and servers that are killed or can't begin."""
import contextlib
import json
import os
import socket
import subprocess
import sys
import time

from loopback import ANY, CSV, SECONDS, Connection, Server, begun, csv_of, is_ready, request, serve
from networks import fault_of_network
from outcomes import need, outcome

# The time limit of a client that stalls, and how long after it the worker is free at the latest.
LIMIT, LATER = 10, 4
FAULT, NOT_LISTENING = 3, 6
FOLLOW = f"{os.path.dirname(os.path.dirname(os.path.realpath(__file__)))}/examples/follow.py"
JSON, MERGE = "application/json", "application/merge-patch+json"
NO_ROUTE = 404, JSON, '{"status":404,"why":"route"}'
BOOK = (
    ("net-add,metro,,,,",),
    ("pid-add,metro,east,,,", "pid-add,metro,west,,,"),
    ("prefix-put,metro,east,192.0.2.0/24,,", "prefix-put,metro,west,0.0.0.0/0,,"),
    ("metric-add,metro,routingcost,,,", "cost-put,metro,routingcost,east,west,7"),
)
COST_TYPE = '"cost-type":{"cost-metric":"routingcost","cost-mode":"numerical"}'
VTAG = '{"resource-id":"metro","tag":"e1-3"}'
PREFIXES = '"network-map":{"east":{"ipv4":["192.0.2.0/24"]},"west":{"ipv4":["0.0.0.0/0"]}}'
COST_MAP = '{"cost-map":{"east":{"west":7}},"meta":{' + COST_TYPE + ',"dependent-vtags":[' + VTAG + "]}}"
# Imports behind those of BOOK, each of which makes a version of the network map.
UPDATES = (
    ("pid-add,metro,north,,,",),
    ("prefix-put,metro,north,198.51.100.0/24,,",),
    ("prefix-put,metro,north,192.0.2.0/24,,",),
    ("pid-drop,metro,east,,,",),
    ("pid-add,metro,east,,,", "prefix-put,metro,east,2001:db8::/32,,"),
    ("prefix-del,metro,north,198.51.100.0/24,,",),
    ("pid-add,metro,south,,,",),
    ("prefix-put,metro,south,192.0.2.0/24,,",),
    ("pid-drop,metro,north,,,",),
    ("prefix-put,metro,west,203.0.113.0/24,,",),
)
# Requests of clients behind the imports of BOOK, each with its reply: the path, the media type and the body of what is sent, where
# that is a POST, and the media type and the body of the reply. A destination that isn't named is the client itself, 127.0.0.1.
TALK = (
    ("/maps/metro", None, "application/alto-networkmap+json", '{"meta":{"vtag":' + VTAG + "}," + PREFIXES + "}"),
    ("/maps/metro:cost:routingcost", None, "application/alto-costmap+json", COST_MAP),
    ("/lookup/metro/ipv4:192.0.2.9", None, JSON, '{"pid":"east"}'),
    (
        "/filter/cost/metro",
        ("application/alto-costmapfilter+json", "{" + COST_TYPE + ',"pids":{"srcs":["east"],"dsts":["west"]}}'),
        "application/alto-costmap+json",
        COST_MAP,
    ),
    (
        "/endpointcost/metro",
        ("application/alto-endpointcostparams+json", "{" + COST_TYPE + ',"endpoints":{"srcs":["ipv4:192.0.2.9"]}}'),
        "application/alto-endpointcost+json",
        '{"endpoint-cost-map":{"ipv4:192.0.2.9":{"ipv4:127.0.0.1":7}},"meta":{' + COST_TYPE + "}}",
    ),
    ("/tips/metro/ug/2/3", None, MERGE, '{"meta":{"vtag":{"tag":"e1-3"}},' + PREFIXES + "}"),
)


def fault_of_talk(port):
    """Says which request of TALK isn't answered as wanted, all of them on one connection."""
    with Connection(port) as client:
        for path, given, *wanted in TALK:
            found = client.ask(path, given)
            if found != (200, *wanted):
                return f"{path}: wanted {wanted}, found {found}"
    return None


def take_book(server):
    """Imports BOOK."""
    for number, lines in enumerate(BOOK, 1):
        server.take(number, *lines)


def fault_of_sides(program, folder):
    """Says what is wrong with the answers of both sides, of which each has its own routes alone, and with what is printed."""
    with Server(program, folder) as server:
        begun = int(time.time())
        take_book(server)
        receipt = server.take(1, *BOOK[0])
        if receipt["n"] != 1 or not begun <= receipt["moment"] <= time.time():
            return f"the first import, sent again after second {begun}, is answered by {receipt}"
        with Connection(server.public) as client, Connection(server.operator) as operator:
            for found in client.ask("/edits/i9", (CSV, "net-add,other,,,,\n")), operator.ask("/maps/metro"), operator.ask("/directory"):
                if found != NO_ROUTE:
                    return f"a request to the other side is answered by {found}"
        fault = fault_of_talk(server.public)
        printed = server.kill()
    return fault or (f"it prints more than its addresses: {printed!r}" if printed else None)


def curl(port, path, given):
    """The status, the media type and the body of the reply that curl gets."""
    posted = ["-H", f"Content-Type: {given[0]}", "--data-binary", "@-"] if given else []
    words = ["curl", "-s", "-w", r"\n%{http_code}\n%{content_type}", *posted, f"http://127.0.0.1:{port}{path}"]
    ended = subprocess.run(words, input=given[1].encode() if given else b"", stdout=subprocess.PIPE, timeout=SECONDS)
    body, status, kind = ended.stdout.decode().rsplit("\n", 2)
    return int(status), kind, body


def fault_of_curl(program, folder):
    """Says what is wrong with what curl gets, of an import and of each request of TALK."""
    need("curl")
    with Server(program, folder) as server:
        for number, lines in enumerate(BOOK, 1):
            status, _, body = curl(server.operator, f"/edits/i{number}", (CSV, csv_of(lines)))
            if status != 200 or json.loads(body)["n"] != number:
                return f"import {number} is answered by {status} {body}"
        for path, given, *wanted in TALK:
            found = curl(server.public, path, given)
            if found != (200, *wanted):
                return f"{path}: wanted {wanted}, found {found}"
    return None


def fault_of_held_edges(program, folder):
    """Says what is wrong with edges that two clients wait for: an import on another connection answers both, and none that leaves
    the map as it was.
    """
    wanted = 200, MERGE, '{"meta":{"vtag":{"tag":"e1-4"}},"network-map":{"north":{}}}'
    with Server(program, folder) as server:
        take_book(server)
        with Connection(server.public) as first, Connection(server.public) as second:
            for client in first, second:
                client.send("/tips/metro/ug/3/4")
            server.take(5, "cost-put,metro,routingcost,west,east,8")
            for client in first, second:
                if is_ready(client.socket, 0.2):
                    return f"an edge that isn't there is answered by {client.reply()}"
            server.take(6, "pid-add,metro,north,,,")
            for client in first, second:
                begun = time.monotonic()
                found = client.reply()
                if found != wanted or time.monotonic() - begun > 0.9:
                    return f"wanted {wanted} at once, found {found} after {time.monotonic() - begun:.1f} seconds"
    return None


def fault_of_turns(program, folder):
    """Says what is wrong with an edge that doesn't come within one turn, which takes a second at most."""
    wanted = 425, JSON, '{"end-seq":1,"status":425}'
    with Server(program, folder, turns=1) as server, Connection(server.public) as client:
        server.take(1, *BOOK[0])
        begun = time.monotonic()
        found = client.ask("/tips/metro/ug/1/2")
        spent = time.monotonic() - begun
    return None if found == wanted and 0.9 < spent < 5 else f"wanted {wanted}, found {found} after {spent:.1f} seconds"


def fault_of_stalled_clients(program, folder):
    """Says what is wrong while clients stall that have all workers of the public side: one is silent, one is in the midst of a
    request, and one doesn't take its replies. The operator's side answers at once, and the public side after the time limit.
    """
    ask = "/lookup/metro/ipv4:192.0.2.9"
    with Server(program, folder, workers=3) as server, contextlib.ExitStack() as clients:
        take_book(server)
        server.take(5, *(f"pid-add,metro,{'long-name' * 6}-{number},,," for number in range(400)))
        begun = time.monotonic()
        _, in_a_request, not_taking, *patient = [clients.enter_context(Connection(server.public, ahead=4096)) for _ in range(6)]
        in_a_request.socket.sendall(b"GET /maps/metro HT")
        not_taking.socket.sendall(request("/maps/metro") * 400)
        for client in patient:
            client.send(ask)
        server.take(6, "pid-add,metro,north,,,")
        if time.monotonic() - begun > 3:
            return f"the operator's side takes {time.monotonic() - begun:.1f} seconds"
        # The time limit begins anew where the system has taken a part of a reply, so the last worker is free later: the longer a program
        # takes to fill what the system keeps. The first two are taken again until then, by clients that wait for an update.
        for client, limit in zip(patient, (LIMIT, LIMIT, 12 * LIMIT)):
            is_answered = is_ready(client.socket, begun + limit + LATER - time.monotonic())
            spent = time.monotonic() - begun
            if not is_answered or spent < LIMIT - 1 or client.reply() != (200, JSON, '{"pid":"east"}'):
                return f"wanted an answer after {limit} seconds, found {'one' if is_answered else 'none'} after {spent:.1f}"
            client.send("/tips/metro/ug/5/6")
    return None


def fault_of_kills(program, folder):
    """Says what is wrong where the server is killed behind each import: a new one gives the same receipt, and in the end the
    answers that are wanted.
    """
    receipts = []
    for number, lines in enumerate(BOOK, 1):
        with Server(program, folder) as server:
            again = [server.take(known, *BOOK[known - 1]) for known in range(1, number)]
            if again != receipts:
                return f"wanted the receipts {receipts}, found {again}"
            receipts.append(server.take(number, *lines))
    with Server(program, folder) as server:
        return fault_of_talk(server.public)


def ended(process):
    """The status of a run that ends by itself, and what it has printed."""
    try:
        output, errors = process.communicate(timeout=SECONDS)
    except subprocess.TimeoutExpired:
        process.kill()
        output, errors = process.communicate()
        return "none", output + errors
    return process.returncode, output + errors


def fault_of_addresses(program, folder):
    """Says what is wrong where an address can't be listened on: it is in use, isn't the machine's own, or is none."""
    with socket.create_server(("127.0.0.1", 0)) as other:
        taken = f"127.0.0.1:{other.getsockname()[1]}"
        for public, operator in ((taken, ANY), (ANY, taken), ("192.0.2.1:80", ANY), ("127.0.0.1", ANY), (ANY, "127.0.0.1:99999")):
            found = ended(serve(program, folder, public, operator))
            if found != (NOT_LISTENING, b""):
                return f"public {public}, operator {operator}: wanted status {NOT_LISTENING} and no text, found {found}"
    with Server(program, folder) as server:
        take_book(server)
        return fault_of_talk(server.public)


def fault_of_second_server(program, folder):
    """Says what is wrong where a second server begins on a store that one serves, which goes on."""
    with Server(program, folder) as server:
        take_book(server)
        found = ended(serve(program, folder, ANY, ANY))
        if found != (FAULT, b""):
            return f"wanted status {FAULT} and no text, found {found}"
        return fault_of_talk(server.public)


def fault_of_following(program, folder):
    """Says what is wrong where two clients of examples/ follow a map through UPDATES, one by each form of patch: each holds every
    version, and ends with the map that the server gives.
    """
    first, last = 3, 3 + len(UPDATES)
    with Server(program, folder, workers=3) as server, contextlib.ExitStack() as clients:
        take_book(server)
        words = [sys.executable, FOLLOW, f"http://127.0.0.1:{server.public}", "metro"]
        begun = [subprocess.Popen([*words, *form], stdout=subprocess.PIPE, bufsize=0) for form in ([], ["--json-patch"])]
        for follower in begun:
            clients.enter_context(follower)
            clients.callback(follower.kill)
        for number in range(first, last + 1):
            lines = [follower.stdout.readline() if is_ready(follower.stdout, SECONDS) else b"" for follower in begun]
            with Connection(server.public) as client:
                document = json.loads(client.ask("/maps/metro")[2])
            for line in lines:
                held, _, text = line.decode().partition(" ")
                if held != str(number) or json.loads(text) != document:
                    return f"wanted {number} {document}, found {line!r}"
            if number < last:
                server.take(number + 2, *UPDATES[number - first])
    return None


def checks(program):
    """Yields each check's name, and what comes of it."""
    for name, check in (
        ("the network of examples/network.csv", fault_of_network),
        ("both sides of a server", fault_of_sides),
        ("a server by curl", fault_of_curl),
        ("held edges that an import answers", fault_of_held_edges),
        ("a held edge that doesn't come", fault_of_turns),
        ("clients that stall", fault_of_stalled_clients),
        ("a server that is killed between imports", fault_of_kills),
        ("addresses that can't be listened on", fault_of_addresses),
        ("a second server on a store", fault_of_second_server),
        ("a map followed in both forms", fault_of_following),
    ):
        yield name, outcome(begun(check), program)
