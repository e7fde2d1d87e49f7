#!/usr/bin/env python3
"""Follows a map of an ALTO server by its updates (RFC 9569), and prints each version as one line: its number and the map."""
import argparse
import functools
import http.client
import json
import time
from urllib.parse import urlsplit

MERGE, PATCH = "application/merge-patch+json", "application/json-patch+json"


def merged(target, patch):
    """Gives what a merge patch makes of a value (RFC 7396)."""
    if not isinstance(patch, dict):
        return patch
    kept = target if isinstance(target, dict) else {}
    changed = {name: merged(kept.get(name), value) for name, value in patch.items() if value is not None}
    return {name: value for name, value in kept.items() if name not in patch} | changed


def operated(document, operations):
    """Gives what a JSON Patch (RFC 6902) makes of a document, where it has members added, removed and replaced."""
    for operation in operations:
        *parents, name = [part.replace("~1", "/").replace("~0", "~") for part in operation["path"].split("/")[1:]]
        place = functools.reduce(dict.get, parents, document)
        if operation["op"] == "remove":
            del place[name]
        else:
            place[name] = operation["value"]
    return document


def ask(server, method, path, body, **fields):
    """Sends one request, and gives the status, the media type and the JSON body of its reply."""
    server.request(method, path, body, {name.replace("_", "-"): value for name, value in fields.items()})
    reply = server.getresponse()
    return reply.status, reply.getheader("Content-Type"), json.loads(reply.read() or "null")


def opened(server, asked):
    """Opens the view of a resource, and gives its path and the two numbers of the edge to begin with."""
    status, _, view = ask(server, "POST", "/tips", json.dumps(asked), Content_Type="application/alto-tipsparams+json")
    if status != 200:
        raise SystemExit(f"no view: {status} {view}")
    edge = view["tips-view-summary"]["updates-graph-summary"]["start-edge-rec"]
    return urlsplit(view["tips-view-uri"]).path, edge["seq-i"], edge["seq-j"]


def versions(server, resource, accept):
    """Yields each number that the map comes to, with the map. After a lost connection it goes on from the map that it holds."""
    asked, held, path = {"resource-id": resource}, None, None
    while True:
        try:
            if path is None:
                path, i, j = opened(server, asked)
            status, media, body = ask(server, "GET", f"{path}/ug/{i}/{j}", None, Accept=accept)
        except (OSError, http.client.HTTPException):
            if held is None:
                raise
            server.close()
            status = None
        if status == 200:
            held = merged(held, body) if media == MERGE else operated(held, body) if media == PATCH else body
            epoch = (held["meta"].get("vtag") or held["meta"]["dependent-vtags"][0])["tag"].split("-")[0]
            asked["tag"], i, j = f"{epoch}-{j}", j, j + 1
            yield i, held
        else:  # 425: not there yet; else the number was discarded, the network was withdrawn, or the connection was lost
            path = path if status == 425 else None
            time.sleep(0.2)


words = argparse.ArgumentParser(description=__doc__)
words.add_argument("server", help="as http://127.0.0.1:8080 or https://alto.example")
words.add_argument("resource", help="as metro, metro:cost:routingcost or metro:prop")
words.add_argument("--json-patch", action="store_const", dest="accept", const=PATCH, default=MERGE, help="not merge patches")
given = words.parse_args()
connection = http.client.HTTPSConnection if given.server.startswith("https:") else http.client.HTTPConnection
for number, document in versions(connection(urlsplit(given.server).netloc, timeout=60), given.resource, given.accept):
    print(f"{number} {json.dumps(document, sort_keys=True, separators=(',', ':'))}", flush=True)
