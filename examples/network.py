#!/usr/bin/env python3
"""Prints the network `metro` as an operator's CSV: 40 PIDs, 600 prefixes, two metrics, properties, and paths.

Eight regions lie on a ring. Each has a core and four access networks, which are one link away from it. All addresses
are of the ranges for documentation and for private use. Nothing is random: examples/network.csv is what each run prints.
"""
import ipaddress

NET = "metro"
REGIONS, ACCESSES, PREFIXES = 8, 4, 600
SERVICES = ("192.0.2.0/24", 0), ("198.51.100.0/24", 3), ("203.0.113.0/24", 5)
ACCESS_TYPES = "fiber", "cable", "wireless"


def core(region):
    return f"core-{region}"


def access(region, number):
    return f"access-{region}-{number}"


def pids():
    """The region of each PID, and its links to the core of that region: none, or one."""
    cores = {core(region): (region, 0) for region in range(REGIONS)}
    return cores | {access(region, number): (region, 1) for region in range(REGIONS) for number in range(ACCESSES)}


def prefixes():
    """The PID of each prefix: services, regions, access networks in them, and customers with addresses of their own."""
    found = {service: core(region) for service, region in SERVICES}
    for region in range(REGIONS):
        found[f"10.{region}.0.0/16"] = found[f"2001:db8:{region + 1}00::/40"] = core(region)
        for number in range(ACCESSES):
            pid, neighbour = access(region, number), access(region, (number + 1) % ACCESSES)
            found[f"10.{region}.{number * 64}.0/18"] = found[f"2001:db8:{region + 1}{number + 1}0::/44"] = pid
            # A small part of each access network is reached by another one.
            found[f"10.{region}.{number * 64 + 7}.0/24"] = neighbour
    blocks = [ipaddress.ip_network(text).subnets(8) for text in ("172.16.0.0/16", "fd00:1:2::/48")]
    for customer in range(PREFIXES - len(found)):
        found[str(next(blocks[customer % 2]))] = access(customer % REGIONS, customer // REGIONS % ACCESSES)
    return found


def clockwise(source, destination):
    """The number of ring links between two regions, in the order of their numbers."""
    return (destination - source) % REGIONS


def costs():
    """The costs of each metric, of each pair of PIDs, by the links between them: those of the ring cost more."""
    found = {"routingcost": {}, "hopcount": {}}
    for source, (first, links) in pids().items():
        for destination, (last, further) in pids().items():
            ring = min(clockwise(first, last), clockwise(last, first))
            tails = 0 if source == destination else links + further
            found["routingcost"][source, destination] = 10 * ring + 3 * tails
            found["hopcount"][source, destination] = ring + tails
    return found


def properties():
    """The properties of each entity, which are blocks of addresses and PIDs: texts and numbers."""
    found = {}
    for region in range(REGIONS):
        for block in f"ipv4:10.{region}.0.0/16", f"ipv6:2001:db8:{region + 1}00::/40":
            found[block] = {"region": f"region {region}"}
        for number in range(ACCESSES):
            found[f"ipv4:10.{region}.{number * 64}.0/18"] = {"access-type": ACCESS_TYPES[number % len(ACCESS_TYPES)]}
            found[f"{NET}.pid:{access(region, number)}"] = {"subscribers": 1000 * (number + 1) + region}
    return found


def links():
    """The bandwidth of each link, in bits per second. The link `ring-K` lies between the regions K and K + 1."""
    tails = {f"tail-{region}-{number}": 10_000_000_000 for region in range(REGIONS) for number in range(ACCESSES)}
    return {f"ring-{region}": (100 + region) * 1_000_000_000 for region in range(REGIONS)} | tails


def paths():
    """The links from each core to each other PID: the shorter way along the ring, and the link of an access network."""
    found = {}
    for first in range(REGIONS):
        for destination, (last, _) in pids().items():
            if clockwise(first, last) <= clockwise(last, first):
                ring = [f"ring-{(first + step) % REGIONS}" for step in range(clockwise(first, last))]
            else:
                ring = [f"ring-{(first - step - 1) % REGIONS}" for step in range(clockwise(last, first))]
            way = ring + [destination.replace("access", "tail")] * destination.startswith("access")
            if way:
                found[core(first), destination] = way
    return found


def lines():
    """Yields the lines of the CSV."""
    yield f"net-add,{NET},,,,"
    yield from (f"pid-add,{NET},{pid},,," for pid in pids())
    yield from (f"prefix-put,{NET},{pid},{prefix},," for prefix, pid in prefixes().items())
    for metric, pairs in costs().items():
        yield f"metric-add,{NET},{metric},,,"
        for (source, destination), cost in pairs.items():
            yield f"cost-put,{NET},{metric},{source},{destination},{cost}"
    for entity, values in properties().items():
        for name, value in values.items():
            yield f"prop-put,{NET},{entity},{name},{'t' if isinstance(value, str) else 'n'},{value}"
    for link, bandwidth in links().items():
        yield f"ane-add,{NET},{link},,,"
        yield f"ane-set,{NET},{link},max-reservable-bandwidth,{bandwidth},"
    for (source, destination), way in paths().items():
        yield f"path-put,{NET},{source},{destination},{' '.join(way)},"


if __name__ == "__main__":
    print(*lines(), sep="\n")
