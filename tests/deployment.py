"""Checks of what the guide for operators puts around the program: nginx, systemd, back-ups, copies and several servers."""
import base64
import concurrent.futures
import contextlib
import http.client
import json
import os
import re
import shutil
import signal
import socket
import ssl
import subprocess
import sys
import time

from loopback import ANY, SECONDS, Connection, Server, begun, free_ports, is_ready, told
from outcomes import need, outcome

TOP = os.path.dirname(os.path.dirname(os.path.realpath(__file__)))
BOOK = ("net-add,metro,,,,", "pid-add,metro,east,,,"), ("prefix-put,metro,east,192.0.2.0/24,,",)
EDGE, PATCH = "/tips/metro/ug/2/3", {"meta": {"vtag": {"tag": "e1-3"}}, "network-map": {"west": {}}}
NETWORK, JSON, VIEW = "/maps/metro", "application/json", "application/alto-tipsparams+json"
# How many clients wait for one update, and how many workers the server has.
CLIENTS, WORKERS = 12, 2
PASSWORD = "a secret"


def take_book(server):
    for number, lines in enumerate(BOOK, 1):
        server.take(number, *lines)


def answers(server):
    """What a server answers of its network: the map, each update, and a look-up."""
    paths = NETWORK, "/tips/metro/ug/0/1", "/tips/metro/ug/1/2", "/lookup/metro/ipv4:192.0.2.9"
    with Connection(server.public) as client:
        return [client.ask(path) for path in paths]


class Proxy:
    """nginx in front of both sides of a server, by examples/nginx.conf with other ports and files."""

    def __init__(self, server, folder):
        self.folder = folder
        self.public, self.operator = free_ports(2)
        os.chmod(folder, 0o755)
        words = ["openssl", "req", "-x509", "-nodes", "-newkey", "rsa:2048", "-days", "2", "-subj", "/CN=alto"]
        own = ["-addext", "subjectAltName=IP:127.0.0.1", "-keyout", "alto.key", "-out", "alto.crt"]
        subprocess.run([*words, *own], cwd=folder, stderr=subprocess.DEVNULL, check=True, timeout=SECONDS)
        hashed = subprocess.run(["openssl", "passwd", "-apr1", PASSWORD], stdout=subprocess.PIPE, check=True, text=True)
        with open(f"{folder}/alto.operators", "w", encoding="ascii") as file:
            file.write(f"operator:{hashed.stdout}")
        with open(f"{TOP}/examples/nginx.conf", encoding="utf-8") as file:
            text = file.read()
        for old, new in (
            ("/etc/nginx/", f"{folder}/"),
            ("/var/lib/nginx/", f"{folder}/"),
            ("listen 443 ssl", f"listen 127.0.0.1:{self.public} ssl"),
            ("listen 8443 ssl", f"listen 127.0.0.1:{self.operator} ssl"),
            ("127.0.0.1:8080", f"127.0.0.1:{server.public}"),
            ("127.0.0.1:8081", f"127.0.0.1:{server.operator}"),
        ):
            if old not in text:
                raise ValueError(f"examples/nginx.conf has no {old}")
            text = text.replace(old, new)
        temporary = "client_body", "proxy", "fastcgi", "uwsgi", "scgi"
        own = "access_log off;" + "".join(f"{name}_temp_path {folder}/{name};" for name in temporary)
        with open(f"{folder}/conf", "w", encoding="utf-8") as file:
            file.write(f"events {{ }}\nhttp {{\n{own}\n{text}}}\n")

    def __enter__(self):
        own = f"daemon off; pid {self.folder}/pid;" + ("user root;" if os.getuid() == 0 else "")
        words = ["nginx", "-c", f"{self.folder}/conf", "-e", f"{self.folder}/errors", "-g", own]
        self.process = subprocess.Popen(words, stdin=subprocess.DEVNULL, stderr=subprocess.DEVNULL)
        until = time.monotonic() + SECONDS
        while self.process.poll() is None and time.monotonic() < until:
            with contextlib.suppress(OSError), socket.create_connection(("127.0.0.1", self.operator)):
                return self
            time.sleep(0.05)
        self.__exit__()
        with open(f"{self.folder}/errors", encoding="utf-8") as file:
            raise OSError(f"nginx doesn't begin: {file.read()}")

    def __exit__(self, *_):
        self.process.terminate()
        self.process.wait()

    def ask(self, port, path, given=None, password=None, source="127.0.0.1"):
        """The status and the body of a reply over TLS."""
        fields = {"Content-Type": given[0]} if given else {}
        if password:
            fields["Authorization"] = "Basic " + base64.b64encode(f"operator:{password}".encode()).decode()
        trusting = ssl.create_default_context(cafile=f"{self.folder}/alto.crt")
        client = http.client.HTTPSConnection("127.0.0.1", port, timeout=60, context=trusting, source_address=(source, 0))
        with contextlib.closing(client):
            client.request("POST" if given else "GET", path, given and given[1], fields)
            reply = client.getresponse()
            return reply.status, reply.read().decode()


def fault_of_public_side(proxy, server):
    """Says what is wrong with the public side of nginx: a map, a view, and an update that many clients wait for, who are more than the
    server has workers.
    """
    wanted = answers(server)[0][2]
    if proxy.ask(proxy.public, NETWORK) != (200, wanted):
        return f"wanted {wanted}, found {proxy.ask(proxy.public, NETWORK)}"
    status, view = proxy.ask(proxy.public, "/tips", ("application/alto-tipsparams+json", '{"resource-id":"metro"}'))
    if status != 200 or json.loads(view)["tips-view-uri"] != f"https://127.0.0.1:{proxy.public}/tips/metro":
        return f"a view is {status} {view}"
    with concurrent.futures.ThreadPoolExecutor(CLIENTS) as pool:
        waiting = [pool.submit(proxy.ask, proxy.public, EDGE) for _ in range(CLIENTS)]
        if concurrent.futures.wait(waiting, 1).done:
            return "an update is answered before it is there"
        server.take(3, "pid-add,metro,west,,,")
        done, late = concurrent.futures.wait(waiting, 3)
        found = [one.result() for one in done]
    if late or any(status != 200 or json.loads(body) != PATCH for status, body in found):
        return f"{len(late)} clients wait longer, and the others have {found}"
    return fault_of_following(proxy, answers(server)[0][2])


def fault_of_following(proxy, document):
    """Says what is wrong with the map that the client of examples/ holds over TLS."""
    words = [sys.executable, f"{TOP}/examples/follow.py", f"https://127.0.0.1:{proxy.public}", "metro"]
    trusting = {**os.environ, "SSL_CERT_FILE": f"{proxy.folder}/alto.crt"}
    with subprocess.Popen(words, stdout=subprocess.PIPE, bufsize=0, env=trusting) as client:
        line = client.stdout.readline().decode() if is_ready(client.stdout, SECONDS) else "nothing"
        client.kill()
    return None if line == f"3 {document}\n" else f"a client that follows has {line!r}"


def fault_of_operator_side(proxy):
    """Says what is wrong with the operator side of nginx: who may import, and the longest body."""
    short = '{"edits":[["pid-add","metro","north"]]}'
    edits = short[:-1] + ',"note":"' + "a" * 2_000_000 + '"}'
    for name, port, given, password, source, wanted in (
        ("no password", proxy.operator, edits, None, "127.0.0.1", 401),
        ("another password", proxy.operator, edits, "a guess", "127.0.0.1", 401),
        ("another address", proxy.operator, edits, PASSWORD, "127.0.0.2", 403),
        ("too long a body", proxy.operator, "a" * 4_194_305, PASSWORD, "127.0.0.1", 413),
        ("the public side", proxy.public, short, PASSWORD, "127.0.0.1", 404),
        ("a long import", proxy.operator, edits, PASSWORD, "127.0.0.1", 200),
    ):
        status, body = proxy.ask(port, "/edits/north", (JSON, given), password, source)
        if status != wanted:
            return f"{name}: wanted {wanted}, found {status} {body}"
    return None


def fault_of_nginx(program, folder):
    """Says what is wrong with a server behind nginx, by the configuration of examples/."""
    need("nginx", "openssl")
    with Server(program, folder, workers=WORKERS) as server:
        take_book(server)
        with Proxy(server, folder) as proxy:
            return fault_of_public_side(proxy, server) or fault_of_operator_side(proxy)


def fault_of_unit(program, folder):
    """Says what is wrong with the unit of examples/: its form, and the command that it runs."""
    with open(f"{TOP}/examples/alto.service", encoding="utf-8") as file:
        text = file.read()
    words = re.search(r"^ExecStart=/usr/local/bin/alto (.*)$", text, re.MULTILINE)[1]
    os.rename(f"{folder}/x", f"{folder}/metro.db")
    with subprocess.Popen(
        [program, *re.sub(r"127\.0\.0\.1:[0-9]+", ANY, words).split()], cwd=folder, stderr=subprocess.PIPE, bufsize=0
    ) as process:
        try:
            for side in "public", "operator":
                told(process.stderr, side)
        finally:
            process.kill()
    need("systemd-analyze")
    with open(f"{folder}/alto.service", "w", encoding="utf-8") as file:
        file.write(text.replace("/usr/local/bin/alto", program))
    ended = subprocess.run(
        ["systemd-analyze", "verify", f"{folder}/alto.service"], stdout=subprocess.PIPE, stderr=subprocess.STDOUT, timeout=SECONDS
    )
    # What it says of other units of the machine is passed over.
    faults = [line for line in ended.stdout.decode().splitlines() if "alto" in line]
    return "\n".join(faults) or None


def fault_of_back_up(program, folder):
    """Says what is wrong with back-ups: SQLite's own command has to wait for the server to end, and gives a store that is served."""
    need("sqlite3")
    words = ["sqlite3", "x", ".backup y"]
    with Server(program, folder) as server:
        take_book(server)
        wanted = answers(server)
        early = subprocess.run(words, cwd=folder, stdout=subprocess.PIPE, stderr=subprocess.STDOUT, timeout=SECONDS)
        if b"locked" not in early.stdout:
            return f"while the server runs, it says {early.stdout!r}"
    subprocess.run(words, cwd=folder, check=True, timeout=SECONDS)
    return fault_of_copy(program, folder, wanted)


def fault_of_snapshot(program, folder):
    """Says what is wrong with a store whose two files were copied at one moment, while the server was running."""
    with Server(program, folder) as server:
        take_book(server)
        wanted = answers(server)
        server.process.send_signal(signal.SIGSTOP)
        for name in os.listdir(folder):
            shutil.copyfile(f"{folder}/{name}", f"{folder}/y{name[1:]}")
        server.process.send_signal(signal.SIGCONT)
        return fault_of_copy(program, folder, wanted)


def fault_of_copy(program, folder, wanted):
    """Says what is wrong where the store `y` of a folder is served."""
    os.mkdir(f"{folder}/copy")
    for name in os.listdir(folder):
        if name.startswith("y"):
            shutil.move(f"{folder}/{name}", f"{folder}/copy/x{name[1:]}")
    with Server(program, f"{folder}/copy") as server:
        return None if answers(server) == wanted else f"wanted {wanted}, found {answers(server)}"


def fault_of_several_servers(program, folder):
    """Says what is wrong with the answers of two servers that are given the same imports in the same order."""
    os.mkdir(f"{folder}/other")
    subprocess.run([program, "init", "x", "--epoch", "e1", "--window", "16"], cwd=f"{folder}/other", stdout=subprocess.DEVNULL, check=True)
    with Server(program, folder) as first, Server(program, f"{folder}/other") as second:
        for server in first, second:
            take_book(server)
        return None if answers(first) == answers(second) else f"{answers(first)} differ from {answers(second)}"


def checks(program):
    """Yields each check's name, and what comes of it."""
    for name, check in (
        ("a server behind nginx", fault_of_nginx),
        ("the unit of systemd", fault_of_unit),
        ("a back-up by the command sqlite3", fault_of_back_up),
        ("a copy of the files of one moment", fault_of_snapshot),
        ("two servers with the same imports", fault_of_several_servers),
    ):
        yield name, outcome(begun(check), program)
