"""Runs of `serve` on ports that the system chose, and connections of clients to them."""
import contextlib
import json
import re
import select
import socket
import subprocess

SECONDS = 120
ANY = "127.0.0.1:0"
CSV = "text/csv"


def begun(check):
    """A check of a folder in which the store `x` was begun before."""
    def of_store(program, folder):
        words = [program, "init", "x", "--epoch", "e1", "--window", "16"]
        subprocess.run(words, cwd=folder, stdout=subprocess.DEVNULL, check=True, timeout=SECONDS)
        return check(program, folder)

    return of_store


def serve(program, folder, public, operator, workers=2, turns=30):
    """Begins a run of `serve` on the store `x` of a folder."""
    words = ["serve", "x", "--public", public, "--operator", operator, "--workers", str(workers), "--turns", str(turns)]
    pipes = {"stdin": subprocess.DEVNULL, "stdout": subprocess.PIPE, "stderr": subprocess.PIPE}
    return subprocess.Popen([program, *words], cwd=folder, bufsize=0, **pipes)


def is_ready(stream, seconds):
    """Whether a stream has something to read, or has ended, within so many seconds."""
    return bool(select.select([stream], [], [], seconds)[0])


def told(stream, side):
    """The port of a side, which a run of `serve` tells on standard error."""
    line = stream.readline() if is_ready(stream, SECONDS) else b""
    address = re.fullmatch(rf"{side} 127\.0\.0\.1:([1-9][0-9]*)\n", line.decode())
    if not address:
        raise OSError(f"the address of the {side} side isn't told, but {line!r}")
    return int(address[1])


def free_ports(count):
    """Ports that nothing listens at."""
    with contextlib.ExitStack() as held:
        return [held.enter_context(socket.create_server(("127.0.0.1", 0))).getsockname()[1] for _ in range(count)]


class Server:
    """A run of `serve` that tells its addresses. It is killed at the end, by SIGKILL."""

    def __init__(self, program, folder, **options):
        self.process = serve(program, folder, ANY, ANY, **options)

    def __enter__(self):
        try:
            self.public, self.operator = (told(self.process.stderr, side) for side in ("public", "operator"))
        except BaseException:
            self.kill()
            raise
        return self

    def __exit__(self, *_):
        self.kill()

    def kill(self):
        """Kills it, and gives what it has printed besides its addresses."""
        self.process.kill()
        output, errors = self.process.communicate()
        return output + errors

    def take(self, number, *lines):
        """Imports lines, which have to be accepted, under an id of this number, and gives the receipt."""
        with Connection(self.operator) as operator:
            status, _, body = operator.ask(f"/edits/i{number}", (CSV, csv_of(lines)))
        if status != 200:
            raise OSError(f"import {number} is answered by {status} {body}")
        return json.loads(body)


class Connection:
    """A connection of a client. Where `ahead` is given, the system takes about so many bytes ahead of what is read."""

    def __init__(self, port, ahead=None):
        self.socket = socket.socket()
        self.socket.settimeout(SECONDS)
        if ahead:
            self.socket.setsockopt(socket.SOL_SOCKET, socket.SO_RCVBUF, ahead)
        self.socket.connect(("127.0.0.1", port))
        self.stream = self.socket.makefile("rb")

    def __enter__(self):
        return self

    def __exit__(self, *_):
        self.stream.close()
        self.socket.close()

    def send(self, path, given=None):
        """Sends a GET, or a POST where the media type and the body of one are given."""
        self.socket.sendall(request(path, given))

    def reply(self):
        """The status, the media type and the body of the next reply."""
        head = b""
        while not head.endswith(b"\r\n\r\n"):
            line = self.stream.readline()
            if not line:
                raise OSError("a connection ends before its reply")
            head += line
        fields = dict(line.split(": ", 1) for line in head.decode().split("\r\n")[1:-2])
        return int(head.split()[1]), fields["Content-Type"], self.stream.read(int(fields["Content-Length"])).decode()

    def ask(self, path, given=None):
        self.send(path, given)
        return self.reply()


def request(path, given=None):
    """The bytes of a GET, or of a POST where the media type and the body of one are given."""
    if not given:
        return f"GET {path} HTTP/1.1\r\n\r\n".encode()
    kind, body = given
    return f"POST {path} HTTP/1.1\r\nContent-Type: {kind}\r\nContent-Length: {len(body)}\r\n\r\n{body}".encode()


def csv_of(lines):
    return "".join(f"{line}\n" for line in lines)


def compact(value):
    """The text of a value in JSON: no spaces, members by their names."""
    return json.dumps(value, sort_keys=True, separators=(",", ":"))
