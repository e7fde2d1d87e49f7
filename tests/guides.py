"""Runs the commands that README and the guides show, from their own text, and compares what they print.

A session is the blocks of a text whose commands begin with `$ `, in one shell and one new folder. Behind each command
stands what it prints; what runs in the background prints when it is ready. The ports of the text are replaced by free
ones, and moments aren't compared.
"""
import functools
import os
import re
import select
import signal
import subprocess
import time

from loopback import free_ports
from outcomes import need, outcome

TOP = os.path.dirname(os.path.dirname(os.path.realpath(__file__)))
# Sessions, each the texts that follow one another in one shell.
SESSIONS = ("README.md", "docs/CLIENTS.md"), ("docs/OPERATING.md",), ("examples/README.md",)
TOOLS = "curl", "sqlite3"
SECONDS = 120
BLOCK = re.compile(r"^```\n(\$ .*?)^```$", re.DOTALL | re.MULTILINE)
PORTS = "8080", "8081"
MOMENT = re.compile(r'("moment":|moment )[0-9]+')


def steps(text):
    """The commands of a text, each with the lines that it prints. A command goes on behind a line that ends with a bar or a
    backslash, or within single quotes.
    """
    found = []
    for block in BLOCK.findall(text):
        continued = False
        for line in block.splitlines():
            if continued:
                found[-1][0] += "\n" + line
            elif line.startswith("$ "):
                found.append([line[2:], []])
            else:
                found[-1][1].append(line)
            is_open = found[-1][0].endswith(("|", "\\")) or found[-1][0].count("'") % 2
            continued = is_open and not found[-1][1]
    return found


class Shell:
    """A shell in a folder where ./alto and examples/ are. All that it has started ends with it."""

    def __init__(self, program, folder):
        os.symlink(program, f"{folder}/alto")
        os.symlink(f"{TOP}/examples", f"{folder}/examples")
        pipes = {"stdin": subprocess.PIPE, "stdout": subprocess.PIPE, "stderr": subprocess.STDOUT}
        self.process = subprocess.Popen(["bash"], cwd=folder, bufsize=0, start_new_session=True, **pipes)
        self.ahead = ""

    def fault_of(self, command, lines):
        """Runs a command, and says what is wrong with what is printed until all of its lines are there."""
        self.process.stdin.write(f"{command}\n".encode())
        until = time.monotonic() + SECONDS
        while True:
            missing = [line for line in lines if line not in self.ahead]
            if not missing:
                for line in lines:
                    self.ahead = self.ahead.replace(line, "", 1)
                return None
            left = until - time.monotonic()
            if not select.select([self.process.stdout], [], [], max(left, 0))[0]:
                return f"{command}: wanted {missing}, found {self.ahead!r}"
            piece = os.read(self.process.stdout.fileno(), 1 << 16).decode()
            if not piece:
                return f"{command}: the shell has ended"
            self.ahead = MOMENT.sub(r"\1MOMENT", self.ahead + piece)

    def end(self):
        """Ends it, and gives what it has printed beyond what was wanted."""
        self.process.stdin.close()
        time.sleep(0.1)
        os.killpg(self.process.pid, signal.SIGKILL)
        rest = self.ahead + self.process.stdout.read().decode()
        self.process.wait()
        return rest.strip()


def text_of(name, ports):
    """A text with other ports, and with MOMENT for each moment."""
    with open(f"{TOP}/{name}", encoding="utf-8") as file:
        return MOMENT.sub(r"\1MOMENT", re.sub("|".join(ports), lambda port: ports[port.group()], file.read()))


def fault_of_session(names, program, folder):
    """Says what is wrong with the commands of texts that follow one another."""
    ports = dict(zip(PORTS, map(str, free_ports(len(PORTS)))))
    commands = [(name, *step) for name in names for step in steps(text_of(name, ports))]
    need("bash", *(tool for tool in TOOLS if any(tool in command for _, command, _ in commands)))
    shell = Shell(program, folder)
    try:
        for name, command, lines in commands:
            fault = shell.fault_of(command, lines)
            if fault:
                return f"{name}: {fault}"
    finally:
        rest = shell.end()
    return f"printed besides: {rest!r}" if rest else None


def checks(program):
    """Yields each check's name, and what comes of it."""
    for names in SESSIONS:
        yield f"commands of {' and '.join(names)}", outcome(functools.partial(fault_of_session, names), program)
