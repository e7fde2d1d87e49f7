#!/usr/bin/env python3
"""Measures the ALTO program, alone or beside another one of the same wire behaviour, and prints seconds and ratios.

benchmark.py [--beside "PROGRAM WORD.."] [--rounds N] [--only PART] [PROGRAM]

PROGRAM is the one that ./alto keeps unless it is given. The other is, for example, the program of an earlier commit;
further words of it are added to those that it is run with. It has three parts:

workloads: each begins a store in a new folder, starts the program as `pipe x` there, writes the set-up and waits for
its replies. Then the measured requests are written, and timed from the first byte written to the last one read: once
without a clock, when the replies are kept and have to be the same of both programs but for moments, and then N times, 5
unless given, the programs in turn. The best time counts. Each try of imports has a new store; the other tries of a
program are made on one, and there are more of them where they are short. A ratio is PROGRAM's time by that of the other
program.

growth: how far an import of one cost depends on the book: the time of one of 500 imports into each of three books, with
its ratio to that into the smallest (the versions by which the book came about, of 16,000 costs each, are forgotten
before the clock starts), and the memory of the process (VmRSS) with the largest book, and after 32 versions more. Where
gdb is there, also the bytes that are allocated: of the store with its imports, and of one whose base has taken them in;
and of the latter's rows, with and without the texts of its maps. What else it has is the SQL library's: pages of the
file, and a buffer that reading it left.

opening: the seconds from the program's start to its first reply, over stores of an eighth, a quarter and a half of the
imports and rows that a store keeps, and of all of them; the processor's seconds, which other work on the machine hardly
changes; and the most memory that it took (VmHWM). Where the time and the memory of a row stay alike, opening grows
straight.
"""
import argparse
import collections
import contextlib
import fcntl
import os
import re
import shlex
import shutil
import subprocess
import sys
import tempfile
import threading
import time

sys.dont_write_bytecode = True
import workloads

TOP = os.path.dirname(os.path.dirname(os.path.realpath(__file__)))
PARTS = "workloads", "growth", "opening"
STATUS = re.compile(rb"HTTP/1\.1 ([0-9]{3}) ")
LENGTH = re.compile(rb"\r\nContent-Length: ([0-9]+)\r\n")
MOMENT = re.compile(rb'"moment":[0-9]+')
# Tries that take less than so many seconds in all are made again, up to so many.
SHORT, MOST = 1, 50
PIPE = 1 << 20
# How many versions of a map a store keeps.
WINDOW = 8
BUFFER = bytearray(PIPE)


class Run:
    """A run of `pipe` on a store that was begun in a folder, or in a new one."""

    def __init__(self, program, setup=(), folder=None):
        self.program, self.setup, self.folder = program, setup, folder
        self.ending = contextlib.ExitStack()

    def __enter__(self):
        with contextlib.ExitStack() as ending:
            folder = self.folder or begun(self.program, ending.enter_context(tempfile.TemporaryDirectory()))
            pipes = {"stdin": subprocess.PIPE, "stdout": subprocess.PIPE}
            words = [self.program[0], "pipe", "x", *self.program[1:]]
            self.told = ending.enter_context(tempfile.TemporaryFile())
            self.process = ending.enter_context(subprocess.Popen(words, cwd=folder, bufsize=0, stderr=self.told, **pipes))
            ending.callback(self.process.kill)
            for stream in self.process.stdin, self.process.stdout:
                fcntl.fcntl(stream, fcntl.F_SETPIPE_SZ, PIPE)
            self.replies(self.setup)
            self.ending = ending.pop_all()
        return self

    def __exit__(self, *_):
        self.ending.close()

    def writing(self, requests):
        """Begins to write requests, in a thread of its own."""
        writer = threading.Thread(target=self.write, args=(b"".join(requests),))
        writer.start()
        return writer

    def write(self, data):
        """Writes bytes, unless the program ends before."""
        with contextlib.suppress(BrokenPipeError):
            self.process.stdin.write(data)

    def piece(self):
        """The next bytes of the output."""
        size = os.readv(self.process.stdout.fileno(), [BUFFER])
        if not size:
            raise EOFError("the program ended before its last reply")
        return memoryview(BUFFER)[:size]

    def replies(self, requests, wanted=b"200"):
        """Gives the bytes of the replies to requests, which all have to have one status."""
        writer, found, at = self.writing(requests), bytearray(), 0
        for _ in requests:
            while (end := found.find(b"\r\n\r\n", at)) < 0:
                found += self.piece()
            status = STATUS.match(found, at).group(1)
            if status != wanted:
                raise ValueError(f"{os.path.basename(self.program[0])} answers {status.decode()}")
            at = end + 4 + int(LENGTH.search(found, at, end + 4).group(1))
            while len(found) < at:
                found += self.piece()
        writer.join()
        return bytes(found)

    def seconds(self, requests, size):
        """Gives how long it takes to write requests and read so many bytes of replies."""
        start = time.perf_counter()
        writer = self.writing(requests)
        while size > 0:
            size -= len(self.piece())
        spent = time.perf_counter() - start
        writer.join()
        return spent

    def processor_seconds(self):
        """The processor time that the process has taken."""
        with open(f"/proc/{self.process.pid}/stat", encoding="ascii", errors="replace") as file:
            user, system = file.read().rpartition(")")[2].split()[11:13]
        return (int(user) + int(system)) / os.sysconf("SC_CLK_TCK")

    def memory(self, name):
        """The memory of the process under a name of its status, in MB of 2^20 bytes."""
        with open(f"/proc/{self.process.pid}/status", encoding="ascii") as status:
            return int(re.search(rf"^{name}:\s*(\d+) kB$", status.read(), re.MULTILINE).group(1)) / 1024


    def allocated(self):
        """The bytes that the process has allocated and not freed, in MB of 2^20 bytes: what the C library tells where gdb asks it."""
        asked = "gdb", "-p", str(self.process.pid), "-batch", "-ex", "call (void) malloc_stats()"
        subprocess.run(asked, stdout=subprocess.DEVNULL, stderr=subprocess.DEVNULL, check=True)
        self.told.seek(0)
        return int(re.findall(rb"in use bytes +=\s+(\d+)", self.told.read())[-1]) / 2**20

    def blocks(self):
        """Counts the blocks of each size that glibc has handed out of the process's heap, by the headers before them. A large block
        that is mapped alone isn't among them."""
        with open(f"/proc/{self.process.pid}/maps", encoding="utf-8") as maps:
            heap = next(line for line in maps if line.endswith("[heap]\n")).split()[0]
        start, end = (int(edge, 16) for edge in heap.split("-"))
        with open(f"/proc/{self.process.pid}/mem", "rb", 0) as memory:
            memory.seek(start)
            words = memoryview(memory.read(end - start)).cast("Q")
        sizes, at = collections.Counter(), 0
        while at + 1 < len(words):
            size = words[at + 1] & ~7
            behind = at + size // 8
            if size < 32 or behind + 1 >= len(words):
                break
            sizes[size] += words[behind + 1] & 1
            at = behind
        return sizes


def begun(program, folder):
    """Begins a store in a folder, and gives the folder."""
    words = [program[0], "init", "x", "--epoch", "e1", "--window", str(WINDOW)]
    subprocess.run(words, cwd=folder, stdin=subprocess.DEVNULL, stdout=subprocess.DEVNULL, check=True)
    return folder


def tries(program, workload, rounds):
    """Yields the replies of a first try of a workload, and then the seconds of each of the others."""
    with Run(program, workload.setup) as run:
        replies = run.replies(workload.measured)
        yield replies
        if not workload.imports:
            spent, made = 0, 0
            while made < rounds or spent < SHORT and made < MOST:
                seconds = run.seconds(workload.measured, len(replies))
                spent, made = spent + seconds, made + 1
                yield seconds
    if workload.imports:
        for _ in range(rounds):
            with Run(program, workload.setup) as run:
                yield run.seconds(workload.measured, len(replies))


def print_workloads(programs, rounds):
    """Prints the seconds of each workload, and the ratios."""
    heading = "".join(f"{'seconds':>12}{'ns a byte':>12}" for _ in programs)
    print(f"{'workload':<38}{'bytes':>12}{heading}" + ("  ratio" if programs[1:] else ""))
    for workload in workloads.workloads():
        try:
            replies, *rest = zip(*(tries(program, workload, rounds) for program in programs))
        except ValueError as error:
            print(f"{workload.name:<38}  {error}", flush=True)
            continue
        best, size = [min(seconds) for seconds in zip(*rest)], len(replies[0])
        columns = (f"{seconds:>12.4f}" + (f"{'':>12}" if workload.imports else f"{seconds * 1e9 / size:>12.2f}") for seconds in best)
        ratio = f"{best[0] / best[1]:>7.2f}" if best[1:] else ""
        same = len({MOMENT.sub(b"", one) for one in replies}) == 1
        print(f"{workload.name:<38}{size:>12}{''.join(columns)}{ratio}{'' if same else '  the replies differ'}", flush=True)


def print_growth(program, rounds):
    """Prints what an import of one cost takes as the book grows."""
    print(f"\n{'500 imports of one cost':<38}{'microseconds of one':>20}  ratio")
    smallest = None
    for count in workloads.BOOKS:
        setup = workloads.book(count) + workloads.single_costs(WINDOW, count, "before")
        workload = workloads.Workload("", setup, workloads.single_costs(500, count), imports=True)
        one = min(list(tries(program, workload, rounds))[1:]) / 500
        smallest = smallest or one
        print(f"{f'into {count:,} costs':<38}{one * 1e6:>20.1f}{one / smallest:>7.2f}", flush=True)
    with Run(program, workloads.book(count)) as run:
        before = run.memory("VmRSS")
        run.replies(workloads.single_costs(32, count))
        after = run.memory("VmRSS")
    print(f"{'memory':<38}{'MB':>20}  ratio")
    print(f"{f'{count:,} costs':<38}{before:>20.1f}{1:>7.2f}")
    print(f"{'and 32 versions more':<38}{after:>20.1f}{after / before:>7.2f}", flush=True)
    if shutil.which("gdb"):
        print_allocated(program, count)


def print_allocated(program, count):
    """Prints what a store of so many costs has allocated, with its imports and once its base has taken them in."""
    with tempfile.TemporaryDirectory() as folder:
        begun(program, folder)
        with Run(program, workloads.book(count), folder) as run:
            imported = run.allocated()
        subprocess.run([program[0], "trim", "x", "--keep", "0"], cwd=folder, stdout=subprocess.DEVNULL, check=True)
        with Run(program, folder=folder) as run:
            maps = "metro", *(f"metro:cost:{metric}" for metric in workloads.METRICS)
            text = sum(len(run.replies([workloads.get(f"/maps/{name}")])) for name in maps) / 2**20
            based = run.allocated()
            # Most blocks of this size are chunks of 32 rows: a base that is read is cut into them.
            rows = max(size * blocks for size, blocks in run.blocks().items() if size > 2**11) / 2**20
    print(f"{'allocated':<38}{'MB':>20}  bytes a cost")
    parts = ("with the imports", imported), ("in the base", based), ("its rows", rows), ("its rows and texts", rows + text)
    for name, size in parts:
        print(f"{name:<38}{size:>20.1f}{size * 2**20 / count:>14.0f}", flush=True)


def print_opening(program, rounds):
    """Prints what it takes to open a store, as its imports and rows grow alike."""
    print(f"\n{'a store that is opened':<30}{'seconds':>10}{'processor':>12}{'us a row':>10}{'MB at most':>12}{'KB a row':>10}")
    for part in workloads.OPENED:
        imports, rows = workloads.BATCHES // part, workloads.ROWS // part
        with tempfile.TemporaryDirectory() as folder:
            begun(program, folder)
            with Run(program, workloads.largest_book(part), folder):
                pass
            openings = []
            for _ in range(rounds):
                start = time.perf_counter()
                with Run(program, folder=folder) as run:
                    run.replies([workloads.get("/maps/none")], b"404")
                    spent = time.perf_counter() - start
                    openings.append((run.processor_seconds(), spent, run.memory("VmHWM")))
        processor, seconds, most = min(openings)
        columns = f"{seconds:>10.3f}{processor:>12.2f}{processor / rows * 1e6:>10.2f}{most:>12.1f}{most * 1024 / rows:>10.2f}"
        print(f"{f'{imports:,} imports, {rows:,} rows':<30}{columns}", flush=True)


def main():
    reader = argparse.ArgumentParser(description=__doc__, formatter_class=argparse.RawDescriptionHelpFormatter)
    reader.add_argument("--beside", type=shlex.split)
    reader.add_argument("--rounds", type=int, default=5)
    reader.add_argument("--only", choices=PARTS)
    reader.add_argument("program", nargs="?", default=f"{TOP}/alto", metavar="PROGRAM")
    given = reader.parse_args()
    print(f"{os.cpu_count()} processors, load {os.getloadavg()[0]:.1f}\n")
    programs = [[os.path.realpath(words[0]), *words[1:]] for words in ([given.program], given.beside) if words]
    if given.only in (None, "workloads"):
        print_workloads(programs, given.rounds)
    if given.only in (None, "growth"):
        print_growth(programs[0], given.rounds)
    if given.only in (None, "opening"):
        print_opening(programs[0], given.rounds)
    return 0


if __name__ == "__main__":
    sys.exit(main())
