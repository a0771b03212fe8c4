"""Proves the crates of a program or a library side by side, those first that most work waits for, and shows how far it is."""
from __future__ import annotations

import contextlib
import ctypes
import os
import pathlib
import re
import resource
import shutil
import signal
import subprocess
import sys
import time
from collections.abc import Callable, Iterator
from typing import TYPE_CHECKING, BinaryIO, NamedTuple

from .build_times import CrateTime, Times, seconds_left
from .crates import CPU, Crates
from .llvm_module import parts_of

if TYPE_CHECKING:
    from .building import Product

# A check takes 2 GB for a start, and one more for each of its jobs.
GB = 1 << 30
MINUTES = "15 to 35 minutes on four processors, 30 to 65 on two"
LIBC = ctypes.CDLL(None)


class Failed(Exception):
    """A crate that rt did not build, with the end of its log."""


class Running(NamedTuple):
    """A crate that is proved: the child that proves it, its lane, its number of jobs, its log, and when it began, in seconds since the build
    began."""

    child: subprocess.Popen[bytes]
    lane: int
    jobs: int
    log: BinaryIO
    began: float


def number_in(path: str, pattern: str) -> int | None:
    """The number that the pattern finds in a file of the system, or None."""
    with contextlib.suppress(OSError):
        with open(path, encoding="ascii") as text:
            found = re.search(pattern, text.read())
            return int(found[1]) if found else None
    return None


def processors() -> int:
    """How many processors this process may use: by its mask, and by the quota of its control group."""
    found = len(os.sched_getaffinity(0))
    quota, period = number_in("/sys/fs/cgroup/cpu.max", r"^(\d+)"), number_in("/sys/fs/cgroup/cpu.max", r" (\d+)")
    return min(found, max(quota // period, 1)) if quota and period else found


def free_memory() -> int:
    """The free memory in bytes: of the machine, and of the control group."""
    found = 1024 * (number_in("/proc/meminfo", r"MemAvailable:\s+(\d+)") or 4 << 20)
    limit, used = number_in("/sys/fs/cgroup/memory.max", r"^(\d+)"), number_in("/sys/fs/cgroup/memory.current", r"^(\d+)")
    return min(found, limit - used) if limit and used is not None else found


def cost_if_ended(child: subprocess.Popen[bytes]) -> float | None:
    """The seconds of a processor that a child took with all that it started, or None while it runs."""
    before = resource.getrusage(resource.RUSAGE_CHILDREN)
    if child.poll() is None:
        return None
    after = resource.getrusage(resource.RUSAGE_CHILDREN)
    return after.ru_utime + after.ru_stime - before.ru_utime - before.ru_stime


def end_with_parent() -> None:
    """Has the kernel end a child when this process is killed (PR_SET_PDEATHSIG)."""
    LIBC.prctl(1, signal.SIGTERM)


def link(one: str, other: str) -> None:
    """Gives a file a second name, or copies it where that can't be."""
    try:
        os.link(one, other)
    except OSError:
        shutil.copy2(one, other)


def link_checked(one: str, other: str) -> None:
    """The same for kept work, of which rt replaces what was checked, and writes into other files."""
    if one.endswith(".oantt"):
        link(one, other)
    else:
        shutil.copy2(one, other)


def library_words(jobs: int) -> list[str]:
    """What proves and builds a library in its folder, and keeps what it has checked: so an interrupted build goes on where it was."""
    return ["rt", "lib", "--jobs", str(jobs)]


class Proving:
    """The proof and the build of a product, in lanes that have copies of its sources."""

    def __init__(self, crates: Crates, product: Product, top: pathlib.Path, log: BinaryIO) -> None:
        self.crates, self.product, self.top, self.log = crates, product, top, log
        self.left, self.number = crates.order(product.name), len(crates.order(product.name))
        self.weights = {name: crates.weight(name) for name in self.left}
        # The work of a crate with the longest chain of those that wait for it.
        self.behind: dict[str, int] = {}
        for name in reversed(self.left):
            above = [self.behind[other] for other in self.behind if name in crates.libraries(other)]
            self.behind[name] = self.weights[name] + max(above, default=0)
        self.processors, self.memory = processors(), free_memory()
        self.built: set[str] = set()
        self.running: dict[str, Running] = {}
        self.lanes, self.free = 1, [0]
        self.began, self.shown, self.times = time.monotonic(), "", Times()

    def __enter__(self) -> Proving:
        return self

    def __exit__(self, *fault: object) -> None:
        """Ends what still runs, and keeps what it has proved so far."""
        if sys.stderr.isatty():
            print(file=sys.stderr)
        for it in self.running.values():
            it.child.terminate()
        for it in self.running.values():
            it.child.wait()
        # What rt has started is ended after it.
        time.sleep(0.5 if self.running else 0)
        for name, it in self.running.items():
            self.keep(name, it.lane, "incremental")
        self.times.write(self.product.out)

    def spent(self) -> float:
        return time.monotonic() - self.began

    def run(self, make_lane: Callable[[int], None]) -> pathlib.Path:
        """Builds every crate once its libraries are built, and returns the product. A lane beyond the first is made when it is needed."""
        print(f"{self.product.name}: proving and building {self.number} crates, {MINUTES}; until then ./try runs each command unproved",
              file=sys.stderr, flush=True)
        while self.left or self.running:
            for name, jobs in self.next_crates():
                if not self.free:
                    make_lane(self.lanes)
                    self.free, self.lanes = [self.lanes], self.lanes + 1
                self.start(name, jobs, self.free.pop())
            ended = {name: cost for name, it in self.running.items() if (cost := cost_if_ended(it.child)) is not None}
            for name, cost in ended.items():
                lane = self.running[name].lane
                self.end(name, cost)
                self.show_line(name)
            if not ended:
                self.show_line()
                time.sleep(0.05)
        return self.out(self.product.name, lane) / self.product.file.name

    def next_crates(self) -> Iterator[tuple[str, int]]:
        """The crates to start now, each with its number of jobs: one, or more where fewer crates than processors can start."""
        ready = [name for name in self.left if self.built.issuperset(self.crates.libraries(name))]
        for place, name in enumerate(sorted(ready, key=self.behind.__getitem__, reverse=True)):
            jobs_running = [it.jobs for it in self.running.values()]
            spare = self.processors - sum(jobs_running)
            room = (self.memory - sum((2 + jobs) * GB for jobs in jobs_running)) // GB - 2
            if spare < 1 or jobs_running and room < 1:
                return
            jobs = min(max(spare // (len(ready) - place), 1), 4, max(room, 1))
            self.left.remove(name)
            yield name, jobs

    def out(self, name: str, lane: int | None = None) -> pathlib.Path:
        top = self.top if lane is None else self.crates.top.parent / str(lane)
        return top / "crates" / name / "out"

    def start(self, name: str, jobs: int, lane: int) -> None:
        """Starts rt in a lane, over the libraries and the kept work that there are by now."""
        for library in self.crates.order(name):
            if self.out(library).joinpath("rlib").is_dir() and not self.out(library, lane).joinpath("rlib").exists():
                shutil.copytree(self.out(library) / "rlib", self.out(library, lane) / "rlib", copy_function=link)
        if self.out(name).joinpath("incremental").is_dir():
            shutil.copytree(self.out(name) / "incremental", self.out(name, lane) / "incremental", copy_function=link_checked)
        words = library_words(jobs)
        source: BinaryIO | int = subprocess.DEVNULL
        if name == self.product.name:
            # The LLVM module is kept, for tools/page.
            keeper = pathlib.Path(__file__).with_name("llvm_module.py")
            words = [sys.executable, str(keeper), str(self.out(name, lane) / self.product.file.name), "lib", "--jobs", str(jobs), *CPU]
            if self.product.kind == "program":
                # The program is run once, as its crate's files say.
                folder = self.out(name, lane).parent
                words = ["rt", "run", "--jobs", str(jobs), *CPU, "--", *(folder / "args").read_text().split()]
                source = open(folder / "stdin", "rb")
        log = open(self.out(name, lane).parent / "log", "w+b")
        child = subprocess.Popen(words, cwd=self.out(name, lane).parent, stdin=source, stdout=log, stderr=log, preexec_fn=end_with_parent)
        self.running[name] = Running(child, lane, jobs, log, self.spent())

    def end(self, name: str, cost: float) -> None:
        """Takes what a lane has built to the crate, or tells of its failure."""
        child, lane, jobs, log, began = self.running[name]
        with log:
            log.seek(0)
            text = log.read()
        self.log.write(f"== {name}\n".encode() + text)
        self.log.flush()
        if child.returncode:
            end = text.decode(errors="replace").splitlines()[-12:]
            raise Failed("\n".join([f"{name} failed with status {child.returncode}:", *end]))
        made = self.out(name, lane) / "rlib" / "stamp"
        kept = self.out(name) / "rlib" / "stamp"
        was_kept = name != self.product.name and made.exists() and kept.exists() and made.samefile(kept)
        if name == self.product.name:
            self.keep(name, lane, "incremental", f"{name}.stamp", *(part.name for part in parts_of(self.product.file)))
        elif not was_kept:
            self.keep(name, lane, "incremental", "rlib")
        self.times.ended.append(CrateTime(name, began, self.spent(), jobs, cost, was_kept))
        del self.running[name]
        self.built.add(name)
        self.free.append(lane)

    def keep(self, name: str, lane: int, *parts: str) -> None:
        """Moves parts of a crate's out/ from a lane to the crate."""
        for part in parts:
            made, kept = self.out(name, lane) / part, self.out(name) / part
            if made.is_dir():
                kept.parent.mkdir(exist_ok=True)
                shutil.rmtree(kept, ignore_errors=True)
            if made.exists():
                os.replace(made, kept)

    def seconds_left(self) -> float | None:
        """How long the build still takes by the pace of the crates so far, or None where too few have ended to tell."""
        pace = self.times.pace(self.weights)
        if pace is None:
            return None
        lengths = {name: pace * self.weights[name] for name in [*self.left, *self.running]}
        running = {name: self.spent() - it.began for name, it in self.running.items()}
        return seconds_left(self.crates, self.left, running, lengths, self.behind, self.processors)

    def show_line(self, ended: str | None = None) -> None:
        """Prints how far the build is: at a terminal in one line that is written anew, and else in a line for each crate."""
        so_far = f"crate {len(self.built)} of {self.number}, {self.spent() / 60:.0f} minutes so far"
        if len(self.built) < self.number and (left := self.seconds_left()) is not None:
            so_far += f", about {max(left / 60, 1):.0f} left"
        if sys.stderr.isatty():
            text = f"{so_far}: {', '.join(self.running)}"
            if not ended and text != self.shown:
                width = os.get_terminal_size(sys.stderr.fileno()).columns or 80
                print(f"\r\x1b[K{text[:width - 1]}", end="", file=sys.stderr, flush=True)
                self.shown = text
        elif ended:
            print(f"{ended}: {so_far}", file=sys.stderr, flush=True)
