"""What tools/build, tools/library and tools/page share: a product of a crate, a program or a library, is built where it isn't that of its sources.

The stamp out/built holds a sum of the sources and one of the product. Where both are as they are now, nothing is built, and the stamp
is dated anew. A product with another sum, or with no stamp, was built by rt itself: it fits if it is newer than its sources.

In one folder rt works on one crate at a time, since it locks the libraries below, too. So crates are proved side by side in copies of
the sources, the lanes, in which `rt lib` finds the libraries that other lanes built. What a lane has built goes to out/ of the crate;
a build that was ended goes on with it. The copies are of one moment, and the stamp has their sum.
"""
from __future__ import annotations

import contextlib
import fcntl
import hashlib
import os
import pathlib
import shutil
import signal
import sys
from collections.abc import Iterable, Iterator
from types import FrameType
from typing import NoReturn

from .crates import PARTS, Crates
from .llvm_module import module_of

TOP = pathlib.Path(__file__).resolve().parents[2]
# A file is written with the time of the system's last tick.
TICK = 20_000_000


class Stopped(Exception):
    """A signal that ends the build."""


def sum_of(file: pathlib.Path) -> str:
    return hashlib.sha256(file.read_bytes()).hexdigest()


class Product:
    """A program or a library of the repository as it was built last: a crate, and the file that rt makes of it. Of a library the LLVM
    module may be needed, too."""

    def __init__(self, name: str, file: str | None = None, with_module: bool = False) -> None:
        self.name, self.kind, self.with_module = name, "library" if file else "program", with_module
        self.out = TOP / "crates" / name / "out"
        self.file, self.stamp, self.new = self.out / (file or name), self.out / "built", self.out / "built.new"

    def start_stamp(self) -> int | None:
        """The time of now by the clock of the folder's file system, or None where nothing can be written."""
        with contextlib.suppress(OSError):
            self.out.mkdir(exist_ok=True)
            self.new.write_text("")
            return self.new.stat().st_mtime_ns - TICK
        return None

    def write_stamp(self, moment: int | None, sources: str, file: pathlib.Path) -> None:
        """Notes that a product is that of these sources, which were read after the moment."""
        if moment is not None:
            self.new.write_text(f"{sources} {sum_of(file)}\n")
            os.utime(self.new, ns=(moment, moment))
            os.replace(self.new, self.stamp)

    def fits(self) -> bool:
        """Whether the product is that of the present sources."""
        if not os.access(self.file, os.X_OK if self.kind == "program" else os.R_OK) or self.with_module and not module_of(self.file):
            return False
        moment, crates = self.start_stamp(), Crates(TOP)
        names = crates.order(self.name)
        sources = crates.sum(names)
        noted = self.stamp.read_text().split() if self.stamp.exists() else []
        if noted[1:] == [sum_of(self.file)]:
            found = noted[0] == sources
        else:
            found = self.file.stat().st_mtime_ns > crates.last_change(names)
        if found:
            self.write_stamp(moment, sources, self.file)
        return found

    def fail(self, reason: str) -> NoReturn:
        print(reason, file=sys.stderr)
        sys.exit(70)

    def have(self) -> None:
        """Builds the product unless it fits."""
        if self.fits():
            return
        if not shutil.which("rt"):
            self.fail(f"{self.name}: the {self.kind} is missing or older than a source, and there is no rt to build it")
        lock(self.name)
        # Another call may have built it meanwhile.
        if not self.fits():
            build(self)
            # The stamp is dated anew unless a source was changed during the build.
            self.fits()


def lock(name: str) -> None:
    """Waits until no rt and no other build works in the crates of the product. The locks are rt's, and last until this process ends."""
    for crate in sorted(crate for crate in Crates(TOP).order(name) if (TOP / "crates" / crate).is_dir()):
        folder = os.open(TOP / "crates" / crate, os.O_RDONLY)
        try:
            fcntl.flock(folder, fcntl.LOCK_EX | fcntl.LOCK_NB)
        except BlockingIOError:
            print(f"{name}: waiting for another build, or another rt, to finish in {TOP}", file=sys.stderr)
            fcntl.flock(folder, fcntl.LOCK_EX)
        except OSError:
            # Some file systems have no locks.
            pass


def copy_sources(crates: Crates, names: Iterable[str], to: pathlib.Path, static: str | None = None) -> None:
    """Copies what rt reads of these crates to a folder, in which one may be a static library."""
    for name in names:
        (to / "crates" / name).mkdir(parents=True)
        for path in (crates.top / "crates" / name).iterdir():
            if path.name in PARTS:
                shutil.copytree(path, to / "crates" / name / path.name)
            elif path.is_file():
                shutil.copy2(path, to / "crates" / name)
    (to / "crates.txt").write_text(crates.text(names, static), encoding="utf-8")


def build(product: Product) -> None:
    """Builds the product, or fails with the reason on standard error."""
    # What it takes to load is of no use where nothing is built.
    from .proving import Failed, Proving
    log = product.out / "build.log"
    # rt wants no second crates.txt among the files of a repository, but doesn't look at those of git.
    lanes = (TOP / ".git" if (TOP / ".git").is_dir() else TOP / "out") / "lokbrez-lanes"
    shutil.rmtree(lanes, ignore_errors=True)
    try:
        moment, crates = product.start_stamp(), Crates(TOP)
        names = crates.order(product.name)
        copy_sources(crates, names, lanes / "0", product.name if product.kind == "library" else None)
        with open(log, "wb") as written, Proving(Crates(lanes / "0"), product, TOP, written) as proving:
            made = proving.run(lambda lane: copy_sources(Crates(lanes / "0"), names, lanes / str(lane)))
        # In this order the stamp is never that of an older product.
        product.write_stamp(moment, Crates(lanes / "0").sum(names), made)
        os.replace(made, product.file)
    except (Failed, OSError) as fault:
        product.fail(f"{fault}\n{product.name}: the {product.kind} could not be built; {log} says why")
    finally:
        shutil.rmtree(lanes, ignore_errors=True)


def stop(number: int, _: FrameType | None) -> NoReturn:
    raise Stopped(number)


@contextlib.contextmanager
def ended_by_signals() -> Iterator[None]:
    """Has a signal end what is done here as it would have without the tidying, but after it."""
    signals = [it for it in (signal.SIGINT, signal.SIGTERM, signal.SIGHUP) if signal.getsignal(it) != signal.SIG_IGN]
    try:
        for number in signals:
            signal.signal(number, stop)
        yield
    except Stopped as stopped:
        signal.signal(stopped.args[0], signal.SIG_DFL)
        os.kill(os.getpid(), stopped.args[0])
