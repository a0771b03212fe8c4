"""What the test of the launcher stands on: a repository in a temporary folder, a fake rt and a fake program, and a terminal."""
import os
import pathlib
import pty
import shutil
import signal
import subprocess
import sys

from tool_tests import TOP

SHARED = ["sercos", "sercos_rings", "try", "VERSION", "man/man1/sercos.1", "tools/start", "tools/build", "tools/library",
          *(f"tools/shared/{name}.py" for name in ("__init__", "build_times", "building", "crates", "linking", "llvm_module", "proving")),
          "library/heap.c", "library/exports.map", "include/sercos.h"]
NO_RT = "{}: the program is missing or older than a source, and there is no rt to build it\n"
# All that the launcher may use beside rt.
COMMANDS = ["bash", "cat", "cp", "dirname", "env", "find", "grep", "readlink", "rm", "sed", "sleep"]
CRATES = """# a comment
sercos_model:
sercos_bits: sercos_model arrayvec
sercos_text: sercos_model
sercos_app: sercos_bits sercos_text
sercos: sercos_app
sercos_rings: sercos_bits
sercos_c: sercos_bits
sercos_tests: sercos_bits
"""
BELOW = {"sercos": ["sercos_model", "sercos_bits", "sercos_text", "sercos_app", "sercos"],
         "sercos_rings": ["sercos_model", "sercos_bits", "sercos_rings"]}
# It takes one command and writes its input, its number and what it ignores. `signal` ends it by a signal, and `fail` with status 3.
PROGRAM = """#!/usr/bin/env bash
case "$#$1" in
  1show | 1run | 1plan) read -r line || { [ -t 0 ] || read -r line < /dev/stdin || [ ! -d /dev/stdin ] || exit 4; }
    echo "$1 $line"; cat ;;
  1where) echo $$ ; grep SigIgn /proc/$$/status ;;
  1signal) [ -d /dev/stdin ] || kill -TERM $$ ;;
  1fail) echo Refused >&2; exit 3 ;;
  *) echo BadWords >&2; exit 2 ;;
esac
"""


class Repository:
    """A repository with what ./sercos needs, and a folder with rt."""

    def __init__(self, folder):
        self.top, self.tools = folder / "a repository", folder / "tools"
        for file in SHARED:
            (self.top / file).parent.mkdir(parents=True, exist_ok=True)
            shutil.copy(TOP / file, self.top / file)
        (self.top / "crates.txt").write_text(CRATES)
        for line in CRATES.splitlines()[1:]:
            name = line.partition(":")[0].split()[0]
            for part in ("src", "specs", "proofs"):
                (self.top / "crates" / name / part).mkdir(parents=True)
            (self.top / "crates" / name / "src/main.rt").write_text(f"//! {name}\n" * 100)
            (self.top / "crates" / name / "args").write_text("show\n")
            (self.top / "crates" / name / "stdin").write_text("\n")
        self.tools.mkdir()
        for name in COMMANDS:
            (self.tools / name).symlink_to(shutil.which(name))
        (self.tools / "python3").symlink_to(os.path.realpath(sys.executable))
        shutil.copy(TOP / ".ci/fake_rt", self.tools / "rt")
        (self.tools / "program").write_text(PROGRAM)
        (self.tools / "program").chmod(0o755)
        self.env = {"PATH": str(self.tools), "TOOLS": str(self.tools)}

    def path(self, crate, part):
        return self.top / "crates" / crate / part

    def sources(self):
        """The files of all crates but what was built."""
        return [path for path in (self.top / "crates").rglob("*") if path.is_file() and "out" not in path.parts]

    def env_without_rt(self):
        """An environment with all commands but rt."""
        folder = self.tools.parent / "no rt"
        if not folder.exists():
            shutil.copytree(self.tools, folder, symlinks=True)
            (folder / "rt").unlink()
        return self.env | {"PATH": str(folder)}

    def set(self, file, text):
        """Writes a file that the fake rt looks for, or deletes it."""
        if text is None:
            (self.tools / file).unlink()
        else:
            (self.tools / file).write_text(text)

    def built(self):
        """The crates that rt has built since this was asked last, each with the times at which it began and ended."""
        calls = self.tools / "calls"
        lines = [line.split() for line in calls.read_text().splitlines()] if calls.exists() else []
        calls.unlink(missing_ok=True)
        return {name: (float(began), float(ended)) for name, began, ended in lines}

    def start(self, words):
        """A process that heeds an interrupt, also if the test ignores it."""
        return subprocess.Popen([str(word) for word in words], stdin=subprocess.DEVNULL, stdout=subprocess.PIPE, stderr=subprocess.PIPE,
                                env=self.env, preexec_fn=lambda: signal.signal(signal.SIGINT, signal.SIG_DFL))

    def answer(self, words, source=b"", **options):
        """The status, the output and the message of a command, by default at the top."""
        options = {"env": self.env, "cwd": self.top} | options
        ran = subprocess.run([str(word) for word in words], input=source, capture_output=True, timeout=60, **options)
        return ran.returncode, ran.stdout.decode(), ran.stderr.decode()

    def at_terminal(self, words, source=b"", **options):
        return at_terminal(words, source, **({"env": self.env, "cwd": self.top} | options))


def at_terminal(words, source=b"", **options):
    """The status, the output, and what is written on standard error if that is a terminal."""
    master, slave = pty.openpty()
    with subprocess.Popen([str(word) for word in words], stdin=subprocess.PIPE, stdout=subprocess.PIPE, stderr=slave,
                          **options) as process:
        os.close(slave)
        output, _ = process.communicate(source)
    return process.returncode, output.decode(), read_all(master)


def read_all(terminal):
    """What was written to a terminal that is closed at its other end."""
    found = b""
    while True:
        try:
            piece = os.read(terminal, 4096)
        except OSError:
            piece = b""
        if not piece:
            os.close(terminal)
            return found.decode().replace("\r\n", "\n")
        found += piece


def rewritten(path: pathlib.Path):
    """Writes a file anew with what it has, as a checkout does."""
    text = path.read_bytes()
    path.unlink()
    path.write_bytes(text)
