"""What the tools of this folder share on the command line: the input, the messages, the program."""
from __future__ import annotations

import argparse
import contextlib
import io
import os
import pathlib
import subprocess
import sys
from collections.abc import Callable, Iterator
from typing import Any, TextIO, TypeVar

from .trace_lines import BadInput

TOP = pathlib.Path(__file__).resolve().parents[2]
Made = TypeVar("Made")


def program_of(name: str) -> pathlib.Path:
    """The program that ./sercos runs, too: tools/start says which one it is. None is built here."""
    named, released = os.environ.get("LOKBREZ_PROGRAM"), TOP / "libexec" / name
    if named:
        return pathlib.Path(named, name) if pathlib.Path(named).is_dir() else pathlib.Path(named).absolute()
    return released if released.exists() else TOP / "crates" / name / "out" / name


PROGRAM = program_of("sercos")


def parser_of(text: str, input_name: str, input_help: str) -> argparse.ArgumentParser:
    """A parser for a tool that reads one text: from a file, or from standard input if there is none."""
    parser = argparse.ArgumentParser(description=text, formatter_class=argparse.RawDescriptionHelpFormatter)
    parser.add_argument("input", metavar=input_name, nargs="?", default="-",
                        help=f"{input_help}; standard input if absent or -")
    return parser


@contextlib.contextmanager
def opened(name: str) -> Iterator[TextIO]:
    """The input as a text. Bytes that aren't UTF-8 are kept as marks that no line takes."""
    if name == "-":
        assert isinstance(sys.stdin, io.TextIOWrapper)
        sys.stdin.reconfigure(encoding="utf-8", errors="backslashreplace", newline="\n")
        yield sys.stdin
    else:
        with open(name, encoding="utf-8", errors="backslashreplace", newline="\n") as stream:
            yield stream


def read_bytes(name: str) -> bytes:
    return sys.stdin.buffer.read() if name == "-" else pathlib.Path(name).read_bytes()


def toml_of(text: str) -> dict[str, Any]:
    """The tables of a ring document. Text that isn't TOML 1.0 is a ValueError."""
    try:
        import tomllib
    except ImportError as fault:
        raise BadInput("a ring document is read by Python 3.11 or later; the other tools need 3.9") from fault
    return tomllib.loads(text)


def started(program: str | pathlib.Path, *words: str) -> subprocess.Popen[bytes]:
    try:
        return subprocess.Popen([program, *words], stdin=subprocess.PIPE, stdout=subprocess.PIPE,
                                stderr=subprocess.DEVNULL)
    except OSError as fault:
        raise BadInput(f"the program {program} can't be started ({fault.strerror}); build it with ./sercos, "
                       "or name it with --program")


def answer_of(program: str | pathlib.Path, word: str, source: bytes) -> tuple[int, str]:
    """The status and the whole output of the program."""
    return output_of(program, [word], source)


def output_of(program: str | pathlib.Path, words: list[str], source: bytes) -> tuple[int, str]:
    """The status and the whole output of the program, to the words of a command."""
    with started(program, *words) as process:
        output, _ = process.communicate(source)
    return process.returncode, output.decode(errors="backslashreplace")


def first_lines_of(program: str | pathlib.Path, word: str, source: bytes, reader: Callable[[Iterator[str]], Made]) -> Made:
    """What the reader makes of the beginning of the program's output. The program then ends, as its output is closed."""
    with started(program, word) as process:
        assert process.stdin and process.stdout
        # The program reads all of its input before it writes.
        with contextlib.suppress(BrokenPipeError):
            process.stdin.write(source)
        with contextlib.suppress(BrokenPipeError):
            process.stdin.close()
        output = (line.decode(errors="backslashreplace") for line in process.stdout)
        return reader(output)


def run_tool(name: str, main: Callable[[], None]) -> None:
    """Runs a tool to its end. Status 0: all was written; 1: the input was refused, or the output was closed."""
    try:
        main()
        sys.stdout.flush()
    except BrokenPipeError:
        os.dup2(os.open(os.devnull, os.O_WRONLY), sys.stdout.fileno())
        sys.exit(1)
    except (BadInput, OSError) as fault:
        print(f"{name}: {fault}", file=sys.stderr)
        sys.exit(1)
