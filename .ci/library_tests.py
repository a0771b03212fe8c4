"""What the tests of the library share: whether it can be made, its header, and the compilers of this machine."""
import os
import pathlib
import re
import shutil
import subprocess

from tool_tests import TOP, run

BUILD = TOP / "build"
ARCHIVE = TOP / "crates/sercos_c/out/libsercos_c.a"
HEADER = TOP / "include/sercos.h"
CC = shutil.which(os.environ.get("CC", "cc")) or shutil.which("gcc")


def functions():
    """The names of the functions that the header declares."""
    text = re.sub(r"(?s)/\*.*?\*/", "", HEADER.read_text(encoding="utf-8"))
    return sorted(re.findall(r"(?m)^(?:uint8_t|uint16_t|void) (sercos_\w+)\(", text))


def has_library(tests):
    """Whether the library is there: tools/library makes it, or says that nothing has changed."""
    if not CC:
        tests.skip("a C compiler, for the library")
        return False
    if not ARCHIVE.exists():
        tests.skip("the library, which tools/library builds")
        return False
    ran = run([TOP / "tools/library"])
    tests.same("tools/library", (ran.returncode, ran.stdout), (0, b""))
    return ran.returncode == 0


def compiled(source, to, *flags, compiler=CC):
    """Compiles a source of the repository: what the compiler says, if it fails."""
    ran = run([compiler, source, "-o", to, f"-I{BUILD}/include", f"-I{TOP}/.ci/embed", "-pthread", *flags])
    return ran.stderr.decode() if ran.returncode else ""


def head_commands(source):
    """The commands in the comment at the head of a program: its lines that are set in by three blanks or more."""
    head = re.match(r'(?s)/\*.*?\*/|"""(.*?)"""|(?://[^\n]*\n)+', source.read_text(encoding="utf-8"))[0]
    return [line for line in re.findall(r"(?m)^(?: \*|//!?|)? {3,}(\S.*)$", head)]


def answer(words, source=b"", seconds=100, **options):
    """The status and the output of a command, and what it says on standard error."""
    ran = subprocess.run([str(word) for word in words], input=source, capture_output=True, timeout=seconds, cwd=TOP, **options)
    return ran.returncode, ran.stdout.decode(errors="replace"), ran.stderr.decode(errors="replace")


def scripts(folder):
    """The folder with the programs of an environment of Python."""
    return pathlib.Path(folder) / "bin"
