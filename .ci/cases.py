#!/usr/bin/env python3
"""Runs programs on each case of a folder: cases.py PROGRAM FOLDER [OTHER..]

A case has the files `words` (one a line, of any bytes; none: no words), `stdin` (none: empty), `stdout` (none: nothing) and
`status` (none: 0). On standard error the program names a status other than 0. Where there is a file `call`, it is a line for
bash that starts the program and its words, "$@", with other streams or limits. Where there is a file `program`, it names the
one of the other programs that is run, by the name of its file.

Where only some lines of the output are known, `lines` stands in place of `stdout`. It has patterns of lines, with *, ?
and [..], that are among the output in this order. Of the words r, plan, stop, fall and end, each that begins a pattern
begins no other line of the output; nor does a word of the file `only`. No line of the output has a pattern of the file
`none`.

A case with a large input is a folder of these files. The others are in sheets, the files of the folder: a case begins with a
line `== NAME`, and each of its files with a line `= FILE`, or `= FILE, no last line feed`, after which its lines follow. A file
of one line may be written `= FILE: LINE`, with spaces between the words of `words` and `only`. The files before the first case
of a sheet are those of each case that has none of that name. A sheet may have bytes that aren't UTF-8.

The folder `refusals` has sheets of ring documents that are refused, by each command that reads one: a part begins with
a line `== NAME`, its refusal follows, and then the document. The folder `captures` has sheets of captures for `check` in
the same form, each with its answer, and `frames` sheets of lines for `show`; `replays` has sheets of inputs for `replay`,
each with the address and the answer, its lines joined by commas; `rings` sheets of inputs that `sercos_rings run` refuses,
each with its refusal. What a case of `run` writes is clean for `check`; if its document has no faults, the master and each
drive agree in a replay of it. Of what a case of `sercos_rings run` writes, the lines of each ring, without its number, are
what `run` writes of its document alone. As many cases run at once as there are processors. Ends with 0 where each case passed.
"""
import concurrent.futures
import fnmatch
import os
import pathlib
import re
import subprocess
import sys

STATUS = ["Done", "No", "BadWords", "Refused", "ReadFault", "WriteFault", "Memory", "TooLong"]
# The first words of lines that a case names all of, if it names one.
WHOLE = {"r", "plan", "stop", "fall", "end"}
READERS = [b"plan", b"margin", b"run", b"backup", b"restore"]
VERDICTS = {"clean": 0, "violation": 1, "refused": 3}
REPLAYS = {"agrees": 0, "differs": 1, "violation": 1, "refused": 3}
LONGEST = 1048576
# The names of the programs: the first one, and that of several rings.
FIRST, RINGS = "sercos", "sercos_rings"
LINE = re.compile(rb"[^\n]*\n|[^\n]+")
# The files of a case, and the lines of a sheet that begin a case and a file.
FILES = {"words", "stdin", "stdout", "status", "call", "program", "lines", "only", "none"}
PART = re.compile(rb"(?m)^== (.*)\n")
FILE = re.compile(rb"(?m)^= (\w+)(: .*|, no last line feed|)\n")


def has_pattern(line, several):
    return any(fnmatch.fnmatchcase(line, pattern) for pattern in several)


def other_output(wanted):
    """The test of an output that is known whole."""
    def faults(output):
        if output != wanted:
            yield f"output {output[:300]!r}, wanted {wanted[:300]!r}"
    return faults


def other_lines(wanted, only, none):
    """The test of an output of which some lines are known."""
    words = WHOLE & {pattern.split(" ")[0] for pattern in wanted} | set(only)

    def faults(output):
        lines = output.decode().splitlines()
        rest = iter(lines)
        for pattern in wanted:
            if not any(fnmatch.fnmatchcase(line, pattern) for line in rest):
                yield f"no line {pattern!r}, or not in this order"
        for line in lines:
            if line.split(" ")[0] in words and not has_pattern(line, wanted) or has_pattern(line, none):
                yield f"line {line[:200]!r}"
    return faults


def case_of(name, files):
    words = files.get("words", b"").splitlines()
    if "lines" in files:
        test = other_lines(*(files.get(file, b"").decode().splitlines() for file in ("lines", "only", "none")))
    else:
        test = other_output(files.get("stdout", b""))
    call = files.get("call", b"").strip()
    program = files.get("program", FIRST.encode()).decode().strip()
    return name, program, call, words, files.get("stdin", b""), test, int(files.get("status", b"0"))


def files_of(part):
    """The files of a case of a sheet, or those before its first case, by their names."""
    others, *pieces = FILE.split(part)
    files = {}
    for name, form, text in zip(pieces[0::3], pieces[1::3], pieces[2::3]):
        if form.startswith(b": "):
            others += text
            text = form[2:].replace(b" ", b"\n" if name in (b"words", b"only") else b" ") + b"\n"
        files[name.decode()] = text[:-1] if form.startswith(b", ") else text
    if others or not files.keys() <= FILES:
        raise ValueError(f"a sheet has lines that are no file of a case: {part[:300]!r}")
    return files


def sheet_files(sheet):
    """The name and the files of each case of a sheet."""
    common, *pieces = PART.split(sheet.read_bytes())
    for name, part in zip(pieces[0::2], pieces[1::2]):
        yield name.decode(), files_of(common) | files_of(part)


def case_files(folder):
    """The name and the files of each case of a folder that has files."""
    for path in sorted(folder.iterdir()):
        if path.is_file():
            yield from sheet_files(path)
        elif path.name not in SHEETS:
            yield path.name, {file.name: file.read_bytes() for file in path.iterdir()}


def parts(sheet):
    """The name, the answer and the input of each part of a sheet."""
    for part in ("\n" + sheet.read_bytes().decode()).split("\n== ")[1:]:
        name, _, text = part.partition("\n")
        answer, _, source = text.partition("\n")
        yield name, answer, source


def refusal_cases(sheet):
    for name, refusal, document in parts(sheet):
        for word in READERS:
            wanted = other_output(refusal.encode() + b"\n")
            yield f"{sheet.stem} {name} {word.decode()}", FIRST, b"", [word], document.encode(), wanted, 3


def capture_cases(sheet):
    for name, answer, capture in parts(sheet):
        source = capture.rstrip("\n") + "\n" if capture else ""
        status = VERDICTS[answer.split(" ")[0]]
        wanted = other_output(answer.encode() + b"\n")
        yield f"{sheet.stem} {name}", FIRST, b"", [b"check"], source.encode(), wanted, status


def frame_cases(sheet):
    for name, answer, line in parts(sheet):
        status = 3 if answer.startswith("refused ") else 0
        wanted = other_output(answer.encode() + b"\n")
        yield f"{sheet.stem} {name}", FIRST, b"", [b"show"], line.encode(), wanted, status


def replay_cases(sheet):
    for name, answer, source in parts(sheet):
        address, _, text = answer.partition(" ")
        wanted = other_output(text.replace(", ", "\n").encode() + b"\n")
        words = [b"replay", address.encode()]
        source = source.rstrip("\n").encode() + b"\n"
        yield f"{sheet.stem} {name}", FIRST, b"", words, source, wanted, REPLAYS[text.split(" ")[0]]


def ring_cases(sheet):
    for name, refusal, source in parts(sheet):
        source = source.rstrip("\n") + "\n" if source else ""
        wanted = other_output(refusal.encode() + b"\n")
        yield f"{sheet.stem} {name}", RINGS, b"", [b"run"], source.encode(), wanted, 3


SHEETS = {"refusals": refusal_cases, "captures": capture_cases, "frames": frame_cases, "replays": replay_cases,
          "rings": ring_cases}


def cases(folder):
    for name, files in case_files(folder):
        yield case_of(name, files)
    for name, cases_of in SHEETS.items():
        for sheet in sorted((folder / name).iterdir()):
            yield from cases_of(sheet)


def replay_faults(programs, document, trace):
    """What is wrong with the replays of a run in which nothing is disturbed."""
    source = document.rstrip(b"\n") + b"\ncapture\n" + trace
    agrees = other_output(b"agrees %d\n" % trace.count(b"\nm "))
    addresses = [line.split(b" ")[1] for line in trace.splitlines() if line.startswith(b"drive ")]
    for address in [b"0"] + addresses if len(source) <= LONGEST else []:
        for fault in faults(programs, FIRST, b"", [b"replay", address], source, agrees, 0):
            yield f"replay {address.decode()}: {fault}"


def trace_faults(programs, document, trace):
    """What is wrong with the trace of a run."""
    clean = other_output(b"clean %d\n" % trace.count(b"\n"))
    yield from faults(programs, FIRST, b"", [b"check"], trace, clean, 0)
    if b"fault" not in document:
        yield from replay_faults(programs, document, trace)


def documents(source):
    """The parts of an input, which lines that are exactly `next` divide."""
    several = [b""]
    for line in LINE.findall(source):
        if line in (b"next", b"next\n"):
            several.append(b"")
        else:
            several[-1] += line
    return several


def own_lines(text, number):
    """The lines of the ring with this number in a merged text, without it."""
    mark = b"%d " % number
    return b"".join(line[len(mark):] for line in LINE.findall(text) if line.startswith(mark))


def merged_faults(programs, source, text):
    """What is wrong with the lines of each ring in a merged text."""
    for number, document in enumerate(documents(source), 1):
        alone = other_output(own_lines(text, number))
        for fault in faults(programs, FIRST, b"", [b"run"], document, alone, 0):
            yield f"ring {number}: {fault}"


def faults(programs, program, call, words, source, test, status):
    if program not in programs:
        yield f"no program {program} is given"
        return
    name = b"" if status == 0 else STATUS[status].encode() + b"\n"
    start = ["bash", "-c", call, "bash"] if call else []
    run = subprocess.run(start + [programs[program]] + words, input=source, capture_output=True, timeout=60)
    if run.returncode != status:
        yield f"status {run.returncode}, wanted {status}"
    yield from test(run.stdout)
    if run.stderr != name:
        yield f"standard error {run.stderr[:300]!r}, wanted {name!r}"
    if program == FIRST and words == [b"run"] and status == 0:
        yield from trace_faults(programs, source, run.stdout)
    if program == RINGS and b"run" in words and status == 0 and not call:
        yield from merged_faults(programs, source, run.stdout)


def main():
    first, folder, *others = sys.argv[1:]
    programs = {FIRST: first} | {pathlib.Path(other).name: other for other in others}
    passed = failed = 0
    with concurrent.futures.ThreadPoolExecutor(len(os.sched_getaffinity(0))) as pool:
        for name, found in pool.map(lambda case: (case[0], list(faults(programs, *case[1:]))), cases(pathlib.Path(folder))):
            for fault in found:
                print(f"case {name}: {fault}")
            passed, failed = (passed, failed + 1) if found else (passed + 1, failed)
    print(f"cases: {passed} passed, {failed} failed")
    return 1 if failed or not passed else 0


if __name__ == "__main__":
    sys.exit(main())
