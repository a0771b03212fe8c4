#!/usr/bin/env python3
"""Runs the examples of documents as they are printed: examples.py DOCUMENT..

An example stands in a block that begins with ```console: each line that begins with `$ ` is a command, run at the top of
the repository, and the lines behind it are the standard output that it must have. In a ring document the comment at the
head has a command in a line of its own, and behind `prints` the lines of its output, all set in. Ends with 0 where each
is as printed.
"""
import re
import subprocess
import sys


def examples(text):
    for block in re.findall(r"^```console\n(.*?)^```$", text, re.M | re.S):
        for part in re.split(r"^\$ ", block, flags=re.M)[1:]:
            command, _, output = part.partition("\n")
            yield command, output


def headed(text):
    head = text.partition("\n\n")[0]
    before, _, after = head.partition("# prints\n")
    command = re.findall(r"^#   (.*)$", before, re.M)
    output = re.findall(r"^#   (.*)$", after, re.M)
    yield command[0], "".join(line + "\n" for line in output)


def main():
    passed = failed = 0
    for name in sys.argv[1:]:
        with open(name, encoding="utf-8") as document:
            text = document.read()
        for command, output in headed(text) if name.endswith(".toml") else examples(text):
            run = subprocess.run(["bash", "-c", command], capture_output=True, text=True, timeout=600)
            if run.stdout == output:
                passed += 1
            else:
                failed += 1
                print(f"{name}: {command}\nprints\n{run.stdout}\nand not\n{output}")
    print(f"examples: {passed} passed, {failed} failed")
    return 1 if failed or not passed else 0


sys.exit(main())
