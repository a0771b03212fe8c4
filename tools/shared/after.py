"""What tools/start runs in place of a program where standard error is a terminal: the program, and after its status the words behind its
answer, on standard error.

    after.py NAME PROGRAM WORD..

The program has the standard output and standard error of this process. Its input is read along where it is a pipe or a terminal, and read
again where it is a file. The words come from a second run on the same input, whose answer is the same. Status and signal are the program's.
Any Python 3 can run this file; the words need 3.9.
"""
import os
import select
import signal
import stat
import sys

LONGEST = 1048576
READERS = ("show", "plan", "margin", "run", "check", "replay", "backup", "restore")
FORWARDED = (signal.SIGTERM, signal.SIGHUP, signal.SIGQUIT)
# What Python ignores, and a program it starts has as before.
IGNORED = (signal.SIGPIPE, signal.SIGXFSZ)


def run_program(program: str, words: "list[str]") -> None:
    """Becomes the program."""
    for number in IGNORED:
        signal.signal(number, signal.SIG_DFL)
    os.execv(program, [program] + words)


class Input:
    """Standard input: a file, which is read again, or a stream, which is read along; or neither, as a folder."""

    def __init__(self) -> None:
        self.kept = b""
        self.is_file = self.is_stream = False
        self.start = 0
        try:
            mode = os.fstat(0).st_mode
            self.is_file = stat.S_ISREG(mode)
            self.is_stream = stat.S_ISFIFO(mode) or stat.S_ISSOCK(mode) or os.isatty(0)
            if self.is_file:
                self.start = os.lseek(0, 0, os.SEEK_CUR)
        except OSError:
            pass

    def relay(self, to: int) -> None:
        """Passes the stream on until it ends, or until its reader does."""
        polled = select.poll()
        polled.register(0, select.POLLIN)
        polled.register(to, 0)
        while True:
            ready = dict(polled.poll())
            if to in ready or 0 not in ready:
                break
            piece = os.read(0, 65536)
            if not piece:
                break
            if len(self.kept) <= LONGEST:
                self.kept += piece
            try:
                while piece:
                    piece = piece[os.write(to, piece):]
            except BrokenPipeError:
                break
        os.close(to)
        # Who writes the stream ends as if it was the program's.
        nothing = os.open(os.devnull, os.O_RDONLY)
        os.dup2(nothing, 0)
        os.close(nothing)

    def whole(self) -> bytes:
        """The input, up to the one byte more than the program takes."""
        if not self.is_file:
            return self.kept[:LONGEST + 1]
        os.lseek(0, self.start, os.SEEK_SET)
        pieces = []
        left = LONGEST + 1
        while left > 0:
            piece = os.read(0, left)
            if not piece:
                break
            pieces.append(piece)
            left -= len(piece)
        return b"".join(pieces)


def run_beside(program: str, words: "list[str]", source: Input) -> int:
    """Runs the program to its end, and returns how it ended, as os.waitpid does."""
    ends = os.pipe() if source.is_stream else (-1, -1)
    child = os.fork()
    if child == 0:
        if source.is_stream:
            os.dup2(ends[0], 0)
            os.close(ends[0])
            os.close(ends[1])
        try:
            run_program(program, words)
        finally:
            os._exit(127)
    for number in FORWARDED:
        signal.signal(number, lambda got, _: os.kill(child, got))
    # An interrupt at the terminal goes to the program, too, and this process ends as that does.
    signal.signal(signal.SIGINT, signal.SIG_IGN)
    if source.is_stream:
        os.close(ends[0])
        source.relay(ends[1])
    ended = os.waitpid(child, 0)[1]
    for number in (signal.SIGINT,) + FORWARDED:
        signal.signal(number, signal.SIG_DFL)
    return ended


def explain(name: str, program: str, words: "list[str]", status: int, source: bytes) -> None:
    """Writes the words behind the answer."""
    if sys.version_info < (3, 9) or status not in (0, 1, 3, 7) or status == 0 and not (words[:1] == ["run"] and b"fault" in source):
        return
    sys.path.insert(0, os.path.dirname(os.path.dirname(os.path.abspath(__file__))))
    import subprocess

    from shared.explaining import explained

    def run(others: "list[str]", text: bytes) -> "tuple[int, str]":
        ran = subprocess.run([program] + others, input=text, stdout=subprocess.PIPE, stderr=subprocess.DEVNULL)
        return ran.returncode, ran.stdout.decode(errors="backslashreplace")
    answer = "" if status in (0, 7) else run(words, source)[1]
    for line in explained(name, words, status, source, answer, run):
        sys.stderr.write(line + "\n")


def main() -> None:
    name, program, words = sys.argv[1], sys.argv[2], sys.argv[3:]
    plain = [word for word in words if word != "--"]
    if plain[:1] == [] or plain[0] not in READERS:
        run_program(program, words)
    source = Input()
    ended = run_beside(program, words, source)
    if os.WIFSIGNALED(ended):
        import resource
        resource.setrlimit(resource.RLIMIT_CORE, (0, 0))
        if os.WTERMSIG(ended) not in (signal.SIGKILL, signal.SIGSTOP):
            signal.signal(os.WTERMSIG(ended), signal.SIG_DFL)
        os.kill(os.getpid(), os.WTERMSIG(ended))
    status = os.WEXITSTATUS(ended)
    try:
        explain(name, program, plain, status, source.whole())
        sys.stderr.flush()
    except Exception:  # the words are an addition: without them status and output are the same
        pass
    os._exit(status)


if __name__ == "__main__":
    main()
