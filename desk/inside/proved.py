"""The proved programs, as the desk starts them: by way of `./trovimbe`, which proves what is not proved yet."""
import collections
import os
import select
import signal
import subprocess
import sys
import tempfile
from types import TracebackType
from typing import Optional, Type

from .slips import Unfit

TOP = os.path.dirname(os.path.dirname(os.path.dirname(os.path.abspath(__file__))))
COMMAND = os.path.join(TOP, "trovimbe")
READ = 65536  # bytes at once


def watched() -> bool:
    """Whether somebody sits at a terminal, who is shown how far the proof is where a program has to be proved first."""
    return sys.stderr is not None and sys.stderr.isatty()


def unstarted(fault: OSError) -> Unfit:
    return Unfit(f"{COMMAND} cannot be started: {fault.strerror}; it belongs beside the folder desk")


def refused(name: str, status: int, said: bytes) -> str:
    return said.decode(errors="replace").strip() or f"{name} ended with status {status}" + ("; what it says stands above" if watched() else "")


def output(name: str, given: bytes, *words: str) -> bytes:
    """What a proved program writes on standard output; what it says on standard error, where it refuses, is the reason of the Unfit."""
    try:
        ended = subprocess.run([COMMAND, name, *words], input=given, stdout=subprocess.PIPE, stderr=None if watched() else subprocess.PIPE, check=False)
    except OSError as fault:
        raise unstarted(fault) from fault
    if ended.returncode != 0:
        raise Unfit(refused(name, ended.returncode, ended.stderr or b""))
    return ended.stdout


def checksum(message: bytes) -> int:
    """The 1-Wire CRC, by the program `checksum`."""
    return int(output("checksum", bytes([len(message)]) + message), 16)


class Gone(Unfit):
    """A program that was kept open has ended where it should not have."""


class Kept:
    """A proved program that is kept open, as `live`: it answers each record with a line as soon as it has come. The pipes to and from it hold little, so
    what it writes is taken while it is sent more: neither waits for the other for ever, however much is sent at once. It is in a process group of its
    own, so that Ctrl-C at a terminal, which is meant for whoever keeps it, does not end it before it has written what it has to."""

    def __init__(self, name: str, *words: str) -> None:
        self.name = name
        self.said = tempfile.TemporaryFile()
        try:
            self.process = subprocess.Popen([COMMAND, name, *words], stdin=subprocess.PIPE, stdout=subprocess.PIPE, stderr=None if watched() else self.said,
                                            start_new_session=True)
        except OSError as fault:
            self.said.close()
            raise unstarted(fault) from fault
        self.into, self.out = (pipe.fileno() for pipe in (self.process.stdin, self.process.stdout) if pipe)
        os.set_blocking(self.into, False)
        self.lines: "collections.deque[bytes]" = collections.deque()
        self.part = b""  # of a line
        self.headed = False

    def __enter__(self) -> "Kept":
        return self

    def __exit__(self, kind: Optional[Type[BaseException]], fault: Optional[BaseException], trace: Optional[TracebackType]) -> None:
        self.stop()

    def ask(self, record: bytes) -> bytes:
        """The line that a whole record is answered."""
        return self.asked([record])[0]

    def asked(self, sent: "list[bytes]") -> "list[bytes]":
        """The lines that whole records are answered, one for each."""
        self.pass_on(b"".join(sent), len(sent))
        return [self.line() for _ in sent]

    def end(self, rest: bytes = b"") -> "list[bytes]":
        """Sends what is cut and ends the input: the program does what it does then, and what it prints of that comes back."""
        self.pass_on(rest, 0)
        if self.process.stdin:
            self.process.stdin.close()
        while self.came():
            pass
        if self.process.wait() != 0:
            raise self.fault()
        return [self.line() for _ in range(len(self.lines) - (not self.headed))]

    def stop(self) -> None:
        """Lets go of the program; where it has not ended, it is ended wherever it is."""
        if self.process.poll() is None:
            os.killpg(self.process.pid, signal.SIGTERM)
        for pipe in (self.process.stdin, self.process.stdout):
            if pipe:
                pipe.close()
        self.process.wait()
        self.said.close()

    def pass_on(self, sent: bytes, lines: int) -> None:
        """Sends bytes, and waits for so many lines."""
        left = memoryview(sent)
        while left or len(self.lines) < lines + (lines > 0 and not self.headed):
            wanted = select.poll()
            wanted.register(self.out, select.POLLIN)
            if left:
                wanted.register(self.into, select.POLLOUT)
            ready = {at for at, _ in wanted.poll()}
            if self.out in ready and not self.came():
                raise self.fault()
            if self.into in ready:
                left = left[self.took(left):]

    def took(self, left: memoryview) -> int:
        """How many of these bytes the program's input takes now."""
        try:
            return os.write(self.into, left[:READ])
        except BlockingIOError:
            return 0
        except BrokenPipeError:
            raise self.fault() from None

    def came(self) -> bool:
        """Takes what the program has written; False where it has ended."""
        data = os.read(self.out, READ)
        *whole, self.part = (self.part + data).split(b"\n")
        self.lines.extend(whole)
        return bool(data)

    def line(self) -> bytes:
        """The next line of those that came; the first of all is the header."""
        if not self.headed:
            self.lines.popleft()
            self.headed = True
        return self.lines.popleft()

    def fault(self) -> Gone:
        """Why there is no line: what the program said, once it is over."""
        status = self.process.wait()
        self.said.seek(0)
        return Gone(refused(self.name, status, self.said.read()))
