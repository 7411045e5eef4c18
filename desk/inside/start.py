"""How a program of the desk starts and ends: its page, its words, its errors."""
import codecs
import io
import os
import sys
from typing import BinaryIO, Callable, Iterable, Iterator

from . import looks, proved, records
from .lexer import Word
from .slips import Place, Slip, Unfit, nearest, plain

OK, WRONG, MISUSED = 0, 1, 2
CHUNK = 65536  # bytes that are read at once
MOST_LETTERS = 1 << 20  # of a line
SELF = os.environ.get("TROVIMBE_SELF", "./trovimbe")  # how the command is called, as it says itself


def page(name: str) -> str:
    """The page of a program, which the man page has too."""
    path = os.path.join(proved.TOP, "docs", "programs", name + ".txt")
    with open(path, encoding="utf-8") as file:
        return file.read().replace("./trovimbe", SELF)


def run(name: str, program: Callable[["list[str]"], int]) -> None:
    """Runs a program on the words of its call. `--help` prints its page; a slip, and whatever else does not fit, is said in a few lines."""
    words = sys.argv[1:]
    if sys.stdin is None or sys.stdout is None:  # closed by whoever started it
        sys.exit(said(f"{name}: standard input or output is closed: hand over a file, or /dev/null", WRONG))
    try:
        if "--help" in words or "-h" in words:
            sys.stdout.write(f"usage: {SELF} " + page(name))
            status = OK
        else:
            status = program(words)
        sys.stdout.flush()
    except Slip as slip:
        status = said(slip.told(), WRONG)
    except Unfit as fault:
        status = said(str(fault), WRONG)
    except BrokenPipeError:  # whoever reads has gone away: end quietly, as other programs do
        forget()
        status = OK
    except KeyboardInterrupt:
        status = 130
    except OSError as fault:
        forget()
        status = said(f"cannot write: {fault.strerror}", WRONG)
    except (MemoryError, RecursionError):
        status = said(f"{name}: this takes more memory than there is: try a shorter part of it", WRONG)
    sys.exit(status)


def forget() -> None:
    """Lets what could not be written go nowhere, or Python would try it again at its end."""
    os.dup2(os.open(os.devnull, os.O_WRONLY), sys.stdout.fileno())


def said(text: str, status: int) -> int:
    if sys.stderr is not None:
        print(text, file=sys.stderr)
    return status


def misused(name: str, why: str) -> int:
    """A call with other words than the program takes."""
    return said(f"{name}: {why}\nusage: {SELF} {page(name).splitlines()[0]}; `{SELF} {name} --help` says more", MISUSED)


def mistaken(words: "Iterable[str]", known: "Iterable[str]") -> str:
    """What is to be said of the first of these words that is no option, or nothing."""
    known = list(known)
    odd = next((word for word in words if word.startswith("--") and word not in known), "")
    like = nearest(odd.partition("=")[0], known) if odd else ""
    return odd and f"it does not take {plain(odd)}" + (f": {like}" if like else "")


def split(words: "list[str]", takes: "tuple[str, ...]") -> "list[str]":
    """The same words, where an option that takes a word, `--every=8`, is written as two."""
    found = []
    for word in words:
        option, sign, value = word.partition("=")
        found += [option, value] if sign and option in takes else [word]
    return found


def named(words: "list[str]") -> str:
    """The file that a call names, or - for standard input."""
    return words[0] if words else "-"


def shown() -> None:
    """Lets go of what was written, before more input is waited for: whoever hands over one record after the other gets each answer at once."""
    sys.stdout.flush()


def pieces(name: str, program: str) -> records.Pieces:
    """The records of a file or of standard input, as they come. Who sits at a terminal is told where they look like something else; they stay as they are."""
    file = binary(name)
    read: "Callable[[int], bytes]" = getattr(file, "read1", None) or file.read

    def told(head: bytes) -> None:
        hint = looks.hint(head, SELF, program, "FILE" if name == "-" else plain(name))
        if hint:
            said(f"{program}: {hint}", OK)
    return records.Pieces(looks.watched(read, told) if proved.watched() else read, shown)


def lines(name: str) -> "tuple[str, Iterable[str]]":
    """The lines of a text file or of standard input, and how the file is called in errors."""
    return ("standard input", readable(sys.stdin.buffer, "standard input")) if name == "-" else (name, opened_text(name))


def typed(name: str) -> bool:
    """Whether the input is typed at a terminal."""
    return name == "-" and sys.stdin.isatty()


def opened_text(name: str) -> Iterator[str]:
    with binary(name) as file:
        yield from readable(file, name)


def readable(file: BinaryIO, name: str) -> Iterator[str]:
    """The lines of a text, as they come."""
    decoder = io.IncrementalNewlineDecoder(codecs.getincrementaldecoder("utf-8-sig")(), translate=True)
    rest, data = "", b" "
    while data:
        shown()
        data = some(file, name)
        try:
            *whole, rest = (rest + decoder.decode(data, final=not data)).split("\n")
        except UnicodeDecodeError as fault:
            raise Unfit(f"{name} is no text: it has bytes that are not UTF-8. `{SELF} words` turns a session of bytes into words") from fault
        if len(rest) > MOST_LETTERS:
            raise Unfit(f"{name} has a line of over {MOST_LETTERS:,} letters: see whether it is a text")
        for line in whole:
            yield line + "\n"
    if rest:
        yield rest


def some(file: BinaryIO, name: str) -> bytes:
    """Bytes that have come, of a file; none at its end."""
    try:
        return bytes((getattr(file, "read1", None) or file.read)(CHUNK))
    except OSError as fault:
        raise unread(name, fault) from fault


def unread(name: str, fault: OSError) -> Unfit:
    return Unfit(f"cannot read {name}: {fault.strerror}; see whether the name is right and the file may be read")


def included(word: Word, path: str) -> Iterator[str]:
    """The lines of a file that a statement includes."""
    try:
        file = open(path, "rb")
    except OSError as fault:
        place: Place = word.place
        raise Slip(place, f"cannot read {path}: {fault.strerror}", "a file is looked for beside the one that includes it") from fault
    with file:
        yield from readable(file, path)


def binary(name: str) -> BinaryIO:
    """A file of bytes, or standard input."""
    if name == "-":
        return sys.stdin.buffer
    try:
        return open(name, "rb")
    except OSError as fault:
        raise unread(name, fault) from fault
