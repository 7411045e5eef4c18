"""What a call of `report` asks for, and the doing of it."""
import os
import sys
import tempfile
from typing import NamedTuple

from . import gauge, progress, report_index, report_input, report_page, report_picture, report_png, report_story, start
from .report_input import Csv
from .report_story import Story
from .slips import Slip, Unfit, plain

MEASURES = ("time", "current", "voltage", "temperature")
TAKES = ("--pack", "--out", *(f"--{measure}" for measure in MEASURES))
FLAGS = ("--csv", "--fill", "--svg", "--png", "--tray", "--plain")
MOST = (5000, 4000, 3000, 2000, 1000, 500)  # rows of a page: as many as leave it under its limit
LONGEST = (100000, 400, 160, 80)  # letters of a text in the table


class Call(NamedTuple):
    """A call, understood."""
    flags: "set[str]"
    given: "dict[str, str]"
    files: "list[str]"


class Misused(Exception):
    """A call with other words than it takes."""


def understood(words: "list[str]") -> Call:
    flags: "set[str]" = set()
    given: "dict[str, str]" = {}
    files = []
    rest = iter(start.split(words, TAKES))
    for word in rest:
        option = "--out" if word == "-o" else word
        if option in TAKES:
            value = next(rest, None)
            if value is None:
                raise Misused(f"{word} takes a word")
            given[option[2:]] = value
        elif word in FLAGS:
            flags.add(word)
        elif word.startswith("-") and word != "-":
            raise Misused(start.mistaken([word], (*TAKES, *FLAGS)) or f"it does not take {plain(word)}")
        else:
            files.append(word)
    call = Call(flags, given, files)
    checked(call)
    return call


def checked(call: Call) -> None:
    columns = [name for name in call.given if name in MEASURES]
    if "--csv" in call.flags and "pack" not in call.given:
        raise Misused("--csv takes a pack, too: --pack=PACK")
    if "--csv" not in call.flags and ("pack" in call.given or columns or "--fill" in call.flags):
        raise Misused("--pack, --fill and names of columns belong to --csv")
    if {"--svg", "--png"} <= call.flags:
        raise Misused("--svg or --png, not both")
    if len(call.files) > 1 and "out" not in call.given:
        raise Misused("several files take a folder: -o DIR")
    if {"--svg", "--png"} & call.flags and "out" in call.given:
        raise Misused("-o DIR is for pages; --svg and --png write one picture on standard output")


def told(name: str, call: Call, most: int) -> Story:
    """The story of a file."""
    columns = {measure: call.given[measure] for measure in MEASURES if measure in call.given}
    csv = Csv(call.given["pack"], columns, "--fill" in call.flags) if "--csv" in call.flags else None
    found, pieces = gauge.sorted_out(progress.counted(report_input.pieces(name, csv), "report"))
    tray = "--tray" in call.flags or (found and "--plain" not in call.flags)
    return report_story.tell(report_input.called(name) if name == "-" else os.path.basename(name), pieces, tray, most)


def paged(story: Story) -> str:
    """The page of a story, of as many rows and with texts as long as leave it under a million bytes."""
    whole = story.kept
    for most in MOST:
        story.kept = report_story.fewer(whole, most, story.counts)
        around = report_page.Around(story)
        for longest in LONGEST:
            made = around.page(longest)
            if len(made.encode()) < report_page.MOST_BYTES:
                return made
    return made


def whole_file(path: str, text: str) -> None:
    """Writes a file whole or not at all: beside it, then renamed."""
    folder = os.path.dirname(path) or "."
    try:
        handle, beside = tempfile.mkstemp(dir=folder, prefix=".report-")
        try:
            with os.fdopen(handle, "w", encoding="utf-8") as file:
                file.write(text)
            umask = os.umask(0)
            os.umask(umask)
            os.chmod(beside, 0o666 & ~umask)
            os.replace(beside, path)
        except OSError:
            os.unlink(beside)
            raise
    except OSError as fault:
        raise Unfit(f"cannot write {plain(path)}: {fault.strerror}") from fault


def pages(call: Call) -> int:
    """A page for each file, and an index of all pages in the folder."""
    folder = call.given["out"]
    try:
        os.makedirs(folder, exist_ok=True)
    except OSError as fault:
        raise Unfit(f"cannot make {plain(folder)}: {fault.strerror}") from fault
    status = start.OK
    taken: "set[str]" = set()
    for name in call.files:
        try:
            text = paged(told(name, call, MOST[0]))
        except (Slip, Unfit) as fault:
            status = start.said(fault.told() if isinstance(fault, Slip) else str(fault), start.WRONG)
            continue
        whole_file(os.path.join(folder, report_index.page_name(name, taken)), text)
    whole_file(os.path.join(folder, "index.html"), report_index.index(folder))
    return status


def program(words: "list[str]") -> int:
    try:
        call = understood(words)
    except Misused as fault:
        return start.misused("report", str(fault))
    if "out" in call.given:
        return pages(call)
    story = told(start.named(call.files), call, MOST[0])
    if "--svg" in call.flags:
        written(report_picture.alone(story, report_page.described(story)).encode())
    elif "--png" in call.flags:
        written(report_png.png(report_picture.alone(story, "", False)))
    else:
        written(paged(story).encode())
    return start.OK


def written(data: bytes) -> None:
    sys.stdout.buffer.write(data)
    sys.stdout.buffer.flush()
