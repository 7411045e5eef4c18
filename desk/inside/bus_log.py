"""What happened on a line, in words that `write` takes back: the packs, then each transaction and each event, in their order."""
from typing import Optional, TextIO

from . import start
from .gauge import Answer
from .records import Record
from .slips import Unfit, plain
from .speak import Speaker, pairs


class Log:
    """The log in a file, or none. Each statement is written at once, with what it was answered as a comment."""

    def __init__(self) -> None:
        self.file: Optional[TextIO] = None
        self.speaker = Speaker()
        self.whole = True

    def begin(self, name: str, images: "list[Record]") -> None:
        try:
            self.file = open(name, "x", encoding="utf-8")
        except FileExistsError:
            raise Unfit(f"{plain(name)} is there already: name another file, since a log is of one run") from None
        except OSError as fault:
            raise Unfit(f"cannot write {plain(name)}: {fault.strerror}") from fault
        self.put("# What happened on a line: ./trovimbe write makes a tray's session of it.")
        for made in images:
            self.put(self.speaker.say(made))
        self.speaker.packs.slots = list(range(len(images)))  # all of them were accepted

    def told(self, record: Record, answer: Answer) -> None:
        if self.file is None:
            return
        remark = pairs(answer.reply) if answer.number == 0 else f"refused with {answer.number}"
        self.put(self.speaker.say(record) + (f"  # {remark}" if remark else ""))

    def remarked(self, text: str) -> None:
        self.put("# " + text)

    def put(self, text: str) -> None:
        """What cannot be written ends the log and not the line: whoever uses it has done nothing wrong."""
        if self.file is None:
            return
        try:
            self.file.write(text + "\n")
            self.file.flush()
        except OSError as fault:
            start.said(f"bus: the log ends here, since it cannot be written: {fault.strerror}", start.WRONG)
            self.file, self.whole = None, False
