"""The wrong ideas of crates/*/must-fail, which must be refused, as the tests read them and the pages cite them: each by its name."""
import collections
import os
import re

from cases import TOP

# The first line of a block, `# NAME: SENTENCE`; a name is two to five plain words, so that a page that cites it says what is tried.
HEAD = re.compile(r"# ([a-z0-9]+(?:-[a-z0-9]+){1,4}): (\S.*)")
# name: None where a block has none; edit: its file, without the ending; claims: what must be refused, without the words that it is refused with
Idea = collections.namedtuple("Idea", "name said crate edit claims")


def edits():
    """(crate, label, text) of each edit, by crate."""
    for crate in sorted(os.listdir(os.path.join(TOP, "crates"))):
        folder = os.path.join(TOP, "crates", crate, "must-fail")
        for name in sorted(os.listdir(folder)) if os.path.isdir(folder) else []:
            with open(os.path.join(folder, name), encoding="utf-8") as file:
                yield crate, name.removesuffix(".edit"), file.read()


def ideas():
    """Each idea, in the order of the edits; that its block is whole, tests/refusals sees."""
    found = []
    for crate, label, text in edits():
        for block in re.split(r"(?m)^(?=# )", text):
            line = block.split("\n")[0]
            head = HEAD.fullmatch(line)
            name, said = head.groups() if head else (None, line[2:])
            if line:
                found.append(Idea(name, said, crate, label, set(re.findall(r"(?m)^refused: (.*?)(?: saying .*)?$", block))))
    return found


def shared(found):
    """The names that more than one idea has."""
    return {name for name, times in collections.Counter(idea.name for idea in found).items() if name and times > 1}
