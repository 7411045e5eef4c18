#!/usr/bin/env python3
"""Brings the names of definitions and lemmas on the pages to the spelling of today's Rattle, after tools/respell.py has turned the sources.

    python3 tools/respell_pages.py LIST [PAGE..]

LIST has a line `OLD NEW` for each name, as tools/respell.py prints them; a name that the kit's port.py turned before it is known by its new
spelling, which the sources declare. It is run once, at the top of the repository; docs/PORT.md says when. A name is turned where it stands as a
whole word between backticks, and in the tables of docs/MAP.md and docs/RANGES.md behind its crate, as `crate: name`. What stands in a block of
code, the path of a file, a function of Rust (`crate::name`), and the names of wrong ideas and of vectors stay as they are. Without pages it turns
those of docs/ that speak of names, README.md and tests/README.md. It prints how many names it turned on each page, and each name that it left
since it could be another. Of a must-fail edit that is named as a page it turns the names of laws on its lines `refused: law NAME`."""
import re
import sys
from pathlib import Path
from typing import Dict, List, Set

sys.path.insert(0, str(Path(__file__).resolve().parent))
from respell import declared_names, files, shared, spell  # noqa: E402

TOKEN = re.compile(r"[A-Za-z_ℕℤ][A-Za-z0-9_'₀-₉ℕℤ-]*")
TICKED = re.compile(r"(?<!`)`([^`\n]+)`(?!`)")
TABLES = ("docs/MAP.md", "docs/RANGES.md")
WORDS = ("docs/WORDS.md", "docs/BUS.md")  # their words are those of a language of ours, as `power-on`


def names(path: Path) -> Dict[str, str]:
    return dict(line.split() for line in path.read_text(encoding="utf-8").splitlines() if line.strip())


def crates() -> List[str]:
    lines = Path("crates.txt").read_text(encoding="utf-8").splitlines()
    return [line.split(":")[0].split()[0] for line in lines if ":" in line.split("#")[0]]


def others() -> Set[str]:
    """The names of the wrong ideas and of the vectors."""
    found = {path.stem for path in Path("tests", "vectors").glob("*.hex")}
    for edit in Path("crates").glob("*/must-fail/*.edit"):
        found |= set(re.findall(r"(?m)^# ([a-z0-9-]+): ", edit.read_text(encoding="utf-8")))
    return found


def declares(crate: str, name: str) -> bool:
    """Whether a crate declares this name today."""
    pattern = re.compile(rf"(?m)^\s*(?:(?:abbrev|unfoldable|pub|record|data) )*{re.escape(name)}(?: \{{[^}}\n]*\}})?(?: :| |$)")
    return any(pattern.search(path.read_text(encoding="utf-8")) for part in ("specs", "proofs") for path in Path("crates", crate, part).rglob("*.antt"))


class Names(Dict[str, str]):
    """The new name of each old one."""

    def __init__(self, listed: Dict[str, str]) -> None:
        super().__init__(listed)
        self.today = {name for path in files(Path(".")) if shared(path) for name in declared_names(path)}

    def __contains__(self, name: object) -> bool:
        return super().__contains__(name) or (name not in self.today and str(name) != spell(str(name)) and spell(str(name)) in self.today)

    def __missing__(self, name: str) -> str:
        return spell(name)


class Page:
    """One page, as it is turned."""

    def __init__(self, changed: Names, kept: Set[str], of: List[str]) -> None:
        self.changed, self.kept, self.turned = changed, kept, 0
        self.left: Set[str] = set()
        self.cell = re.compile(rf"(?<![\w:`/])({'|'.join(of)}): ({TOKEN.pattern})")

    def new(self, word: str) -> str:
        # a word of small letters and _ may have been turned already, or name a function
        if word in self.kept or word == word.lower() and "-" not in word:
            self.left.add(word)
            return word
        self.turned += 1
        return self.changed[word]

    def ticked(self, match: "re.Match[str]") -> str:
        inside = match.group(1)

        def one(word: "re.Match[str]") -> str:
            ahead, behind = inside[: word.start()], inside[word.end():]
            name = word.group(0)
            if name not in self.changed or ahead.endswith(("::", "/", "--", "-", ".antt")) or behind.startswith(("::", "/", ".antt", ".rt", ".md")):
                return name
            return self.new(name)

        return "`" + TOKEN.sub(one, inside) + "`"

    def row(self, match: "re.Match[str]") -> str:
        crate, name = match.groups()
        if name not in self.changed or not declares(crate, self.changed[name]):
            return match.group(0)
        return f"{crate}: {self.new(name)}"

    def edit(self, text: str) -> str:
        """A must-fail edit: the laws at which its ideas must be refused."""
        def law(match: "re.Match[str]") -> str:
            name = match.group(2)
            return match.group(1) + (self.new(name) if name in self.changed else name)

        return re.sub(r"(?m)^(refused: law )(\S+)", law, text)

    def turn(self, text: str, has_tables: bool) -> str:
        lines, in_code = [], False
        for line in text.split("\n"):
            if line.lstrip().startswith("```"):
                in_code = not in_code
            elif not in_code and not line.startswith("    "):
                line = TICKED.sub(self.ticked, line)
                if has_tables:
                    line = self.cell.sub(self.row, line)
            lines.append(line)
        return "\n".join(lines)


def main() -> int:
    if len(sys.argv) < 2 or not Path("crates.txt").is_file():
        print(__doc__, file=sys.stderr)
        return 2
    changed, kept, of = Names(names(Path(sys.argv[1]))), others(), crates()
    every = [*sorted(Path("docs").glob("*.md")), Path("README.md"), Path("tests/README.md")]
    pages = [Path(word) for word in sys.argv[2:]] or [path for path in every if str(path) not in WORDS]
    for path in pages:
        page, text = Page(changed, kept, of), path.read_text(encoding="utf-8")
        new = page.edit(text) if path.suffix == ".edit" else page.turn(text, str(path) in TABLES)
        if new != text:
            path.write_text(new, encoding="utf-8")
        print(f"{path}: {page.turned} names turned" + (f"; left: {', '.join(sorted(page.left))}" if page.left else ""))
    return 0


if __name__ == "__main__":
    sys.exit(main())
