#!/usr/bin/env python3
"""Brings the names of our own definitions and lemmas to the spelling of today's Rattle, after port.py: words in snake case, types in
camel case, no dashes. Run once at the top of the repository; docs/PORT.md says when. It changes .rt and .antt files below crates/ alone,
and prints each old name with its new one."""

import re
import sys
from pathlib import Path
from typing import Dict, List, Set

TOKEN = re.compile(r"[A-Za-z_ℕℤ][A-Za-z0-9_'₀-₉ℕℤ-]*")
DECLARED = re.compile(r"^\s*(?:abbrev |unfoldable |ruleset )*(?:pub )?([A-Za-z][A-Za-z0-9_'₀-₉-]*) :(?:\s|$)")
NAMED = re.compile(r"^\s*(?:abbrev |unfoldable )*(?:pub )?(?:data|record|ruleset) (?:pub )?([A-Za-z][A-Za-z0-9_'₀-₉-]*)")


def spell(name: str) -> str:
    """The name in today's spelling."""
    if name[0].isupper():
        return re.sub(r"WF$", "Wf", name)
    plain = name.replace("-", "_")
    plain = re.sub(r"(?<=[a-z0-9])([A-Z])", lambda m: "_" + m.group(1).lower(), plain)
    return re.sub(r"_([A-Z])(?=[_0-9']|$)", lambda m: "_" + m.group(1).lower(), plain)


def lemma_name(name: str) -> str:
    """A lemma that would have its function's name."""
    return spell(name) + "_lem"


def files(top: Path) -> List[Path]:
    found = [p for p in top.glob("crates/*/**/*") if p.suffix in (".rt", ".antt") and "out" not in p.parts]
    return sorted(found)


def declared_names(path: Path) -> Set[str]:
    names = set()
    for line in path.read_text(encoding="utf-8").splitlines():
        for pattern in (DECLARED, NAMED):
            match = pattern.match(line)
            if match:
                names.add(match.group(1))
    return names


def shared(path: Path) -> bool:
    """Whether what the file declares can be named by other files: it stands in specs/ or right in proofs/."""
    return path.suffix == ".antt" and path.parent.name in ("specs", "proofs")


def spellings(top: Path) -> Dict[str, str]:
    """Each name that changes, with its new spelling. Where two fall together, the lemma gets an ending of its own."""
    names: Set[str] = set()
    for path in files(top):
        if shared(path):
            names |= declared_names(path)
    groups: Dict[str, List[str]] = {}
    for name in sorted(names):
        groups.setdefault(spell(name), []).append(name)
    changed = {}
    for new, olds in groups.items():
        camel = [n for n in olds if "-" not in n and n != new]
        keeps = camel[0] if camel else olds[0] if len(olds) == 1 else new if new in olds else olds[0]
        for old in olds:
            to = new if old == keeps else lemma_name(old)
            if to != old:
                changed[old] = to
    return changed


def foreign(text: str) -> Set[str]:
    """The names that a file imports from the kit."""
    names: Set[str] = set()
    for match in re.finditer(r"^\s*(?:pub |ghost )?use ([^\s{;]+?)\.\{([^}]*)\}", text, re.M):
        if not own_module(match.group(1)):
            names |= {part.split(" as ")[-1].strip() for part in match.group(2).split(",")}
            names |= {part.split(" as ")[0].strip() for part in match.group(2).split(",")}
    return names


def own_module(path: str) -> bool:
    parts = path.split(".")
    return parts[0] == "Rattle" and len(parts) > 1 and (Path("crates") / parts[1]).is_dir()


PIECE = re.compile(r'(?P<text>"(?:[^"\\\n]|\\.)*")|(?P<comment>(?:(?<=\s)|^)(?:--|//).*$)', re.M)


def respell(text: str, changed: Dict[str, str], rust: bool) -> str:
    """Strings stay as they are; of a comment only what stands in backticks is a name."""
    kept = foreign(text)

    def turn(part: str) -> str:
        def new(match):
            word = match.group(0)
            if word in kept or word not in changed:
                return word
            plain = "-" not in word and word == word.lower()
            if plain and (rust or re.search(r"Rattle(\.\w+)*\.$", part[: match.start()])):
                return word
            return changed[word]

        return TOKEN.sub(new, part)

    out, last = [], 0
    for match in PIECE.finditer(text):
        piece = match.group(0)
        if match.group("comment"):
            piece = re.sub(r"`[^`\n]*`", lambda m: turn(m.group(0)), piece)
        out += [turn(text[last : match.start()]), piece]
        last = match.end()
    return "".join(out + [turn(text[last:])])


def main() -> int:
    top = Path(".")
    if not (top / "crates.txt").is_file():
        print("respell: run it at the top of the repository", file=sys.stderr)
        return 2
    changed = spellings(top)
    for path in files(top):
        text = path.read_text(encoding="utf-8")
        new = respell(text, changed, path.suffix == ".rt")
        if new != text:
            path.write_text(new, encoding="utf-8")
    for old in sorted(changed):
        print(old, changed[old])
    return 0


if __name__ == "__main__":
    sys.exit(main())
