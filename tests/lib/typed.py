"""The types of the parameters and locals of each function of crates/*/src, as far as the sources say them: what a struct's fields, an enum's variants
and a function's result are, and what an expression comes to. It knows of the language what our sources use."""
import glob
import os
import re

from cases import TOP

NUMBERS = {"u8", "u16", "u32", "u64", "usize", "i32", "i64", "bool", "()"}
KIT = ("std", "os", "libc", "io")  # what a call of these gives is a number, but for a buffer


def text(path):
    with open(path, encoding="utf-8") as file:
        return file.read()


def plain(kind):
    """A type without references and lifetimes."""
    return re.sub(r"&('\w+ )?(mut )?", "", kind.strip()).strip()


def holds_more(kind):
    """Whether a type is none of a number, a byte or a flag. One that is not known counts as such."""
    return kind is None or plain(kind) not in NUMBERS


def cut(inside):
    """The parts between the commas of one level."""
    parts, depth = [""], 0
    for c in inside:
        depth += (c in "([{<") - (c in ")]}>")
        if c == "," and depth == 0:
            parts.append("")
        else:
            parts[-1] += c
    return [part.strip() for part in parts if part.strip()]


def closing(source, at):
    """The index behind the bracket that closes the one at an index."""
    depth, i = 0, at
    while i < len(source):
        c = source[i]
        if c == '"':
            i += 1
            while source[i] != '"':
                i += 2 if source[i] == "\\" else 1
        depth += (c in "([{") - (c in ")]}")
        i += 1
        if depth == 0:
            return i
    return len(source)


class Function:
    """A function: its crate, the type that it is a method of, its name, its parameters as (name, type), what it gives, and its body."""

    def __init__(self, crate, owner, name, parameters, result, body):
        self.crate, self.owner, self.name, self.parameters, self.result, self.body = crate, owner, name, parameters, result, body


def functions(crate, source):
    owners = [(m.start(), m.group(1)) for m in re.finditer(r"(?m)^(?:impl(?:<[^>]*>)? (?:\w+(?:<\w+>)? for )?(\w+)|(?:pub )?trait \w+)", source)]
    for head in re.finditer(r"(?m)^( *)(?:pub )?(?:extern \"C\" )?fn (\w+)(?:<[^>]*>)?\(", source):
        owner = [name for at, name in owners if at < head.start()][-1] if head.group(1) else None
        if head.group(1) and not owner:
            continue  # a trait's own, which has no body
        behind = closing(source, head.end() - 1)
        result = re.match(r"\s*->\s*([^\n{]+?)\s*(?=\n|\{)", source[behind:])
        empty = source[behind:source.find("\n", behind)].endswith("{}")
        end = re.compile(r"\{\}" if empty else rf"(?m)^{head.group(1)}(\}}|\{{\}})$").search(source, behind)
        opened = re.compile(rf"(?m)(^{head.group(1)}| )\{{(\}}?)$").search(source, behind)
        parameters = []
        for part in cut(source[head.end():behind - 1]):
            name, _, kind = part.partition(":")
            parameters.append((name.replace("mut ", "").strip(), kind.strip()) if kind else ("self", owner))
        yield Function(crate, owner, head.group(2), parameters, result.group(1) if result else "()", source[opened.start():end.end()])


class Sources:
    """What a set of sources declares: {(crate, name): text}, by default all of ours."""

    def __init__(self, texts=None):
        if texts is None:
            paths = sorted(glob.glob(os.path.join(TOP, "crates", "*", "src", "**", "*.rt"), recursive=True))
            texts = {tuple(os.path.relpath(path, os.path.join(TOP, "crates")).split(os.sep, 1)): text(path) for path in paths}
        self.structs, self.enums, self.results, self.constants, self.functions = {}, {}, {}, {}, []
        for (crate, _), source in texts.items():
            for kind, name, inside in re.findall(r"(?m)^(?:pub )?(struct|enum) (\w+) \{\n((?:.*\n)*?)\}", source):
                lines = [line.strip().rstrip(",") for line in inside.splitlines() if line.strip() and not line.strip().startswith("//")]
                if kind == "struct":
                    fields = [line.removeprefix("pub ").split(":", 1) for line in lines]
                    self.structs[name] = {field.strip(): said.strip() for field, said in fields}
                else:
                    self.enums[name] = {line.split("(")[0]: cut(line.split("(", 1)[1][:-1]) if "(" in line else [] for line in lines}
            self.constants.update(re.findall(r"(?m)^(?:pub )?const (\w+): ([^=]+?) =", source))
            for function in functions(crate, source):
                self.functions.append(function)
                self.results[function.owner or crate, function.name] = function.result

    def kind(self, said, known, crate):
        """The type of an expression, or None."""
        said = re.sub(r"^&(mut )?", "", said.strip())
        if re.fullmatch(r"\d\w*|b'.*'", said):
            return "u64"
        if said in ("true", "false") or said.startswith("!"):
            return "bool"
        if said.startswith(('*b"', 'b"')):
            return "[u8]"
        if said.startswith(("if ", "match ")):
            first = re.search(r"\{([^{};]*)\}", said)
            return self.kind(first.group(1), known, crate) if first else None
        flat, i = "", 0
        while i < len(said):
            end = closing(said, i) if said[i] in "([{" else i + 1
            flat += said[i]
            i = end
        if re.search(r" as \w+$", flat):
            return flat.rsplit(" ", 1)[1]
        if re.search(r" (==|!=|<|<=|>|>=|&&|\|\|) ", flat):
            return "bool"
        if re.search(r" [-+*/%&|^] | << | >> ", flat):
            return "u64"
        return self.chain(*self.first(said, known, crate), known, crate)

    def first(self, said, known, crate):
        """The type of what an expression starts with, and the fields, calls and indexes behind it."""
        if said.startswith(("(", "[")):
            end = closing(said, 0)
            inside = re.split(r"[;,]", said[1:end - 1])[0] if said[0] == "[" else said[1:end - 1]
            kind = self.kind(inside, known, crate)
            return (f"[{kind}]" if said[0] == "[" else kind), said[end:]
        named = re.match(r"(\w+(?:::\w+)*)\s*([({])?", said)
        if not named:
            return None, ""
        names, rest = named.group(1).split("::"), said[named.end(1):]
        called = said[closing(said, named.start(2)):] if named.group(2) else rest
        if len(names) == 2 and (names[0] in self.enums or names[0] in NUMBERS):
            return names[0], called
        if named.group(2) == "(":
            kit = "[u8]" if names[-1] == "buffer" else "u64"
            return (kit if names[0] in KIT else self.results.get((names[-2] if len(names) > 1 else crate, names[-1]))), called
        if named.group(2) and names[-1] in self.structs:
            return names[-1], called
        return known.get(names[0]) or self.constants.get(names[-1]), rest

    def chain(self, kind, rest, known, crate):
        while rest.strip() and kind:
            rest = rest.strip()
            if rest.startswith("["):
                end = closing(rest, 0)
                element = re.match(r"\[([^;\]]+)", plain(kind))
                kind = element and (f"[{element.group(1)}]" if ".." in rest[:end] else element.group(1))
                rest = rest[end:]
                continue
            step = re.match(r"\.(\w+)(\()?", rest)
            if not step:
                return None
            if step.group(2):
                rest = rest[closing(rest, step.end() - 1):]
                known_by = plain(kind) if plain(kind) in NUMBERS else self.results.get((plain(kind), step.group(1)))  # min, wrapping_add and the like
                kind = "usize" if step.group(1) == "len" else known_by
            else:
                rest = rest[step.end():]
                kind = self.structs.get(plain(kind), {}).get(step.group(1))
        return kind

    def item(self, said, known, crate):
        """The type of what a loop goes over, or None."""
        if ".." in said:
            return "u64"
        element = re.match(r"\[([^;\]]+)", plain(self.kind(said, known, crate) or ""))
        return element and element.group(1)

    def names(self, function):
        """[(name, type or None)] of the parameters and locals of a function, in order."""
        found = list(function.parameters)
        known, body = dict(found), function.body
        for m in re.finditer(r"\blet (?:mut )?(\w+)(?:: ([^=]+?))? =\s*|\b(\w+)::(\w+)\(([^()]*)\) (?:=>|=(?!=))|\bfor (\w+) in ([^\n]+) \{\n", body):
            if m.group(6):
                bound = [(m.group(6), self.item(m.group(7), known, function.crate))]
            elif m.group(1):
                stop = m.end()
                while body[stop] != ";":
                    stop = closing(body, stop) if body[stop] in "([{" else stop + 1
                bound = [(m.group(1), m.group(2) or self.kind(body[m.end():stop], known, function.crate))]
            else:
                held = self.enums.get(m.group(3), {}).get(m.group(4), [])
                bound = [(name, held[at] if at < len(held) else None) for at, name in enumerate(cut(m.group(5))) if re.fullmatch(r"[A-Za-z]\w*", name)]
            known.update(bound)
            found += bound
        return found
