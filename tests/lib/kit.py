"""The kit as the tests call it: what crates.txt lists, and the words of rattle's own commands, as `rt` gives them."""
import collections
import functools
import hashlib
import os
import re
import shutil
import subprocess

from cases import TOP, Wrong

PARTS = ("src", "specs", "proofs")  # of a crate, what a check reads
# kind: "staticlib" or None; deps: the libraries that it uses, ours and the kit's
Crate = collections.namedtuple("Crate", "name kind deps")


@functools.cache
def kit():
    """The kit's folder."""
    return os.path.dirname(os.path.dirname(os.path.realpath(shutil.which("rt"))))


@functools.cache
def crates(top=TOP):
    """name: Crate of each line of crates.txt, in its order."""
    found = {}
    with open(os.path.join(top, "crates.txt"), encoding="utf-8") as file:
        for line in file:
            head, colon, deps = line.split("#")[0].partition(":")
            if colon:
                name, *rest = head.split()
                found[name] = Crate(name, "staticlib" if "staticlib" in rest else None, deps.split())
    return found


@functools.cache
def below(name, top=TOP):
    """The crates of ours below one, each after those that it uses."""
    found = []
    for dep in crates(top)[name].deps:
        if dep in crates(top):
            found += [one for one in [*below(dep, top), dep] if one not in found]
    return found


def implemented(line):
    """What a line opens an `impl` of, (the name that rattle gives it, its type): `Breaks`, or of a trait `U8FromRefusal`. Or None."""
    opened = re.match(r"impl(?:<[^>]*>)? (?:(\w+)(?:<(\w+)>)? for )?(\w+)(?:<[^>]*>)? \{$", line)
    if not opened:
        return None
    trait, of, kind = opened.groups()
    return "".join(part[0].upper() + part[1:] for part in (kind, trait, of) if part), kind


def root(name, top=TOP):
    """The file that a crate begins with, seen from its folder."""
    return "src/main.rt" if os.path.exists(os.path.join(top, "crates", name, "src", "main.rt")) else "src/lib.rt"


def rlib(name, top=TOP):
    return os.path.join(top, "crates", name, "out", "rlib", name + ".rlib")


def of_kit(deps, top=TOP):
    """The kit's libraries among these, std with them."""
    return ["std", *(dep for dep in deps if dep not in crates(top))]


def common(name, top=TOP):
    """The last words of each call: where the logic lies, and that a crate of ours has no C."""
    logic = os.path.join(kit(), "rattle", "logic", "antt-project.json")
    words = ["--antt-project", logic, "--logic-built", os.path.join(kit(), "logic_built"), "--jobs", "1", "--links", name + "="]
    return words + (["--crate-type", "staticlib"] if crates(top)[name].kind else [])


def words(name, top=TOP):
    """The words of a check of a crate over the libraries below it as they are built. It is called in the crate's folder, or in a copy of it."""
    found, rlibs = ["--crate-name", name, root(name, top)], os.path.join(kit(), "rlibs")
    for library in of_kit(crates(top)[name].deps, top):
        found += ["--extern", f"{library}={rlibs}/{library}.rlib"]
    found += ["-L", "dependency=" + rlibs]
    for dep in crates(top)[name].deps:
        if dep in crates(top):
            found += ["--extern", f"{dep}={rlib(dep, top)}"]
    for dep in below(name, top):
        found += ["-L", "dependency=" + os.path.dirname(rlib(dep, top))]
    return found + common(name, top)


def front_end(name, top):
    """What rattle says of a crate's sources and of those below it before any proof: (status, text). Nothing has to be built for it."""
    found, rlibs = ["--crate-name", name, root(name, top)], os.path.join(kit(), "rlibs")
    all_below = below(name, top)
    for library in dict.fromkeys(["core", *(one for crate in [*all_below, name] for one in of_kit(crates(top)[crate].deps, top))]):
        found += ["--extern", f"{library}={rlibs}/{library}.rlib"]
    found += ["-L", "dependency=" + rlibs]
    for dep in all_below:
        uses = ",".join(dict.fromkeys(["core", "std", *crates(top)[dep].deps]))
        found += ["--lib", f"{dep}:{uses}={os.path.join(top, 'crates', dep, root(dep, top))}"]
    return rattle("check", [*found, *common(name, top), "--only", ""], os.path.join(top, "crates", name))


def rattle(verb, its_words, folder):
    """(status, what it said) of a call of rattle itself."""
    ended = subprocess.run([os.path.join(kit(), "bin", "rattle"), verb, *its_words], cwd=folder, stdin=subprocess.DEVNULL, stdout=subprocess.PIPE,
                           stderr=subprocess.STDOUT, encoding="utf-8", errors="replace", check=False)
    return ended.returncode, ended.stdout


def copy_sources(name, to, top=TOP):
    """A copy of what a check of a crate reads."""
    for part in PARTS:
        if os.path.isdir(os.path.join(top, "crates", name, part)):
            shutil.copytree(os.path.join(top, "crates", name, part), os.path.join(to, part))


# ---- sums of what a check reads

@functools.cache
def kit_sum():
    """Of the kit: what names it, and the size and the time of what checks."""
    found = [os.path.join(kit(), name) for name in ("KIT-ID", "WHAT", "bin/rattle")]
    return repr([(path, os.stat(path).st_size, os.stat(path).st_mtime_ns) for path in found if os.path.exists(path)])


@functools.cache
def own_sum(name):
    """Of a crate's sources and its line of crates.txt."""
    found = hashlib.sha256(repr(crates()[name]).encode())
    for part in PARTS:
        for at, folders, files in os.walk(os.path.join(TOP, "crates", name, part)):
            folders.sort()
            for file in sorted(files):
                path = os.path.join(at, file)
                with open(path, "rb") as text:
                    found.update(repr((os.path.relpath(path, TOP), text.read())).encode())
    return found.hexdigest()


def sources_sum(name):
    """Of all that a check of a crate stands on."""
    return hashlib.sha256(repr((kit_sum(), [own_sum(one) for one in [*below(name), name]])).encode()).hexdigest()


# ---- edits, as `rt` applies them

def edited(name, pairs):
    """The texts of the files that (file, old, new) pairs change, one after the other, by their paths in the crate."""
    texts = {}
    for path, old, new in pairs:
        if path not in texts:
            try:
                with open(os.path.join(TOP, "crates", name, path), encoding="utf-8") as file:
                    texts[path] = file.read()
            except OSError as fault:
                raise Wrong(f"there is no file {path}") from fault
        if texts[path].count(old) != 1:
            raise Wrong(f"{path} has {texts[path].count(old)} times {old!r}")
        texts[path] = texts[path].replace(old, new)
    return texts
