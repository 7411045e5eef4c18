"""What the cases in Python share: their verdicts, and runs of our programs."""
import fcntl
import functools
import os
import re
import shutil
import subprocess
import sys
import tempfile

TOP = os.path.dirname(os.path.dirname(os.path.dirname(os.path.abspath(__file__))))
COMMAND = os.path.join(TOP, "trovimbe")
SECOND = os.path.join(TOP, "tests", "second_program", "second.c")
LONG = "--long" in sys.argv[1:]
SECOND_NAMES = {"resume": "live", "resume_tray": "live_tray"}  # by its second name a program takes other words, and has a page for that


class Wrong(Exception):
    """Something is not as it should be; the text says what."""


def same(what, got, wanted):
    if got != wanted:
        raise Wrong(f"{what}: {got!r}, not {wanted!r}")


def attempt(name, tried):
    """Calls tried and prints `ok NAME`, or `FAIL NAME: why` where it raises; whether it is ok."""
    try:
        tried()
    except Exception as fault:  # whatever breaks is a failure of this one
        print(f"FAIL {name}: {fault}", flush=True)
        return False
    print(f"ok {name}", flush=True)
    return True


@functools.cache
def loader(name):
    """Our program NAME as `./trovimbe` starts it."""
    libraries = os.path.join(os.path.dirname(os.path.dirname(os.path.realpath(shutil.which("rt")))), "toolchain", "lib")
    return [os.path.join(libraries, "ld-linux-x86-64.so.2"), "--library-path", libraries,
            os.path.join(TOP, "target", "bin", SECOND_NAMES.get(name, name))]


def called(programs):
    """The names of some programs, a second one behind the first."""
    return [name for program in programs for name in [program, *(second for second, first in SECOND_NAMES.items() if first == program)]]


ASKED = set()  # (name, how many words) of each program of ours that `./trovimbe` has run: it is proved, built and takes so many


@functools.cache
def own_words(name):
    """How many words the program itself has to get: those of its page that are no FILE, no option and no word that may be left away."""
    with open(os.path.join(TOP, "docs", "programs", name + ".txt"), encoding="utf-8") as page:
        return len(re.sub(r"\[.*?\]", "", page.readline()).split()) - 1


def ran(command, **how):
    """subprocess.run, with standard error kept. `./trovimbe NAME WORD ..` is asked once; then the program that it built is started as it does, with
    its status, 1 where something is said on standard error. The script looks at each source, which takes thirty times as long as a run: that it
    does so, and hands on what it should, tests/cases/command sees. A source that changes while a case runs is not looked at again."""
    ours = (command[1], len(command)) if command[0] == COMMAND and len(command) > 1 and len(command) - 2 == own_words(command[1]) else None
    if ours in ASKED:
        ended = subprocess.run([*loader(command[1]), *command[2:]], stderr=subprocess.PIPE, check=False, **how)
        ended.returncode = ended.returncode or int(ended.stderr != b"")
        return ended
    ended = subprocess.run(command, stderr=subprocess.PIPE, check=False, **how)
    built = os.path.join(TOP, "target", "bin", SECOND_NAMES.get(command[1], command[1]) + ".stamp") if ours else ""
    if ours and ended.returncode in (0, 1) and b"it is not run" not in ended.stderr and os.path.exists(built):
        ASKED.add(ours)
    return ended


def output(command, given):
    """What a command writes on standard output, given its standard input; another status than 0 is wrong."""
    ended = ran(command, input=given, stdout=subprocess.PIPE)
    same(f"the status of {' '.join(command)}, which says {ended.stderr[-2000:]!r}", ended.returncode, 0)
    return ended.stdout


def compiled(to, *options, source=None):
    """Builds the second program, or what is made of its text, as the file `to`."""
    taken = [SECOND] if source is None else ["-x", "c", "-"]
    output(["gcc", "-std=c11", "-O2", "-Wall", "-Wextra", "-Werror", *options, "-o", to, *taken], (source or "").encode())
    return to


def shown(tries, differs):
    """Whether a wrong program differs in one of the tries, which is put first: what shows one often shows the next."""
    for at, tried in enumerate(tries):
        if differs(*tried):
            tries.insert(0, tries.pop(at))
            return True
    return False


def provided(tool, *packages):
    """Whether a tool is there, or comes with these Debian packages. The cases run at once, and apt takes one at a time: each waits for the others'."""
    if shutil.which(tool) is None and shutil.which("apt-get") and os.getuid() == 0:
        quiet = {"stdin": subprocess.DEVNULL, "stdout": subprocess.DEVNULL, "stderr": subprocess.DEVNULL, "check": False, "timeout": 600,
                 "env": {**os.environ, "DEBIAN_FRONTEND": "noninteractive"}}
        apt = ["apt-get", "-q", "-o", "DPkg::Lock::Timeout=300"]
        install = [*apt, "install", "-y", "--no-install-recommends", *packages]
        with open(os.path.join(tempfile.gettempdir(), "trovimbe-apt.lock"), "w", encoding="utf-8") as lock:
            fcntl.flock(lock, fcntl.LOCK_EX)
            if subprocess.run(install, **quiet).returncode != 0:
                subprocess.run([*apt, "update"], **quiet)
                subprocess.run(install, **quiet)
    return shutil.which(tool) is not None


FAILED = set()


def program(name, given):
    """What our program NAME writes on standard output. One that failed is not proved anew at each call."""
    if name in FAILED:
        raise Wrong(f"{name} failed before")
    FAILED.add(name)
    written = output([COMMAND, name], given)
    FAILED.remove(name)
    return written
