"""What the case `bus` stands on: our bus as a program that runs, a bus master that asks it over HTTP, and the real OWFS on it. Nothing here is taken from
the desk: requests and the bits of a search are made once more."""
import os
import re
import select
import signal
import socket
import subprocess
import tempfile
import time

from cases import COMMAND, Wrong, same

SECONDS = 30  # that anything may take
HOME = "127.0.0.1"


class Bus:
    """`./trovimbe bus` with these images, as long as the block runs. Its log is kept, so that a test sees when an event has come."""

    def __init__(self, folder, images, *words, wait=True):
        self.folder = folder
        self.log = os.path.join(folder, "log")
        self.process = subprocess.Popen([COMMAND, "bus", *images, "--log", self.log, *words], cwd=folder, stdin=subprocess.PIPE, stdout=subprocess.PIPE,
                                        stderr=subprocess.PIPE, start_new_session=True)
        self.said, self.waiting = [], b""
        self.port = None
        if wait:
            self.started()

    def line(self):
        """The next line that it says; nothing where it has ended."""
        while b"\n" not in self.waiting:
            if not select.select([self.process.stdout], [], [], SECONDS)[0]:
                raise Wrong(f"the bus says nothing, behind {self.waiting!r}")
            more = os.read(self.process.stdout.fileno(), 65536)
            if not more:
                return ""
            self.waiting += more
        line, self.waiting = self.waiting.split(b"\n", 1)
        return line.decode() + "\n"

    def started(self):
        while True:
            line = self.line()
            if not line:
                raise Wrong(f"the bus ended with {self.process.wait()}: {self.process.stderr.read().decode()}")
            self.said.append(line)
            found = re.match(r"listens on (?:\S+):(\d+), as a bus master", line)
            self.port = int(found[1]) if found else self.port
            if "`quit` ends it" in line:
                self.began = time.monotonic()
                return

    def __enter__(self):
        return self

    def __exit__(self, *_):
        if self.process.poll() is None:
            os.killpg(self.process.pid, signal.SIGKILL)
        self.process.wait()
        for stream in (self.process.stdin, self.process.stdout, self.process.stderr):
            stream.close()

    # ---- its words

    def words(self, *lines):
        """Says events, and waits until they have happened: each is in the log then."""
        before = len(self.logged())
        self.process.stdin.write(("\n".join(lines) + "\n").encode())
        self.process.stdin.flush()
        began = time.monotonic()
        while len(self.logged()) < before + len(lines):
            if time.monotonic() - began > SECONDS or self.process.poll() is not None:
                raise Wrong(f"{lines} did not come to the log, which ends with {self.logged()[-2:]}")
            time.sleep(0.005)

    def reply(self, line):
        """The reply to a transaction in words, as the bus prints it."""
        self.process.stdin.write((line + "\n").encode())
        self.process.stdin.flush()
        said = self.line()
        same(f"what is said of {line}, {said!r}", said.startswith("reply "), True)
        return bytes.fromhex(said.split(" ", 1)[1])

    def logged(self):
        """The statements of the log behind the packs."""
        with open(self.log, encoding="utf-8") as file:
            lines = [line for line in file.read().splitlines() if not line.startswith("#")]
        statements = [line for line in lines if line and not line[0].isspace()]
        return [line for line in statements if not line.startswith("pack ")]

    def quit(self, how=b"quit\n", status=0):
        """Ends it, and gives what it says then."""
        if isinstance(how, bytes):
            rest, errors = self.process.communicate(how, timeout=SECONDS)
        else:
            self.process.send_signal(how)
            rest, errors = self.process.communicate(timeout=SECONDS)
        same(f"the status of the bus, which says {errors.decode()[-800:]!r}", self.process.returncode, status)
        same("what it says on standard error", errors.decode() if status == 0 else "", "")
        return (self.waiting + rest).decode()

    # ---- its pages

    def asked(self, sent, host=HOME):
        """What comes back for some bytes, up to the end of the connection."""
        with socket.create_connection((host, self.port), SECONDS) as line:
            line.settimeout(SECONDS)
            try:
                line.sendall(sent)
                line.shutdown(socket.SHUT_WR)
                parts = [line.recv(65536)]
                while parts[-1]:
                    parts.append(line.recv(65536))
            except ConnectionError:
                return None
            return b"".join(parts)

    def page(self, name, status=200, **words):
        """The values of a page, as OWFS asks for it."""
        asked = "&".join(f"{word}={value}" for word, value in words.items())
        answer = self.asked(f"GET /1Wire/{name}.html{'?' + asked if asked else ''} HTTP/1.0\r\n\r\n\0".encode())
        same(f"the status of {name} {asked[:80]}", answer.split(b"\r\n")[0].split()[1], str(status).encode())
        return re.findall(r'VALUE="([0-9A-F]*)"', answer.decode())

    def reset(self):
        self.page("Reset")

    def slots(self, data):
        return bytes.fromhex(self.page("WriteBlock", Data=data.hex())[0])


class Owfs:
    """Debian's owserver on a bus. It is handed a port that is taken already, and says when it is ready, so that nothing has to be waited for. It keeps
    nothing of what it read."""

    def __init__(self, port):
        self.folder = tempfile.TemporaryDirectory()
        notice = socket.socket(socket.AF_UNIX, socket.SOCK_DGRAM)
        notice.bind(os.path.join(self.folder.name, "ready"))
        notice.settimeout(SECONDS)
        self.door = socket.create_server((HOME, 0))
        self.port = self.door.getsockname()[1]
        given = {**os.environ, "NOTIFY_SOCKET": notice.getsockname(), "LISTEN_FDS": "1"}
        script = 'exec 3<&"$0"; LISTEN_PID=$$ exec owserver --timeout_network=10 --timeout_volatile=0 --timeout_stable=0 --timeout_directory=0 "$@"'
        self.process = subprocess.Popen(["bash", "-c", script, str(self.door.fileno()), f"--HA7NET={HOME}:{port}"], env=given, pass_fds=[self.door.fileno()],
                                        stdin=subprocess.DEVNULL, stdout=subprocess.DEVNULL, stderr=subprocess.DEVNULL)
        with notice:
            while b"READY=1" not in notice.recv(4096):
                pass

    def __enter__(self):
        return self

    def __exit__(self, *_):
        self.process.terminate()
        self.process.wait(SECONDS)
        self.door.close()
        self.folder.cleanup()

    def run(self, tool, *words):
        ended = subprocess.run([tool, "-s", f"{HOME}:{self.port}", *words], stdin=subprocess.DEVNULL, stdout=subprocess.PIPE, stderr=subprocess.PIPE,
                               timeout=SECONDS, check=False)
        return ended.returncode, ended.stdout

    def directory(self, path):
        status, found = self.run("owdir", path)
        same(f"the status of owdir {path}", status, 0)
        return found.decode().split()

    def read(self, path):
        """What a property says, or None where OWFS has an error."""
        status, found = self.run("owread", path)
        return None if status else found

    def write(self, path, value):
        return self.run("owwrite", path, value)[0] == 0
