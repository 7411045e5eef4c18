"""A bus master of type HA7Net: five pages over HTTP, a connection for each. This is what `owserver --HA7NET=HOST:PORT` asks, and whatever else speaks so.

Whatever comes in gets an answer or is left after some seconds, and nobody waits for another: what a page does to the line is done between two waits, so
that no page is ever half done."""
import asyncio
import re
import socket
from typing import Callable, Optional

from . import start
from .bus_line import Line
from .proved import Gone
from .slips import Unfit, plain

LONGEST = 16384  # bytes of a line of a request: a block of 8,000 bytes
MOST_LINES = 100  # of a request
MOST = 256  # connections at once
SECONDS = 5.0  # that a request may take to come in, and an answer to go out
REQUEST = re.compile(rb"GET /1Wire/([A-Za-z]{1,20})\.html(?:\?(\S*))? HTTP/1\.[01]\r?\n")
STATUS = {200: "OK", 400: "Bad Request", 404: "Not Found", 408: "Request Timeout", 431: "Request Header Fields Too Large",
          500: "Internal Server Error", 503: "Service Unavailable"}


def bound(host: str, port: int) -> socket.socket:
    """A socket with this address, or with a free port where it is 0; nobody can connect yet."""
    try:
        family, _, _, _, address = socket.getaddrinfo(host, port, type=socket.SOCK_STREAM, flags=socket.AI_PASSIVE)[0]
        door = socket.socket(family, socket.SOCK_STREAM)
        door.setsockopt(socket.SOL_SOCKET, socket.SO_REUSEADDR, 1)  # what is left of connections of an earlier run is no hindrance
        door.bind(address)
    except (OSError, UnicodeError, OverflowError) as fault:
        raise Unfit(f"cannot listen on {plain(host)}, port {port}: {getattr(fault, 'strerror', None) or 'this is no address'}") from fault
    return door


class Refused(Exception):
    """A request that gets no page, with the status that says why."""

    def __init__(self, status: int, why: str) -> None:
        super().__init__(why)
        self.status = status


def hexadecimal(text: str, why: str, size: Optional[int] = None) -> bytes:
    """Pairs of hex digits, so many where a size is given."""
    if not re.fullmatch(r"(?:[0-9A-Fa-f]{2})*", text) or size not in (None, len(text) // 2):
        raise Refused(400, why)
    return bytes.fromhex(text)


class Pages:
    """What each page does to the line."""

    def __init__(self, line: Line) -> None:
        self.line = line
        self.all: "dict[str, Callable[[dict[str, str]], str]]" = {
            "ReleaseLock": self.release_lock, "Reset": self.reset, "Search": self.search, "AddressDevice": self.address_device, "WriteBlock": self.write_block}

    def asked(self, request: bytes) -> str:
        found = REQUEST.fullmatch(request)
        if found is None:
            raise Refused(400, "this is no request that a bus master of type HA7Net knows")
        page = self.all.get(found[1].decode())
        if page is None:
            raise Refused(404, "there is no such page: expected " + ", ".join(self.all))
        parts = [part.partition("=") for part in (found[2] or b"").decode("ascii", "replace").split("&")]
        return page({name: value for name, _, value in parts})

    @staticmethod
    def release_lock(_: "dict[str, str]") -> str:
        """A lock keeps other masters away for a while; here nobody can take one, and to give it back is no fault."""
        return ""

    def reset(self, _: "dict[str, str]") -> str:
        self.line.reset()
        return ""

    def search(self, words: "dict[str, str]") -> str:
        family = hexadecimal(words.get("FamilyCode", ""), "FamilyCode is two hex digits")
        found = [address for address in self.line.search(words.get("Conditional", "0") not in ("", "0")) if address.startswith(family)]
        rows = (f'<INPUT CLASS="HA7Value" NAME="Address_{at}" ID="ADDRESS_{at}" TYPE="text" VALUE="{number(address)}">\n' for at, address in enumerate(found))
        return "".join(rows)

    def address_device(self, words: "dict[str, str]") -> str:
        address = hexadecimal(words.get("Address", ""), "Address is 16 hex digits, the last byte first", 8)
        self.select(address)
        return f'<INPUT CLASS="HA7Value" NAME="Address_0" ID="ADDRESS_0" TYPE="text" VALUE="{number(address[::-1])}">\n'

    def write_block(self, words: "dict[str, str]") -> str:
        data = hexadecimal(words.get("Data", ""), "Data is pairs of hex digits")
        if "Address" in words:  # all is judged before anything is done
            self.select(hexadecimal(words["Address"], "Address is 16 hex digits, the last byte first", 8))
        return f'<INPUT TYPE="TEXT" NAME="ResultData_0" VALUE="{self.line.slots(data).hex().upper()}">\n'

    def select(self, backward: bytes) -> None:
        self.line.reset()
        self.line.slots(b"\x55" + backward[::-1])


def number(address: bytes) -> str:
    """An address as the adapter writes it, the last byte first."""
    return address[::-1].hex().upper()


class Server:
    """The connections. `broken` is told what ends the bus: that the packs are gone."""

    def __init__(self, line: Line, broken: Callable[[Exception], None]) -> None:
        self.pages, self.broken = Pages(line), broken
        self.open = 0
        self.server: Optional[asyncio.AbstractServer] = None

    async def listen(self, door: socket.socket) -> None:
        """Listens from now on."""
        self.server = await asyncio.start_server(self.served, sock=door, limit=LONGEST, backlog=2 * MOST)

    def close(self) -> None:
        if self.server is not None:
            self.server.close()

    async def served(self, reader: asyncio.StreamReader, writer: asyncio.StreamWriter) -> None:
        self.open += 1
        try:
            answer = await self.answer(reader)
            if answer:
                writer.write(answer)
                await asyncio.wait_for(writer.drain(), SECONDS)
                await self.parted(reader, writer)
        except (OSError, asyncio.TimeoutError, asyncio.CancelledError):
            pass  # whoever asked has gone away, or takes nothing; or the bus is over
        finally:
            self.open -= 1
            writer.close()

    async def parted(self, reader: asyncio.StreamReader, writer: asyncio.StreamWriter) -> None:
        """OWFS sends a NUL behind its request, and reads to the end of the answer: were the connection closed with that unread, the system would reset it
        and could take the answer along. So only our side ends, and what is left is read away."""
        writer.write_eof()

        async def rest() -> None:
            for _ in range(MOST_LINES):
                if not await reader.read(LONGEST):
                    return
        await asyncio.wait_for(rest(), SECONDS)

    async def answer(self, reader: asyncio.StreamReader) -> bytes:
        """What is answered; nothing to somebody who only looks whether we are there, as OWFS does once."""
        try:
            if self.open > MOST:
                raise Refused(503, f"{MOST} connections are open already")
            request = await asyncio.wait_for(self.request(reader), SECONDS)
            if not request:
                return b""
            body, status = self.pages.asked(request), 200
        except Refused as refused:
            body, status = f"{refused}\n", refused.status
        except asyncio.TimeoutError:
            body, status = "the request did not come to its end\n", 408
        except Gone as fault:
            self.broken(fault)
            body, status = "the packs are gone\n", 500
        except Exception as fault:  # a fault of ours, which is no reason to leave everybody else
            start.said(f"bus: a fault of its own, of which whoever makes it should hear: {fault!r}", start.WRONG)
            body, status = "the bus has a fault\n", 500
        head = f"HTTP/1.1 {status} {STATUS[status]}\r\nContent-Type: text/html\r\nConnection: close\r\n\r\n"
        return (head + f"<html><body>\n{body}</body></html>\n").encode("ascii", "replace")

    @staticmethod
    async def request(reader: asyncio.StreamReader) -> bytes:
        """The first line of a request, once its last one has come; nothing where none comes."""
        try:
            first = await reader.readline()
            for _ in range(MOST_LINES):
                line = await reader.readline() if first else b""
                if not line and first:
                    raise Refused(400, "the request ends before its empty line")
                if not line.strip():
                    return first
        except ValueError as fault:
            raise Refused(431, f"a line of the request has over {LONGEST} bytes") from fault
        raise Refused(431, f"the request has over {MOST_LINES} lines")
