"""What a story of examples/README.md says, held to what the programs did. The page is prose in which these forms are claims:

- `record 4` or `records 7, 9 and 11` names records. Each is followed by its reply as code, `20 0054`, the spaces not counted, `-` for none: one
  for all that are named, or one for each. What follows is claimed of the state after the last of them; before the first, of record 1.
- `RARC 4`, `ACR 0269h = 617`, `FULL = 16,384 - 22 × 10 = 16,164`: a register or parameter, and sums, which are all equal. Quotients are rounded
  down; hexadecimal is two's complement of 16 bits.
- `AEF and SEF are set`, `LEARNF is cleared`: flags. `at -5 °C`: the nearest degree.
- "0417" in double quotes: the reply as ASCII.
- `Records 9 and 11 have the bytes of records 2 and 3`, or `the currents` of them. `tick 24`: that of a sample.
- `Record 8 replies what records 4 to 7 reply`: their replies one after the other are its own.
- A row `| 1, 3 | 5 | why |` of a table: the answers of records; every refusal of the story has one. `Answer 1 is missing here`.
- `slot 5` or `slots 0 to 4`, in a tray: what follows is claimed of each of these packs, until others are named; before that, of slot 0.

A number that is none of these must have a unit, or stand for an address.
"""
import re

from cases import Wrong, same

# Where each parameter stands in block 1, its bytes, and whether it is signed.
PARAMETERS = {"AB": (0x61, 1, True), "AC": (0x62, 2, False), "VCHG": (0x64, 1, False), "IMIN": (0x65, 1, False), "VAE": (0x66, 1, False),
              "IAE": (0x67, 1, False), "RSNSP": (0x69, 1, False), "Full40": (0x6A, 2, False), "COB": (0x7B, 1, True)}
FLAGS = {"CHGTF": 0x80, "AEF": 0x40, "SEF": 0x20, "LEARNF": 0x10, "PORF": 0x02}
REGISTERS = ["saved ACR", "saved AS", "saved cycle counter", "cycle counter", "ACR", "ACRL", "fraction", "AS", "FULL", "AE", "SE", "RAAC", "RSAC", "RARC",
             "RSRC", "IAVG", "TEMP", "VOLT", "CURRENT", "STATUS", "AF", "E", "N", "D", "T"]

NAME = rf"(?:{'|'.join(sorted([*REGISTERS, *PARAMETERS], key=len, reverse=True))})\b"
DECIMAL = r"-?(?:\d{1,3}(?:,\d{3})+|\d+)(?:\^\d+)?"
ATOM = rf"\(*(?:{NAME}|[0-9A-F]{{2,4}}h\b|{DECIMAL})\)*"
SUM = rf"{ATOM}(?: [×/+-] {ATOM})*"
LIST = r"\d+(?:(?:, | and | to )\d+)*"
FLAG = rf"(?:{'|'.join([*FLAGS, 'LOCK', 'BL0', 'BL1'])})"
FORMS = re.compile("|".join([
    rf"[Rr]ecords? (?P<like>{LIST}) have the (?P<part>bytes|currents) of records (?P<model>{LIST})",
    rf"[Rr]ecord (?P<joined>\d+)\** replies what records (?P<parts>{LIST}) reply",
    rf"tick (?P<tick>{DECIMAL})",
    rf"slots? (?P<slots>{LIST})",
    rf"[Aa]nswers? (?P<absent>{LIST}) (?:is|are) missing here",
    rf"[Rr]ecords? (?P<records>{LIST})",
    r"`(?P<code>[^`]*)`",
    r'"(?P<ascii>[^"]*)"',
    rf"(?P<flags>{FLAG}(?:(?:, | and ){FLAG})*) (?:is|are) (?P<set>set|cleared)",
    r"at (?P<degrees>-?\d+) °C",
    r"(?P<amount>\(?-?\d[\d,./ ]*(?:to -?\d+ )?(?:mAh|mA|A|V|°C|bytes|steps)\b)",
    r"(?P<address>at [0-9A-F]{2}h|[0-9A-F]{2}h to [0-9A-F]{2}h)",
    rf"(?:(?P<name>{NAME}) (?=[(\d-]|[0-9A-F]+h))?(?P<sums>(?<!\w){SUM}(?: = {SUM})*)(?: %)?",
    r"(?P<number>\d\S*)"]))


def numbers(listed):
    """The numbers of `1, 3`, `7, 9 and 11`, `2 to 6`."""
    found = []
    for word, number in re.findall(r"(^|, | and | to )(\d+)", listed):
        found += range(found[-1] + 1, int(number) + 1) if word == " to " else [int(number)]
    return found


def states(dumped):
    """After each record the state of the gauge, or of each pack of a tray, from what `second dump` and `second tray_dump` print."""
    found = {}
    for line in dumped.splitlines()[1:]:
        if line.startswith("  "):
            number = max(found)
            found[number] = found[number] + [state_of(line)]
        else:
            found[int(line.split()[0])] = []
    return found


def state_of(state):
    """The values that a line of a dump has, by name."""
    words = dict(re.findall(r"\b(full|ae|se|raac|rsac|rarc|rsrc|iavg|temp|volt|current|as) (-?\d+)", state))
    values = {name.upper(): int(value) for name, value in words.items()}
    acr, fraction, saved_acr, saved_as = map(int, re.search(r"acr (\d+)\+(\d+) .* saved (\d+),(\d+)", state).groups())
    flags = set(state.split("|")[3].split())
    block = bytes.fromhex(re.search(r"shadow (\w+)", state).group(1))[16:]
    for name, (at, size, signed) in PARAMETERS.items():
        values[name] = int.from_bytes(block[at - 0x60:at - 0x60 + size], "big", signed=signed)
    values |= {"ACR": acr, "fraction": fraction, "ACRL": 16 * fraction, "saved ACR": saved_acr, "saved AS": saved_as}
    values |= {"AF": values["FULL"] * values["AS"] // 128, "E": values["AE"] * values["Full40"] // 16384, "T": (values["TEMP"] + 4) // 8}
    values |= {"N": 16384 * acr - values["AE"] * values["Full40"], "D": (values["AF"] - values["AE"]) * values["Full40"]}
    values |= {"STATUS": sum(weight for flag, weight in FLAGS.items() if flag in flags), "flags": flags}
    camera = re.search(r"cycles (\d+) rest \d+ kept (\d+)", state)
    values |= {"cycle counter": int(camera[1]), "saved cycle counter": int(camera[2])} if camera else {}
    values |= {"TEMP": 32 * values["TEMP"], "VOLT": 32 * values["VOLT"]}
    return values


def value(text, state):
    """What a sum of numbers and names comes to."""
    def atom(match):
        word = match.group(0)
        if word in state:
            return f"({state[word]})"
        return f"0x{word[:-1]}" if word.endswith("h") else word.replace(",", "").replace("^", "**")

    sums = re.sub(rf"{NAME}|[0-9A-F]{{2,4}}h\b|{DECIMAL}", atom, text)
    return eval(sums.replace("×", "*").replace("/", "//"), {"__builtins__": {}})  # digits, brackets and signs alone


def equal(texts, state):
    """Whether all are the same number; a hexadecimal one is of 16 bits."""
    values = [value(text, state) for text in texts]
    short = any(re.fullmatch(r"[0-9A-F]{2,4}h", text) for text in texts)
    return len({number % 65536 if short else number for number in values}) == 1


class Story:
    def __init__(self, records, printed, dumped):
        """The bytes of each record, the lines that are printed and what `second dump` prints."""
        self.bytes = dict(enumerate(records, 1))
        self.lines = {int(line.split()[0]): line.split() for line in printed.splitlines()[1:]}
        self.states = states(dumped)
        self.named, self.quotes, self.claims = [1], None, 0
        self.slots = [0]

    def here(self):
        """The states that are spoken of."""
        return [self.states[self.named[-1]][slot] for slot in self.slots]

    def quoted(self):
        """Holds the replies that were quoted to the records that were named before them."""
        if self.quotes is None:
            return
        quotes = self.quotes * len(self.named) if len(self.quotes) == 1 else self.quotes
        same(f"how many replies stand after the records {self.named}", len(quotes), len(self.named))
        for number, reply in zip(self.named, quotes):
            same(f"record {number} on the page", reply.replace(" ", ""), self.lines[number][3] if number in self.lines else None)

    def claim(self, found):
        """One form of the page."""
        self.claims += 1
        if found["records"]:
            self.quoted()
            self.named, self.quotes = numbers(found["records"]), []
        elif found["like"]:
            part = slice(4, 8) if found["part"] == "currents" else slice(None)
            for one, other in zip(numbers(found["like"]), numbers(found["model"]), strict=True):
                same(f"record {one}", self.bytes[one][part].hex(), self.bytes[other][part].hex())
        elif found["joined"]:
            self.quoted()
            self.named, self.quotes = [int(found["joined"])], ["".join(self.lines[number][3] for number in numbers(found["parts"]))]
        elif found["slots"]:
            self.slots = numbers(found["slots"])
        elif found["tick"]:
            same(f"the tick of record {self.named[-1]}", int.from_bytes(self.bytes[self.named[-1]][-2:], "little"), value(found["tick"], {}))
        elif found["absent"]:
            for answer in numbers(found["absent"]):
                same(f"the records with answer {answer}", [n for n, line in self.lines.items() if line[2] == str(answer)], [])
        elif found["code"] is not None:
            if self.quotes is not None and re.fullmatch(r"[0-9a-f ]+|-", found["code"]):
                self.quotes.append(found["code"])
        elif found["ascii"] is not None:
            same(f"record {self.named[-1]} as text", found["ascii"], bytes.fromhex(self.lines[self.named[-1]][3]).decode("ascii"))
        elif found["flags"]:
            for flag in re.findall(FLAG, found["flags"]):
                for state in self.here():
                    same(f"{flag} after record {self.named[-1]}", "set" if flag in state["flags"] else "cleared", found["set"])
        elif found["degrees"]:
            if self.quotes is not None:  # what stands before the first record tells of the whole story
                for state in self.here():
                    same(f"the degrees after record {self.named[-1]}", state["T"], int(found["degrees"]))
        elif found["sums"]:
            self.summed(found)
        elif found["number"]:
            raise Wrong(f"a number that says nothing which could be checked: {found['number']}")

    def summed(self, found):
        texts = ([found["name"]] if found["name"] else []) + found["sums"].split(" = ")
        if len(texts) == 1 and not re.search(NAME, texts[0]):
            raise Wrong(f"a number that says nothing which could be checked: {texts[0]}")
        for state in self.here():
            if not equal(texts, state):
                values = ", ".join(str(value(text, state)) for text in texts)
                raise Wrong(f"{' = '.join(texts)} after record {self.named[-1]}: {values}")

    def table(self, told):
        """The rows of answers; gives back what is not in them."""
        rows = re.findall(rf"(?m)^\| ({LIST}) \| (\d+) \|.*$", told)
        wanted = {number: answer for listed, answer in rows for number in numbers(listed)}
        for number, answer in wanted.items():
            same(f"the answer of record {number}", self.lines[number][2], answer)
        if rows:
            refused = sorted(number for number, line in self.lines.items() if line[2] != "0")
            same("the refusals that the page tells of", sorted(number for number, answer in wanted.items() if answer != "0"), refused)
        return "\n".join(line for line in told.splitlines() if not line.startswith("|"))

    def check(self, told):
        for found in FORMS.finditer(self.table(told)):
            try:
                self.claim(found)
            except KeyError as missing:
                raise Wrong(f"there is no record {missing}") from None
            except IndexError:
                raise Wrong(f"record {self.named[-1]} has none of the slots {self.slots}") from None
        self.quoted()
        if self.claims < 10:
            raise Wrong("the page says nothing of it that could be checked")
