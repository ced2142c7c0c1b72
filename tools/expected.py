#!/usr/bin/env python3
"""What a script must print, worked out a second time.

    tools/expected.py crates/fanwall/stdin | diff - crates/fanwall/stdout

It follows docs/SCRIPT.md and shares nothing with the crates, so that the recorded output is held to
two workings. A line that is not read has 'WHY' for its reason, which is free text.
"""
import sys

NAMES = "address command serial subfunction register value size code data".split()
HEX_DIGITS = {"command": 2, "code": 2, "subfunction": 4, "register": 4, "value": 4}

# command: the fields between the command and the checksum, and the shortest and longest telegram
QUESTIONS = {
    0x03: ("register value", 8, 8),
    0x04: ("register value", 8, 8),
    0x06: ("register value", 8, 8),
    0x08: ("subfunction data", 7, 23),
    0x10: ("register value size data", 9, 23),
    0x43: ("serial register value", 14, 14),
    0x44: ("serial register value", 14, 14),
    0x46: ("serial register value", 14, 14),
    0x50: ("serial register value size data", 15, 23),
}
ANSWERS = {
    0x03: ("size data", 5, 23),
    0x04: ("size data", 5, 23),
    0x06: ("register value", 8, 8),
    0x08: ("subfunction data", 7, 23),
    0x10: ("register value", 8, 8),
    0x43: ("serial size data", 11, 23),
    0x44: ("serial size data", 11, 23),
    0x46: ("serial register value", 14, 14),
    0x50: ("serial register value", 14, 14),
}
BY_SERIAL = (0x43, 0x44, 0x46, 0x50)
WIDTH = {"serial": 6, "subfunction": 2, "register": 2, "value": 2, "size": 1, "code": 1}


class Refused(Exception):
    pass


class NotRead(Exception):
    pass


def checksum(data):
    crc = 0xFFFF
    for byte in data:
        crc ^= byte
        for _ in range(8):
            crc = crc >> 1 ^ (0xA001 if crc & 1 else 0)
    return bytes([crc & 0xFF, crc >> 8])


def form(table, command, code):
    if command in table:
        return table[command]
    if table is ANSWERS and command - 0x80 in table:
        if command - 0x80 in BY_SERIAL and code != 1:
            return ("serial code", 11, 11)
        return ("code", 5, 5)
    raise Refused(3)


def read(table, telegram):
    if not 4 <= len(telegram) <= 23:
        raise Refused(1)
    if checksum(telegram[:-2]) != telegram[-2:]:
        raise Refused(2)
    body = telegram[2:-2]
    names, least, most = form(table, telegram[1], body[-1] if body else 0)
    if not least <= len(telegram) <= most:
        raise Refused(4)
    fields = dict.fromkeys(NAMES, 0) | {"serial": bytes(6), "data": b"", "address": telegram[0], "command": telegram[1]}
    for name in names.split():
        if name == "data":
            fields[name], body = body, b""
        else:
            part, body = body[: WIDTH[name]], body[WIDTH[name] :]
            fields[name] = part if name == "serial" else int.from_bytes(part, "big")
    return fields


def write(table, fields):
    names, least, most = form(table, fields["command"], fields["code"])
    telegram = bytes([fields["address"], fields["command"]])
    for name in names.split():
        value = fields[name]
        telegram += value if name in ("serial", "data") else value.to_bytes(WIDTH[name], "big")
    telegram += checksum(telegram)
    if not 4 <= len(telegram) <= 23:
        raise Refused(1)
    if not least <= len(telegram) <= most:
        raise Refused(4)
    return telegram


def read_to(telegram, question):
    answer = read(ANSWERS, telegram)
    command, asked = question["command"], question["address"]
    if answer["command"] not in (command, command + 0x80):
        raise Refused(5)
    if not (1 <= answer["address"] <= 247 if asked == 0 else answer["address"] == asked):
        raise Refused(6)
    exception = answer["command"] != command
    if command in BY_SERIAL and not (exception and answer["code"] == 1):
        for mask, byte in zip(question["serial"], answer["serial"]):
            if byte == 0 or mask not in (0, byte):
                raise Refused(7)
    if exception:
        raise Refused("8 code=%02X" % answer["code"])
    if command in (0x03, 0x04, 0x43, 0x44):
        good = answer["size"] == len(answer["data"]) == 2 * question["value"]
    elif command == 0x08:
        good = all(answer[name] == question[name] for name in ("subfunction", "data"))
    else:
        good = all(answer[name] == question[name] for name in ("register", "value"))
    if not good:
        raise Refused(9)
    return answer


class Fan:
    """A V5.00 fan. The other kinds differ in the values at the top, and where a method is written anew."""

    kind = "fan"
    shows_serial = True
    commands = (0x03, 0x04, 0x06, 0x08, 0x10, 0x43, 0x44, 0x46, 0x50)
    longest = 23
    most_read = 9
    inputs = range(0xD000, 0xD025)
    holdings = range(0xD000, 0xD380)
    rights = [  # by level: end customer, customer, factory
        {0xD000, 0xD001, 0xD002, 0xD147, *range(0xD100, 0xD10E)},
        {0xD10E, 0xD145, 0xD149, 0xD14A},
        {0xD009, 0xD00A, 0xD13B},
    ]

    def __init__(self, serial, address, defective):
        self.serial, self.address, self.defective, self.level = serial, address, defective, 0
        self.registers = {0xD100: address, 0xD149: 4}
        for place in range(3):
            self.registers[0xD1A2 + place] = int.from_bytes(serial[2 * place : 2 * place + 2], "big")

    def holding(self, register):
        return self.registers.get(register, 0)

    def input(self, register):
        return {0xD010: min(self.holding(0xD001), 0xFF00), 0xD011: 0x18 if self.defective else 0}.get(register, 0)

    def store(self, register, value):
        if register == 0xD000:
            if value == 2 and 1 <= self.holding(0xD100) <= 247:
                self.address = self.holding(0xD100)
        elif register == 0xD002:
            self.level = {0x4321: 1, 0x8765: 2}.get(value, 0)
        else:
            self.registers[register] = value & 0xFF if register == 0xD100 else value

    def hears(self, asked):
        """Whether a telegram of the right form is meant for it."""
        if asked["command"] in BY_SERIAL:
            return all(mask in (0, byte) for mask, byte in zip(asked["serial"], self.serial))
        return asked["address"] != 0 or asked["command"] in (0x06, 0x10)

    def answers(self, asked):
        return asked["address"] != 0 or asked["command"] in BY_SERIAL

    def tell(self, telegram):
        """The answer, or None for silence."""
        if not 4 <= len(telegram) <= self.longest or checksum(telegram[:-2]) != telegram[-2:]:
            return None
        address, command = telegram[0], telegram[1]
        if address not in (0, self.address):
            return None
        if command not in self.commands:
            if address == 0:
                return None
            refusal = bytes([self.address, command | 0x80, 1])
            return refusal + checksum(refusal)
        try:
            asked = read(QUESTIONS, telegram)
        except Refused:
            return None
        if not self.hears(asked):
            return None
        try:
            answer = asked | self.carry_out(asked)
        except Refused as fault:
            answer = asked | {"command": command + 0x80, "code": fault.args[0]}
        answer |= {"address": self.address, "serial": self.serial}
        return write(ANSWERS, answer) if self.answers(asked) else None

    def carry_out(self, asked):
        """What the answer has in place of the question's fields; a refusal is the code of the exception."""
        command, first, value = asked["command"], asked["register"], asked["value"]
        if command == 0x08:
            if asked["subfunction"] != 0:
                raise Refused(1)
            return {}
        if command in (0x03, 0x04, 0x43, 0x44):
            if not 1 <= value <= (6 if command in BY_SERIAL else self.most_read):
                raise Refused(3)
            kind, value_of = (self.holdings, self.holding) if command in (0x03, 0x43) else (self.inputs, self.input)
            if first not in kind or first + value - 1 not in kind:
                raise Refused(2)
            told = b"".join(value_of(first + k).to_bytes(2, "big") for k in range(value))
            return {"size": len(told), "data": told}
        values = [value]
        if command in (0x10, 0x50):
            data = asked["data"]
            if not (value >= 1 and asked["size"] == len(data) == 2 * value):
                raise Refused(3)
            values = [int.from_bytes(data[2 * k : 2 * k + 2], "big") for k in range(value)]
        if first not in self.holdings or first + len(values) - 1 not in self.holdings:
            raise Refused(2)
        allowed = set().union(*self.rights[: self.level + 1])
        for register in range(first, first + len(values)):
            if register not in allowed or self.defective and register >= 0xD100:
                raise Refused(4)
        for place, word in enumerate(values):
            self.store(first + place, word)
        return {}


class OlderFan(Fan):
    kind = "older"
    shows_serial = False
    commands = (0x03, 0x04, 0x06, 0x08, 0x10, 0x46)
    longest = 17
    most_read = 6
    inputs = range(0xD000, 0xD020)

    def hears(self, asked):
        if asked["command"] == 0x46:
            return asked["address"] != 0 and asked["serial"] == self.serial
        return super().hears(asked)

    def answers(self, asked):
        return asked["address"] != 0


class Controller(OlderFan):
    kind = "controller"
    commands = (0x03, 0x04, 0x06, 0x10)
    inputs = range(100, 132)
    holdings = range(0)

    def input(self, register):
        return self.address if register == 111 else 0


def newcomer(kind, serial, address, defective):
    if 0 in serial:
        raise Refused(12)
    if not 1 <= address <= 247:
        raise Refused(13)
    return kind(serial, address, defective)


class Bank:
    """A row of 64 sockets for stations of one kind."""

    def __init__(self, kind):
        self.kind, self.stations = kind, [None] * 64

    def find(self, socket):
        """The bank that a socket number leads to, and the place there."""
        if socket >= len(self.stations):
            raise Refused(10)
        return self, socket

    def answers(self, telegram):
        told = [station.tell(telegram) for station in self.stations if station is not None]
        return [answer for answer in told if answer is not None]


class Joint:
    """Two lines as one: the even numbers are the left one's, the odd numbers the right one's."""

    def __init__(self, left, right):
        self.sides = left, right

    def find(self, socket):
        return self.sides[socket % 2].find(socket // 2)

    def answers(self, telegram):
        return self.sides[0].answers(telegram) + self.sides[1].answers(telegram)


class Feeder:
    """A line behind a switch. What its stations answer is counted over the whole of it."""

    def __init__(self, line):
        self.line, self.on, self.tally = line, True, 0

    def fit(self, socket, *given):
        bank, place = self.line.find(socket)
        if bank.stations[place] is not None:
            raise Refused(11)
        bank.stations[place] = newcomer(bank.kind, *given)
        return "fit done"

    def pull(self, socket):
        bank, place = self.line.find(socket)
        if bank.stations[place] is None:
            raise Refused(14)
        bank.stations[place] = None
        return "pull done"

    def switch(self, on):
        self.on = on
        return "switch on" if on else "switch off"

    def ask(self, telegram):
        self.tally = (self.tally + 1) % 2**64
        answers = self.line.answers(telegram) if self.on else []
        if len(answers) > 1:
            return "ask clash"
        return "ask answer " + spaced(answers[0]) if answers else "ask silence"

    def show(self):
        cards = []
        for socket in range(512):
            try:
                bank, place = self.line.find(socket)
            except Refused:
                continue
            station = bank.stations[place]
            if station is not None:
                cards.append("  socket=%d %s" % (socket, card(station)))
        head = "show %s tally=%d taken=%d" % ("on" if self.on else "off", self.tally, len(cards))
        return "\n".join([head] + cards)


def card(station):
    return "kind=%s serial=%s address=%d stored=%d %s" % (
        station.kind,
        station.serial.hex().upper() if station.shows_serial else "none",
        station.address,
        station.holding(0xD100),
        "defective" if station.defective else "sound",
    )


class Bench:
    kinds = {kind.kind: kind for kind in (Fan, OlderFan, Controller)}

    def __init__(self):
        self.station = None
        fans = Joint(Joint(Bank(Fan), Bank(Fan)), Joint(Bank(Fan), Bank(Fan)))
        self.wall = Feeder(Joint(fans, Joint(Bank(OlderFan), Bank(Controller))))

    def put(self, kind, *given):
        self.station = newcomer(self.kinds[kind], *given)
        return "station done"

    def tell(self, telegram):
        if self.station is None:
            raise NotRead
        answer = self.station.tell(telegram)
        return "tell silence" if answer is None else "tell answer " + spaced(answer)


def given_of(words):
    """Serial, address and whether it is defective, of a new station."""
    if not 2 <= len(words) <= 3 or len(words[0]) != 12 or words[2:] not in ([], ["defective"]):
        raise NotRead
    return some_bytes(words[:1]), number(words[1], 10, len(words[1]), 255), len(words) == 3


def socket_of(word):
    return number(word, 10, len(word), 2**32 - 1)


def number(word, base, most_digits, limit):
    digits = "0123456789abcdef"[:base]
    if not word or len(word) > most_digits or any(c not in digits for c in word.lower()):
        raise NotRead
    value = int(word, base)
    if value > limit:
        raise NotRead
    return value


def some_bytes(words):
    if any(len(word) % 2 for word in words):
        raise NotRead
    if any(c not in "0123456789abcdefABCDEF" for word in words for c in word):
        raise NotRead
    return bytes.fromhex("".join(words))


def fields_of(words):
    fields = {}
    for word in words:
        name, mark, value = word.partition("=")
        if not mark or name not in NAMES or name in fields:
            raise NotRead
        if name in ("serial", "data"):
            fields[name] = some_bytes([value])
            if name == "serial" and len(value) != 12:
                raise NotRead
        elif name in HEX_DIGITS:
            fields[name] = number(value, 16, HEX_DIGITS[name], 0xFFFF)
        else:
            fields[name] = number(value, 10, len(value), 255)
    return dict.fromkeys(NAMES, 0) | {"serial": bytes(6), "data": b""} | fields


def spaced(data):
    return data.hex(" ").upper()


def printed(fields):
    def value(name):
        if name in ("serial", "data"):
            return fields[name].hex().upper()
        return "%0*X" % (HEX_DIGITS[name], fields[name]) if name in HEX_DIGITS else str(fields[name])

    return " ".join(name + "=" + value(name) for name in NAMES)


def result(bench, words):
    match words:
        case ["station", kind, *what] if kind in bench.kinds:
            return bench.put(kind, *given_of(what))
        case ["tell", *data]:
            return bench.tell(some_bytes(data))
        case ["fit", socket, *what]:
            return bench.wall.fit(socket_of(socket), *given_of(what))
        case ["pull", socket]:
            return bench.wall.pull(socket_of(socket))
        case ["switch", "on" | "off" as state]:
            return bench.wall.switch(state == "on")
        case ["ask", *data]:
            return bench.wall.ask(some_bytes(data))
        case ["show"]:
            return bench.wall.show()
        case ["checksum", *data]:
            return "checksum " + spaced(checksum(some_bytes(data)))
        case ["read", "question", *data]:
            return "read question " + printed(read(QUESTIONS, some_bytes(data)))
        case ["read", "answer", *data] if "to" in data:
            at = data.index("to")
            answer, asked = some_bytes(data[:at]), some_bytes(data[at + 1 :])
            try:
                question = read(QUESTIONS, asked)
            except Refused as fault:
                raise Refused("%s in the question" % fault)
            return "read answer " + printed(read_to(answer, question))
        case ["read", "answer", *data]:
            return "read answer " + printed(read(ANSWERS, some_bytes(data)))
        case ["write", "question", *given]:
            return "write question " + spaced(write(QUESTIONS, fields_of(given)))
        case ["write", "answer", *given]:
            return "write answer " + spaced(write(ANSWERS, fields_of(given)))
    raise NotRead


def main():
    source = open(sys.argv[1], "rb") if len(sys.argv) > 1 else sys.stdin.buffer
    bench = Bench()
    for place, line in enumerate(source.read().decode("latin-1").split("\n"), 1):
        words = line.partition("#")[0].replace("\t", " ").replace("\r", " ").split(" ")
        words = [word for word in words if word]
        if not words:
            continue
        try:
            print(result(bench, words))
        except Refused as fault:
            print(" ".join(words[: 2 if words[0] in ("read", "write") else 1]), "refused", fault)
        except NotRead:
            print("line %d: not read (WHY)" % place)


main()
