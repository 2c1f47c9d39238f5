"""What the program promises, as plain Python: the commands on accounts, the registers that stand for them, and the tapes.

The scripts beside this file compare the program with it. It follows docs/DEFINITIONS.md and knows nothing of the code.
A command is a tuple: ("account",), ("script", products), or ("save", signer, load, products, to), where `load` is a name
or None, and `products` is a list of lists of literals: their sum is saved at `to`. A loaded number is the first factor.
"""
import json
import resource
import subprocess

GREATEST = 2**127 - 1
MOST_ACCOUNTS = 1_000_000
STATUSES = {"done": 0, "usage": 2, "read": 3, "write": 4, "disk": 5, "memory": 6, "store": 7, "bound": 8}
LIMIT = b'{"reply":"limit"}\n'
DONE = b'{"destroyed":[],"events":[],"made":[],"reply":"ok"}\n'


STACK = 8 << 20  # what systems usually give a program


def give_stack():
    """Gives the programs that are run from here as much stack as the system allows: calls nest on it, and code in them."""
    most = resource.getrlimit(resource.RLIMIT_STACK)[1]
    resource.setrlimit(resource.RLIMIT_STACK, (most, most))


def usual_stack():
    """For a program that is about to begin: the 8 MB of stack that systems usually give."""
    resource.setrlimit(resource.RLIMIT_STACK, (STACK, resource.getrlimit(resource.RLIMIT_STACK)[1]))


def failed(number):
    return b'{"error":"%d","reply":"failed"}\n' % number


def bad(number):
    return b'{"error":"%d","reply":"bad"}\n' % number


def rejected(phase, at, inside=""):
    return b'{"at":"%d","in":"%s","phase":"%s","reply":"rejected"}\n' % (at, inside.encode(), phase.encode())


def result(number):
    return b'{"reply":"ok","result":{"type":"Int","value":"%d"}}\n' % number


def line_of(command):
    """The request line of a command, with its line feed."""
    if command[0] == "account":
        return b'{"kind":"account"}\n'
    if command[0] == "script":
        code = "access(all) fun main(): Int { return %s }" % sum_text(command[1], None)
        return json.dumps({"kind": "script", "code": code}).encode() + b"\n"
    _, signer, load, products, to = command
    save = "a.storage.save(%s, to: /storage/%s)" % (sum_text(products, load), to)
    code = "transaction { prepare(a: auth(Storage) &Account) { %s } }" % save
    return json.dumps({"kind": "transaction", "signers": [hex(signer)], "code": code}).encode() + b"\n"


def sum_text(products, load):
    texts = [[str(factor) for factor in product] for product in products]
    if load is not None:
        texts[0].insert(0, "a.storage.load<Int>(from: /storage/%s)!" % load)
    return " + ".join(" * ".join(product) for product in texts)


def sum_value(products):
    """Products first, and all from left to right. None where a step is over the greatest Int."""
    values = []
    for product in products:
        value = 1
        for factor in product:
            value *= factor
            if value > GREATEST:
                return None
        values.append(value)
    total = 0
    for value in values:
        total += value
        if total > GREATEST:
            return None
    return total


class Accounts:
    """How many accounts there are, and the Ints that are stored by address and name."""

    def __init__(self, count=0, stored=None):
        self.count = count
        self.stored = stored or {}

    def __eq__(self, other):
        return isinstance(other, Accounts) and (self.count, self.stored) == (other.count, other.stored)

    def after(self, command):
        """The reply line to a command, and the accounts then."""
        if command[0] == "account":
            if self.count == MOST_ACCOUNTS:
                return failed(127), self
            return b'{"address":"0x%016x","reply":"ok"}\n' % (self.count + 1), Accounts(self.count + 1, self.stored)
        if command[0] == "script":
            value = sum_value(command[1])
            return (failed(101) if value is None else result(value)), self
        return self.after_save(*command[1:])

    def after_save(self, signer, load, products, to):
        if not 1 <= signer <= self.count:
            return bad(26), self
        stored = dict(self.stored)
        if load is not None:
            first = stored.pop((signer, load), None)
            if first is None:
                return failed(106), self
            products = [[first] + products[0]] + products[1:]
        value = sum_value(products)
        if value is None:
            return failed(101), self
        if (signer, to) in stored:
            return failed(111), self
        stored[signer, to] = value
        return DONE, Accounts(self.count, stored)

    def registers(self):
        """The bytes of each register that is there."""
        registers = {b"\1" + number_field(address): number_field(1) for address in range(1, self.count + 1)}
        if self.count:
            registers[b"\0"] = number_field(self.count) + number_field(1)
        for (address, name), value in self.stored.items():
            registers[b"\4" + number_field(address) + name.encode()] = b"\4\0\0" + value.to_bytes(16, "big")
        return registers


def number_field(number):
    return number.to_bytes(8, "big")


def bytes_field(data):
    return len(data).to_bytes(4, "big") + data


def body_of(changes):
    """The body of a record with these changes: values by key, None where the register is removed."""
    entries = [bytes_field(key) + (b"\0" if value is None else b"\1" + bytes_field(value)) for key, value in sorted(changes.items())]
    return b"\1" + len(entries).to_bytes(4, "big") + b"".join(entries)


def record_of(changes):
    """An open gate, the length of the body, and the body."""
    body = body_of(changes)
    return b"\1" + number_field(len(body)) + body


class Damaged(Exception):
    """Bytes that no records or no accounts have."""


class Unjudged(Damaged):
    """Registers of kinds that this model doesn't know: values of other types, publications, controllers and contracts."""


class Bytes:
    """Bytes that are read from their front."""

    def __init__(self, data):
        self.data, self.at = data, 0

    def take(self, count):
        if self.at + count > len(self.data):
            raise Damaged
        self.at += count
        return self.data[self.at - count : self.at]

    def number(self, size):
        return int.from_bytes(self.take(size), "big")

    def string(self):
        return self.take(self.number(4))


def changes_of(body):
    """The changes of a record, in the order of its entries."""
    bytes_, changes = Bytes(body), []
    if bytes_.number(1) != 1:
        raise Damaged
    for _ in range(bytes_.number(4)):
        key, mark = bytes_.string(), bytes_.number(1)
        if mark > 1 or changes and changes[-1][0] >= key:
            raise Damaged
        changes.append((key, bytes_.string() if mark else None))
    if bytes_.at != len(body):
        raise Damaged
    return changes


def records_in(tape):
    """The changes of each record of a tape, and where each begins; behind the last, where the closed gate stands."""
    bytes_, records, places = Bytes(tape), [], [0]
    if not tape:
        return records, places
    while bytes_.number(1) == 1:
        records.append(changes_of(bytes_.take(bytes_.number(8))))
        places.append(bytes_.at)
    return records, places


def file_bytes(folder, name):
    path = folder / name
    return path.read_bytes() if path.exists() else b""


def tape_in_use(folder):
    """The name of the tape that `pick` chooses."""
    return "a" if file_bytes(folder, "pick")[:1] and file_bytes(folder, "pick")[0] % 2 == 1 else "b"


def registers_in(folder):
    """The registers that the tapes of a folder stand for."""
    registers = {}
    for changes in records_in(file_bytes(folder, tape_in_use(folder)))[0]:
        for key, value in changes:
            registers.pop(key, None)
            if value is not None:
                registers[key] = value
    return registers


def found(registers, states):
    """The first of these states whose registers these are, or None."""
    return next((state for state in states if state.registers() == registers), None)


def int_of(data):
    if data[:2] != b"\4\0":
        raise Unjudged
    bytes_ = Bytes(data)
    kind, sign, magnitude = bytes_.take(2), bytes_.number(1), bytes_.number(16)
    if bytes_.at != len(data) or sign > 1 or magnitude > GREATEST + sign or sign and not magnitude:
        raise Damaged
    return -magnitude if sign else magnitude


def accounts_in(folder):
    """The accounts that the tapes of a folder stand for. Damaged where they stand for none."""
    registers = registers_in(folder)
    head = registers.pop(b"\0", None)
    count = 0 if head is None else int.from_bytes(head[:8], "big")
    if head is not None and (len(head) != 16 or not 1 <= int.from_bytes(head[8:], "big") < 2**64 or not 1 <= count <= MOST_ACCOUNTS):
        raise Damaged
    for address in range(1, count + 1):
        controller = registers.pop(b"\1" + number_field(address), b"")
        if len(controller) != 8 or not any(controller):
            raise Damaged
    stored = {}
    if any(key[:1] in (b"\2", b"\3", b"\5", b"\6") for key in registers):
        raise Unjudged
    for key, value in registers.items():
        address = int.from_bytes(key[1:9], "big")
        if key[:1] != b"\4" or len(key) < 9 or not 1 <= address <= count:
            raise Damaged
        try:
            stored[address, key[9:].decode()] = int_of(value)
        except UnicodeDecodeError:
            raise Damaged from None
    return Accounts(count, stored)


def replies_to(commands, accounts):
    """The reply to each command, and the accounts before the first and after each."""
    replies, states = [], [accounts]
    for command in commands:
        reply, accounts = accounts.after(command)
        replies.append(reply)
        states.append(accounts)
    return replies, states


def questions(accounts):
    """Commands that change nothing and whose replies tell the accounts: which addresses there are, and each number."""
    asked = [("save", address, "nothing", [[1]], "nothing") for address in (max(accounts.count, 1), accounts.count + 1)]
    paths = sorted(path for path in accounts.stored if path[1].isascii() and path[1].isidentifier())
    for address, name in paths:
        value = accounts.stored[address, name]
        asked.append(("save", address, None, [[1]], name))
        if 0 <= value:
            asked.append(("save", address, name, [[1], [GREATEST - value], [1]], name))
        others = [other for owner, other in paths if owner == address and other != name]
        if 0 <= value and others:
            asked.append(("save", address, name, [[1], [GREATEST - value]], others[0]))
    return asked


def run(program, folder, lines, **more):
    """Runs the program on these bytes. It has a minute."""
    return subprocess.run([program, "run", str(folder)], input=lines, capture_output=True, timeout=60, **more)
