"""A token's sessions as plain Python: the reply to each command, and the registers that stand for what it leaves.

The scripts beside this file compare the program with it. It follows docs/FORMATS.md, docs/ERRORS.md and the token's programs
(generate.py): balances are sums, identities and controllers are counted. A command is a tuple: ("account",), ("deploy",), which
puts the token into account 1, ("setup", signer), ("publish", signer), ("unpublish", signer), ("close", signer), which destroys
the signer's vault, and ("transfer", source, to, units), where a token has 10^8 units. Questions change nothing: ("balances",
most) and ("identities", most) tell those of the published vaults of the accounts 1 to most, ("next",) the next identity,
("holds", signer, identity, units, controller) whether a vault and the next controller are these, ("there", signer) an account.
"""
import dataclasses
import json

import model
from generate import PUBLISH, SETUP, TOKEN, TRANSFER, address, signed
from model import bad, bytes_field, failed, number_field

TOKEN_UNITS = 10**8
SUPPLY = 1000 * TOKEN_UNITS
REJECTED = b'{"at":"0","in":"Token","phase":"resolve","reply":"rejected"}\n'
UNPUBLISH = """import Token from 0x1
transaction { prepare(a: auth(UnpublishCapability) &Account) { let c = a.capabilities.unpublish(/public/token)! } }
"""
CLOSE = """import Token from 0x1
transaction { prepare(a: auth(LoadValue) &Account) {
  let vault <- a.storage.load<@Token.Vault>(from: /storage/token)!
  destroy vault } }
"""
HOLDS = """import Token from 0x1
transaction(identity: UInt64?, balance: UFix64?, controller: UInt64) {
  prepare(a: auth(BorrowValue, IssueStorageCapabilityController) &Account) {
    let vault = a.storage.borrow<&Token.Vault>(from: /storage/token)
    assert(vault?.uuid == identity)
    assert(vault?.balance == balance)
    assert(a.capabilities.storage.issue<&Token.Vault>(/storage/token).id == controller)
    panic("all is as it has to be")
  }
}
"""
OF_ALL = """import Token from 0x1
access(all) fun main(all: [Address]): [%s?] {
  let told: [%s?] = []
  for one in all { told.append(getAccount(one).capabilities.borrow<&Token.Vault>(/public/token)?.%s) }
  return told
}
"""
NEXT = """import Token from 0x1
access(all) fun main(): UInt64 {
  let vault <- Token.empty()
  let identity = vault.uuid
  destroy vault
  return identity
}
"""
SIGNED = {"setup": SETUP, "publish": PUBLISH, "unpublish": UNPUBLISH, "close": CLOSE, "transfer": TRANSFER, "holds": HOLDS}
ASKED = {"balances": ("UFix64", "balance"), "identities": ("UInt64", "uuid")}


# ---- JSON


def compact(value):
    return json.dumps(value, separators=(",", ":"), sort_keys=True)


def told(kind, value):
    return {"type": kind, "value": value}


def units_told(units):
    return told("UFix64", f"{units // TOKEN_UNITS}.{units % TOKEN_UNITS:08d}")


def number_told(number):
    return told("UInt64", str(number))


def maybe(number, tell):
    return told("Optional", None if number is None else tell(number))


def result(value):
    return compact({"reply": "ok", "result": value}).encode() + b"\n"


def done(made=(), destroyed=(), events=()):
    """The reply to what took effect."""
    texts = {"made": [str(one) for one in made], "destroyed": [str(one) for one in destroyed], "events": list(events)}
    return compact({**texts, "reply": "ok"}).encode() + b"\n"


def moved(identity, units):
    fields = [{"name": "id", "value": number_told(identity)}, {"name": "amount", "value": units_told(units)}]
    return told("Event", {"fields": fields, "id": "A.0000000000000001.Token.Moved"})


def arguments_of(command):
    """The arguments of a command's line."""
    if command[0] == "transfer":
        return [units_told(command[3]), told("Address", address(command[2]))]
    if command[0] == "holds":
        return [maybe(command[2], number_told), maybe(command[3], units_told), number_told(command[4])]
    return []


def line_of(command):
    """The request line of a command, with its line feed."""
    name = command[0]
    if name == "account":
        line = {"kind": "account"}
    elif name == "deploy":
        line = {"address": address(1), "code": TOKEN, "kind": "deploy", "name": "Token"}
    elif name == "next":
        line = {"code": NEXT, "kind": "script"}
    elif name in ASKED:
        kind, field = ASKED[name]
        addresses = [told("Address", address(one)) for one in range(1, command[1] + 1)]
        line = {"arguments": [told("Array", addresses)], "code": OF_ALL % (kind, kind, field), "kind": "script"}
    elif name in SIGNED:
        given = arguments_of(command)
        line = {**signed(SIGNED[name], command[1]), **({"arguments": given} if given else {})}
    else:
        return model.line_of(as_save(command))
    return compact(line).encode() + b"\n"


def as_save(command):
    """That an account is there is asked by a load of nothing."""
    return ("save", command[1], "nothing", [[1]], "nothing")


# ---- bytes


def name_field(*names):
    """The TypeId of a declaration of account 1."""
    return number_field(1) + len(names).to_bytes(4, "big") + b"".join(bytes_field(name) for name in names)


VAULT = name_field(b"Token", b"Vault")
LENT = b"\x06\0" + bytes(4) + b"\x04" + VAULT  # &Token.Vault


def amount_field(units):
    """A number of the kind UFix64, which is the 19th."""
    return b"\x04\x12\0" + units.to_bytes(16, "big")


def composite_field(type_, identity, name, units):
    """A composite with one field."""
    return b"\x0d" + type_ + number_field(identity) + (1).to_bytes(4, "big") + bytes_field(name) + amount_field(units)


# ---- what there is


@dataclasses.dataclass(frozen=True)
class Tokens:
    """Accounts, the next identity, the vault and what is published of each account, and how many controllers it has."""

    count: int = 0
    next: int = 1
    is_deployed: bool = False
    vaults: dict = dataclasses.field(default_factory=dict)  # by address: the identity and the units
    controllers: dict = dataclasses.field(default_factory=dict)
    published: dict = dataclasses.field(default_factory=dict)  # by address: the number of the controller

    def with_(self, **changes):
        return dataclasses.replace(self, **changes)

    def after(self, command):
        """The reply line to a command, and what there is then."""
        name = command[0]
        if name == "account":
            return b'{"address":"%s","reply":"ok"}\n' % address(self.count + 1).encode(), self.with_(count=self.count + 1)
        if name == "deploy":
            return self.after_deploy()
        if name == "there":
            return model.Accounts(self.count).after(as_save(command))[0], self
        if not self.is_deployed:
            return REJECTED, self
        if name in ASKED or name == "next":
            return self.answer(command), self
        if not 1 <= command[1] <= self.count:
            return bad(26), self
        return getattr(self, "after_" + name)(*command[1:])

    def answer(self, command):
        """The result of a script."""
        if command[0] == "next":
            return result(number_told(self.next))
        place, tell = {"identities": (0, number_told), "balances": (1, units_told)}[command[0]]
        seen = [self.vaults[one] if one in self.published and one in self.vaults else None for one in range(1, command[1] + 1)]
        return result(told("Array", [maybe(one and one[place], tell) for one in seen]))

    def after_deploy(self):
        if not self.count:
            return bad(26), self
        if self.is_deployed:
            return failed(118), self
        return done([self.next]), self.with_(next=self.next + 1, is_deployed=True, vaults={1: (self.next, SUPPLY)})

    def after_setup(self, signer):
        if signer in self.vaults:
            return failed(111), self
        return done([self.next]), self.with_(next=self.next + 1, vaults={**self.vaults, signer: (self.next, 0)})

    def after_publish(self, signer):
        if signer in self.published:
            return failed(116), self
        number = self.controllers.get(signer, 0) + 1
        return done(), self.with_(controllers={**self.controllers, signer: number}, published={**self.published, signer: number})

    def after_unpublish(self, signer):
        if signer not in self.published:
            return failed(106), self
        return done(), self.with_(published={one: number for one, number in self.published.items() if one != signer})

    def after_close(self, signer):
        if signer not in self.vaults:
            return failed(106), self
        identity = self.vaults[signer][0]
        return done((), [identity]), self.with_(vaults={one: vault for one, vault in self.vaults.items() if one != signer})

    def after_transfer(self, source, to, units):
        if source not in self.vaults:
            return failed(109), self
        if self.vaults[source][1] < units:
            return failed(108), self
        if to not in self.vaults or to not in self.published:
            return failed(109), self
        vaults, made = dict(self.vaults), self.next
        vaults[source] = vaults[source][0], vaults[source][1] - units
        vaults[to] = vaults[to][0], vaults[to][1] + units
        return done([made], [made], [moved(vaults[to][0], units)]), self.with_(next=made + 1, vaults=vaults)

    def after_holds(self, signer, identity, units, controller):
        mine = self.vaults.get(signer, (None, None)), self.controllers.get(signer, 0) + 1
        return failed(109 if mine == ((identity, units), controller) else 110), self

    def registers(self):
        """The bytes of each register that is there."""
        registers = {b"\0": number_field(self.count) + number_field(self.next)} if self.count else {}
        for one in range(1, self.count + 1):
            last = self.controllers.get(one, 0)
            registers[b"\1" + number_field(one)] = number_field(last + 1)
            for number in range(1, last + 1):
                registers[b"\6" + number_field(one) + number_field(number)] = bytes_field(b"token") + bytes_field(b"") + LENT
        if self.is_deployed:
            registers[b"\2" + number_field(1) + b"Token"] = TOKEN.encode()
            registers[b"\3" + number_field(1) + b"Token"] = composite_field(name_field(b"Token"), 0, b"supply", SUPPLY)
        for one, (identity, units) in self.vaults.items():
            registers[b"\4" + number_field(one) + b"token"] = composite_field(VAULT, identity, b"balance", units)
        for one, number in self.published.items():
            registers[b"\5" + number_field(one) + b"token"] = b"\x0a" + number_field(one) + number_field(number) + LENT
        return registers


def questions(tokens):
    """Commands that change nothing and whose replies tell what there is."""
    asked = [("there", tokens.count or 1), ("there", tokens.count + 1), ("balances", tokens.count + 1), ("identities", tokens.count + 1), ("next",)]
    hidden = [one for one in tokens.vaults if one not in tokens.published]
    for one in hidden[-1:] + list(tokens.controllers)[-1:]:
        identity, units = tokens.vaults.get(one, (None, None))
        asked.append(("holds", one, identity, units, tokens.controllers.get(one, 0) + 1))
    return asked


class Writer:
    """Makes commands: most succeed, and some of each kind fail."""

    def __init__(self, chance):
        self.chance = chance

    def transfer(self, tokens):
        """An amount from an account to another: none, one unit, all there is, more than there is, or some of it."""
        chance, most = self.chance, tokens.count + 1
        source = chance.choice(list(tokens.vaults)) if tokens.vaults and chance.random() < 0.9 else chance.randint(1, most)
        open_ = [one for one in tokens.published if one in tokens.vaults]
        to = chance.choice(open_) if open_ and chance.random() < 0.9 else chance.randint(1, most)
        balance = tokens.vaults.get(source, (0, 0))[1]
        units = chance.choice([0, 1, balance, balance + 1, *[chance.randint(0, balance) for _ in range(6)]])
        return ("transfer", source, to, units)

    def command(self, tokens):
        what, one = self.chance.random(), self.chance.randint(1, tokens.count + 1)
        if tokens.count < 2 or what < 0.08:
            return ("account",)
        if not tokens.is_deployed and what < 0.6 or what < 0.1:
            return ("deploy",)
        if what < 0.17:
            return self.chance.choice([("balances", one), ("identities", one), ("next",)])
        if what < 0.45:
            without = [one for one in range(1, tokens.count + 1) if one not in tokens.vaults or one not in tokens.published]
            one = self.chance.choice(without) if without and what < 0.4 else one
            return ("publish" if one in tokens.vaults else "setup", one)
        if what < 0.5:
            rich = one in tokens.vaults and SUPPLY // 4 < tokens.vaults[one][1]  # what it has is needed for transfers
            return (self.chance.choice(["publish" if rich else "close", "unpublish", "publish"]), one)
        return self.transfer(tokens)

    def commands(self, tokens, count):
        made = []
        for _ in range(count):
            made.append(self.command(tokens))
            tokens = tokens.after(made[-1])[1]
        return made
