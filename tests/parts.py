#!/usr/bin/env python3
"""Runs random sessions over many accounts: each transaction and script reaches some of them, those that sign and others, also some that aren't
there, and every reply has to be the one that the model here gives, byte for byte. The model follows the rules (docs/FORMATS.md, docs/ERRORS.md).

Each session runs in one run, and once more cut into runs of some lines each, which find what those before them left.

    tests/parts.py PROGRAM [SEED]     12 sessions, or one
    tests/parts.py PROGRAM --long     400
"""
import copy
import pathlib
import random
import sys
import tempfile

from worked import ACCOUNT, account, deploy, difference, done, failed, result, script, transaction

BOX = """access(all) contract Box {
  access(all) resource Item {
    access(all) let n: Int
    init(n: Int) { self.n = n }
  }
  access(all) resource Holder {
    access(all) let items: @[Item]
    init() { self.items <- [] }
    access(all) fun put(_ item: @Item) { self.items.append(<-item) }
    access(all) fun take(): @Item { return <-self.items.removeFirst() }
  }
  access(all) fun make(_ n: Int): @Item { return <-create Item(n: n) }
  access(all) fun holder(): @Holder { return <-create Holder() }
}"""
IMPORT = "import Box from 0x1\n"
LIST = "getAccount(%s).capabilities.borrow<auth(Mutate) &[Int]>(/public/list)!"
HOLDER = "getAccount(%s).capabilities.borrow<&Box.Holder>(/public/holder)!"
PUBLISH = "%s.capabilities.publish(%s.capabilities.storage.issue<%s>(/storage/%s), at: /public/%s)"
READ = """access(all) fun main(): String {
  let all: [Address] = [%s]
  var text = ""
  for each in all {
    let published = getAccount(each).capabilities
    if let n = published.borrow<&Int>(/public/n) { text = text.concat((*n).toString()) }
    text = text.concat(",")
    if let list = published.borrow<&[Int]>(/public/list) {
      text = text.concat(list.length.toString()).concat("/").concat(list[list.length - 1].toString())
    }
    text = text.concat(",")
    if let holder = published.borrow<&Box.Holder>(/public/holder) {
      text = text.concat(holder.owner!.address.toString())
      var i = 0
      while i < holder.items.length {
        let item = holder.items[i]
        text = text.concat(" ").concat(item.uuid.toString()).concat("=").concat(item.n.toString())
        i = i + 1
      }
    }
    text = text.concat(";")
  }
  return text
}"""


class Failed(Exception):
    """A run comes to an error of this number."""


class Account:
    """What an account stores, and whether its number is published."""

    def __init__(self):
        self.n, self.is_published, self.list, self.items, self.contracts = None, False, None, None, set()

    def told(self, address):
        """What a script reads of it."""
        text = "%d," % self.n if self.is_published and self.n is not None else ","
        text += "%d/%d," % (len(self.list), self.list[-1]) if self.list else ","
        if self.items is not None:
            text += "0x%016x" % address + "".join(" %d=%d" % item for item in self.items)
        return text + ";"


class World:
    def __init__(self):
        self.accounts, self.next = [], 1

    def at(self, address):
        return self.accounts[address - 1] if 1 <= address <= len(self.accounts) else Account()

    def number(self, address):
        """The number that an account publishes."""
        one = self.at(address)
        if not one.is_published or one.n is None:
            raise Failed(106)
        return one.n

    def list(self, address):
        if self.at(address).list is None:
            raise Failed(106)
        return self.at(address).list

    def items(self, address):
        if self.at(address).items is None:
            raise Failed(106)
        return self.at(address).items


class Run:
    """A transaction as it is made up: its code, a statement behind the other, and what it does."""

    def __init__(self, world, signers):
        self.world, self.signers, self.lines, self.error = copy.deepcopy(world), signers, [], None
        self.made, self.destroyed = [], []

    def add(self, line, change):
        """One statement more, and what it does to the World where the run comes to it."""
        self.lines.append(line)
        if self.error is None:
            try:
                change()
            except Failed as failure:
                self.error = failure.args[0]

    def make(self):
        self.made.append(self.world.next)
        self.world.next += 1
        return self.made[-1]

    def take(self, address):
        items = self.world.items(address)
        if not items:
            raise Failed(104)
        return items.pop(0)

    # ---- statements

    def append(self, address, n):
        self.add((LIST + ".append(%d)") % (hex(address), n), lambda: self.world.list(address).append(n))

    def save_sum(self, signer, address):
        """The number of a signer becomes that and another's: its own isn't published meanwhile."""

        def change():
            own = self.world.at(self.signers[signer])
            old, own.n = own.n or 0, None
            own.n = old + self.world.number(address)

        load = f"s{signer}.storage.load<Int>(from: /storage/n) ?? 0"
        self.add(f"s{signer}.storage.save(({load}) + *(getAccount({hex(address)}).capabilities.borrow<&Int>(/public/n)!), to: /storage/n)", change)

    def save_more(self, signer, n):
        def change():
            own = self.world.at(self.signers[signer])
            own.n = (own.n or 0) + n

        self.add(f"s{signer}.storage.save((s{signer}.storage.load<Int>(from: /storage/n) ?? 0) + {n}, to: /storage/n)", change)

    def publish(self, signer):
        def change():
            if self.world.at(self.signers[signer]).is_published:
                raise Failed(116)
            self.world.at(self.signers[signer]).is_published = True

        self.add(PUBLISH % (f"s{signer}", f"s{signer}", "&Int", "n", "n"), change)

    def unpublish(self, signer):
        def change():
            self.world.at(self.signers[signer]).is_published = False

        self.add(f"s{signer}.capabilities.unpublish(/public/n)", change)

    def put_new(self, address, n):
        def change():
            items = self.world.items(address)
            items.append((self.make(), n))

        self.add((HOLDER + ".put(<-Box.make(%d))") % (hex(address), n), change)

    def send(self, giver, taker):
        def change():
            items = self.world.items(taker)
            items.append(self.take(giver))

        self.add((HOLDER + ".put(<-" + HOLDER + ".take())") % (hex(taker), hex(giver)), change)

    def destroy(self, address):
        self.add(("destroy " + HOLDER + ".take()") % hex(address), lambda: self.destroyed.append(self.take(address)[0]))

    def add_contract(self, signer, name):
        def change():
            if name in self.world.at(self.signers[signer]).contracts:
                raise Failed(118)
            self.world.at(self.signers[signer]).contracts.add(name)

        self.add(f's{signer}.contracts.add(name: "{name}", code: "access(all) contract {name} {{}}".utf8)', change)

    def panic(self):
        def change():
            raise Failed(109)

        self.add('panic("stop")', change)

    # ---- the whole of it

    def line(self):
        given = ", ".join(f"s{n}: auth(Storage, Capabilities, Contracts) &Account" for n in range(len(self.signers)))
        head = f"prepare({given})" if self.signers else "execute"
        return transaction(IMPORT + "transaction { " + head + " {\n" + "\n".join(self.lines) + "\n} }", *map(hex, self.signers))

    def comes_to(self, world):
        """The reply, and the World then."""
        if self.error:
            return failed(self.error), world
        return done(",".join(f'"{n}"' for n in self.made), ",".join(f'"{n}"' for n in self.destroyed)), self.world


def begun(world, address):
    """An account gets its number, its list and its holder, and publishes them."""
    run = Run(world, [address])

    def change():
        own = run.world.at(address)
        own.n, own.is_published, own.list, own.items = 1, True, [0], []
        run.make()

    run.add("s0.storage.save(1, to: /storage/n)\ns0.storage.save([0], to: /storage/list)\ns0.storage.save(<-Box.holder(), to: /storage/holder)", change)
    for kind, name in ("&Int", "n"), ("auth(Mutate) &[Int]", "list"), ("&Box.Holder", "holder"):
        run.lines.append(PUBLISH % ("s0", "s0", kind, name, name))
    return run


def statement(chance, run, count):
    """One more statement of a run."""
    address = lambda: chance.randint(1, count + 1 if chance.random() < 0.02 else count)
    signer = chance.randrange(len(run.signers)) if run.signers else None
    kinds = ["append", "put", "send", "destroy"] * 3 + (["sum", "more"] * 3 + ["publish", "unpublish"] if run.signers else [])
    kind = chance.choice(kinds + ["contract"] if run.signers and chance.random() < 0.3 else kinds)
    if kind == "append":
        run.append(address(), chance.randint(0, 99))
    elif kind == "put":
        run.put_new(address(), chance.randint(0, 99))
    elif kind == "send":
        run.send(address(), address())
    elif kind == "destroy":
        run.destroy(address())
    elif kind == "sum":
        run.save_sum(signer, address())
    elif kind == "more":
        run.save_more(signer, chance.randint(0, 99))
    elif kind == "contract":
        run.add_contract(signer, chance.choice("CD"))
    else:
        getattr(run, kind)(signer)


def transacted(chance, world):
    """A transaction that reaches some accounts, many at times."""
    count = len(world.accounts)
    signers = [chance.randint(1, count) for _ in range(chance.choice([0, 1, 1, 1, 2, 3, 17, 20]))]
    run = Run(world, signers)
    for _ in range(chance.choice([1, 1, 2, 3, 4, 8, 25, 40])):
        before, lines = copy.deepcopy((run.world, run.error, run.made, run.destroyed)), list(run.lines)
        statement(chance, run, count)
        if run.error and chance.random() < 0.85:
            # Most runs go on: what fails is taken back.
            (run.world, run.error, run.made, run.destroyed), run.lines = before, lines
    if chance.random() < 0.1 or not run.lines:
        run.panic()
    return run


def read(chance, world):
    """A script that reads some accounts, some of which may not be there."""
    count = len(world.accounts)
    asked = [chance.randint(1, count + 2) for _ in range(chance.choice([1, 2, 3, 15, 16, 17, 18, 30]))]
    return asked_of(world, asked)


def asked_of(world, asked):
    told = "".join(world.at(address).told(address) for address in asked)
    return script(IMPORT + READ % ", ".join(map(hex, asked)), limit=1000000), result("String", told)


def session(chance):
    """Lines with their replies."""
    world, pairs = World(), []

    def account_made():
        world.accounts.append(Account())
        pairs.append((ACCOUNT, account(len(world.accounts))))

    account_made()
    pairs.append((deploy("Box", BOX), done()))
    for _ in range(chance.choice([2, 5, 16, 17, 22])):
        account_made()
    for address in range(1, len(world.accounts) + 1):
        if chance.random() < 0.9:
            run = begun(world, address)
            reply, world = run.comes_to(world)
            pairs.append((run.line(), reply))
    for _ in range(40):
        kind = chance.random()
        if kind < 0.05:
            account_made()
        elif kind < 0.3:
            pairs.append(read(chance, world))
        else:
            run = transacted(chance, world)
            reply, world = run.comes_to(world)
            pairs.append((run.line(), reply))
    everyone = range(1, len(world.accounts) + 1)
    return pairs + [asked_of(world, everyone)] + [asked_of(world, [address]) for address in everyone]


def cut(chance, pairs):
    """The same lines, in runs of some lines each."""
    left = list(pairs)
    while left:
        n = chance.randint(1, 12)
        yield left[:n]
        left = left[n:]


def differences(program, seed):
    """What is wrong with a session: in one run, and cut."""
    chance = random.Random(seed)
    pairs = session(chance)
    for runs in [pairs], list(cut(chance, pairs)):
        with tempfile.TemporaryDirectory() as folder:
            for run in runs:
                wrong = difference(program, folder, run)
                if wrong:
                    yield wrong
                    break


def main():
    words = [it for it in sys.argv[1:] if it != "--long"]
    if len(words) not in (1, 2):
        sys.exit(__doc__)
    program = str(pathlib.Path(words[0]).resolve())
    seeds = [int(words[1])] if len(words) == 2 else range(400 if "--long" in sys.argv else 12)
    wrong = 0
    for seed in seeds:
        found = list(differences(program, seed))
        wrong += bool(found)
        for line in found:
            print(f"seed {seed}: {line}")
    print(f"parts: {len(seeds)} sessions, {wrong} wrong")
    sys.exit(1 if wrong else 0)


if __name__ == "__main__":
    main()
