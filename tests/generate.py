#!/usr/bin/env python3
"""Tries the words `generate N`: what the program puts must be the counts of the lines, which are written here a second time
from the rules alone (docs/FORMATS.md, "Generated sessions") and run as `run FOLDER`.

    tests/generate.py PROGRAM          some hundred transfers
    tests/generate.py PROGRAM --long   1,000 too, twice
"""
import json
import pathlib
import subprocess
import sys
import tempfile

TOKEN = """access(all) contract Token {
  access(all) entitlement Withdraw
  access(all) event Moved(id: UInt64, amount: UFix64)
  access(all) var supply: UFix64
  access(all) resource interface Receiver {
    access(all) fun deposit(from: @Vault)
  }
  access(all) resource Vault: Receiver {
    access(all) var balance: UFix64
    init(balance: UFix64) { self.balance = balance }
    access(Withdraw) fun withdraw(amount: UFix64): @Vault {
      pre { self.balance >= amount: "too little" }
      self.balance = self.balance - amount
      return <-create Vault(balance: amount)
    }
    access(all) fun deposit(from: @Vault) {
      self.balance = self.balance + from.balance
      emit Moved(id: self.uuid, amount: from.balance)
      destroy from
    }
  }
  access(all) fun empty(): @Vault { return <-create Vault(balance: 0.0) }
  init() {
    self.supply = 1000.0
    self.account.storage.save(<-create Vault(balance: 1000.0), to: /storage/token)
  }
}
"""
SETUP = """import Token from 0x1
transaction { prepare(a: auth(SaveValue) &Account) {
  a.storage.save(<-Token.empty(), to: /storage/token) } }
"""
PUBLISH = """import Token from 0x1
transaction { prepare(a: auth(IssueStorageCapabilityController, PublishCapability) &Account) {
  let c = a.capabilities.storage.issue<&Token.Vault>(/storage/token)
  a.capabilities.publish(c, at: /public/token) } }
"""
TRANSFER = """import Token from 0x1
transaction(amount: UFix64, to: Address) {
  let vault: @Token.Vault
  prepare(a: auth(BorrowValue) &Account) {
    let own = a.storage.borrow<auth(Token.Withdraw) &Token.Vault>(from: /storage/token) ?? panic("none")
    self.vault <- own.withdraw(amount: amount)
  }
  execute {
    let into = getAccount(to).capabilities.borrow<&Token.Vault>(/public/token) ?? panic("none")
    into.deposit(from: <-self.vault)
  }
}
"""
OTHER_WORDS = ["", "x", "0x1", "007", "00", "01", "000001", "+1", "-1", "1.0", "1 ", "1e3", "100001", "1000000", "18446744073709551616"]


def address(number):
    return f"0x{number:016x}"


def signed(code, signer):
    return {"code": code, "kind": "transaction", "signers": [address(signer)]}


def transfer(source, to, amount):
    arguments = [{"type": "UFix64", "value": f"{amount}.00000000"}, {"type": "Address", "value": address(to)}]
    return {"arguments": arguments, **signed(TRANSFER, source)}


def requests(n):
    """The lines of a session with n transfers, as JSON."""
    asked = [{"kind": "account"}] * 4
    asked.append({"address": address(1), "code": TOKEN, "kind": "deploy", "name": "Token"})
    asked += [signed(SETUP, signer) for signer in (2, 3, 4)] + [signed(PUBLISH, signer) for signer in (1, 2, 3, 4)]
    asked += [transfer(1, to, 100) for to in (2, 3, 4)]
    x = n
    for _ in range(n):
        x = (x * 6364136223846793005 + 1442695040888963407) % 2**64
        asked.append(transfer(1 + (x >> 33) % 4, 1 + (x >> 43) % 4, 1 + (x >> 53) % 200))
    return asked


def run(program, words, text=b""):
    done = subprocess.run([program, *words], input=text, capture_output=True, timeout=3600)
    return done.returncode, done.stdout.decode()


def counts(program, n):
    """What has to be put: the counts of the replies to the lines."""
    asked = requests(n)
    with tempfile.TemporaryDirectory() as folder:
        _, out = run(program, ["run", folder], "".join(json.dumps(line, separators=(",", ":"), sort_keys=True) + "\n" for line in asked).encode())
    replies = [json.loads(line) for line in out.splitlines()]
    made = [i for reply in replies for i in reply.get("made", [])]
    destroyed = [i for reply in replies for i in reply.get("destroyed", [])]
    told = {
        "destroyed": len(destroyed),
        "failed": sum(reply["reply"] == "failed" for reply in replies),
        "lines": len(replies),
        "live": len(set(made) - set(destroyed)),
        "made": len(made),
        "ok": sum(reply["reply"] == "ok" for reply in replies),
    }
    return json.dumps({key: str(value) for key, value in told.items()}, separators=(",", ":")) + "\n", len(asked)


def main():
    if len(sys.argv) not in (2, 3):
        sys.exit(__doc__)
    program = str(pathlib.Path(sys.argv[1]).resolve())
    wrong = []
    for n in [0, 1, 2, 7, 100] + [1000] * 2 * ("--long" in sys.argv):
        wanted, lines = counts(program, n)
        status, out = run(program, ["generate", str(n)])
        if (status, out) != (0, wanted) or json.loads(wanted)["lines"] != str(lines):
            wrong.append(f"generate {n}: status {status}, {out!r}, and {wanted!r} is wanted of {lines} lines")
    for word in OTHER_WORDS:
        if run(program, ["generate", word]) != (2, ""):
            wrong.append(f"generate {word!r} isn't refused")
    for words in (["generate"], ["generate", "1", "2"], ["Generate", "1"]):
        if run(program, words) != (2, ""):
            wrong.append(f"{words} aren't refused")
    for line in wrong:
        print(line)
    print(f"generate: {len(wrong)} wrong")
    sys.exit(1 if wrong else 0)


if __name__ == "__main__":
    main()
