#!/usr/bin/env python3
"""Times transactions that add many contracts, each on a new folder.

    bench/additions.py PROGRAM COUNT..
"""
import json
import subprocess
import sys
import tempfile
import time

CODE = """transaction(count: Int) {
    prepare(a: auth(AddContract) &Account) {
        var i = 0
        while i < count {
            let name = "C".concat(i.toString())
            let code = "access(all) contract ".concat(name).concat(" { access(all) let n: Int init() { self.n = 1 } }")
            a.contracts.add(name: name, code: code.utf8)
            i = i + 1
        }
    }
}
"""


def lines(count):
    """An account, and a transaction that adds so many contracts to it."""
    arguments = [{"type": "Int", "value": str(count)}]
    run = {"kind": "transaction", "signers": ["0x1"], "code": CODE, "arguments": arguments, "limit": 1_000_000}
    return "".join(json.dumps(line) + "\n" for line in ({"kind": "account"}, run)).encode()


def seconds(program, count):
    with tempfile.TemporaryDirectory() as folder:
        start = time.time()
        done = subprocess.run([program, "run", folder], input=lines(count), capture_output=True)
        assert done.returncode == 0 and done.stdout.count(b'"reply":"ok"') == 2, done
        return time.time() - start


def main():
    if len(sys.argv) < 3:
        sys.exit(__doc__)
    for count in map(int, sys.argv[2:]):
        print(f"{count} contracts: {seconds(sys.argv[1], count):.2f} s")


main()
