#!/usr/bin/env python3
"""Asks the checker about small programs, at least one for each side of a rule, and compares each reply.

Each line of tests/rules.jsonl is a case: the rule that it shows, in words; a request line for cadence_check; and the reply that
the rule asks for, worked out from the rule and not from the program. All are asked in one run, which must end with status 0.

    tests/rules.py PROGRAM           PROGRAM is cadence_check
    tests/rules.py --lines           prints the request lines
    tests/rules.py --replies FILE    compares the reply lines that FILE holds
"""
import json
import pathlib
import subprocess
import sys

CASES = pathlib.Path(__file__).resolve().with_suffix(".jsonl")


def compact(value):
    """A value as the program writes it: compact JSON with its keys in byte order."""
    return json.dumps(value, ensure_ascii=False, separators=(",", ":"), sort_keys=True)


def request(case):
    """The request line of a case; a text is a line as it stands."""
    line = case["line"]
    return line if isinstance(line, str) else json.dumps(line, ensure_ascii=False, separators=(",", ":"))


def answers(program, cases):
    """The reply lines of a run on all cases."""
    lines = "".join(request(case) + "\n" for case in cases)
    done = subprocess.run([program], input=lines.encode(), capture_output=True, timeout=900)
    if done.returncode:
        sys.exit(f"rules: status {done.returncode}: {done.stderr.decode(errors='replace').strip()}")
    return done.stdout.decode(errors="replace")


def differences(cases, replies):
    """What is wrong, a text for each case."""
    got = replies.split("\n")[:-1]
    if len(got) != len(cases):
        yield f"{len(got)} replies to {len(cases)} lines"
    for number, (case, reply) in enumerate(zip(cases, got), 1):
        wanted = compact(case["reply"])
        if reply != wanted:
            yield f"case {number}: {case['rule']}\n  {request(case)}\n  {reply}, and {wanted} is wanted"


def main():
    cases = [json.loads(line) for line in CASES.read_text(encoding="utf-8").splitlines()]
    words = sys.argv[1:]
    if words == ["--lines"]:
        print("\n".join(map(request, cases)))
        return
    if len(words) == 2 and words[0] == "--replies":
        replies = pathlib.Path(words[1]).read_text(encoding="utf-8")
    elif len(words) == 1 and not words[0].startswith("-"):
        replies = answers(str(pathlib.Path(words[0]).resolve()), cases)
    else:
        sys.exit(__doc__)
    wrong = list(differences(cases, replies))
    for text in wrong:
        print(text)
    print(f"rules: {len({case['rule'] for case in cases})} rules, {len(cases)} cases, {len(wrong)} wrong")
    sys.exit(1 if wrong or not cases else 0)


main()
