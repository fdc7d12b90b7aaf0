#!/usr/bin/env python3
"""Runs the tests `again` of crates/call_tests with each growth of memory refused in turn.

    python3 witness/memory/calls.py [--most N]

Each test makes calls (`Names::intern`, `Pool::begin`, `Pool::intern`, `MemFiles::put`, `Files::read`). Where one answers that memory
ran out, the test looks that what was lent is as before, and makes the call again, which must answer as it would have. `rt try` refuses
growth 1 to N (by default 30, more than the longest of these tests asks for), one after the other, without any proof; a try takes some
half a minute. The end status is 0 exactly where no test failed.
"""
import argparse
import os
import re
import subprocess
import sys

CRATE = os.path.join(os.path.dirname(os.path.abspath(__file__)), "../../crates/call_tests")


def main():
    words = argparse.ArgumentParser(description=__doc__, formatter_class=argparse.RawDescriptionHelpFormatter)
    words.add_argument("--most", type=int, default=30)
    failed = 0
    for number in range(1, words.parse_args().most + 1):
        ran = subprocess.run(["rt", "try", "--test", "--fail-alloc", str(number)], cwd=CRATE, capture_output=True, text=True)
        told = re.findall(r"^test again::(\w+) \.\.\. (\w+)", ran.stdout + ran.stderr, re.M)
        wrong = [name for name, answer in told if answer != "ok"]
        failed += len(wrong) + (not told)
        print(f"growth {number} refused: {len(told) - len(wrong)} passed, {len(wrong)} failed {' '.join(wrong)}", flush=True)
    return 1 if failed else 0


if __name__ == "__main__":
    sys.exit(main())
