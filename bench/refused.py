#!/usr/bin/env python3
"""Refuses each allocation of the program `dnscheck` in turn.

    bench/refused.py [JOBS] [FIRST]

For N from FIRST on, by default 1, it runs `rt try --fail-alloc N` in crates/dnscheck over the stored script, JOBS runs at a
time, by default 2, until a run meets no refusal. A run whose allocation is refused has to end with status 5 and an empty
text, and the last one with the stored text. It proves nothing, and takes half a minute a run. For calls of the libraries
`rt try --test --fail-alloc N` in crates/memory_tests does the same.
"""

import os
import subprocess
import sys
from concurrent.futures import ThreadPoolExecutor

CRATE = os.path.join(os.path.dirname(os.path.dirname(os.path.abspath(__file__))), "crates", "dnscheck")


def run(number):
    """What the program writes and its status where this allocation is refused."""
    with open(os.path.join(CRATE, "stdin"), "rb") as script:
        command = ["rt", "try", "--fail-alloc", str(number), "--", "check"]
        done = subprocess.run(command, cwd=CRATE, stdin=script, capture_output=True, check=False)
    return number, done.returncode, done.stdout


def main():
    jobs = int(sys.argv[1]) if len(sys.argv) > 1 else 2
    first = int(sys.argv[2]) if len(sys.argv) > 2 else 1
    with open(os.path.join(CRATE, "stdout"), "rb") as file:
        text = file.read()
    with ThreadPoolExecutor(jobs) as pool:
        while True:
            for number, status, written in pool.map(run, range(first, first + jobs)):
                if (status, written) == (0, text):
                    print(f"allocations refused, each with status 5 and nothing written: {number - 1}")
                    sys.exit(0)
                if (status, written) != (5, b""):
                    print(f"allocation {number}: status {status}, {len(written)} octets written")
                    sys.exit(1)
                print(f"allocation {number}: status 5, nothing written", flush=True)
            first += jobs


if __name__ == "__main__":
    main()
