#!/usr/bin/env python3
"""Times the octets that an RRSIG covers of large sets, by the library for C through Python's ctypes.

    make -C c shared
    bench/signed_sets.py [RUNS]

It prints the milliseconds of the shortest of RUNS calls (by default 15) of `rrsig_input` for each set. For more octets than
2,048 the module asks twice: how many there are, and then for them.
"""

import os
import random
import struct
import sys
import time

ROOT = os.path.dirname(os.path.dirname(os.path.abspath(__file__)))
sys.path.insert(0, os.path.join(ROOT, "c"))
sys.dont_write_bytecode = True

import paddlesepia  # noqa: E402

A, NS, RRSIG = 1, 2, 46
QUESTION = b"\xc0\x0c"


def record(rtype: int, data: bytes) -> bytes:
    """A record of the question's name in class IN."""
    return QUESTION + struct.pack(">HHIH", rtype, 1, 3600, len(data)) + data


def rrsig(rtype: int, labels: int, signer: bytes) -> bytes:
    """An RRSIG of a set of the question's name, its signature all zeros."""
    fields = struct.pack(">HBBIIIH", rtype, 13, labels, 3600, 2_000_000_000, 1_000_000_000, 1)
    return record(RRSIG, fields + signer + bytes(64))


def answer(owner: bytes, records: list[bytes]) -> bytes:
    """An answer with one question and these records."""
    header = struct.pack(">HHHHHH", 1, 0x8400, 1, len(records), 0, 0)
    return header + owner + struct.pack(">HH", A, 1) + b"".join(records)


def milliseconds(runs: int, owner: bytes, rtype: int, labels: int, data: list[bytes]) -> float:
    """The shortest call for a set with these data."""
    records = [record(rtype, octets) for octets in data]
    start = len(answer(owner, records))
    message = answer(owner, [*records, rrsig(rtype, labels, owner)])
    times = []
    for _ in range(runs):
        begun = time.perf_counter()
        paddlesepia.rrsig_input(message, paddlesepia.Section.ANSWER, owner, 1, start)
        times.append(time.perf_counter() - begun)
    return 1000 * min(times)


def main() -> None:
    """Times each set."""
    runs = int(sys.argv[1]) if len(sys.argv) > 1 else 15
    numbers = random.Random(1)
    owner = paddlesepia.name_from_text("example.")
    for count in (100, 1_000, 4_000):
        addresses = [struct.pack(">I", numbers.getrandbits(32)) for _ in range(count)]
        print(f"{count:5} addresses     {milliseconds(runs, owner, A, 1, addresses):7.2f}")
    owner = paddlesepia.name_from_text(".".join(letter * 57 for letter in "abc") + ".example.")
    servers = [b"\x03" + b"%03x" % number + QUESTION for number in range(3_400)]
    print(f"{len(servers):5} name servers  {milliseconds(runs, owner, NS, 4, servers):7.2f}")


if __name__ == "__main__":
    main()
