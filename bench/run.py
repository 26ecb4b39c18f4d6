#!/usr/bin/env python3
"""Times the program `dnscheck` over inputs of 1, 4 and 16 MiB, ordinary ones and such as a stranger would choose.

    bench/run.py [PROGRAM] [RUNS] [WORD]

PROGRAM is the built program, by default crates/dnscheck/out/dnscheck (`rt run` in crates/dnscheck builds it). Each
input is given RUNS times, by default 5, and the shortest processor time in seconds is printed for each size; with WORD,
only inputs with this word in their name. The status and the lines that are written are compared with what is expected.
"""

import base64
import hashlib
import hmac
import os
import platform
import resource
import struct
import subprocess
import sys

LIMIT = 16_777_216

ROOT = os.path.dirname(os.path.dirname(os.path.abspath(__file__)))

KEY = b"key hmac-sha256 k. 300 0b0b0b0b0b0b0b0b0b0b0b0b0b0b0b0b0b0b0b0b\n"
QUERY = "123401000001000000000000076578616d706c650000010001"
REQUEST = f"request 1000 {QUERY}\n".encode()

# a response, signed, to which zero octets may be added
ANSWER = (
    "123481800001000100000001076578616d706c650000010001c00c0001000100000e100004c0000201"
    "016b0000fa00ff00000000003d0b686d61632d736861323536000000000003e8012c0020"
    "bd51d084b43578959c48a9ff978363372f39c9fdcaab2dbedaf304bfbddeb40d123400000000"
)

SECRET = b"\x0b" * 20
REQUEST_MAC = bytes.fromhex("56d9a0dbb2ce89ae3200b40be94959a38069d989ca0a0126fc38a6670e7ff40b")
QUESTION = bytes.fromhex("076578616d706c650000010001")
ALGORITHM = bytes.fromhex("0b686d61632d73686132353600")


TIMES = struct.pack(">HIH", 0, 1000, 300)
VARIABLES = b"\x01k\0" + struct.pack(">HI", 255, 0) + ALGORITHM + TIMES + struct.pack(">HH", 0, 0)


def response(records):
    """The octets of a response with these answers."""
    return struct.pack(">6H", 0x1234, 0x8180, 1, len(records), 0, 0) + QUESTION + b"".join(records)


def signed(message, before=REQUEST_MAC, covered=VARIABLES):
    """A response signed at the time 1000 behind a MAC, and its own MAC (RFC 8945 4.3)."""
    mac = hmac.new(SECRET, struct.pack(">H", 32) + before + message + covered, hashlib.sha256).digest()
    data = ALGORITHM + TIMES + struct.pack(">H", 32) + mac + struct.pack(">HHH", 0x1234, 0, 0)
    tsig = b"\x01k\0" + struct.pack(">HHIH", 250, 255, 0, len(data)) + data
    return message[:10] + b"\0\x01" + message[12:] + tsig, mac


MIB = 1024 * 1024


def stream(size, message, front=b"", sets=(), moment=1500):
    """As many lines of this response as there is room for, each signed behind the one before it; and what is written:
    for each a line, and these for its sets."""
    front += KEY + REQUEST
    octets, mac = signed(message)
    lines, written, room = [], [], size - len(front)
    while len(octets) * 2 + 13 <= room:
        lines.append(b"answer %d %s\n" % (moment, octets.hex().encode()))
        written.append(b"answer %d ok %d" % (len(lines), len(sets)))
        written.extend(sets)
        room -= len(lines[-1])
        octets, mac = signed(message, mac, TIMES)
    return front + b"".join(lines), 0, written


def address(owner):
    return owner + struct.pack(">HHIH", 1, 1, 3600, 4) + b"\xc0\0\x02\x01"


def pointers():
    """2,700 addresses whose owner runs through 8,172 pointers, each to the one before it, which stand in OPT data."""
    start = 12 + len(QUESTION) + 11
    places = range(start, start + 2 * 8_172, 2)
    chain = b"".join(struct.pack(">H", 0xC000 | (place - 2 if place > start else 12)) for place in places)
    opt = b"\0" + struct.pack(">HHIH", 41, 1232, 0, len(chain)) + chain
    return response([opt] + [address(struct.pack(">H", 0xC000 | places[-1]))] * 2_700)


LABEL = b"\x3f" + b"x" * 63
LONG = LABEL * 3 + b"\x28" + b"y" * 40 + b"\0"


def long_ends(count):
    """So many addresses under one name of 234 octets each, which stands in the first record's data."""
    first = b"\xc0\x0c" + struct.pack(">HHIH", 2, 1, 3600, len(LONG)) + LONG
    place = struct.pack(">H", 0xC000 | (12 + len(QUESTION) + 12))
    return response([first] + [address(b"\x04%04d" % number + place) for number in range(count)])


def in_cases(count):
    """So many addresses of one owner, spelled in so many ways."""
    def spelled(number):
        return b"\x10" + bytes(ord("A") + (32 if number >> bit & 1 else 0) for bit in range(16)) + b"\0"

    return response([address(spelled(number)) for number in range(count)])


def windows():
    """An NSEC record whose types stand in 256 windows, which descend."""
    types = b"".join(bytes([255 - number, 32]) + b"\xff" * 32 for number in range(256))
    data = b"\0" + types
    return response([b"\xc0\x0c" + struct.pack(">HHIH", 47, 1, 3600, len(data)) + data] * 6)


def some_sets(count):
    """So many sets of one address each."""
    return response([address(b"\x04%04d\xc0\x0c" % number) for number in range(count)])


# ---- keys and signatures under the scheme of the program: the HMAC-SHA-256 of what is signed under the key's octets


def key(number):
    """Keys of one tag: the octets 0 and 2, and 4 and 6, count for it alike."""
    return bytes([number % 100, 1, 100 - number % 100, 1, number // 100, 1, 100 - number // 100]) + b"\x01" * 25


def anchor(owner, octets):
    return b"anchor " + owner + b" IN DNSKEY 256 3 15 " + base64.b64encode(octets) + b"\n"


def tag(octets):
    """The tag of a key of Ed25519 of a zone (RFC 4034 appendix B)."""
    total = sum(octet << 8 if place % 2 == 0 else octet for place, octet in enumerate(b"\x01\0\x03\x0f" + octets))
    return (total + (total >> 16)) & 0xFFFF


def rrsig(octets, rtype=1, datas=(b"\xc0\0\x02\x01",), right=True, length=32):
    """The signature of these data at the question's name, by a key of that name (RFC 4034 3.1.8.1); a wrong one has so
    many octets."""
    name = QUESTION[:-4]
    head = struct.pack(">HBBIIIH", rtype, 15, 1, 3600, 2000, 1000, tag(octets)) + name
    front = name + struct.pack(">HHI", rtype, 1, 3600)
    records = b"".join(front + struct.pack(">H", len(data)) + data for data in sorted(datas))
    value = hmac.new(octets, head + records, hashlib.sha256).digest() if right else b"\0" * length
    data = head + value
    return b"\xc0\x0c" + struct.pack(">HHIH", 46, 1, 3600, len(data)) + data


def signed_set(rtype, datas):
    """A response with these data at the question's name, and their signature by the first key."""
    front = b"\xc0\x0c" + struct.pack(">HHI", rtype, 1, 3600)
    records = [front + struct.pack(">H", len(data)) + data for data in datas]
    return response(records + [rrsig(key(1), rtype, datas)])


def alike(count):
    """So many keys of one tag and one owner."""
    return b"".join(anchor(b"example.", key(number)) for number in range(1, count + 1))


def many_keys(count):
    """So many keys of as many zones, the last of which is the question's name."""
    lines = [anchor(b"z%d." % number, hashlib.sha256(b"%d" % number).digest()) for number in range(count - 1)]
    return b"".join(lines) + anchor(b"example.", key(1))


def filled(size, front, line, back, status, written):
    """The front, as often the line as there is room for, and the back."""
    room = size - len(front) - len(back)
    return front + line * (room // len(line)) + back, status, written


IS_ADDRESS = (b"an example. IN A Indeterminate",)
ONE_OK = (b"answer 1 ok 1",) + IS_ADDRESS


def scripts(size):
    """Texts that are mostly skipped, one long word, or one long line."""
    answer = ("answer 0 " + ANSWER + "00" * (65_535 - len(ANSWER) // 2) + "\n").encode()
    short = f"answer 0 {ANSWER}\n".encode()
    comment = b"# a line that is skipped, of sixty-four octets with its feed ..\n"
    good, start = KEY + REQUEST + short, KEY + REQUEST
    fault = (b"fault 3 answer",)
    yield "an answer of 65,535 octets among comment lines", filled(size, start, comment, answer, 0, ONE_OK)
    yield "line feeds", (b"\n" * size, 2, (b"fault %d end" % (size + 1),))
    yield "one comment", (b"#" * size, 2, (b"fault 2 end",))
    yield "a script, then a comment", filled(size, good, b"#", b"", 0, ONE_OK)
    yield "a script behind lines of one `#` each", filled(size, b"", b"#\n", good, 0, ONE_OK)
    request = b"1000 " + QUERY.encode() + b"\n" + short
    yield "a time of leading zeros", filled(size, KEY + b"request ", b"0", request, 0, ONE_OK)
    yield "one answer that is no message", filled(size, start + b"answer 0 ", b"00", b"\n", 1, (b"answer 1 Decode",))
    yield "hexadecimal with one digit too many", filled(size, start + b"answer 0 ", b"00", b"0\n", 2, fault)
    long_key = filled(size, b"key hmac-sha256 k. 300 ", b"0b", b"\n" + REQUEST + short, 1, (b"answer 1 HmacInvalid",))
    yield "one key", long_key
    yield "one line of words", filled(size, start + b"answer 0", b" 0", b"\n", 2, fault)
    yield "answers of one octet", filled(size, start, b"answer 0 00\n", b"", 1, None)


def answers(size):
    """Scripts of answers that are accepted, of nearly 64 KiB each but for the small ones."""
    ordinary = response([address(b"\xc0\x0c")] * 3_700)
    yield "answers of 3,700 addresses of one owner", stream(size, ordinary, sets=IS_ADDRESS)
    yield "answers of one address", stream(size, response([address(b"\xc0\x0c")]), sets=IS_ADDRESS)
    five_hundred = [b"an %04d.example. IN A Indeterminate" % number for number in range(500)]
    yield "answers of 500 sets", stream(size, some_sets(500), sets=five_hundred)
    yield "8,172 pointers to each of 2,700 owners", stream(size, pointers(), sets=IS_ADDRESS)
    end = (b"x" * 63 + b".") * 3 + b"y" * 40 + b"."
    long = [b"an example. IN NS Indeterminate"] + [b"an %04d.%s IN A Indeterminate" % (n, end) for n in range(2_600)]
    yield "2,600 owners that share an end of 234 octets", stream(size, long_ends(2_600), sets=long)
    spelled = (b"an %s. IN A Indeterminate" % (b"A" * 16),)
    yield "1,800 owners that differ in case alone", stream(size, in_cases(1_800), sets=spelled)
    yield "sets of types in descending windows", stream(size, windows(), sets=(b"an example. IN NSEC Indeterminate",))


def marked(size):
    """Scripts with trusted keys."""
    secure, bogus = (b"an example. IN A Secure",), (b"an example. IN A Bogus",)
    one = response([address(b"\xc0\x0c"), rrsig(key(50))])
    yield "answers of one signed set, 50 keys of one tag", stream(size, one, alike(50), secure)
    first = response([address(b"\xc0\x0c"), rrsig(key(1))])
    yield "the same, a key for each 800 octets in as many zones", stream(size, first, many_keys(size // 800), secure)
    addresses = [b"\x0a\0" + struct.pack(">H", number * 7919 % 3_000) for number in range(3_000)]
    yield "answers of one signed set of 3,000 addresses", stream(size, signed_set(1, addresses), alike(1), secure)
    texts = [b"\xc7" + b"%03d" % (number * 7919 % 300) + b"t" * 196 for number in range(300)]
    text = (b"an example. IN TXT Secure",)
    yield "answers of one signed set of 300 texts of 200 octets", stream(size, signed_set(16, texts), alike(1), text)
    wrong = response([address(b"\xc0\x0c")] + [rrsig(key(1), right=False, length=0)] * 1_000)
    yield "1,000 wrong signatures of one set, one key", stream(size, wrong, alike(1), bogus)
    unmet = response([address(b"\xc0\x0c")] + [rrsig(b"\x02" * 32, right=False, length=0)] * 1_000)
    yield "1,000 signatures of one set by no key of 9,000 of one tag", stream(size, unmet, alike(9_000), IS_ADDRESS)


def pairs():
    """One answer for which the definition tries 30,000 pairs."""
    wrong = signed(response([address(b"\xc0\x0c")] + [rrsig(key(50), right=False)] * 600))[0]
    script = alike(50) + KEY + REQUEST + b"answer 1500 " + wrong.hex().encode() + b"\n"
    return script, 0, (b"answer 1 ok 1", b"an example. IN A Bogus")


def inputs(size):
    """Each input of about this size by its name, with its status and the lines that it comes to but the first."""
    yield from scripts(size)
    yield from answers(size)
    yield from marked(size)
    if size == LIMIT:
        yield "one answer, 30,000 pairs of a wrong signature and a key", pairs()
        yield "one octet more than the limit", (b"\n" * (LIMIT + 1), 6, ())


def is_expected(done, status, written):
    """Whether the program ended so, and wrote these lines, the signed request aside."""
    lines = [line for line in done.stdout.split(b"\n")[:-1] if not line.startswith(b"request ")]
    return done.returncode == status and (written is None or lines == list(written))


def timed(program, octets):
    """The processor time of a run, its own and the system's for it, which other programs change little."""
    before = resource.getrusage(resource.RUSAGE_CHILDREN)
    done = subprocess.run([program, "check"], input=octets, stdout=subprocess.PIPE, check=False)
    after = resource.getrusage(resource.RUSAGE_CHILDREN)
    return after.ru_utime - before.ru_utime + after.ru_stime - before.ru_stime, done


def processor():
    try:
        with open("/proc/cpuinfo", encoding="utf-8") as file:
            names = [line.split(":", 1)[1].strip() for line in file if line.startswith("model name")]
        return names[0] if names else platform.processor()
    except OSError:
        return platform.processor()


def main():
    program = sys.argv[1] if len(sys.argv) > 1 else os.path.join(ROOT, "crates/dnscheck/out/dnscheck")
    runs = int(sys.argv[2]) if len(sys.argv) > 2 else 5
    word = sys.argv[3] if len(sys.argv) > 3 else ""
    print(f"{platform.system()} {platform.machine()}, {processor()}, {os.cpu_count()} processors, best of {runs}")
    print(f"{'1 MiB':>8}  {'4 MiB':>8}  {'16 MiB':>8}  {'growth':>6}  input")
    times, failed = {}, False
    for size in (MIB, 4 * MIB, LIMIT):
        for name, (octets, status, written) in inputs(size):
            if word not in name:
                continue
            seconds, done = min((timed(program, octets) for _ in range(runs)), key=lambda run: run[0])
            times.setdefault(name, {})[size] = seconds
            if not is_expected(done, status, written):
                failed = True
                print(f"unexpected at {size}: {name}: status {done.returncode}, {done.stdout[-80:]}")
    for name, seconds in times.items():
        columns = "  ".join(f"{seconds[size]:8.3f}" if size in seconds else " " * 8 for size in (MIB, 4 * MIB, LIMIT))
        growth = f"{seconds[LIMIT] / seconds[4 * MIB]:6.1f}" if 4 * MIB in seconds else " " * 6
        print(f"{columns}  {growth}  {name}")
    sys.exit(1 if failed else 0)


if __name__ == "__main__":
    main()
