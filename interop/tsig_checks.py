"""Transaction signatures: what the library signs is asked of a server, and what the server answers is checked by it."""

import dataclasses
import os
import time

import dns.rcode
import dns.rdatatype

import messages
import zones
from outcomes import Skipped, ensure
from paddlesepia import Hash, Refused, TsigKey, name_from_text, tsig_read

NOTAUTH = int(dns.rcode.NOTAUTH)
BADSIG, BADKEY, BADTIME = 16, 17, 18

# how many places of a message are changed, one at a time
CHANGES = 40


def new_keys():
    """A key of each hash function, with a new secret."""
    names = {hash_function: name_from_text(f"{hash_function.name}.Key.example") for hash_function in Hash}
    return {one: TsigKey(one, os.urandom(one // 8), name) for one, name in names.items()}


def now():
    return int(time.time())


def refusal(chain, message):
    """The status for which a message is refused. The chain has to be as it was then."""
    before = chain.copy()
    try:
        chain.check(message)
    except Refused as refused:
        ensure(chain == before, "a refused answer moved the chain")
        return refused.status
    ensure(False, "an answer was accepted that had to be refused")


def checks(report, server):
    """All checks of transaction signatures at a server."""
    for hash_function, key in server.keys.items():
        report.make(server.name, f"signed query by {hash_function.name}", signed_query, server, key)
    for hash_function, key in server.keys.items():
        report.make(server.name, f"changed bits of an answer by {hash_function.name}", changed_answer, server, key)
    for hash_function, key in server.keys.items():
        stream = []
        report.make(server.name, f"transfer by {hash_function.name}", transfer, server, key, stream)
        report.make(server.name, f"transfer by {hash_function.name}, changed and out of order", disorder, stream)
    for hash_function, key in server.keys.items():
        report.make(server.name, f"update by {hash_function.name}", update, server, key)
    key = server.keys[Hash.SHA256]
    report.make(server.name, "old time (BADTIME)", old_time, server, key)
    unknown = dataclasses.replace(key, name=name_from_text("unknown.key.example"))
    report.make(server.name, "unknown key (BADKEY)", not_signed, server, unknown, BADKEY)
    other = dataclasses.replace(key, key=os.urandom(32))
    report.make(server.name, "wrong key (BADSIG)", not_signed, server, other, BADSIG)


# ---- one answer


def signed_query(server, key):
    signed, chain = key.sign(messages.query(zones.TRANSFER, "SOA"), now())
    for send in (messages.ask, messages.ask_by_tcp):
        octets = send(server.port, signed)
        answer = chain.copy().check(octets)
        ensure((answer.rcode, answer.tsig_error, answer.server_time) == (0, 0, None), f"it tells {answer}")
        records = messages.read(octets).answer
        ensure([one.rdtype for one in records] == [dns.rdatatype.SOA], "it isn't the SOA")


def changed_answer(server, key):
    """Each bit of an answer is changed, one at a time: from the flags up to its TSIG, and from the TSIG's time on. What
    stands between them, and the ID, is covered in another form."""
    signed, chain = key.sign(messages.query(zones.TRANSFER, "SOA"), now())
    octets = messages.ask(server.port, signed)
    tsig = tsig_read(octets)
    time_start = len(octets) - 6 - tsig.mac_len - 10
    bits = [*range(16, 8 * tsig.start), *range(8 * time_start, 8 * len(octets))]
    for bit in bits:
        refusal(chain, changed(octets, bit))
    chain.check(changed(octets, 0))
    return f"{len(bits)} bits"


def changed(octets, bit):
    """Octets with one bit changed."""
    place, within = divmod(bit, 8)
    return octets[:place] + bytes([octets[place] ^ 0x80 >> within]) + octets[place + 1 :]


# ---- a transfer


def transfer(server, key, stream):
    """A transfer, whose messages are left in `stream` behind the chain of the request, as many as the chain accepts."""
    signed, chain = key.sign(messages.query(zones.TRANSFER, "AXFR"), now())
    stream.append(chain.copy())
    received, ends = [], 0
    records = set()
    for octets in messages.answers(server.port, signed):
        received.append(octets)
        answer = messages.read(octets)
        ensure(answer.rcode() == 0, f"the server answers {dns.rcode.to_text(answer.rcode())}")
        for one in answer.answer:
            records.add((one.name, one.rdtype, one[0]))
            ends += one.rdtype == dns.rdatatype.SOA
        if ends == 2:
            break
    ensure(len(records) == 1005, f"{len(records)} records came")

    marks = [is_signed(octets) for octets in received]
    for octets in received[: (marks + [False]).index(False)]:
        answer = chain.check(octets)
        ensure((answer.rcode, answer.tsig_error) == (0, 0), f"a message tells {answer}")
        stream.append(octets)
    if not all(marks):
        places = ", ".join(str(at) for at, mark in enumerate(marks, 1) if mark)
        ensure(refusal(chain, received[marks.index(False)]).name == "MISSING_TSIG", "another cause than MISSING_TSIG")
        raise Skipped(f"of {len(received)} messages the server signs {places}; the first unsigned one is refused")
    return f"{len(records) + 1} records in {len(received)} messages, each signed"


def is_signed(octets):
    try:
        return tsig_read(octets).mac_len > 0
    except Refused:
        return False


def disorder(stream):
    """Messages of a transfer are changed, left out, repeated and handed in out of order."""
    if len(stream) < 3:
        raise Skipped("no two signed messages in a row")
    chain, received = stream[0].copy(), stream[1:]
    tried = 0
    for at, octets in enumerate(received):
        bits = 8 * tsig_read(octets).start
        for bit in range(16, bits, max(1, bits // CHANGES)):
            refusal(chain, changed(octets, bit))
            tried += 1
        for other in received[:at] + received[at + 1 :]:
            refusal(chain, other)
            tried += 1
        chain.check(octets)
    refusal(chain, received[-1])
    return f"{tried + 1} messages refused"


# ---- an update


def update(server, key):
    """A record is added to a zone and deleted again, by updates that we signed (RFC 2136)."""
    if not server.has_updates:
        raise Skipped(f"{server.name} has no updates")
    name = f"added-{key.hash}.{zones.UPDATE}"
    text = f'"by {key.hash} at {now()}"'
    for request, wanted in (
        (messages.addition(zones.UPDATE, name, "TXT", text), [text]),
        (messages.deletion(zones.UPDATE, name, "TXT"), []),
    ):
        signed, chain = key.sign(request, now())
        answer = chain.check(messages.ask_by_tcp(server.port, signed))
        ensure((answer.rcode, answer.tsig_error) == (0, 0), f"the answer tells {answer}")
        found = messages.read(messages.ask(server.port, messages.query(name, "TXT"))).answer
        ensure([one[0].to_text() for one in found] == wanted, f"the zone has {len(found)} records, not {len(wanted)}")
    return "added and deleted"


# ---- errors


def old_time(server, key):
    """A request signed an hour ago: the answer is signed by its time, and tells the server's (RFC 8945 5.2.3)."""
    signed, chain = key.sign(messages.query(zones.TRANSFER, "SOA"), now() - 3600)
    octets = messages.ask(server.port, signed)
    if not is_signed(octets):
        status, tsig = refusal(chain, octets), tsig_read(octets)
        ensure(tsig.error == BADTIME, f"its TSIG says {tsig}")
        raise Skipped(f"the server doesn't sign this answer: {status.name}; its TSIG says {BADTIME}")
    answer = chain.check(octets)
    ensure((answer.rcode, answer.tsig_error) == (NOTAUTH, BADTIME), f"the answer tells {answer}")
    ensure(answer.server_time is not None, "no time of the server is told")
    ensure(abs(answer.server_time - now()) <= 5, f"the server's time is said to be {answer.server_time}")
    return "accepted, with the server's time"


def not_signed(server, key, error):
    """A request by a key that the server hasn't: its answer isn't signed (RFC 8945 5.3.2)."""
    signed, chain = key.sign(messages.query(zones.TRANSFER, "SOA"), now())
    octets = messages.ask(server.port, signed)
    status = refusal(chain, octets)
    tsig = tsig_read(octets)
    ensure(messages.rcode(octets) == NOTAUTH, f"the RCODE is {messages.rcode(octets)}")
    ensure((tsig.error, tsig.mac_len) == (error, 0), f"its TSIG says {tsig}")
    return f"refused, {status.name}; its TSIG says {error}"
