#!/usr/bin/env python3
"""The library from Python. The program compares what the calls give with what the RFCs say and with Python's own `hmac`,
and ends with status 1 where something differs. It needs no server: it makes the answers itself."""

import base64
import hashlib
import hmac
import struct
import sys

import paddlesepia
from paddlesepia import Hash, Refused, Section, Status, TsigKey, name_from_text

RIGHT = []

SENT = 1_700_000_000

KEY = TsigKey(Hash.SHA256, b"a secret that both sides share..", name_from_text("key.example"))

EXAMPLE = name_from_text("example")


def expect(what, right):
    """Says whether something holds that must hold."""
    print(f"  {what}: {'yes' if right else 'NO'}")
    RIGHT.append(right)


def refusal(call, *arguments):
    """The status for which a call is refused, None where it isn't."""
    try:
        call(*arguments)
    except Refused as refused:
        return refused.status
    return None


def names():
    print("names")
    name = name_from_text("www.Example.com")
    expect("as in RFC 1035", name == b"\3www\7Example\3com\0")
    expect("the same, with a dot", paddlesepia.name_to_text(name) == "www.Example.com.")
    expect("an empty label is refused", refusal(name_from_text, "a..b") is Status.EMPTY_LABEL)


def keys():
    print("keys")
    # RFC 4034 5.4 and RFC 4509 2.3
    dnskey = struct.pack(">HBB", 256, 3, 5) + base64.b64decode(
        "AQOeiiR0GOMYkDshWoSKz9XzfwJr1AYtsmx3TGkJaNXVbfi/2pHm822aJ5iI9BMzNXxeYCmZDRD99WYwYqUSdjMmmAphXdvxegXd/M5+X7Or"
        "zKBaMbCVdFLUUh6DhweJBjEVv5f2wwjM9XzcnOf+EPbtG9DMBmADjFDc2w/rljwvFw=="
    )
    owner = name_from_text("dskey.example.com")
    expect("the key tag is RFC 4034's", paddlesepia.key_tag(dnskey) == 60485)
    digests = {
        1: "2bb183af5f22588179a53b0a98631fad1a292118",
        2: "d4b7d520e7bb5f0f67674a0cceb1e3e0614b93c4f9e99b8383f6a1e4469da50a",
    }
    for digest_type, digest in digests.items():
        made = paddlesepia.ds_digest(owner, dnskey, digest_type)
        expect(f"the digest of type {digest_type} is the RFC's", made.hex() == digest)
    # RFC 5155 appendix A
    hashed = base64.b32hexencode(paddlesepia.nsec3_hash(EXAMPLE, bytes.fromhex("aabbccdd"), 12))
    expect("the NSEC3 hash is RFC 5155's", hashed.lower() == b"0p9mhaveqvm6t7vbl5lop2u3t2rp3tom")


def hmacs():
    print("HMAC")
    message = b"what is signed" * 20
    for hash_function in Hash:
        for key in (b"", b"k" * 32, b"k" * 300):
            wanted = hmac.new(key, message, f"sha{hash_function}").digest()
            expect(
                f"Python's, by {hash_function.name} under {len(key)} octets",
                paddlesepia.hmac(hash_function, key, message) == wanted,
            )


def answered(message, mac, error=0):
    """What a server does: the message, signed as the first answer behind this MAC (RFC 8945 4.3.3), or, with an error,
    left without a MAC."""
    algorithm = name_from_text("hmac-sha256")
    times = struct.pack(">HIH", SENT >> 32, SENT & 0xFFFFFFFF, KEY.fudge)
    variables = KEY.name + struct.pack(">HI", 255, 0) + algorithm + times + bytes(4)
    covered = struct.pack(">H", len(mac)) + mac + message + variables
    own = b"" if error else hmac.new(KEY.key, covered, hashlib.sha256).digest()
    data = algorithm + times + struct.pack(">H", len(own)) + own + message[:2] + struct.pack(">HH", error, 0)
    tsig = KEY.name + struct.pack(">HHIH", 250, 255, 0, len(data)) + data
    return message[:10] + b"\0\1" + message[12:] + tsig


def transactions():
    print("transaction signatures")
    question = EXAMPLE + struct.pack(">HH", 1, 1)
    query = struct.pack(">6H", 0x1234, 0x0100, 1, 0, 0, 0) + question
    message = struct.pack(">6H", 0x1234, 0x8180, 1, 0, 0, 0) + question

    request, chain = KEY.sign(query, SENT)
    tsig = paddlesepia.tsig_read(request)
    expect("the request is signed", (tsig.hash, tsig.time, tsig.fudge, tsig.mac_len) == (Hash.SHA256, SENT, 300, 32))
    mac = request[-38:-6]  # behind it stand the original ID, the error and the length of no other data
    before = chain.copy()
    answer = answered(message, mac)
    changed = bytearray(answer)
    changed[3] ^= 1
    expect("an answer with a changed bit is refused", refusal(chain.check, changed) is Status.WRONG_MAC)
    expect("the chain is as it was", chain == before)
    accepted = chain.check(answer)
    expect("the answer is accepted", (accepted.rcode, accepted.tsig_error, accepted.server_time) == (0, 0, None))
    expect("it isn't accepted once more", refusal(chain.check, answer) is Status.WRONG_MAC)
    unsigned = answered(message, mac, error=17)
    expect("an unsigned answer is refused", refusal(before.check, unsigned) is Status.TRUNCATED_MAC)
    expect("it says BADKEY", paddlesepia.tsig_read(unsigned).error == 17)


def signatures():
    print("records")
    # an MX of `a.z.w.example` and its RRSIG like those of RFC 4035 B.6, made of `*.w.example`
    owner = name_from_text("a.z.w.example")
    fields = struct.pack(">HBBIIIH", 15, 5, 2, 3600, 1084127779, 1081535779, 38519) + EXAMPLE
    mx = struct.pack(">HHHIHH", 0xC00C, 15, 1, 3000, 7, 1) + b"\2AI" + struct.pack(">H", 0xC012)
    rrsig = struct.pack(">HHHIH", 0xC00C, 46, 1, 3000, len(fields) + 4) + fields + b"sign"
    head = struct.pack(">6H", 0x1234, 0x8180, 1, 2, 0, 0)
    message = head + owner + struct.pack(">HH", 15, 1) + mx + rrsig

    places = paddlesepia.records(message)
    for place in places:
        print(f"  at {place.start}: {place.length} octets of type {place.type} in section {place.section.name}")
    expect("there are an MX and an RRSIG", [place.type for place in places] == [15, 46])
    data = struct.pack(">H", 1) + name_from_text("ai.example")
    expect("the data are canonical", paddlesepia.canonical_data(message, places[0].start) == data)
    signed = name_from_text("*.w.example") + struct.pack(">HHIH", 15, 1, 3600, len(data)) + data
    # a caller with cryptography verifies the RRSIG's signature over these octets, by the zone's DNSKEY
    covered = paddlesepia.rrsig_input(message, Section.ANSWER, owner, 1, places[1].start)
    expect("what the RRSIG covers is as in RFC 4034", covered == fields + signed)
    expect("an MX is no RRSIG", refusal(paddlesepia.rrsig_input, message, 1, owner, 1, 31) is Status.NO_RRSIG)


def main():
    names()
    keys()
    hmacs()
    transactions()
    signatures()
    print("all as expected" if all(RIGHT) else "NOT as expected")
    sys.exit(0 if all(RIGHT) else 1)


if __name__ == "__main__":
    main()
