"""DNSSEC: the octets that the library says are covered are verified with the signatures and keys of zones that the
servers' tools signed, by the package `cryptography`."""

import dns.name
import dns.rdata
import dns.rdataclass
import dns.rdatatype
from cryptography.exceptions import InvalidSignature
from cryptography.hazmat.primitives import hashes
from cryptography.hazmat.primitives.asymmetric import ec, ed25519, padding, rsa, utils

import messages
import paddlesepia
import zones
from outcomes import ensure

IN = dns.rdataclass.IN
RRSIG = dns.rdatatype.RRSIG
KEY_SIGNING = 257

CURVES = {13: (ec.SECP256R1(), hashes.SHA256(), 32), 14: (ec.SECP384R1(), hashes.SHA384(), 48)}


def checks(report, server):
    """All checks of DNSSEC at a server."""
    if not server.signed_zones:
        report.say(server.name, "signatures", f"skipped ({server.not_signed})")
    for zone in server.signed_zones:
        what = f"{zone.name} ({zone.algorithm}, {zone.denial})"
        report.make(server.name, f"signatures of {what}", signatures, server, zone)
        report.make(server.name, f"key tag and digests of {what}", digests, server, zone)


# ---- signatures


def signatures(server, zone):
    """Asks all questions of a zone, and verifies every RRSIG of the answers."""
    keys = zone_keys(server, zone)
    verified, from_wildcards, covered_types, records = 0, 0, set(), 0
    for name, rdtype in zones.QUESTIONS:
        octets = answer(server, zone, name, rdtype)
        places = paddlesepia.records(octets)
        ensure_same_records(octets, places)
        records += len(places)
        signed = [place for place in places if place.type == RRSIG]
        ensure(signed, f"no RRSIG in the answer to {name} {rdtype}")
        for place in signed:
            owner, rrsig = record_at(octets, place)
            verify(keys, octets, place, owner, rrsig)
            verified += 1
            from_wildcards += rrsig.labels < len(owner) - 1 - owner.is_wild()
            covered_types.add(dns.rdatatype.to_text(rrsig.type_covered))
    ensure(from_wildcards, "no RRSIG was made from a wildcard")
    wanted = {"SOA", "NS", "MX", "TXT", "SRV", "NAPTR", "DS", "DNSKEY", zone.denial}
    ensure(wanted <= covered_types, f"no RRSIG over {wanted - covered_types}")
    return f"{verified} RRSIGs over {len(covered_types)} types, {from_wildcards} of wildcards, {records} records"


def answer(server, zone, name, rdtype):
    return messages.ask_by_tcp(server.port, messages.query(f"{name}.{zone.name}".lstrip("."), rdtype, dnssec=True))


def record_at(octets, place):
    """The owner and the data of the record at a place, as dnspython reads them."""
    owner, used = dns.name.from_wire(octets, place.start)
    start = place.start + used + 10
    return owner, dns.rdata.from_wire(IN, place.type, octets, start, place.start + place.length - start)


def verify(keys, octets, place, owner, rrsig):
    """Verifies an RRSIG by the key that it names, and that it isn't verified with one bit changed."""
    what = f"the RRSIG of {owner} {dns.rdatatype.to_text(rrsig.type_covered)}"
    covered = paddlesepia.rrsig_input(octets, place.section, owner.to_wire(), IN, place.start)
    key = keys.get((rrsig.algorithm, rrsig.key_tag))
    ensure(key is not None, f"{what} names no key of the zone")
    ensure(is_signature(key, rrsig.signature, covered), f"{what} doesn't verify")
    changed = covered[:-1] + bytes([covered[-1] ^ 1])
    ensure(not is_signature(key, rrsig.signature, changed), f"{what} verifies with a bit changed")


def ensure_same_records(octets, places):
    """The records are as many as dnspython reads in each section, and their canonical data are dnspython's."""
    message = messages.read(octets)
    for section, sets in ((1, message.answer), (2, message.authority), (3, message.additional)):
        found = [place for place in places if place.section == section and place.type != dns.rdatatype.OPT]
        ensure(len(found) == len(sets), f"{len(found)} records in section {section}, not {len(sets)}")
    for place in places:
        if place.type != dns.rdatatype.OPT:
            owner, data = record_at(octets, place)
            canonical = paddlesepia.canonical_data(octets, place.start)
            ensure(canonical == data.to_digestable(), f"the data of {owner} {place.type} in canonical form")


def is_signature(key, signature, octets):
    """Whether a signature over octets is right under a DNSKEY (RFC 3110, 6605, 8080)."""
    try:
        if key.algorithm == 8:
            public_key(key).verify(signature, octets, padding.PKCS1v15(), hashes.SHA256())
        elif key.algorithm in CURVES:
            _, hash_function, size = CURVES[key.algorithm]
            numbers = (int.from_bytes(signature[:size], "big"), int.from_bytes(signature[size:], "big"))
            public_key(key).verify(utils.encode_dss_signature(*numbers), octets, ec.ECDSA(hash_function))
        else:
            public_key(key).verify(signature, octets)
    except InvalidSignature:
        return False
    return True


def public_key(key):
    """The key of a DNSKEY."""
    if key.algorithm == 8:
        size, start = (key.key[0], 1) if key.key[0] else (int.from_bytes(key.key[1:3], "big"), 3)
        exponent, modulus = key.key[start : start + size], key.key[start + size :]
        return rsa.RSAPublicNumbers(int.from_bytes(exponent, "big"), int.from_bytes(modulus, "big")).public_key()
    if key.algorithm in CURVES:
        return ec.EllipticCurvePublicKey.from_encoded_point(CURVES[key.algorithm][0], b"\4" + key.key)
    return ed25519.Ed25519PublicKey.from_public_bytes(key.key)


# ---- keys


def zone_keys(server, zone):
    """The DNSKEYs of a zone by algorithm and key tag."""
    found = {}
    for records in messages.read(answer(server, zone, "", "DNSKEY")).answer:
        if records.rdtype == dns.rdatatype.DNSKEY:
            found[records[0].algorithm, paddlesepia.key_tag(records[0].to_wire())] = records[0]
    ensure([number for number, _ in found] == [zone.number] * 2, f"the keys are {list(found)}")
    return found


def digests(server, zone):
    """The key tag and the digests of the key signing key are those that the server's tools print."""
    owner = paddlesepia.name_from_text(zone.name.upper())
    keys = zone_keys(server, zone)
    [(tag, key)] = [(tag, key) for (_, tag), key in keys.items() if key.flags == KEY_SIGNING]
    types = []
    for text in server.digests(zone):
        printed = dns.rdata.from_text(IN, dns.rdatatype.DS, text)
        made = paddlesepia.ds_digest(owner, key.to_wire(), printed.digest_type)
        ensure((printed.key_tag, printed.digest) == (tag, made), f"the tool prints {text.strip()}")
        types.append(str(printed.digest_type))
    ensure(types, "the tool prints no DS")
    return f"digest types {', '.join(types)}"
