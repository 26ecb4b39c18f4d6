"""The zones that the servers are given."""

from typing import NamedTuple

TRANSFER = "transfer.example."
UPDATE = "update.example."


class SignedZone(NamedTuple):
    """A zone that is signed by the server's tools, with keys of an algorithm, and by NSEC3 or NSEC."""

    name: str
    algorithm: str
    number: int
    denial: str


SIGNED_ZONES = (
    SignedZone("RsaSha256.Example.", "RSASHA256", 8, "NSEC3"),
    SignedZone("EcdsaP256.Example.", "ECDSAP256SHA256", 13, "NSEC3"),
    SignedZone("EcdsaP384.Example.", "ECDSAP384SHA384", 14, "NSEC3"),
    SignedZone("Ed25519.Example.", "ED25519", 15, "NSEC3"),
    SignedZone("Nsec.Example.", "ED25519", 15, "NSEC"),
)

HEAD = """\
$TTL 3600
@ IN SOA Ns1.{zone} Host\\.Master.{zone} 1 7200 3600 1209600 300
@ IN NS Ns1.{zone}
@ IN NS nS2.{zone}
ns1 IN A 192.0.2.1
NS2 IN A 192.0.2.2
"""

RECORDS = """\
@ IN MX 20 Mail2.{zone}
@ IN MX 10 MAIL1.{zone}
@ IN MX 10 mail3.{zone}
@ IN TXT "several records" "In One Set"
@ IN TXT ""
@ IN TXT "of several lengths"
@ 60 IN NAPTR 100 10 "S" "SIP+D2U" "!^.*$!sip:Info@Example!" _Sip._uDP.{zone}
@ 60 IN NAPTR 100 50 "u" "" "" .
WwW IN A 192.0.2.80
wWw IN A 192.0.2.8
wwW IN A 192.0.2.200
www IN AAAA 2001:db8::80
www IN AAAA 2001:db8::8
_Sip._uDP IN SRV 10 60 5060 Big.{zone}
_sip._udp IN SRV 10 20 5060 SMALL.{zone}
_sip._UDP IN SRV 0 0 5060 .
Alias IN CNAME wWW.{zone}
pointer IN PTR Www.{zone}
Host IN HINFO "PC" "Unix"
rp IN RP Host\\.Master.{zone} Text.{zone}
afs IN AFSDB 1 Afs.{zone}
Tree IN DNAME Other.{zone}
www.other IN A 192.0.2.90
_443._tcp.www IN TLSA 3 1 1 00112233445566778899aabbccddeeff00112233445566778899aabbccddeeff
www IN SSHFP 4 2 00112233445566778899aabbccddeeff00112233445566778899aabbccddeeff
@ IN CAA 0 issue "ca.example"
*.Wild IN A 192.0.2.99
*.wild IN MX 5 MAIL1.{zone}
a\\.dot IN TXT "a dot within a label"
child IN NS ns.Child.{zone}
ns.child IN A 192.0.2.53
child IN DS 60485 5 1 2BB183AF5F22588179A53B0A98631FAD1A292118
child IN DS 60485 5 2 D4B7D520E7BB5F0F67674A0CCEB1E3E0614B93C4F9E99B8383F6A1E4469DA50A
"""

# what is asked of a signed zone; names without a dot at the end are below it, and the names that don't exist are denied
QUESTIONS = (
    ("", "SOA"), ("", "NS"), ("", "MX"), ("", "TXT"), ("", "NAPTR"), ("", "DNSKEY"), ("", "CAA"),
    ("WWW", "A"), ("www", "AAAA"), ("www", "SSHFP"), ("_SIP._udp", "SRV"), ("alias", "AAAA"), ("pointer", "PTR"),
    ("host", "HINFO"), ("rp", "RP"), ("afs", "AFSDB"), ("www.TREE", "A"), ("_443._tcp.WWW", "TLSA"), ("a\\.dot", "TXT"),
    ("some.wild", "A"), ("More.Of.WILD", "MX"), ("*.wild", "A"), ("any.wild", "TXT"), ("www", "MX"), ("missing", "A"),
    ("also.Missing", "MX"), ("below.child", "A"), ("child", "DS"), ("", "ANY"), ("www", "ANY"),
)


def transfer_zone():
    """A zone of a thousand records and more, which takes several messages."""
    text = "".join(f'host{number:04} IN TXT "{number:04} {"x" * 200}"\n' for number in range(1000))
    return HEAD.format(zone=TRANSFER) + text


def update_zone():
    return HEAD.format(zone=UPDATE)


def unsigned_zone(zone):
    """The text of a zone before it is signed."""
    return (HEAD + RECORDS).format(zone=zone.name)
