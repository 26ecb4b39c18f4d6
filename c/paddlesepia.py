"""Paddlesepia: DNSSEC and TSIG for Python, by ctypes over the library for C.

Octets are `bytes` or whatever else has a buffer, and names are in wire form: `name_from_text` makes them. A call that
is refused raises `Refused`, whose `status` says why; it has changed nothing then. No call keeps anything, so any thread
may call at any time; only a `Chain` is moved by its own `check`, and is for one thread at a time.

The shared object is `out/libpaddlesepia.so` beside this file, where `make shared` puts it, or what the environment's
PADDLESEPIA_LIBRARY names. What each call promises stands in `paddlesepia.h`.
"""

from __future__ import annotations

import ctypes
import enum
import os
from ctypes import POINTER, byref, c_char_p, c_size_t, c_uint8, c_uint16, c_uint32, c_uint64, c_void_p
from dataclasses import dataclass, field
from typing import Callable, NamedTuple

__all__ = [
    "Answer", "Chain", "Hash", "Record", "Refused", "Section", "Status", "Tsig", "TsigKey", "canonical_data",
    "ds_digest", "hmac", "key_tag", "name_from_text", "name_to_text", "nsec3_hash", "records", "rrsig_input",
    "tsig_read",
]


# ---- what calls take and answer


class Status(enum.IntEnum):
    """What a call answers, `enum psp_status` of the header."""

    DONE = 0
    OUT_TOO_SHORT = 1
    UNKNOWN_HASH = 2
    UNKNOWN_DIGEST_TYPE = 3
    DATA_TOO_LONG = 4
    SALT_TOO_LONG = 5
    BAD_NAME = 6
    NOT_UTF8 = 7
    EMPTY_LABEL = 8
    LABEL_TOO_LONG = 9
    NAME_TOO_LONG = 10
    BAD_ESCAPE = 11
    BAD_CHARACTER = 12
    TIME_TOO_LARGE = 13
    NOT_A_REQUEST = 14
    COUNT_TOO_LARGE = 15
    MESSAGE_TOO_LONG = 16
    BAD_CHAIN = 17
    NOT_A_MESSAGE = 18
    MISSING_TSIG = 19
    WRONG_KEY = 20
    TRUNCATED_MAC = 21
    WRONG_MAC = 22
    OUTDATED = 23
    NOT_A_RESPONSE = 24
    BAD_SECTION = 25
    NO_RECORD = 26
    NO_RRSIG = 27
    LABELS_EXCEED_OWNER = 28


class Refused(ValueError):
    """A call was refused, for the cause that `status` names."""

    def __init__(self, status: int) -> None:
        self.status = Status(status)
        super().__init__(self.status.name)


class Hash(enum.IntEnum):
    """The hash functions of HMAC, `enum psp_hash` of the header."""

    SHA256 = 256
    SHA384 = 384
    SHA512 = 512


class Section(enum.IntEnum):
    """The sections of a message in which records stand, `enum psp_section` of the header."""

    ANSWER = 1
    AUTHORITY = 2
    ADDITIONAL = 3


class Record(NamedTuple):
    """Where a record of a message stands."""

    start: int  # the place of its first octet
    length: int  # how many octets it has, from its owner to the end of its data
    section: Section
    type: int


class Answer(NamedTuple):
    """What an accepted answer tells."""

    rcode: int  # the RCODE of the header
    tsig_error: int  # the error of a first answer's TSIG, 18 for BADTIME; 0 for none
    server_time: int | None  # the server's time, where a first answer with the error BADTIME tells it


class Tsig(NamedTuple):
    """The transaction signature of a message, as it says itself: nothing of it is checked."""

    start: int  # where its record starts; its owner, the key's name, stands there
    hash: Hash | None  # None for another algorithm
    time: int  # when it was signed, in seconds from 1970 on
    fudge: int  # in seconds
    mac_len: int  # how many octets its MAC has; none in an answer that isn't signed
    error: int  # 16 for BADSIG, 17 for BADKEY, 18 for BADTIME; 0 for none


# ---- the shared object


class _Chain(ctypes.Structure):
    _fields_ = [
        ("request_time", c_uint64), ("time", c_uint64), ("first", c_uint32), ("mac_len", c_uint32),
        ("mac", c_uint8 * 64),
    ]


class _Answer(ctypes.Structure):
    _fields_ = [("server_time", c_uint64), ("tsig_error", c_uint16), ("rcode", c_uint16), ("has_time", c_uint32)]


class _Tsig(ctypes.Structure):
    _fields_ = [
        ("time", c_uint64), ("start", c_uint32), ("mac_len", c_uint32), ("hash", c_uint32), ("fudge", c_uint16),
        ("error", c_uint16),
    ]


class _Record(ctypes.Structure):
    _fields_ = [("start", c_uint32), ("length", c_uint32), ("section", c_uint16), ("type", c_uint16)]


_IN = (c_char_p, c_size_t)
_OUT = (c_void_p, c_size_t, POINTER(c_size_t))

_ARGUMENTS = {
    "psp_key_tag": (*_IN, POINTER(c_uint16)),
    "psp_ds_digest": (*_IN, *_IN, c_uint8, *_OUT),
    "psp_hmac": (c_uint32, *_IN, *_IN, *_OUT),
    "psp_name_from_text": (*_IN, *_OUT),
    "psp_name_to_text": (*_IN, *_OUT),
    "psp_nsec3_hash": (*_IN, *_IN, c_uint16, *_OUT),
    "psp_tsig_sign": (c_uint32, *_IN, *_IN, c_uint16, c_uint64, *_IN, *_OUT, POINTER(_Chain)),
    "psp_tsig_check": (c_uint32, *_IN, *_IN, POINTER(_Chain), *_IN, POINTER(_Answer)),
    "psp_tsig_read": (*_IN, POINTER(_Tsig)),
    "psp_records": (*_IN, *_OUT),
    "psp_canonical_data": (*_IN, c_size_t, *_OUT),
    "psp_rrsig_input": (*_IN, c_uint32, *_IN, c_uint16, c_size_t, *_OUT),
}


def _load() -> ctypes.CDLL:
    """The shared object, with the types of its calls."""
    beside = os.path.join(os.path.dirname(os.path.abspath(__file__)), "out", "libpaddlesepia.so")
    library = ctypes.CDLL(os.environ.get("PADDLESEPIA_LIBRARY") or beside)
    for name, arguments in _ARGUMENTS.items():
        call = getattr(library, name)
        call.argtypes, call.restype = arguments, c_uint32
    return library


_LIBRARY = _load()

Octets = bytes | bytearray | memoryview


def _given(octets: Octets) -> tuple[bytes, int]:
    """Octets as C takes them: a pointer and a length."""
    octets = bytes(memoryview(octets))
    return octets, len(octets)


def _number(value: int, bits: int) -> int:
    """The value, since ctypes would cut one that has more bits."""
    if not 0 <= value < 1 << bits:
        raise ValueError(f"{value} is no number of {bits} bits")
    return value


def _done(status: int) -> None:
    """Raises what the status says, if it says anything."""
    if status != Status.DONE:
        raise Refused(status)


def _octets(room: int, call: Callable[..., int]) -> bytes:
    """What a call writes, which is handed a room of this size, and once more the size that it asks for."""
    size = c_size_t(room)
    for _ in range(2):
        out = ctypes.create_string_buffer(size.value)
        status = call(out, len(out), byref(size))
        if status != Status.OUT_TOO_SHORT:
            break
    _done(status)
    return ctypes.string_at(out, size.value)


# ---- keys and names


def key_tag(data: Octets) -> int:
    """The tag of the DNSKEY with these data (RFC 4034 appendix B)."""
    tag = c_uint16()
    _done(_LIBRARY.psp_key_tag(*_given(data), byref(tag)))
    return tag.value


def ds_digest(owner: Octets, data: Octets, digest_type: int) -> bytes:
    """The digest of a DNSKEY in a DS (RFC 4034 5.1.4): of type 1 for SHA-1, 2 for SHA-256, 4 for SHA-384."""
    given = (*_given(owner), *_given(data), _number(digest_type, 8))
    return _octets(48, lambda *out: _LIBRARY.psp_ds_digest(*given, *out))


def hmac(hash: int, key: Octets, message: Octets) -> bytes:
    """HMAC of a message under a key of whatever length (RFC 2104). `hash` is one of `Hash`."""
    given = (_number(hash, 32), *_given(key), *_given(message))
    return _octets(64, lambda *out: _LIBRARY.psp_hmac(*given, *out))


def name_from_text(text: str) -> bytes:
    """The wire form of the name that a text spells (RFC 1035 5.1). A `.` at the end may stand or not."""
    given = _given(text.encode())
    return _octets(255, lambda *out: _LIBRARY.psp_name_from_text(*given, *out))


def name_to_text(name: Octets) -> str:
    """The text of a name in wire form (RFC 1035 5.1), with a `.` at the end."""
    given = _given(name)
    return _octets(1004, lambda *out: _LIBRARY.psp_name_to_text(*given, *out)).decode()


def nsec3_hash(name: Octets, salt: Octets, iterations: int) -> bytes:
    """The hash of a name as NSEC3 records have it (RFC 5155 5), with so many rounds behind the first."""
    given = (*_given(name), *_given(salt), _number(iterations, 16))
    return _octets(20, lambda *out: _LIBRARY.psp_nsec3_hash(*given, *out))


# ---- transaction signatures (RFC 8945)


@dataclass(frozen=True)
class TsigKey:
    """A key that is shared with a server. `name` is its name in wire form, `fudge` the window in seconds."""

    hash: int
    key: bytes = field(repr=False)
    name: bytes
    fudge: int = 300

    def sign(self, request: Octets, time: int) -> tuple[bytes, Chain]:
        """Signs a request that is sent at `time`, in seconds from 1970 on: the signed request, and the chain by which
        its answers are checked. The request has no transaction signature yet (RFC 8945 5.1)."""
        state = _Chain()
        given = (*self._given(), _number(self.fudge, 16), _number(time, 64), *_given(request))
        signed = _octets(given[-1] + 512, lambda *out: _LIBRARY.psp_tsig_sign(*given, *out, byref(state)))
        return signed, Chain(self, state)

    def _given(self) -> tuple[int, bytes, int, bytes, int]:
        return (_number(self.hash, 32), *_given(self.key), *_given(self.name))


class Chain:
    """What stands of a signed request and the answers accepted so far. `TsigKey.sign` makes it."""

    def __init__(self, key: TsigKey, state: _Chain) -> None:
        self._key = key
        self._state = state

    def check(self, message: Octets) -> Answer:
        """Checks the next answer, the first or a later one of a stream (RFC 8945 5.2 to 5.4), and moves the chain
        behind it. The order of the answers matters; one that is refused leaves the chain, and another may be tried."""
        answer = _Answer()
        given = (*self._key._given(), byref(self._state), *_given(message))
        _done(_LIBRARY.psp_tsig_check(*given, byref(answer)))
        return Answer(answer.rcode, answer.tsig_error, answer.server_time if answer.has_time else None)

    def copy(self) -> Chain:
        """The chain as it stands; neither moves the other."""
        return Chain(self._key, _Chain.from_buffer_copy(self._state))

    def __eq__(self, other: object) -> bool:
        """Whether the same answers will be accepted: the key and the state are equal."""
        if not isinstance(other, Chain):
            return NotImplemented
        return self._key == other._key and bytes(self._state) == bytes(other._state)

    __hash__ = None


def tsig_read(message: Octets) -> Tsig:
    """What the transaction signature of a message says, unchecked: for an answer that `Chain.check` refuses because the
    server could not sign it, and for choosing a key."""
    tsig = _Tsig()
    _done(_LIBRARY.psp_tsig_read(*_given(message), byref(tsig)))
    known = Hash(tsig.hash) if tsig.hash else None
    return Tsig(tsig.start, known, tsig.time, tsig.fudge, tsig.mac_len, tsig.error)


# ---- the records of a message, and what their signatures cover


def records(message: Octets) -> list[Record]:
    """Where the records of a message stand, in their order."""
    given = _given(message)
    size = c_size_t()
    status = _LIBRARY.psp_records(*given, None, 0, byref(size))
    if status == Status.OUT_TOO_SHORT:
        out = (_Record * size.value)()
        status = _LIBRARY.psp_records(*given, out, len(out), byref(size))
    _done(status)
    return [Record(out[at].start, out[at].length, Section(out[at].section), out[at].type) for at in range(size.value)]


def canonical_data(message: Octets, start: int) -> bytes:
    """The data of the record that starts at `start` in canonical form (RFC 4034 6.2)."""
    given = (*_given(message), _number(start, 64))
    return _octets(512, lambda *out: _LIBRARY.psp_canonical_data(*given, *out))


def rrsig_input(message: Octets, section: int, owner: Octets, dns_class: int, start: int) -> bytes:
    """The octets that the RRSIG at `start` covers (RFC 4034 3.1.8.1): its own fields before the signature, and the
    records of `section` with this owner, this class and the type that it covers, in canonical form and order. Verify
    the signature over them by whatever cryptography you have; whether key, times and signer fit is yours to ask too."""
    given = (*_given(message), _number(section, 32), *_given(owner), _number(dns_class, 16), _number(start, 64))
    return _octets(2048, lambda *out: _LIBRARY.psp_rrsig_input(*given, *out))
