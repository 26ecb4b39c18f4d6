"""Messages: made and read by dnspython, sent and received over the loopback."""

import socket
import struct

import dns.flags
import dns.message
import dns.update

import paddlesepia

TIMEOUT = 10


def query(name, rdtype, dnssec=False):
    """The octets of a query; with `dnssec` it asks for signatures (RFC 3225)."""
    message = dns.message.make_query(name, rdtype, want_dnssec=dnssec, payload=4096)
    message.flags &= ~dns.flags.RD
    return message.to_wire()


def addition(zone, name, rdtype, text):
    """The octets of an update that adds a record to a zone (RFC 2136 2.5.1)."""
    message = dns.update.UpdateMessage(zone)
    message.add(name, 60, rdtype, text)
    return message.to_wire()


def deletion(zone, name, rdtype):
    """The octets of an update that deletes a set of records, if it is there (RFC 2136 2.4.1, 2.5.2)."""
    message = dns.update.UpdateMessage(zone)
    message.present(name, rdtype)
    message.delete(name, rdtype)
    return message.to_wire()


def read(octets):
    """The message that stands in octets, without its transaction signature."""
    return dns.message.from_wire(without_tsig(octets), one_rr_per_rrset=True)


def without_tsig(octets):
    """The octets of a message without its transaction signature, if it has one."""
    try:
        start = paddlesepia.tsig_read(octets).start
    except paddlesepia.Refused:
        return octets
    additional = struct.unpack(">H", octets[10:12])[0]
    return octets[:10] + struct.pack(">H", additional - 1) + octets[12:start]


def rcode(octets):
    """The RCODE of a message's header."""
    return octets[3] & 15


# ---- sent and received


def ask(port, request):
    """The answer to a request by UDP."""
    with socket.socket(socket.AF_INET, socket.SOCK_DGRAM) as connection:
        connection.settimeout(TIMEOUT)
        connection.connect(("127.0.0.1", port))
        connection.send(request)
        while True:
            answer = connection.recv(65535)
            if answer[:2] == request[:2]:
                return answer


def ask_by_tcp(port, request):
    """The first answer to a request by TCP."""
    return next(answers(port, request))


def answers(port, request):
    """The answers to a request by TCP, one behind the other, as long as the caller takes them (RFC 7766 8)."""
    with socket.create_connection(("127.0.0.1", port), TIMEOUT) as connection:
        connection.sendall(struct.pack(">H", len(request)) + request)
        with connection.makefile("rb") as stream:
            while True:
                length = struct.unpack(">H", exactly(stream, 2))[0]
                yield exactly(stream, length)


def exactly(stream, count):
    """So many octets of a stream."""
    octets = stream.read(count)
    if len(octets) != count:
        raise ConnectionError("the server closed the connection")
    return octets
