"""What the finalizing of an order leads to, by docs/FORMATS.md: bodies, certificates, replies and entries."""

import base64
import dataclasses

from der import element
from gate_program import Wrong, check, journal_of, payloads_of, reply

SETTINGS, ORDERED, SENT, SIGNED = 1, 2, 6, 7
ECDSA_SHA256 = bytes.fromhex("300a06082a8648ce3d040302")

NO_SUCH_ORDER = reply("404 Not Found", '{"reply":"no_such_order"}')
SIGNER_FAULT = reply("503 Service Unavailable", '{"reply":"signer_fault"}')


def finalize(number):
    """The message that has an order finalized, of a number or a text of digits."""
    return f"POST /orders/{number}/finalize HTTP/1.1\r\nhost: gate\r\nx-gate-key: acme-token\r\n\r\n".encode()


def names_part(names):
    """A SEQUENCE of the names (RFC 5280, section 4.2.1.6)."""
    return element(0x30, b"".join(element(0x82, name.encode()) for name in names))


def small_body(serial, names):
    """A SEQUENCE of the serial number and the names."""
    return element(0x30, element(0x02, serial) + names_part(names))


def serial_of(body, names):
    """The serial number of a body for these names: sixteen bytes, the first one of 40 to 7f."""
    serial = body[: -len(names_part(names))][-16:]
    check("the body", small_body(serial, names).hex(), body.hex())
    check(f"the first byte of the serial number {serial.hex()} is one of 40 to 7f", True, 0x40 <= serial[0] <= 0x7F)
    return serial


def certificate_of(body, signature):
    """A SEQUENCE of the body, the algorithm and the signature in a BIT STRING (RFC 5280, section 4.1)."""
    return element(0x30, body + ECDSA_SHA256 + element(0x03, b"\x00" + signature))


def issued(number, serial, certificate):
    encoded = base64.b64encode(certificate).decode()
    members = f'"certificate":"{encoded}","order":{number},"reply":"issued","serial":"{serial.hex()}"'
    return reply("200 OK", "{" + members + "}")


@dataclasses.dataclass(frozen=True)
class Entry:
    """An entry's fields; of one that was sent or signed, its order and its body or signature."""

    kind: int
    number: int
    moment: int
    caller: bytes
    order: int = 0
    content: bytes = b""

    def payload(self):
        """The payload of an entry that was sent or signed."""
        payload = self.kind.to_bytes(1, "big") + self.number.to_bytes(8, "big") + self.moment.to_bytes(8, "big")
        payload += len(self.caller).to_bytes(2, "big") + self.caller
        return payload + self.order.to_bytes(8, "big") + len(self.content).to_bytes(2, "big") + self.content


def entry_of(payload):
    size = int.from_bytes(payload[17:19], "big")
    caller, rest = payload[19 : 19 + size], payload[19 + size :]
    kind, number, moment = payload[0], int.from_bytes(payload[1:9], "big"), int.from_bytes(payload[9:17], "big")
    if kind not in (SENT, SIGNED):
        return Entry(kind, number, moment, caller)
    content = rest[10:]
    check("the bytes behind the count of a body or a signature", int.from_bytes(rest[8:10], "big"), len(content))
    return Entry(kind, number, moment, caller, int.from_bytes(rest[:8], "big"), content)


def entries_of(written):
    """The entries of a journal's bytes; each has its place as its number, and no moment is before the last one."""
    payloads = payloads_of(written)
    if payloads is None:
        raise Wrong(f"{len(written)} bytes are no journal")
    entries = [entry_of(payload) for payload in payloads]
    check("the entries' numbers", list(range(1, len(entries) + 1)), [entry.number for entry in entries])
    check("the entries' moments", sorted(entry.moment for entry in entries), [entry.moment for entry in entries])
    return entries


def journal_with(written, count, *entries):
    """The journal of its first payloads, so many, and behind them these entries."""
    return journal_of(payloads_of(written)[:count] + [entry.payload() for entry in entries])
