"""DER (X.690): elements are written, and read by the tests that the program makes of them."""

import dataclasses

BOOLEAN, INTEGER, BIT_STRING, OCTET_STRING, NULL, OBJECT_IDENTIFIER = 0x01, 0x02, 0x03, 0x04, 0x05, 0x06
UTF8_STRING, SEQUENCE, SET = 0x0C, 0x30, 0x31
# How deep elements may lie, the outermost one counted.
LEVELS = 32


# ---- writing


def element(tag, *parts):
    """A tag, the shortest length (section 10.1) and the parts as the content."""
    content = b"".join(parts)
    size = len(content)
    octets = size.to_bytes((size.bit_length() + 7) // 8, "big")
    length = bytes([size]) if size < 128 else bytes([0x80 + len(octets)]) + octets
    return bytes([tag]) + length + content


def sequence(*parts):
    return element(SEQUENCE, *parts)


def set_of(*parts):
    return element(SET, *parts)


def integer(number):
    """A number that isn't negative (section 8.3): a 00 stands before a byte from 80 on."""
    return element(INTEGER, number.to_bytes(number.bit_length() // 8 + 1, "big"))


def object_identifier(text):
    """The arcs of a text such as 2.5.29.17, each in groups of seven bits (section 8.19)."""
    first, second, *arcs = (int(arc) for arc in text.split("."))
    content = b""
    for arc in [40 * first + second, *arcs]:
        groups = [arc % 128]
        while arc := arc // 128:
            groups.insert(0, 0x80 + arc % 128)
        content += bytes(groups)
    return element(OBJECT_IDENTIFIER, content)


def bit_string(octets):
    """Bits in whole octets."""
    return element(BIT_STRING, b"\x00", octets)


def octet_string(octets):
    return element(OCTET_STRING, octets)


# ---- reading


class NoDer(ValueError):
    """The bytes are no element in DER."""


@dataclasses.dataclass(frozen=True)
class Node:
    """An element as it stands in the bytes; a primitive one has no parts."""

    tag: int
    content: bytes
    parts: tuple
    whole: bytes


def length_at(octets):
    """The length at the front in at most five bytes (section 8.1.3), and how many bytes it takes."""
    if not octets or octets[0] == 0x80 or octets[0] > 0x84:
        raise NoDer("no length")
    count = max(octets[0] - 0x80, 0)
    size = int.from_bytes(octets[1 : 1 + count], "big") if count else octets[0]
    if len(octets) < 1 + count or count and (size < 128 or octets[1] == 0):
        raise NoDer("a length that isn't the shortest")
    return size, 1 + count


def is_primitive_content(tag, content):
    """The rules of the universal types whose elements are primitive; of other types nothing is judged."""
    if tag in (0x00, 0x10, 0x11):
        return False
    if tag == BOOLEAN:
        return content in (b"\x00", b"\xff")
    if tag == INTEGER:
        return bool(content) and not (len(content) > 1 and (content[0], content[1] < 128) in ((0, True), (255, False)))
    if tag == BIT_STRING:
        unused = content[0] if content else 8
        return unused < 8 and (unused == 0 if len(content) == 1 else content[-1] % 2**unused == 0)
    if tag == OBJECT_IDENTIFIER:
        starts = [place for place in range(len(content)) if place == 0 or content[place - 1] < 128]
        return bool(content) and content[-1] < 128 and all(content[place] != 0x80 for place in starts)
    return tag != NULL or not content


def node_at(octets, levels):
    """The element at the front of the bytes."""
    if not octets or octets[0] % 32 == 31:
        raise NoDer("no tag of one byte")
    tag, (size, taken) = octets[0], length_at(octets[1:])
    content = octets[1 + taken : 1 + taken + size]
    if len(content) < size or levels == 0:
        raise NoDer("an element that is cut off, or lies too deep")
    if tag < 0x20 and not is_primitive_content(tag, content) or 0x20 <= tag < 0x40 and tag not in (SEQUENCE, SET):
        raise NoDer(f"a content that the tag {tag:02x} can't have")
    parts = tuple(nodes_of(content, levels - 1)) if tag & 0x20 else ()
    return Node(tag, content, parts, octets[: 1 + taken + size])


def nodes_of(octets, levels):
    while octets:
        node = node_at(octets, levels)
        yield node
        octets = octets[len(node.whole) :]


def read(octets):
    """The one element that the bytes are."""
    node = node_at(octets, LEVELS)
    if len(node.whole) != len(octets):
        raise NoDer("bytes behind the element")
    return node
