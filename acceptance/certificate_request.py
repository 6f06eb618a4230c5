"""Certificate requests (RFC 2986), written byte by byte, and judged by the rules of docs/RULES.md."""

import ipaddress
import re

from der import BIT_STRING, BOOLEAN, INTEGER, NULL, OBJECT_IDENTIFIER, OCTET_STRING, SEQUENCE, SET, UTF8_STRING, NoDer
from der import bit_string, element, integer, object_identifier, octet_string, read, sequence, set_of

ATTRIBUTES, RFC822_NAME, DNS_NAME, IP_ADDRESS = 0xA0, 0x81, 0x82, 0x87
MOST_BYTES = 16_384
NO_DER, SHAPE, VERSION, KEY, TWO_SANS, SAN_NAME, OTHER_NAMES = range(7, 14)

EXTENSION_REQUEST = object_identifier("1.2.840.113549.1.9.14")
CHALLENGE_PASSWORD = object_identifier("1.2.840.113549.1.9.7")
SUBJECT_ALT_NAME = object_identifier("2.5.29.17")
KEY_USAGE = object_identifier("2.5.29.15")
ECDSA_SHA256 = sequence(object_identifier("1.2.840.10045.4.3.2"))
RSA_ENCRYPTION = sequence(object_identifier("1.2.840.113549.1.1.1"), element(NULL))
# A curve's identifier and the bytes of a coordinate (RFC 5480, section 2.1.1.1); the last one isn't certified.
CURVES = {
    "P-256": ("1.2.840.10045.3.1.7", 32),
    "P-384": ("1.3.132.0.34", 48),
    "P-521": ("1.3.132.0.35", 66),
    "secp256k1": ("1.3.132.0.10", 32),
}
GOOD_CURVES = ("P-256", "P-384", "P-521")
SMALLEST_MODULUS, EXPONENT_BYTES = 2_048, 32


# ---- writing


def algorithm_of(curve):
    return sequence(object_identifier("1.2.840.10045.2.1"), object_identifier(CURVES[curve][0]))


def point_key(coordinates=b"\x11" * 64, curve="P-256", form=4):
    """A key on a curve, whose point has these coordinates."""
    return sequence(algorithm_of(curve), bit_string(bytes([form]) + coordinates))


def rsa_key(modulus, exponent=65_537):
    return sequence(RSA_ENCRYPTION, bit_string(sequence(integer(modulus), integer(exponent))))


def general_name(name):
    """A dNSName, or an iPAddress where the text is an address."""
    if re.fullmatch(r"[0-9.]+|[0-9a-f:]*:[0-9a-f:.]*", name):
        return element(IP_ADDRESS, ipaddress.ip_address(name).packed)
    return element(DNS_NAME, name.encode())


def alternative_names(names):
    """A subjectAltName extension with these names; one that isn't a text is an element already."""
    listed = [general_name(name) if isinstance(name, str) else name for name in names]
    return sequence(SUBJECT_ALT_NAME, octet_string(sequence(*listed)))


def key_usage():
    """A critical extension for digital signatures."""
    return sequence(KEY_USAGE, element(BOOLEAN, b"\xff"), octet_string(element(BIT_STRING, b"\x07\x80")))


def asking(*extensions):
    """The attribute that asks for extensions."""
    return sequence(EXTENSION_REQUEST, set_of(sequence(*extensions)))


def password(size):
    """A challengePassword of so many bytes."""
    return sequence(CHALLENGE_PASSWORD, set_of(element(UTF8_STRING, b"x" * size)))


def request_with(key=point_key(), attributes=(), version=0):
    """A request by its key, attributes and version; its subject is empty, and its signature has eight bits."""
    info = sequence(integer(version), sequence(), key, element(ATTRIBUTES, *attributes))
    return sequence(info, ECDSA_SHA256, bit_string(b"\x00"))


def request_of(names, key=point_key()):
    """A request with these names in its subjectAltName."""
    return request_with(key, [asking(alternative_names(names))])


def good_requests(names):
    """Good requests of an order for these names: what each is, and its bytes."""
    upper = [name.upper() for name in names]
    listed = asking(alternative_names(names))
    return [
        ("no subjectAltName", request_with()),
        ("the names", request_of(names)),
        ("the names the other way round", request_of(names[::-1])),
        ("the names in upper case", request_of(upper)),
        ("each name twice", request_of([*names, *names])),
        ("the names beside other attributes", request_with(attributes=[password(9), listed, password(300)])),
        ("the names beside a key usage", request_with(attributes=[asking(key_usage(), alternative_names(names))])),
        ("a key usage alone", request_with(attributes=[asking(key_usage())])),
        ("P-384", request_with(point_key(b"\x22" * 96, "P-384"))),
        ("P-521", request_with(point_key(b"\x33" * 132, "P-521"))),
        ("RSA of 2,048 bits", request_of(names, rsa_key(2**2047 + 1))),
        ("RSA of 2,056 bits with the exponent 3", request_of(names, rsa_key(2**2056 - 1, 3))),
        ("RSA of 8,192 bits", request_with(rsa_key(2**8191 + 1))),
        ("16,384 bytes", request_with(attributes=[password(MOST_BYTES - 147)])),
    ]


def faulty_requests(names):
    """Requests with a fault each for an order of these names: what it is, the rule, and the bytes."""
    good, listed = request_of(names), alternative_names(names)
    no_sequence = sequence(SUBJECT_ALT_NAME, octet_string(integer(1)))
    no_value = sequence(SUBJECT_ALT_NAME)
    compressed = point_key(b"\x11" * 32, form=2)
    turned = names[0][2:] if names[0].startswith("*.") else "*." + names[0]
    bad_name, mail = element(DNS_NAME, b"a_b.com"), element(RFC822_NAME, b"a@example.com")
    five_octets = element(IP_ADDRESS, bytes(5))
    return [
        ("three bytes", NO_DER, bytes.fromhex("308201")),
        ("a length that isn't the shortest", NO_DER, bytes.fromhex("3081050000000000")),
        ("a request that is cut off", NO_DER, good[:-1]),
        ("a request with a byte behind it", NO_DER, good + b"\x00"),
        ("zeros", NO_DER, bytes(MOST_BYTES)),
        ("an empty SEQUENCE", SHAPE, sequence()),
        ("a number", SHAPE, integer(0)),
        ("an attribute without values", SHAPE, request_with(attributes=[sequence(EXTENSION_REQUEST)])),
        ("an extension without a value", SHAPE, request_with(attributes=[asking(no_value)])),
        ("a subjectAltName that is no SEQUENCE", SHAPE, request_with(attributes=[asking(no_sequence)])),
        ("version 1", VERSION, request_with(version=1)),
        ("version 256, with a bad key", VERSION, request_with(compressed, version=256)),
        ("a compressed point", KEY, request_of(names, compressed)),
        ("a point on secp256k1", KEY, request_with(point_key(curve="secp256k1"))),
        ("a point of P-384 on P-256", KEY, request_with(point_key(b"\x11" * 96))),
        ("RSA of 2,040 bits", KEY, request_with(rsa_key(2**2040 - 1))),
        ("RSA of 2,049 bits", KEY, request_with(rsa_key(2**2048 + 1))),
        ("RSA with the exponent 1", KEY, request_with(rsa_key(2**2048 - 1, 1))),
        ("RSA with the exponent 65536", KEY, request_with(rsa_key(2**2048 - 1, 65_536))),
        ("two subjectAltNames", TWO_SANS, request_with(attributes=[asking(listed, listed)])),
        ("two in two attributes", TWO_SANS, request_with(attributes=[asking(listed), asking(listed)])),
        ("a name with an underscore", SAN_NAME, request_of([*names, bad_name])),
        ("a mail address", SAN_NAME, request_of([mail, *names])),
        ("an address of five octets", SAN_NAME, request_of([five_octets])),
        ("one more name", OTHER_NAMES, request_of([*names, "more.example"])),
        ("one more address", OTHER_NAMES, request_of(["192.0.2.1", *names])),
        ("one name less", OTHER_NAMES, request_of(names[1:])),
        ("another name", OTHER_NAMES, request_of(["other.example"])),
        ("a wildcard in place of a name, or the other way round", OTHER_NAMES, request_of([turned, *names[1:]])),
    ]


# ---- judging


class Fault(Exception):
    """A request breaks the rule with this number."""

    def __init__(self, rule):
        super().__init__(f"rule {rule}")
        self.rule = rule


def need(holds, rule):
    if not holds:
        raise Fault(rule)


def tags_of(node):
    return [part.tag for part in node.parts]


def san_in(extension):
    """The value of the extension in a list, where it is a subjectAltName."""
    tags = tags_of(extension)
    shaped = tags in ([OBJECT_IDENTIFIER, OCTET_STRING], [OBJECT_IDENTIFIER, BOOLEAN, OCTET_STRING])
    need(extension.tag == SEQUENCE and shaped, SHAPE)
    return [extension.parts[-1].content] if extension.parts[0].whole == SUBJECT_ALT_NAME else []


def sans_in(attribute):
    need(attribute.tag == SEQUENCE and tags_of(attribute) == [OBJECT_IDENTIFIER, SET], SHAPE)
    kind, values = attribute.parts
    if kind.whole != EXTENSION_REQUEST:
        return []
    need(tags_of(values) == [SEQUENCE], SHAPE)
    return [san for extension in values.parts[0].parts for san in san_in(extension)]


def names_node(value):
    """The value of a subjectAltName as an element."""
    try:
        node = read(value)
    except NoDer:
        raise Fault(SHAPE) from None
    need(node.tag == SEQUENCE, SHAPE)
    return node


def number_in(node):
    """The number of an INTEGER, which is positive; 0 for another element."""
    return max(int.from_bytes(node.content, "big", signed=True), 0) if node.tag == INTEGER else 0


def is_rsa_key(bits):
    try:
        node = read(bits)
    except NoDer:
        return False
    if node.tag != SEQUENCE or tags_of(node) != [INTEGER, INTEGER]:
        return False
    modulus, exponent = map(number_in, node.parts)
    size = modulus.bit_length()
    good = size >= SMALLEST_MODULUS and size % 8 == 0 and exponent >= 3 and exponent % 2 == 1
    return good and exponent.bit_length() <= 8 * EXPONENT_BYTES


def is_good_key(node):
    """An RSA key that is large enough, or a point of a good curve that isn't compressed."""
    if len(node.parts) != 2 or node.parts[1].tag != BIT_STRING or node.parts[1].content[0] != 0:
        return False
    algorithm, bits = node.parts[0].whole, node.parts[1].content[1:]
    if algorithm == RSA_ENCRYPTION:
        return is_rsa_key(bits)
    sizes = [CURVES[curve][1] for curve in GOOD_CURVES if algorithm == algorithm_of(curve)]
    return bool(sizes) and len(bits) == 1 + 2 * sizes[0] and bits[0] == 4


def name_of(text):
    """The name that a dNSName's text is read to, in lower case."""
    name = text.decode("latin-1")
    name = "".join(letter.lower() if letter.isascii() else letter for letter in name)
    labels = name.removeprefix("*.").split(".")
    label_form = re.compile(r"[a-z0-9]([a-z0-9-]{0,61}[a-z0-9])?")
    need(len(text) <= 253 and all(label_form.fullmatch(label) for label in labels), SAN_NAME)
    if any(label.startswith("xn--") for label in labels):
        raise ValueError("labels in Punycode aren't judged here")
    need(all(label[2:4] != "--" for label in labels), SAN_NAME)
    return name


def target_of(node):
    if node.tag == DNS_NAME:
        return name_of(node.content)
    need(node.tag == IP_ADDRESS and len(node.content) in (4, 16), SAN_NAME)
    return str(ipaddress.ip_address(node.content))


def judge(request, names):
    try:
        node = read(request)
    except NoDer:
        raise Fault(NO_DER) from None
    need(node.tag == SEQUENCE and tags_of(node) == [SEQUENCE, SEQUENCE, BIT_STRING], SHAPE)
    info, algorithm, _ = node.parts
    need(tags_of(algorithm)[:1] == [OBJECT_IDENTIFIER], SHAPE)
    need(tags_of(info) == [INTEGER, SEQUENCE, SEQUENCE, ATTRIBUTES], SHAPE)
    version, _, key, attributes = info.parts
    lists = [names_node(san) for attribute in attributes.parts for san in sans_in(attribute)]
    need(version.content == b"\x00", VERSION)
    need(is_good_key(key), KEY)
    need(len(lists) < 2, TWO_SANS)
    for listed in lists:
        need({target_of(name) for name in [*listed.parts]} == set(names), OTHER_NAMES)


def broken_rule(request, names):
    """The number of the rule that the request of an order for these names breaks, 7 to 13; None where it is good."""
    try:
        judge(request, names)
    except Fault as fault:
        return fault.rule
    return None
