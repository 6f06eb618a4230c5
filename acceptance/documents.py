"""The documents: their words are counted, their commands run, their bytes compared, and what they name is looked up.

These are cases of `acceptance/commands`. A block of a document is marked by its kind: `sh` is run, `hex NAME` and
`http NAME` are compared with what the program reads and writes. A line of a `hex` block has bytes, and behind two
spaces or more a remark; `11 × 64` stands for 64 bytes 11, and the path of an example for the bytes of its file.
"""

import os
import re
import tomllib

import certificate_request
from finalizing import certificate_of, entries_of, finalize, issued, small_body
from gate_program import CLOSED, ORDER, PLACED, REQUEST, SECONDS, TOP, Wrong
from gate_program import bad_fields, check, check_each, journal_of, message, payloads_of, placed, run_command

README = TOP / "README.md"
MOST_WORDS = 1_500
DOCUMENTS = [README, *sorted(TOP.glob("docs/*.md")), *sorted(TOP.glob("crates/*/README.md"))]
FORMATS = TOP / "docs" / "FORMATS.md"
SAMPLE = TOP / "crates" / "sample_body" / "out" / "sample_body"
# What the listings of FORMATS.md are about: a moment, a serial number, a signature, a name.
MOMENT = 1_790_000_000
SERIAL = b"\x40" + bytes(15)
SIGNATURE = b"\x11" * 32
NAMES = ["example.com"]
NO_DER = 7


# ---- reading documents


def name_of(path):
    return str(path.relative_to(TOP))


def blocks(path, kind):
    """The blocks of a kind: what stands behind the kind, and the text."""
    found = re.findall(rf"^```{kind}[ ]?(\w*)\n(.*?)^```$", path.read_text(), re.MULTILINE | re.DOTALL)
    return [(name, text) for name, text in found]


def bytes_of(listing):
    """The bytes of a `hex` block."""
    found = b""
    for line in listing.splitlines():
        written = re.split(" {2,}", line.strip())[0]
        if written.startswith("examples/"):
            found += (TOP / written).read_bytes()
            continue
        for octets, times in re.findall(r"([0-9a-f]+)(?: × (\d+))?(?: |$)", written):
            found += bytes.fromhex(octets) * int(times or 1)
    return found


def text_of(block):
    """The bytes of an `http` block: lines end with CR LF, and a body with nothing."""
    head, _, body = block.partition("\n\n")
    return head.replace("\n", "\r\n").encode() + b"\r\n\r\n" + body.removesuffix("\n").encode()


def none_of(what, problems):
    """Nothing was found wrong; otherwise all of it is told at once."""
    if problems:
        raise Wrong(what + "".join(f"\n        {problem}" for problem in problems))


# ---- words and commands


def words(_):
    """the README has at most 1,500 words"""
    count = len(README.read_text().split())
    check(f"{count} words are few enough", True, count <= MOST_WORDS)


def commands(gate):
    """every `sh` block of the documents ends well, in a folder where the repository's commands are"""
    for name in ("gate", "first-run", "crates", "acceptance", "examples"):
        (gate.folder / name).symlink_to(TOP / name)
    count = 0
    for path in DOCUMENTS:
        for _, text in blocks(path, "sh"):
            found = run_command(["sh", "-eu", "-c", text], folder=gate.folder, seconds=4 * SECONDS)
            check(f"{name_of(path)}: {text!r}: exit status, with {found.stderr!r:.300}", 0, found.returncode)
            count += 1
    check("there is a block", True, count > 0)
    replies = (gate.folder / "replies").read_bytes()
    check("the first reply of the README's session", PLACED, replies[: len(PLACED)])
    sent, signed = entries_of(gate.bytes())[2:]
    serial = sent.content[4:20]
    wanted = issued(2, serial, certificate_of(sent.content, signed.content))
    check("the second reply of the README's session", wanted, replies[len(PLACED) :])


# ---- bytes


def listed():
    return {name: bytes_of(text) for name, text in blocks(FORMATS, "hex")}


def fixed(entry, content):
    """An entry at the listings' moment and with this content."""
    return type(entry)(entry.kind, entry.number, MOMENT, entry.caller, entry.order, content)


def journal(gate):
    """the listings of the journal are what the program writes, but for moments, chains, serial number and signature"""
    found, body, at = listed(), small_body(SERIAL, NAMES), MOMENT.to_bytes(8, "big")
    gate.begin()
    gate.succeeds("an order", PLACED, "session", sent=ORDER)
    gate.run("session", sent=finalize(2))
    written = gate.bytes()
    settings, order, *_ = payloads_of(written)
    check("the file", journal_of(payloads_of(written)).hex(), written.hex())
    sent, signed = entries_of(written)[2:]
    payloads = [payload[:9] + at + payload[17:] for payload in (settings, order)]
    payloads += [fixed(sent, body).payload(), fixed(signed, SIGNATURE).payload()]
    check("a begun journal", journal_of(payloads[:1]).hex(), found["journal"].hex())
    for count, name in enumerate(["order", "sent", "signed"], 1):
        front, whole = [len(journal_of(payloads[:some])) for some in (count, count + 1)]
        check(name, (journal_of(payloads)[front : whole - 1] + CLOSED).hex(), found[name].hex())
    check("bytes of the journal", 1_715, len(journal_of(payloads)))
    blocked = b"\x08" + (2).to_bytes(8, "big") + at + b"\0\x02op" + b"\x02k1" + b"\0\x03\xaa\xbb\xcc"
    check("a blocked key", blocked.hex(), found["blocked"].hex())


def certificates(_):
    """the listings of the request, the certificate and the exchange with a device"""
    found, body = listed(), small_body(SERIAL, NAMES)
    check("the request", REQUEST.hex(), found["request"].hex())
    check("the certificate", certificate_of(body, SIGNATURE).hex(), found["certificate"].hex())
    check("to the device", (len(body).to_bytes(4, "big") + body).hex(), found["device"].hex())
    check("from the device", (len(SIGNATURE).to_bytes(2, "big") + SIGNATURE).hex(), found["answer"].hex())


def whole_body(_):
    """the listing of a TBSCertificate is what sample_body prints"""
    if not SAMPLE.exists():
        raise Wrong("sample_body isn't built: run `rt ci`")
    request = certificate_request.request_of(NAMES)
    printed = run_command([SAMPLE, SERIAL.hex(), str(MOMENT), "empty-subject", "ecdsa-with-SHA256"], request)
    check("exit status", 0, printed.returncode)
    check("the TBSCertificate", printed.stdout.decode().strip(), listed()["tbs"].hex())


def messages(gate):
    """the messages and replies of the listings, and two requests that are no DER"""
    found = {name: text_of(text) for name, text in blocks(FORMATS, "http")}
    certificate = certificate_of(small_body(SERIAL, NAMES), SIGNATURE)
    check("the order", ORDER, found["order"])
    check("the finalization", finalize(2), found["finalize"])
    check("the reply to the order", placed(2), found["placed"])
    check("the reply to the finalization", issued(2, SERIAL, certificate), found["issued"])
    check("characters of the request", 160, len(found["order"].rsplit(b'"request":"', 1)[1]) - 2)
    gate.begin()
    wrong = ["308201", "3081050000000000"]
    check("they stand in the document", [True] * 2, [f"`{request}`" in FORMATS.read_text() for request in wrong])
    sent = [message(NAMES, key=f"k{place}", request=bytes.fromhex(text)) for place, text in enumerate(wrong)]
    gate.answers([*sent, message(NAMES)], [bad_fields(NO_DER)] * 2 + [PLACED])


def settings(_):
    """the example of settings has the members that docs/SETTINGS.md lists, and no others"""
    text = (TOP / "docs" / "SETTINGS.md").read_text()
    tables = re.findall(r"^\| member \|.*\n\|[-|]+\n((?:\|.*\n)+)", text, re.MULTILINE)
    file, caller, perspective = (set(re.findall(r"^\| `([\w.]+)`", table, re.MULTILINE)) for table in tables)
    example = tomllib.loads((TOP / "examples" / "settings.toml").read_text())
    found = set()
    for name, value in example.items():
        found |= {f"{name}.{inner}" for inner in value} if isinstance(value, dict) else {name}
    check_each("member", sorted(file), sorted(found))
    for row in example["callers"]:
        check("a caller's members", True, caller - {"thumb"} <= set(row) <= caller)
    for row in example["perspectives"]:
        check("a perspective's members", perspective, set(row))


# ---- names


def links(_):
    """every link and every path of the documents leads to a file, and a definition stands in the file that is named"""
    problems = []
    for path in DOCUMENTS:
        text = path.read_text()
        for target in re.findall(r"\]\(([^)#:]+)\)", text):
            if not (path.parent / target).exists():
                problems.append(f"{name_of(path)}: no file {target}")
        named = re.findall(r"`((?:crates|docs|acceptance|examples|tools)/[\w./-]*|\.ci/run|\./gate|\./first-run)`", text)
        problems += [f"{name_of(path)}: no file {target}" for target in named if not (TOP / target).exists()]
        for line in re.findall(r"^Definitions?: .*$", text, re.MULTILINE):
            problems += [f"{name_of(path)}: {problem}" for problem in missing_definitions(line)]
    none_of("the documents name what isn't there:", problems)


def missing_definitions(line):
    """The names in a line of definitions that don't stand in the file behind them."""
    names, problems = [], []
    for word in re.findall(r"`([^`]+)`", line):
        if not word.endswith(".antt"):
            names.append(word)
            continue
        path = TOP / word
        text = path.read_text() if path.exists() else ""
        problems += [f"{word} has no {name}" for name in names if not re.search(rf"(?<!\w){re.escape(name)}(?!\w)", text)]
        names = []
    return problems


def calls_of(crate):
    """The calls of a crate by their names, each with its clauses; types have none of their own."""
    found = {}
    for path in sorted(crate.glob("src/**/*.rt")):
        name = None
        for line in path.read_text().splitlines():
            if named := re.match(r"\s*(?:pub(?:\(\w+\))? )?(?:fn|struct|enum|trait) (\w+)", line):
                name = named.group(1)
                found.setdefault(name, set())
            # A law of a trait is written as a ghost member.
            elif name and (clause := re.match(r"\s*(?:ensures (\w+)? ?\{|ghost (\w+): )", line)):
                found[name].add(clause.group(1) or clause.group(2))
    return found


def clauses(_):
    """every call in a table of a crate's README stands in its sources, and its clauses stand on one of the row's calls"""
    problems = []
    for path in sorted(TOP.glob("crates/*/README.md")):
        known = calls_of(path.parent)
        whole = set().union(*known.values())
        for calls, named in re.findall(r"^\| (`.*?) \| (.*?) \| .* \|$", path.read_text(), re.MULTILINE):
            names = [call.rsplit("::", 1)[-1] for call in re.findall(r"`([\w:]+)`", calls)]
            problems += [f"{name_of(path)}: no call {name}" for name in names if name not in known]
            # A type of the row stands for all of its calls.
            types = any(name[:1].isupper() for name in names) or calls.startswith("every")
            has = whole if types else set().union(*(known.get(name, set()) for name in names))
            for clause in re.findall(r"`(\w+)`", named):
                if clause not in has:
                    problems.append(f"{name_of(path)}: {calls}: no clause {clause}")
    none_of("the tables name what isn't there:", problems)


def readmes(_):
    """every crate has a README, which the README of the repository links"""
    crates = sorted(path.name for path in (TOP / "crates").iterdir() if path.is_dir())
    text = README.read_text()
    none_of("a README is missing:", [
        name for name in crates
        if not (TOP / "crates" / name / "README.md").exists() or f"(crates/{name}/README.md)" not in text
    ])


def layers(_):
    """the table of ARCHITECTURE.md has every crate, on what crates.txt has it stand"""
    text, problems = (TOP / "docs" / "ARCHITECTURE.md").read_text(), []
    rows = dict(re.findall(r"^\| `(\w+)` \| (.*?) \|", text, re.MULTILINE))
    for line in (TOP / "crates.txt").read_text().splitlines():
        if not line or line.startswith("#"):
            continue
        crate, _, below = line.partition(":")
        named = set(re.findall(r"`(\w+)`", rows.get(crate, "")))
        # "those below them" stands for what the named crates stand on.
        wrong = not named <= set(below.split()) if "those below" in rows.get(crate, "") else named != set(below.split())
        if crate not in rows or wrong:
            problems.append(f"{crate}: {sorted(named)} in the table, {sorted(below.split())} in crates.txt")
    none_of("ARCHITECTURE.md and crates.txt differ:", problems)


def edits(_):
    """every wrong body that docs/PROMISES.md names is an edit of a crate"""
    known = {path.stem for path in TOP.glob("crates/*/must-fail/*.edit")}
    text = (TOP / "docs" / "PROMISES.md").read_text()
    lines = re.findall(r"^Wrong bod(?:y|ies): .*$", text, re.MULTILINE)
    named = [name for line in lines for name in re.findall(r"`(\w+)`", line)]
    none_of("no such edit:", [name for name in named if name not in known])


def tools(_):
    """the commands that the README names can be called"""
    for command in ("first-run", "gate", ".ci/run", "tools/gate_costs"):
        check(f"{command} is named, and can be called", (True, True),
              (f"`{'' if command[0] == '.' or '/' in command else './'}{command}`" in README.read_text(),
               os.access(TOP / command, os.X_OK)))


CASES = [
    words, commands, journal, certificates, whole_body, messages, settings, links, clauses, readmes, layers, edits, tools,
]
