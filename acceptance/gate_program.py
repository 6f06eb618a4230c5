"""What the acceptance scripts share: the built program, the messages, the replies that are wanted, and checks."""

import base64
import contextlib
import hashlib
import pathlib
import resource
import shutil
import subprocess
import sys
import tempfile
import threading

sys.dont_write_bytecode = True

TOP = pathlib.Path(__file__).resolve().parent.parent
PROGRAM = TOP / "crates" / "gate_server" / "out" / "gate_server"
SECONDS = 60
SIGNER = "standin:00112233445566778899aabbccddeeff"
USAGE = "usage: gate JOURNAL CONF SIGNER WORDS"
# Readable settings, in which the account `acme` has the messages' token.
EXAMPLE = (TOP / "examples" / "settings.toml").read_bytes()
# The journal's file by docs/FORMATS.md: the head, the first gate's place, and what a group takes beside its payload.
HEAD = b"gate journal 01\n"
FIRST_GATE = len(HEAD)
CLOSED, OPEN = b"\0", b"\1"
NO_CHAIN = bytes(32)
BARE_BYTES = 37
MOST_PAYLOAD = 1_114_112
# A Settings entry is its fields, kind, number, moment, caller and count, and the settings; the journal begun with
# the example is the head, the first gate and its group.
SETTINGS_FIELDS = 1 + 8 + 8 + 2 + 4
BEGUN_BYTES = FIRST_GATE + 1 + BARE_BYTES + SETTINGS_FIELDS + len(EXAMPLE)
# A small disk.
DISK_BYTES = 65_536

# A certificate request in the form that usual tools write: its head, a P-256 key, no attributes and a
# signature of eight bits.
REQUEST = bytes.fromhex(
    "3074" "3062" "020100" "3000"
    "3059" "301306072a8648ce3d020106082a8648ce3d030107" "034200" "04" + "11" * 64 +
    "a000" "300a06082a8648ce3d040302" "03020000"
)


class Wrong(Exception):
    """What was found isn't what was wanted."""


def check(what, wanted, found):
    if wanted != found:
        raise Wrong(f"{what}: wanted {wanted!r:.600}, found {found!r:.600}")


def check_each(what, wanted, found):
    """Two lists are the same; otherwise the first difference is told alone."""
    for place, (left, right) in enumerate(zip(wanted, found), 1):
        check(f"{what} {place}", left, right)
    check(f"{what}: how many", len(wanted), len(found))


def message(names, key="k1", days=47, request=REQUEST):
    """The one form of message, with these names."""
    listed = ",".join(f'"{name}"' for name in names)
    encoded = base64.b64encode(request).decode()
    body = f'{{"common":false,"days":{days},"key":"{key}","names":[{listed}],"request":"{encoded}"}}'
    head = f"POST /orders HTTP/1.1\r\nhost: gate\r\nx-gate-key: acme-token\r\ncontent-length: {len(body)}\r\n\r\n"
    return (head + body).encode()


def reply(status, body):
    head = f"HTTP/1.1 {status}\r\ncontent-type: application/json\r\ncontent-length: {len(body)}\r\n\r\n"
    return (head + body).encode()


def placed(number):
    return reply("200 OK", f'{{"order":{number},"reply":"placed"}}')


def key_reused(number):
    return reply("409 Conflict", f'{{"kept":{number},"reply":"key_reused"}}')


def bad_fields(rule):
    return reply("422 Unprocessable Entity", f'{{"reply":"bad_fields","rule":{rule}}}')


ORDER = message(["example.com"])
OTHER_ORDER = message(["example.com", "www.example.com"])
DISK_FAULT = reply("503 Service Unavailable", '{"reply":"disk_fault"}')
PLACED = placed(2)
KEY_REUSED = key_reused(2)


def run_command(command, sent=b"", folder=None, environment=None, seconds=SECONDS):
    """Runs a command; one that doesn't end in time is ended, by its own number."""
    try:
        return subprocess.run(
            command, input=sent, capture_output=True, timeout=seconds, check=False, cwd=folder, env=environment
        )
    except subprocess.TimeoutExpired:
        words = " ".join(str(word) for word in command[1:])
        raise Wrong(f"{pathlib.Path(command[0]).name} {words}: it didn't end within {seconds} seconds") from None


def need_tools(*tools):
    """Ends the script where one of these tools, which tools/setup installs, isn't there."""
    for tool in tools:
        if shutil.which(tool) is None:
            sys.exit(f"{tool} isn't there: tools/setup installs it")


def run_gate(arguments, sent=b"", seconds=SECONDS):
    return run_command([PROGRAM, *arguments], sent, seconds=seconds)


class Session:
    """A session that runs while its input is open, within a `with`."""

    def __init__(self, command, **how):
        pipe = subprocess.PIPE
        self.process = subprocess.Popen(command, stdin=pipe, stdout=pipe, stderr=pipe, **how)
        self.late = threading.Timer(SECONDS, self.process.kill)

    def __enter__(self):
        self.late.start()
        return self

    def __exit__(self, *_):
        self.late.cancel()
        self.process.kill()
        self.process.wait()
        for stream in (self.process.stdin, self.process.stdout, self.process.stderr):
            with contextlib.suppress(OSError):
                stream.close()

    def answers(self, what, message, wanted):
        """The message has this reply, which comes while more input may follow."""
        self.process.stdin.write(message)
        self.process.stdin.flush()
        check(what, wanted, self.process.stdout.read(len(wanted)))

    def ends(self, status=0):
        """Its input ends, and it ends with this status and no further output. Returns standard error."""
        output, error = self.process.communicate()
        check("output behind the replies", b"", output)
        check("exit status of the session", status, self.process.returncode)
        return error


def check_error(what, name, found):
    """Standard error tells this status, and behind it, indented by two spaces, why; it is empty where there is no name."""
    if name is None:
        check(f"{what}: standard error", b"", found)
        return
    first = [f"gate: {name}"] + ([USAGE] if name == "Usage" else [])
    lines = found.decode(errors="replace").splitlines()
    check(f"{what}: first lines of standard error", first, lines[: len(first)])
    check(f"{what}: further lines, which are indented", True, len(lines) > len(first))
    for line in lines[len(first) :]:
        check(f"{what}: the line {line!r} is indented by two spaces", True, line.startswith("  ") and line[2:3] != " ")


def group_of(chain, payload):
    """What stands behind an open gate: the length, the chain and the payload. And the chain."""
    chain = hashlib.sha256(chain + payload).digest()
    return len(payload).to_bytes(4, "big") + chain + payload, chain


def journal_of(payloads):
    """The bytes of the journal of these payloads, up to its closed gate."""
    written, chain = HEAD, NO_CHAIN
    for payload in payloads:
        group, chain = group_of(chain, payload)
        written += OPEN + group
    return written + CLOSED


def settings_payload(number, moment, settings, caller=b""):
    """The payload of a Settings entry by docs/FORMATS.md; a legal one has no caller."""
    fields = b"\1" + number.to_bytes(8, "big") + moment.to_bytes(8, "big") + len(caller).to_bytes(2, "big") + caller
    return fields + len(settings).to_bytes(4, "big") + settings


def groups_from(written, at=FIRST_GATE, chain=NO_CHAIN):
    """The payloads from the gate at a place on, the place of the closed gate behind them, and the last chain."""
    payloads = []
    while written[at : at + 1] == OPEN:
        size = int.from_bytes(written[at + 1 : at + 5], "big")
        end = at + BARE_BYTES + size
        payload = written[end - size : end]
        group, chain = group_of(chain, payload)
        if not 1 <= size <= MOST_PAYLOAD or len(written) <= end or written[at + 1 : end] != group:
            raise Wrong(f"no group stands behind the open gate at {at}")
        payloads.append(payload)
        at = end
    return payloads, at, chain


def payloads_of(written):
    """The payloads of a journal; None where the bytes are none."""
    if not written.startswith(HEAD) or len(written) <= FIRST_GATE:
        return None
    try:
        return groups_from(written)[0]
    except Wrong:
        return None


@contextlib.contextmanager
def small_disk(folder):
    """A file system in memory of few bytes; none where the machine doesn't allow mounting."""
    place = pathlib.Path(folder) / "disk"
    place.mkdir()
    found = run_command(["mount", "-t", "tmpfs", "-o", f"size={DISK_BYTES}", "tmpfs", str(place)])
    try:
        yield place if found.returncode == 0 else None
    finally:
        if found.returncode == 0:
            run_command(["umount", str(place)])


def file_limit(bytes_at_most):
    """What a child does before it starts the program: files may have so many bytes at most."""
    return lambda: resource.setrlimit(resource.RLIMIT_FSIZE, (bytes_at_most, resource.RLIM_INFINITY))


class Gate:
    """A journal and the example's settings in a folder of their own, and the program over them."""

    def __init__(self, folder):
        self.folder = pathlib.Path(folder)
        self.journal = self.folder / "journal"
        self.settings = self.folder / "settings"
        self.settings.write_bytes(EXAMPLE)

    def run(self, *words, sent=b"", signer=SIGNER, journal=None, settings=None, seconds=SECONDS):
        journal = self.journal if journal is None else journal
        settings = self.settings if settings is None else settings
        return run_gate([str(journal), str(settings), signer, *words], sent, seconds)

    def session(self, signer=SIGNER, **how):
        """A session that runs while its input is open."""
        return Session([PROGRAM, self.journal, self.settings, signer, "session"], **how)

    def bytes(self):
        return self.journal.read_bytes() if self.journal.exists() else None

    def begin(self):
        self.succeeds("begin", b"", "begin")
        check("begin: bytes of the journal", BEGUN_BYTES, len(self.bytes()))

    def succeeds(self, what, output, *words, **more):
        """It ends with 0, writes exactly this, and prints nothing on standard error."""
        found = self.run(*words, **more)
        check(f"{what}: standard error", "", found.stderr.decode(errors="replace"))
        check(f"{what}: exit status", 0, found.returncode)
        check(f"{what}: output", output, found.stdout)

    def answers(self, messages, replies, status=0, name=None, labels=None, seconds=SECONDS):
        """A session over these messages gives each its reply, and ends with this status and its name."""
        found = self.run("session", sent=b"".join(messages), seconds=seconds)
        at = 0
        for place, wanted in enumerate(replies):
            label = labels[place] if labels else f"message {place + 1}"
            check(f"the reply to {label}", wanted, found.stdout[at : at + len(wanted)])
            at += len(wanted)
        check("output behind the replies", b"", found.stdout[at:])
        check_error("session", name, found.stderr)
        check("exit status", status, found.returncode)

    def refuses(self, what, exit_status, name, *words, output=b"", **more):
        """It ends with this status and its name, and the journal's bytes are as before. Returns standard error's text."""
        before = self.bytes()
        found = self.run(*words, **more)
        check(f"{what}: exit status", exit_status, found.returncode)
        check_error(what, name, found.stderr)
        check(f"{what}: output", output, found.stdout)
        check(f"{what}: the journal is as before", before, self.bytes())
        return found.stderr.decode(errors="replace")


def main(cases):
    """Runs each case over a folder of its own, and ends with 0 where all of them passed."""
    if not PROGRAM.exists():
        sys.exit("the program isn't built: run `rt ci`, or ./gate once")
    failed = 0
    for case in cases:
        folder = tempfile.mkdtemp(prefix="gate-")
        try:
            case(Gate(folder))
            print(f"ok      {case.__doc__}")
        except (Wrong, OSError) as wrong:
            failed += 1
            print(f"FAILED  {case.__doc__}\n        {wrong}")
        finally:
            shutil.rmtree(folder, ignore_errors=True)
    sys.exit(1 if failed else 0)
