"""A signing device on 127.0.0.1, for the scripts and by hand. It answers SHA-256 of a secret and the body."""

import argparse
import hashlib
import socket
import sys
import threading
import time

SECONDS = 10


def receive(stream, count):
    piece = stream.read(count)
    if len(piece) < count:
        raise OSError("the connection ended early")
    return piece


class SigningDevice:
    """Serves one connection after another within a `with`; each brings one body.

    `signer` is the program's word for it, and `bodies` are all that it got, in their order. It closes without an answer
    at the first `drops` bodies. Where `size` is given, an answer has that length and as many zero bytes. `holding` is
    called with each body while the device holds it, before it answers or closes. `changed` is what is sent in place of
    an answer's bytes, and each byte of it is sent after a `pause` in seconds. A `silent` one prints no fault.
    """

    def __init__(
        self, secret=b"", drops=0, size=None, port=0, holding=lambda body: None, changed=bytes, pause=0, silent=False
    ):
        self.secret, self.drops, self.size, self.holding, self.bodies = secret, drops, size, holding, []
        self.changed, self.pause, self.silent = changed, pause, silent
        self.listener = socket.create_server(("127.0.0.1", port))
        self.signer = f"loopback:{self.listener.getsockname()[1]}"
        self.thread = threading.Thread(target=self.serve, daemon=True)

    def __enter__(self):
        self.thread.start()
        return self

    def __exit__(self, *_):
        self.listener.shutdown(socket.SHUT_RDWR)  # wakes a thread that waits for a connection; closing alone doesn't
        self.thread.join()
        self.listener.close()

    def signature(self, body):
        return hashlib.sha256(self.secret + body).digest()

    def serve(self):
        while True:
            try:
                connection, _ = self.listener.accept()
            except OSError:
                return
            with connection:
                connection.settimeout(SECONDS)
                try:
                    self.answer(connection)
                except OSError as fault:
                    if not self.silent:
                        print(f"signing device: {fault}", file=sys.stderr)

    def answer(self, connection):
        with connection.makefile("rb") as stream:
            body = receive(stream, int.from_bytes(receive(stream, 4), "big"))
        self.bodies.append(body)
        self.holding(body)
        if len(self.bodies) > self.drops:
            reply = self.signature(body) if self.size is None else bytes(self.size)
            self.send(connection, self.changed(len(reply).to_bytes(2, "big") + reply))

    def send(self, connection, answer):
        pieces = [bytes([byte]) for byte in answer] if self.pause else [answer]
        for piece in pieces:
            time.sleep(self.pause)
            connection.sendall(piece)


def main():
    words = argparse.ArgumentParser(description="Signs until its input ends, then prints the bodies in hexadecimal.")
    words.add_argument("--secret", type=bytes.fromhex, default=b"", help="in hexadecimal")
    words.add_argument("--drops", type=int, default=0, help="how many first bodies get no answer")
    words.add_argument("--size", type=int, help="each answer is so many zero bytes")
    words.add_argument("--port", type=int, default=0)
    with SigningDevice(**vars(words.parse_args())) as device:
        print(device.signer, flush=True)
        sys.stdin.read()
    print(*[body.hex() for body in device.bodies], sep="\n")


if __name__ == "__main__":
    main()
