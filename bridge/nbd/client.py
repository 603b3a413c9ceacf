"""A small client of an NBD export without a name, which tells requests and answers apart. The cases and an example use it."""
import socket
import struct

OPTION = b"IHAVEOPT"
EXPORT_NAME = 1
# The newstyle handshake, without the zeros behind the size.
HANDSHAKE = 3
REQUEST, REPLY = 0x25609513, 0x67446698
READ, WRITE, CLOSE, FLUSH, ZERO = 0, 1, 2, 3, 6


class Gone(Exception):
    """The connection has ended, or never was one."""


class Client:
    """A connection to the socket at this path."""

    def __init__(self, path):
        self.socket = socket.socket(socket.AF_UNIX)
        self.socket.connect(path)
        self.sent = {}
        self.size = self.greet()

    def take(self, count):
        data = bytearray()
        while len(data) < count:
            try:
                more = self.socket.recv(count - len(data))
            except ConnectionError:
                more = b""
            if not more:
                raise Gone
            data += more
        return bytes(data)

    def greet(self):
        magic, option, _ = struct.unpack(">8s8sH", self.take(18))
        if (magic, option) != (b"NBDMAGIC", OPTION):
            raise Gone
        self.socket.sendall(struct.pack(">I8sII", HANDSHAKE, OPTION, EXPORT_NAME, 0))
        return struct.unpack(">QH", self.take(10))[0]

    def send(self, kind, offset=0, length=0, data=b""):
        """Sends a request, whose cookie is its number."""
        cookie = max(self.sent, default=0) + 1
        self.sent[cookie] = (kind, offset, length)
        try:
            self.socket.sendall(struct.pack(">IHHQQI", REQUEST, 0, kind, cookie, offset, length) + data)
        except ConnectionError:
            raise Gone from None

    def answer(self):
        """The next answer: the request's first byte and length, its error or 0, and what was read."""
        magic, error, cookie = struct.unpack(">IIQ", self.take(16))
        if magic != REPLY:
            raise Gone
        kind, offset, length = self.sent.pop(cookie)
        data = self.take(length) if kind == READ and not error else b""
        return offset, length, error, data

    def ask(self, kind, offset=0, length=0, data=b""):
        """A request and its answer: the error or 0, and what was read."""
        self.send(kind, offset, length, data)
        return self.answer()[2:]

    def close(self):
        self.socket.close()
