"""A client of the NBD protocol over a socket of the machine, as far as the tests need it."""

import socket
import struct

MAGIC, OPTION_MAGIC = 0x4E42444D41474943, 0x49484156454F5054
OPTION_NAME, FLAG_NO_ZEROES = 1, 2
REQUEST_MAGIC, REPLY_MAGIC = 0x25609513, 0x67446698
READ, WRITE, DISCONNECT, FLUSH, TRIM, ZERO = 0, 1, 2, 3, 4, 6
FUA = 1


class Client:
    """A connection. A request that the server refuses, or doesn't answer, raises OSError."""

    def __init__(self, path):
        self.socket = socket.socket(socket.AF_UNIX)
        self.socket.settimeout(120)
        self.socket.connect(path)
        magic, option, _ = struct.unpack(">QQH", self._take(18))
        if (magic, option) != (MAGIC, OPTION_MAGIC):
            raise OSError("no server of NBD")
        self.socket.sendall(struct.pack(">I", FLAG_NO_ZEROES | 1) + struct.pack(">QII", OPTION_MAGIC, OPTION_NAME, 0))
        self.size, self.flags = struct.unpack(">QH", self._take(10))

    def _take(self, n):
        parts = []
        while n:
            part = self.socket.recv(n)
            if not part:
                raise OSError("the server is gone")
            parts.append(part)
            n -= len(part)
        return b"".join(parts)

    def _ask(self, request, at=0, n=0, data=b"", flags=0, answer=0):
        self.socket.sendall(struct.pack(">IHHQQI", REQUEST_MAGIC, flags, request, 1, at, n) + data)
        magic, error, _ = struct.unpack(">IIQ", self._take(16))
        if magic != REPLY_MAGIC or error:
            raise OSError(error, "refused")
        return self._take(answer)

    def read(self, at, n):
        return self._ask(READ, at, n, answer=n)

    def write(self, at, data, fua=False):
        self._ask(WRITE, at, len(data), data, FUA if fua else 0)

    def flush(self):
        self._ask(FLUSH)

    def trim(self, at, n):
        self._ask(TRIM, at, n)

    def zero(self, at, n):
        self._ask(ZERO, at, n)

    def close(self):
        """Tells the server, which waits for its clients when it ends."""
        try:
            self.socket.sendall(struct.pack(">IHHQQI", REQUEST_MAGIC, 0, DISCONNECT, 0, 0, 0))
        except OSError:
            pass
        self.socket.close()
