"""A WebSocket client after RFC 6455, in Python's standard library alone: texts whole and in fragments, pings, pongs and close frames. It offers no extension and knows no TLS."""
import base64
import hashlib
import os
import select
import socket
import struct
import time
from collections import deque

GUID = "258EAFA5-E914-47DA-95CA-C5AB0DC85B11"
CONTINUED, TEXT, BINARY, CLOSE, PING, PONG = 0, 1, 2, 8, 9, 10
# The longest message that is taken, and the longest answer to a handshake, in bytes.
LONGEST, LONGEST_HEAD = 1 << 26, 1 << 16


class Closed(Exception):
    """The connection is over. The code is that of the peer's close frame: 1005 where the frame had none, 1006 where no frame came, 1002 where the peer broke a rule of the framing."""

    def __init__(self, code, reason=""):
        super().__init__("%d %s" % (code, reason))
        self.code = code


class WebSocket:
    """A connection whose handshake is done."""

    def __init__(self, host, port, wait=5.0, path="/"):
        self.buffer = bytearray()
        self.texts = deque()
        self.parts = None  # what has come of a message in fragments
        self.over = None  # why the connection is over
        self.told = None  # what the peer's close frame said
        self.closing = False  # whether a close frame was sent
        self.pings = 0  # how often the peer asked for a sign of life
        self.stream = socket.create_connection((host, port), timeout=wait)
        try:
            self.stream.setsockopt(socket.IPPROTO_TCP, socket.TCP_NODELAY, 1)
            self.shake("%s:%d" % (host, port), path, time.monotonic() + wait)
        except BaseException:
            self.stream.close()
            raise
        self.stream.setblocking(False)

    def fileno(self):
        return self.stream.fileno()

    # ---- the handshake

    def shake(self, host, path, deadline):
        key = base64.b64encode(os.urandom(16)).decode()
        head = ["GET %s HTTP/1.1" % path, "Host: " + host, "Upgrade: websocket", "Connection: Upgrade", "Sec-WebSocket-Key: " + key, "Sec-WebSocket-Version: 13", "", ""]
        self.stream.sendall("\r\n".join(head).encode())
        answer = bytearray()
        while b"\r\n\r\n" not in answer:
            if time.monotonic() > deadline or len(answer) > LONGEST_HEAD:
                raise Closed(1006, "no handshake")
            more = self.stream.recv(4096)
            if not more:
                raise Closed(1006, "no handshake")
            answer += more
        head, _, rest = bytes(answer).partition(b"\r\n\r\n")
        status, *lines = head.decode("latin-1").split("\r\n")
        fields = {name.strip().lower(): value.strip() for name, _, value in (line.partition(":") for line in lines)}
        wanted = base64.b64encode(hashlib.sha1((key + GUID).encode()).digest()).decode()
        if (status.split(" ")[1:2] != ["101"] or fields.get("upgrade", "").lower() != "websocket" or "upgrade" not in fields.get("connection", "").lower()
                or fields.get("sec-websocket-accept") != wanted or "sec-websocket-extensions" in fields or "sec-websocket-protocol" in fields):
            raise Closed(1006, "another handshake: " + status)
        self.buffer += rest

    # ---- sending

    def send(self, text, piece=None):
        """Sends a text, in fragments of so many bytes where a size is given."""
        data = text.encode()
        if piece is None or len(data) <= piece:
            self.put(0x80 | TEXT, data)
            return
        pieces = [data[start:start + piece] for start in range(0, len(data), piece)]
        for number, part in enumerate(pieces):
            last = 0x80 if number == len(pieces) - 1 else 0
            self.put(last | (TEXT if number == 0 else CONTINUED), part)

    def ping(self, data=b""):
        self.put(0x80 | PING, data)

    def put(self, first, data):
        """Sends a frame, whose bytes are masked, as a client's must be."""
        if self.over:
            raise self.over
        mask = os.urandom(4)
        size = len(data)
        if size < 126:
            head = struct.pack("!BB", first, 0x80 | size)
        elif size < 1 << 16:
            head = struct.pack("!BBH", first, 0x80 | 126, size)
        else:
            head = struct.pack("!BBQ", first, 0x80 | 127, size)
        masked = int.from_bytes(data, "big") ^ int.from_bytes((mask * (size // 4 + 1))[:size], "big")
        self.write(head + mask + masked.to_bytes(size, "big"))

    def write(self, data):
        deadline = time.monotonic() + 30
        while data:
            try:
                data = data[self.stream.send(data):]
            except BlockingIOError:
                # The peer may wait in turn until we have read.
                if select.select([self.stream], [self.stream], [], 1.0)[0]:
                    self.fill()
                if time.monotonic() > deadline:
                    self.fail(Closed(1006, "it takes nothing"))
            except OSError as error:
                # The peer may have said why.
                self.fill()
                self.end(str(error))
            if self.over:
                raise self.over

    def fail(self, error):
        """Ends the connection at once."""
        self.over = self.over or self.told or error
        self.stream.close()

    def end(self, reason):
        """Ends a connection that broke, once the whole frames that came were heeded."""
        try:
            self.read_frames()
        except Closed:
            pass
        self.fail(Closed(1006, reason))

    # ---- receiving

    def poll(self):
        """The texts that have come, without waiting. Closed comes once all texts were given."""
        if self.over is None:
            self.fill()
            try:
                self.read_frames()
            except Closed as error:
                self.fail(error)
        texts = list(self.texts)
        self.texts.clear()
        if self.over and not texts:
            raise self.over
        return texts

    def receive(self, wait):
        """The next text, or None where none comes within so many seconds."""
        deadline = time.monotonic() + wait
        while True:
            if not self.texts:
                self.texts.extend(self.poll())
            if self.texts:
                return self.texts.popleft()
            left = deadline - time.monotonic()
            if left <= 0:
                return None
            select.select([self.stream], [], [], left)

    def fill(self):
        """Takes the bytes that have come."""
        try:
            while True:
                more = self.stream.recv(1 << 16)
                if not more:
                    raise ConnectionError("the peer is gone")
                self.buffer += more
        except BlockingIOError:
            pass
        except OSError as error:
            self.end(str(error))

    def read_frames(self):
        while self.over is None:
            frame = self.next_frame()
            if frame is None:
                return
            self.heed(*frame)

    def next_frame(self):
        """The first byte and the data of the frame that stands whole in the buffer."""
        if len(self.buffer) < 2:
            return None
        size, start = self.buffer[1], 2
        if size & 0x80:
            raise Closed(1002, "a masked frame")
        if size >= 126:
            start = 4 if size == 126 else 10
            if len(self.buffer) < start:
                return None
            size = int.from_bytes(self.buffer[2:start], "big")
        if size > LONGEST:
            raise Closed(1002, "a frame of %d bytes" % size)
        if len(self.buffer) < start + size:
            return None
        first, data = self.buffer[0], bytes(self.buffer[start:start + size])
        del self.buffer[:start + size]
        return first, data

    def heed(self, first, data):
        last, reserved, kind = first & 0x80, first & 0x70, first & 0x0f
        if reserved or kind not in (CONTINUED, TEXT, CLOSE, PING, PONG) or (kind >= CLOSE and (not last or len(data) > 125)):
            raise Closed(1002, "a frame that is none: %d" % first)
        if kind == PING:
            self.pings += 1
            self.put(0x80 | PONG, data)
        elif kind == CLOSE:
            code = int.from_bytes(data[:2], "big") if len(data) >= 2 else 1005
            self.told = Closed(code, data[2:].decode("utf-8", "replace"))
            if not self.closing:
                self.put(0x80 | CLOSE, data[:2])
            self.fail(self.told)
        elif kind != PONG:
            if (kind == CONTINUED) != (self.parts is not None):
                raise Closed(1002, "a fragment out of its place")
            self.parts = (self.parts or b"") + data
            if len(self.parts) > LONGEST:
                raise Closed(1002, "a message of %d bytes" % len(self.parts))
            if last:
                try:
                    self.texts.append(self.parts.decode())
                except UnicodeDecodeError:
                    raise Closed(1002, "a text that isn't UTF-8") from None
                self.parts = None

    def close(self, code=1000, wait=2.0):
        """Ends the connection: sends a close frame and waits for the peer's, and gives the peer's code."""
        deadline = time.monotonic() + wait
        try:
            self.put(0x80 | CLOSE, struct.pack("!H", code))
            self.closing = True
            while time.monotonic() < deadline:
                self.receive(deadline - time.monotonic())
        except Closed:
            pass
        self.fail(Closed(1006, "no close frame"))
        return self.over.code
