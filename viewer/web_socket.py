"""The frames of a WebSocket (RFC 6455), as a server reads and writes them."""

import base64
import hashlib
import struct

GUID = b"258EAFA5-E914-47DA-95CA-C5AB0DC85B11"
TEXT, BINARY, CLOSE, PING, PONG = 1, 2, 8, 9, 10
CONTINUED = 0
# Bytes of a message that a page may send.
MOST = 2**16


class Closed(Exception):
    """The other side went away, or said what can't be read: the code for its close frame."""

    def __init__(self, code=1000):
        super().__init__(code)
        self.code = code


def accept(key):
    """What answers a page's Sec-WebSocket-Key, section 4.2.2."""
    return base64.b64encode(hashlib.sha1(key.encode("ascii", "replace") + GUID).digest()).decode("ascii")


def is_key(text):
    """Whether this is a Sec-WebSocket-Key: 16 bytes in base 64."""
    try:
        return len(base64.b64decode(text, validate=True)) == 16
    except ValueError:
        return False


def exactly(stream, size):
    data = stream.read(size)
    if len(data) != size:
        raise Closed
    return data


def unmasked(data, mask):
    """The bytes under a mask, section 5.3."""
    size = len(data)
    whole = int.from_bytes((mask * (size // 4 + 1))[:size], "big")
    return (int.from_bytes(data, "big") ^ whole).to_bytes(size, "big")


def frame(stream):
    """Whether the next frame is the last of its message, its kind and its bytes, section 5.2."""
    first, second = exactly(stream, 2)
    size = second & 0x7F
    if size == 126:
        (size,) = struct.unpack(">H", exactly(stream, 2))
    elif size == 127:
        (size,) = struct.unpack(">Q", exactly(stream, 8))
    # No extension is spoken, and what a page sends is masked.
    if first & 0x70 or not second & 0x80:
        raise Closed(1002)
    if size > MOST:
        raise Closed(1009)
    mask = exactly(stream, 4)
    return bool(first & 0x80), first & 0x0F, unmasked(exactly(stream, size), mask)


def messages(stream):
    """Each message of the other side, as its kind and bytes, until it closes; pings and pongs come between."""
    kind, parts = None, []
    while True:
        last, opcode, data = frame(stream)
        if opcode == CLOSE:
            raise Closed
        if opcode in (PING, PONG):
            yield opcode, data
            continue
        if (opcode == CONTINUED) == (kind is None) or opcode not in (CONTINUED, TEXT, BINARY):
            raise Closed(1002)
        kind = kind or opcode
        parts.append(data)
        if sum(map(len, parts)) > MOST:
            raise Closed(1009)
        if last:
            yield kind, b"".join(parts)
            kind, parts = None, []


def head(kind, size):
    """What stands before the bytes of a message of one frame."""
    if size < 126:
        return struct.pack(">BB", 0x80 | kind, size)
    if size < 2**16:
        return struct.pack(">BBH", 0x80 | kind, 126, size)
    return struct.pack(">BBQ", 0x80 | kind, 127, size)


def closing(code):
    """The frame that closes."""
    return head(CLOSE, 2) + struct.pack(">H", code)
