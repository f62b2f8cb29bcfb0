"""What the caster is to make of bytes, by docs/FORMATS.md alone: the cut of a stream into frames, the
body that chunks hold, and the parts of what a client was sent."""
from wire import *

# The checksum of each single byte: with it a checksum goes on by a byte at a time.
TABLE = [crc(bytes([byte])) for byte in range(256)]


def fast_crc(data):
    value = 0
    for byte in data:
        value = (value << 8 & 0xFFFFFF) ^ TABLE[value >> 16 ^ byte]
    return value


def frame_of(payload, reserved=0):
    """The frame of this payload, with these six reserved bits."""
    front = b'\xd3' + struct.pack('>H', reserved << 10 | len(payload)) + payload
    return front + fast_crc(front).to_bytes(3, 'big')


def cut(data):
    """The frames that a stream is cut into, and whether it has nothing but frames."""
    found = []
    at = junk = 0
    while at < len(data):
        if data[at] != 0xD3:
            at, junk = at + 1, junk + 1
            continue
        size = 6 + ((data[at + 1] & 3) << 8 | data[at + 2]) if len(data) - at >= 3 else len(data)
        if len(data) - at < max(3, size):
            return found, False
        one = bytes(data[at:at + size])
        if fast_crc(one[:-3]) == int.from_bytes(one[-3:], 'big'):
            found.append(one)
            at += size
        else:
            at, junk = at + 1, junk + 1
    return found, not junk


def size_of(line):
    """The size that a size line without its end tells, or None where it is none."""
    digits = line.split(b';', 1)[0]
    if not 1 <= len(digits) <= 6 or digits.strip(b'0123456789abcdefABCDEF') or b'\r' in line:
        return None
    return int(digits, 16)


def unchunked(data):
    """What the chunks hold up to the first byte that is wrong, or up to their end."""
    held = bytearray()
    at = 0
    while True:
        end = data.find(b'\n', at)
        if end < 0 or end + 1 - at > 256 or data[end - 1:end] != b'\r':
            return bytes(held)
        size = size_of(data[at:end - 1])
        if not size:
            return bytes(held)
        held += data[end + 1:end + 1 + size]
        at = end + 1 + size
        if data[at:at + 2] != b'\r\n':
            return bytes(held)
        at += 2


def chunks_of(data):
    """What whole chunks hold as the caster writes them, each of them one frame; else None."""
    found = []
    at = 0
    while at < len(data):
        end = data.find(b'\r\n', at)
        size = size_of(data[at:end]) if end >= 0 else None
        if not size:
            return None
        one = data[end + 2:end + 2 + size]
        if data[at:at + len(chunk(one))] != chunk(one) or cut(one) != ([one], True):
            return None
        found.append(one)
        at += len(chunk(one))
    return found


def body_frames(came, reply):
    """The frames of a whole body that stands behind this reply."""
    body = bytes(came[len(reply):])
    if reply == ROVER_2_OK:
        found = chunks_of(body)
        whole = found is not None
    else:
        found, whole = cut(body)
    if not whole:
        raise Wrong('the body is not of whole frames: %s' % show(body))
    return found
