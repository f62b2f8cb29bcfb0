"""A cut of a stream of bytes into frames of RTCM 3, written from the transport layer of RTCM
10403.3 and the rule for junk of docs/FORMATS.md, section "Frames". It knows nothing of the
program, and shares no code with the frames of the other tests.
"""
import collections

PREAMBLE = 0xD3

# What stands around a payload: the preamble with the two bytes of its length, and the checksum.
HEAD, TAIL = 3, 3

# frames   the whole valid ones, in order
# junk     how many bytes belong to no frame and wait for nothing
# waiting  how many bytes stand at the end that may begin a frame of which not all has come
Cut = collections.namedtuple('Cut', 'frames junk waiting')


def row(byte):
    """The remainder that this byte leaves where it stands in front of three bytes of zero."""
    value = byte << 16
    for _ in range(8):
        value = value << 1 ^ (0x1864CFB if value & 0x800000 else 0)
    return value


ROWS = [row(byte) for byte in range(256)]


def checksum(data):
    """CRC-24Q: the polynomial 1864CFB from 0 on, nothing mirrored, nothing added at the end."""
    value = 0
    for byte in data:
        value = (value & 0xFFFF) << 8 ^ ROWS[value >> 16 ^ byte]
    return value


def frame_at(data, at):
    """What begins at this place: how many bytes a valid frame has there, 0 where none begins, and
    None where more bytes have to come before that is known."""
    if data[at] != PREAMBLE:
        return 0
    if len(data) - at < HEAD:
        return None
    # Six bits of the second byte are reserved, whatever they are; ten bits are the length.
    size = HEAD + (data[at + 1] % 4 * 256 + data[at + 2]) + TAIL
    if len(data) - at < size:
        return None
    body, sent = data[at:at + size - TAIL], data[at + size - TAIL:at + size]
    return size if checksum(body) == int.from_bytes(sent, 'big') else 0


def cut(data):
    """From the front: a valid frame is taken whole; a byte at which none begins is junk, and the
    next one is looked at; what may still become a frame waits, and all that stands behind it."""
    frames, junk, at = [], 0, 0
    while at < len(data):
        size = frame_at(data, at)
        if size is None:
            break
        if size:
            frames.append(data[at:at + size])
        else:
            junk += 1
        at += size or 1
    return Cut(frames, junk, len(data) - at)


def message(frame):
    """Its message number: the first 12 bits of a payload of at least two bytes."""
    payload = frame[HEAD:-TAIL]
    return payload[0] * 16 + payload[1] // 16 if len(payload) >= 2 else None


# The check value of FORMATS, and a frame of the shortest and of the plainest kind.
if checksum(b'123456789') != 0xCDE703:
    raise SystemExit('the cut of this test is wrong')
