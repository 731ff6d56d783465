"""Records of a feed: a place of eight bytes, a length of four, and the bytes of one entry of the store (numbers are big-endian)."""
import struct

HEAD = struct.Struct(">QI")


def whole(data):
    """Returns how many of these bytes are whole records, the places of the first and the last of them, and the shortest."""
    at, first, last, shortest = 0, None, None, None
    while at + HEAD.size <= len(data):
        place, length = HEAD.unpack_from(data, at)
        end = at + HEAD.size + length
        if end > len(data):
            break
        first = place if first is None else first
        last = place
        if shortest is None or end - at < len(shortest):
            shortest = bytes(data[at:end])
        at = end
    return at, first, last, shortest


def pieces(data, most=60_000):
    """Cuts whole records into pieces of whole records, each of about so many bytes at most, or of one record that is longer."""
    at, begin = 0, 0
    while at < len(data):
        end = at + HEAD.size + HEAD.unpack_from(data, at)[1]
        if at > begin and end - begin > most:
            yield data[begin:at]
            begin = at
        at = end
    if at > begin:
        yield data[begin:at]
