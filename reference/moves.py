"""The moves of a plant file to the ranged form and home, record by record over its bytes; no plant is written anew."""

from reference.solver import BODY, FILE_LENGTH, METERED, RANGE, RANGED, Refused, read_plant

WIDEST = (-RANGE).to_bytes(4, "big", signed=True) + RANGE.to_bytes(4, "big")


def moved(file, move):
    """The file with `move` done to the kind and body of each record; refused as the plant reader refuses it."""
    read_plant(file)
    out, left = b"", file
    while left:
        kind, size = left[0], 1 + BODY[left[0]]
        out, left = out + move(kind, left[1:size]), left[size:]
    return out


def widened(kind, body):
    return bytes((RANGED,)) + body + WIDEST if kind == METERED else bytes((kind,)) + body


def bared(kind, body):
    if kind != RANGED:
        return bytes((kind,)) + body
    if body[8:] != WIDEST:
        raise Refused(20)
    return bytes((METERED,)) + body[:8]


def move_call(file, slice_length, move):
    """(returned number, written, plant file) of a move."""
    if slice_length < FILE_LENGTH:
        return 1, 0, b""
    try:
        out = moved(file, move)
    except Refused as refusal:
        return refusal.number, 0, b""
    return 0, len(out), out
