# SPDX-License-Identifier: LicenseRef-Wengeludo
"""Pictures of many marks as PNG inside a drawing, so that a page's size does not grow with the rows. A palette of few colours, zlib alone."""

from __future__ import annotations

import base64
import struct
import zlib
from typing import Any, Sequence, Tuple

Colour = Tuple[int, int, int, int]


def png(marks: Any, palette: Sequence[Colour]) -> bytes:
    """A PNG of an array of palette numbers."""
    import numpy as np

    height, width = marks.shape
    depth = 2 if len(palette) <= 4 else 8
    if depth == 2:
        padded = np.zeros((height, -(-width // 4) * 4), np.uint8)
        padded[:, :width] = marks
        packed = padded[:, 0::4] << 6 | padded[:, 1::4] << 4 | padded[:, 2::4] << 2 | padded[:, 3::4]
    else:
        packed = marks.astype(np.uint8)
    lines = b"".join(b"\0" + row.tobytes() for row in packed)
    colours, clear = b"".join(bytes(colour[:3]) for colour in palette), bytes(colour[3] for colour in palette)
    head = struct.pack(">IIBBBBB", width, height, depth, 3, 0, 0, 0)
    parts = ((b"IHDR", head), (b"PLTE", colours), (b"tRNS", clear), (b"IDAT", zlib.compress(lines, 9)), (b"IEND", b""))
    return b"\x89PNG\r\n\x1a\n" + b"".join(_chunk(kind, data) for kind, data in parts)


def _chunk(kind: bytes, data: bytes) -> bytes:
    return struct.pack(">I", len(data)) + kind + data + struct.pack(">I", zlib.crc32(kind + data))


def image(marks: Any, palette: Sequence[Colour], box: Tuple[float, float, float, float]) -> str:
    """The picture at x, y, width and height of a drawing."""
    x, y, width, height = box
    data = base64.b64encode(png(marks, palette)).decode()
    return (f'<image x="{x:.1f}" y="{y:.1f}" width="{width:.1f}" height="{height:.1f}" preserveAspectRatio="none" class="marks" image-rendering="pixelated" '
            f'href="data:image/png;base64,{data}"/>')
