"""Boxes of cells: what changed, with the neighbours, in few boxes, cut into parts that are sent."""

from __future__ import annotations

from typing import Optional

PART = 64  # the side of the parts in which cells are sent

Box = tuple[int, ...]


def grown(box: Box, side: int) -> Box:
    """The box and its neighbours, whose sides may have become bare or not."""
    low = [max(0, n - 1) for n in box[:3]]
    return (*low, *(min(side, box[i] + box[i + 3] + 1) - low[i] for i in range(3)))


def union(a: Box, b: Box) -> Box:
    low = [min(a[i], b[i]) for i in range(3)]
    return (*low, *(max(a[i] + a[i + 3], b[i] + b[i + 3]) - low[i] for i in range(3)))


def common(a: Box, b: Box) -> Optional[Box]:
    """What two boxes have in common, or None."""
    low = [max(a[i], b[i]) for i in range(3)]
    size = [min(a[i] + a[i + 3], b[i] + b[i + 3]) - low[i] for i in range(3)]
    return (*low, *size) if min(size) > 0 else None


def size_of(box: Box) -> int:
    return box[3] * box[4] * box[5]


def few(boxes: list[Box]) -> list[Box]:
    """The same places in fewer boxes: two become one where that has little more cells than they have."""
    kept: list[Box] = []
    for box in boxes:
        at = 0
        while at < len(kept):
            both = union(kept[at], box)
            if size_of(both) <= size_of(kept[at]) + size_of(box):
                box = both
                kept.pop(at)
                at = 0
            else:
                at += 1
        kept.append(box)
    return kept


def parts_of(box: Box) -> list[Box]:
    """A box as boxes that lie each in one cube of so many cells a side."""
    axes = []
    for i in range(3):
        at, end, cuts = box[i], box[i] + box[i + 3], []
        while at < end:
            nxt = min(end, (at // PART + 1) * PART)
            cuts.append((at, nxt - at))
            at = nxt
        axes.append(cuts)
    return [(x, y, z, a, b, c) for z, c in axes[2] for y, b in axes[1] for x, a in axes[0]]
