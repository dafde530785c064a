// What a click and a key do: voxel, box, ball, stamp, select, each in one of the modes attach, erase and paint.

export const BRUSHES = [
  { name: "voxel", words: "Voxel", key: "V" },
  { name: "box", words: "Box", key: "B" },
  { name: "ball", words: "Ball", key: "C" },
  { name: "stamp", words: "Stamp", key: "P" },
  { name: "select", words: "Select", key: "M" },
];
export const MODES = [
  { name: "attach", words: "Attach", key: "T" },
  { name: "erase", words: "Erase", key: "R" },
  { name: "paint", words: "Paint", key: "G" },
];

/** The least box of two cells. */
export function boxOf(a, b) {
  const low = a.map((n, axis) => Math.min(n, b[axis]));
  return [...low, ...a.map((n, axis) => Math.abs(n - b[axis]) + 1)];
}

export class Brush {
  constructor(side) {
    Object.assign(this, { side, name: "voxel", mode: "attach", tint: 1, model: 0, models: [], start: null, selected: null, copied: null });
  }

  /** The cell that the brush is for, where the pointer hit: the one beside it where something is put on. */
  cellOf(hit) {
    if (!hit) return null;
    const puts = hit.isFloor ? false : this.copied || this.name === "stamp" || (this.mode === "attach" && this.name !== "select");
    const cell = hit.cell.map((n, axis) => n + (puts ? hit.normal[axis] : 0));
    return cell.every((n) => n >= 0 && n < this.side) ? cell : null;
  }

  // A box of this size about a cell, moved so far that it lies in the world.
  #stands(cell, size) {
    const at = [cell[0] - (size[0] >> 1), cell[1] - (size[1] >> 1), cell[2]];
    return at.map((n, axis) => Math.max(0, Math.min(this.side - size[axis], n)));
  }

  #radius(cell) {
    return Math.round(Math.hypot(...cell.map((n, axis) => n - this.start[axis])));
  }

  /** The box in which something would happen. */
  ghost(cell) {
    if (!cell) return null;
    if (this.copied) return [...this.#stands(cell, this.copied.slice(3)), ...this.copied.slice(3)];
    if (this.name === "stamp") {
      const size = this.models[this.model];
      return size && size.every((n) => n <= this.side) ? [...this.#stands(cell, size), ...size] : null;
    }
    if (this.start && this.name === "ball") {
      const radius = this.#radius(cell);
      return [...this.start.map((n) => n - radius), ...Array(3).fill(2 * radius + 1)];
    }
    return this.start ? boxOf(this.start, cell) : [...cell, 1, 1, 1];
  }

  /** Whether the brush has a beginning and an end. */
  get hasTwoEnds() {
    return !this.copied && ["box", "ball", "select"].includes(this.name);
  }

  /** The edit of a click that ends at this cell, or null where there is none. */
  edit(cell) {
    if (this.copied) return { do: "copy", box: this.copied, to: this.ghost(cell).slice(0, 3) };
    const erases = this.mode === "erase";
    if (this.name === "stamp") {
      const box = this.ghost(cell);
      return box && { do: "stamp", model: this.model, at: box.slice(0, 3) };
    }
    if (this.name === "ball") {
      const round = { at: this.start ?? cell, radius: this.start ? this.#radius(cell) : 0 };
      return erases ? { do: "carve", ...round } : { do: "ball", ...round, tint: this.tint };
    }
    const box = boxOf(this.start ?? cell, cell);
    if (this.name === "select") {
      this.selected = box;
      return null;
    }
    return erases ? { do: "erase", box } : { do: "fill", box, tint: this.tint };
  }
}
