// The cells that can be seen, in cubes of 32 cells a side. A cell has its tint in the low byte and its bare sides, as the
// server tells them, in the bits above: -x +x -y +y -z +z.

const EDGE = 32;

/** The bytes of a text in base 64. */
function bytesOf(text) {
  return Uint8Array.from(atob(text), (letter) => letter.charCodeAt(0));
}

export class Cells {
  /** In a world without tints a cell's colour tells its height, round the `heights` colours again and again. */
  constructor(side, heights = 0) {
    this.side = side;
    this.heights = heights;
    this.wide = Math.ceil(side / EDGE);
    this.cubes = new Array(this.wide ** 3).fill(null);
    this.changed = new Set();
    this.count = 0;
  }

  static get edge() {
    return EDGE;
  }

  #number(x, y, z) {
    return (x >> 5) + this.wide * ((y >> 5) + this.wide * (z >> 5));
  }

  /** What stands at a place: 0 where nothing can be seen there. */
  at(x, y, z) {
    const side = this.side;
    if (x < 0 || y < 0 || z < 0 || x >= side || y >= side || z >= side) return 0;
    const cube = this.cubes[this.#number(x, y, z)];
    return cube ? cube[(x & 31) | ((y & 31) << 5) | ((z & 31) << 10)] : 0;
  }

  #put(x, y, z, value) {
    const number = this.#number(x, y, z);
    const cube = (this.cubes[number] ??= value ? new Uint16Array(EDGE ** 3) : null);
    if (!cube) return;
    const place = (x & 31) | ((y & 31) << 5) | ((z & 31) << 10);
    this.count += (value !== 0) - (cube[place] !== 0);
    cube[place] = value;
  }

  /** Puts a part's cells in place of all that was in its box. */
  take({ box: [x, y, z, a, b, c], cells }) {
    for (let k = z; k < z + c; k++) {
      for (let j = y; j < y + b; j++) {
        for (let i = x; i < x + a; i++) this.#put(i, j, k, 0);
      }
    }
    const bytes = bytesOf(cells);
    for (let n = 0; n < bytes.length; n += 5) {
      this.#put(x + bytes[n], y + bytes[n + 1], z + bytes[n + 2], bytes[n + 3] | (bytes[n + 4] << 8));
    }
    this.#mark(x - 1, y - 1, z - 1, x + a, y + b, z + c);
  }

  /** Has all that is there drawn again. */
  renew() {
    this.cubes.forEach((cube, number) => cube && this.changed.add(number));
  }

  // Cubes whose pictures change: shades reach one cell further than the cells.
  #mark(...ends) {
    const [x, y, z, u, v, w] = ends.map((n) => Math.max(0, Math.min(this.side - 1, n)) >> 5);
    for (let k = z; k <= w; k++) {
      for (let j = y; j <= v; j++) {
        for (let i = x; i <= u; i++) this.changed.add(i + this.wide * (j + this.wide * k));
      }
    }
  }

  /** The bare sides of a cube's cells, eight bytes each: place, side, tint, and how open its four corners are. */
  sidesOf(number) {
    const cube = this.cubes[number];
    if (!cube) return new Uint8Array(0);
    const wide = this.wide;
    const corner = [number % wide, Math.floor(number / wide) % wide, Math.floor(number / wide ** 2)].map((n) => n * EDGE);
    let size = 0;
    for (let place = 0; place < cube.length; place++) {
      for (let bits = cube[place] >> 8; bits; bits &= bits - 1) size++;
    }
    const out = new Uint8Array(8 * size);
    let end = 0;
    for (let place = 0; place < cube.length; place++) {
      const value = cube[place];
      if (!value) continue;
      const local = [place & 31, (place >> 5) & 31, place >> 10];
      for (let side = 0; side < 6; side++) {
        if (!((value >> (8 + side)) & 1)) continue;
        out.set(local, end);
        out[end + 3] = side;
        out[end + 4] = this.heights ? 1 + ((corner[2] + local[2]) % this.heights) : value & 255;
        out[end + 5] = this.#open(corner[0] + local[0], corner[1] + local[1], corner[2] + local[2], side);
        end += 8;
      }
    }
    return out;
  }

  // How open the corners of a side are, 0 to 3 in two bits each. Beside a bare side nothing is hidden but what two
  // neighbours hide from it, so the cells that can be seen are enough to know.
  #open(x, y, z, side) {
    const axis = side >> 1;
    const u = (axis + 1) % 3;
    const v = (axis + 2) % 3;
    const place = [x, y, z];
    place[axis] += side & 1 ? 1 : -1;
    const set = (i, j) => {
      const near = [...place];
      near[u] += i;
      near[v] += j;
      return this.at(...near) ? 1 : 0;
    };
    let bits = 0;
    for (let n = 0; n < 4; n++) {
      const i = n & 1 ? 1 : -1;
      const j = n & 2 ? 1 : -1;
      const first = set(i, 0);
      const second = set(0, j);
      const open = first && second ? 0 : 3 - first - second - set(i, j);
      bits |= open << (2 * n);
    }
    return bits;
  }

  /** The first cell on a ray, with the side that the ray came through; or the floor; or null. */
  hit(from, way) {
    const side = this.side;
    let enter = 0;
    let leave = Infinity;
    for (let n = 0; n < 3; n++) {
      if (Math.abs(way[n]) < 1e-9) {
        if (from[n] < 0 || from[n] > side) return null;
        continue;
      }
      const near = (0 - from[n]) / way[n];
      const far = (side - from[n]) / way[n];
      enter = Math.max(enter, Math.min(near, far));
      leave = Math.min(leave, Math.max(near, far));
    }
    if (enter > leave) return null;
    const start = from.map((n, axis) => n + way[axis] * (enter + 1e-6));
    const cell = start.map((n) => Math.max(0, Math.min(side - 1, Math.floor(n))));
    const step = way.map((n) => (n > 0 ? 1 : -1));
    const each = way.map((n) => (n ? Math.abs(1 / n) : Infinity));
    const next = start.map((n, axis) => (way[axis] ? ((way[axis] > 0 ? cell[axis] + 1 - n : n - cell[axis]) * each[axis]) : Infinity));
    const normal = [0, 0, 0];
    for (;;) {
      if (this.at(...cell)) return { cell, normal, isFloor: false };
      const axis = next[0] <= next[1] && next[0] <= next[2] ? 0 : next[1] <= next[2] ? 1 : 2;
      cell[axis] += step[axis];
      if (cell[axis] < 0 || cell[axis] >= side) {
        if (axis !== 2 || cell[2] >= 0) return null;
        cell[2] = 0;
        return { cell, normal: [0, 0, 1], isFloor: true };
      }
      normal.fill(0);
      normal[axis] = -step[axis];
      next[axis] += each[axis];
    }
  }
}
