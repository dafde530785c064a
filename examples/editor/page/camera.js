// Where the world is looked at from: round a place, z up.

const cross = (a, b) => [a[1] * b[2] - a[2] * b[1], a[2] * b[0] - a[0] * b[2], a[0] * b[1] - a[1] * b[0]];
const dot = (a, b) => a[0] * b[0] + a[1] * b[1] + a[2] * b[2];

export class Camera {
  constructor(side) {
    this.angle = 0.75;
    this.tilt = 0.55;
    this.home([0, 0, 0, side, side, side / 3]);
  }

  /** Looks at a box as a whole. */
  home([x, y, z, a, b, c]) {
    this.place = [x + a / 2, y + b / 2, z + c / 2.5];
    this.far = 1.6 * Math.max(a, b, c, 12);
  }

  orbit(right, down) {
    this.angle -= right * 0.008;
    this.tilt = Math.max(-1.5, Math.min(1.5, this.tilt + down * 0.008));
  }

  zoom(by) {
    this.far = Math.max(3, Math.min(6000, this.far * Math.exp(by)));
  }

  pan(right, down) {
    const { side, up } = this.axes();
    const by = this.far * 0.0012;
    this.place = this.place.map((n, axis) => n - side[axis] * right * by + up[axis] * down * by);
  }

  /** The eye, and the ways ahead, to the right and up. */
  axes() {
    const flat = Math.cos(this.tilt);
    const back = [flat * Math.sin(this.angle), -flat * Math.cos(this.angle), Math.sin(this.tilt)];
    const ahead = back.map((n) => -n);
    const side = [Math.cos(this.angle), Math.sin(this.angle), 0];
    return { eye: this.place.map((n, axis) => n + back[axis] * this.far), ahead, side, up: cross(side, ahead) };
  }

  /** The matrix from cells to the picture, by columns. */
  matrix(aspect) {
    const { eye, ahead, side, up } = this.axes();
    const near = this.far / 100;
    const end = this.far * 20;
    const scale = 1 / Math.tan(0.4);
    const depth = (end + near) / (near - end);
    const rows = [
      [...side.map((n) => (n * scale) / aspect), (-dot(side, eye) * scale) / aspect],
      [...up.map((n) => n * scale), -dot(up, eye) * scale],
      [...ahead.map((n) => -n * depth), dot(ahead, eye) * depth + (2 * end * near) / (near - end)],
      [...ahead, -dot(ahead, eye)],
    ];
    return new Float32Array([0, 1, 2, 3].flatMap((column) => rows.map((row) => row[column])));
  }

  /** The way from the eye through a point of the picture, each from -1 to 1. */
  way(x, y, aspect) {
    const { ahead, side, up } = this.axes();
    const size = Math.tan(0.4);
    return ahead.map((n, axis) => n + side[axis] * x * aspect * size + up[axis] * y * size);
  }
}
