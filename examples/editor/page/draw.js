// The picture, in WebGL2: each bare side of a cell is one instance of a square; lines are boxes.

import { Cells } from "./cells.js";

const SQUARES = `#version 300 es
layout(location = 0) in uvec4 place;
layout(location = 1) in uvec2 look;
uniform mat4 matrix;
uniform vec3 corner;
uniform highp sampler2D palette;
flat out vec3 tint;
flat out vec4 open;
out vec2 spot;
out float far;
const float LIGHT[6] = float[6](0.70, 0.84, 0.76, 0.90, 0.52, 1.0);
void main() {
  int side = int(place.w);
  int axis = side >> 1;
  vec2 at = vec2(gl_VertexID & 1, gl_VertexID >> 1);
  vec3 p = vec3(place.xyz) + corner;
  p[axis] += float(side & 1);
  p[(axis + 1) % 3] += at.x;
  p[(axis + 2) % 3] += at.y;
  gl_Position = matrix * vec4(p, 1.0);
  tint = texelFetch(palette, ivec2(int(look.x), 0), 0).rgb * LIGHT[side];
  open = vec4(look.y & 3u, (look.y >> 2) & 3u, (look.y >> 4) & 3u, look.y >> 6) / 3.0;
  spot = at;
  far = gl_Position.w;
}`;
const SQUARE_COLOURS = `#version 300 es
precision highp float;
flat in vec3 tint;
flat in vec4 open;
in vec2 spot;
in float far;
uniform float edges;
out vec4 colour;
void main() {
  float light = mix(mix(open.x, open.y, spot.x), mix(open.z, open.w, spot.x), spot.y);
  vec2 near = min(spot, 1.0 - spot);
  float line = smoothstep(0.0, 0.05, min(near.x, near.y));
  float shade = (0.58 + 0.42 * light) * mix(1.0, 0.9 + 0.1 * line, edges / max(far, edges));
  colour = vec4(tint * shade, 1.0);
}`;
const LINES = `#version 300 es
layout(location = 0) in vec3 place;
uniform mat4 matrix;
void main() { gl_Position = matrix * vec4(place, 1.0); gl_Position.z -= 0.0005 * gl_Position.w; }`;
const LINE_COLOURS = `#version 300 es
precision highp float;
uniform vec4 tint;
out vec4 colour;
void main() { colour = tint; }`;
const FLOOR = `#version 300 es
uniform mat4 matrix;
uniform float side;
out vec2 spot;
out float far;
void main() {
  spot = vec2(gl_VertexID & 1, gl_VertexID >> 1) * side;
  gl_Position = matrix * vec4(spot, -0.01, 1.0);
  far = gl_Position.w;
}`;
const FLOOR_COLOURS = `#version 300 es
precision highp float;
in vec2 spot;
in float far;
uniform float edges;
out vec4 colour;
float lines(float each) {
  vec2 near = abs(fract(spot / each - 0.5) - 0.5) * each / fwidth(spot);
  return 1.0 - min(min(near.x, near.y), 1.0);
}
void main() {
  float fine = lines(1.0) * clamp(edges / far, 0.0, 1.0);
  colour = vec4(vec3(0.13, 0.15, 0.18) + 0.05 * fine + 0.10 * lines(16.0), 1.0);
}`;
const CORNERS = [0, 1, 1, 3, 3, 2, 2, 0, 4, 5, 5, 7, 7, 6, 6, 4, 0, 4, 1, 5, 2, 6, 3, 7];

function program(gl, ...texts) {
  const made = gl.createProgram();
  for (const [n, text] of texts.entries()) {
    const shader = gl.createShader(n ? gl.FRAGMENT_SHADER : gl.VERTEX_SHADER);
    gl.shaderSource(shader, text);
    gl.compileShader(shader);
    if (!gl.getShaderParameter(shader, gl.COMPILE_STATUS)) throw new Error(gl.getShaderInfoLog(shader));
    gl.attachShader(made, shader);
  }
  gl.linkProgram(made);
  if (!gl.getProgramParameter(made, gl.LINK_STATUS)) throw new Error(gl.getProgramInfoLog(made));
  return { made, of: (name) => gl.getUniformLocation(made, name) };
}

export class Picture {
  constructor(canvas) {
    this.canvas = canvas;
    const gl = canvas.getContext("webgl2", { antialias: true, preserveDrawingBuffer: true });
    if (!gl) throw new Error("this browser has no WebGL2");
    this.gl = gl;
    this.squares = program(gl, SQUARES, SQUARE_COLOURS);
    this.lines = program(gl, LINES, LINE_COLOURS);
    this.floor = program(gl, FLOOR, FLOOR_COLOURS);
    this.cubes = new Map();
    this.line = gl.createBuffer();
    this.lineState = gl.createVertexArray();
    gl.bindVertexArray(this.lineState);
    gl.bindBuffer(gl.ARRAY_BUFFER, this.line);
    gl.enableVertexAttribArray(0);
    gl.vertexAttribPointer(0, 3, gl.FLOAT, false, 0, 0);
    this.nothing = gl.createVertexArray();
    this.palette = gl.createTexture();
  }

  /** The colours of tints from 1 on, as numbers 0xRRGGBB. */
  colours(numbers) {
    const gl = this.gl;
    const bytes = new Uint8Array(1024).fill(255);
    numbers.forEach((n, at) => bytes.set([n >> 16, (n >> 8) & 255, n & 255], 4 * (at + 1)));
    gl.bindTexture(gl.TEXTURE_2D, this.palette);
    gl.texImage2D(gl.TEXTURE_2D, 0, gl.RGBA8, 256, 1, 0, gl.RGBA, gl.UNSIGNED_BYTE, bytes);
    gl.texParameteri(gl.TEXTURE_2D, gl.TEXTURE_MIN_FILTER, gl.NEAREST);
    gl.texParameteri(gl.TEXTURE_2D, gl.TEXTURE_MAG_FILTER, gl.NEAREST);
  }

  #cube(number) {
    const gl = this.gl;
    let cube = this.cubes.get(number);
    if (!cube) {
      cube = { buffer: gl.createBuffer(), state: gl.createVertexArray(), count: 0 };
      gl.bindVertexArray(cube.state);
      gl.bindBuffer(gl.ARRAY_BUFFER, cube.buffer);
      for (const [at, size, from] of [[0, 4, 0], [1, 2, 4]]) {
        gl.enableVertexAttribArray(at);
        gl.vertexAttribIPointer(at, size, gl.UNSIGNED_BYTE, 8, from);
        gl.vertexAttribDivisor(at, 1);
      }
      this.cubes.set(number, cube);
    }
    return cube;
  }

  /** Takes the cubes that changed, for a few milliseconds; says whether some are left. */
  take(cells) {
    const gl = this.gl;
    const end = performance.now() + 12;
    for (const number of cells.changed) {
      cells.changed.delete(number);
      const bytes = cells.sidesOf(number);
      if (!bytes.length && !this.cubes.has(number)) continue;
      const cube = this.#cube(number);
      cube.count = bytes.length / 8;
      gl.bindBuffer(gl.ARRAY_BUFFER, cube.buffer);
      gl.bufferData(gl.ARRAY_BUFFER, bytes, gl.DYNAMIC_DRAW);
      if (performance.now() > end) return cells.changed.size > 0;
    }
    return false;
  }

  get aspect() {
    return this.canvas.width / this.canvas.height;
  }

  /** Draws everything: `boxes` are [box, [red, green, blue, alpha]]. */
  draw(camera, cells, boxes) {
    const { gl, canvas } = this;
    const scale = Math.min(2, devicePixelRatio);
    const [width, height] = [canvas.clientWidth, canvas.clientHeight].map((n) => Math.max(1, Math.round(n * scale)));
    if (canvas.width !== width || canvas.height !== height) Object.assign(canvas, { width, height });
    gl.viewport(0, 0, width, height);
    gl.clearColor(0.08, 0.09, 0.11, 1);
    gl.clear(gl.COLOR_BUFFER_BIT | gl.DEPTH_BUFFER_BIT);
    gl.enable(gl.DEPTH_TEST);
    const matrix = camera.matrix(width / height);
    // How far away a cell is a few points wide: there its edges fade.
    const edges = height / 12;
    this.#drawFloor(matrix, cells.side, edges);
    this.#drawSquares(matrix, cells, edges);
    this.#drawBoxes(matrix, boxes);
    return matrix;
  }

  #drawFloor(matrix, side, edges) {
    const gl = this.gl;
    gl.useProgram(this.floor.made);
    gl.uniformMatrix4fv(this.floor.of("matrix"), false, matrix);
    gl.uniform1f(this.floor.of("side"), side);
    gl.uniform1f(this.floor.of("edges"), edges);
    gl.bindVertexArray(this.nothing);
    gl.drawArrays(gl.TRIANGLE_STRIP, 0, 4);
  }

  #drawSquares(matrix, cells, edges) {
    const gl = this.gl;
    const { made, of } = this.squares;
    gl.useProgram(made);
    gl.uniformMatrix4fv(of("matrix"), false, matrix);
    gl.uniform1f(of("edges"), edges);
    gl.activeTexture(gl.TEXTURE0);
    gl.bindTexture(gl.TEXTURE_2D, this.palette);
    gl.uniform1i(of("palette"), 0);
    const corner = of("corner");
    const { wide } = cells;
    for (const [number, cube] of this.cubes) {
      if (!cube.count) continue;
      const at = [number % wide, Math.floor(number / wide) % wide, Math.floor(number / wide ** 2)];
      gl.uniform3f(corner, ...at.map((n) => n * Cells.edge));
      gl.bindVertexArray(cube.state);
      gl.drawArraysInstanced(gl.TRIANGLE_STRIP, 0, 4, cube.count);
    }
  }

  #drawBoxes(matrix, boxes) {
    const gl = this.gl;
    gl.useProgram(this.lines.made);
    gl.uniformMatrix4fv(this.lines.of("matrix"), false, matrix);
    gl.bindVertexArray(this.lineState);
    gl.bindBuffer(gl.ARRAY_BUFFER, this.line);
    gl.enable(gl.BLEND);
    gl.blendFunc(gl.SRC_ALPHA, gl.ONE_MINUS_SRC_ALPHA);
    for (const [[x, y, z, a, b, c], tint] of boxes) {
      const corners = CORNERS.flatMap((n) => [x + (n & 1 ? a : 0), y + (n & 2 ? b : 0), z + (n & 4 ? c : 0)]);
      gl.bufferData(gl.ARRAY_BUFFER, new Float32Array(corners), gl.STREAM_DRAW);
      gl.uniform4f(this.lines.of("tint"), ...tint);
      gl.drawArrays(gl.LINES, 0, 24);
    }
    gl.disable(gl.BLEND);
  }
}
