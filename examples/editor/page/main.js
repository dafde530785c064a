// The editor: the line to the server, the picture, the brush, and what stands round them.

import { Brush, BRUSHES, MODES } from "./brush.js";
import { Camera } from "./camera.js";
import { Cells } from "./cells.js";
import { Picture } from "./draw.js";
import { address, Link } from "./link.js";
import { Choice, colourOf, HEIGHTS, heightColours, personTint, showNames, showPeople, tell, tellTrouble } from "./panels.js";
import { Versions } from "./versions.js";

const $ = (id) => document.getElementById(id);
const canvas = $("world");
const state = { me: 0, people: [], tints: true, colours: [], pointed: null, hover: null, cursor: null, drag: null, isStale: true };
let picture, cells, camera, brush, versions;

// ---- the picture

function paint() {
  state.isStale = false;
  const rest = picture.take(cells);
  const boxes = [[[0, 0, 0, cells.side, cells.side, cells.side], [1, 1, 1, 0.12]]];
  for (const { number, at, version } of state.people) {
    if (number !== state.me && at && version === (versions.isLive ? null : versions.shown)) boxes.push([[...at, 1, 1, 1], personTint(number)]);
  }
  if (brush.selected) boxes.push([brush.selected, [1, 0.82, 0.4, 1]]);
  const ghost = brush.ghost(state.cursor ?? state.hover);
  if (ghost) boxes.push([ghost, brush.mode === "erase" && !brush.copied ? [1, 0.45, 0.4, 1] : [1, 1, 1, 0.9]]);
  const matrix = picture.draw(camera, cells, boxes);
  showNames(state.people, state.me, matrix, [canvas.clientWidth, canvas.clientHeight]);
  if (rest) again();
}

function again() {
  if (state.isStale) return;
  state.isStale = true;
  requestAnimationFrame(paint);
}

// ---- versions

function showVersions() {
  const { shown, newest, isLive } = versions;
  $("version").max = newest;
  if (document.activeElement !== $("version") || isLive) $("version").value = versions.wanted ?? newest;
  tell("shown", `${shown} of ${newest}`);
  $("newest").setAttribute("aria-pressed", isLive);
  const box = brush.selected && brush.selected.slice(3).every((n) => n <= 256) ? { box: brush.selected } : {};
  $("save").href = address("/save.vox", { version: shown, ...box });
  for (const id of ["undo", "redo", "copy", "clear"]) $(id).disabled = !isLive;
  again();
}

async function showRecord() {
  const version = versions.shown;
  if (!version) return tell("record", "the empty world");
  try {
    const { act, by } = await link.ask({ do: "ask", what: "record", version });
    if (version === versions.shown) tell("record", `${by}: ${act}`);
  } catch {
    tell("record", "");
  }
}

function goTo(version) {
  versions.show(version);
  point();
}

// ---- edits

async function make(edit) {
  if (!edit) return;
  if (!versions.isLive) return tellTrouble(`this is version ${versions.shown}: go to the newest to edit`);
  if (!state.tints) delete edit.tint;
  try {
    const version = await link.edit(edit);
    tell("state", `version ${version}`);
  } catch (refused) {
    tellTrouble(`${refused.name}: ${refused.message}`);
  }
}

function use(cell) {
  if (!cell) return;
  make(brush.edit(cell));
  brush.start = null;
  showVersions();
}

function copySelected() {
  if (!brush.selected) return tellTrouble("select a box first (M)");
  brush.copied = brush.selected;
  again();
}

function clearSelected() {
  if (!brush.selected) return tellTrouble("select a box first (M)");
  make({ do: "erase", box: brush.selected });
}

function stop() {
  Object.assign(brush, { start: null, copied: null, selected: null });
  state.cursor = null;
  tell("cursor", "");
  showVersions();
}

// ---- pointing

function wayOf(event) {
  const { left, top, width, height } = canvas.getBoundingClientRect();
  return camera.way(((event.clientX - left) / width) * 2 - 1, 1 - ((event.clientY - top) / height) * 2, picture.aspect);
}

function look(event) {
  const hit = cells.hit(camera.axes().eye, wayOf(event));
  state.pointed = hit;
  state.hover = brush.cellOf(hit);
  if (state.hover) state.cursor = null;
  point();
  again();
}

let told = "";
let rests = 0;

function point() {
  if (rests) return;
  rests = setTimeout(() => {
    rests = 0;
    const message = { do: "point", at: state.cursor ?? state.hover, version: versions.isLive ? null : versions.shown };
    const text = JSON.stringify(message);
    if (text === told || !link.stands) return;
    link.tell(message);
    told = text;
  }, 120);
}

function press(event) {
  canvas.focus();
  canvas.setPointerCapture(event.pointerId);
  if (event.button === 0 && event.altKey) return takeTint(state.pointed?.cell);
  if (event.button !== 0) {
    state.drag = { turns: event.button === 2 && !event.shiftKey, x: event.clientX, y: event.clientY };
    return;
  }
  look(event);
  if (!state.hover) return;
  state.drag = { brushes: true };
  if (brush.hasTwoEnds) brush.start = state.hover;
}

function move(event) {
  const drag = state.drag;
  if (drag && !drag.brushes) {
    const right = event.clientX - drag.x;
    const down = event.clientY - drag.y;
    if (drag.turns) camera.orbit(right, down);
    else camera.pan(right, down);
    Object.assign(drag, { x: event.clientX, y: event.clientY });
    return again();
  }
  look(event);
}

function release() {
  if (state.drag?.brushes) use(state.hover);
  state.drag = null;
}

function takeTint(cell) {
  const tint = cell && cells.at(...cell) & 255;
  if (tint) palette.set(tint - 1);
}

// ---- keys

function moveCursor(step) {
  state.cursor ??= state.hover ?? [cells.side >> 1, cells.side >> 1, 0];
  state.cursor = state.cursor.map((n, axis) => Math.max(0, Math.min(cells.side - 1, n + step[axis])));
  const tint = cells.at(...state.cursor) & 255;
  tell("cursor", `${state.cursor.join(" ")}, ${tint ? `tint ${tint}` : "nothing to be seen"}`);
  point();
  again();
}

function enter() {
  const cell = state.cursor ?? state.hover;
  if (!cell) return;
  if (brush.hasTwoEnds && !brush.start) {
    brush.start = cell;
    tell("cursor", `begins at ${cell.join(" ")}`);
  } else {
    use(cell);
  }
}

// The arrows move along the axis of the world that the eye sees going that way.
function alongView(right, ahead) {
  const quarter = Math.round(camera.angle / (Math.PI / 2));
  const [c, s] = [Math.round(Math.cos(quarter * Math.PI / 2)), Math.round(Math.sin(quarter * Math.PI / 2))];
  return [right * c - ahead * s, right * s + ahead * c, 0];
}

const IN_WORLD = {
  ArrowRight: () => moveCursor(alongView(1, 0)),
  ArrowLeft: () => moveCursor(alongView(-1, 0)),
  ArrowUp: () => moveCursor(alongView(0, 1)),
  ArrowDown: () => moveCursor(alongView(0, -1)),
  PageUp: () => moveCursor([0, 0, 1]),
  PageDown: () => moveCursor([0, 0, -1]),
  Enter: enter,
  " ": enter,
};
const WITH_CONTROL = {
  z: (event) => make({ do: event.shiftKey ? "redo" : "undo" }),
  y: () => make({ do: "redo" }),
  c: copySelected,
  v: copySelected,
  s: () => $("save").click(),
  o: () => $("file").click(),
};
const ANYWHERE = {
  Delete: clearSelected,
  Escape: stop,
  Home: home,
  ",": () => goTo(versions.shown - 1),
  ".": () => goTo(versions.shown + 1),
};

function key(event) {
  if (event.target instanceof HTMLInputElement || event.altKey) return;
  const name = event.key.length === 1 ? event.key.toLowerCase() : event.key;
  let action;
  if (event.ctrlKey || event.metaKey) action = WITH_CONTROL[name];
  else {
    action = (event.target === canvas && IN_WORLD[name]) || ANYWHERE[name];
    const chosen = (rows) => rows.findIndex((row) => row.key.toLowerCase() === name);
    if (!action && chosen(BRUSHES) >= 0) action = () => brushes.set(chosen(BRUSHES));
    if (!action && chosen(MODES) >= 0) action = () => modes.set(chosen(MODES));
  }
  if (!action) return;
  event.preventDefault();
  action(event);
}

async function home() {
  try {
    const { bounds } = await link.ask({ do: "ask", what: "bounds", version: versions.shown });
    camera.home(bounds ?? [0, 0, 0, cells.side, cells.side, cells.side / 3]);
  } catch {
    camera.home([0, 0, 0, cells.side, cells.side, cells.side / 3]);
  }
  again();
}

// ---- files

async function load(file) {
  if (!file) return;
  const answer = await fetch(address("/load"), { method: "POST", body: file });
  const told = await answer.json();
  if (told.refused) return tellTrouble(`${told.refused}: ${told.words}`);
  models.set(told.first);
  brushes.set(BRUSHES.findIndex(({ name }) => name === "stamp"));
}

// ---- the server's words

function welcome(message) {
  const isFirst = !cells || cells.side !== message.side;
  state.me = message.you;
  state.tints = message.tints;
  if (isFirst) begin(message.side);
  takeModels(message);
  takePeople(message);
  versions.welcome(message.version, () => {
    cells = new Cells(message.side, state.tints ? 0 : HEIGHTS);
    picture.cubes.clear();
  });
  tell("state", "connected");
  const name = localStorage.getItem("name");
  if (name) link.tell({ do: "hello", name });
  told = "";
  point();
  showVersions();
}

// The browser took the picture's memory away, and gave it back.
function drawAnew() {
  picture = new Picture(canvas);
  picture.colours(state.colours);
  cells.renew();
  again();
}

function begin(side) {
  cells = new Cells(side, state.tints ? 0 : HEIGHTS);
  camera = new Camera(side);
  brush = new Brush(side);
  versions = new Versions(link, (part) => cells.take(part), () => {
    showVersions();
    showRecord();
    point();
  });
  brushes.set(0);
  modes.set(0);
  state.isStale = false;
}

function takeModels(message) {
  brush.models = message.models;
  models.fill(message.models.map((size, n) => ({ words: `${n}: ${size.join(" × ")}`, label: `model ${n}, ${size.join(" by ")} cells` })));
  state.colours = state.tints ? message.palette : heightColours();
  picture.colours(state.colours);
  tell("palette-name", state.tints ? "Palette" : "Colours tell heights: cells have no tints here");
  if (state.tints) palette.fill(message.palette.map((number, n) => ({ label: `tint ${n + 1}`, title: `tint ${n + 1}`, colour: colourOf(number) })));
}

function takePeople(message) {
  state.people = message.people;
  showPeople(message.people, state.me);
  again();
}

function hear(message) {
  if (message.say === "welcome") welcome(message);
  else if (message.say === "changed") versions.changed(message);
  else if (message.say === "people") takePeople(message);
  else if (message.say === "models") takeModels(message);
}

// ---- the beginning

const brushes = new Choice("brushes", (n) => {
  Object.assign(brush, { name: BRUSHES[n].name, start: null, copied: null });
  again();
});
const modes = new Choice("modes", (n) => {
  brush.mode = MODES[n].name;
  again();
});
const palette = new Choice("palette", (n) => (brush.tint = n + 1));
const models = new Choice("models", (n) => (brush.model = n));

function listen() {
  canvas.addEventListener("pointerdown", press);
  canvas.addEventListener("pointermove", move);
  canvas.addEventListener("pointerup", release);
  canvas.addEventListener("pointerleave", () => {
    state.hover = null;
    point();
    again();
  });
  canvas.addEventListener("contextmenu", (event) => event.preventDefault());
  canvas.addEventListener("wheel", (event) => {
    event.preventDefault();
    camera.zoom(event.deltaY * 0.001);
    again();
  }, { passive: false });
  canvas.addEventListener("webglcontextlost", (event) => event.preventDefault());
  canvas.addEventListener("webglcontextrestored", drawAnew);
  document.addEventListener("keydown", key);
  addEventListener("resize", again);
  $("undo").addEventListener("click", () => make({ do: "undo" }));
  $("redo").addEventListener("click", () => make({ do: "redo" }));
  $("copy").addEventListener("click", copySelected);
  $("clear").addEventListener("click", clearSelected);
  $("home").addEventListener("click", home);
  $("version").addEventListener("input", () => goTo(Number($("version").value)));
  $("newest").addEventListener("click", () => goTo(null));
  $("load").addEventListener("click", () => $("file").click());
  $("file").addEventListener("change", () => load($("file").files[0]));
  $("name").value = localStorage.getItem("name") ?? "";
  $("name").addEventListener("change", () => {
    localStorage.setItem("name", $("name").value);
    link.tell({ do: "hello", name: $("name").value });
  });
  for (const [id, path] of [["journal", "/journal.txt"], ["dag", "/world.dag"]]) $(id).href = address(path);
}

let link;
try {
  picture = new Picture(canvas);
  brushes.fill(BRUSHES);
  modes.fill(MODES);
  listen();
  link = new Link(hear, (stands) => stands || tell("state", "no line to the server; trying again"));
} catch (error) {
  tell("trouble", String(error.message));
}

/** What a test looks at: `isDrawn` says that the picture has all that is told here, `asks` how many answers are awaited. */
window.editor = {
  told: () => ({
    shown: versions?.shown,
    newest: versions?.newest,
    isLive: versions?.isLive,
    count: cells?.count,
    people: state.people,
    isDrawn: !state.isStale && cells?.changed.size === 0,
    asks: link?.asks,
    angle: camera?.angle,
    tints: state.tints,
    tint: brush?.tint,
    cursor: state.cursor,
  }),
  at: (x, y, z) => cells.at(x, y, z) & 255,
  look: (angle, tilt, far, place) => {
    Object.assign(camera, { angle, tilt, far, place });
    again();
  },
};
