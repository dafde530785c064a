// What stands round the world: groups of buttons of which one is chosen, palette, models, people, versions.

const $ = (id) => document.getElementById(id);

/** A group of buttons of which one is chosen; arrows go from one to the next. */
export class Choice {
  #at = 0;

  constructor(id, choose) {
    this.group = $(id);
    this.choose = choose;
    this.group.addEventListener("keydown", (event) => {
      const step = { ArrowRight: 1, ArrowDown: 1, ArrowLeft: -1, ArrowUp: -1 }[event.key];
      if (!step || !this.buttons.length) return;
      event.preventDefault();
      event.stopPropagation();
      this.set((this.#at + step + this.buttons.length) % this.buttons.length);
      this.buttons[this.#at].focus();
    });
  }

  get buttons() {
    return this.group.children;
  }

  get at() {
    return this.#at;
  }

  /** Each entry is a button's label, its words, and how it looks. */
  fill(entries) {
    this.group.replaceChildren(...entries.map(({ label, words, key, colour, title }, n) => {
      const button = document.createElement("button");
      button.type = "button";
      button.setAttribute("role", "radio");
      if (words) button.textContent = words;
      if (label) button.setAttribute("aria-label", label);
      if (title) button.title = title;
      if (colour) button.style.background = colour;
      if (key) {
        const shown = document.createElement("kbd");
        shown.textContent = key;
        button.append(shown);
      }
      button.addEventListener("click", () => this.set(n));
      return button;
    }));
    this.set(Math.min(this.#at, entries.length - 1), false);
  }

  set(at, told = true) {
    this.#at = Math.max(0, at);
    [...this.buttons].forEach((button, n) => {
      button.setAttribute("aria-checked", n === this.#at);
      button.tabIndex = n === this.#at ? 0 : -1;
    });
    if (told) this.choose(this.#at);
  }
}

/** A number 0xRRGGBB as a page writes it. */
export const colourOf = (number) => `#${number.toString(16).padStart(6, "0")}`;

/** How many colours of heights there are, and these colours: from green over yellow, red and blue to green again. */
export const HEIGHTS = 56;

export function heightColours() {
  return Array.from({ length: HEIGHTS }, (_, n) => {
    const part = (turn) => 0.62 + 0.26 * Math.cos((2 * Math.PI * (n - 3)) / HEIGHTS - turn);
    return [2.2, 0, 4.4].reduce((number, turn) => number * 256 + Math.round(255 * part(turn)), 0);
  });
}

/** The colour of a person, from the number. */
export const personColour = (number) => `hsl(${(number * 137.5) % 360} 85% 65%)`;

/** The same as four numbers from 0 to 1. */
export function personTint(number) {
  const hue = ((number * 137.5) % 360) / 60;
  const other = 1 - Math.abs((hue % 2) - 1);
  const [r, g, b] = [[1, other, 0], [other, 1, 0], [0, 1, other], [0, other, 1], [other, 0, 1], [1, 0, other]][Math.floor(hue)];
  return [r, g, b].map((n) => 0.35 + 0.6 * n).concat(1);
}

/** Says who is here and at which version they look. */
export function showPeople(people, me) {
  $("people").replaceChildren(...people.map((person) => {
    const line = document.createElement("li");
    const dot = document.createElement("b");
    dot.style.background = personColour(person.number);
    const where = person.version === null ? "" : `, at version ${person.version}`;
    line.append(dot, `${person.name}${person.number === me ? " (you)" : ""}${where}`);
    return line;
  }));
}

/** Puts the names of others where they point. */
export function showNames(people, me, matrix, size) {
  const spots = [];
  for (const { number, name, at } of people) {
    if (number === me || !at) continue;
    const p = [at[0] + 0.5, at[1] + 0.5, at[2] + 1, 1];
    const [x, y, , w] = [0, 1, 2, 3].map((row) => p.reduce((sum, n, column) => sum + n * matrix[4 * column + row], 0));
    if (w <= 0 || Math.abs(x) > w || Math.abs(y) > w) continue;
    spots.push({ number, name, left: ((x / w + 1) / 2) * size[0], top: ((1 - y / w) / 2) * size[1] });
  }
  const all = $("names");
  while (all.children.length > spots.length) all.lastChild.remove();
  while (all.children.length < spots.length) all.append(document.createElement("span"));
  spots.forEach(({ number, name, left, top }, n) => {
    const label = all.children[n];
    if (label.textContent !== name) label.textContent = name;
    Object.assign(label.style, { left: `${left}px`, top: `${top}px`, background: personColour(number) });
  });
}

let trouble = 0;

/** Tells what went wrong, for a while. */
export function tellTrouble(words) {
  $("trouble").textContent = words;
  clearTimeout(trouble);
  trouble = setTimeout(() => ($("trouble").textContent = ""), 6000);
}

export const tell = (id, words) => {
  if ($(id).textContent !== words) $(id).textContent = words;
};
