// Which version the page shows: the newest one as it comes, or an old one that stays while others go on.

export class Versions {
  #asks = false;

  /** `take` puts parts into the picture, `told` is called when what is shown or the newest version is another one. */
  constructor(link, take, told) {
    Object.assign(this, { link, take, told, shown: 0, newest: 0, wanted: null });
  }

  /** Whether the newest version is followed. */
  get isLive() {
    return this.wanted === null;
  }

  /** A server's first words: what is shown goes on from the version that it was, if the server has it. */
  welcome(newest, clear) {
    this.#asks = false;
    if (this.shown > newest) {
      clear();
      this.shown = 0;
    }
    this.newest = newest;
    if (this.wanted > newest) this.wanted = null;
    this.#go();
  }

  /** A change that the server tells. */
  changed({ from, version, parts }) {
    this.newest = Math.max(this.newest, version);
    if (this.isLive && !this.#asks && from === this.shown) {
      parts.forEach(this.take);
      this.shown = version;
    }
    this.#go();
    this.told();
  }

  /** Shows a version and stays there; null follows the newest one. */
  show(version) {
    this.wanted = version === null || version >= this.newest ? null : Math.max(0, version);
    this.#go();
    this.told();
  }

  async #go() {
    const goal = this.wanted ?? this.newest;
    if (this.#asks || goal === this.shown) return;
    this.#asks = true;
    try {
      const rows = [];
      const last = await this.link.ask({ do: "show", from: this.shown, version: goal }, (message) => rows.push(message));
      for (const { parts } of [...rows, last]) parts.forEach(this.take);
      this.shown = goal;
      this.#asks = false;
      this.told();
    } catch {
      // The line broke: the welcome of the next one goes on from here.
      this.#asks = false;
      return;
    }
    this.#go();
  }
}
