// The line to the server: each edit and each question has a number, by which its answer is known. An edit that isn't
// answered when the line breaks is sent again under its key, so it is made once.

const token = new URLSearchParams(location.search).get("token");

/** An address of this server, with the token where there is one. */
export function address(path, query = {}) {
  const words = new URLSearchParams(query);
  if (token) words.set("token", token);
  const text = words.toString();
  return text ? `${path}?${text}` : path;
}

/** Why something wasn't done. */
export class Refused extends Error {
  constructor(told) {
    super(told.words);
    this.name = told.refused;
  }
}

export class Link {
  #socket = null;
  #waiting = new Map();
  #next = 1;
  #pause = 250;

  /** `hear` takes what the server says by itself, `state` whether the line stands. */
  constructor(hear, state) {
    this.hear = hear;
    this.state = state;
    this.open();
  }

  get stands() {
    return this.#socket?.readyState === WebSocket.OPEN;
  }

  /** How many edits and questions aren't answered yet. */
  get asks() {
    return this.#waiting.size;
  }

  open() {
    const scheme = location.protocol === "https:" ? "wss" : "ws";
    const socket = new WebSocket(`${scheme}://${location.host}${address("/ws")}`);
    this.#socket = socket;
    socket.addEventListener("message", (event) => this.#take(JSON.parse(event.data)));
    socket.addEventListener("close", () => {
      this.state(false);
      this.#dropQuestions();
      setTimeout(() => this.open(), this.#pause);
      this.#pause = Math.min(4000, this.#pause * 2);
    });
  }

  #take(message) {
    if (message.say === "welcome") {
      this.#pause = 250;
      this.state(true);
      this.hear(message);
      for (const { message: edit } of this.#waiting.values()) this.#send(edit);
    } else if (message.say) {
      this.hear(message);
    } else {
      const waiting = this.#waiting.get(message.id);
      if (!waiting) return;
      if (message.more) {
        waiting.part?.(message);
        return;
      }
      this.#waiting.delete(message.id);
      if (message.refused) waiting.fail(new Refused(message));
      else waiting.done(message);
    }
  }

  // A question that the old line took along is the asker's to ask again; an edit waits for the new line.
  #dropQuestions() {
    for (const [id, waiting] of this.#waiting) {
      if (waiting.message.key) continue;
      this.#waiting.delete(id);
      waiting.fail(new Refused({ refused: "no_line", words: "the line to the server broke" }));
    }
  }

  #send(message) {
    if (this.stands) this.#socket.send(JSON.stringify(message));
  }

  /** Sends a message to which nothing is answered. */
  tell(message) {
    this.#send(message);
  }

  /** Asks, and gives the answer. `part` takes the messages that come before the last one. */
  ask(message, part) {
    const sent = { ...message, id: this.#next++ };
    if (!message.key && !this.stands) return Promise.reject(new Refused({ refused: "no_line", words: "there is no line to the server" }));
    return new Promise((done, fail) => {
      this.#waiting.set(sent.id, { message: sent, done, fail, part });
      this.#send(sent);
    });
  }

  /** Makes an edit, and gives its version. */
  async edit(message) {
    const bytes = crypto.getRandomValues(new Uint8Array(12));
    const key = [...bytes].map((byte) => byte.toString(16).padStart(2, "0")).join("");
    return (await this.ask({ ...message, key })).ok;
  }
}
