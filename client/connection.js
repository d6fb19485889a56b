// The connection to the server: opened when something is asked, closed when nothing is. Each open connection is one of the
// clients for whom the server has places, and ends where it says nothing for some minutes, so none is kept for later.

/** Why an answer is missing. `notSent`: the server never got the message. `unanswered`: it may have. */
export class ConnectionFault extends Error {
  /** @param {"notSent"|"unanswered"|"notKnown"} kind */
  constructor(kind) {
    super(kind);
    this.kind = kind;
  }
}

const usualTimes = { idle: 200, slow: 3_000, opening: 25_000, answer: 20_000 };
const normalClosure = 1000;

export class Connection {
  #address;
  #makeSocket;
  #times;
  #onSlow;
  #greeting = null;
  #socket = null;
  #isReady = false;
  #queue = [];
  #outstanding = [];
  #timers = { idle: null, slow: null, deadline: null };

  /**
   * @param {string} address
   * @param {object} options
   * @param {(address: string) => WebSocket} [options.makeSocket] for tests
   * @param {Partial<typeof usualTimes>} [options.times] in milliseconds
   * @param {(isSlow: boolean) => void} [options.onSlow] told when the handshake takes long
   */
  constructor(address, { makeSocket = (at) => new WebSocket(at), times = {}, onSlow = () => {} } = {}) {
    this.#address = address;
    this.#makeSocket = makeSocket;
    this.#times = { ...usualTimes, ...times };
    this.#onSlow = onSlow;
  }

  /**
   * Signs in, and keeps name and token in this object alone, for the connections to come.
   * @returns {Promise<boolean>} false where the server doesn't know name and token
   */
  async signIn(name, token) {
    this.signOut();
    this.#greeting = JSON.stringify({ hello: name, token });
    try {
      await this.#whenReady();
      return true;
    } catch (fault) {
      this.signOut();
      if (fault.kind === "notKnown") return false;
      throw fault;
    }
  }

  signOut() {
    this.#greeting = null;
    this.#end("notSent");
  }

  /** Sends a message and waits for its answer. @returns {Promise<object>} */
  ask(message) {
    return new Promise((resolve, reject) => {
      this.#queue.push({ text: JSON.stringify(message), resolve, reject });
      this.#advance();
    });
  }

  #whenReady() {
    return new Promise((resolve, reject) => {
      this.#queue.push({ text: null, resolve, reject });
      this.#advance();
    });
  }

  #advance() {
    clearTimeout(this.#timers.idle);
    if (!this.#socket) this.#open();
    if (!this.#isReady) return;
    while (this.#queue.length) this.#send(this.#queue.shift());
    if (!this.#outstanding.length) this.#timers.idle = setTimeout(() => this.#end("notSent"), this.#times.idle);
  }

  #send(item) {
    if (item.text === null) {
      item.resolve();
      return;
    }
    this.#outstanding.push(item);
    this.#socket.send(item.text);
    this.#awaitAnswer(this.#times.answer);
  }

  #open() {
    let socket;
    try {
      socket = this.#makeSocket(this.#address);
    } catch {
      this.#end("notSent");
      return;
    }
    this.#socket = socket;
    this.#timers.slow = setTimeout(() => this.#onSlow(true), this.#times.slow);
    this.#awaitAnswer(this.#times.opening);
    const whileCurrent = (act) => (event) => socket === this.#socket && act(event);
    socket.addEventListener("open", whileCurrent(() => this.#greet()));
    socket.addEventListener("message", whileCurrent((event) => this.#receive(event.data)));
    socket.addEventListener("close", whileCurrent(() => this.#end("unanswered")));
  }

  #greet() {
    clearTimeout(this.#timers.slow);
    this.#onSlow(false);
    if (this.#greeting === null) {
      this.#end("notSent");
      return;
    }
    this.#outstanding.push({ resolve: (answer) => this.#greeted(answer), reject: () => {} });
    this.#socket.send(this.#greeting);
    this.#awaitAnswer(this.#times.answer);
  }

  #greeted(answer) {
    if ("hello" in answer) {
      this.#isReady = true;
      this.#advance();
    } else {
      this.#end(answer.error === "NotKnown" ? "notKnown" : "notSent");
    }
  }

  #receive(text) {
    let answer;
    try {
      answer = JSON.parse(text);
    } catch {
      answer = null;
    }
    const item = this.#outstanding.shift();
    if (!item || answer === null || typeof answer !== "object") {
      if (item) this.#outstanding.unshift(item);
      this.#end("unanswered");
      return;
    }
    clearTimeout(this.#timers.deadline);
    if (this.#outstanding.length) this.#awaitAnswer(this.#times.answer);
    item.resolve(answer);
    if (this.#isReady) this.#advance();
  }

  #awaitAnswer(time) {
    clearTimeout(this.#timers.deadline);
    this.#timers.deadline = setTimeout(() => this.#end("unanswered"), time);
  }

  /** Lets go of the socket. What was sent fails as `kind`; what waited to be sent was not sent, unless nobody is known. */
  #end(kind) {
    Object.values(this.#timers).forEach(clearTimeout);
    const [socket, waiting, sent] = [this.#socket, this.#queue, this.#outstanding];
    [this.#socket, this.#isReady, this.#queue, this.#outstanding] = [null, false, [], []];
    this.#onSlow(false);
    if (socket) socket.close(normalClosure);
    for (const item of sent) item.reject(new ConnectionFault(kind));
    for (const item of waiting) item.reject(new ConnectionFault(kind === "notKnown" ? kind : "notSent"));
  }
}
