"use strict";
globalThis.Loft ??= {};

// Reads a report (docs/REPORT.md). This file is a plain script, so that the page needs no server;
// node loads it by `require`. What it gives stands in `Loft`.
{
  /**
   * @typedef {{id: string, code: string, mask: string, wait: string, frames: string[], text: string}} Thread
   * @typedef {{kind: string, text: string, id?: string, module?: string, thread?: Thread, event?: string,
   *   reason?: string}} Order
   * @typedef {{mark: "in"|"void"|"full", order: Order, end: string|null, line: number}} Row An order of a batch.
   * @typedef {{kind: "print"|"gen"|"out"|"end", id: string, text: string, to?: string, order?: Order,
   *   line: number}} Act
   * @typedef {{number: number, line: number, after: number, batch: Row[], acts: Act[],
   *   leaves: {id: string, to: string, line: number}[], at: (Thread & {line: number})[],
   *   shared: {name: string, value: string}[]}} Instant `line` is that of its first line, `after` the one after its last.
   * @typedef {{name: string, line: number, instants: Instant[],
   *   state: {suspended: boolean, thread: Thread, line: number}[], shared: {name: string, value: string}[]}} Scheduler
   * @typedef {{kind: "take"|"give"|"pick"|"post"|"client", of: string, line: number}} Choice
   * @typedef {{options: Object<string, number>, choices: Choice[], schedulers: Scheduler[],
   *   left: {scheduler: string, order: Order, line: number}[], lines: string[]}} Report
   */

  /** Says why a text is no report, and at which line, counted from 1. */
  class NotAReport extends Error {
    /** @param {number} line @param {string} why */
    constructor(line, why) {
      super(`line ${line}: ${why}`);
      this.name = "NotAReport";
      this.line = line;
      this.why = why;
    }
  }

  const OPTIONS = [["instants", 1e6], ["budget", 1e6], ["block", 1e8], ["workers", 16]];
  const RESERVED = new Set(("scheduler event shared module start outside local int thread in to as end unlinked print "
    + "cooperate generate await select get join create stop suspend resume broadcast link unlink run halt for at into "
    + "if then else while do repeat self code mask").split(" "));

  const NAME = "[A-Za-z_][A-Za-z0-9_]{0,63}";
  const COUNT = "(?:0|[1-9][0-9]*)";
  const NUMBER = "(?:0|-?[1-9][0-9]*)";
  const ID = `${NAME}\\.${COUNT}`;
  const VALUE = `(?:${NUMBER}|${ID})`;
  const LIMIT = `(?:-|${NUMBER})`;
  const list = (item) => `(?:${item}(?:,${item})*)?`;
  const FRAME = `${NAME}:${COUNT}\\[${list(NUMBER)}\\]\\(${list(VALUE)}\\)`;
  const WAIT = `(?:new|coop:${NUMBER}|await:${LIMIT}:${NAME}|select:${LIMIT}:${NAME}(?:,${NAME}){1,7}|next`
    + `|join:${LIMIT}:${ID}|halt)`;
  const REASON = `(?:done|stopped|full|(?:div|deep|over|flood) ${NAME}:${COUNT})`;
  const whole = (pattern) => new RegExp(`^${pattern}$`);

  const IS_NAME = whole(NAME);
  const IS_COUNT = whole(COUNT);
  const IS_PRINTED = /^[\x20-\x7e]*$/;
  const THREAD = whole(`(${ID}) (${NUMBER}) (${NUMBER}) (${WAIT})((?: ${FRAME}){1,32})`);
  const ENDED = whole(`(${ID}) (${REASON})`);
  const CREATED = whole(`(${ID}) (${NAME})\\(${list(VALUE)}\\)`);
  const EVENT = whole(`(${NAME})(?: (${NUMBER}))?`);
  const SHARED = whole(`(${NAME}) (${VALUE})`);
  const IS_ID = whole(ID);
  const WORDS = /[A-Za-z_][A-Za-z0-9_.]*/g;
  const LONG_NUMBER = /(?<![A-Za-z0-9_])-?[0-9]{19,}/g;

  /** Splits a text at its first blank. @param {string} text @returns {[string, string|null]} */
  function cut(text) {
    const at = text.indexOf(" ");
    return at < 0 ? [text, null] : [text.slice(0, at), text.slice(at + 1)];
  }

  /** Whether a text is a name of the language. @param {string|null} text */
  function isName(text) {
    return text !== null && IS_NAME.test(text) && !RESERVED.has(text);
  }

  /** Whether the maker of an id is `start` or a name. @param {string} id */
  function hasMaker(id) {
    const maker = id.slice(0, id.indexOf("."));
    return maker === "start" || isName(maker);
  }

  /** Whether each number of a text has 64 bits. @param {string} text */
  function fitsNumbers(text) {
    return (text.match(LONG_NUMBER) ?? []).every((word) => BigInt.asIntN(64, BigInt(word)) === BigInt(word));
  }

  /** The lines of a text, with the position of the next one. */
  class Lines {
    /** @param {string} text */
    constructor(text) {
      this.lines = text.split("\n");
      this.at = 0;
      if (this.lines.pop() !== "") {
        this.at = this.lines.length;
        this.refuse("the last line has no line feed");
      }
    }

    /** The next line, or nothing. */
    get next() {
      return this.lines[this.at];
    }

    /** Refuses the text at the next line. @param {string} why @returns {never} */
    refuse(why) {
      throw new NotAReport(this.at + 1, why);
    }

    /** Refuses where something doesn't hold of the next line. @param {boolean} holds @param {string} why */
    check(holds, why) {
      if (!holds) this.refuse(why);
    }

    /** The number after a word that the next line begins with. @param {string} word */
    count(word) {
      const [first, rest] = cut(this.next ?? "");
      this.check(first === word && rest !== null && IS_COUNT.test(rest), `a line "${word} N" is expected`);
      this.at += 1;
      return Number(rest);
    }

    /** What a pattern finds in a text of the next line, whose names and numbers it checks. */
    match(pattern, text, what) {
      const found = text === null ? null : pattern.exec(text);
      if (found === null) this.refuse(`${what} is expected`);
      this.check(fitsNumbers(text), "a number has more than 64 bits");
      return found;
    }

    /** @param {string|null} text @returns {string} */
    name(text) {
      this.check(isName(text), "a name is expected");
      return text;
    }

    /** @param {string|null} text @returns {string} */
    id(text) {
      this.check(text !== null && IS_ID.test(text) && hasMaker(text), "the id of a thread is expected");
      return text;
    }

    /** Checks that each word of a text is a name or an id. @param {string} text */
    words(text) {
      for (const word of text.match(WORDS) ?? []) {
        this.check(word.includes(".") ? hasMaker(word) : isName(word), `${word} is no name`);
      }
    }

    /** A thread as after `at`. @param {string|null} text @returns {Thread} */
    thread(text) {
      const [, id, code, mask, wait, frames] = this.match(THREAD, text, "a thread with its wait and its frames");
      this.id(id);
      this.words(wait.replace(/^[a-z]+/, ""));
      this.words(frames);
      return { id, code, mask, wait, frames: frames.slice(1).split(" "), text };
    }

    /** Why a thread ended, as `done`. @param {string|null} text @returns {{id: string, reason: string}} */
    ended(text) {
      const [, id, reason] = this.match(ENDED, text, "a thread and why it ended");
      this.words(cut(reason)[1] ?? "");
      return { id: this.id(id), reason };
    }
  }

  /** How the text after each kind of order is read. @type {Object<string, (lines: Lines, rest: string) => object>} */
  const ORDERS = {
    create: (lines, rest) => {
      const [, id, module] = lines.match(CREATED, rest, "a thread, its module and its arguments");
      lines.words(rest.slice(rest.indexOf("(")));
      return { id: lines.id(id), module: lines.name(module) };
    },
    arrive: (lines, rest) => {
      const thread = lines.thread(rest);
      return { id: thread.id, thread };
    },
    stop: (lines, rest) => ({ id: lines.id(rest) }),
    suspend: (lines, rest) => ({ id: lines.id(rest) }),
    resume: (lines, rest) => ({ id: lines.id(rest) }),
    broadcast: (lines, rest) => ({ event: lines.name(lines.match(EVENT, rest, "an event, perhaps with a value")[1]) }),
    ended: (lines, rest) => lines.ended(rest),
  };

  /** @param {Lines} lines @param {string|null} text @returns {Order} */
  function readOrder(lines, text) {
    const [kind, rest] = cut(text ?? "");
    lines.check(Object.hasOwn(ORDERS, kind), "an order is expected");
    return { kind, text, ...ORDERS[kind](lines, rest) };
  }

  /** The end that an order of a batch brings to its thread, which stands in the next line. */
  function readEndOf(lines, mark, order) {
    const reason = mark === "full" ? "full" : "stopped";
    lines.at += 1;
    lines.check(lines.next === `end ${order.id} ${reason}`, `"end ${order.id} ${reason}" is expected`);
    return reason;
  }

  /** A line of a batch, and the line of the end that it brings. */
  function readRow(lines, instant, mark, rest) {
    const order = readOrder(lines, rest);
    const onThread = ["stop", "suspend", "resume"].includes(order.kind);
    lines.check(mark !== "void" || onThread, "only stop, suspend and resume can be void");
    lines.check(mark !== "full" || order.kind === "create", "only a create can be full");
    const line = lines.at + 1;
    const ends = mark === "full" || (mark === "in" && order.kind === "stop");
    instant.batch.push({ mark, order, end: ends ? readEndOf(lines, mark, order) : null, line });
  }

  /** How each line of an instant is read, with its place in the order of lines. */
  const PARTS = {
    in: [0, readRow],
    void: [0, readRow],
    full: [0, readRow],
    print: [1, (lines, instant, kind, rest) => {
      const [id, text] = cut(rest);
      lines.check(text !== null && IS_PRINTED.test(text), "a thread, a blank and the printed text are expected");
      instant.acts.push({ kind, id: lines.id(id), text, line: lines.at + 1 });
    }],
    gen: [1, (lines, instant, kind, rest) => {
      const [id, text] = cut(rest);
      lines.name(lines.match(EVENT, text, "an event, perhaps with a value")[1]);
      instant.acts.push({ kind, id: lines.id(id), text, line: lines.at + 1 });
    }],
    out: [1, (lines, instant, kind, rest) => {
      const [id, sent] = cut(rest);
      const [to, text] = cut(sent ?? "");
      const order = readOrder(lines, text);
      lines.check(!["arrive", "ended"].includes(order.kind), "no statement sends this order");
      instant.acts.push({ kind, id: lines.id(id), text: sent, to: lines.name(to), order, line: lines.at + 1 });
    }],
    end: [1, (lines, instant, kind, rest) => {
      const { id, reason } = lines.ended(rest);
      lines.check(!["stopped", "full"].includes(reason), "an order ends a thread so, right after its line");
      instant.acts.push({ kind, id, text: reason, line: lines.at + 1 });
    }],
    leave: [2, (lines, instant, kind, rest) => {
      const [id, to] = cut(rest);
      lines.check(to === "unlinked" || isName(to), "a scheduler or `unlinked` is expected");
      instant.leaves.push({ id: lines.id(id), to, line: lines.at + 1 });
    }],
    at: [3, (lines, instant, kind, rest) => {
      instant.at.push({ ...lines.thread(rest), line: lines.at + 1 });
    }],
    shared: [4, (lines, instant, kind, rest) => {
      instant.shared.push(readShared(lines, rest));
    }],
  };

  /** A shared variable with its value. */
  function readShared(lines, text) {
    const [, name, value] = lines.match(SHARED, text, "a shared variable and its value");
    return { name: lines.name(name), value: value.includes(".") ? lines.id(value) : value };
  }

  /** @param {Lines} lines @param {number} number @returns {Instant} */
  function readInstant(lines, number) {
    lines.check(lines.next === `instant ${number}`, `"instant ${number}" is expected`);
    const instant = { number, line: lines.at + 1, after: 0, batch: [], acts: [], leaves: [], at: [], shared: [] };
    lines.at += 1;
    let part = 0;
    for (;;) {
      const [word, rest] = cut(lines.next ?? "");
      if (rest === null || !Object.hasOwn(PARTS, word)) break;
      const [place, read] = PARTS[word];
      lines.check(place >= part, `a line "${word}" comes too late`);
      part = place;
      read(lines, instant, word, rest);
      lines.at += 1;
    }
    instant.after = lines.at + 1;
    return instant;
  }

  /** The final state of a scheduler. @param {Lines} lines @param {Scheduler} scheduler */
  function readState(lines, scheduler) {
    for (let count = lines.count("state"); count > 0; count -= 1) {
      const [word, rest] = cut(lines.next ?? "");
      lines.check(word === "linked" || word === "suspended", "a linked or suspended thread is expected");
      const thread = lines.thread(rest);
      scheduler.state.push({ suspended: word === "suspended", thread, line: lines.at + 1 });
      lines.at += 1;
    }
    while (lines.next?.startsWith("shared ")) {
      scheduler.shared.push(readShared(lines, lines.next.slice(7)));
      lines.at += 1;
    }
  }

  /** @param {Lines} lines @param {number} takes how many takes the history has of it @returns {Scheduler} */
  function readScheduler(lines, name, takes) {
    const scheduler = { name, line: lines.at + 1, instants: [], state: [], shared: [] };
    lines.at += 1;
    while (lines.next?.startsWith("instant ")) {
      lines.check(scheduler.instants.length < takes, "the history has no take of this instant");
      scheduler.instants.push(readInstant(lines, scheduler.instants.length + 1));
    }
    lines.check(scheduler.instants.length === takes, "the history has a take of one more instant");
    readState(lines, scheduler);
    return scheduler;
  }

  /** @param {Lines} lines @param {number} workers @returns {Choice[]} */
  function readChoices(lines, workers) {
    const choices = [];
    for (let count = lines.count("history"); count > 0; count -= 1) {
      const [kind, of] = cut(lines.next ?? "");
      if (kind === "pick" || kind === "post") {
        lines.check(of !== null && IS_COUNT.test(of) && Number(of) < workers, `a worker below ${workers} is expected`);
      } else {
        lines.check(["take", "give", "client"].includes(kind) && isName(of), "a choice is expected");
      }
      choices.push({ kind, of, line: lines.at + 1 });
      lines.at += 1;
    }
    return choices;
  }

  /** How many takes each scheduler has, each but the last one with its give. @param {Choice[]} choices */
  function takesOf(choices) {
    const takes = new Map();
    const open = new Set();
    for (const { kind, of, line } of choices) {
      if (kind === "take") {
        if (open.has(of)) throw new NotAReport(line, `${of} is in an instant`);
        open.add(of);
        takes.set(of, (takes.get(of) ?? 0) + 1);
      } else if (kind === "give" && !open.delete(of)) {
        throw new NotAReport(line, `${of} is in no instant`);
      }
    }
    return takes;
  }

  /** The orders that are left over, for one scheduler after the other. */
  function readLeft(lines, names) {
    const left = [];
    let last = 0;
    for (let count = lines.count("left"); count > 0; count -= 1) {
      const [scheduler, rest] = cut(lines.next ?? "");
      const rank = names.indexOf(scheduler);
      lines.check(rank >= last, "an order that is left for a scheduler is expected, in the order of schedulers");
      last = rank;
      left.push({ scheduler, order: readOrder(lines, rest), line: lines.at + 1 });
      lines.at += 1;
    }
    return left;
  }

  /** @param {Lines} lines @param {Choice[]} choices @returns {Scheduler[]} */
  function readSchedulers(lines, choices) {
    const takes = takesOf(choices);
    const schedulers = [];
    while (lines.next?.startsWith("scheduler ")) {
      const name = lines.name(lines.next.slice(10));
      lines.check(schedulers.every((it) => it.name !== name), `${name} stands here twice`);
      schedulers.push(readScheduler(lines, name, takes.get(name) ?? 0));
    }
    lines.check(cut(lines.next ?? "")[0] === "left", '"scheduler NAME" or "left N" is expected');
    const unknown = choices.find(({ kind, of }) => kind === "take" && schedulers.every((it) => it.name !== of));
    if (unknown) throw new NotAReport(unknown.line, `there is no scheduler ${unknown.of}`);
    return schedulers;
  }

  /**
   * Reads a report.
   * @param {string} text
   * @returns {Report}
   * @throws {NotAReport} where it isn't one
   */
  function readReport(text) {
    const lines = new Lines(text);
    lines.check(lines.next === "loft-report 1", '"loft-report 1" is expected');
    lines.at += 1;
    const options = {};
    for (const [word, most] of OPTIONS) {
      const value = lines.count(word);
      if (value < 1 || value > most) throw new NotAReport(lines.at, `${word} goes from 1 to ${most}`);
      options[word] = value;
    }
    const choices = readChoices(lines, options.workers);
    const schedulers = readSchedulers(lines, choices);
    const left = readLeft(lines, schedulers.map((it) => it.name));
    lines.check(lines.next === "end", '"end" is expected');
    lines.at += 1;
    lines.check(lines.next === undefined, "nothing may follow the end");
    return { options, choices, schedulers, left, lines: lines.lines };
  }

  Object.assign(Loft, { NotAReport, readReport });
}
