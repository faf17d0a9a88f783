"use strict";
globalThis.Loft ??= {};

// What a report tells of its run, in the order of the history: lanes, instants, and where each thread
// was when. Times are indexes of choices.
{
  /**
   * @typedef {{kind: "client"|"scheduler"|"worker", name: string, instants: Happening[], stays: Stay[]}} Lane
   * @typedef {{lane: Lane, note: object, take: number, give: number|null, marks: Map<string, Mark>,
   *   stays: Map<string, Stay>}} Happening
   *   An instant with its place in the history.
   * @typedef {{time: number, note: object|null, ran: boolean, wait: string|null, suspended: boolean,
   *   said: string|null, events: number}} Mark What became of a thread in an instant: whether it ran, what it waits for
   *   after it, the first text that it printed, and how many events it generated. Of a worker: a post.
   * @typedef {{thread: Line, lane: Lane, from: number, to: number|null, how: "create"|"arrive"|"pick", marks: Mark[],
   *   close: {kind: "leave", to: string}|{kind: "end", reason: string}|null}} Stay A thread at a scheduler, or in a
   *   worker's hand, from the choice with which it comes to the choice with which it goes.
   * @typedef {{id: string, number: number, module: string, stays: Stay[], reason: string|null}} Line What became of
   *   a thread.
   */

  /** Where each thread arrives, and which threads end where, in all of a report. */
  class Census {
    /** @param {object} report */
    constructor({ choices, schedulers, left }) {
      /** @type {Map<string, string[]>} */
      this.arrivals = new Map();
      this.told = new Map();
      this.ended = new Set();
      const nextOf = new Map(schedulers.map(({ name, instants }) => [name, instants.values()]));
      choices.forEach(({ kind, of }) => {
        if (kind !== "take") return;
        const { batch, acts } = nextOf.get(of).next().value;
        for (const { order, end } of batch) this.note(of, order, end);
        for (const act of acts) if (act.kind === "end") this.ended.add(act.id);
      });
      for (const { scheduler, order } of left) this.note(scheduler, order, null);
    }

    /** @param {string} to @param {object} order @param {string|null} end the end that it brought */
    note(to, order, end) {
      if (order.kind === "arrive") {
        if (!this.arrivals.has(order.id)) this.arrivals.set(order.id, []);
        this.arrivals.get(order.id).push(to);
      }
      if (order.kind === "ended") this.told.set(order.id, order.reason);
      if (end !== null) this.ended.add(order.id);
    }

    /** The scheduler at which a thread arrives next, after so many arrivals. @returns {string|null} */
    arrival(id, count) {
      return this.arrivals.get(id)?.[count] ?? null;
    }

    /** Why a thread ended unlinked, or nothing. @param {string} id @returns {string|null} */
    endedUnlinked(id) {
      return this.ended.has(id) ? null : this.told.get(id) ?? null;
    }
  }

  /** A run, as it is built choice by choice. */
  class Run {
    /** @param {object} report what `readReport` gives */
    constructor(report) {
      this.report = report;
      this.length = report.choices.length;
      this.census = new Census(report);
      /** @type {Map<string, Line>} */
      this.threads = new Map();
      /** @type {Lane[]} */
      this.lanes = lanesOf(report);
      this.lane = new Map(this.lanes.map((it) => [`${it.kind} ${it.name}`, it]));
      this.linked = new Map(report.schedulers.map(({ name }) => [name, new Map()]));
      this.notes = new Map(report.schedulers.map(({ name, instants }) => [name, instants]));
      this.jobs = [];
      this.hands = new Map();
      this.orders = new Loft.Orders(this);
      report.choices.forEach((choice, time) => this[choice.kind](choice, time));
      this.checkStates();
      this.orders.finish();
    }

    /** @param {number} line @param {string} why @returns {never} */
    refuse(line, why) {
      throw new Loft.NotAReport(line, why);
    }

    /** The line of a thread. @param {string} id @returns {Line} */
    line(id, module = "") {
      let line = this.threads.get(id);
      if (line === undefined) {
        line = { id, number: this.threads.size, module, stays: [], reason: null };
        this.threads.set(id, line);
      }
      return line;
    }

    /** Begins a stay. @returns {Stay} */
    begin(id, lane, time, how, module) {
      const thread = this.line(id, module);
      const stay = { thread, lane, from: time, to: null, how, marks: [], close: null };
      thread.stays.push(stay);
      lane.stays.push(stay);
      return stay;
    }

    /** Ends a stay. @param {Stay} stay @param {number} time @param {object} close */
    close(stay, time, close) {
      stay.to = time;
      stay.close = close;
      if (close.kind === "end") stay.thread.reason = close.reason;
    }

    take({ of }, time) {
      const lane = this.lane.get(`scheduler ${of}`);
      const note = this.notes.get(of)[lane.instants.length];
      const happening = { lane, note, take: time, give: null, marks: new Map(), stays: new Map() };
      lane.instants.push(happening);
      const linked = this.linked.get(of);
      const stays = note.batch.map((row) => this.apply(row, happening, linked));
      this.orders.taken(happening, stays);
      this.act(happening, linked);
    }

    /** What an order of a batch does. @returns {Stay|null} the stay of its thread, if it is here */
    apply({ mark, order, end, line }, happening, linked) {
      const { lane, take } = happening;
      if (order.kind === "create" || order.kind === "arrive") {
        if (linked.has(order.id)) this.refuse(line, `${order.id} is linked here`);
        const stay = this.begin(order.id, lane, take, order.kind, order.module ?? moduleOf(order.thread));
        happening.stays.set(order.id, stay);
        if (mark === "full") this.close(stay, take, { kind: "end", reason: end });
        else linked.set(order.id, stay);
        return stay;
      }
      if (!["stop", "suspend", "resume"].includes(order.kind)) return null;
      const stay = linked.get(order.id) ?? null;
      if ((stay === null) !== (mark === "void")) this.refuse(line, `${order.id} is ${stay ? "" : "not "}linked here`);
      if (stay === null) return null;
      if (order.kind === "stop") {
        happening.stays.set(order.id, stay);
        linked.delete(order.id);
        this.close(stay, take, { kind: "end", reason: end });
      } else {
        this.mark(stay, happening).suspended = order.kind === "suspend";
      }
      return stay;
    }

    /** What became of a thread in an instant. @param {Stay} stay @param {Happening} happening @returns {Mark} */
    mark(stay, happening) {
      let mark = happening.marks.get(stay.thread.id);
      if (mark === undefined) {
        const last = stay.marks.at(-1);
        mark = { time: happening.take, note: happening.note, ran: false, wait: last?.wait ?? null,
          suspended: last?.suspended ?? false, said: null, events: 0 };
        happening.marks.set(stay.thread.id, mark);
        happening.stays.set(stay.thread.id, stay);
        stay.marks.push(mark);
      }
      return mark;
    }

    /** The stay of a thread that a line names, at a scheduler. @returns {Stay} */
    here(linked, id, line) {
      return linked.get(id) ?? this.refuse(line, `${id} isn't linked here`);
    }

    /** What the threads of an instant did. @param {Happening} happening */
    act(happening, linked) {
      const { note, take } = happening;
      for (const { kind, id, text, line } of note.acts) {
        const stay = this.here(linked, id, line);
        const mark = this.mark(stay, happening);
        mark.ran = true;
        if (kind === "print") mark.said ??= text;
        if (kind === "gen") mark.events += 1;
        if (kind !== "end") continue;
        linked.delete(id);
        this.close(stay, take, { kind: "end", reason: text });
      }
      for (const { id, to, line } of note.leaves) {
        const stay = this.here(linked, id, line);
        this.mark(stay, happening).ran = true;
        linked.delete(id);
        this.close(stay, take, { kind: "leave", to });
      }
      for (const { id, wait, line } of note.at) {
        const mark = this.mark(this.here(linked, id, line), happening);
        mark.ran = true;
        mark.wait = wait;
      }
    }

    give({ of }, time) {
      const happening = this.lane.get(`scheduler ${of}`).instants.at(-1);
      happening.give = time;
      this.orders.given(happening);
      for (const { id, to, line } of happening.note.leaves) if (to === "unlinked") this.jobs.push({ id, line });
    }

    pick({ of, line }, time) {
      const job = this.jobs.shift();
      if (job === undefined) this.refuse(line, "no thread waits for a worker");
      const stay = this.begin(job.id, this.lane.get(`worker ${of}`), time, "pick");
      this.hands.set(of, { stay, posts: postsAfter(this.report.choices, time) });
    }

    post({ of, line }, time) {
      const hand = this.hands.get(of);
      if (hand === undefined) this.refuse(line, `worker ${of} has no thread in hand`);
      const { stay, posts } = hand;
      stay.marks.push({ time, note: null, ran: true, wait: null, suspended: false, said: null, events: 0 });
      const close = posts.last === time ? this.closeOf(stay) : null;
      if (close === null) {
        if (posts.more && posts.last === time) this.refuse(line, `${stay.thread.id} neither arrives nor ends after this`);
        this.orders.loose(time, stay, null);
        return;
      }
      this.close(stay, time, close);
      this.hands.delete(of);
      this.orders.posted(stay, time);
    }

    /** How the last post of a job ends it, if the report tells of that. @param {Stay} stay */
    closeOf({ thread: { id, stays } }) {
      const to = this.census.arrival(id, stays.filter((it) => it.how === "arrive").length);
      if (to !== null) return { kind: "leave", to };
      const reason = this.census.endedUnlinked(id);
      return reason === null ? null : { kind: "end", reason };
    }

    client({ of }, time) {
      this.orders.loose(time, null, this.lane.get(`client ${of}`));
    }

    /** Compares the final states with the threads that are linked in the end. */
    checkStates() {
      for (const { name, state, line } of this.report.schedulers) {
        const linked = this.linked.get(name);
        const order = [...linked.keys()];
        if (state.length !== order.length) this.refuse(line, `${order.length} threads are linked to ${name} in the end`);
        state.forEach(({ thread, line: at }, index) => {
          if (thread.id !== order[index]) this.refuse(at, `${order[index]} comes here in the order of threads`);
        });
      }
    }
  }

  /** The module of a thread's innermost frame. */
  function moduleOf(thread) {
    return thread.frames[0].split(":")[0];
  }

  /** The last post of a worker after a pick, and whether it picks again. */
  function postsAfter(choices, pick) {
    let last = null;
    for (let time = pick + 1; time < choices.length; time += 1) {
      const { kind, of } = choices[time];
      if (of !== choices[pick].of) continue;
      if (kind === "pick") return { last, more: true };
      if (kind === "post") last = time;
    }
    return { last, more: false };
  }

  /** The lanes of a report: clients that gave orders, schedulers, workers that picked. @returns {Lane[]} */
  function lanesOf({ choices, schedulers }) {
    const named = (kind) => [...new Set(choices.filter((it) => it.kind === kind).map((it) => it.of))];
    const lane = (kind) => (name) => ({ kind, name, instants: [], stays: [] });
    return [
      ...named("client").map(lane("client")),
      ...schedulers.map((it) => it.name).map(lane("scheduler")),
      ...named("pick").sort((a, b) => a - b).map(lane("worker")),
    ];
  }

  /**
   * What a report tells of its run.
   * @param {object} report what `readReport` gives
   * @returns {Run}
   * @throws {NotAReport} where no run has this report
   */
  function runOf(report) {
    return new Run(report);
  }

  Object.assign(Loft, { runOf });
}
