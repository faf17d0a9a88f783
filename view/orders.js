"use strict";
globalThis.Loft ??= {};

// Where each order of a run was given, and which instant took it. The orders of threads stand in the
// report, and wait for their scheduler in the order in which they were given. Of an order that a worker
// posts or a client gives the report has the choice alone: it is one that a batch has besides.
{
  /**
   * @typedef {{stay: object|null, lane: object|null}} End Where an arrow begins or ends: at a thread, or at a lane.
   * @typedef {{order: object, mark: string|null, line: number, from: number|null, to: number|null, source: End,
   *   target: End, sure: boolean}} Arrow `from` is the choice with which the order was given (-1: by the source, null:
   *   the report doesn't tell), `to` the take (null: it is left over). It isn't `sure` where the report allows
   *   another choice as well.
   * @typedef {{arrow: Arrow, low: number, high: number, open: boolean}} Gap An order that a worker posted or a client
   *   gave, at a time between these two. It is `open` where it may have taken the place of another one.
   */

  /** How an order is told apart from others that wait. */
  const keyOf = (order) => (order.kind === "arrive" ? `arrive ${order.id}` : order.text);

  /** Whether an order is one of those of the source. */
  const isOfSource = (order) => order.kind === "create" && order.id.startsWith("start.");

  /** Whether this giver may have given an order. */
  function mayGive({ lane }, order) {
    if (order.kind === "create") return lane !== null && order.id.startsWith(`${lane.name}.`);
    return order.kind !== "arrive" && order.kind !== "ended";
  }

  /** The orders of a run. */
  class Orders {
    /** @param {object} run */
    constructor(run) {
      this.run = run;
      /** @type {Arrow[]} */
      this.arrows = [];
      this.waiting = new Map(run.report.schedulers.map(({ name }) => [name, []]));
      this.lastTake = new Map();
      /** @type {Map<string, Gap[]>} */
      this.gaps = new Map(run.report.schedulers.map(({ name }) => [name, []]));
      this.givers = [];
    }

    /** Lets an order wait, which was given with a choice. */
    send(scheduler, key, time, stay) {
      this.waiting.get(scheduler)?.push({ key, time, stay });
    }

    /** Lets the end of a thread wait at each scheduler but its own. */
    tell(stay, time, reason, own) {
      const key = `ended ${stay.thread.id} ${reason}`;
      for (const scheduler of this.waiting.keys()) if (scheduler !== own) this.send(scheduler, key, time, stay);
    }

    /** What an instant sent waits, as it is given. @param {object} happening */
    given({ lane, note, give, stays }) {
      for (const { order, end } of note.batch) if (end !== null) this.tell(stays.get(order.id), give, end, lane.name);
      for (const { kind, id, text, to, order } of note.acts) {
        if (kind === "out") this.send(to, keyOf(order), give, stays.get(id));
        if (kind === "end") this.tell(stays.get(id), give, text, lane.name);
      }
      for (const { id, to } of note.leaves) if (to !== "unlinked") this.send(to, `arrive ${id}`, give, stays.get(id));
    }

    /** The last order of an unlinked block waits. @param {object} stay in a worker's hand */
    posted(stay, time) {
      if (stay.close.kind === "leave") this.send(stay.close.to, `arrive ${stay.thread.id}`, time, stay);
      else this.tell(stay, time, stay.close.reason, null);
    }

    /** A worker or a client gave an order, which the report doesn't say. */
    loose(time, stay, lane) {
      this.givers.push({ time, stay, lane });
    }

    /** A scheduler took its batch. @param {object} happening @param {(object|null)[]} stays the thread of each order */
    taken({ lane, note, take }, stays) {
      this.match(lane, note.batch, take, stays, note.line);
    }

    /** Finds where the orders of a batch were given. @param {number|null} take where they aren't left over */
    match(lane, rows, take, stays, line) {
      const waiting = this.waiting.get(lane.name);
      const end = take ?? this.run.length;
      let next = 0;
      rows.forEach((row, index) => {
        const target = { stay: stays[index] ?? null, lane };
        const arrow = { order: row.order, mark: row.mark ?? null, line: row.line, from: -1, to: take, target, sure: true,
          source: { stay: null, lane: null } };
        this.arrows.push(arrow);
        if (isOfSource(row.order)) return;
        if (waiting[next]?.key === keyOf(row.order)) {
          arrow.from = waiting[next].time;
          arrow.source = { stay: waiting[next].stay, lane: null };
          next += 1;
          return;
        }
        arrow.from = null;
        const low = waiting[next - 1]?.time ?? this.lastTake.get(lane.name) ?? -1;
        this.gaps.get(lane.name).push({ arrow, low, high: waiting[next]?.time ?? end, open: false });
      });
      if (next < waiting.length) this.run.refuse(line, `"${waiting[next].key}" waits for ${lane.name} and isn't here`);
      this.waiting.set(lane.name, []);
      this.lastTake.set(lane.name, end);
    }

    /** Adds the orders that are left over, and what workers and clients gave. */
    finish() {
      const { report, lane } = this.run;
      for (const { name } of report.schedulers) {
        const rows = report.left.filter((it) => it.scheduler === name);
        this.match(lane.get(`scheduler ${name}`), rows, null, [], rows.at(-1)?.line ?? report.lines.length - 1);
      }
      for (const giver of this.givers) this.fill(giver);
    }

    /** The first order of each scheduler that workers or clients gave, and nobody is known of yet, at a time. */
    gapsAt(time) {
      const found = [];
      for (const gaps of this.gaps.values()) {
        while (gaps.length > 0 && gaps[0].high <= time) gaps.shift();
        if (gaps.length > 0 && gaps[0].low < time) found.push(gaps);
      }
      return found;
    }

    /** Finds the order that a worker or a client gave: of those that it may have given the one taken first. */
    fill(giver) {
      const able = this.gapsAt(giver.time).filter(([gap]) => mayGive(giver, gap.arrow.order));
      if (able.length === 0) return;
      const gaps = able.reduce((best, it) => (it[0].high < best[0].high ? it : best));
      const { arrow, open } = gaps.shift();
      arrow.from = giver.time;
      arrow.source = { stay: giver.stay, lane: giver.lane };
      arrow.sure = able.length === 1 && !open;
      if (able.length > 1) for (const others of able) if (others !== gaps) others[0].open = true;
    }
  }

  Object.assign(Loft, { Orders });
}
