"use strict";
globalThis.Loft ??= {};

// Where everything of a run stands in its picture. Along the history positions are counted in units (a
// take is one wide), so that zooming changes nothing here; downwards they are counted in pixels.
{
  const WIDTHS = { take: 1, give: 0.4, pick: 0.6, post: 0.6, client: 0.6 };
  const GIVE_AFTER_TAKE = 0.15;
  const SPACE = 0.15;
  const HEADER = 22;
  const TRACK = 26;
  const GAP = 10;
  const BUCKET = 64;

  /**
   * @typedef {{lane: object, top: number, height: number, tracks: object[][]}} Band A lane with its rows.
   * @typedef {{kind: string, from: number, to: number|null, source: {stay: object|null, lane: object|null},
   *   target: {stay: object|null, lane: object|null}, arrow: object|null}} Link
   */

  /** Where each choice begins, how wide it is, and the width of all. @param {object[]} choices */
  function positionsOf(choices) {
    const starts = new Float64Array(choices.length);
    const widths = new Float64Array(choices.length);
    let at = SPACE;
    choices.forEach(({ kind, of }, time) => {
      const last = choices[time - 1];
      const closes = kind === "give" && last?.kind === "take" && last.of === of;
      if (kind !== "post" && !closes) at += SPACE;
      starts[time] = at;
      widths[time] = closes ? GIVE_AFTER_TAKE : WIDTHS[kind];
      at += widths[time];
    });
    return { starts, widths, width: at + 3 * SPACE };
  }

  /** The index of the last item that isn't past a value, or -1. @param {(index: number) => number} valueAt */
  function lastUpTo(length, valueAt, value) {
    let low = 0;
    let high = length;
    while (low < high) {
      const middle = (low + high) >> 1;
      if (valueAt(middle) <= value) low = middle + 1;
      else high = middle;
    }
    return low - 1;
  }

  /** Puts each stay into the first row that is free. @param {object[]} stays @param {Map<object, number>} rows */
  function tracksOf(stays, rows) {
    const tracks = [];
    for (const stay of stays) {
      let row = tracks.findIndex((track) => track.at(-1).to !== null && track.at(-1).to < stay.from);
      if (row < 0) row = tracks.push([]) - 1;
      tracks[row].push(stay);
      rows.set(stay, row);
    }
    return tracks;
  }

  /** All that leads from one place to another: orders, and threads that go to a worker. @returns {Link[]} */
  function linksOf(run, shows) {
    const links = [];
    for (const arrow of run.orders.arrows) {
      const { order, from, to, source, target } = arrow;
      if (from === null || from < 0) continue;
      const about = order.id === undefined ? undefined : run.threads.get(order.id);
      if (!shows(source.stay?.thread) && !shows(target.stay?.thread) && !shows(about)) continue;
      links.push({ kind: order.kind, from, to, source, target, arrow });
    }
    for (const thread of run.threads.values()) {
      if (shows(thread)) links.push(...jobLinks(run, thread));
    }
    return links;
  }

  /** The ways of a thread to the workers. */
  function jobLinks(run, { stays }) {
    const links = [];
    stays.forEach((stay, index) => {
      if (stay.close?.kind !== "leave" || stay.close.to !== "unlinked") return;
      const next = stays[index + 1] ?? null;
      const happening = happeningAt(stay.lane, stay.to);
      const from = happening.give ?? happening.take;
      const source = { stay, lane: null };
      links.push({ kind: "unlink", from, to: next?.from ?? null, source, target: { stay: next, lane: null }, arrow: null });
    });
    return links;
  }

  /** The instant of a lane that has a choice in it. @returns {object|undefined} */
  function happeningAt({ instants }, time) {
    const found = instants[lastUpTo(instants.length, (index) => instants[index].take, time)];
    return found !== undefined && time <= (found.give ?? found.take) ? found : undefined;
  }

  /** Links by the stretches of the history through which they go. */
  function bucketsOf(links, length) {
    const buckets = Array.from({ length: Math.floor(length / BUCKET) + 1 }, () => []);
    for (const link of links) {
      const last = Math.floor((link.to ?? link.from) / BUCKET);
      for (let index = Math.floor(link.from / BUCKET); index <= last; index += 1) buckets[index].push(link);
    }
    return buckets;
  }

  /** The places of a run's lanes, threads and links. */
  class Layout {
    /** @param {object} run @param {(thread: object) => boolean} accepts which threads have a row */
    constructor(run, accepts) {
      this.run = run;
      Object.assign(this, positionsOf(run.report.choices));
      this.rows = new Map();
      this.shown = new Set([...run.threads.values()].filter(accepts));
      const shows = (thread) => thread !== undefined && this.shown.has(thread);
      const all = this.shown.size === run.threads.size;
      /** @type {Band[]} */
      this.bands = [];
      let top = 4;
      for (const lane of run.lanes) {
        const tracks = tracksOf(lane.stays.filter(({ thread }) => shows(thread)), this.rows);
        const height = HEADER + Math.max(tracks.length, lane.kind === "client" ? 0 : 1) * TRACK;
        this.bands.push({ lane, top, height, tracks });
        top += height + GAP;
      }
      this.height = top;
      this.bandOf = new Map(this.bands.map((band) => [band.lane, band]));
      this.links = linksOf(run, all ? () => true : shows);
      this.buckets = bucketsOf(this.links, run.length);
    }

    /** Where a choice begins. @param {number} time */
    start(time) {
      return this.starts[time];
    }

    /** Where a choice ends. @param {number} time */
    end(time) {
      return this.starts[time] + this.widths[time];
    }

    /** Where an instant ends. */
    endOf({ give, take }) {
      return this.end(give ?? take);
    }

    /** The choice at a position. @param {number} position in units */
    timeAt(position) {
      const length = this.run.length;
      return Math.max(0, lastUpTo(length, (index) => this.starts[index], position));
    }

    /** The height of a stay's line. @param {object} stay */
    yOf(stay) {
      return this.bandOf.get(stay.lane).top + HEADER + this.rows.get(stay) * TRACK + TRACK / 2;
    }

    /** The height at which a link begins or ends, or nothing where its thread isn't shown. */
    yOfEnd({ stay, lane }) {
      if (stay !== null && this.rows.has(stay)) return this.yOf(stay);
      const place = lane ?? stay?.lane ?? null;
      return place === null ? null : this.bandOf.get(place).top + HEADER / 2;
    }

    /** The band at a height, or nothing. @returns {Band|undefined} */
    bandAt(y) {
      const band = this.bands[lastUpTo(this.bands.length, (index) => this.bands[index].top, y)];
      return band !== undefined && y < band.top + band.height ? band : undefined;
    }

    /** The row of a band at a height; -1 is its header. */
    rowAt(band, y) {
      return Math.floor((y - band.top - HEADER) / TRACK);
    }

    /** The stay in a row of a band with a choice in it. @returns {object|undefined} */
    stayAt(band, row, time) {
      const track = band.tracks[row] ?? [];
      const stay = track[lastUpTo(track.length, (index) => track[index].from, time)];
      return stay !== undefined && time <= this.lastOf(stay) ? stay : undefined;
    }

    /** The last choice of a stay: the give of the instant in which it ends, or the end of the run. */
    lastOf({ to, lane }) {
      if (to === null) return this.run.length - 1;
      return happeningAt(lane, to)?.give ?? to;
    }

    /** The links in a stretch of the history, once each. @returns {Set<Link>} */
    linksIn(from, to) {
      const found = new Set();
      for (let index = Math.floor(from / BUCKET); index <= Math.floor(to / BUCKET); index += 1) {
        for (const link of this.buckets[index] ?? []) found.add(link);
      }
      return found;
    }
  }

  /**
   * Which threads a filter names: an id names its thread, any other word all whose id or module has it.
   * @param {string} text words between blanks or commas
   * @returns {(thread: {id: string, module: string}) => boolean}
   */
  function filterOf(text) {
    const words = text.split(/[\s,]+/).filter((word) => word !== "");
    if (words.length === 0) return () => true;
    const names = (word, { id, module }) => (/\.\d+$/.test(word) ? id === word : id.includes(word) || module.includes(word));
    return (thread) => words.some((word) => names(word, thread));
  }

  Object.assign(Loft, { Layout, filterOf, happeningAt, lastUpTo, HEADER, TRACK });
}
