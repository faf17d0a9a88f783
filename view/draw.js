"use strict";
globalThis.Loft ??= {};

// Draws the part of a picture that a view shows, with one of the painters.
{
  const { HEADER, TRACK } = Loft;
  const BAR = 16;
  const MOST_LINKS = 1500;
  /** Lines of threads that wait, by the kind of their wait. */
  const DASHES = { coop: [7, 4], await: [2, 3], select: [2, 3], join: [8, 3, 2, 3], halt: [1, 7] };
  /** Lines of orders. */
  const ORDERS = {
    create: { stroke: "order", width: 1.5 },
    stop: { stroke: "end", width: 1.5 },
    suspend: { stroke: "end", width: 1.5, dash: [4, 3] },
    resume: { stroke: "order", width: 1.5, dash: [4, 3] },
    broadcast: { stroke: "order", width: 1.5, dash: [2, 3] },
    ended: { stroke: "order", width: 1, dash: [1, 4] },
  };

  /**
   * @typedef {{left: number, top: number, width: number, height: number, unit: number, gutter: number,
   *   selected: {lane: object, row: number, time: number}|null, hovered: object|null}} View `left` and `top` are
   *   what is scrolled past, in pixels; `unit` is the width of a take, `gutter` that of the names on the left.
   */

  class Drawing {
    /** @param {object} painter @param {object} layout @param {View} view */
    constructor(painter, layout, view) {
      Object.assign(this, { painter, layout, view });
      this.first = layout.timeAt(view.left / view.unit);
      this.last = layout.timeAt((view.left + view.width - view.gutter) / view.unit);
      this.bands = layout.bands.filter(({ top, height }) => top + height > view.top && top < view.top + view.height);
    }

    /** @param {number} units @returns {number} */
    x(units) {
      return this.view.gutter + units * this.view.unit - this.view.left;
    }

    /** @param {number} height @returns {number} */
    y(height) {
      return height - this.view.top;
    }

    all() {
      const { width, height, gutter } = this.view;
      this.painter.rect(0, 0, width, height, { fill: "page" });
      for (const band of this.bands) this.band(band);
      this.painter.clip(gutter, 0, width - gutter, height, () => {
        for (const band of this.bands) this.instants(band);
        const left = this.links();
        for (const band of this.bands) this.stays(band);
        this.selection();
        if (left > 0) this.note(`${left} further orders aren't drawn: a filter shows those of one thread`);
        if (this.view.hovered !== null) this.link(this.view.hovered, true);
      });
      for (const band of this.bands) this.names(band);
      this.painter.line([[gutter, 0], [gutter, height]], { stroke: "edge" });
    }

    /** The ground of a lane. */
    band({ top, height }) {
      this.painter.rect(0, this.y(top), this.view.width, height, { fill: "lane" });
      this.painter.rect(0, this.y(top), this.view.width, HEADER, { fill: "header" });
    }

    /** The instants of a lane that can be seen, or the orders of a client. */
    instants(band) {
      const { lane, top, height } = band;
      if (lane.kind === "client") this.given(band);
      const { instants } = lane;
      const before = Loft.lastUpTo(instants.length, (at) => instants[at].take, this.first);
      for (let at = Math.max(0, before); at < instants.length && instants[at].take <= this.last; at += 1) {
        const left = this.x(this.layout.start(instants[at].take));
        const right = this.x(this.layout.endOf(instants[at]));
        this.painter.rect(left, this.y(top), right - left, height, { fill: "instant" });
        const number = String(instants[at].note.number);
        if (Loft.widthOf(number) < right - left) {
          this.painter.text((left + right) / 2, this.y(top) + HEADER / 2, number, { fill: "ink", anchor: "middle", bold: true });
        }
      }
    }

    /** The orders that a client gave. */
    given({ lane, top }) {
      const { choices } = this.layout.run.report;
      for (let time = this.first; time <= this.last && time < choices.length; time += 1) {
        if (choices[time].kind !== "client" || choices[time].of !== lane.name) continue;
        const middle = this.x((this.layout.start(time) + this.layout.end(time)) / 2);
        this.painter.dot(middle, this.y(top) + HEADER / 2, 4, { fill: "order" });
      }
    }

    /** A note at the foot of the picture. @param {string} text */
    note(text) {
      const { gutter, height } = this.view;
      this.painter.rect(gutter + 6, height - 24, Loft.widthOf(text) + 12, 18, { fill: "page", stroke: "edge" });
      this.painter.text(gutter + 12, height - 15, text, { fill: "ink" });
    }

    /** The links that can be seen. @returns {number} how many aren't drawn, since there are too many */
    links() {
      const { height } = this.view;
      let drawn = 0;
      for (const link of this.layout.linksIn(this.first, this.last)) {
        const ends = this.endsOf(link);
        if (ends === null || Math.max(ends.y1, ends.y2) < 0 || Math.min(ends.y1, ends.y2) > height) continue;
        if (link.from > this.last || (link.to ?? link.from) < this.first) continue;
        drawn += 1;
        if (drawn <= MOST_LINKS) this.link(link, false, ends);
      }
      return Math.max(0, drawn - MOST_LINKS);
    }

    /** Where a link begins and ends, in pixels; nothing where it can't be drawn. */
    endsOf({ from, to, source, target }) {
      const { layout } = this;
      const y1 = layout.yOfEnd(source);
      if (y1 === null) return null;
      const x1 = this.x((layout.start(from) + layout.end(from)) / 2);
      const y2 = to === null ? y1 : layout.yOfEnd(target) ?? y1;
      const x2 = to === null ? x1 + 16 : this.x(layout.start(to));
      return { x1, y1: this.y(y1), x2, y2: this.y(y2) };
    }

    /** One link. @param {boolean} strong whether it is pointed at */
    link(link, strong, ends = this.endsOf(link)) {
      if (ends === null) return;
      const { x1, y1, x2, y2 } = ends;
      const style = this.styleOf(link);
      const shown = strong ? { ...style, width: 3 } : style;
      this.painter.titled(() => Loft.linkSentence(link), () => {
        if (link.to === null) {
          this.painter.line([[x1, y1], [x2, y2]], shown);
          this.painter.line([[x2 + 2, y2 - 5], [x2 + 2, y2 + 5]], { stroke: style.stroke, width: 2 });
        } else {
          this.painter.curve(x1, y1, x2, y2, shown);
        }
        this.painter.line([[x2, y2], [x2 - 6, y2 - 3.5], [x2 - 6, y2 + 3.5]], { fill: style.stroke });
      });
    }

    /** @returns {object} */
    styleOf({ kind, source }) {
      if (kind === "arrive" || kind === "unlink") return { stroke: Loft.colourOf(source.stay.thread), width: 2 };
      return ORDERS[kind];
    }

    /** The rows of a lane that can be seen. */
    rowsOf({ top, tracks }) {
      const first = Math.max(0, Math.floor((this.view.top - top - HEADER) / TRACK));
      const last = Math.min(tracks.length - 1, Math.floor((this.view.top + this.view.height - top - HEADER) / TRACK));
      return { first, last };
    }

    /** The threads of a lane that can be seen. */
    stays(band) {
      const { first, last } = this.rowsOf(band);
      for (let row = first; row <= last; row += 1) {
        const track = band.tracks[row];
        const before = Loft.lastUpTo(track.length, (at) => track[at].from, this.first);
        for (let at = Math.max(0, before); at < track.length && track[at].from <= this.last; at += 1) {
          if (band.lane.kind === "worker") this.job(track[at]);
          else this.stay(track[at], at > 0 && track[at - 1].thread !== track[at].thread);
        }
      }
    }

    /** A thread in a worker's hand. */
    job(stay) {
      const { layout, painter } = this;
      const left = this.x(layout.start(stay.from)) + 2;
      const right = this.x(layout.end(stay.to ?? layout.run.length - 1)) - 2;
      const y = this.y(layout.yOf(stay));
      const colour = Loft.colourOf(stay.thread);
      painter.titled(() => Loft.staySentences(stay).join("\n"), () => {
        painter.rect(left, y - BAR / 2, Math.max(2, right - left), BAR, { fill: colour, radius: 3 });
        this.label(left, right, y, stay.thread.id);
        for (const { time } of stay.marks) {
          const x = this.x((layout.start(time) + layout.end(time)) / 2);
          painter.line([[x, y + BAR / 2 - 4], [x, y + BAR / 2 + 3]], { stroke: "ink", width: 1.5 });
        }
      });
      this.close(stay, right, y);
    }

    /** A thread at a scheduler. @param {boolean} again whether another one had this row before */
    stay(stay, again) {
      const { marks } = stay;
      const y = this.y(this.layout.yOf(stay));
      const begin = this.x(this.layout.start(stay.from));
      const before = Math.max(0, Loft.lastUpTo(marks.length, (at) => marks[at].time, this.first) - 1);
      if (before === 0) this.begin(stay, begin, y, this.firstOf(stay));
      for (let at = before; at < marks.length && marks[at].time <= this.last; at += 1) {
        this.mark(stay, marks[at], marks[at + 1], y, again && at === 0);
      }
      if (stay.to !== null) this.finish(stay, y);
    }

    /** Where the first line of a stay ends. */
    firstOf({ marks, to }) {
      if (marks.length > 0) return this.x(this.layout.start(marks[0].time));
      return this.x(to === null ? this.layout.width : this.layout.start(to));
    }

    /** How a thread comes to a scheduler. */
    begin({ how, thread }, x, y, until) {
      const stroke = Loft.colourOf(thread);
      if (until > x + 8) this.painter.line([[x, y], [until, y]], { stroke, width: 1.5 });
      if (how === "create") this.painter.dot(x + 4, y, 4, { fill: "page", stroke, width: 2 });
    }

    /** The instant of a mark, as it lies in the picture. */
    boxOf(lane, { time }) {
      const happening = Loft.happeningAt(lane, time);
      return { left: this.x(this.layout.start(time)), right: this.x(this.layout.endOf(happening)), happening };
    }

    /** What became of a thread in an instant, and the line to what becomes of it next. */
    mark(stay, mark, next, y, named) {
      const { painter, layout } = this;
      const { left, right, happening } = this.boxOf(stay.lane, mark);
      const stroke = Loft.colourOf(stay.thread);
      const ends = stay.to === mark.time;
      if (!ends) {
        const time = next?.time ?? stay.to;
        const until = this.x(time === null ? layout.width : layout.start(time));
        if (mark.ran) this.wait(mark, right, until, y, stroke);
        else this.wait(mark, left + 14, until, y, stroke);
      }
      painter.titled(() => Loft.staySentences(stay, happening).join("\n"), () => {
        if (mark.ran) this.bar(stay, mark, left, right, y, named);
        else this.flag(mark, left, y);
      });
    }

    /** A bar for a thread that ran, with what it printed and whether it generated an event. */
    bar({ thread, how, from }, mark, left, right, y, named) {
      const begins = how === "create" && from === mark.time ? 8 : 2;
      const [x1, x2] = right - left > 14 ? [left + begins, right - 2] : [left, right];
      this.painter.rect(x1, y - BAR / 2, x2 - x1, BAR, { fill: Loft.colourOf(thread), radius: Math.min(3, (x2 - x1) / 2) });
      const text = [named ? thread.id : null, mark.said].filter((it) => it !== null).join(": ");
      const room = mark.events > 0 ? 12 : 0;
      if (text !== "" && !this.label(x1, x2 - room, y, text) && mark.said !== null && x2 - x1 > 5) {
        this.painter.dot((x1 + x2) / 2, y, 2.5, { fill: "on" });
      }
      if (mark.events > 0 && x2 - x1 > 10) {
        const x = x2 - 7;
        this.painter.line([[x - 4, y], [x, y - 4], [x + 4, y], [x, y + 4]], { fill: "on" });
      }
    }

    /** A text in a bar. @returns {boolean} whether there is room for it */
    label(left, right, y, text) {
      const shown = Loft.fitted(text, right - left - 6);
      if (shown.length < Math.min(3, text.length)) return false;
      this.painter.text(left + 4, y, shown, { fill: "on" });
      return true;
    }

    /** A thread that was suspended or resumed. */
    flag({ suspended }, x, y) {
      if (suspended) {
        for (const at of [x + 4, x + 9]) this.painter.line([[at, y - 7], [at, y + 7]], { stroke: "end", width: 2.5 });
      } else {
        this.painter.line([[x + 2, y - 6], [x + 11, y], [x + 2, y + 6]], { fill: "order" });
      }
    }

    /** The line of a thread that waits. */
    wait({ wait, suspended }, from, until, y, stroke) {
      if (until <= from) return;
      const kind = wait === null || wait === "coop:0" ? "" : wait.split(":")[0];
      if (suspended) {
        for (const at of [y - 2, y + 2]) this.painter.line([[from, at], [until, at]], { stroke });
      } else {
        this.painter.line([[from, y], [until, y]], { stroke, width: 1.5, dash: DASHES[kind] });
      }
      const text = suspended ? "suspended" : Loft.waitLabel(wait);
      const left = Math.max(from, this.view.gutter);
      if (text !== "" && Loft.widthOf(text) + 8 < Math.min(until, this.view.width) - left) {
        this.painter.rect(left + 2, y - 7, Loft.widthOf(text) + 6, 14, { fill: "lane" });
        this.painter.text(left + 5, y, text, { fill: "faint" });
      }
    }

    /** How a thread goes from a scheduler. */
    finish(stay, y) {
      const happening = Loft.happeningAt(stay.lane, stay.to);
      const ran = stay.marks.at(-1)?.time === stay.to && stay.marks.at(-1).ran;
      this.close(stay, ran ? this.x(this.layout.endOf(happening)) : this.x(this.layout.start(stay.to)) + 10, y);
    }

    /** The sign of an end, with its reason, or where a thread goes that hasn't come there. */
    close({ close, thread, to }, x, y) {
      if (close === null) return;
      if (close.kind === "leave") {
        const isLast = thread.stays.every(({ from }) => from <= to);
        if (isLast) this.painter.text(x + 4, y - 8, `→ ${close.to}`, { fill: "faint", halo: "lane" });
      } else if (close.reason === "done") {
        this.painter.line([[x, y - 10], [x, y + 10]], { stroke: Loft.colourOf(thread), width: 3 });
      } else {
        for (const way of [4, -4]) this.painter.line([[x + 1, y - way], [x + 9, y + way]], { stroke: "end", width: 2.5 });
        this.painter.text(x + 12, y, close.reason, { fill: "end", halo: "lane" });
      }
    }

    /** A frame around what is selected. */
    selection() {
      const { selected } = this.view;
      const band = selected && this.layout.bandOf.get(selected.lane);
      if (!band) return;
      const { left, right } = this.columnOf(selected);
      const y = this.y(band.top);
      this.painter.rect(left, y + 1, right - left, band.height - 2, { stroke: "select", width: 2 });
      if (selected.row < 0) return;
      this.painter.rect(left + 1, y + HEADER + selected.row * TRACK, right - left - 2, TRACK, { stroke: "select", width: 3 });
    }

    /** The column of a place: its instant, or its choice. */
    columnOf({ lane, time }) {
      const happening = Loft.happeningAt(lane, time);
      const right = happening === undefined ? this.layout.end(time) : this.layout.endOf(happening);
      return { left: this.x(this.layout.start(happening?.take ?? time)), right: this.x(right) };
    }

    /** The name of a lane, and those of its threads at the left edge. */
    names(band) {
      const { gutter } = this.view;
      const { lane, top, height } = band;
      const y = Math.max(this.y(top), 0);
      this.painter.rect(0, this.y(top), gutter, height, { fill: "lane" });
      const { first, last } = this.rowsOf(band);
      for (let row = first; row <= last; row += 1) {
        const stay = this.seen(band.tracks[row]);
        if (stay === undefined || lane.kind === "worker") continue;
        const { thread } = stay;
        const name = Loft.fitted(gutter > 110 && thread.module !== "" ? `${thread.id} ${thread.module}` : thread.id, gutter - 10);
        this.painter.text(6, this.y(top) + HEADER + row * TRACK + TRACK / 2, name, { fill: Loft.colourOf(thread) });
      }
      if (y + HEADER > this.y(top) + height) return;
      this.painter.rect(0, y, gutter, HEADER, { fill: "header" });
      const name = Loft.fitted(Loft.laneName(lane), gutter - 10, 12);
      this.painter.text(6, y + HEADER / 2, name, { fill: "ink", size: 12, bold: true });
    }

    /** The stay of a row that comes first in what is seen. */
    seen(track) {
      const at = Loft.lastUpTo(track.length, (index) => track[index].from, this.first);
      return at >= 0 && this.layout.lastOf(track[at]) >= this.first ? track[at] : track[at + 1] ?? track[at];
    }
  }

  /** Draws what a view shows. @param {object} painter @param {object} layout @param {View} view */
  function draw(painter, layout, view) {
    new Drawing(painter, layout, view).all();
  }

  /** The link at a point of a view, or nothing. */
  function linkAt(layout, view, px, py) {
    const drawing = new Drawing(null, layout, view);
    let best = null;
    let least = 6;
    for (const link of layout.linksIn(drawing.first, drawing.last)) {
      const ends = drawing.endsOf(link);
      if (ends === null || px < ends.x1 - 6 || px > ends.x2 + 6) continue;
      const away = Loft.distance(ends, px, py);
      if (away < least) [best, least] = [link, away];
    }
    return best;
  }

  /** What a view shows, as an SVG text. @param {object} layout @param {View} view @param {string} title */
  function pictureOf(layout, view, title) {
    const painter = new Loft.SvgPainter();
    draw(painter, layout, view);
    return painter.whole(view.width, view.height, title);
  }

  /** The view that shows all of a run. @param {object} layout @param {number} unit @returns {View} */
  function wholeView(layout, unit, gutter = 150) {
    const width = gutter + layout.width * unit;
    return { left: 0, top: 0, width, height: layout.height, unit, gutter, selected: null, hovered: null };
  }

  Object.assign(Loft, { draw, linkAt, pictureOf, wholeView });
}
