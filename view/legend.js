"use strict";
globalThis.Loft ??= {};

// The signs of a picture, and what they say.
{
  const ROW = 24;

  /** Rows of signs: a painting, and what it says. */
  const SIGNS = [
    ["bar", "a thread ran in an instant; in the bar, what it printed"],
    ["event", "it generated an event"],
    ["create", "a thread was created"],
    ["ready", "it continues in the next instant"],
    ["coop", "it waits for some instants"],
    ["await", "it waits for events"],
    ["join", "it waits for the end of a thread"],
    ["halt", "it waits for ever"],
    ["suspended", "it is suspended (two bars: by an order; triangle: resumed)"],
    ["done", "its module ended"],
    ["ended", "it ended otherwise, with the reason"],
    ["move", "it goes to another scheduler, or to a worker"],
    ["order", "an order, from where it was given to the instant that took it"],
    ["broadcast", "a broadcast"],
    ["stop", "a stop; dashed: a suspend"],
    ["told", "the end of a thread, as other schedulers get word of it"],
    ["post", "a worker's thread; each tick is an order that it sent"],
    ["left", "an order that no instant took"],
  ];

  /** Lines by their sign. */
  const LINES = {
    ready: { stroke: "thread0", width: 1.5 },
    coop: { stroke: "thread0", width: 1.5, dash: [7, 4] },
    await: { stroke: "thread0", width: 1.5, dash: [2, 3] },
    join: { stroke: "thread0", width: 1.5, dash: [8, 3, 2, 3] },
    halt: { stroke: "thread0", width: 1.5, dash: [1, 7] },
    move: { stroke: "thread0", width: 2, head: true },
    order: { stroke: "order", width: 1.5, head: true },
    broadcast: { stroke: "order", width: 1.5, dash: [2, 3], head: true },
    stop: { stroke: "end", width: 1.5, head: true },
    told: { stroke: "order", width: 1, dash: [1, 4], head: true },
  };

  /** What isn't a line. @type {Object<string, (painter: object, x: number, y: number) => void>} */
  const MARKS = {
    bar: (painter, x, y) => {
      painter.rect(x, y - 8, 44, 16, { fill: "thread0", radius: 3 });
      painter.text(x + 4, y, "opens", { fill: "on" });
    },
    event: (painter, x, y) => {
      painter.rect(x, y - 8, 44, 16, { fill: "thread0", radius: 3 });
      painter.line([[x + 33, y], [x + 37, y - 4], [x + 41, y], [x + 37, y + 4]], { fill: "on" });
    },
    create: (painter, x, y) => painter.dot(x + 22, y, 4, { fill: "page", stroke: "thread0", width: 2 }),
    suspended: (painter, x, y) => {
      for (const at of [x + 4, x + 9]) painter.line([[at, y - 7], [at, y + 7]], { stroke: "end", width: 2.5 });
      for (const at of [y - 2, y + 2]) painter.line([[x + 12, at], [x + 32, at]], { stroke: "thread0" });
      painter.line([[x + 34, y - 6], [x + 43, y], [x + 34, y + 6]], { fill: "order" });
    },
    done: (painter, x, y) => painter.line([[x + 22, y - 10], [x + 22, y + 10]], { stroke: "thread0", width: 3 }),
    ended: (painter, x, y) => {
      for (const way of [4, -4]) painter.line([[x + 1, y - way], [x + 9, y + way]], { stroke: "end", width: 2.5 });
      painter.text(x + 13, y, "over", { fill: "end" });
    },
    left: (painter, x, y) => {
      painter.line([[x + 10, y], [x + 28, y]], { stroke: "order", width: 1.5 });
      painter.line([[x + 30, y], [x + 24, y - 3.5], [x + 24, y + 3.5]], { fill: "order" });
      painter.line([[x + 32, y - 5], [x + 32, y + 5]], { stroke: "order", width: 2 });
    },
    post: (painter, x, y) => {
      painter.rect(x, y - 8, 44, 16, { fill: "thread0", radius: 3 });
      painter.line([[x + 30, y + 4], [x + 30, y + 11]], { stroke: "ink", width: 1.5 });
    },
  };

  /** A sign. */
  function paintSign(painter, name, x, y) {
    if (Object.hasOwn(MARKS, name)) {
      MARKS[name](painter, x, y);
      return;
    }
    const { head, ...style } = LINES[name];
    painter.line([[x, y], [x + 44, y]], style);
    if (head) painter.line([[x + 44, y], [x + 38, y - 3.5], [x + 38, y + 3.5]], { fill: style.stroke });
  }

  /** All signs with what they say, as the markup of a list. @returns {string} */
  function legend() {
    const items = SIGNS.map(([name, text]) => {
      const painter = new Loft.SvgPainter();
      paintSign(painter, name, 3, ROW / 2);
      return `<li><svg width="58" height="${ROW}" font-size="11" aria-hidden="true">${painter.parts.join("")}</svg> ${text}</li>`;
    });
    return `<ul>${items.join("")}</ul>`;
  }

  Object.assign(Loft, { legend });
}
