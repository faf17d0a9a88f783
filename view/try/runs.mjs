// Tries what is made of reports: each order has its giver, and each thread its way.
import { Loft } from "./load.mjs";
import { longReport, storedReports } from "./reports.mjs";

const UNIT = 60;
const MOST_PLACES = 5000;

/** How the lines of a report that begin with some words end a thread. */
function reasonsOf(text) {
  const reasons = new Map();
  for (const [, id, reason] of text.matchAll(/^(?:in ended|end|[A-Za-z_]\w* ended) (\S+) (.+)$/gm)) reasons.set(id, reason);
  return reasons;
}

/** What is wrong with the orders of a run. */
function* orders(run, text) {
  const { arrows } = run.orders;
  const rows = (text.match(/^(in|void|full) /gm) ?? []).length + run.report.left.length;
  if (arrows.length !== rows) yield `${arrows.length} orders, not ${rows}`;
  for (const { order, from, to } of arrows) {
    if (from === null) yield `nobody gave "${order.text}"`;
    else if (to !== null && from >= to) yield `"${order.text}" is taken before it is given`;
  }
  if ([...run.orders.gaps.values()].some((gaps) => gaps.length > 0)) yield "an order of a worker or a client is open";
}

/** What is wrong with the threads of a run. */
function* threads(run, text) {
  const reasons = reasonsOf(text);
  const made = new Set([...text.matchAll(/^(?:in|full) create (\S+) /gm)].map((found) => found[1]));
  if (made.size !== run.threads.size) yield `${run.threads.size} threads, not ${made.size}`;
  for (const { id, stays, reason } of run.threads.values()) {
    if (reason !== (reasons.get(id) ?? null)) yield `${id} ended as ${reason}, not ${reasons.get(id)}`;
    if (stays[0].how !== "create") yield `${id} begins by ${stays[0].how}`;
    for (let at = 1; at < stays.length; at += 1) {
      const { to, close } = stays[at - 1];
      if (to === null || to >= stays[at].from || close.kind !== "leave") yield `${id} is in two places`;
    }
  }
}

/** What is wrong with a layout: stays in one row that meet. */
function* rows(run) {
  const layout = new Loft.Layout(run, () => true);
  for (const { lane, tracks } of layout.bands) {
    for (const track of tracks) {
      for (let at = 1; at < track.length; at += 1) {
        if (layout.lastOf(track[at - 1]) >= track[at].from) yield `two threads meet in a row of ${lane.name}`;
      }
    }
    if (tracks.flat().length !== lane.stays.length) yield `a thread of ${lane.name} has no row`;
  }
}

/** What is wrong with the picture of a run, and with what the page says of each place and each link. */
function* drawn(run) {
  const layout = new Loft.Layout(run, () => true);
  if (run.length * run.threads.size > MOST_PLACES) return;
  const texts = [Loft.pictureOf(layout, Loft.wholeView(layout, UNIT), "a run"), ...layout.links.map(Loft.linkSentence)];
  const arrows = Loft.arrowsByLine(run);
  for (const { lane, tracks } of layout.bands) {
    for (const row of [-1, ...tracks.keys()]) {
      for (let time = 0; time < run.length; time += 1) {
        const { place, about, lines } = Loft.panelOf(layout, { lane, row, time }, arrows);
        texts.push(place, about, ...lines.map(({ note }) => note));
      }
    }
  }
  if (texts.some((text) => /undefined|NaN|null/.test(text))) yield "a text or a number of its picture is missing";
}

/** A filter shows the threads that it names. */
function* filters(run) {
  for (const thread of [...run.threads.values()].slice(0, 5)) {
    const { shown } = new Loft.Layout(run, Loft.filterOf(thread.id));
    if (shown.size !== 1 || !shown.has(thread)) yield `the filter ${thread.id} shows ${shown.size} threads`;
  }
  if (new Loft.Layout(run, Loft.filterOf(" ")).shown.size !== run.threads.size) yield "no filter hides a thread";
}

/** Reports that no run has, though each line is one of a report. */
const NO_RUNS = [
  [/^in create start\.0 .*\n/m, "", "a thread that was never made"],
  [/^history 4\ntake A\ngive A\n/m, "history 5\ntake A\ngive A\npick 0\n", "a pick where no thread waits"],
  [/^history 4\ntake A\ngive A\n/m, "history 5\ntake A\ngive A\npost 0\n", "a post without a pick"],
];

function* noRuns() {
  const { text } = storedReports().find(({ name }) => name === "docs/tutorial/1_two_prints.loft.stdout");
  for (const [found, put, what] of NO_RUNS) {
    try {
      Loft.runOf(Loft.readReport(text.replace(found, put)));
      yield `${what} isn't refused`;
    } catch (error) {
      if (!(error instanceof Loft.NotAReport)) throw error;
    }
  }
}

/** All that goes wrong. @returns {{tried: number, failures: string[]}} */
export function tryRuns() {
  const failures = [];
  const reports = [...storedReports(), ...[1, 2, 300].map((count) => ({ name: `${count} instants`, text: longReport(count) }))];
  for (const { name, text } of reports) {
    const run = Loft.runOf(Loft.readReport(text));
    const wrong = [...orders(run, text), ...threads(run, text), ...rows(run), ...filters(run), ...drawn(run)];
    failures.push(...wrong.map((failure) => `${name}: ${failure}`));
  }
  failures.push(...noRuns());
  return { tried: reports.length, failures };
}
