"use strict";
globalThis.Loft ??= {};

// What the panel says of the place that is selected.
{
  const FEW_LINES = 300;

  /** The arrow of each line of a report that has an order of a batch. @param {object} run */
  function arrowsByLine(run) {
    return new Map(run.orders.arrows.map((arrow) => [arrow.line, arrow]));
  }

  /** Whether a line of an instant is about a thread. */
  function isAbout(line, id) {
    const words = line.split(" ", 3);
    return words[["in", "void", "full"].includes(words[0]) ? 2 : 1] === id;
  }

  /**
   * What the panel says of a place.
   * @param {object} layout
   * @param {object} place
   * @param {Map<number, object>} arrows by their lines
   * @returns {{place: string, about: string, lines: {text: string, note: string, own: boolean}[], more: number,
   *   thread: object|null}} `more` is how many lines are left out
   */
  function panelOf(layout, place, arrows) {
    const stay = Loft.stayOf(layout, place);
    const thread = stay?.thread ?? null;
    const happening = Loft.happeningAt(place.lane, place.time);
    const found = happening === undefined ? ofChoice(layout, place) : ofInstant(layout, happening, thread, arrows);
    const about = stay === undefined ? "" : Loft.staySentences(stay, happening, 0).join("\n");
    return { about, thread, ...found, lines: found.lines.slice(0, FEW_LINES), more: Math.max(0, found.lines.length - FEW_LINES) };
  }

  /** The lines of an instant. */
  function ofInstant({ run }, { note, lane, take, give }, thread, arrows) {
    const choices = give === null ? `choice ${take + 1}` : `choices ${take + 1} and ${give + 1}`;
    const lines = [];
    for (let line = note.line; line < note.after; line += 1) {
      const text = run.report.lines[line - 1];
      const arrow = lines.length < FEW_LINES ? arrows.get(line) : undefined;
      const own = thread !== null && isAbout(text, thread.id);
      lines.push({ text, note: arrow === undefined ? "" : `given ${Loft.givenSentence(arrow)}`, own });
    }
    return { place: `${lane.name}, instant ${note.number} (${choices} of ${run.length})`, lines };
  }

  /** The choice of a worker or a client, with the orders that it gave. */
  function ofChoice({ run }, { lane, time }) {
    const choice = run.report.choices[time];
    const place = `${Loft.laneName(lane)}, choice ${time + 1} of ${run.length}`;
    const mine = (lane.kind === "client") === (choice.kind === "client") && choice.of === lane.name;
    if (lane.kind === "scheduler" || !mine) return { place, lines: [] };
    const given = run.orders.arrows.filter(({ from }) => from === time);
    const lines = given.map((arrow) => ({ text: arrow.order.text, note: Loft.takenSentence(arrow), own: true }));
    return { place, lines: [{ text: `${choice.kind} ${choice.of}`, note: "", own: false }, ...lines] };
  }

  /** Shows it. @param {Document} document @param {object} said what `panelOf` gives */
  function showPanel(document, said) {
    const part = (id) => document.getElementById(id);
    part("place").textContent = said.place;
    part("about").textContent = said.about;
    part("lines").replaceChildren(...said.lines.map(({ text, note, own }) => {
      const item = document.createElement("li");
      item.className = own ? "own" : "";
      item.textContent = text;
      if (note !== "") item.append(Object.assign(document.createElement("small"), { textContent: note }));
      return item;
    }));
    part("more").textContent = said.more === 0 ? "" : `and ${said.more} further lines`;
    part("only").hidden = said.thread === null;
    part("panel").hidden = false;
  }

  Object.assign(Loft, { arrowsByLine, panelOf, showPanel });
}
