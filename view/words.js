"use strict";
globalThis.Loft ??= {};

// Texts of a picture: what a thread waits for, what an order is, why a thread ended.
{
  /** The parts of a wait. @param {string} wait as in a report */
  function partsOf(wait) {
    const [kind, left, rest] = wait.split(":");
    return { kind, left: kind === "coop" || left !== "-" ? left : null, names: (rest ?? "").split(",") };
  }

  /** A few letters that say what a thread waits for; none where it continues at once. @param {string|null} wait */
  function waitLabel(wait) {
    if (wait === null || ["new", "next", "coop:0"].includes(wait)) return "";
    const { kind, left, names } = partsOf(wait);
    if (kind === "halt") return "halt";
    if (kind === "coop") return `${left} more`;
    return `${kind} ${names.join(", ")}${left === null ? "" : ` (${left})`}`;
  }

  /** A sentence that says what a thread waits for. @param {string|null} wait */
  function waitSentence(wait) {
    if (wait === null || wait === "new") return "begins in its next instant";
    const { kind, left, names } = partsOf(wait);
    const limit = left === null ? "" : `, for ${left} further instants at most`;
    switch (kind) {
      case "coop": return left === "0" ? "continues in the next instant" : `waits for ${left} further instants`;
      case "await": return `waits for ${names[0]}${limit}`;
      case "select": return `waits for one of ${names.join(", ")}${limit}`;
      case "next": return "continues in the next instant: its value didn't come";
      case "join": return `waits for the end of ${names[0]}${limit}`;
      default: return "waits for ever";
    }
  }

  const REASONS = {
    done: "its module ended",
    stopped: "an order stopped it",
    full: "too many threads were linked",
    div: "it divided by 0",
    deep: "it called too many modules within one another",
    over: "its steps were used up",
    flood: "its instant or block had as many entries as it may have",
  };

  /** A sentence that says why a thread ended. @param {string} reason as in a report */
  function endSentence(reason) {
    const [word, point] = reason.split(" ");
    const where = point === undefined ? "" : `, in ${point.replace(":", " at stop ")}`;
    return `ended as ${reason}: ${REASONS[word]}${where}`;
  }

  /** What a lane is called. @param {{kind: string, name: string}} lane */
  function laneName({ kind, name }) {
    return kind === "scheduler" ? name : `${kind} ${name}`;
  }

  /** Where an order was given. @param {object} arrow */
  function givenSentence({ from, source, sure }) {
    if (from === null) return "by a worker or a client";
    const perhaps = sure ? "" : ", perhaps (the report allows another one as well)";
    if (source.lane !== null) return `by ${laneName(source.lane)} in choice ${from + 1}${perhaps}`;
    if (source.stay === null) return "by the source";
    const { thread, lane } = source.stay;
    const happening = Loft.happeningAt(lane, from);
    const place = happening === undefined ? laneName(lane) : `instant ${happening.note.number} of ${lane.name}`;
    return `by ${thread.id} in ${place}${perhaps}`;
  }

  /** Which instant took an order. @param {object} arrow */
  function takenSentence({ to, target, mark }) {
    if (to === null) return `left over for ${target.lane.name}`;
    const { note } = Loft.happeningAt(target.lane, to);
    return `taken by instant ${note.number} of ${target.lane.name}${mark === "in" ? "" : ` (${mark})`}`;
  }

  /** What a link is. @param {object} link */
  function linkSentence({ kind, from, source, target, arrow }) {
    if (kind === "unlink") {
      const where = target.stay === null ? "still waits for a worker" : `is taken by ${laneName(target.stay.lane)}`;
      return `${source.stay.thread.id} leaves ${source.stay.lane.name} by unlink, and ${where}`;
    }
    return `${arrow.order.text}\ngiven ${givenSentence({ ...arrow, from })}\n${takenSentence(arrow)}`;
  }

  const DOES = { print: "prints ", gen: "generates ", out: "sends " };

  /** What became of a thread in an instant. @param {object} stay @param {object|undefined} happening @param {number} most acts */
  function staySentences(stay, happening, most = 12) {
    const { thread, lane, close, marks, to } = stay;
    const place = happening === undefined ? laneName(lane) : `${lane.name}, instant ${happening.note.number}`;
    const said = [`${thread.id} (${thread.module}) at ${place}`];
    if (lane.kind === "worker") return [...said, "unlinked: runs on its own", ...closeSentences(close)];
    const time = happening?.take ?? -1;
    const mark = marks[Loft.lastUpTo(marks.length, (index) => marks[index].time, time)];
    if (happening !== undefined && mark?.time === time) {
      const acts = happening.note.acts.filter(({ id, kind }) => id === thread.id && kind !== "end");
      said.push(...acts.slice(0, most).map(({ kind, text }) => DOES[kind] + text));
      if (most > 0 && acts.length > most) said.push(`and ${acts.length - most} further entries`);
      said.push(mark.ran ? "ran" : "didn't run");
    } else if (happening !== undefined) {
      said.push("didn't run");
    }
    if (to !== null && to <= time) return [...said, ...closeSentences(close)];
    if (mark?.suspended) said.push("is suspended");
    return [...said, waitSentence(mark?.wait ?? null)];
  }

  function closeSentences(close) {
    if (close === null) return [];
    if (close.kind === "end") return [endSentence(close.reason)];
    return [close.to === "unlinked" ? "leaves, unlinked" : `leaves for ${close.to}`];
  }

  Object.assign(Loft, { waitLabel, laneName, givenSentence, takenSentence, linkSentence, staySentences });
}
