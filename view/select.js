"use strict";
globalThis.Loft ??= {};

// Places in a picture: a lane, a row of it (-1: its header) and a choice.
{
  /** @typedef {{lane: object, row: number, time: number}} Place */

  /** The choices of a lane in which something happens there. @param {object} layout @param {object} lane */
  function timesOf({ run }, lane) {
    if (lane.kind === "scheduler") return lane.instants.map(({ take }) => take);
    const kinds = lane.kind === "client" ? ["client"] : ["pick", "post"];
    const times = [];
    run.report.choices.forEach(({ kind, of }, time) => {
      if (kinds.includes(kind) && of === lane.name) times.push(time);
    });
    return times;
  }

  /** The place at a point of a view, or nothing. @returns {Place|null} */
  function placeAt(layout, view, x, y) {
    const band = layout.bandAt(y + view.top);
    if (band === undefined) return null;
    const row = Math.min(layout.rowAt(band, y + view.top), band.tracks.length - 1);
    const time = layout.timeAt((x - view.gutter + view.left) / view.unit);
    return { lane: band.lane, row: Math.max(-1, row), time };
  }

  /** The thread at a place, or nothing. @param {object} layout @param {Place} place */
  function stayOf(layout, { lane, row, time }) {
    return row < 0 ? undefined : layout.stayAt(layout.bandOf.get(lane), row, time);
  }

  /** The place so many instants or choices further in the same lane. @returns {Place} */
  function stepTime(layout, place, by) {
    const times = timesOf(layout, place.lane);
    if (times.length === 0) return place;
    const at = Loft.lastUpTo(times.length, (index) => times[index], place.time);
    const next = at < 0 ? 0 : Math.max(0, Math.min(times.length - 1, at + by));
    return { ...place, time: times[next] };
  }

  /** The place so many rows further down. @returns {Place} */
  function stepRow(layout, place, by) {
    const rows = layout.bands.flatMap(({ lane, tracks }) => [-1, ...tracks.keys()].map((row) => ({ lane, row })));
    const at = rows.findIndex(({ lane, row }) => lane === place.lane && row === place.row);
    const next = { ...place, ...rows[Math.max(0, Math.min(rows.length - 1, at + by))] };
    return next.lane === place.lane ? next : nearest(layout, next);
  }

  /** The place of a lane in which something happens, at a time or before it. @returns {Place} */
  function nearest(layout, place) {
    return stepTime(layout, place, 0);
  }

  Object.assign(Loft, { placeAt, stayOf, stepTime, stepRow });
}
