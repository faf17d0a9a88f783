"use strict";
globalThis.Loft ??= {};

// The colours of a picture. Texts have a contrast of at least 4.5 to what is behind them, lines and marks
// of at least 3 (WCAG 2, AA); `try/colours.mjs` computes them.
{
  /** @type {Object<"light"|"dark", Object<string, string>>} */
  const COLOURS = {
    light: {
      page: "#ffffff", lane: "#f4f5f7", instant: "#e4e8ee", header: "#e9ecf0", edge: "#7a828c", ink: "#15191e", faint: "#4f5965",
      on: "#ffffff", end: "#b3261e", order: "#5b6673", select: "#0b57d0",
      thread0: "#1d5fa8", thread1: "#a2400f", thread2: "#1f6b38", thread3: "#7a3b9c", thread4: "#7d5200",
      thread5: "#a8215c", thread6: "#0b6870", thread7: "#4c5864",
    },
    dark: {
      page: "#14181d", lane: "#1c2229", instant: "#2a323c", header: "#232a33", edge: "#8590a0", ink: "#eef2f6", faint: "#b4bec9",
      on: "#10141a", end: "#ff9b92", order: "#a9b4c0", select: "#8ab8ff",
      thread0: "#7db7f0", thread1: "#f0a37a", thread2: "#7fd196", thread3: "#cfa3ec", thread4: "#e3bd5f",
      thread5: "#f08db5", thread6: "#6fd0d6", thread7: "#b7c2cd",
    },
  };
  const THREADS = 8;

  /** The colour of a thread. @param {{number: number}} thread */
  function colourOf({ number }) {
    return `thread${number % THREADS}`;
  }

  Object.assign(Loft, { COLOURS, THREADS, colourOf });
}
