// Computes the contrast of the colours (WCAG 2: relative luminance, contrast ratio).
import { Loft } from "./load.mjs";

const TEXT = 4.5;
const MARK = 3;
const GROUNDS = ["page", "lane", "instant", "header"];
const threads = Array.from({ length: Loft.THREADS }, (_, number) => Loft.colourOf({ number }));

/** What is painted on what, with the least contrast. */
const PAIRS = [
  ...["ink", "faint"].flatMap((text) => ["page", "lane", "header"].map((ground) => [text, ground, TEXT])),
  ...["end", "select"].flatMap((mark) => GROUNDS.map((ground) => [mark, ground, MARK])),
  ["ink", "instant", TEXT], ["page", "ink", TEXT], ["end", "page", TEXT], ["end", "lane", TEXT],
  ...GROUNDS.map((ground) => ["order", ground, MARK]),
  ...["page", "lane"].map((ground) => ["edge", ground, MARK]),
  ...threads.flatMap((thread) => [[thread, "lane", TEXT], [thread, "instant", MARK], ["on", thread, TEXT]]),
];

/** @param {string} colour as `#rrggbb` */
function luminance(colour) {
  const [red, green, blue] = [1, 3, 5].map((at) => {
    const part = parseInt(colour.slice(at, at + 2), 16) / 255;
    return part <= 0.04045 ? part / 12.92 : ((part + 0.055) / 1.055) ** 2.4;
  });
  return 0.2126 * red + 0.7152 * green + 0.0722 * blue;
}

/** The contrast of two colours. */
function contrast(a, b) {
  const [dark, light] = [luminance(a), luminance(b)].sort((x, y) => x - y);
  return (light + 0.05) / (dark + 0.05);
}

/** All that goes wrong. @returns {{tried: number, failures: string[]}} */
export function tryColours() {
  const failures = [];
  for (const [scheme, colours] of Object.entries(Loft.COLOURS)) {
    for (const [mark, ground, least] of PAIRS) {
      const found = contrast(colours[mark], colours[ground]);
      if (found < least) failures.push(`${scheme}: ${mark} on ${ground} has a contrast of ${found.toFixed(2)}, less than ${least}`);
    }
  }
  return { tried: 2 * PAIRS.length, failures };
}
