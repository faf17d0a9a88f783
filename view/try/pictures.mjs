// The pictures of the tutorial: SVG files, written by the scripts of the page.
import { mkdirSync, readFileSync, writeFileSync } from "node:fs";
import { join } from "node:path";
import { Loft } from "./load.mjs";
import { TOP, bytes } from "./reports.mjs";

const FOLDER = "docs/pictures";
const PICTURES = ["3_door_bell", "10_two_banks", "11_long_search"];
const UNIT = 110;

/** The picture of a step of the tutorial. @param {string} name */
function pictureOf(name) {
  const run = Loft.runOf(Loft.readReport(bytes(`docs/tutorial/${name}.loft.stdout`)));
  const layout = new Loft.Layout(run, () => true);
  return Loft.pictureOf(layout, Loft.wholeView(layout, UNIT), `The run of ${name}.loft`);
}

/** Writes the pictures. */
export function writePictures() {
  mkdirSync(join(TOP, FOLDER), { recursive: true });
  for (const name of PICTURES) writeFileSync(join(TOP, FOLDER, `${name}.svg`), pictureOf(name));
}

/** Compares them with those that are stored. @returns {{tried: number, failures: string[]}} */
export function tryPictures() {
  const stored = (name) => {
    try {
      return readFileSync(join(TOP, FOLDER, `${name}.svg`), "utf8");
    } catch {
      return null;
    }
  };
  const stale = PICTURES.filter((name) => stored(name) !== pictureOf(name));
  const failures = stale.map((name) => `${FOLDER}/${name}.svg isn't what the page draws: node view/try.mjs --write`);
  return { tried: PICTURES.length, failures };
}
