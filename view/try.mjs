// Tries the page: `node view/try.mjs`. With `--write` it writes the pictures of the tutorial instead.
import { tryColours } from "./try/colours.mjs";
import { tryPage } from "./try/page.mjs";
import { tryPictures, writePictures } from "./try/pictures.mjs";
import { tryReader } from "./try/reader.mjs";
import { tryRuns } from "./try/runs.mjs";

const PARTS = [
  ["reports that are read, and altered ones that are refused", tryReader],
  ["runs of reports", tryRuns],
  ["contrasts of colours", tryColours],
  ["pictures of the tutorial", tryPictures],
  ["reports on the page, in a browser", tryPage],
];

if (process.argv.includes("--write")) {
  writePictures();
} else {
  for (const [what, tryPart] of PARTS) {
    const { tried, failures, skipped } = await tryPart();
    for (const failure of failures) console.log(`view: ${failure}`);
    console.log(skipped ? `view: ${what}: skipped, ${skipped}` : `view: ${what}: ${tried}, of which wrong: ${failures.length}`);
    if (failures.length > 0) process.exitCode = 1;
  }
}
