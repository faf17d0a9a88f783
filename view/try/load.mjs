// Loads the scripts of the page, which are plain ones, into node.
import { createRequire } from "node:module";

const require = createRequire(import.meta.url);
for (const name of ["report", "orders", "run", "layout", "colours", "painters", "words", "draw", "select", "panel"]) {
  require(`../${name}.js`);
}

export const Loft = globalThis.Loft;
