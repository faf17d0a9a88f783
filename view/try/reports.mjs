// The reports that are tried: all that are stored, and large ones.
import { existsSync, readFileSync, readdirSync } from "node:fs";
import { dirname, join } from "node:path";
import { fileURLToPath } from "node:url";

export const VIEW = dirname(dirname(fileURLToPath(import.meta.url)));
export const TOP = dirname(VIEW);
const FOLDERS = ["cases/run", "cases/replay", "cases/exec", "examples", "docs/tutorial"];
const REPEATED = /^([0-9]+) x (.*)$/;
// The page is made for reports of some 5 MB.
const LONGEST = 6_000_000;
const NUMBER = /\{([0-9]*)\}/g;

/** The text of a file, a letter for each byte. @param {string} name from the top */
export function bytes(name) {
  return readFileSync(join(TOP, name), "latin1");
}

/** A text with numbers in place of those in braces, each larger by this one. @param {string} text @param {number} at */
function numbered(text, at) {
  return text.replace(NUMBER, (_, from) => String(Number(from) + at));
}

/** The report for which a rule stands (cases/README.md). @param {string} rule */
function byRule(rule) {
  const lines = [];
  const rest = rule.split("\n");
  for (let next = 0; next < rest.length; next += 1) {
    const repeated = REPEATED.exec(rest[next]);
    if (repeated === null) {
      lines.push(rest[next]);
      continue;
    }
    const group = repeated[2] === "(" ? rest.slice(next + 1, rest.indexOf(")", next)) : null;
    for (let at = 0; at < Number(repeated[1]); at += 1) {
      for (const line of group ?? [numbered(repeated[2], at)]) lines.push(line);
    }
    if (group !== null) next += group.length + 1;
  }
  return lines.join("\n");
}

/** Whether a file is an answer, or a report that `replay` accepts whole. @param {string} name from the top */
function isWhole(name) {
  const answer = name.replace(/\.report(\.rule)?$/, ".stdout");
  return answer === name || (existsSync(join(TOP, answer)) && bytes(answer) === "ok\n");
}

/** Each stored report of at most so many bytes. @returns {{name: string, text: string}[]} */
export function storedReports() {
  const found = [];
  for (const folder of FOLDERS) {
    for (const file of readdirSync(join(TOP, folder)).sort()) {
      const name = `${folder}/${file}`;
      if (/\.(stdout|report)$/.test(file)) found.push({ name, text: bytes(name) });
      if (/\.(stdout|report)\.rule$/.test(file)) found.push({ name, text: byRule(bytes(name)) });
    }
  }
  return found.filter(({ name, text }) => isWhole(name) && text.startsWith("loft-report ") && text.length <= LONGEST);
}

/** A report of many instants of two schedulers, with a thread that goes to and fro. @param {number} instants */
export function longReport(instants) {
  const choices = [];
  const blocks = { A: [], B: [] };
  const threads = ["start.0", "start.1", "start.2", "start.3"];
  for (let at = 1; at <= instants; at += 1) {
    choices.push("take A", "give A", "take B", "give B");
    const [a, b] = [[`instant ${at}`], [`instant ${at}`]];
    if (at === 1) a.push(...threads.map((id) => `in create ${id} m(1)`));
    if (at > 1 && at % 2 === 1) a.push("in arrive start.3 0 0 new m:4[](1)");
    const here = at % 2 === 1 ? threads : threads.slice(0, 3);
    for (const id of here) a.push(`print ${id} this is instant ${at} of A`, `gen ${id} bell ${at}`);
    if (at % 2 === 1) a.push("leave start.3 B");
    for (const id of threads.slice(0, 3)) a.push(`at ${id} 0 0 coop:0 m:1[](${at})`);
    if (at % 2 === 1) b.push("in arrive start.3 0 0 new m:2[](1)", "print start.3 away", "at start.3 0 0 coop:0 m:3[](1)");
    else b.push("leave start.3 A");
    blocks.A.push(...a);
    blocks.B.push(...b);
  }
  const head = ["loft-report 1", `instants ${instants}`, "budget 10000", "block 1000000", "workers 2", `history ${choices.length}`];
  const states = [...threads.slice(0, 3)].map((id) => `linked ${id} 0 0 coop:0 m:1[](${instants})`);
  const last = instants % 2 === 1 ? ["state 1", "linked start.3 0 0 coop:0 m:3[](1)"] : ["state 0"];
  const left = instants % 2 === 1 ? ["left 0"] : ["left 1", "A arrive start.3 0 0 new m:4[](1)"];
  return [...head, ...choices, "scheduler A", ...blocks.A, `state ${states.length}`, ...states, "scheduler B", ...blocks.B,
    ...last, ...left, "end", ""].join("\n");
}
