// Tries the reader over all stored reports, and over altered ones, which it has to refuse at their line.
import { Loft } from "./load.mjs";
import { longReport, storedReports } from "./reports.mjs";

const LARGE = 5000;

/** The line at which a text is refused, or 0. @param {string} text */
function refusedAt(text) {
  try {
    Loft.readReport(text);
    return 0;
  } catch (error) {
    if (error instanceof Loft.NotAReport) return error.line;
    throw error;
  }
}

const NUMBERED = /^(?:instants|budget|block|workers|history|pick|post|instant|state|left|shared \w+) \d+$/;

/** Ways to alter a line so that the text is no report, and is refused at that line. */
const ALTERED = {
  "an empty line before it": (line) => ["", line],
  "a letter before it": (line) => [`x${line}`],
  "a blank after it": (line) => (line.startsWith("print ") ? null : [`${line} `]),
  "a carriage return": (line) => [`${line}\r`],
  "nothing but its word": (line) => (line.includes(" ") ? [line.split(" ")[0]] : null),
  "a zero before its number": (line) => (NUMBERED.test(line) ? [line.replace(/(\d+)$/, "0$1")] : null),
};

/** The indexes of lines that are altered: some 20 of a report, or 3 of a large one, and each in a small one. */
function* samples(count) {
  const step = Math.ceil(count / (count > LARGE ? 3 : 20));
  for (let at = 0; at < count; at += step) yield at;
}

/** What goes wrong when the lines of a report are altered, one by one. */
function* altered(name, text) {
  const lines = text.split("\n").slice(0, -1);
  for (const at of samples(lines.length)) {
    for (const [what, alter] of Object.entries(ALTERED)) {
      const changed = alter(lines[at]);
      if (changed === null) continue;
      const line = refusedAt([...lines.slice(0, at), ...changed, ...lines.slice(at + 1), ""].join("\n"));
      if (line !== at + 1) yield `${name}: with ${what}, line ${at + 1} is refused at ${line || "no line"}`;
    }
  }
}

/** Lines without which no text is a report. */
const NEEDED = /^(?:instants|budget|block|workers|history|take|give|pick|post|scheduler|instant|state|linked|suspended|left) |^end$/;

/** What goes wrong when a report is cut, or has one line less or one more. */
function* cut(name, text) {
  const lines = text.split("\n").slice(0, -1);
  if (refusedAt(text.slice(0, -1)) !== lines.length) yield `${name}: without its last line feed it isn't refused there`;
  if (refusedAt(`${text}end\n`) !== lines.length + 1) yield `${name}: with a second end it isn't refused there`;
  for (const at of samples(lines.length)) {
    if (refusedAt([...lines.slice(0, at), ""].join("\n")) === 0) yield `${name}: cut after line ${at} it isn't refused`;
    if (!NEEDED.test(lines[at])) continue;
    const less = [...lines.slice(0, at), ...lines.slice(at + 1), ""].join("\n");
    if (refusedAt(less) === 0) yield `${name}: without line ${at + 1} it isn't refused`;
  }
}

/** What is read, counted once more in the text. */
function* counted(name, text) {
  const report = Loft.readReport(text);
  const count = (pattern) => (text.match(pattern) ?? []).length;
  const instants = report.schedulers.flatMap((it) => it.instants);
  const sum = (of) => instants.reduce((total, it) => total + of(it), 0);
  const pairs = [
    ["choices", report.choices.length, count(/^(take|give|pick|post|client) /gm)],
    ["schedulers", report.schedulers.length, count(/^scheduler /gm)],
    ["instants", instants.length, count(/^instant /gm)],
    ["orders of batches", sum((it) => it.batch.length), count(/^(in|void|full) /gm)],
    ["acts", sum((it) => it.acts.length + it.batch.filter(({ end }) => end !== null).length), count(/^(print|gen|out|end) /gm)],
    ["threads that leave", sum((it) => it.leaves.length), count(/^leave /gm)],
    ["threads that ran", sum((it) => it.at.length), count(/^at /gm)],
    ["lines", report.lines.length, count(/\n/g)],
  ];
  for (const [what, found, wanted] of pairs) if (found !== wanted) yield `${name}: ${found} ${what} are read, and ${wanted} stand there`;
}

/** Texts that aren't reports, with the line at which they are refused. */
const REFUSED = [
  ["", 1],
  ["\n", 1],
  ["loft-report 2\n", 1],
  ["source: unknown name at 35\n", 1],
  ["loft-report 1\ninstants 0\n", 2],
  ["loft-report 1\ninstants 1000001\n", 2],
  ["loft-report 1\ninstants 1\nbudget 1\nblock 1\nworkers 17\n", 5],
];

/** Texts that are no numbers of 64 bits. */
const WRONG_NUMBERS = ["9223372036854775808", "-9223372036854775809", "-0", "00", "+1", "1.5", "0x1"];

function* numbers() {
  const text = longReport(2);
  const line = text.split("\n").findIndex((it) => it.startsWith("gen ")) + 1;
  for (const number of WRONG_NUMBERS) {
    if (refusedAt(text.replace(/^(gen \S+ bell) 1$/m, `$1 ${number}`)) !== line) yield `the number ${number} isn't refused`;
  }
  for (const number of ["9223372036854775807", "-9223372036854775808"]) {
    if (refusedAt(text.replace(/^(gen \S+ bell) 1$/m, `$1 ${number}`)) !== 0) yield `the number ${number} is refused`;
  }
}

/** All that goes wrong. @returns {{tried: number, failures: string[]}} */
export function tryReader() {
  const failures = [];
  const reports = [...storedReports(), ...[1, 2, 300].map((count) => ({ name: `${count} instants`, text: longReport(count) }))];
  for (const { name, text } of reports) {
    const line = refusedAt(text);
    if (line !== 0) failures.push(`${name} is refused at line ${line}`);
    else failures.push(...counted(name, text), ...altered(name, text), ...cut(name, text));
  }
  for (const [text, line] of REFUSED) {
    if (refusedAt(text) !== line) failures.push(`${JSON.stringify(text)} isn't refused at line ${line}`);
  }
  failures.push(...numbers());
  return { tried: reports.length, failures };
}
