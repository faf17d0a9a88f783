// Tries the page in a browser: what it shows of three reports is compared with the reports themselves.
import { mkdtempSync, rmSync, writeFileSync } from "node:fs";
import { tmpdir } from "node:os";
import { join } from "node:path";
import { pathToFileURL } from "node:url";
import { Browser, chromium } from "./browser.mjs";
import { Loft } from "./load.mjs";
import { TOP, VIEW, bytes, longReport, storedReports } from "./reports.mjs";

const SMALL = ["examples/ferry.loft.stdout", "docs/tutorial/11_long_search.loft.stdout"];
const SIZES = [[1280, 800, false], [390, 844, false], [1280, 800, true]];

/** One report on the page. */
class Trial {
  /** @param {Browser} browser @param {string} name @param {string} text */
  constructor(browser, name, text) {
    Object.assign(this, { browser, name, text, failures: [] });
    this.run = Loft.runOf(Loft.readReport(text));
    this.layout = new Loft.Layout(this.run, () => true);
  }

  /** Notes where two things differ. */
  same(what, found, wanted) {
    const [a, b] = [JSON.stringify(found), JSON.stringify(wanted)];
    if (a !== b) this.failures.push(`${this.name}: ${what} is ${a}, not ${b}`);
  }

  /** The text of an element. @param {string} id */
  textOf(id) {
    return this.browser.value(`document.getElementById(${JSON.stringify(id)}).innerText`);
  }

  /** Opens the report as a file. @param {string} file */
  async open(file) {
    await this.browser.choose("#file", file);
    const base = file.split("/").at(-1);
    await this.browser.until(`document.getElementById("summary").textContent.startsWith(${JSON.stringify(base)})
      && !Loft.page.planned`);
  }

  /** The line that says what is open. */
  async summary() {
    const { report, threads } = this.run;
    const instants = report.schedulers.reduce((sum, it) => sum + it.instants.length, 0);
    const numbers = (await this.textOf("summary")).match(/[0-9]+ (?=scheduler|instant|choice|thread)/g).map(Number);
    this.same("the summary", numbers, [report.schedulers.length, instants, report.choices.length, threads.size]);
  }

  /** The panel, for some instants of each scheduler, as the keys lead to them. @param {number} most */
  async instants(most) {
    await this.browser.press("Home");
    for (const { instants, name } of this.run.report.schedulers) {
      await this.browser.value(`Loft.page.choose({ lane: Loft.page.run.lane.get("scheduler ${name}"), row: -1, time: 0 })`);
      await this.browser.press("Home");
      for (const instant of instants.slice(0, most)) {
        const lines = this.run.report.lines.slice(instant.line - 1, instant.after - 1);
        const shown = await this.browser.value('[...document.querySelectorAll("#lines li")].map((it) => it.firstChild.textContent)');
        this.same(`instant ${instant.number} of ${name}`, shown, lines.slice(0, 300));
        await this.browser.press("ArrowRight");
      }
      await this.browser.press("End");
      const last = await this.textOf("place");
      const isLast = instants.length === 0 || last.startsWith(`${name}, instant ${instants.length} `);
      if (!isLast) this.failures.push(`${this.name}: End leads to ${last}`);
    }
  }

  /** Where a thread's bar stands on the page. @returns {Promise<{x: number, y: number}>} */
  async barOf(stay, mark) {
    await this.browser.value(`Loft.page.choose({ lane: Loft.page.run.lane.get("${stay.lane.kind} ${stay.lane.name}"),
      row: ${this.layout.rows.get(stay)}, time: ${mark.time} })`);
    await this.browser.until("!Loft.page.planned");
    const view = await this.browser.value("(({ left, top, unit, gutter }) => ({ left, top, unit, gutter }))(Loft.page.view())");
    const { x, y } = await this.browser.value("(({ x, y }) => ({ x, y }))(Loft.page.scroller.getBoundingClientRect())");
    const along = this.layout.start(mark.time) + 0.45;
    return { left: x, top: y, x: x + view.gutter + along * view.unit - view.left, y: y + this.layout.yOf(stay) - view.top };
  }

  /** The first bars with a print: their colour, and what is said when the pointer is on them. @param {number} most */
  async bars(most, dark) {
    const found = this.run.lanes.flatMap((lane) => lane.stays.flatMap((stay) => stay.marks
      .filter(({ said, note }) => said !== null && note !== null).map((mark) => ({ stay, mark }))));
    for (const { stay, mark } of found.slice(0, most)) {
      const at = await this.barOf(stay, mark);
      await this.browser.move(at.x, at.y);
      const tip = await this.textOf("tip");
      const says = tip.includes(`prints ${mark.said}`);
      if (!says) this.failures.push(`${this.name}: the pointer on ${stay.thread.id} finds ${JSON.stringify(tip)}`);
      const pixel = await this.browser.value(`(() => { const canvas = document.getElementById("canvas");
        const scale = canvas.width / canvas.clientWidth; const [r, g, b] = canvas.getContext("2d")
        .getImageData(Math.round(${at.x - at.left} * scale), Math.round((${at.y - at.top} - 6.5) * scale), 1, 1).data; return [r, g, b]; })()`);
      const colour = Loft.COLOURS[dark ? "dark" : "light"][Loft.colourOf(stay.thread)];
      this.same(`the bar of ${stay.thread.id}`, pixel, [1, 3, 5].map((from) => parseInt(colour.slice(from, from + 2), 16)));
    }
    await this.browser.move(0, 0);
  }

  /** The filter, as it is typed and as the key sets it. */
  async filter() {
    const id = [...this.run.threads.keys()][0];
    const set = (text) => `(() => { const box = document.getElementById("filter"); box.value = ${JSON.stringify(text)};
      box.dispatchEvent(new Event("input")); return Loft.page.layout.shown.size; })()`;
    this.same(`the filter ${id}`, await this.browser.value(set(id)), 1);
    this.same("no filter", await this.browser.value(set("")), this.run.threads.size);
    const first = this.run.lanes.find(({ stays }) => stays.length > 0);
    await this.browser.value(`Loft.page.choose({ lane: Loft.page.run.lane.get("${first.kind} ${first.name}"), row: 0, time: ${first.stays[0].from} });
      document.getElementById("scroller").focus()`);
    for (const [key, wanted] of [["f", 1], ["f", this.run.threads.size], ["f", 1], ["Escape", this.run.threads.size]]) {
      await this.browser.press(key);
      this.same(`the number of threads after ${key}`, await this.browser.value("Loft.page.layout.shown.size"), wanted);
    }
    this.same("the panel after Escape", await this.browser.value('document.getElementById("panel").hidden'), true);
  }

  /** The report as it is dropped on the page. */
  async drop() {
    await this.browser.value(`(() => { const data = new DataTransfer();
      data.items.add(new File([${JSON.stringify(this.text)}], "dropped"));
      document.body.dispatchEvent(new DragEvent("drop", { dataTransfer: data, bubbles: true, cancelable: true })); })()`);
    await this.browser.until('document.getElementById("summary").textContent.startsWith("dropped:")');
    await this.summary();
  }

  /** The page is as wide as its window, and nothing of it is scrolled sideways. */
  async fits(width) {
    const wide = await this.browser.value("document.documentElement.scrollWidth");
    if (wide > width) this.failures.push(`${this.name}: the page is ${wide} pixels wide, in a window of ${width}`);
    const { shown, picture } = await this.browser.value(`({ shown: document.getElementById("panel").clientHeight,
      picture: document.getElementById("scroller").clientHeight })`);
    if (shown < 100 || picture < 200) this.failures.push(`${this.name}: the panel is ${shown} pixels high, the picture ${picture}`);
  }
}

/** Tries one report in windows of all sizes. */
async function tryReport(browser, name, file, text, most) {
  const trial = new Trial(browser, name, text);
  for (const [width, height, dark] of SIZES) {
    await browser.size(width, height, dark);
    await trial.open(file);
    await trial.summary();
    await trial.fits(width);
    await trial.bars(most, dark);
  }
  await trial.instants(most);
  await trial.filter();
  await trial.drop();
  return trial.failures;
}

/** A text that is no report: the page says so, with the line, and shows no picture. */
async function tryRefused(browser, file) {
  await browser.choose("#file", file);
  await browser.until('document.getElementById("summary").className === "refused"');
  const said = await browser.value('document.getElementById("summary").textContent');
  const shown = await browser.value('!document.getElementById("picture").hidden');
  const right = said.includes("isn't a report: line 8: ") && !shown;
  return right ? [] : [`a text that is no report: the page says ${JSON.stringify(said)}`];
}

/** All that goes wrong. @returns {Promise<{tried: number, failures: string[], skipped?: string}>} */
export async function tryPage() {
  const program = chromium();
  if (program === undefined) return { tried: 0, failures: [], skipped: "there is no Chromium" };
  const folder = mkdtempSync(join(tmpdir(), "view-"));
  const browser = new Browser(program);
  try {
    await browser.open(pathToFileURL(join(VIEW, "index.html")).href);
    const failures = [];
    for (const name of SMALL) failures.push(...await tryReport(browser, name, join(TOP, name), bytes(name), 20));
    const largest = storedReports().reduce((best, it) => (it.text.length > best.text.length ? it : best));
    const large = [largest, { name: "long", text: longReport(12000) }];
    for (const { name, text } of large) {
      const file = join(folder, `${name.split("/").at(-1)}.txt`);
      writeFileSync(file, text, "latin1");
      failures.push(...await tryReport(browser, name, file, text, 3));
    }
    const wrong = join(folder, "wrong.txt");
    writeFileSync(wrong, bytes(SMALL[0]).replace("give West", "gives West"), "latin1");
    failures.push(...await tryRefused(browser, wrong));
    return { tried: SMALL.length + large.length + 1, failures };
  } finally {
    await browser.close();
    rmSync(folder, { recursive: true, force: true });
  }
}
