"use strict";
globalThis.Loft ??= {};

// The page: opens a report, and keeps its picture, the panel and what is selected.
{
  const NARROWEST = 3;
  const WIDEST = 240;
  const FIRST = { least: 44, most: 120 };
  const MOST_PIXELS = 1.5e7;
  const WHOLE_PIXELS = 4e6;

  const part = (id) => document.getElementById(id);
  const between = (least, value, most) => Math.max(least, Math.min(most, value));

  /** The page with one report, or none. */
  class Page {
    constructor() {
      this.run = null;
      this.layout = null;
      this.name = "";
      this.selected = null;
      this.hovered = null;
      this.unit = FIRST.least;
      this.planned = false;
      this.dark = matchMedia("(prefers-color-scheme: dark)");
      this.scroller = part("scroller");
      this.setColours();
      part("legend").innerHTML = Loft.legend();
      this.listen();
    }

    /** The colours as variables and classes of the page. */
    setColours() {
      const { light, dark } = Loft.COLOURS;
      const set = (colours) => Object.entries(colours).map(([name, value]) => `--${name}:${value}`).join(";");
      const classes = Object.keys(light).map((name) => `.f-${name}{fill:var(--${name})}.s-${name}{stroke:var(--${name})}`);
      const sheet = document.createElement("style");
      const inDark = `@media screen and (prefers-color-scheme:dark){:root{${set(dark)}}}`;
      sheet.textContent = `:root{${set(light)}}${inDark}${classes.join("")}`;
      document.head.append(sheet);
    }

    listen() {
      part("file").addEventListener("change", ({ target }) => this.openFile(target.files[0]));
      part("tools").addEventListener("submit", (event) => event.preventDefault());
      part("filter").addEventListener("input", () => this.filter());
      part("in").addEventListener("click", () => this.zoom(this.unit * 1.4));
      part("out").addEventListener("click", () => this.zoom(this.unit / 1.4));
      part("fit").addEventListener("click", () => this.zoom(this.fitting()));
      part("save").addEventListener("click", () => this.save());
      part("only").addEventListener("click", () => this.only());
      this.scroller.addEventListener("scroll", () => this.plan());
      this.scroller.addEventListener("pointermove", (event) => this.point(event));
      this.scroller.addEventListener("pointerleave", () => this.hover(null, ""));
      this.scroller.addEventListener("click", (event) => this.click(event));
      this.scroller.addEventListener("keydown", (event) => this.key(event));
      this.dark.addEventListener("change", () => this.plan());
      new ResizeObserver(() => this.plan()).observe(this.scroller);
      addEventListener("beforeprint", () => this.print());
      this.listenToDrops();
    }

    listenToDrops() {
      addEventListener("dragover", (event) => {
        event.preventDefault();
        document.body.classList.add("over");
      });
      addEventListener("dragleave", ({ relatedTarget }) => {
        if (relatedTarget === null) document.body.classList.remove("over");
      });
      addEventListener("drop", (event) => {
        event.preventDefault();
        document.body.classList.remove("over");
        this.openFile(event.dataTransfer.files[0]);
      });
    }

    /** @param {File|undefined} file */
    async openFile(file) {
      if (file === undefined) return;
      part("summary").className = "";
      part("summary").textContent = `Reading ${file.name} ..`;
      const bytes = await file.arrayBuffer();
      await new Promise((resolve) => setTimeout(resolve));
      this.open(new TextDecoder("latin1").decode(bytes), file.name);
      part("file").value = "";
    }

    /** Shows a report, or says why a text isn't one. @param {string} text @param {string} name */
    open(text, name) {
      try {
        this.run = Loft.runOf(Loft.readReport(text));
      } catch (error) {
        if (!(error instanceof Loft.NotAReport)) throw error;
        this.refuse(`${name} isn't a report: ${error.message}.`);
        return;
      }
      this.name = name;
      this.arrows = Loft.arrowsByLine(this.run);
      part("filter").value = "";
      const ids = [...this.run.threads.keys()].slice(0, 500);
      part("ids").replaceChildren(...ids.map((id) => Object.assign(document.createElement("option"), { value: id })));
      part("picture").hidden = false;
      this.filter();
      this.choose(this.firstPlace());
      this.unit = between(FIRST.least, this.fitting(), FIRST.most);
      this.size();
      this.scroller.scrollTo(0, 0);
      this.scroller.focus();
    }

    refuse(why) {
      this.run = null;
      part("picture").hidden = true;
      part("panel").hidden = true;
      part("summary").className = "refused";
      part("summary").textContent = why;
    }

    /** Lays out the threads that the filter names. */
    filter() {
      if (this.run === null) return;
      const text = part("filter").value;
      this.layout = new Loft.Layout(this.run, Loft.filterOf(text));
      this.selected = this.selected && this.layout.bandOf.has(this.selected.lane) ? { ...this.selected, row: -1 } : null;
      this.hovered = null;
      this.summarise();
      this.plan();
    }

    /** Says what is shown. */
    summarise() {
      const { report, threads, length } = this.run;
      const instants = report.schedulers.reduce((sum, it) => sum + it.instants.length, 0);
      const shown = this.layout.shown.size;
      const many = (count, word) => `${count} ${word}${count === 1 ? "" : "s"}`;
      part("summary").className = "";
      part("summary").textContent = `${this.name}: ${many(report.schedulers.length, "scheduler")}, ${many(instants, "instant")}, `
        + `${many(length, "choice")}, ${shown === threads.size ? "" : `${shown} of `}${many(threads.size, "thread")}.`;
    }

    /** The unit at which all of the run has room. */
    fitting() {
      return (this.scroller.clientWidth - this.gutter() - 4) / this.layout.width;
    }

    gutter() {
      return this.scroller.clientWidth < 600 ? 92 : 150;
    }

    /** Sets the width of a take; what is in the middle stays there. */
    zoom(unit) {
      if (this.run === null) return;
      const { scroller } = this;
      const middle = (scroller.clientWidth - this.gutter()) / 2;
      const units = (scroller.scrollLeft + middle) / this.unit;
      this.unit = between(NARROWEST, unit, Math.min(WIDEST, MOST_PIXELS / this.layout.width));
      this.size();
      scroller.scrollLeft = units * this.unit - middle;
      this.plan();
    }

    /** Gives the scroller the size of the whole picture. */
    size() {
      part("space").style.width = `${this.gutter() + this.layout.width * this.unit}px`;
      part("space").style.height = `${this.layout.height}px`;
    }

    /** @returns {object} what is to be drawn */
    view() {
      const { scrollLeft, scrollTop, clientWidth, clientHeight } = this.scroller;
      return { left: scrollLeft, top: scrollTop, width: clientWidth, height: clientHeight, unit: this.unit, gutter: this.gutter(),
        selected: this.selected, hovered: this.hovered };
    }

    /** Draws before the next frame. */
    plan() {
      if (this.planned || this.run === null) return;
      this.planned = true;
      requestAnimationFrame(() => {
        this.planned = false;
        if (this.run !== null) this.draw();
      });
    }

    draw() {
      this.size();
      const view = this.view();
      const canvas = part("canvas");
      const scale = devicePixelRatio || 1;
      canvas.width = Math.round(view.width * scale);
      canvas.height = Math.round(view.height * scale);
      canvas.style.width = `${view.width}px`;
      canvas.style.height = `${view.height}px`;
      const context = canvas.getContext("2d");
      context.scale(scale, scale);
      Loft.draw(new Loft.CanvasPainter(context, Loft.COLOURS[this.dark.matches ? "dark" : "light"]), this.layout, view);
    }

    /** The point of an event in the picture. */
    pointOf({ clientX, clientY }) {
      const { left, top } = this.scroller.getBoundingClientRect();
      return [clientX - left, clientY - top];
    }

    /** Says what is under the pointer. */
    point(event) {
      if (this.run === null) return;
      const [x, y] = this.pointOf(event);
      const place = x < this.gutter() ? null : Loft.placeAt(this.layout, this.view(), x, y);
      const stay = place && Loft.stayOf(this.layout, place);
      const link = Loft.linkAt(this.layout, this.view(), x, y);
      if (link !== null) this.hover(link, Loft.linkSentence(link), x, y);
      else if (stay) this.hover(null, Loft.staySentences(stay, Loft.happeningAt(place.lane, place.time)).join("\n"), x, y);
      else this.hover(null, "");
    }

    /** Shows a text at a point, or hides it. */
    hover(link, text, x = 0, y = 0) {
      if (this.hovered !== link) {
        this.hovered = link;
        this.plan();
      }
      const tip = part("tip");
      tip.hidden = text === "";
      tip.textContent = text;
      if (text === "") return;
      const { clientWidth, clientHeight } = this.scroller;
      tip.style.left = `${between(4, x + 14, Math.max(4, clientWidth - tip.offsetWidth - 4))}px`;
      tip.style.top = `${y + 18 + tip.offsetHeight > clientHeight ? Math.max(4, y - tip.offsetHeight - 10) : y + 18}px`;
    }

    click(event) {
      if (this.run === null) return;
      const place = Loft.placeAt(this.layout, this.view(), ...this.pointOf(event));
      if (place !== null) this.choose(place);
    }

    /** The first instant of the first scheduler that has one. */
    firstPlace() {
      const lane = this.run.lanes.find(({ instants }) => instants.length > 0);
      return lane === undefined ? null : { lane, row: lane.stays.length > 0 ? 0 : -1, time: lane.instants[0].take };
    }

    /** Selects a place, shows it, and says what is there. */
    choose(place) {
      this.selected = place;
      part("panel").hidden = place === null;
      if (place !== null) {
        Loft.showPanel(document, Loft.panelOf(this.layout, place, this.arrows));
        this.reveal(place);
      }
      this.plan();
    }

    /** Scrolls to a place. */
    reveal({ lane, row, time }) {
      this.size();
      const { scroller, layout, unit } = this;
      const room = scroller.clientWidth - this.gutter();
      const happening = Loft.happeningAt(lane, time);
      const left = layout.start(happening?.take ?? time) * unit;
      const right = (happening === undefined ? layout.end(time) : layout.endOf(happening)) * unit;
      const isSeen = left >= scroller.scrollLeft && right <= scroller.scrollLeft + room;
      if (!isSeen) scroller.scrollLeft = left - Math.max(0, (room - right + left) / 2);
      const top = layout.bandOf.get(lane).top + (row < 0 ? 0 : Loft.HEADER + row * Loft.TRACK);
      const bottom = top + Math.max(Loft.HEADER, Loft.TRACK);
      if (top < scroller.scrollTop) scroller.scrollTop = top;
      if (bottom > scroller.scrollTop + scroller.clientHeight) scroller.scrollTop = bottom - scroller.clientHeight;
    }

    /** What each key does. */
    keys() {
      const time = (by) => this.choose(Loft.stepTime(this.layout, this.selected, by));
      const row = (by) => this.choose(Loft.stepRow(this.layout, this.selected, by));
      return {
        ArrowLeft: () => time(-1), ArrowRight: () => time(1), ArrowUp: () => row(-1), ArrowDown: () => row(1),
        Home: () => time(-Infinity), End: () => time(Infinity), PageUp: () => time(-10), PageDown: () => time(10),
        "+": () => this.zoom(this.unit * 1.4), "=": () => this.zoom(this.unit * 1.4), "-": () => this.zoom(this.unit / 1.4),
        0: () => this.zoom(this.fitting()), f: () => this.only(),
        Escape: () => {
          part("filter").value = "";
          this.filter();
          this.choose(null);
        },
      };
    }

    /** @param {KeyboardEvent} event */
    key(event) {
      const does = this.keys()[event.key];
      if (this.run === null || does === undefined || event.ctrlKey || event.metaKey || event.altKey) return;
      event.preventDefault();
      if (this.selected === null) this.choose(this.firstPlace());
      if (this.selected !== null || event.key === "Escape") does();
    }

    /** Filters by the selected thread, or ends that. */
    only() {
      const thread = this.selected && Loft.stayOf(this.layout, this.selected)?.thread;
      const place = this.selected;
      part("filter").value = part("filter").value === "" && thread ? thread.id : "";
      this.filter();
      const rows = this.layout.bandOf.get(place.lane).tracks;
      const row = rows.findIndex((track) => track.some((stay) => stay.thread === thread && stay.from <= place.time));
      this.choose({ ...place, row });
    }

    /** A picture of all of the run, or of what is seen where that is too large. */
    svg() {
      const whole = Loft.wholeView(this.layout, Math.max(this.unit, FIRST.least));
      const view = whole.width * whole.height > WHOLE_PIXELS ? { ...this.view(), selected: null, hovered: null } : whole;
      return Loft.pictureOf(this.layout, view, `The run of ${this.name}`);
    }

    save() {
      if (this.run === null) return;
      const url = URL.createObjectURL(new Blob([this.svg()], { type: "image/svg+xml" }));
      Object.assign(document.createElement("a"), { href: url, download: `${this.name}.svg` }).click();
      setTimeout(() => URL.revokeObjectURL(url), 1000);
    }

    /** Lets paper have the picture as SVG. */
    print() {
      part("printed").innerHTML = this.run === null ? "" : this.svg();
    }
  }

  Loft.page = new Page();
}
