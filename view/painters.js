"use strict";
globalThis.Loft ??= {};

// Two that paint: one on a canvas, one that writes SVG. Colours are given by their names in `COLOURS`.
{
  const FONT = "ui-monospace, 'DejaVu Sans Mono', Menlo, Consolas, monospace";
  const LETTER = 0.603;

  /**
   * @typedef {{fill?: string, stroke?: string, width?: number, dash?: number[], radius?: number, opacity?: number}} Style
   * @typedef {{fill: string, size?: number, bold?: boolean, anchor?: "start"|"middle"|"end", halo?: string}} Letters
   */

  /** The width of a text, of letters that are all equally wide. */
  function widthOf(text, size = 11) {
    return text.length * size * LETTER;
  }

  /** A text, cut to a width. @param {string} text @param {number} width */
  function fitted(text, width, size = 11) {
    const most = Math.floor(width / (size * LETTER));
    if (text.length <= most) return text;
    return most < 2 ? "" : `${text.slice(0, most - 1)}…`;
  }

  /** The control points of the curve of a link. */
  function bendOf(x1, x2) {
    return Math.max(10, Math.min(60, Math.abs(x2 - x1) / 2));
  }

  /** How far a point is from the curve of a link. */
  function distance({ x1, y1, x2, y2 }, px, py) {
    const bend = bendOf(x1, x2);
    let least = Infinity;
    for (let step = 0; step <= 20; step += 1) {
      const t = step / 20;
      const u = 1 - t;
      const x = u ** 3 * x1 + 3 * u * u * t * (x1 + bend) + 3 * u * t * t * (x2 - bend) + t ** 3 * x2;
      const y = (u ** 3 + 3 * u * u * t) * y1 + (3 * u * t * t + t ** 3) * y2;
      least = Math.min(least, Math.hypot(px - x, py - y));
    }
    return least;
  }

  /** Paints on a canvas. */
  class CanvasPainter {
    /** @param {CanvasRenderingContext2D} context @param {Object<string, string>} colours */
    constructor(context, colours) {
      this.context = context;
      this.colours = colours;
    }

    /** Fills and strokes what was begun. @param {Style} style */
    finish({ fill, stroke, width = 1, dash = [], opacity = 1 }) {
      const { context } = this;
      context.globalAlpha = opacity;
      if (fill !== undefined) {
        context.fillStyle = this.colours[fill];
        context.fill();
      }
      if (stroke !== undefined) {
        context.strokeStyle = this.colours[stroke];
        context.lineWidth = width;
        context.setLineDash(dash);
        context.stroke();
      }
      context.globalAlpha = 1;
    }

    rect(x, y, width, height, style) {
      this.context.beginPath();
      if (style.radius) this.context.roundRect(x, y, width, height, style.radius);
      else this.context.rect(x, y, width, height);
      this.finish(style);
    }

    line(points, style) {
      this.context.beginPath();
      points.forEach(([x, y], index) => (index === 0 ? this.context.moveTo(x, y) : this.context.lineTo(x, y)));
      if (style.fill !== undefined) this.context.closePath();
      this.finish(style);
    }

    curve(x1, y1, x2, y2, style) {
      const bend = bendOf(x1, x2);
      this.context.beginPath();
      this.context.moveTo(x1, y1);
      this.context.bezierCurveTo(x1 + bend, y1, x2 - bend, y2, x2, y2);
      this.finish(style);
    }

    dot(x, y, radius, style) {
      this.context.beginPath();
      this.context.arc(x, y, radius, 0, 2 * Math.PI);
      this.finish(style);
    }

    text(x, y, text, { fill, size = 11, bold = false, anchor = "start", halo }) {
      const { context } = this;
      context.font = `${bold ? "bold " : ""}${size}px ${FONT}`;
      context.textAlign = anchor === "middle" ? "center" : anchor;
      context.textBaseline = "middle";
      if (halo !== undefined) {
        context.strokeStyle = this.colours[halo];
        context.lineWidth = 3;
        context.setLineDash([]);
        context.lineJoin = "round";
        context.strokeText(text, x, y);
      }
      context.fillStyle = this.colours[fill];
      context.fillText(text, x, y);
    }

    /** Paints within a rectangle only. @param {() => void} paint */
    clip(x, y, width, height, paint) {
      this.context.save();
      this.context.beginPath();
      this.context.rect(x, y, width, height);
      this.context.clip();
      paint();
      this.context.restore();
    }

    /** Paints what has a title, which a canvas doesn't show. @param {() => string} title @param {() => void} paint */
    titled(title, paint) {
      paint();
    }
  }

  const escaped = (text) => text.replace(/[&<>"]/g, (sign) => ({ "&": "&amp;", "<": "&lt;", ">": "&gt;", '"': "&quot;" })[sign]);
  const short = (number) => String(Math.round(number * 10) / 10);

  /** Writes SVG. */
  class SvgPainter {
    constructor() {
      this.parts = [];
      this.clips = 0;
    }

    /** An element. @param {string} name @param {Object<string, string|number|undefined>} attributes */
    add(name, attributes, content) {
      const written = Object.entries(attributes).filter(([, value]) => value !== undefined)
        .map(([key, value]) => ` ${key}="${typeof value === "number" ? short(value) : escaped(value)}"`).join("");
      this.parts.push(content === undefined ? `<${name}${written}/>` : `<${name}${written}>${escaped(content)}</${name}>`);
    }

    /** What a style is in SVG. @param {Style} style */
    styled({ fill, stroke, width = 1, dash = [], opacity }) {
      const classes = [fill === undefined ? "none" : `f-${fill}`, stroke === undefined ? "" : `s-${stroke}`].join(" ").trim();
      return { class: classes, "stroke-width": stroke === undefined || width === 1 ? undefined : width,
        "stroke-dasharray": dash.length === 0 ? undefined : dash.join(" "), opacity };
    }

    rect(x, y, width, height, style) {
      this.add("rect", { x, y, width, height, rx: style.radius, ...this.styled(style) });
    }

    line(points, style) {
      const name = style.fill === undefined ? "polyline" : "polygon";
      this.add(name, { points: points.map((point) => point.map(short).join(",")).join(" "), ...this.styled(style) });
    }

    curve(x1, y1, x2, y2, style) {
      const bend = bendOf(x1, x2);
      const [a, b, c, d, e, f] = [x1, y1, x1 + bend, x2 - bend, x2, y2].map(short);
      this.add("path", { d: `M${a} ${b}C${c} ${b} ${d} ${f} ${e} ${f}`, ...this.styled(style) });
    }

    dot(cx, cy, r, style) {
      this.add("circle", { cx, cy, r, ...this.styled(style) });
    }

    text(x, y, text, { fill, size = 11, bold = false, anchor = "start", halo }) {
      this.add("text", { x, y: y + size * 0.35, class: `f-${fill}${halo === undefined ? "" : ` h-${halo}`}`,
        "font-size": size === 11 ? undefined : size, "font-weight": bold ? "bold" : undefined,
        "text-anchor": anchor === "start" ? undefined : anchor }, text);
    }

    clip(x, y, width, height, paint) {
      this.clips += 1;
      this.parts.push(`<clipPath id="c${this.clips}"><rect x="${short(x)}" y="${short(y)}" width="${short(width)}" `
        + `height="${short(height)}"/></clipPath><g clip-path="url(#c${this.clips})">`);
      paint();
      this.parts.push("</g>");
    }

    titled(title, paint) {
      this.parts.push(`<g><title>${escaped(title())}</title>`);
      paint();
      this.parts.push("</g>");
    }

    /** The whole picture. @param {number} width @param {number} height @param {string} title */
    whole(width, height, title) {
      const rules = (colours) => Object.entries(colours)
        .map(([name, value]) => `.f-${name}{fill:${value}}.s-${name}{stroke:${value}}.h-${name}{stroke:${value}}`).join("");
      const { light, dark } = Loft.COLOURS;
      return `<svg xmlns="http://www.w3.org/2000/svg" width="${short(width)}" height="${short(height)}" `
        + `viewBox="0 0 ${short(width)} ${short(height)}" role="img" font-family="${FONT}" font-size="11">\n`
        + `<title>${escaped(title)}</title>\n`
        + `<style>.none{fill:none}text[class*="h-"]{paint-order:stroke;stroke-width:3px;stroke-linejoin:round}${rules(light)}`
        + `@media screen and (prefers-color-scheme:dark){${rules(dark)}}</style>\n${this.parts.join("\n")}\n</svg>\n`;
    }
  }

  Object.assign(Loft, { CanvasPainter, SvgPainter, widthOf, fitted, distance });
}
