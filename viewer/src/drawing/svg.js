/* ---- A pen that writes SVG in place of drawing: the part of a canvas's context that the page draws with. */

function xmlText(text) { return String(text).replace(/&/g, "&amp;").replace(/</g, "&lt;").replace(/>/g, "&gt;").replace(/"/g, "&quot;"); }

/** A number with at most two decimals, so that the file is short and the same each time. */
function shortNumber(value) { return String(Math.round(value * 100) / 100); }

/** A colour as SVG 1.1 has it, the part that it covers apart. */
function paintOf(what, color) {
  const faint = /^(#[0-9a-f]{6})([0-9a-f]{2})$/i.exec(color);
  return faint ? ` ${what}="${faint[1]}" ${what}-opacity="${shortNumber(parseInt(faint[2], 16) / 255)}"` : ` ${what}="${color}"`;
}

class SvgPen {
  parts = [];
  defs = new Map();
  path = [];
  dash = [];
  opened = [0];
  fillStyle = "#000000";
  strokeStyle = "#000000";
  lineWidth = 1;
  lineCap = "butt";
  font = "12px sans-serif";
  textAlign = "left";

  fillRect(x, y, width, height) { this.put(`<rect ${this.box(x, y, width, height)} ${paintOf("fill", this.fillStyle)}/>`); }

  strokeRect(x, y, width, height) { this.put(`<rect ${this.box(x, y, width, height)} fill="none"${this.line()}/>`); }

  beginPath() { this.path = []; }

  moveTo(x, y) { this.path.push(`M${shortNumber(x)} ${shortNumber(y)}`); }

  lineTo(x, y) { this.path.push(`${this.path.length === 0 ? "M" : "L"}${shortNumber(x)} ${shortNumber(y)}`); }

  rect(x, y, width, height) { this.path.push(`M${shortNumber(x)} ${shortNumber(y)}h${shortNumber(width)}v${shortNumber(height)}h${shortNumber(-width)}z`); }

  roundRect(x, y, width, height, radius) {
    const r = Math.min(radius, width / 2, height / 2);
    const [w, h, c] = [width - 2 * r, height - 2 * r, r].map(shortNumber);
    const turn = (dx, dy) => `a${c} ${c} 0 0 1 ${dx}${c} ${dy}${c}`;
    this.path.push(`M${shortNumber(x + r)} ${shortNumber(y)}h${w}${turn("", "")}v${h}${turn("-", "")}h-${w}${turn("-", "-")}v-${h}${turn("", "-")}z`);
  }

  arc(x, y, radius, from, to) {
    const at = (angle) => `${shortNumber(x + radius * Math.cos(angle))} ${shortNumber(y + radius * Math.sin(angle))}`;
    const parts = Math.abs(to - from) > Math.PI ? [(from + to) / 2, to] : [to];
    this.path.push(`${this.path.length === 0 ? "M" : "L"}${at(from)}`, ...parts.map((angle) => `A${shortNumber(radius)} ${shortNumber(radius)} 0 0 1 ${at(angle)}`));
  }

  fill() { this.put(`<path d="${this.path.join("")}" fill="${this.fillStyle}"/>`); }

  stroke() { this.put(`<path d="${this.path.join("")}" fill="none"${this.line()}/>`); }

  fillText(text, x, y) {
    if (text === "") { return; }
    const [, weight, size] = /^(\d+ )?([\d.]+)px/.exec(this.font);
    const anchor = { left: "start", center: "middle", right: "end" }[this.textAlign];
    this.put(`<text x="${shortNumber(x)}" y="${shortNumber(y + Number(size) * 0.35)}" font-size="${size}"${weight ? ` font-weight="${weight.trim()}"` : ""} ` +
      `text-anchor="${anchor}"${paintOf("fill", this.fillStyle)}>${xmlText(text)}</text>`);
  }

  measureText(text) {
    measuring.font = this.font;
    return measuring.measureText(text);
  }

  save() { this.opened.push(0); }

  clip() {
    const id = `c${this.defs.size}`;
    this.defs.set(id, `<clipPath id="${id}"><path d="${this.path.join("")}"/></clipPath>`);
    this.put(`<g clip-path="url(#${id})">`);
    this.opened[this.opened.length - 1] += 1;
  }

  restore() { this.put("</g>".repeat(this.opened.pop())); }

  translate(x, y) {
    this.put(`<g transform="translate(${shortNumber(x)} ${shortNumber(y)})">`);
    this.opened[this.opened.length - 1] += 1;
  }

  setLineDash(dash) { this.dash = dash; }

  /** Slanted lines as a fill. */
  hatch(color) {
    const id = `h${color.slice(1)}`;
    this.defs.set(id, `<pattern id="${id}" width="8" height="8" patternUnits="userSpaceOnUse"><rect width="8" height="8" fill="${color}" fill-opacity="0.18"/>` +
      `<path d="M-1 9L9 -1M-1 1L1 -1M7 9L9 7" stroke="${color}" stroke-width="2"/></pattern>`);
    return `url(#${id})`;
  }

  box(x, y, width, height) { return `x="${shortNumber(x)}" y="${shortNumber(y)}" width="${shortNumber(Math.max(width, 0))}" height="${shortNumber(Math.max(height, 0))}"`; }

  line() {
    const dash = this.dash.length > 0 ? ` stroke-dasharray="${this.dash.join(" ")}"` : "";
    return `${paintOf("stroke", this.strokeStyle)} stroke-width="${shortNumber(this.lineWidth)}"${dash}`;
  }

  put(part) { if (part) { this.parts.push(part); } }

  /** The whole file. */
  text(width, height, title) {
    return `<svg xmlns="http://www.w3.org/2000/svg" width="${width}" height="${height}" viewBox="0 0 ${width} ${height}" font-family="${xmlText(FONT)}">\n` +
      `<title>${xmlText(title)}</title>\n<defs>${[...this.defs.values()].join("\n")}</defs>\n${this.parts.join("\n")}\n</svg>\n`;
  }
}
