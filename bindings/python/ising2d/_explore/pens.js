// A pen that writes SVG by the same calls as those of a canvas that the scene makes.

const SVG = "http://www.w3.org/2000/svg";
const short = (value) => String(Math.round(value * 10) / 10);

class SvgPen {
  constructor(wide, high) {
    Object.assign(this, { wide, high, parts: [], fillStyle: "#000000", strokeStyle: "#000000" });
    Object.assign(this, { lineWidth: 1, globalAlpha: 1, lineCap: "butt", lineJoin: "miter", dash: [] });
    this.textAlign = "start";
    this.font = "11px sans-serif";
  }

  beginPath() {
    this.path = [];
  }

  moveTo(x, y) {
    this.path.push(`M${short(x)} ${short(y)}`);
  }

  lineTo(x, y) {
    this.path.push(`L${short(x)} ${short(y)}`);
  }

  // A whole circle. Its radius is rounded first, so that it is half of the way across.
  arc(x, y, radius) {
    const own = Math.round(radius * 10) / 10, half = `a${own} ${own} 0 1 0`;
    this.path.push(`M${short(x - own)} ${short(y)}${half} ${short(2 * own)} 0${half} -${short(2 * own)} 0Z`);
  }

  setLineDash(dash) {
    this.dash = dash;
  }

  fill() {
    this.part("path", { d: this.path.join(""), fill: this.fillStyle });
  }

  stroke() {
    const look = { fill: "none", stroke: this.strokeStyle, "stroke-width": short(this.lineWidth) };
    if (this.dash.length) look["stroke-dasharray"] = this.dash.map(short).join(" ");
    if (this.lineCap !== "butt") look["stroke-linecap"] = this.lineCap;
    if (this.lineJoin !== "miter") look["stroke-linejoin"] = this.lineJoin;
    this.part("path", { d: this.path.join(""), ...look });
  }

  fillText(text, x, y) {
    const anchor = this.textAlign === "center" ? { "text-anchor": "middle" } : {};
    const size = parseFloat(this.font.match(/[\d.]+px/));
    this.part("text", { x: short(x), y: short(y), fill: this.fillStyle, "font-size": size, ...anchor }, text);
  }

  part(name, look, text) {
    if (look.d === "") return;
    if (this.globalAlpha !== 1) look.opacity = short(10 * this.globalAlpha) / 10;
    this.parts.push([name, look, text]);
  }

  // The picture as an element of the page.
  element() {
    const made = (name, look, text) => {
      const own = document.createElementNS(SVG, name);
      for (const [key, value] of Object.entries(look)) own.setAttribute(key, value);
      if (text !== undefined) own.textContent = text;
      return own;
    };
    const [wide, high] = [short(this.wide), short(this.high)];
    const size = { viewBox: `0 0 ${wide} ${high}`, width: wide, height: high };
    const whole = made("svg", { ...size, "font-family": "sans-serif" });
    whole.append(made("rect", { width: "100%", height: "100%", fill: "#FFFFFF" }));
    for (const [name, look, text] of this.parts) whole.append(made(name, look, text));
    return whole;
  }

  text() {
    return new XMLSerializer().serializeToString(this.element()) + "\n";
  }
}
