// Drawing: the timeline, on a grid, as SVG. Its colours and patterns are those of the page.

const SVG = "http://www.w3.org/2000/svg", FAMILY = getComputedStyle(document.body).fontFamily;
const EVERY = [1, 10, 100, 1e3, 1e4, 1e5, 1e6].flatMap(n => [n, 2 * n, 5 * n]);
const ruler = document.createElement("canvas").getContext("2d");
const rounded = it => typeof it === "number" ? Math.round(it * 100) / 100 : it;
const font = (size, weight = 400, style = "normal") => ({ size, weight, style });
const SMALL = font(11), STRONG = font(11, 600);
const paint = colour => colour ? `var(--${colour})` : "none";

// Makes an element of an SVG.
function shape(tag, attributes, ...children) {
  const it = document.createElementNS(SVG, tag);
  for (const [key, value] of Object.entries(attributes)) it.setAttribute(key, rounded(value));
  it.append(...children);
  return it;
}

function sheet(width, height, ...children) {
  const frame = { width, height, viewBox: `0 0 ${width} ${height}`, "font-family": FAMILY };
  return shape("svg", frame, ...children);
}

// The colour of what is written on a colour of values.
const over = colour => colour === 0 ? "empty" : colour === 4 || colour === 5 ? "light" : "dark";

function length(text, { size, weight, style }) {
  ruler.font = `${style} ${weight} ${size}px ${FAMILY}`;
  return ruler.measureText(text).width;
}

// As much of a text as there is room for, if that is two letters or more.
function fitting(text, room, letters) {
  if (length(text, letters) <= room) return text;
  const keep = below(count(text.length), room, i => length(text.slice(0, i + 1) + "…", letters));
  return keep > 1 ? text.slice(0, keep) + "…" : "";
}

// Collects rectangles and texts of a layer. The rectangles of one paint are one path, so that many
// are quick.
class Pen {
  paths = new Map();
  texts = [];

  rect(x, y, w, h, colour, tile = "") {
    const wide = rounded(w), tall = rounded(h);
    const path = `M${rounded(x)} ${rounded(y)}h${wide}v${tall}h${-wide}z`;
    const into = fill => this.paths.set(fill, (this.paths.get(fill) ?? "") + path);
    into(paint(colour));
    if (tile) into(`url(#tile-${tile})`);
  }

  bar(x, y, w, h, { colour, pattern }) {
    this.rect(x, y, w, h, "v" + colour, pattern && h > 3 ? `${pattern}-${over(colour)}` : "");
  }

  text(x, y, text, colour, room, letters = SMALL, halo = "") {
    const { size, weight, style } = letters, shown = fitting(text, room, letters);
    const place = { x, y: y + size * .35, fill: paint(colour), stroke: paint(halo) };
    const fonts = { "font-size": size, "font-weight": weight, "font-style": style };
    if (shown) this.texts.push(shape("text", { ...place, ...fonts }, shown));
  }

  layer() {
    const paths = [...this.paths].map(([fill, d]) => shape("path", { d, fill }));
    return shape("g", { "stroke-width": 4, "paint-order": "stroke" }, ...paths, ...this.texts);
  }
}

// Draws a plan on a grid.
class Drawing {
  constructor(grid, shown) {
    Object.assign(this, { grid, shown });
  }

  // The bars of variables, each with its place, and over them what fails.
  rows(them) {
    const pen = new Pen();
    for (const [v, y] of them) this.row(pen, v, y);
    for (const [v, y] of them) this.fault(pen, v, y);
    return pen.layer();
  }

  // A bar for each value of a variable, as long as it holds. Where a pixel has several, there are
  // fine stripes.
  row(pen, v, y) {
    const { grid, shown: { run } } = this, { layer, values } = run.task.variables[v];
    const { wide, high } = grid, pad = layer >= 0 ? high * .15 : high > 8 ? 1 : 0;
    const top = Math.round(y + pad), tall = Math.max(1, Math.round(y + high - pad) - top);
    let t = Math.max(0, grid.column(grid.labels)), count = run.count(v, t), busy = -1;
    const crowd = end => {
      if (busy >= 0) pen.rect(busy, top, Math.round(end) - busy, tall, "v0", "busy");
      busy = -1;
    };
    while (t <= run.judged && grid.x(t) < grid.right) {
      const stop = run.when[v][count] ?? run.judged + 1;
      const left = Math.max(grid.labels, grid.x(t)), end = Math.min(grid.right, grid.x(stop));
      if (end - left < 1 && stop <= run.judged) {
        if (busy < 0) busy = Math.floor(left);
        t = Math.max(stop, grid.column(Math.floor(left) + 1) + 1);
        count = run.count(v, t);
        continue;
      }
      crowd(left);
      const start = Math.round(left), gap = wide > 4 && stop <= run.judged ? 1 : 0;
      const value = values[run.after(v, count)], { colour, pattern, short } = value;
      const room = Math.round(end) - start - gap, halo = pattern && "v" + colour;
      pen.bar(start, top, room, tall, value);
      const isRoom = high >= 13 && room > 26;
      if (isRoom) pen.text(start + 5, y + high / 2, short, over(colour), room - 8, font(12), halo);
      t = stop;
      count++;
    }
    crowd(Math.min(grid.x(t), grid.right));
  }

  // The failing step, and the steps after it, which weren't judged; or what the goal misses.
  fault(pen, v, y) {
    const { grid, shown: { run } } = this, { high, right } = grid, end = grid.x(run.judged + 1);
    const wide = run.failing ? Math.max(1, grid.wide - 1) : 6, text = run.about(v);
    const left = run.failing ? end : end - wide, rest = left + wide + 1;
    const far = Math.min(right, grid.x(run.total + 1));
    if (left >= right || !(text || run.failing)) return;
    pen.rect(left, y, wide, high - 1, text ? "bad" : "badtint");
    if (run.failing && far > rest) pen.rect(rest, y, far - rest, high, "card", "hatch");
    if (high >= 13) pen.text(left + 6, y + high / 2, text, "card", wide - 9, STRONG);
  }

  // The numbers of the steps, and their names if there is room. What nothing needs is marked.
  axis() {
    const { grid, shown: { run, step } } = this, { wide, right, labels } = grid, pen = new Pen();
    const isNamed = wide >= 60, need = isNamed ? 1 : 18 + 8 * group(run.total).length;
    const every = EVERY.find(n => n * wide >= need), first = Math.max(0, grid.column(labels));
    const end = Math.min(run.total, grid.column(right - 1));
    pen.rect(labels, 0, right - labels, HEAD, "card");
    for (let t = Math.ceil(first / every) * every; t <= end; t += every) {
      const left = Math.max(grid.x(t), labels) + 5, number = run.number(t);
      const room = Math.min(grid.x(t + 1), right) - left - 3;
      const colour = run.kind(t) === "failing" ? "bad" : "quiet";
      const half = length(number, STRONG) / 2, middle = Math.max(grid.x(t + .5), labels + half + 2);
      const isFree = Math.abs(grid.x(t) - grid.x(step)) > need && middle + half < right;
      if (isNamed) {
        pen.text(left, 13, number, colour, room, STRONG);
        pen.text(left, 30, run.name(t), t && t <= run.judged ? "ink" : colour, room, font(12));
      } else if (isFree) pen.text(middle - half, 33, number, colour, need, STRONG);
    }
    for (let t = first; wide >= 4 && t <= end; t++) {
      const left = Math.max(labels, grid.x(t));
      if (!run.causes.isNeeded(t)) pen.rect(left + 1, HEAD - 5, wide - 3, 3, "bad");
    }
    return pen.layer();
  }

  // What the goal requires of a variable.
  wanted(v) {
    const { run } = this.shown, text = run.shorts(run.goal.get(v) ?? []).join(" and ");
    if (run.failing || !text) return { text, colour: "quiet" };
    const [mark, colour] = run.missing.has(v) ? ["✕ ", "bad"] : ["✓ ", "good"];
    return { text: mark + text, colour };
  }
}

// The timeline on the screen.
class Picture extends Drawing {
  constructor(box, map, shown) {
    const frame = box.firstElementChild, down = new Side(box, frame, DOWN, USUAL);
    super(new Grid(box, new Side(box, frame, ACROSS, 0), down), shown);
    Object.assign(this, { box, map, frame, drawn: "", bars: null, due: 0 });
    new ResizeObserver(() => shown.run && this.layout()).observe(box);
  }

  layout() {
    const { run } = this.shown, rows = Math.max(3, this.grid.rows.length);
    this.box.style.setProperty("--high", HEAD + rows * USUAL + 20 + "px");
    this.drawn = "";
    this.grid.layout(run.total + 1, run.goal.size > 0);
    this.drawSoon();
  }

  drawSoon() {
    cancelAnimationFrame(this.due);
    this.due = requestAnimationFrame(() => this.draw());
  }

  draw() {
    const { grid, box: { clientWidth: w, clientHeight: h } } = this;
    grid.across.read();
    grid.down.read();
    this.frame.replaceChildren(sheet(w, h, ...this.layers(w, h)));
    this.map.replaceChildren(this.curve(w));
  }

  // The bars, and what is over them. A selection leaves the bars as they are.
  layers(w, h) {
    const { grid } = this, key = [w, h, grid.across.offset, grid.down.offset].join();
    const rows = grid.visible(), foot = Math.min(h, grid.y(grid.rows.length));
    if (key !== this.drawn) this.bars = this.rows(rows.map(row => [grid.rows[row], grid.y(row)]));
    this.drawn = key;
    return [this.bars, this.axis(), ...this.selection(foot), this.labels(rows, w)];
  }

  selection(foot) {
    const { grid, shown: { step } } = this, { labels, right, wide } = grid, left = grid.x(step);
    const width = Math.max(2, wide - 1), number = group(step), full = length(number, STRONG) + 14;
    if (left + width <= labels || left >= right) return [];
    const place = { x: left - .5, y: 3, width, height: foot - 4, fill: "none" };
    const look = { stroke: paint("accent"), "stroke-width": Math.min(2, wide / 3) };
    const start = clamp(left + (width - full) / 2, labels, right - full), pen = new Pen();
    if (wide < 60) {
      pen.rect(start, 24, full, 18, "accent");
      pen.text(start + 7, 33, number, "card", full, STRONG);
    }
    return [shape("rect", { ...place, ...look }), pen.layer()];
  }

  // The labels of rows, as many as don't meet, and what the goal requires of them.
  labels(rows, w) {
    const { grid, shown: { run } } = this, { labels, right } = grid, pen = new Pen();
    const isWide = labels >= 200, room = labels - (isWide ? 88 : 20);
    let next = HEAD - 8;
    for (const row of rows) {
      const v = grid.rows[row], top = grid.y(row), middle = top + Math.max(grid.high, 14) / 2;
      if (top < next) continue;
      next = top + 15;
      const { name, label, layer } = run.task.variables[v], { text, colour } = this.wanted(v);
      if (isWide) pen.text(labels - 66, middle, name, "quiet", 56);
      pen.text(12, middle, label, "ink", room, font(12, 400, layer < 0 ? "normal" : "italic"));
      pen.text(right + 8, middle, text, colour, grid.tail - 10, colour === "bad" ? STRONG : SMALL);
    }
    pen.rect(0, 0, labels, HEAD, "card");
    pen.rect(right, 0, grid.tail, HEAD, "card");
    pen.rect(0, HEAD - 1, w, 1, "line");
    pen.text(12, 33, "Step", "quiet", 90, STRONG);
    pen.text(right + 12, 33, run.goal.size ? "Goal" : "", "quiet", 90, STRONG);
    return pen.layer();
  }

  // The cost of the whole plan. It is the map of the timeline, with a frame around what is in view.
  curve(w) {
    const { grid, grid: { wide }, shown: { run, step } } = this, span = grid.across.room;
    const base = MAP - 9, tall = base - 16, most = Number(run.cost[run.judged]) || 1;
    const x = t => rounded(grid.labels + t / (run.total + 1) * span), at = x(step + .5);
    const y = t => rounded(base - Number(run.cost[Math.min(t, run.judged)]) / most * tall);
    const points = Math.min(run.judged, Math.ceil(span)), failing = x(run.failing), pen = new Pen();
    const steps = count(points + 1, i => Math.round(i / (points || 1) * run.judged));
    const d = `M${x(0)} ${base}${steps.map(t => `L${x(t)} ${y(t)}H${x(t + 1)}`).join("")}V${base}z`;
    const seen = { x: x(grid.across.offset / wide) + .5, width: span * span / grid.across.length };
    const look = { y: 3.5, height: base - 3, fill: "none", stroke: paint("quiet") };
    pen.rect(grid.labels, base, span, 1, "line");
    if (run.failing) pen.rect(failing, 6, grid.right - failing, tall, "card", "hatch");
    pen.rect(at - .75, 4, 1.5, base - 4, "accent");
    pen.rect(at - 3, y(step) - 3, 6, 6, "accent");
    const frame = grid.across.most < 1 ? "" : shape("rect", { ...seen, ...look });
    return sheet(w, MAP, shape("path", { d, fill: paint("tint") }), pen.layer(), frame);
  }
}
