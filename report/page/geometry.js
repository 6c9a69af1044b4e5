// Geometry: where steps and rows are. Nothing here draws.

// Browsers limit how long an element can be, Firefox to some 17 million pixels.
const LONGEST = 8e6;
const ACROSS = { scroll: "scrollLeft", client: "clientWidth", style: "width" };
const DOWN = { scroll: "scrollTop", client: "clientHeight", style: "height" };

// One side of a box that scrolls over `count` things, each `size` pixels long, beside `fixed`
// pixels that stay. If it is too long for an element, the element is shorter. `offset` is in real
// pixels, and `seen` where the box was last known to be.
class Side {
  constructor(box, spacer, axis, size) {
    Object.assign(this, { box, spacer, axis, size });
    Object.assign(this, { count: 0, fixed: 0, room: 0, offset: 0, seen: 0 });
  }

  get length() { return this.count * this.size; }
  get most() { return Math.max(0, this.length - this.room); }
  get scale() { return this.most / (Math.min(this.length, LONGEST) - this.room) || 1; }
  get least() { return this.room / this.count; }

  measure(fixed, count) {
    Object.assign(this, { fixed, count, room: Math.max(1, this.box[this.axis.client] - fixed) });
    this.read();
  }

  layout() {
    this.spacer.style[this.axis.style] = Math.min(this.length, LONGEST) + this.fixed + "px";
    this.seen = this.box[this.axis.scroll];
    this.to(this.offset);
  }

  to(offset) {
    this.offset = clamp(offset, 0, this.most);
    const place = this.offset / this.scale;
    // else the reader may be scrolling, and to ask where the box is takes time
    if (Math.abs(this.seen - place) < 1) return;
    this.box[this.axis.scroll] = place;
    this.seen = this.box[this.axis.scroll];
  }

  // Takes over where the reader has scrolled to.
  read() {
    const now = this.box[this.axis.scroll];
    if (now !== this.seen) this.offset = clamp(now * this.scale, 0, this.most);
    this.seen = now;
  }

  // Scrolls so that item k is in view: as little as possible, or into the middle if it is far away.
  reveal(k) {
    const start = k * this.size, near = clamp(this.offset, start + this.size - this.room, start);
    this.to(Math.abs(near - this.offset) > this.room / 2 ? start - this.room / 2 : near);
  }
}

// The timeline: columns are the initial state and the steps, rows the variables. On the left are
// the labels, on the right the goal, `tail` pixels wide.
const HEAD = 46, USUAL = 22, WIDEST = 150, MAP = 58;

class Grid {
  constructor(box, across, down) {
    Object.assign(this, { box, across, down, rows: [], labels: 0, tail: 0 });
  }

  get wide() { return this.across.size; }
  get high() { return this.down.size; }
  get right() { return this.labels + this.across.room; }

  layout(columns, hasGoal) {
    const { across, down, box: { clientWidth } } = this, isWhole = across.size <= across.least;
    this.labels = clamp(clientWidth * .22, 110, 250);
    this.tail = hasGoal ? clamp(clientWidth * .14, 64, 140) : 12;
    across.measure(this.labels + this.tail, columns);
    down.measure(HEAD + 2, this.rows.length);
    across.size = clamp(isWhole ? 0 : across.size, across.least, Math.max(WIDEST, across.least));
    down.size = clamp(down.size, Math.min(USUAL, down.least), USUAL);
    across.layout();
    down.layout();
  }

  x(t) { return this.labels + t * this.wide - this.across.offset; }
  y(row) { return HEAD + row * this.high - this.down.offset; }
  column(x) { return Math.floor((x - this.labels + this.across.offset) / this.wide); }
  row(y) { return Math.floor((y - HEAD + this.down.offset) / this.high); }

  // The rows in view. Of several on one pixel it is the first.
  visible() {
    const first = Math.max(0, this.row(HEAD));
    const end = Math.min(this.rows.length, this.row(this.box.clientHeight) + 1);
    const isApart = row => Math.floor(this.y(row)) > Math.floor(this.y(row - 1));
    return [...this.rows.keys()].slice(first, end).filter(row => row === first || isApart(row));
  }

  // What is below a pointer: a step, or -1; a row; whether it is in the column of the goal.
  place({ clientX, clientY }) {
    const { left, top } = this.box.getBoundingClientRect(), x = clientX - left, y = clientY - top;
    const t = this.column(x), isStep = x >= this.labels && x < this.right && t < this.across.count;
    return { x, t: isStep ? t : -1, row: y > HEAD ? this.row(y) : -1, isGoal: x >= this.right };
  }
}
