// Lists: elements, and lists of any length.

const get = id => document.getElementById(id);
const { format: group } = new Intl.NumberFormat("en");
// A longer list has only the rows in view as elements. Of others so many rows are made at once, and
// the rest when the reader has been still for so many milliseconds, part by part.
const REAL = 5000, MOST = 200, SOME = 200, REST = 200, SOON = 20, SHORT = 15, ROW = 26;

// Makes an element with a class, or with properties. Children that are strings become text, so no
// name is ever read as HTML.
function make(tag, given = "", ...children) {
  const properties = typeof given === "string" ? { className: given } : given;
  const it = Object.assign(document.createElement(tag), properties);
  it.append(...children.flat().filter(child => child));
  return it;
}

// What is made of rows, as many as are shown, and in the end how many are left.
function some(rows, most, render, more = left => make("li", "quiet", `${left} more`)) {
  const left = rows.length - most;
  return [...rows.slice(0, most).map(render), ...(left > 0 ? [more(group(left))] : [])];
}

const swatch = ({ colour, pattern }) => make("span", `swatch c${colour} p${pattern}`);
const held = isHeld => make("b", isHeld ? "good" : "bad", isHeld ? "✓ " : "✗ ");

// Says how many are kept of all.
function tally(id, kept, all) {
  get(id).textContent = kept < all ? `${group(kept)} of ${group(all)}` : group(all);
}

// A list in a box that scrolls. `parts` returns what the row of an item shows, and `render` the row
// of an item with these parts: where they are as before, the row stays.
class List {
  constructor(box, parts, render) {
    const space = make("div", { role: "presentation" }), side = new Side(box, space, DOWN, ROW);
    Object.assign(this, { box, parts, render, space, side, items: [], rows: new Map() });
    Object.assign(this, { wanted: -1, filling: 0 });
    new ResizeObserver(() => this.draw()).observe(box);
    addEventListener("beforeprint", () => this.print());
    addEventListener("afterprint", () => this.show(this.items, this.wanted));
    box.addEventListener("scroll", () => this.draw());
    box.addEventListener("keydown", event => this.move(event));
  }

  get isReal() { return this.items.length <= REAL; }

  // Shows items, and brings one of them into view.
  show(items, wanted) {
    const k = items.indexOf(wanted);
    Object.assign(this, { items, wanted });
    this.box.classList.toggle("real", this.isReal);
    this.box.classList.toggle("short", items.length < SHORT);
    if (this.isReal) {
      this.fill(0, Math.max(SOME, k + SHORT));
      if (k >= 0) this.reveal(wanted);
    } else {
      this.rows.clear();
      this.box.replaceChildren(this.space);
      this.side.measure(0, items.length);
      if (k >= 0) this.side.reveal(k);
      this.draw();
    }
  }

  // Brings the row of an item into view.
  reveal(item) {
    const { box } = this, row = this.row(item), top = row.offsetTop - box.scrollTop;
    const isSeen = top >= 0 && top + row.offsetHeight <= box.clientHeight;
    if (!isSeen) box.scrollTop += top - box.clientHeight / 3;
  }

  // Makes the rows of a part of the items, and later the others.
  fill(start, end) {
    const { box, items, box: { children } } = this, isAll = end >= items.length;
    items.slice(start, end).map(item => this.row(item)).forEach((row, i) => {
      const [old, next] = [children[start + i], children[start + i + 1]];
      if (row === next) old.remove();
      else if (row !== old) box.insertBefore(row, old);
    });
    while (isAll && children.length > items.length) box.lastChild.remove();
    clearTimeout(this.filling);
    if (!isAll) this.filling = setTimeout(() => this.fill(end, end + SOME), start ? SOON : REST);
  }

  // The row of an item, which is made anew if it would show something else.
  row(item) {
    const parts = this.parts(item), sign = parts.join("\n"), known = this.rows.get(item);
    if (known?.sign === sign) return known.row;
    const row = this.render(item, ...parts);
    this.rows.set(item, { sign, row });
    known?.row.replaceWith(row);
    return row;
  }

  // Draws the rows in view, where not all are there.
  draw() {
    const { side, items } = this;
    if (this.isReal) return;
    side.measure(0, items.length);
    side.layout();
    const top = side.offset / ROW, first = Math.floor(top), most = side.room / ROW + 2;
    const rows = items.slice(first, first + Math.min(MOST, most)).map((item, i) => {
      const place = { ariaSetSize: items.length, ariaPosInSet: first + i + 1 };
      const row = Object.assign(this.render(item, ...this.parts(item)), place);
      row.style.top = side.seen + (first + i - top) * ROW + "px";
      return row;
    });
    this.space.replaceChildren(...rows);
  }

  // Makes the rows that are printed: all, or as many as a list of elements has.
  print() {
    const render = item => this.render(item, ...this.parts(item));
    const more = left => make("div", "row quiet", left + " more");
    if (this.isReal) this.fill(0, this.items.length);
    else this.box.replaceChildren(...some(this.items, REAL, render, more));
  }

  // The arrow keys go from link to link, which the tabulator passes over.
  move(event) {
    const step = { ArrowDown: 1, ArrowUp: -1 }[event.key];
    const links = [...this.box.querySelectorAll("a")];
    if (!step || !links.length) return;
    links[clamp(links.indexOf(document.activeElement) + step, 0, links.length - 1)].focus();
    event.preventDefault();
  }
}
