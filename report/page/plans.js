// Plans: two of them side by side.

// so many steps of a name are looked at for one of the other plan
const NEAR = 64;

// The longest common part of two lists, as pairs of places: of each length it keeps the pair that
// ends it first. Of an item that is there often only the nearest count.
function common(a, b) {
  const places = Map.groupBy(b.keys(), j => b[j]), ends = [], found = [];
  a.forEach((it, i) => {
    const all = places.get(it) ?? [], at = below(all, i);
    for (const j of all.slice(Math.max(0, at - NEAR), at + NEAR).reverse()) {
      const length = below(ends, j, it => it.j);
      ends[length] = { i, j, before: ends[length - 1] };
    }
  });
  for (let it = ends[ends.length - 1]; it; it = it.before) found.push([it.i, it.j]);
  return found.reverse();
}

// The difference of two lists: rows of places in both, -1 where one has none, and whether they are
// the same. `moved` has, of the first and of the second list, the items that stand elsewhere in the
// other, with the place there.
function difference(a, b) {
  let front = 0, i = 0, j = 0;
  while (front < a.length && a[front] === b[front]) front++;
  const rest = common(a.slice(front), b.slice(front)).map(pair => pair.map(place => place + front));
  const same = count(front, i => [i, i]), rows = [], only = [[], []];
  for (const [m, n] of [...same, ...rest, [a.length, b.length]]) {
    while (i < m || j < n) {
      if (i < m) only[0].push(i);
      if (j < n) only[1].push(j);
      rows.push([i < m ? i++ : -1, j < n ? j++ : -1, false]);
    }
    if (m < a.length) rows.push([i++, j++, true]);
  }
  const left = Map.groupBy(only[0], i => a[i]), moved = [new Map(), new Map()];
  for (const j of only[1]) {
    const i = left.get(b[j])?.shift();
    if (i === undefined) continue;
    moved[0].set(i, j);
    moved[1].set(j, i);
  }
  return { rows, moved, counts: [moved[0].size, ...only.map(it => it.length - moved[0].size)] };
}

class Overview {
  constructor(runs) {
    Object.assign(this, { runs, pair: [], rows: [], moved: [] });
    this.list = new List(get("compared"), k => this.rows[k], (_, ...it) => this.row(...it));
    get("other").selectedIndex = 1;
    for (const id of ["one", "other"]) get(id).onchange = () => this.compare();
  }

  compare() {
    if (get("one").length < 2) return;
    this.pair = ["one", "other"].map(id => this.runs[get(id).value - 1]);
    const names = this.pair.map(run => count(run.total, t => run.name(t + 1)));
    const { rows, moved, counts } = difference(...names);
    const kinds = ["moved", ...this.pair.map(run => `only in ${run.plan.label}`)];
    const parts = kinds.flatMap((kind, i) => counts[i] ? [`${group(counts[i])} ${kind}`] : []);
    get("parts").textContent = parts.join(", ") || "They have the same steps.";
    Object.assign(this, { rows, moved });
    this.list.rows.clear();
    this.list.show(count(rows.length), Math.max(0, rows.findIndex(([, , isSame]) => !isSame)));
  }

  row(i, j, isSame) {
    const row = { className: isSame ? "row" : "row changed", role: "listitem" };
    return make("div", row, this.cell(i, 0), this.cell(j, 1));
  }

  cell(place, side) {
    if (place < 0) return make("span");
    const run = this.pair[side], t = place + 1, elsewhere = this.moved[side].get(place);
    const href = `#plan-${this.runs.indexOf(run) + 1}-step-${t}`, where = side ? "from " : "to ";
    return make("a", { href, tabIndex: -1, className: run.kind(t) },
      make("span", "number", run.number(t)),
      make("bdi", "name", run.name(t)),
      elsewhere !== undefined && make("span", "quiet", "moved " + where + group(elsewhere + 1)));
  }
}
