// Labels: short names and colours of values, for reading alone.

const COLOURS = 5, PATTERNS = 4;
const QUIET = new Map([["false", 0], ["none", 0], ["true", 9]]);
const isApart = them => new Set(them).size === them.length;
const ATOM = /^(Negated)?Atom ([^\s()]+)\((.*)\)$/s;

// What the values that occur have in common is said once, in the label of the variable. The key of
// a value is the objects that it names besides: `at rooma` of a ball and `rooma` of the robot have
// one key, so one colour. Values that aren't atoms stay as they are.
class Variable {
  constructor([name, layer, values, base]) {
    Object.assign(this, { name, layer, base, label: name, search: "", rules: [], values: {} });
    const names = Object.values(values), shorts = this.shorts(names) ?? names;
    const keys = shorts.map(it => it.replace(/^[^\s,]+ /, "")), isKey = isApart(keys);
    Object.keys(values).forEach((k, i) => {
      const short = shorts[i], key = isKey ? keys[i] : short, colour = tint(key);
      const lower = names[i].toLowerCase(), pattern = QUIET.has(key) ? 0 : -1;
      this.values[k] = { name: names[i], lower, short, key, colour, pattern };
    });
    if (layer >= 0) this.label = "◇ " + this.label;
    this.search = `${this.label}\n${name}`.toLowerCase();
  }

  // Returns short names of the values, if all are atoms but one that says that no other holds.
  shorts(names) {
    const atoms = names.map(it => ATOM.exec(it)), positive = atoms.filter(it => it && !it[1]);
    const [other, ...others] = names.filter((_, i) => !positive.includes(atoms[i]));
    const [atom = atoms[0]] = positive, isNone = other === undefined || other === "<none of those>";
    const isOpposite = ATOM.test(other) && (!positive.length || other === "Negated" + atom[0]);
    if (others.length || !isNone && (!isOpposite || positive.length > 1)) return null;
    if (positive.length > 1) return this.apart(atoms, positive);
    if (atom) this.label = atom[2] + (atom[3] && `(${atom[3]})`);
    return names.map(it => atom ? String(it.startsWith("Atom")) : "none");
  }

  // Calls each atom by what isn't common to all, unless two would look the same, as do `link(a, b)`
  // and `link(b, a)`.
  apart(atoms, positive) {
    const parts = positive.map(it => it[3].split(", ")), heads = new Set(positive.map(it => it[2]));
    const common = parts[0].filter(it => parts.every(them => them.includes(it)));
    const own = parts.map(them => them.filter(it => !common.includes(it)).join(", "));
    const isOne = heads.size === 1, [head] = heads;
    const shorts = own.map((it, i) => isOne && it || `${positive[i][2]} ${it}`.trim());
    if (!isApart(shorts)) return null;
    const dotted = parts[0].map(it => common.includes(it) ? it : "·").join(", ");
    const either = common.join(", ") || [...heads].join(" / ");
    this.label = isOne ? `${head}(${dotted})` : either;
    return atoms.map(it => it && !it[1] ? shorts.shift() : "none");
  }
}

// The colour of a key. It follows from the name alone, so it is the same on every page.
function tint(key) {
  if (QUIET.has(key)) return QUIET.get(key);
  const mixed = (hash, letter) => Math.imul(hash ^ letter.codePointAt(0), 16777619);
  const hash = [...key].reduce(mixed, 2166136261);
  return 1 + ((hash ^ hash >>> 15) >>> 0) % COLOURS;
}

// Values that follow each other in a row and whose colours are alike differ by a pattern. So do
// others, as far as patterns go. Returns the names of the keys with a value of each, common ones
// first.
function spread(variables, runs) {
  const values = variables.flatMap(it => Object.values(it.values));
  const keys = Map.groupBy(values.filter(({ key }) => !QUIET.has(key)), ({ key }) => key);
  const beside = new Map([...keys.keys()].map(key => [key, new Set()]));
  for (const run of runs) {
    run.what.forEach((what, v) => what.forEach((k, count) => {
      const a = variables[v].values[run.after(v, count)], b = variables[v].values[k];
      const isAlike = a.colour === b.colour || a.colour === 9 || b.colour === 9;
      if (a.key === b.key || !isAlike) return;
      beside.get(a.key)?.add(b.key);
      beside.get(b.key)?.add(a.key);
    }));
  }
  const sorted = [...keys].sort(([, a], [, b]) => b.length - a.length);
  const used = count(COLOURS + 1, () => Array(PATTERNS).fill(0));
  for (const [key, them] of sorted) {
    const near = [...beside.get(key)].map(other => keys.get(other)?.[0].pattern ?? 0);
    const { colour } = them[0], met = it => near.filter(pattern => pattern === it).length;
    const often = pattern => met(pattern) * keys.size + used[colour][pattern];
    const [best] = count(PATTERNS).sort((a, b) => often(a) - often(b));
    for (const value of them) value.pattern = best;
    used[colour][best]++;
  }
  const isOne = them => them.every(({ short }) => short === them[0].short);
  return sorted.map(([key, them]) => [isOne(them) ? them[0].short : key, them[0]]);
}
