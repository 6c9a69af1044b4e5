// Facts: a variable or a value, with its changes, what rests on it, and what it rests on.

// how many rows of a list, steps of a row and facts of a tree are shown
const ROWS = 1000, STEPS = 20, BRANCHES = 200;

class Facts {
  constructor(shown) {
    Object.assign(this, { box: get("fact"), shown, v: -1, k: null });
    get("close").onclick = () => this.show(-1);
  }

  show(v, k) {
    Object.assign(this, { v, k });
    this.draw();
    if (v < 0) return;
    this.box.scrollTop = 0;
    this.box.focus();
  }

  link(address, properties, ...children) {
    const href = `#${this.shown.prefix}${address}`;
    return make("a", { href, ...properties }, ...children);
  }

  variable(v, tabIndex = 0) {
    const { label, name } = this.shown.run.task.variables[v];
    const look = { className: "var", title: name, tabIndex };
    return this.link(`fact-${v}`, look, make("bdi", "", label));
  }

  // A value with its colour. `text` is short, or name.
  value(v, k, text = "name", kind = "", tabIndex = 0) {
    const it = this.shown.run.task.variables[v].values[k];
    const look = { className: "name " + kind, title: it.name, tabIndex };
    return this.link(`fact-${v}-${k}`, look, swatch(it), make("bdi", "", it[text]));
  }

  step(t) {
    if (t > this.shown.run.total) return "the goal";
    return this.link(`step-${t}`, {}, t ? "step " + group(t) : "the start");
  }

  steps(them) {
    const step = (t, i) => [i && ", ", this.step(t)], more = left => ` and ${left} more`;
    return make("span", "", ...some(them, STEPS, step, more).flat());
  }

  draw() {
    const { v, shown: { run, step: t } } = this;
    this.box.parentElement.hidden = v < 0;
    if (v < 0) return;
    const { name, layer, label, values } = run.task.variables[v], when = run.when[v];
    const k = values[this.k] ? +this.k : run.value(v, t), next = when[run.count(v, t)];
    const derived = layer < 0 ? "" : `, derived on layer ${layer}`;
    const row = (step, i) => make("li", step === t ? "on" : "", this.step(step), " ",
      this.value(v, run.after(v, i)), " → ", this.value(v, run.what[v][i]));
    this.box.replaceChildren(
      make("h3", "name", make("bdi", "", values[this.k] ? values[k].name : label)),
      make("p", "quiet", make("bdi", "", `${label}, variable ${v}: ${name}${derived}`)),
      make("p", "near", make("span", "", "previous: ", t ? this.step(run.since(v, t - 1)) : "none"),
        make("span", "", "next: ", next ? this.step(next) : "none")),
      make("ul", "times", ...this.times(v, k)),
      ...(layer < 0 ? [] : this.rules(v, k)),
      make("h4", "", `Changes: ${group(when.length)}`),
      make("ol", "changes", ...some(when, ROWS, row)));
  }

  // When a value holds: the step that makes it true, the steps that need it, and until when.
  times(v, k) {
    const { run } = this.shown, isSo = (_, i) => run.after(v, i) === k;
    const starts = [0, ...run.when[v]].filter(isSo);
    const time = start => {
      const end = run.when[v][run.count(v, start)], users = run.causes.users(v, start);
      return make("li", "", this.value(v, k), start ? " made true by " : " from ", this.step(start),
        users.length ? ", needed by " : ", nothing needs it", users.length && this.steps(users),
        end && ", until ", end && this.step(end));
    };
    if (starts.length) return some(starts, ROWS, time);
    return [make("li", "", this.value(v, k), " never holds.")];
  }

  // Why a derived variable has a value after the selected step, or why it hasn't. Below a rule are
  // its conditions, and below a condition on a derived variable the rules of that, each fact once.
  rules(v, k) {
    const { run, step } = this.shown, { task } = run, t = Math.min(step, run.judged);
    const told = new Set(), value = it => run.value(it, t), derived = derivation(task, value);
    const condition = ([v, k]) => {
      const shown = [held(value(v) === k), this.variable(v), " ", this.value(v, k)];
      return make("li", "", shown, branch(v, k));
    };
    const branch = (v, k) => {
      const { layer, base, rules } = task.variables[v], isDefault = k === base;
      const isNew = layer >= 0 && !told.has(v + " " + k) && told.size < BRANCHES;
      told.add(v + " " + k);
      if (!isNew) return "";
      const isMade = derived.has(v) && (isDefault || value(v) === k);
      const them = isMade ? [derived.get(v)] : rules.filter(rule => isDefault || rule.k === k);
      return make("ul", "", ...some(them, STEPS, ({ number, facts }) =>
        make("li", "", `rule ${number}`, make("ul", "", ...facts.map(condition)))));
    };
    const why = value(v) !== k ? "isn’t so" : derived.has(v) ? "is derived" : "is the default";
    const when = t ? `After step ${group(t)}` : "At first";
    return [make("h4", "", `${when} it ${why}`), make("div", "tree", branch(v, k))];
  }
}
