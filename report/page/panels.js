// Panels: the list of steps, the selected step, and the state before and after it.

const FACTS = 100, OPERATORS = 20;
const UNNEEDED = "Nothing needs this step: no later step or goal fact rests on its changes.";

class Panels {
  // `select` selects a step.
  constructor(shown, facts, select) {
    Object.assign(this, { shown, facts, select, found: [], because: new Map(), here: new Set() });
    const parts = t => [t === shown.step, this.because.get(t)];
    this.steps = new List(get("steps"), parts, (...it) => this.step(...it));
    this.values = new List(get("state"), v => this.parts(v), (...it) => this.value(...it));
  }

  show() {
    for (const list of [this.steps, this.values]) list.rows.clear();
    get("steps").style.setProperty("--digits", group(this.shown.run.total).length);
    this.search();
  }

  step(t, isOn, because) {
    const { run } = this.shown, className = `row ${run.kind(t)}${isOn ? " on" : ""}`;
    const row = { id: "row-" + t, role: "option", ariaSelected: isOn, className };
    return make("div", { ...row, title: run.name(t), onclick: () => this.select(t) },
      make("span", "number", run.number(t)),
      make("bdi", t ? "name" : "quiet", run.name(t)),
      because && make("bdi", "name because", "→ " + because),
      !run.causes.isNeeded(t) && make("span", "unneeded", "nothing needs it"),
      t > 0 && t <= run.judged && make("span", "quiet", "+" + group(run.operator(t).cost)));
  }

  // Keeps the steps whose name has the words of the search, and those that make a fact true whose
  // name has them.
  search() {
    const { because, shown: { run, step } } = this, words = get("find").value.toLowerCase();
    const has = t => run.name(t).toLowerCase().includes(words), every = count(run.total + 1);
    because.clear();
    for (const [v, { values }] of words ? run.task.variables.entries() : []) {
      for (const [i, k] of run.what[v].entries()) {
        if (values[k].lower.includes(words)) because.set(run.when[v][i], values[k].name);
      }
    }
    this.found = words ? every.filter(t => t && (has(t) || because.has(t))) : every;
    tally("found", this.found.length, run.total);
    this.steps.show(this.found, step);
  }

  choose(t) {
    const { run } = this.shown, moment = t > run.judged ? "State before" : "State before → after";
    const name = make("bdi", t ? "name" : "", run.name(t)), number = t && `Step ${group(t)} `;
    this.here = new Set(run.involved(t));
    // later it would take the time to lay the page out once more
    for (const id of ["state", "step"]) get(id).scrollTop = 0;
    this.steps.show(this.found, t);
    get("steps").setAttribute("aria-activedescendant", "row-" + t);
    get("moment").textContent = t ? moment : "Initial state";
    get("step").replaceChildren(make("h3", "", number, name), ...this.describe(t).filter(Boolean));
    this.filter();
  }

  // What a step requires and changes. Of the one that fails it is what each of its operators
  // requires and would do.
  describe(t) {
    const { run } = this.shown, isFailing = t === run.failing;
    const said = `Not judged: step ${group(run.failing)} fails before it.`;
    const more = left => make("p", "quiet", `${left} more operators of this name`);
    if (!t) return [];
    if (t > run.judged && !isFailing) return [make("p", "quiet", said)];
    return [isFailing && make("p", "bad", run.plan.verdict.split(": ").at(-1)),
      !run.causes.isNeeded(t) && make("p", "unneeded", UNNEEDED),
      ...some(run.operators(t), OPERATORS, it => this.operator(it, isFailing), more).flat(),
      ...(isFailing ? [] : this.list("Changes", run.changes(t), it => this.change(it)))];
  }

  operator({ number, cost, requires, effects }, isFailing) {
    const { run, step } = this.shown, shown = effects.filter(it => isFailing || it[2].length);
    const costs = isFailing ? "" : ` · cost ${group(cost)}, ${group(run.cost[step])} so far`;
    const title = isFailing ? "Effects" : "Effects with conditions";
    return [make("p", "quiet", `operator ${group(number)}${costs}`),
      ...this.list("Requires", requires, it => this.required(it)),
      ...(shown.length ? this.list(title, shown, it => this.effect(it)) : [])];
  }

  list(title, rows, render) {
    return [make("h4", "", rows.length ? title : title + " nothing"),
      make("ul", "facts", ...some(rows, FACTS, render))];
  }

  // The value of a variable before the selected step.
  before(v) { return this.shown.run.value(v, this.shown.step - 1); }

  // A fact that the selected step requires: whether it holds before it, and since when.
  required([v, k]) {
    const { facts, shown: { run, step } } = this, now = this.before(v);
    const since = facts.step(run.since(v, step - 1));
    const rest = now === k ? make("span", "quiet since", "since ", since)
      : make("span", "bad", "it is ", facts.value(v, now), " since ", since);
    return make("li", "fact", make("span", "", held(now === k), facts.value(v, k)), rest);
  }

  effect([v, k, conditions]) {
    const { facts } = this, isFired = conditions.every(([v, k]) => this.before(v) === k);
    return make("li", isFired ? "" : "quiet", facts.variable(v), " → ", facts.value(v, k),
      conditions.length > 0 && (isFired ? " fires, as" : " doesn’t fire:"),
      make("ul", "facts", ...conditions.map(it => this.required(it))));
  }

  change([v, k]) {
    const { facts, shown: { run, step } } = this, users = run.causes.users(v, step);
    return make("li", "change", facts.variable(v), facts.value(v, this.before(v), "name", "old"),
      make("span", "quiet", "→"), facts.value(v, k, "name", "new"),
      users.length > 0 && make("span", "users quiet", "needed by ", facts.steps(users)));
  }

  // What the row of a variable shows: its value after and before the selected step, what fails of
  // it, and whether the step has to do with it.
  parts(v) {
    const { here, shown: { run, step: t } } = this, now = run.value(v, t);
    const old = t > run.judged ? now : run.value(v, Math.max(0, t - 1));
    return [now, old, t === run.failing ? run.about(v) : "", here.has(v) ? " here" : ""];
  }

  value(v, now, old, fault, here) {
    const { facts } = this, isChanged = now !== old;
    const before = isChanged ? [facts.value(v, old, "short", "old", -1), "→"] : [];
    const kind = fault ? " failing" : isChanged ? " changed" : "";
    return make("div", { className: "row" + kind + here, role: "listitem" }, facts.variable(v, -1),
      fault ? make("bdi", "name", fault) : before, facts.value(v, now, "short", "after", -1));
  }

  // Keeps the variables that have the words of the filter in their names or values. Those of the
  // selected step come first, or are all.
  filter() {
    const { here, shown: { run, step: t } } = this, { variables } = run.task;
    const words = get("filter").value.toLowerCase(), isIn = it => it.includes(words);
    const has = v => [variables[v].search, variables[v].values[run.value(v, t)].lower].some(isIn);
    const rest = get("only").checked && t ? [] : [...variables.keys()].filter(v => !here.has(v));
    const kept = [...here, ...rest].filter(v => !words || has(v));
    tally("matched", kept.length, variables.length);
    this.values.show(kept);
  }
}
