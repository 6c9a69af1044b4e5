// Input: what the reader chooses, by keys, by a pointer, by fields and by addresses.

// milliseconds of a step that is played; how many values the legend has
const TICK = 700, LEGEND = 16;
const FAR = { PageUp: -10, PageDown: 10, Home: -Infinity, End: Infinity };
const ADDRESS = /^#(?:plan-(\d+)-?)?(?:step-(\d+)|fact-(\d+)(?:-(\d+))?)?$/;

const isHeld = ({ ctrlKey, metaKey, altKey }) => ctrlKey || metaKey || altKey;

class Page {
  constructor({ task, plans, moves }) {
    this.task = task && new Task(task, moves);
    const run = plan => task && plan.kind !== "refused" ? new Run(this.task, plan) : null;
    // all parts look at the plan and the step that are shown; `prefix` begins their addresses
    this.shown = { run: null, prefix: "", step: 0 };
    Object.assign(this, { runs: plans.map(run), overview: null, noting: 0, playing: 0 });
    this.keys = spread(this.task?.variables ?? [], this.runs.filter(Boolean));
    this.picture = new Picture(get("grid"), get("cost"), this.shown);
    this.facts = new Facts(this.shown);
    this.panels = new Panels(this.shown, this.facts, t => this.select(t));
    if (plans.length > 1) this.overview = new Overview(this.runs);
    const named = ([text, value]) => make("span", "", swatch(value), make("bdi", "", text));
    get("legend").prepend(...some(this.keys, LEGEND, named, left => `and ${left} more`));
    this.darken(matchMedia("(prefers-color-scheme: dark)").matches);
    this.listen();
    this.follow();
  }

  // Shows the plan, the step or the fact of the address.
  follow() {
    const [, plan = 0, step, v, k] = ADDRESS.exec(location.hash) ?? [];
    const i = this.overview ? plan - 1 : 0, run = this.runs[i];
    const isPlan = i in this.runs, isOther = run !== this.shown.run;
    clearTimeout(this.noting);
    this.play(false);
    get("plans").hidden = isPlan;
    get("back").hidden = !this.overview || !isPlan;
    document.querySelectorAll("article").forEach((article, k) => { article.hidden = k !== i; });
    document.querySelector("main").hidden = !run;
    if (!isPlan) this.overview?.compare();
    if (!run) return;
    Object.assign(this.shown, { run, prefix: this.overview ? `plan-${plan}-` : "" });
    if (isOther) this.show();
    const usual = run.failing || (run.missing.size ? run.judged : Math.min(1, run.total));
    if (isOther || v === undefined) this.select(step ? +step : usual);
    if (v in this.task.variables) this.facts.show(+v, k);
  }

  // Shows another plan.
  show() {
    const { run } = this.shown, { variables } = this.task, changes = run.when.map(it => it.length);
    const sum = changes.reduce((a, b) => a + b, 0), most = changes.toSorted((a, b) => b - a)[0];
    const often = sum ? `: ${variables[changes.indexOf(most)].label} has most, ${group(most)}` : "";
    const some = (count, word) => `${group(count)} ${word}${count === 1 ? "" : "s"}`;
    const counted = `${some(variables.length, "variable")}, ${some(sum, "change")}`;
    get("summary").textContent = `${counted}${often}.`;
    get("at").max = run.total;
    this.shown.step = 0;
    this.facts.show(-1);
    this.panels.show();
    this.choose();
    if (run.failing && this.picture.grid.wide < 12) this.zoom(Infinity);
  }

  select(step) {
    const { shown, shown: { run, prefix }, picture: { grid } } = this;
    const t = shown.step = clamp(step, 0, run.total);
    // Browsers allow some 200 addresses in ten seconds, so it is noted later. An address that came
    // in the meantime is still to be followed.
    const { hash } = location, note = () => history.replaceState(null, "", `#${prefix}step-${t}`);
    clearTimeout(this.noting);
    this.noting = setTimeout(() => location.hash === hash && note(), 300);
    const name = t ? `Step ${group(t)} of ${group(run.total)}: ${run.name(t)}` : "Initial state";
    const cost = `cost ${group(run.cost[Math.min(t, run.judged)])}`;
    get("spent").textContent = `${cost} of ${group(run.cost[run.judged])}`;
    get("at").value = t;
    get("at").setAttribute("aria-valuetext", name);
    get("live").textContent = `${name}, ${cost}`;
    if (get("only").checked) this.choose();
    grid.across.reveal(t);
    const rows = run.involved(t).map(v => grid.rows.indexOf(v)).filter(row => row >= 0);
    if (rows.length) grid.down.reveal(Math.min(...rows));
    this.panels.choose(t);
    this.facts.draw();
    this.picture.drawSoon();
  }

  // Selects a step so far from the selected one.
  go(far) { this.select(this.shown.step + far); }

  // Chooses the rows of the timeline and their order.
  choose() {
    const { shown: { run, step }, picture: { grid }, task: { variables } } = this;
    const changes = v => run.when[v].length, isMarked = v => run.missing.has(v) || run.clash.has(v);
    const first = v => isMarked(v) ? -1 : run.when[v][0] ?? run.total + 1;
    const which = {
      main: v => changes(v) || run.goal.has(v) || isMarked(v),
      changing: changes,
      goal: v => run.goal.has(v),
      derived: v => variables[v].layer >= 0,
      all: () => true,
    }[get("which").value];
    const order = { first, often: v => -changes(v), number: v => v }[get("order").value];
    const isHere = get("only").checked && step > 0, words = get("rows").value.toLowerCase();
    const rows = isHere ? run.involved(step) : [...variables.keys()].filter(which);
    const kept = rows.filter(v => variables[v].search.includes(words));
    grid.rows = kept.sort((a, b) => order(a) - order(b));
    tally("shown", grid.rows.length, variables.length);
    this.picture.layout();
  }

  // Makes steps wider by a factor, and what is at x stays there.
  zoom(factor, x = this.picture.grid.labels + this.picture.grid.across.room / 2) {
    const { grid } = this.picture, t = (x - grid.labels + grid.across.offset) / grid.wide;
    grid.across.size *= factor;
    this.picture.layout();
    grid.across.to(t * grid.wide - (x - grid.labels));
  }

  // Shows all steps and all rows; or rows of the usual height, if it has done so.
  fit() {
    const { across, down } = this.picture.grid;
    down.size = across.size <= across.least && down.size < USUAL ? USUAL : 0;
    across.size = 0;
    this.picture.layout();
  }

  // Shows step after step.
  play(isOn) {
    const { shown } = this, isEnd = () => shown.step >= shown.run.total;
    clearInterval(this.playing);
    this.playing = isOn ? setInterval(() => isEnd() ? this.play(false) : this.go(1), TICK) : 0;
    const [textContent, ariaLabel] = isOn ? ["❚❚", "Pause"] : ["▶", "Play"];
    Object.assign(get("play"), { textContent, ariaLabel });
  }

  darken(isDark) {
    document.documentElement.classList.toggle("dark", isDark);
    get("theme").ariaPressed = isDark;
  }

  save() {
    const { label, verdict } = this.shown.run.plan;
    const svg = savedPicture(this.picture, `${label}: ${verdict}`, this.keys);
    const href = URL.createObjectURL(new Blob([svg], { type: "image/svg+xml" }));
    make("a", { href, download: "plan.svg" }).click();
    setTimeout(() => URL.revokeObjectURL(href), 1000);
  }

  listen() {
    const { panels, picture, shown } = this, choose = () => this.choose();
    const on = (it, kinds, act) => kinds.split(" ").forEach(kind =>
      it.addEventListener(kind, act, { passive: false }));
    const typed = {
      rows: choose, which: choose, order: choose, only: choose,
      at: () => this.select(+get("at").value),
      filter: () => panels.filter(), find: () => panels.search(),
    };
    const pressed = {
      fit: () => this.fit(), save: () => this.save(), play: () => this.play(!this.playing),
      previous: () => this.go(-1), next: () => this.go(1),
      narrower: () => this.zoom(1 / 1.5), wider: () => this.zoom(1.5),
      theme: () => this.darken(get("theme").ariaPressed === "false"),
    };
    for (const [id, act] of Object.entries(typed)) on(get(id), "input change", act);
    on(get("only"), "input change", () => panels.filter());
    for (const [id, act] of Object.entries(pressed)) on(get(id), "click", act);
    on(get("grid"), "scroll", () => picture.drawSoon());
    on(get("grid"), "click", event => this.click(event));
    on(get("grid"), "pointermove", event => { get("grid").title = this.about(event); });
    on(get("grid"), "wheel", event => this.turn(event));
    on(get("cost"), "pointerdown pointermove", event => this.drag(event));
    on(get("timeline"), "keydown", event => this.key(event));
    on(get("grid"), "keydown", event =>
      this.move(event, "ArrowLeft", "ArrowRight", count(shown.run.total + 1)));
    on(get("steps"), "keydown", event => this.move(event, "ArrowUp", "ArrowDown", panels.found));
    on(window, "keydown", event => this.escape(event));
    on(window, "hashchange", () => this.follow());
    on(window, "beforeprint", () => shown.run && fillPaper(shown.run, picture.grid.rows));
    on(matchMedia("(prefers-color-scheme: dark)"), "change", event => this.darken(event.matches));
  }

  click(event) {
    const { grid } = this.picture, { t, row, isGoal } = grid.place(event), v = grid.rows[row];
    const goal = isGoal && this.shown.run.goal.get(v)?.[0][1];
    if (t >= 0) this.select(t);
    else if (v !== undefined) this.facts.show(v, goal);
  }

  // Selects the step below the pointer in the map.
  drag(event) {
    const { grid } = this.picture, part = (grid.place(event).x - grid.labels) / grid.across.room;
    if (event.buttons) this.select(Math.floor(part * (this.shown.run.total + 1)));
  }

  // Describes what is below the pointer in the timeline.
  about(event) {
    const { run } = this.shown, { grid } = this.picture, { t, row, isGoal } = grid.place(event);
    const v = grid.rows[row];
    const step = t > 0 ? [`step ${t}: ${run.name(t)}`] : [];
    if (v === undefined) return step.join();
    const { label, name, values } = this.task.variables[v];
    const held = t >= 0 && t <= run.judged ? [[v, run.value(v, t)]] : [];
    const facts = isGoal ? run.goal.get(v) ?? [] : held;
    return [`${label} (${name})`, ...facts.map(([, k]) => values[k].name), ...step].join("\n");
  }

  // The wheel with the control key makes steps wider.
  turn(event) {
    if (!event.ctrlKey) return;
    event.preventDefault();
    this.zoom(Math.exp(-event.deltaY / 200), this.picture.grid.place(event).x);
  }

  // Keys of the timeline, where nothing is typed.
  key(event) {
    const id = { "+": "wider", "-": "narrower", f: "fit", "/": "find" }[event.key];
    if (!id || isHeld(event) || event.target.matches("input, select")) return;
    if (id === "find") get(id).focus();
    else get(id).click();
    event.preventDefault();
  }

  // Keys that select one of these steps: the one before or after, one some away, or at an end.
  move(event, back, forth, steps) {
    const keys = { [back]: -1, [forth]: 1, ...FAR };
    const far = keys[event.key], at = steps.indexOf(this.shown.step) + far;
    if (!far || isHeld(event) || !steps.length) return;
    this.select(steps[clamp(at, 0, steps.length - 1)]);
    event.preventDefault();
  }

  // Empties a search field, and shows what it kept away.
  escape({ key, target }) {
    if (key !== "Escape" || target.type !== "search") return;
    target.value = "";
    target.dispatchEvent(new Event("input"));
  }
}

unpacked(get("data")).then(data => new Page(data))
  .catch(fault => get("trouble").append("No timeline: " + fault));
