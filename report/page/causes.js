// Causes: what made true what a step or the goal requires.

// How many rules are looked at for all states of a plan.
const MOST_RULES = 5e6;

// What an operator requires in a state: its preconditions, and the conditions of effects that fire.
function needs({ requires, effects }, value) {
  const isFired = ([, , facts]) => facts.every(([v, k]) => value(v) === k);
  return [...requires, ...effects.filter(isFired).flatMap(([, , facts]) => facts)];
}

// The order of derived values in a state: again and again the lowest rule is added that can be. Its
// conditions hold, its variable has no rule yet, and each derived variable that it requires at
// another value than the default has one. Returns the rule of each derived variable that has one.
function derivation(task, value) {
  const { rules, variables } = task, found = new Map(), waiting = new Map();
  const isMade = ([v, k]) => variables[v].layer >= 0 && k !== variables[v].base;
  const open = rules.map(({ facts }, i) => {
    if (!facts.every(([v, k]) => value(v) === k)) return -1;
    const made = new Set(facts.filter(isMade).map(([v]) => v));
    for (const v of made) waiting.set(v, waiting.get(v) ?? []).get(v).push(i);
    return made.size;
  });
  for (let i = 0; i < rules.length; i++) {
    const { v } = rules[i];
    if (open[i] !== 0 || found.has(v)) continue;
    found.set(v, rules[i]);
    const ready = (waiting.get(v) ?? []).filter(other => --open[other] === 0);
    i = Math.min(i, ...ready.map(other => other - 1));
  }
  return found;
}

// What a variable rests on in a state. A derived variable that has a rule rests on the conditions
// of that rule; another one on the first condition that fails of each of its rules.
function supports({ rules, layer }, v, value, derived) {
  if (layer < 0) return [];
  if (derived.has(v)) return derived.get(v).facts.map(([v]) => v);
  return rules.map(({ facts }) => facts.find(([v, k]) => value(v) !== k)[0]);
}

// The causal links of a plan. uses[p] has for each variable that step p changed (0: that has its
// first value) and each later step that rests on it that step and the variable. The goal counts as
// a step after the last.
class Causes {
  constructor(run) {
    const { task, judged } = run, now = [...task.initial], uses = count(judged + 1, () => []);
    Object.assign(this, { run, work: 0, uses });
    for (let t = 1; t <= judged + 1 && t !== run.failing; t++) {
      const isGoal = t > judged, value = v => now[v], goal = ([v, k]) => now[v] === k;
      const facts = isGoal ? task.goal.filter(goal) : needs(run.operator(t), value);
      for (const v of this.grounds(facts, value)) uses[run.since(v, t - 1)].push([t, v]);
      for (const [v, k] of run.changes(t)) now[v] = k;
    }
  }

  // Whether the rules were followed in all states.
  get isWhole() { return this.work <= MOST_RULES; }

  // The variables on which facts rest in a state, each once.
  grounds(facts, value) {
    const { variables } = this.run.task, them = facts.map(([v]) => v), found = new Set(them);
    if (!this.isWhole || them.every(v => variables[v].layer < 0)) return found;
    const { task } = this.run, derived = derivation(task, value);
    this.work += task.rules.length;
    for (const v of found) {
      for (const other of supports(variables[v], v, value, derived)) found.add(other);
    }
    return found;
  }

  // Whether a later step or the goal rests on a basic variable that step t changed. It isn't known
  // of a plan with a step that fails.
  isNeeded(t) {
    const { run } = this, isBasic = ([, v]) => run.task.variables[v].layer < 0;
    return !t || t > run.judged || run.failing > 0 || !this.isWhole || this.uses[t].some(isBasic);
  }

  // The steps that rest on what step t did to v.
  users(v, t) { return this.uses[t].filter(([, other]) => other === v).map(([step]) => step); }
}
