//! values: what values.cpp does, in Rust.

use std::cell::Cell;
use std::io::{BufRead, Read, Write};

thread_local! {
    /// How many names of the answer are shown otherwise than they are.
    static SHOWN_NAMES: Cell<u32> = const { Cell::new(0) };
}

fn shown<T: std::fmt::Display>(it: Option<T>) -> String {
    it.map_or("-".to_string(), |it| it.to_string())
}

fn values_of(it: &sas::Answer) -> String {
    let numbers = [it.failing_step(), it.goal_fact(), it.sum(), it.cost(), it.steps()].map(shown).join(" ");
    let (file, reason) = (shown(it.refused_file()), it.reason().unwrap_or_default());
    format!("{} {file} {numbers} {} {reason}\n{}", it.verdict(), SHOWN_NAMES.get(), shown(it.failure()))
}

/// Writes a line of these parts.
macro_rules! line {
    ($out:expr, $($part:expr),*) => {{
        $($out.extend_from_slice($part.as_ref());)*
        $out.push(b'\n');
    }};
}

fn name_of<'a>(name: sas::Text<'a>, shown: bool) -> sas::Text<'a> {
    SHOWN_NAMES.set(SHOWN_NAMES.get() + u32::from(shown));
    name
}

fn raw(it: &sas::Fact) -> Vec<u8> {
    [format!("{} {} ", it.variable, it.value).as_bytes(), &name_of(it.name, it.shown)].concat()
}

fn write_verdict(out: &mut Vec<u8>, it: &sas::Answer) {
    if let (Some(steps), Some(cost)) = (it.steps(), it.cost()) {
        line!(out, format!("plan valid: {steps} steps, cost {cost}"));
    } else if let (Some(sas::Failure::Cost), Some(sum), Some(cost)) = (it.failure(), it.sum(), it.cost()) {
        line!(out, format!("plan invalid: cost is {sum}, not {cost}"));
    } else if let Some(fact) = it.goal_fact() {
        line!(out, format!("plan invalid: goal fact {fact} not reached"));
    } else if let (Some(step), Some((_, why))) = (it.failing_step(), it.reason().and_then(|it| it.split_once(": "))) {
        line!(out, format!("plan invalid: step {step}: {why}"));
    } else if let (Some(sas::Failure::State), Some(reason)) = (it.failure(), it.reason()) {
        line!(out, format!("state refused: {reason}"));
    }
}

fn write_refusal(out: &mut Vec<u8>, file: sas::File, it: &sas::Refusal) {
    match (it.place, it.expected) {
        (Some(place), None) => {
            line!(out, format!("{file} refused: {place}: {}", it.word));
            it.line.iter().for_each(|at| line!(out, format!("  line {at}")));
        }
        (place, _) => {
            line!(out, format!("{file} refused: line {}: {}", it.line.unwrap(), it.word));
            place.iter().for_each(|place| line!(out, format!("  at {place}")));
        }
    }
    it.expected.iter().for_each(|expected| line!(out, format!("  expected {expected}")));
    it.wrong_number.iter().for_each(|it| line!(out, format!("  number {} must be {} to {}", it.number, it.lowest, it.highest)));
    it.list_count.iter().for_each(|it| line!(out, format!("  line {} counts {}", it.line, it.items)));
    if let Some(found) = it.found {
        line!(out, format!("  {found}{}", it.text.map_or(String::new(), |text| format!(" {text}"))));
    }
    it.hint.iter().for_each(|hint| line!(out, format!("  hint {hint}")));
}

fn write_summary(out: &mut Vec<u8>, it: &sas::Summary) {
    line!(out, format!("metric {}\nvariables {}\nderived {}", it.metric, it.variables, it.derived));
    line!(out, format!("groups {}\noperators {}\nrules {}", it.groups, it.operators, it.rules));
    it.initial.iter().for_each(|it| line!(out, "initial ", raw(it)));
    it.goal.iter().for_each(|it| line!(out, "goal ", raw(it)));
}

fn write_group(out: &mut Vec<u8>, it: &sas::Group) {
    line!(out, format!("group {} {}{}", it.number, it.verdict, it.operator.map_or(String::new(), |it| format!(" {it}"))));
    if let (Some(operator), Some(line), Some(name)) = (it.operator, it.line, it.name) {
        line!(out, format!("  operator {operator} line {line} "), name_of(name, it.shown));
    }
    it.effects.iter().for_each(|it| line!(out, format!("  effect {} sets ", it.number), raw(&it.fact)));
    let word = if it.verdict == sas::GroupVerdict::Derived { "derived" } else { "holds" };
    it.facts.iter().for_each(|it| line!(out, format!("  {word} "), raw(it)));
    it.may_remain.iter().for_each(|it| line!(out, "  may remain ", raw(it)));
}

fn write_cause(out: &mut Vec<u8>, it: &sas::Cause) {
    line!(out, "    requires ", raw(&it.required));
    line!(out, "    actual ", raw(&it.actual));
    match it.since {
        Some(step) => line!(out, format!("    since step {} ", step.number), name_of(step.name, step.shown)),
        None => line!(out, "    since the initial state"),
    }
    for rule in &it.rules {
        line!(out, format!("    rule {} {} ", rule.number, if rule.is_firing { "derives" } else { "requires" }), raw(&rule.fact));
    }
    if it.no_rule {
        line!(out, "    no rule derives it");
    }
}

fn write_operators(out: &mut Vec<u8>, it: &sas::Reasons) {
    for blocked in &it.operators {
        line!(out, format!("  operator {} line {}", blocked.operator, blocked.line));
        blocked.causes.iter().for_each(|cause| write_cause(out, cause));
    }
    if let Some(conflict) = &it.conflict {
        line!(out, format!("  operator {} line {}", conflict.operator, conflict.line));
        conflict.effects.iter().for_each(|it| line!(out, format!("    effect {} sets ", it.number), raw(&it.fact)));
    }
}

fn write_reasons(out: &mut Vec<u8>, it: &sas::Reasons) {
    if let Some(step) = it.step {
        line!(out, format!("  step {} ", step.number), name_of(step.name, step.shown));
    }
    if let Some(similar) = it.similar_operator {
        line!(out, format!("  similar operator {} line {} ", similar.operator, similar.line), name_of(similar.name, similar.shown));
    }
    for further in &it.further_steps {
        line!(out, format!("  step {} ", further.step.number), name_of(further.step.name, further.step.shown));
        if let Some(similar) = further.similar_operator {
            line!(out, format!("  similar operator {} line {} ", similar.operator, similar.line), name_of(similar.name, similar.shown));
        }
    }
    if let (Some(failing), Some(total)) = (it.failing, it.total) {
        line!(out, format!("  {failing} of {total} "), if it.step.is_some() { "steps name no operator" } else { "goal facts fail" });
    }
    write_operators(out, it);
    if let Some(made) = &it.if_made {
        line!(out, format!("  if made anyway {} of {} later steps fail", made.failing_later, made.later));
        made.first_failing.iter().for_each(|step| line!(out, format!("    step {} ", step.number), name_of(step.name, step.shown)));
        line!(out, format!("  if made anyway {} of {} goal facts fail", made.failing_goal, made.goal));
    }
    for goal in &it.goal_facts {
        line!(out, format!("  goal fact {}", goal.index));
        write_cause(out, &goal.cause);
    }
    if let Some(cost) = it.cost {
        line!(out, format!("  metric {}\n  steps {}\n  sum of cost lines {}", cost.metric, cost.steps, cost.cost_lines));
    }
    if let Some(hint) = it.hint {
        line!(out, "  hint ", hint);
    }
    if let Some(other) = it.could_also_be {
        line!(out, format!("  step {} could also be operator {}", other.step, other.operator));
    }
}

fn write_trace(out: &mut Vec<u8>, it: &sas::Answer) {
    for fact in it.initial() {
        line!(out, "initial ", raw(&fact));
    }
    for (place, step) in it.trace_steps().enumerate() {
        line!(out, format!("step {} {} {} ", place + 1, step.operator, step.cost), step.name);
        for it in step.changes {
            line!(out, format!("change {} {} {} ", it.variable, it.old, it.new), it.name);
        }
    }
}

fn print(it: &sas::Answer) -> String {
    let mut lines = vec![it.to_string(), it.reasons().map_or(String::new(), |it| it.to_string())];
    lines.extend(it.initial().iter().map(|it| it.to_string()));
    for step in it.trace_steps() {
        lines.push(step.to_string());
        lines.extend(step.changes.iter().map(|it| it.to_string()));
    }
    lines.join("\n") + "\n"
}

fn main() {
    let (mut given, mut out) = (std::io::stdin().lock(), std::io::stdout().lock());
    let mut line = String::new();
    while given.read_line(&mut line).unwrap() > 0 {
        let (number, length) = line.trim_end().split_once(' ').unwrap();
        let mut answer = sas::Answer { is_yes: number == "0", text: vec![0; length.parse().unwrap()] };
        given.read_exact(&mut answer.text).unwrap();
        let mut again = Vec::new();
        SHOWN_NAMES.set(0);
        write_trace(&mut again, &answer);
        match (answer.refused_file(), answer.refusal()) {
            (Some(file), Some(refusal)) => write_refusal(&mut again, file, &refusal),
            _ => {
                write_verdict(&mut again, &answer);
                answer.reasons().iter().for_each(|it| write_reasons(&mut again, it));
            }
        }
        answer.summary().iter().for_each(|it| write_summary(&mut again, it));
        answer.groups().iter().for_each(|it| write_group(&mut again, it));
        for part in [values_of(&answer).as_bytes(), &again, print(&answer).as_bytes()] {
            out.write_all(format!("{}\n", part.len()).as_bytes()).unwrap();
            out.write_all(part).unwrap();
        }
        line.clear();
    }
}
