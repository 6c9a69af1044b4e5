//! The answers of the examples, and the texts of errors.

const FUSES: &[u8] = include_bytes!("../../../examples/fuses.sas");
const FUSES_PLAN: &[u8] = include_bytes!("../../../examples/fuses.plan");
const LAMPS: &[u8] = include_bytes!("../../../examples/lamps.sas");

#[test]
fn a_valid_plan_has_steps_and_a_cost() {
    for answer in [sas::plan(FUSES, FUSES_PLAN), sas::trace(FUSES, FUSES_PLAN)] {
        let answer = answer.unwrap();
        assert!(answer.is_yes);
        assert_eq!((answer.steps(), answer.cost()), (Some(4), Some(4)));
    }
}

#[test]
fn other_answers_have_none() {
    for answer in [sas::plan(FUSES, LAMPS), sas::check(FUSES), sas::print(FUSES), sas::steps(b"")] {
        let answer = answer.unwrap();
        assert_eq!((answer.steps(), answer.cost()), (None, None));
    }
}

#[test]
fn a_refusal_names_its_file() {
    for (answer, file) in [(sas::plan(b"junk\n", FUSES_PLAN), sas::File::Task), (sas::plan(FUSES, b"junk\n"), sas::File::Plan)] {
        let answer = answer.unwrap();
        assert_eq!((answer.verdict(), answer.refused_file()), (sas::Verdict::Refused, Some(file)));
        assert_eq!(answer.reason(), Some("line 1: keyword"));
        assert_eq!(answer.to_string(), format!("{file} refused: line 1: keyword"));
    }
}

#[test]
fn a_trace_has_steps() {
    let trace = sas::trace(FUSES, FUSES_PLAN).unwrap();
    let last = trace.trace_steps().last().unwrap();
    assert_eq!((last.operator, last.cost, last.name), (6, 1, sas::Text(b"put f2 feed")));
    assert_eq!(last.changes[0], sas::Change { variable: 0, old: 1, new: 0, name: sas::Text(b"Atom lit(yard)") });
    let lit = &trace.initial()[0];
    assert_eq!((lit.to_string(), &*lit.name), ("0 1 NegatedAtom lit(yard)".to_string(), &b"NegatedAtom lit(yard)"[..]));
}

#[test]
fn a_cause_says_since_when() {
    let why = sas::plan_why(FUSES, b"(take f1)\n(take f2)\n; cost = 2 (unit cost)\n").unwrap();
    let reasons = why.reasons().unwrap();
    assert_eq!(reasons.step.unwrap().number, why.failing_step().unwrap());
    let cause = &reasons.operators[0].causes[0];
    assert_eq!((cause.required.value, cause.actual.value, cause.since.unwrap().number), (0, 1, 1));
    assert_eq!(format!("{:?}", cause.since), r#"Some(NamedStep { number: 1, name: "take f1", shown: false })"#);
}

#[test]
fn operators_are_judged_by_their_numbers() {
    let mut held = sas::Task::read(FUSES).unwrap();
    let operators: Vec<u32> = held.trace(FUSES_PLAN).unwrap().trace_steps().map(|step| step.operator).collect();
    assert_eq!(held.plan_operators(&operators, 4), held.plan(FUSES_PLAN));
    let other = held.plan_operators(&operators, 5).unwrap();
    assert_eq!((other.verdict(), other.sum(), other.cost()), (sas::Verdict::Invalid, Some(4), Some(5)));
    assert_eq!(held.plan_operators(&[10], 1).unwrap().reason(), Some("step 1: no operator of that number"));
    assert_eq!(held.plan_operators(&[], 0).unwrap().goal_fact(), Some(0));
}

#[test]
fn other_answers_have_values() {
    let summary = sas::show(FUSES).unwrap();
    let summary = summary.summary().unwrap();
    assert_eq!((summary.metric, summary.variables, summary.operators, summary.goal.len()), (0, 8, 10, 1));
    let doorway = sas::mutex_why(include_bytes!("../../../examples/doorway.sas")).unwrap();
    let groups = doorway.groups();
    assert_eq!((groups[0].verdict, groups[0].operator, groups[0].effects[0].number), (sas::GroupVerdict::Operator, Some(4), 0));
    assert_eq!(groups[1].verdict, sas::GroupVerdict::Exclusive);
    let answer = sas::plan_why(FUSES, b"(take f1)\n").unwrap();
    let refusal = answer.refusal().unwrap();
    assert_eq!((refusal.word, refusal.line, refusal.found, refusal.hint), ("end", Some(2), Some(sas::Found::EndOfFile), Some("the cost line is missing")));
    let trace = sas::trace(FUSES, FUSES_PLAN).unwrap();
    assert_eq!((trace.sum(), trace.failure()), (Some(4), None));
    assert_eq!(sas::plan(FUSES, b"; cost = 0 (unit cost)\n").unwrap().failure(), Some(sas::Failure::Goal));
}

#[test]
fn a_run_starts_in_any_state() {
    let mut held = sas::Task::read(FUSES).unwrap();
    let before = held.run_state(&[8, 5], None).unwrap();
    assert!(before.is_yes);
    assert_eq!(held.run(&[9, 6], 2, Some(&before.values)).unwrap().text, b"plan valid: 2 steps, cost 2\n");
    assert_eq!(held.run(&[8, 5, 9, 6], 4, None), held.plan(FUSES_PLAN));
    assert_eq!(held.run(&[6], 1, Some(&before.values)).unwrap().failure(), Some(sas::Failure::NotApplicable));
    let trace = held.run_trace(&[9, 6], 2, Some(&before.values)).unwrap();
    assert_eq!((trace.sum(), trace.initial()[2].value), (Some(2), before.values[2]));
    let refused = held.run(&[9, 6], 2, Some(&[0])).unwrap();
    assert_eq!((refused.verdict(), refused.failure(), refused.reason()), (sas::Verdict::Refused, Some(sas::Failure::State), Some("1 values, not 8")));
    assert_eq!(held.run_state(&[], Some(&[0])).unwrap().values, []);
}

#[test]
fn a_task_is_read_once() {
    let mut held = sas::Task::read(FUSES).unwrap();
    assert!(held.plan(FUSES_PLAN).unwrap().is_yes);
    assert!(!held.plan(b"").unwrap().is_yes);
}

#[test]
fn a_held_task_gives_reasons_and_traces() {
    let mut held = sas::Task::read(FUSES).unwrap();
    let failed: &[u8] = b"(take f1)\n(take f2)\n; cost = 2 (unit cost)\n";
    for plan in [failed, FUSES_PLAN, b"", failed] {
        assert_eq!(held.plan(plan), sas::plan(FUSES, plan));
        assert_eq!(held.plan_why(plan), sas::plan_why(FUSES, plan));
        assert_eq!(held.trace(plan), sas::trace(FUSES, plan));
    }
    assert!(held.trace(failed).unwrap().text.ends_with(b"plan invalid: step 2: not applicable\n"));
}

#[test]
fn an_answer_over_its_limit_is_an_error() {
    let mut held = sas::Task::read(FUSES).unwrap();
    let trace = held.trace(FUSES_PLAN).unwrap();
    let size = trace.text.len();
    assert_eq!(held.max_answer_bytes(size).trace(FUSES_PLAN), Ok(trace));
    let error = held.max_answer_bytes(size - 1).trace(FUSES_PLAN).unwrap_err();
    assert_eq!(error, sas::Error::AnswerTooLong { size });
    assert_eq!(error.to_string(), format!("sas: answer too long: {size} bytes"));
    assert_eq!(sas::max_answer_bytes(0).print(FUSES), Err(sas::Error::AnswerTooLong { size: FUSES.len() }));
    // an answer without a byte is never too long
    let no_groups = include_bytes!("../../../examples/elevator.sas");
    assert_eq!(sas::max_answer_bytes(0).mutex(no_groups).unwrap().text, b"");
}

#[test]
fn the_version_is_that_of_the_crate() {
    assert_eq!(sas::version(), env!("CARGO_PKG_VERSION"));
}

#[test]
fn an_error_prints_its_text() {
    let refused = sas::Task::read(LAMPS).unwrap_err();
    assert_eq!(format!("{refused:?}"), "task refused: rule 0: layer order");
    assert_eq!(format!("{:?}", sas::Error::OutOfMemory), "sas: out of memory");
    assert_eq!(format!("{:?}", sas::check(LAMPS).unwrap()), r#"Answer { is_yes: false, text: "task refused: rule 0: layer order\n" }"#);
}
