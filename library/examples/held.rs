//! held TASK PLAN..: whether each plan solves the task, which is read once, and why not. Prints the name of each plan and what
//! `sas plan --why` prints. The exit status is 0 if all are valid, 1 if one isn't or the task is refused, 3 if there is no answer.

use std::error::Error;
use std::ffi::{OsStr, OsString};
use std::io::Write;
use std::os::unix::ffi::OsStrExt;
use std::process::ExitCode;

/// Judges a plan that is valid once more, by the numbers of its operators. A planner knows them without a trace, and writes no plan.
fn by_numbers(held: &mut sas::Task, plan: &[u8], answer: &sas::Answer) -> Result<(), Box<dyn Error>> {
    let trace = held.trace(plan)?;
    let operators: Vec<u32> = trace.trace_steps().map(|step| step.operator).collect();
    let cost = answer.cost().ok_or("a valid plan has a cost")?;
    if held.plan_operators(&operators, cost)? == *answer { Ok(()) } else { Err("another answer by numbers".into()) }
}

fn held(task: &OsStr, plans: &[OsString]) -> Result<ExitCode, Box<dyn Error>> {
    let mut out = std::io::stdout().lock();
    let mut held = match sas::Task::read(&std::fs::read(task)?) {
        Ok(held) => held,
        Err(sas::ReadError::Refused(answer)) => {
            writeln!(out, "{answer}")?;
            return Ok(ExitCode::from(1));
        }
        Err(error) => return Err(error.into()),
    };
    let mut status = 0;
    for name in plans {
        let plan = std::fs::read(name)?;
        let answer = held.plan_why(&plan)?;
        out.write_all(&[name.as_bytes(), b": ", &answer.text].concat())?;
        if answer.verdict() == sas::Verdict::Valid {
            by_numbers(&mut held, &plan, &answer)?;
        } else {
            status = 1;
        }
    }
    Ok(ExitCode::from(status))
}

fn main() -> ExitCode {
    let words: Vec<OsString> = std::env::args_os().collect();
    if words.len() < 3 {
        eprintln!("usage: held TASK PLAN..");
        return ExitCode::from(2);
    }
    held(&words[1], &words[2..]).unwrap_or_else(|error| {
        eprintln!("held: {error}");
        ExitCode::from(3)
    })
}
