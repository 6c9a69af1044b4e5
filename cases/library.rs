//! library TASK PLAN: makes each call of the crate, for library_wrappers.py. Of each answer it prints the call's name, 0 or 1 as the status
//! of `sas`, its steps and its cost, or 0 where there are none, and the text; or the name and which error there is. A call that takes a
//! limit gets that of its answer's size, after lower ones, which have to be refused.

use std::io::Write;

fn is_send<T: Send>() {}

fn tell(name: &str, answer: Result<sas::Answer, sas::Error>) {
    let mut out = std::io::stdout().lock();
    match answer {
        Ok(answer) => {
            let (steps, cost) = (answer.steps().unwrap_or(0), answer.cost().unwrap_or(0));
            write!(out, "{name} {} {steps} {cost}\n", if answer.is_yes { 0 } else { 1 }).unwrap();
            out.write_all(&answer.text).unwrap();
        }
        Err(error) => write!(out, "{name} {}\n", error.to_string().replace("sas: ", "")).unwrap(),
    }
}

fn tell_state(name: &str, state: Result<sas::State, sas::Error>) {
    match state {
        Ok(it) => println!("{name} {}{}", u32::from(!it.is_yes), it.values.iter().map(|it| format!(" {it}")).collect::<String>()),
        Err(error) => println!("{name} {}", error.to_string().replace("sas: ", "")),
    }
}

/// Makes a call without a limit, and with limits.
fn tell_limited(name: &str, answer: Result<sas::Answer, sas::Error>, mut call: impl FnMut(usize) -> Result<sas::Answer, sas::Error>) {
    if let Ok(size) = answer.as_ref().map(|it| it.text.len()) {
        for limit in [0, size / 2, size.wrapping_sub(1)].into_iter().filter(|it| *it < size) {
            assert_eq!(call(limit), Err(sas::Error::AnswerTooLong { size }));
        }
        assert_eq!(call(size), answer);
    }
    tell(name, answer);
}

fn main() {
    is_send::<sas::Task>();
    let files: Vec<Vec<u8>> = std::env::args().skip(1).map(|name| std::fs::read(name).unwrap()).collect();
    let (task, plan) = (&files[0], &files[1]);
    tell("plan", sas::plan(task, plan));
    tell_limited("plan_why", sas::plan_why(task, plan), |it| sas::max_answer_bytes(it).plan_why(task, plan));
    tell_limited("trace", sas::trace(task, plan), |it| sas::max_answer_bytes(it).trace(task, plan));
    tell("check", sas::check(task));
    tell_limited("check_why", sas::check_why(task), |it| sas::max_answer_bytes(it).check_why(task));
    tell_limited("mutex", sas::mutex(task), |it| sas::max_answer_bytes(it).mutex(task));
    tell_limited("mutex_why", sas::mutex_why(task), |it| sas::max_answer_bytes(it).mutex_why(task));
    tell_limited("show", sas::show(task), |it| sas::max_answer_bytes(it).show(task));
    tell_limited("print", sas::print(task), |it| sas::max_answer_bytes(it).print(task));
    tell_limited("steps", sas::steps(plan), |it| sas::max_answer_bytes(it).steps(plan));
    tell("empty", sas::plan(&[], &[]));

    match sas::Task::read(task) {
        Ok(mut held) => {
            tell("held", held.plan(plan));
            tell_limited("held plan_why", held.plan_why(plan), |it| held.max_answer_bytes(it).plan_why(plan));
            tell_limited("held trace", held.trace(plan), |it| held.max_answer_bytes(it).trace(plan));
            tell("held operators", held.plan_operators(&[0], 1));
            let first = held.run_state(&[], None).map_or(Vec::new(), |it| it.values);
            for start in [None, Some(&[1000000][..]), Some(&first[..])] {
                tell("held run", held.run(&[0], 1, start));
                tell_limited("held run_trace", held.run_trace(&[0], 1, start), |it| held.max_answer_bytes(it).run_trace(&[0], 1, start));
                tell_state("held run_state", held.run_state(&[0], start));
            }
            tell("elsewhere", std::thread::scope(|it| it.spawn(|| held.plan(plan)).join().unwrap()));
        }
        Err(sas::ReadError::Refused(answer)) => tell("read", Ok(answer)),
        Err(sas::ReadError::Failed(error)) => tell("read", Err(error)),
        Err(error) => panic!("{error}"),
    }
    match sas::Task::read(plan) {
        Ok(_) => println!("a plan is read as a task"),
        Err(sas::ReadError::Refused(answer)) => tell("read", Ok(answer)),
        Err(sas::ReadError::Failed(error)) => tell("read", Err(error)),
        Err(error) => panic!("{error}"),
    }
}
