//! Proved validator of Fast Downward's task files and plans: a safe crate over `libsas`.
//!
//! ```
//! let task = include_bytes!("../../../examples/fuses.sas");
//! let plan = include_bytes!("../../../examples/fuses.plan");
//!
//! let answer = sas::plan(task, plan)?;
//! assert_eq!((answer.verdict(), answer.steps(), answer.cost()), (sas::Verdict::Valid, Some(4), Some(4)));
//!
//! let mut held = sas::Task::read(task)?; // read once, for many plans
//! assert_eq!(held.plan(b"(take f9)\n")?.text, b"plan refused: line 2: end\n");
//! assert_eq!(held.plan_operators(&[8, 5, 9, 6], 4)?, answer);
//!
//! let why = held.plan_why(b"(take f1)\n(take f2)\n; cost = 2 (unit cost)\n")?;
//! let reasons = why.reasons().expect("the plan isn't valid");
//! assert_eq!(reasons.operators[0].causes[0].actual.to_string(), "6 1 NegatedAtom handempty()");
//! # Ok::<(), Box<dyn std::error::Error>>(())
//! ```
//!
//! Each function takes the bytes of files, and returns what the program `sas` prints. Threads may call at the same time. A [`Task`] can
//! be sent to another thread, and makes one call at a time.

#![warn(missing_docs)]

mod answers;
mod calls;
mod task_values;
mod values;

pub use answers::Answer;
pub use task_values::*;
pub use values::*;

use calls::*;
use std::ffi::CStr;
use std::fmt;

/// Why there is no answer.
#[derive(Clone, Copy, PartialEq, Eq)]
#[non_exhaustive]
pub enum Error {
    /// Out of memory.
    OutOfMemory,
    /// An input has more than 4,294,967,296 bytes.
    InputTooLong,
    /// The answer has more bytes than its limit.
    AnswerTooLong {
        /// How many it has.
        size: usize,
    },
}

/// Why no task is held.
#[derive(Clone, PartialEq, Eq)]
#[non_exhaustive]
pub enum ReadError {
    /// The bytes aren't those of a layered task: the answer of [`check`].
    Refused(Answer),
    /// There is no answer.
    Failed(Error),
}

impl fmt::Display for Error {
    fn fmt(&self, out: &mut fmt::Formatter) -> fmt::Result {
        match self {
            Error::OutOfMemory => out.write_str("sas: out of memory"),
            Error::InputTooLong => out.write_str("sas: input too long"),
            Error::AnswerTooLong { size } => write!(out, "sas: answer too long: {size} bytes"),
        }
    }
}

impl fmt::Display for ReadError {
    fn fmt(&self, out: &mut fmt::Formatter) -> fmt::Result {
        match self {
            ReadError::Refused(answer) => answer.fmt(out),
            ReadError::Failed(error) => error.fmt(out),
        }
    }
}

// a `main` that returns an error prints it by `Debug`
impl fmt::Debug for Error {
    fn fmt(&self, out: &mut fmt::Formatter) -> fmt::Result {
        fmt::Display::fmt(self, out)
    }
}

impl fmt::Debug for ReadError {
    fn fmt(&self, out: &mut fmt::Formatter) -> fmt::Result {
        fmt::Display::fmt(self, out)
    }
}

impl std::error::Error for Error {}
impl std::error::Error for ReadError {}

impl From<Error> for ReadError {
    fn from(error: Error) -> ReadError {
        ReadError::Failed(error)
    }
}

/// Returns the version of the library, such as 1.1.0.
#[must_use]
pub fn version() -> &'static str {
    // SAFETY: the library returns a text of its own that ends with a zero byte.
    unsafe { CStr::from_ptr(sas_version()) }.to_str().expect("a version is ASCII")
}

/// Checks whether a plan solves a task: `sas plan`.
///
/// # Errors
///
/// [`Error::OutOfMemory`]; [`Error::InputTooLong`] if a file has more than 4,294,967,296 bytes.
pub fn plan(task: &[u8], plan: &[u8]) -> Result<Answer, Error> {
    of_both(sas_plan, task, plan, LINE_ROOM, NO_LIMIT)
}

/// Checks a plan as [`plan`] does, with the reasons for a no in further lines: `sas plan --why`.
///
/// # Errors
///
/// [`Error::OutOfMemory`]; [`Error::InputTooLong`] if a file has more than 4,294,967,296 bytes.
pub fn plan_why(task: &[u8], plan: &[u8]) -> Result<Answer, Error> {
    NO_LIMIT.plan_why(task, plan)
}

/// Checks a plan as [`plan`] does, and prints what each of its steps changes: `sas trace`.
///
/// # Errors
///
/// [`Error::OutOfMemory`]; [`Error::InputTooLong`] if a file has more than 4,294,967,296 bytes.
pub fn trace(task: &[u8], plan: &[u8]) -> Result<Answer, Error> {
    NO_LIMIT.trace(task, plan)
}

/// Checks whether a task is layered: `sas check`.
///
/// # Errors
///
/// [`Error::OutOfMemory`]; [`Error::InputTooLong`] if a file has more than 4,294,967,296 bytes.
pub fn check(task: &[u8]) -> Result<Answer, Error> {
    of_one(sas_check, task, LINE_ROOM, NO_LIMIT)
}

/// Checks a task as [`check`] does, with the reasons for a no in further lines: `sas check --why`.
///
/// # Errors
///
/// [`Error::OutOfMemory`]; [`Error::InputTooLong`] if a file has more than 4,294,967,296 bytes.
pub fn check_why(task: &[u8]) -> Result<Answer, Error> {
    NO_LIMIT.check_why(task)
}

/// Checks which mutex groups of a task are exclusive: `sas mutex`. The answer is yes if all are shown to be.
///
/// # Errors
///
/// [`Error::OutOfMemory`]; [`Error::InputTooLong`] if a file has more than 4,294,967,296 bytes.
pub fn mutex(task: &[u8]) -> Result<Answer, Error> {
    NO_LIMIT.mutex(task)
}

/// Checks mutex groups as [`mutex`] does, with the reasons for a no in further lines: `sas mutex --why`.
///
/// # Errors
///
/// [`Error::OutOfMemory`]; [`Error::InputTooLong`] if a file has more than 4,294,967,296 bytes.
pub fn mutex_why(task: &[u8]) -> Result<Answer, Error> {
    NO_LIMIT.mutex_why(task)
}

/// Prints a summary of a task: `sas show`.
///
/// # Errors
///
/// [`Error::OutOfMemory`]; [`Error::InputTooLong`] if a file has more than 4,294,967,296 bytes.
pub fn show(task: &[u8]) -> Result<Answer, Error> {
    NO_LIMIT.show(task)
}

/// Prints a task file, each line ended by LF: `sas print`.
///
/// # Errors
///
/// [`Error::OutOfMemory`]; [`Error::InputTooLong`] if a file has more than 4,294,967,296 bytes.
pub fn print(task: &[u8]) -> Result<Answer, Error> {
    NO_LIMIT.print(task)
}

/// Prints a plan file, each line ended by LF: `sas steps`.
///
/// # Errors
///
/// [`Error::OutOfMemory`]; [`Error::InputTooLong`] if a file has more than 4,294,967,296 bytes.
pub fn steps(plan: &[u8]) -> Result<Answer, Error> {
    NO_LIMIT.steps(plan)
}

/// Limits the size of answers: `sas::max_answer_bytes(1 << 20).trace(task, plan)` answers as [`trace`]. If the answer has more bytes, it
/// returns [`Error::AnswerTooLong`], and takes no room for it. Inside the library the text takes memory in any case.
pub const fn max_answer_bytes(most: usize) -> Limited {
    Limited { most }
}

/// The functions whose answers may be long, with a limit, which [`max_answer_bytes`] sets.
#[derive(Clone, Copy, Debug)]
#[must_use]
pub struct Limited {
    most: usize,
}

const NO_LIMIT: Limited = max_answer_bytes(usize::MAX);

impl Limited {
    /// As the function [`plan_why`], with the limit.
    ///
    /// # Errors
    ///
    /// [`Error::AnswerTooLong`] if the answer has more bytes than the limit; else those of the function without a limit.
    pub fn plan_why(self, task: &[u8], plan: &[u8]) -> Result<Answer, Error> {
        of_both(sas_plan_why, task, plan, USUAL_ROOM, self)
    }

    /// As the function [`trace`], with the limit.
    ///
    /// # Errors
    ///
    /// [`Error::AnswerTooLong`] if the answer has more bytes than the limit; else those of the function without a limit.
    pub fn trace(self, task: &[u8], plan: &[u8]) -> Result<Answer, Error> {
        of_both(sas_trace, task, plan, trace_room(initial_size_of(task), plan), self)
    }

    /// As the function [`check_why`], with the limit.
    ///
    /// # Errors
    ///
    /// [`Error::AnswerTooLong`] if the answer has more bytes than the limit; else those of the function without a limit.
    pub fn check_why(self, task: &[u8]) -> Result<Answer, Error> {
        of_one(sas_check_why, task, USUAL_ROOM, self)
    }

    /// As the function [`mutex`], with the limit.
    ///
    /// # Errors
    ///
    /// [`Error::AnswerTooLong`] if the answer has more bytes than the limit; else those of the function without a limit.
    pub fn mutex(self, task: &[u8]) -> Result<Answer, Error> {
        of_one(sas_mutex, task, USUAL_ROOM + task.len(), self)
    }

    /// As the function [`mutex_why`], with the limit.
    ///
    /// # Errors
    ///
    /// [`Error::AnswerTooLong`] if the answer has more bytes than the limit; else those of the function without a limit.
    pub fn mutex_why(self, task: &[u8]) -> Result<Answer, Error> {
        of_one(sas_mutex_why, task, USUAL_ROOM + task.len(), self)
    }

    /// As the function [`show`], with the limit.
    ///
    /// # Errors
    ///
    /// [`Error::AnswerTooLong`] if the answer has more bytes than the limit; else those of the function without a limit.
    pub fn show(self, task: &[u8]) -> Result<Answer, Error> {
        of_one(sas_show, task, USUAL_ROOM + task.len(), self)
    }

    /// As the function [`print()`], with the limit.
    ///
    /// # Errors
    ///
    /// [`Error::AnswerTooLong`] if the answer has more bytes than the limit; else those of the function without a limit.
    pub fn print(self, task: &[u8]) -> Result<Answer, Error> {
        of_one(sas_print, task, LINE_ROOM + task.len(), self)
    }

    /// As the function [`steps`], with the limit.
    ///
    /// # Errors
    ///
    /// [`Error::AnswerTooLong`] if the answer has more bytes than the limit; else those of the function without a limit.
    pub fn steps(self, plan: &[u8]) -> Result<Answer, Error> {
        of_one(sas_steps, plan, LINE_ROOM + plan.len(), self)
    }
}

/// A layered task that is read once, for many plans.
#[derive(Debug)]
pub struct Task {
    held: Held,
    variables: usize,
    /// How many bytes the initial state has in each trace, which is a guess until the first one is there.
    initial_size: usize,
    is_measured: bool,
}

// SAFETY: a task is memory of malloc, which no thread owns. Its pointer keeps `Task` from being `Sync`.
unsafe impl Send for Task {}

impl Task {
    /// Reads a task. One that isn't layered is refused, with the answer of [`check`].
    ///
    /// # Errors
    ///
    /// [`ReadError::Refused`], with the answer, if the task isn't layered, or the bytes are none of a task; [`ReadError::Failed`] if there is
    /// no answer.
    pub fn read(task: &[u8]) -> Result<Task, ReadError> {
        let mut read = Task { held: Held::NONE, variables: variables_of(task), initial_size: initial_size_of(task), is_measured: false };
        // SAFETY: a slice is so many bytes at a pointer that isn't null; `answer` gives a room and a size of its own.
        let answer = answer(LINE_ROOM, NO_LIMIT, |room, length, size| unsafe {
            sas_task_read(&mut read.held, task.as_ptr(), task.len(), room, length, size)
        })?;
        if answer.is_yes { Ok(read) } else { Err(ReadError::Refused(answer)) }
    }

    /// Checks whether a plan solves the task, as the function `plan` does.
    ///
    /// # Errors
    ///
    /// [`Error::OutOfMemory`]; [`Error::InputTooLong`] if a file has more than 4,294,967,296 bytes.
    pub fn plan(&mut self, plan: &[u8]) -> Result<Answer, Error> {
        self.of_plan(sas_task_plan, plan, LINE_ROOM, NO_LIMIT)
    }

    /// Checks a plan as [`Task::plan`] does, with the reasons for a no in further lines, as the function [`plan_why`].
    ///
    /// # Errors
    ///
    /// [`Error::OutOfMemory`]; [`Error::InputTooLong`] if a file has more than 4,294,967,296 bytes.
    pub fn plan_why(&mut self, plan: &[u8]) -> Result<Answer, Error> {
        self.max_answer_bytes(usize::MAX).plan_why(plan)
    }

    /// Checks a plan as [`Task::plan`] does, and prints what each of its steps changes, as the function [`trace`].
    ///
    /// # Errors
    ///
    /// [`Error::OutOfMemory`]; [`Error::InputTooLong`] if a file has more than 4,294,967,296 bytes.
    pub fn trace(&mut self, plan: &[u8]) -> Result<Answer, Error> {
        self.max_answer_bytes(usize::MAX).trace(plan)
    }

    /// Checks whether the steps that are these operators solve the task at this cost, as [`Task::plan`] does for a planner that has no
    /// plan file. Operators are counted from 0, in the order of the task file. No name is looked up.
    ///
    /// # Errors
    ///
    /// [`Error::OutOfMemory`].
    pub fn plan_operators(&mut self, operators: &[u32], cost: u64) -> Result<Answer, Error> {
        // SAFETY: as in `read`; the numbers of a slice are aligned.
        answer(LINE_ROOM, NO_LIMIT, |room, length, size| unsafe {
            sas_task_plan_operators(&mut self.held, operators.as_ptr(), operators.len(), cost, room, length, size)
        })
    }

    /// Checks whether the steps that are these operators solve the task at this cost, from a state on: a value for each variable, or `None`
    /// for the initial state. Values of derived variables are computed anew. If the start isn't a state of the task, the answer refuses it.
    ///
    /// # Errors
    ///
    /// [`Error::OutOfMemory`].
    pub fn run(&mut self, operators: &[u32], cost: u64, start: Option<&[u32]>) -> Result<Answer, Error> {
        self.of_run(sas_task_run, &Run::new(operators, cost, start), LINE_ROOM, NO_LIMIT)
    }

    /// Checks steps as [`Task::run`] does, and prints what each of them changes.
    ///
    /// # Errors
    ///
    /// [`Error::OutOfMemory`].
    pub fn run_trace(&mut self, operators: &[u32], cost: u64, start: Option<&[u32]>) -> Result<Answer, Error> {
        self.max_answer_bytes(usize::MAX).run_trace(operators, cost, start)
    }

    /// Returns the state that the steps lead to that are these operators.
    ///
    /// # Errors
    ///
    /// [`Error::OutOfMemory`].
    pub fn run_state(&mut self, operators: &[u32], start: Option<&[u32]>) -> Result<State, Error> {
        let run = Run::new(operators, 0, start);
        // SAFETY: as in `read`; the numbers of slices are aligned, and those of the room are a `Vec`'s own.
        let (is_yes, values) = filled(self.variables.max(1), NO_LIMIT, |room, length, size| unsafe {
            sas_task_run_state(&mut self.held, &run, room, length, size)
        })?;
        Ok(State { is_yes, values })
    }

    /// Limits the size of answers, as the function [`max_answer_bytes`]: `task.max_answer_bytes(1 << 20).trace(plan)`.
    pub fn max_answer_bytes(&mut self, most: usize) -> LimitedTask<'_> {
        LimitedTask { task: self, limit: max_answer_bytes(most) }
    }

    fn of_run(&mut self, request: OfRun, run: &Run, room: usize, limit: Limited) -> Result<Answer, Error> {
        // SAFETY: as in `read`; the numbers of slices are aligned.
        answer(room, limit, |room, length, size| unsafe { request(&mut self.held, run, room, length, size) })
    }

    fn of_plan(&mut self, request: OfHeld, plan: &[u8], room: usize, limit: Limited) -> Result<Answer, Error> {
        // SAFETY: as in `read`; `self` is borrowed by one call at a time.
        answer(room, limit, |room, length, size| unsafe { request(&mut self.held, plan.as_ptr(), plan.len(), room, length, size) })
    }
}

/// The calls of a task whose answers may be long, with a limit, which [`Task::max_answer_bytes`] sets.
#[derive(Debug)]
#[must_use]
pub struct LimitedTask<'a> {
    task: &'a mut Task,
    limit: Limited,
}

impl LimitedTask<'_> {
    /// As [`Task::plan_why`], with the limit.
    ///
    /// # Errors
    ///
    /// [`Error::AnswerTooLong`] if the answer has more bytes than the limit; else those of the function without a limit.
    pub fn plan_why(self, plan: &[u8]) -> Result<Answer, Error> {
        self.task.of_plan(sas_task_plan_why, plan, USUAL_ROOM, self.limit)
    }

    /// As [`Task::trace`], with the limit.
    ///
    /// # Errors
    ///
    /// [`Error::AnswerTooLong`] if the answer has more bytes than the limit; else those of the function without a limit.
    pub fn trace(self, plan: &[u8]) -> Result<Answer, Error> {
        let trace = self.task.of_plan(sas_task_trace, plan, trace_room(self.task.initial_size, plan), self.limit)?;
        if !self.task.is_measured && trace.is_trace() {
            self.task.initial_size = trace.initial_size();
            self.task.is_measured = true;
        }
        Ok(trace)
    }

    /// As [`Task::run_trace`], with the limit.
    ///
    /// # Errors
    ///
    /// [`Error::AnswerTooLong`] if the answer has more bytes than the limit; else those of the function without a limit.
    pub fn run_trace(self, operators: &[u32], cost: u64, start: Option<&[u32]>) -> Result<Answer, Error> {
        let room = USUAL_ROOM + self.task.initial_size + 100 * operators.len();
        self.task.of_run(sas_task_run_trace, &Run::new(operators, cost, start), room, self.limit)
    }
}

/// The state behind the steps of a run that go through.
#[derive(Clone, Debug, Default, PartialEq, Eq, Hash)]
#[must_use]
pub struct State {
    /// Whether all steps go through.
    pub is_yes: bool,
    /// A value for each variable. If a step doesn't go through, they are those before it. Empty if the start isn't a state of the task.
    pub values: Vec<u32>,
}

impl Drop for Task {
    fn drop(&mut self) {
        // SAFETY: only calls of the library have changed the task.
        unsafe { sas_task_free(&mut self.held) }
    }
}
