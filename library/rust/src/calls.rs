//! The calls of `libsas`, and how their answers are taken.

use crate::answers::{Answer, Line};
use crate::{Error, Limited};
use std::ffi::{c_char, c_void};
use std::marker::PhantomData;

/// `sas_task` of sas.h.
#[repr(C)]
#[derive(Debug)]
pub(crate) struct Held {
    is_there: u8,
    at: *mut c_void,
}

impl Held {
    pub(crate) const NONE: Held = Held { is_there: 0, at: std::ptr::null_mut() };
}

/// `sas_run` of sas.h.
#[repr(C)]
pub(crate) struct Run<'a> {
    operators: *const u32,
    count: usize,
    cost: u64,
    start: *const u32,
    start_length: usize,
    of: PhantomData<&'a [u32]>,
}

impl<'a> Run<'a> {
    pub(crate) fn new(operators: &'a [u32], cost: u64, start: Option<&'a [u32]>) -> Run<'a> {
        let start = start.unwrap_or_default();
        Run {
            operators: operators.as_ptr(),
            count: operators.len(),
            cost,
            start: start.as_ptr(),
            start_length: start.len(),
            of: PhantomData,
        }
    }
}

// the rooms that calls get first, in bytes: of a line, and of a longer answer
pub(crate) const LINE_ROOM: usize = 128;
pub(crate) const USUAL_ROOM: usize = 65536;

/// Returns a guess of how many bytes the initial state of a task has in a trace: 64 for each variable, whose number is on line 7.
pub(crate) fn initial_size_of(task: &[u8]) -> usize {
    task.len().min(variables_of(task).saturating_mul(64))
}

/// Returns how many variables a task has: its line 7.
pub(crate) fn variables_of(task: &[u8]) -> usize {
    let line = task.split(|it| *it == b'\n').nth(6).unwrap_or_default();
    Line(line).number::<u32>("").unwrap_or(0) as usize
}

/// The room that most traces fit in.
pub(crate) fn trace_room(initial_size: usize, plan: &[u8]) -> usize {
    USUAL_ROOM + initial_size + 10 * plan.len()
}

const YES: u32 = 0;
const NO: u32 = 1;
const ROOM_TOO_SHORT: u32 = 2;
const OUT_OF_MEMORY: u32 = 3;
const INPUT_TOO_LONG: u32 = 4;

pub(crate) type OfOne = unsafe extern "C" fn(*const u8, usize, *mut u8, usize, *mut usize) -> u32;
pub(crate) type OfBoth = unsafe extern "C" fn(*const u8, usize, *const u8, usize, *mut u8, usize, *mut usize) -> u32;
pub(crate) type OfRun = unsafe extern "C" fn(*mut Held, *const Run, *mut u8, usize, *mut usize) -> u32;
pub(crate) type OfHeld = unsafe extern "C" fn(*mut Held, *const u8, usize, *mut u8, usize, *mut usize) -> u32;

unsafe extern "C" {
    pub(crate) fn sas_version() -> *const c_char;
    pub(crate) fn sas_plan(t: *const u8, t_len: usize, p: *const u8, p_len: usize, room: *mut u8, len: usize, size: *mut usize) -> u32;
    pub(crate) fn sas_plan_why(t: *const u8, t_len: usize, p: *const u8, p_len: usize, room: *mut u8, len: usize, size: *mut usize) -> u32;
    pub(crate) fn sas_trace(t: *const u8, t_len: usize, p: *const u8, p_len: usize, room: *mut u8, len: usize, size: *mut usize) -> u32;
    pub(crate) fn sas_check(task: *const u8, task_len: usize, room: *mut u8, len: usize, size: *mut usize) -> u32;
    pub(crate) fn sas_check_why(task: *const u8, task_len: usize, room: *mut u8, len: usize, size: *mut usize) -> u32;
    pub(crate) fn sas_mutex(task: *const u8, task_len: usize, room: *mut u8, len: usize, size: *mut usize) -> u32;
    pub(crate) fn sas_mutex_why(task: *const u8, task_len: usize, room: *mut u8, len: usize, size: *mut usize) -> u32;
    pub(crate) fn sas_show(task: *const u8, task_len: usize, room: *mut u8, len: usize, size: *mut usize) -> u32;
    pub(crate) fn sas_print(task: *const u8, task_len: usize, room: *mut u8, len: usize, size: *mut usize) -> u32;
    pub(crate) fn sas_steps(plan: *const u8, plan_len: usize, room: *mut u8, len: usize, size: *mut usize) -> u32;
    pub(crate) fn sas_task_read(held: *mut Held, task: *const u8, task_len: usize, room: *mut u8, len: usize, size: *mut usize) -> u32;
    pub(crate) fn sas_task_plan(held: *mut Held, plan: *const u8, plan_len: usize, room: *mut u8, len: usize, size: *mut usize) -> u32;
    pub(crate) fn sas_task_plan_why(held: *mut Held, plan: *const u8, plan_len: usize, room: *mut u8, len: usize, size: *mut usize) -> u32;
    pub(crate) fn sas_task_trace(held: *mut Held, plan: *const u8, plan_len: usize, room: *mut u8, len: usize, size: *mut usize) -> u32;
    pub(crate) fn sas_task_plan_operators(held: *mut Held, numbers: *const u32, count: usize, cost: u64, room: *mut u8, len: usize, size: *mut usize) -> u32;
    pub(crate) fn sas_task_run(held: *mut Held, run: *const Run, room: *mut u8, len: usize, size: *mut usize) -> u32;
    pub(crate) fn sas_task_run_trace(held: *mut Held, run: *const Run, room: *mut u8, len: usize, size: *mut usize) -> u32;
    pub(crate) fn sas_task_run_state(held: *mut Held, run: *const Run, room: *mut u32, len: usize, size: *mut usize) -> u32;
    pub(crate) fn sas_task_free(held: *mut Held);
}

pub(crate) fn of_one(request: OfOne, file: &[u8], room: usize, limit: Limited) -> Result<Answer, Error> {
    // SAFETY: a slice is so many bytes at a pointer that isn't null; `answer` gives a room and a size of its own.
    answer(room, limit, |room, length, size| unsafe { request(file.as_ptr(), file.len(), room, length, size) })
}

pub(crate) fn of_both(request: OfBoth, task: &[u8], plan: &[u8], room: usize, limit: Limited) -> Result<Answer, Error> {
    // SAFETY: as in `of_one`.
    answer(room, limit, |room, length, size| unsafe { request(task.as_ptr(), task.len(), plan.as_ptr(), plan.len(), room, length, size) })
}

/// Returns the answer of a call. The call gets a room of so many bytes, at most those of the limit. If the answer is longer, the call is
/// repeated with a room that fits, unless that is over the limit.
pub(crate) fn answer(room: usize, limit: Limited, call: impl FnMut(*mut u8, usize, *mut usize) -> u32) -> Result<Answer, Error> {
    filled(room, limit, call).map(|(is_yes, text)| Answer { is_yes, text })
}

/// Returns whether a call says yes, and with what it filled its room.
pub(crate) fn filled<T: Clone + Default>(
    room: usize,
    limit: Limited,
    mut call: impl FnMut(*mut T, usize, *mut usize) -> u32,
) -> Result<(bool, Vec<T>), Error> {
    let mut held = Vec::new();
    let mut size = room.min(limit.most);
    loop {
        held.clear();
        held.try_reserve_exact(size).map_err(|_| Error::OutOfMemory)?;
        held.resize(size, T::default());
        match call(held.as_mut_ptr(), held.len(), &mut size) {
            number @ (YES | NO) => {
                held.truncate(size);
                held.shrink_to_fit();
                return Ok((number == YES, held));
            }
            ROOM_TOO_SHORT if size > limit.most => return Err(Error::AnswerTooLong { size }),
            ROOM_TOO_SHORT => {}
            OUT_OF_MEMORY => return Err(Error::OutOfMemory),
            INPUT_TOO_LONG => return Err(Error::InputTooLong),
            _ => unreachable!("a `Task` holds a task"),
        }
    }
}
