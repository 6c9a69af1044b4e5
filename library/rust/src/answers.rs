//! Answers, and how the values are read from their texts.

#![forbid(unsafe_code)]

use crate::values::*;
use std::fmt;
use std::iter;
use std::str::{self, FromStr};

/// What `sas` prints, and whether its exit status is 0. All else is read from the text.
#[derive(Clone, PartialEq, Eq, Hash)]
#[must_use = "the answer may be no"]
pub struct Answer {
    /// Whether the answer is yes, or the text was printed.
    pub is_yes: bool,
    /// What `sas` prints. Names in it may have any bytes.
    pub text: Vec<u8>,
}

impl Answer {
    /// What the answer says.
    #[must_use]
    pub fn verdict(&self) -> Verdict {
        match self.headline() {
            line if line.starts_with(b"plan valid: ") => Verdict::Valid,
            line if line.starts_with(b"plan invalid: ") => Verdict::Invalid,
            line if self.refused_file().is_some() || line.starts_with(b"state refused: ") => Verdict::Refused,
            _ => if self.is_yes { Verdict::Yes } else { Verdict::No },
        }
    }

    /// Which file is refused.
    #[must_use]
    pub fn refused_file(&self) -> Option<File> {
        match self.headline() {
            line if line.starts_with(b"task refused: ") => Some(File::Task),
            line if line.starts_with(b"plan refused: ") => Some(File::Plan),
            _ => None,
        }
    }

    /// The reason for a no, such as `step 2: not applicable` or `line 7: name`. Of mutex groups it is the first line that isn't
    /// `group K exclusive`.
    #[must_use]
    pub fn reason(&self) -> Option<&str> {
        let line = match self.verdict() {
            Verdict::Invalid | Verdict::Refused => str::from_utf8(self.headline()).ok()?.split_once(": ")?.1.as_bytes(),
            Verdict::No => self.text.split(|it| *it == b'\n').find(|it| !it.ends_with(b" exclusive"))?,
            Verdict::Valid | Verdict::Yes => return None,
        };
        str::from_utf8(line).ok()
    }

    /// What fails, if the answer is `plan invalid: ..`, or a state is refused.
    #[must_use]
    pub fn failure(&self) -> Option<Failure> {
        let line = self.headline();
        match line.strip_prefix(b"plan invalid: ") {
            Some(why) if why.starts_with(b"goal fact ") => Some(Failure::Goal),
            Some(why) if why.starts_with(b"cost is ") => Some(Failure::Cost),
            Some(_) if line.ends_with(b": not applicable") => Some(Failure::NotApplicable),
            Some(_) if line.ends_with(b": no operator of that name") => Some(Failure::NoSuchName),
            Some(_) if line.ends_with(b": no operator of that number") => Some(Failure::NoSuchNumber),
            Some(_) if line.ends_with(b": conflicting effects") => Some(Failure::Conflict),
            None if line.starts_with(b"state refused: ") => Some(Failure::State),
            _ => None,
        }
    }

    /// The step that fails, counted from 1, if the reason is `step S: ..`.
    #[must_use]
    pub fn failing_step(&self) -> Option<u64> {
        Line::after("plan invalid: step ", self.headline())?.number(": ")
    }

    /// The first fact of the goal that fails, counted from 0, if the reason is `goal fact I not reached`.
    #[must_use]
    pub fn goal_fact(&self) -> Option<u64> {
        Line::after("plan invalid: goal fact ", self.headline())?.number(" not reached")
    }

    /// The sum of the costs of the steps that go through: of a trace, of a valid plan, or if the reason is `cost is SUM, not COST`.
    #[must_use]
    pub fn sum(&self) -> Option<u64> {
        if self.is_trace() {
            return Some(self.trace_steps().fold(0, |sum, step| sum.wrapping_add(step.cost)));
        }
        self.steps_and_cost().map(|(_, cost)| cost).or_else(|| self.sum_and_cost().map(|(sum, _)| sum))
    }

    /// The number of steps, if the answer is `plan valid: S steps, cost C`.
    #[must_use]
    pub fn steps(&self) -> Option<u64> {
        self.steps_and_cost().map(|(steps, _)| steps)
    }

    /// The cost, if the answer is `plan valid: S steps, cost C`, and COST, if the reason is `cost is SUM, not COST`.
    #[must_use]
    pub fn cost(&self) -> Option<u64> {
        self.steps_and_cost().or_else(|| self.sum_and_cost()).map(|(_, cost)| cost)
    }

    /// The initial state of a trace: a fact for each variable. Empty if the answer is no trace.
    #[must_use]
    pub fn initial(&self) -> Vec<Fact<'_>> {
        let mut rest = &*self.text;
        iter::from_fn(|| Line::after("initial ", next_line(&mut rest))?.raw_fact()).collect()
    }

    /// The steps of a trace that succeed, each read from the text when it is asked for. None if the answer is no trace.
    pub fn trace_steps(&self) -> impl Iterator<Item = Step<'_>> + Clone {
        let mut rest = if self.is_trace() { self.text.get(self.initial_size() + 1..).unwrap_or_default() } else { &[] };
        iter::from_fn(move || next_step(&mut rest))
    }

    /// The reasons of `plan_why`. `None` if the answer has none.
    #[must_use]
    pub fn reasons(&self) -> Option<Reasons<'_>> {
        let mut rest = &*self.text;
        next_line(&mut rest);
        if self.is_trace() || rest.is_empty() || !matches!(self.verdict(), Verdict::Invalid | Verdict::Refused) {
            return None;
        }
        let mut reasons = Reasons { text: Text(rest), ..Reasons::default() };
        while !rest.is_empty() {
            // a line that isn't added is one of a later version
            let _ = reasons.add(next_line(&mut rest), self.headline());
        }
        Some(reasons)
    }

    fn steps_and_cost(&self) -> Option<(u64, u64)> {
        let mut line = Line::after("plan valid: ", self.headline())?;
        Some((line.number(" steps, cost ")?, line.last()?))
    }

    fn sum_and_cost(&self) -> Option<(u64, u64)> {
        let mut line = Line::after("plan invalid: cost is ", self.headline())?;
        Some((line.number(", not ")?, line.last()?))
    }

    /// How many bytes the initial state of a trace has, without its last line end.
    pub(crate) fn initial_size(&self) -> usize {
        self.text.windows(6).position(|it| it == b"\nstep ").unwrap_or(self.text.len())
    }

    pub(crate) fn is_trace(&self) -> bool {
        self.text.starts_with(b"initial ")
    }

    /// The line with the verdict: the last one of a trace, else the first.
    fn headline(&self) -> &[u8] {
        let text = self.text.strip_suffix(b"\n").unwrap_or(&self.text);
        let mut lines = text.split(|it| *it == b'\n');
        if self.is_trace() { lines.next_back() } else { lines.next() }.unwrap_or_default()
    }
}

impl<'a> Reasons<'a> {
    /// Adds a line to the reasons for a verdict. Returns `None` if it is none of those below.
    fn add(&mut self, line: &'a [u8], verdict: &[u8]) -> Option<()> {
        if let Some(line) = line.strip_prefix(b"    ") {
            return self.add_deep(Line(line));
        }
        let mut line = Line::after("  ", line)?;
        match line.word()? {
            b"step" if self.step.is_none() && verdict.ends_with(b": no operator of that number") => {
                let (number, unknown) = (line.number(" number ")?, line.last()?);
                (self.step, self.unknown_number) = (Some(NamedStep { number, ..NamedStep::default() }), Some(unknown));
            }
            // a step may have any name, so before the line that counts them none is about what a step could also be
            b"step" if self.step.is_none() && verdict.starts_with(b"plan invalid: step ") => self.step = Some(line.step()?),
            b"step" if self.total.is_none() && verdict.ends_with(b": no operator of that name") => {
                self.further_steps.push(UnknownStep { step: line.step()?, similar_operator: None });
            }
            b"step" => {
                let step = line.number(" could also be operator ")?;
                self.could_also_be = Some(CouldAlsoBe { step, operator: line.last()? });
            }
            b"similar" => {
                let (operator, line, name) = (line.words("operator ")?.number(" line ")?, line.number(" ")?, line.name());
                let shown = is_shown(&name);
                let to = self.further_steps.last_mut().map_or(&mut self.similar_operator, |it| &mut it.similar_operator);
                *to = Some(SimilarOperator { operator, line, name, shown });
            }
            b"operator" => {
                let (operator, line) = (line.number(" line ")?, line.last()?);
                if verdict.ends_with(b": conflicting effects") {
                    self.conflict = Some(Conflict { operator, line, effects: Vec::new() });
                } else {
                    self.operators.push(BlockedOperator { operator, line, causes: Vec::new() });
                }
            }
            b"if" => {
                let (failing, all) = (line.words("made anyway ")?.number(" of ")?, line.number(" ")?);
                if line.0 == b"later steps fail" {
                    self.if_made = Some(MadeAnyway { failing_later: failing, later: all, ..MadeAnyway::default() });
                } else if line.0 == b"goal facts fail" {
                    let it = self.if_made.as_mut()?;
                    (it.failing_goal, it.goal) = (failing, all);
                }
            }
            b"goal" => self.goal_facts.push(GoalFact { index: line.words("fact ")?.last()?, cause: Cause::default() }),
            b"metric" => self.cost.get_or_insert_with(CostFacts::default).metric = line.last()?,
            b"steps" => self.cost.get_or_insert_with(CostFacts::default).steps = line.last()?,
            b"sum" => self.cost.get_or_insert_with(CostFacts::default).cost_lines = line.words("of cost lines ")?.last()?,
            b"hint" => self.hint = Some(str::from_utf8(line.0).ok()?),
            number => {
                let (failing, total) = (Line(number).last()?, line.words("of ")?.number(" ")?);
                (self.failing, self.total) = (Some(failing), Some(total));
            }
        }
        Some(())
    }

    /// Adds a line of four spaces to the conflict, to what follows if the step is made anyway, or to a cause.
    fn add_deep(&mut self, mut line: Line<'a>) -> Option<()> {
        match line.word()? {
            b"effect" => {
                let effect = Effect { number: line.number(" sets ")?, fact: line.fact()? };
                self.conflict.as_mut()?.effects.push(effect);
            }
            b"requires" => {
                let cause = Cause { required: line.fact()?, ..Cause::default() };
                match self.goal_facts.last_mut() {
                    Some(goal) => goal.cause = cause,
                    None => self.operators.last_mut()?.causes.push(cause),
                }
            }
            b"step" => self.if_made.as_mut()?.first_failing.push(line.step()?),
            b"actual" => self.cause()?.actual = line.fact()?,
            b"since" => self.cause()?.since = Some(line.words("step ")?.step()?),
            b"rule" => {
                let number = line.number(" ")?;
                let is_firing = match line.word()? { b"derives" => true, b"requires" => false, _ => return None };
                let rule = Rule { number, is_firing, fact: line.fact()? };
                self.cause()?.rules.push(rule);
            }
            b"no" if line.0 == b"rule derives it" => self.cause()?.no_rule = true,
            _ => return None,
        }
        Some(())
    }

    /// The cause that is read.
    fn cause(&mut self) -> Option<&mut Cause<'a>> {
        match self.goal_facts.last_mut() {
            Some(goal) => Some(&mut goal.cause),
            None => self.operators.last_mut()?.causes.last_mut(),
        }
    }
}

/// Whether a name of a reason isn't as in the file: a byte of it is `\xHH`, or it is cut off.
pub(crate) fn is_shown(name: &[u8]) -> bool {
    name.contains(&b'\\') || name.len() > 256
}

/// What is left of a line that is read from its front.
pub(crate) struct Line<'a>(pub(crate) &'a [u8]);

impl<'a> Line<'a> {
    /// A line after words that it begins with.
    pub(crate) fn after(words: &str, line: &'a [u8]) -> Option<Line<'a>> {
        line.strip_prefix(words.as_bytes()).map(Line)
    }

    /// Takes words.
    pub(crate) fn words(&mut self, words: &str) -> Option<&mut Line<'a>> {
        self.0 = self.0.strip_prefix(words.as_bytes())?;
        Some(self)
    }

    /// Takes a word and the space after it.
    pub(crate) fn word(&mut self) -> Option<&'a [u8]> {
        let (word, rest) = self.0.split_at(self.0.iter().position(|it| *it == b' ')?);
        self.0 = &rest[1..];
        Some(word)
    }

    /// Takes a number and the words after it.
    pub(crate) fn number<N: FromStr>(&mut self, words: &str) -> Option<N> {
        let (number, rest) = self.0.split_at(self.0.iter().take_while(|it| it.is_ascii_digit()).count());
        self.0 = rest.strip_prefix(words.as_bytes())?;
        str::from_utf8(number).ok()?.parse().ok()
    }

    /// Takes the number that is all that is left.
    pub(crate) fn last<N: FromStr>(&mut self) -> Option<N> {
        let number = self.number("");
        number.filter(|_| self.0.is_empty())
    }

    /// The name that is all that is left.
    pub(crate) fn name(&self) -> Text<'a> {
        Text(self.0)
    }

    /// The fact that is all that is left, with its name as it is.
    pub(crate) fn raw_fact(&mut self) -> Option<Fact<'a>> {
        Some(Fact { variable: self.number(" ")?, value: self.number(" ")?, name: self.name(), shown: false })
    }

    /// The fact of a reason that is all that is left.
    pub(crate) fn fact(&mut self) -> Option<Fact<'a>> {
        self.raw_fact().map(|it| Fact { shown: is_shown(&it.name), ..it })
    }

    fn step(&mut self) -> Option<NamedStep<'a>> {
        Some(NamedStep { number: self.number(" ")?, name: self.name(), shown: is_shown(self.0) })
    }
}

/// Takes a line off the front of a text.
pub(crate) fn next_line<'a>(rest: &mut &'a [u8]) -> &'a [u8] {
    let mut parts = rest.splitn(2, |it| *it == b'\n');
    let line = parts.next().unwrap_or_default();
    *rest = parts.next().unwrap_or_default();
    line
}

/// Takes a step and its changes off the front of a trace.
fn next_step<'a>(rest: &mut &'a [u8]) -> Option<Step<'a>> {
    let mut line = Line::after("step ", next_line(rest))?;
    let _: u64 = line.number(" ")?;
    let (operator, cost, name) = (line.number(" ")?, line.number(" ")?, line.name());
    Some(Step { operator, cost, name, changes: iter::from_fn(|| next_change(rest)).collect() })
}

/// Takes a change off the front of a trace, if it begins with one.
fn next_change<'a>(rest: &mut &'a [u8]) -> Option<Change<'a>> {
    let mut after = *rest;
    let mut line = Line::after("change ", next_line(&mut after))?;
    let change = Change { variable: line.number(" ")?, old: line.number(" ")?, new: line.number(" ")?, name: line.name() };
    *rest = after;
    Some(change)
}

/// The text, without its last line end.
impl fmt::Display for Answer {
    fn fmt(&self, out: &mut fmt::Formatter) -> fmt::Result {
        Text(self.text.strip_suffix(b"\n").unwrap_or(&self.text)).fmt(out)
    }
}

impl fmt::Debug for Answer {
    fn fmt(&self, out: &mut fmt::Formatter) -> fmt::Result {
        out.debug_struct("Answer").field("is_yes", &self.is_yes).field("text", &Text(&self.text)).finish()
    }
}
