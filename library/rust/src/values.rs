//! The values that are read from the texts of answers.

#![forbid(unsafe_code)]

use std::fmt::{self, Write};
use std::ops::Deref;

/// What an answer says: of a plan valid, invalid or refused; of other requests yes, no or refused.
#[derive(Clone, Copy, Debug, PartialEq, Eq, Hash)]
#[non_exhaustive]
#[allow(missing_docs)]
pub enum Verdict {
    Valid,
    Invalid,
    Refused,
    Yes,
    No,
}

/// A file that is refused.
#[derive(Clone, Copy, Debug, PartialEq, Eq, Hash)]
#[non_exhaustive]
#[allow(missing_docs)]
pub enum File {
    Task,
    Plan,
}

/// What fails.
#[derive(Clone, Copy, Debug, PartialEq, Eq, Hash)]
#[non_exhaustive]
pub enum Failure {
    /// A step isn't applicable.
    NotApplicable,
    /// A step names no operator.
    NoSuchName,
    /// A step has the number of no operator.
    NoSuchNumber,
    /// Effects of a step conflict.
    Conflict,
    /// A fact of the goal isn't reached.
    Goal,
    /// The cost is another one.
    Cost,
    /// The state that a run starts in is none of the task.
    State,
}

/// Bytes of an answer, such as a name. In a trace a name may have any bytes but LF and CR; in reasons it is safe for a terminal.
///
/// A text dereferences to its bytes. It prints control characters but LF, and what isn't UTF-8, as `\xHH`.
#[derive(Clone, Copy, Default, PartialEq, Eq, PartialOrd, Ord, Hash)]
pub struct Text<'a>(pub &'a [u8]);

/// A value of a variable.
#[derive(Clone, Copy, Debug, Default, PartialEq, Eq, Hash)]
pub struct Fact<'a> {
    /// The variable. Variables and values are counted from 0.
    pub variable: u32,
    /// The value.
    pub value: u32,
    /// The name of the value.
    pub name: Text<'a>,
    /// Whether a reason shows another name than the file has: without control characters, or cut off after 256 bytes.
    pub shown: bool,
}

/// A variable that a step changed.
#[derive(Clone, Copy, Debug, Default, PartialEq, Eq, Hash)]
pub struct Change<'a> {
    /// The variable.
    pub variable: u32,
    /// Its value before the step.
    pub old: u32,
    /// Its value after the step.
    pub new: u32,
    /// The name of the new value.
    pub name: Text<'a>,
}

/// A step of a trace.
#[derive(Clone, Debug, Default, PartialEq, Eq, Hash)]
pub struct Step<'a> {
    /// The operator that the step means. Operators are counted from 0.
    pub operator: u32,
    /// What it costs.
    pub cost: u64,
    /// The name of the operator.
    pub name: Text<'a>,
    /// What the step changed, by variable.
    pub changes: Vec<Change<'a>>,
}

/// A step of a plan.
#[derive(Clone, Copy, Debug, Default, PartialEq, Eq, Hash)]
pub struct NamedStep<'a> {
    /// Its number. Steps are counted from 1.
    pub number: u64,
    /// Its name.
    pub name: Text<'a>,
    /// Whether the name isn't as in the file, as in [`Fact`].
    pub shown: bool,
}

/// An operator whose name has the words of a step's name, in the same order or in another.
#[derive(Clone, Copy, Debug, Default, PartialEq, Eq, Hash)]
pub struct SimilarOperator<'a> {
    /// The operator.
    pub operator: u32,
    /// The line of the task file at which it begins.
    pub line: u64,
    /// Its name.
    pub name: Text<'a>,
    /// Whether the name isn't as in the file, as in [`Fact`].
    pub shown: bool,
}

/// A rule in a cause.
#[derive(Clone, Copy, Debug, Default, PartialEq, Eq, Hash)]
pub struct Rule<'a> {
    /// The rule. Rules are counted from 0.
    pub number: u32,
    /// Whether it derives the fact. If not, it requires the fact, which fails.
    pub is_firing: bool,
    /// The fact that it derives or requires.
    pub fact: Fact<'a>,
}

/// Why a fact fails that an operator or the goal requires.
#[derive(Clone, Debug, Default, PartialEq, Eq, Hash)]
pub struct Cause<'a> {
    /// The fact.
    pub required: Fact<'a>,
    /// What holds in its place.
    pub actual: Fact<'a>,
    /// The last step that changed the variable. `None` if it has its initial value.
    pub since: Option<NamedStep<'a>>,
    /// The derivation of the actual value, then the rules that could derive the required one. A rule that an earlier cause has isn't repeated.
    pub rules: Vec<Rule<'a>>,
    /// Whether no rule derives the required value.
    pub no_rule: bool,
}

/// An operator that isn't applicable.
#[derive(Clone, Debug, Default, PartialEq, Eq, Hash)]
pub struct BlockedOperator<'a> {
    /// The operator.
    pub operator: u32,
    /// The line of the task file at which it begins.
    pub line: u64,
    /// A cause for each precondition that fails.
    pub causes: Vec<Cause<'a>>,
}

/// An effect that fires.
#[derive(Clone, Copy, Debug, Default, PartialEq, Eq, Hash)]
pub struct Effect<'a> {
    /// The effect. Effects are counted from 0.
    pub number: u32,
    /// The fact that it sets.
    pub fact: Fact<'a>,
}

/// An operator with effects that set one variable to different values.
#[derive(Clone, Debug, Default, PartialEq, Eq, Hash)]
pub struct Conflict<'a> {
    /// The operator.
    pub operator: u32,
    /// The line of the task file at which it begins.
    pub line: u64,
    /// The two effects.
    pub effects: Vec<Effect<'a>>,
}

/// A fact of the goal that fails.
#[derive(Clone, Debug, Default, PartialEq, Eq, Hash)]
pub struct GoalFact<'a> {
    /// Its number in the goal, from 0.
    pub index: u64,
    /// Why it fails.
    pub cause: Cause<'a>,
}

/// What follows if the step that fails is made anyway, and the steps after it.
#[derive(Clone, Debug, Default, PartialEq, Eq, Hash)]
pub struct MadeAnyway<'a> {
    /// How many of the later steps fail.
    pub failing_later: u64,
    /// How many later steps there are.
    pub later: u64,
    /// The first five of those that fail, or all.
    pub first_failing: Vec<NamedStep<'a>>,
    /// How many goal facts fail after the last step.
    pub failing_goal: u64,
    /// How many goal facts there are.
    pub goal: u64,
}

/// What the cost of a plan is made of.
#[derive(Clone, Copy, Debug, Default, PartialEq, Eq, Hash)]
pub struct CostFacts {
    /// The metric of the task.
    pub metric: u64,
    /// The number of steps.
    pub steps: u64,
    /// The sum of their operators' cost lines.
    pub cost_lines: u64,
}

/// A step whose name no operator has, and an operator that may be meant.
#[derive(Clone, Copy, Debug, Default, PartialEq, Eq, Hash)]
#[allow(missing_docs)]
pub struct UnknownStep<'a> {
    pub step: NamedStep<'a>,
    pub similar_operator: Option<SimilarOperator<'a>>,
}

/// The first step for which a later operator of its name was applicable, too, and the first such operator.
#[derive(Clone, Copy, Debug, Default, PartialEq, Eq, Hash)]
#[allow(missing_docs)]
pub struct CouldAlsoBe {
    pub step: u64,
    pub operator: u32,
}

/// The reasons for a no. Which are there depends on the verdict; if a file is refused, only the hint and the text are.
#[derive(Clone, Debug, Default, PartialEq, Eq, Hash)]
pub struct Reasons<'a> {
    /// The step that fails.
    pub step: Option<NamedStep<'a>>,
    /// An operator that may be meant, if no operator has the step's name.
    pub similar_operator: Option<SimilarOperator<'a>>,
    /// Up to four of the other steps that name no operator, in their order.
    pub further_steps: Vec<UnknownStep<'a>>,
    /// The operators of the step's name, if none is applicable.
    pub operators: Vec<BlockedOperator<'a>>,
    /// The effects that disagree.
    pub conflict: Option<Conflict<'a>>,
    /// What follows if the step is made anyway, if an operator has its name.
    pub if_made: Option<MadeAnyway<'a>>,
    /// How many steps name no operator, or how many goal facts fail.
    pub failing: Option<u64>,
    /// How many steps or goal facts there are.
    pub total: Option<u64>,
    /// The goal facts that fail.
    pub goal_facts: Vec<GoalFact<'a>>,
    /// What the cost is made of, if it isn't that of the plan.
    pub cost: Option<CostFacts>,
    /// The number of the step, if no operator has it.
    pub unknown_number: Option<u64>,
    /// What may be the mistake.
    pub hint: Option<&'a str>,
    /// Where the plan may mean another operator.
    pub could_also_be: Option<CouldAlsoBe>,
    /// All lines of the reasons. A later version may have others than those above.
    pub text: Text<'a>,
}

impl Deref for Text<'_> {
    type Target = [u8];

    fn deref(&self) -> &[u8] {
        self.0
    }
}

impl fmt::Display for Text<'_> {
    fn fmt(&self, out: &mut fmt::Formatter) -> fmt::Result {
        self.0.utf8_chunks().try_for_each(|chunk| {
            chunk.valid().chars().try_for_each(|it| match it {
                '\n' => out.write_char(it),
                _ if it.is_ascii_control() => write!(out, "\\x{:02x}", u32::from(it)),
                _ => out.write_char(it),
            })?;
            chunk.invalid().iter().try_for_each(|byte| write!(out, "\\x{byte:02x}"))
        })
    }
}

impl fmt::Debug for Text<'_> {
    fn fmt(&self, out: &mut fmt::Formatter) -> fmt::Result {
        fmt::Debug::fmt(&String::from_utf8_lossy(self.0), out)
    }
}

impl fmt::Display for Verdict {
    fn fmt(&self, out: &mut fmt::Formatter) -> fmt::Result {
        out.write_str(match self {
            Verdict::Valid => "valid",
            Verdict::Invalid => "invalid",
            Verdict::Refused => "refused",
            Verdict::Yes => "yes",
            Verdict::No => "no",
        })
    }
}

impl fmt::Display for Failure {
    fn fmt(&self, out: &mut fmt::Formatter) -> fmt::Result {
        out.write_str(match self {
            Failure::NotApplicable => "not applicable",
            Failure::NoSuchName => "no operator of that name",
            Failure::NoSuchNumber => "no operator of that number",
            Failure::Conflict => "conflicting effects",
            Failure::Goal => "goal",
            Failure::Cost => "cost",
            Failure::State => "state",
        })
    }
}

impl fmt::Display for File {
    fn fmt(&self, out: &mut fmt::Formatter) -> fmt::Result {
        out.write_str(if *self == File::Task { "task" } else { "plan" })
    }
}

impl fmt::Display for Fact<'_> {
    fn fmt(&self, out: &mut fmt::Formatter) -> fmt::Result {
        write!(out, "{} {} {}", self.variable, self.value, self.name)
    }
}

impl fmt::Display for Change<'_> {
    fn fmt(&self, out: &mut fmt::Formatter) -> fmt::Result {
        write!(out, "{} {} {} {}", self.variable, self.old, self.new, self.name)
    }
}

impl fmt::Display for Step<'_> {
    fn fmt(&self, out: &mut fmt::Formatter) -> fmt::Result {
        write!(out, "{} {} {}", self.operator, self.cost, self.name)
    }
}

impl fmt::Display for Reasons<'_> {
    fn fmt(&self, out: &mut fmt::Formatter) -> fmt::Result {
        Text(self.text.strip_suffix(b"\n").unwrap_or(&self.text)).fmt(out)
    }
}
