//! The values of answers about a task, and how they are read: its summary, the verdicts on its mutex groups, and why a file is refused.

#![forbid(unsafe_code)]

use crate::answers::{is_shown, next_line, Answer, Line};
use crate::values::{Effect, Fact, Text};
use std::fmt;
use std::str;

/// What a task is about: the answer of `show`.
#[derive(Clone, Debug, Default, PartialEq, Eq, Hash)]
pub struct Summary<'a> {
    /// 1 if the operators' cost lines are used, else 0.
    pub metric: u64,
    /// How many variables there are.
    pub variables: u64,
    /// How many of the variables are derived.
    pub derived: u64,
    /// How many mutex groups there are.
    pub groups: u64,
    /// How many operators there are.
    pub operators: u64,
    /// How many rules there are.
    pub rules: u64,
    /// The value of each variable in the state section.
    pub initial: Vec<Fact<'a>>,
    /// The facts of the goal.
    pub goal: Vec<Fact<'a>>,
}

/// Whether a mutex group is shown to be exclusive, and if not, why.
#[derive(Clone, Copy, Debug, Default, PartialEq, Eq, Hash)]
#[non_exhaustive]
pub enum GroupVerdict {
    /// It is.
    #[default]
    Exclusive,
    /// It has a fact on a derived variable.
    Derived,
    /// Two of its facts hold in the initial state.
    InitialState,
    /// An operator may break it.
    Operator,
}

/// The verdict on a mutex group. What follows the operator is in answers of `mutex_why` alone.
#[derive(Clone, Debug, Default, PartialEq, Eq, Hash)]
pub struct Group<'a> {
    /// The group. Groups are counted from 0.
    pub number: u64,
    /// Its verdict.
    pub verdict: GroupVerdict,
    /// The operator that may break it.
    pub operator: Option<u32>,
    /// The line of the task file at which the operator begins.
    pub line: Option<u64>,
    /// The name of the operator.
    pub name: Option<Text<'a>>,
    /// Whether the name isn't as in the file, as in [`Fact`].
    pub shown: bool,
    /// The fact on a derived variable, or the two facts that hold.
    pub facts: Vec<Fact<'a>>,
    /// The effects of the operator that set facts of the group: two, or one if a fact may remain.
    pub effects: Vec<Effect<'a>>,
    /// A fact of the group that may remain.
    pub may_remain: Option<Fact<'a>>,
}

/// What stood where a file is refused.
#[derive(Clone, Copy, Debug, PartialEq, Eq, Hash)]
#[non_exhaustive]
pub enum Found {
    /// A line with other bytes.
    Text,
    /// An empty line.
    EmptyLine,
    /// A line without its end.
    Unfinished,
    /// The end of the file.
    EndOfFile,
}

/// A number of a line that may not stand there.
#[derive(Clone, Copy, Debug, Default, PartialEq, Eq, Hash)]
pub struct WrongNumber {
    /// Its place in the line, from 1.
    pub number: u64,
    /// The lowest number that may stand there.
    pub lowest: i64,
    /// The highest number that may stand there.
    pub highest: i64,
}

/// Where the items of a list are counted.
#[derive(Clone, Copy, Debug, Default, PartialEq, Eq, Hash)]
pub struct ListCount {
    /// The line of the file that has their number.
    pub line: u64,
    /// Their number.
    pub items: u64,
}

/// Why a file is refused. What follows the word is in answers of `plan_why`, `check_why` and `mutex_why` alone.
#[derive(Clone, Debug, Default, PartialEq, Eq, Hash)]
pub struct Refusal<'a> {
    /// What is wrong, such as `keyword` or `layer order`.
    pub word: &'a str,
    /// The line of the file. Of a task that isn't layered it is that at which the operator or the rule begins.
    pub line: Option<u64>,
    /// The part of the task, such as `operator 3`.
    pub place: Option<&'a str>,
    /// What was expected.
    pub expected: Option<&'a str>,
    /// The number of the line that may not stand there.
    pub wrong_number: Option<WrongNumber>,
    /// Where the items of the list are counted.
    pub list_count: Option<ListCount>,
    /// What stood there.
    pub found: Option<Found>,
    /// The text of the line that stood there, which is shown: its first 64 bytes, without control characters.
    pub text: Option<&'a str>,
    /// What may be the mistake.
    pub hint: Option<&'a str>,
}

impl Answer {
    /// What the task is about. `None` if the answer isn't that of `show`.
    #[must_use]
    pub fn summary(&self) -> Option<Summary<'_>> {
        let mut rest = &*self.text;
        let mut number = |word| Line::after(word, next_line(&mut rest))?.last();
        let (metric, variables, derived) = (number("metric ")?, number("variables ")?, number("derived ")?);
        let (groups, operators, rules) = (number("groups ")?, number("operators ")?, number("rules ")?);
        let mut facts = |word| {
            let mut found = Vec::new();
            let mut after = rest;
            while let Some(fact) = Line::after(word, next_line(&mut after)).and_then(|mut line| line.raw_fact()) {
                found.push(fact);
                rest = after;
            }
            found
        };
        let (initial, goal) = (facts("initial "), facts("goal "));
        Some(Summary { metric, variables, derived, groups, operators, rules, initial, goal })
    }

    /// A verdict for each mutex group, with its reasons. Empty if the answer isn't that of `mutex` or `mutex_why`.
    #[must_use]
    pub fn groups(&self) -> Vec<Group<'_>> {
        let mut groups = Vec::new();
        let mut rest = if self.text.starts_with(b"group ") { &*self.text } else { &[] };
        while !rest.is_empty() {
            let line = next_line(&mut rest);
            match group_of(line) {
                Some(group) => groups.push(group),
                // a line that isn't added is one of a later version
                None => _ = groups.last_mut().and_then(|group| group.add(line)),
            }
        }
        groups
    }

    /// Why a file is refused. `None` if none is.
    #[must_use]
    pub fn refusal(&self) -> Option<Refusal<'_>> {
        self.refused_file()?;
        let mut rest = if self.is_trace() { &[] } else { &*self.text };
        let why = str::from_utf8(next_line(&mut rest)).ok()?.split_once(" refused: ")?.1;
        let (place, word) = why.split_once(": ")?;
        let line = place.strip_prefix("line ").and_then(|it| it.parse().ok());
        let mut refusal = Refusal { word, line, place: Some(place).filter(|_| line.is_none()), ..Refusal::default() };
        while !rest.is_empty() {
            let _ = refusal.add(next_line(&mut rest));
        }
        Some(refusal)
    }
}

/// Reads the line about a group.
fn group_of(line: &[u8]) -> Option<Group<'_>> {
    let mut line = Line::after("group ", line)?;
    let number = line.number(" ")?;
    let (verdict, operator) = match line.0 {
        b"exclusive" => (GroupVerdict::Exclusive, None),
        b"derived" => (GroupVerdict::Derived, None),
        b"not shown: initial state" => (GroupVerdict::InitialState, None),
        _ => (GroupVerdict::Operator, Some(line.words("not shown: operator ")?.last()?)),
    };
    Some(Group { number, verdict, operator, ..Group::default() })
}

impl<'a> Group<'a> {
    /// Adds a line of the reasons. Returns `None` if it is none of those below.
    fn add(&mut self, line: &'a [u8]) -> Option<()> {
        let mut line = Line::after("  ", line)?;
        match line.word()? {
            b"operator" => {
                let _: u32 = line.number(" line ")?;
                let (at, name) = (line.number(" ")?, line.name());
                (self.line, self.name, self.shown) = (Some(at), Some(name), is_shown(&name));
            }
            b"effect" => self.effects.push(Effect { number: line.number(" sets ")?, fact: line.fact()? }),
            b"may" => self.may_remain = Some(line.words("remain ")?.fact()?),
            b"derived" | b"holds" => self.facts.push(line.fact()?),
            _ => return None,
        }
        Some(())
    }
}

impl<'a> Refusal<'a> {
    /// Adds a line of the reasons. Returns `None` if it is none of those below.
    fn add(&mut self, line: &'a [u8]) -> Option<()> {
        let mut line = Line::after("  ", line)?;
        match line.0 {
            b"empty line" => self.found = Some(Found::EmptyLine),
            b"end of file" => self.found = Some(Found::EndOfFile),
            _ => {
                let word = line.word()?;
                let rest = str::from_utf8(line.0).ok()?;
                match word {
                    b"at" => self.place = Some(rest),
                    b"expected" => self.expected = Some(rest),
                    b"found" => (self.found, self.text) = (Some(Found::Text), Some(rest)),
                    b"unfinished" => (self.found, self.text) = (Some(Found::Unfinished), Some(rest)),
                    b"hint" => self.hint = Some(rest),
                    b"line" => self.list_count = Some(ListCount { line: line.number(" counts ")?, items: line.last()? }),
                    b"number" => {
                        let (number, bounds) = (line.number(" must be ")?, str::from_utf8(line.0).ok()?.split_once(" to ")?);
                        let (lowest, highest) = (bounds.0.parse().ok()?, bounds.1.parse().ok()?);
                        self.wrong_number = Some(WrongNumber { number, lowest, highest });
                    }
                    b"operator" | b"rule" if self.line.is_none() => {
                        let _: u32 = line.number(" line ")?;
                        self.line = Some(line.number(" ")?);
                    }
                    _ => return None,
                }
            }
        }
        Some(())
    }
}

impl fmt::Display for GroupVerdict {
    fn fmt(&self, out: &mut fmt::Formatter) -> fmt::Result {
        out.write_str(match self {
            GroupVerdict::Exclusive => "exclusive",
            GroupVerdict::Derived => "derived",
            GroupVerdict::InitialState => "not shown: initial state",
            GroupVerdict::Operator => "not shown: operator",
        })
    }
}

impl fmt::Display for Found {
    fn fmt(&self, out: &mut fmt::Formatter) -> fmt::Result {
        out.write_str(match self {
            Found::Text => "found",
            Found::EmptyLine => "empty line",
            Found::Unfinished => "unfinished",
            Found::EndOfFile => "end of file",
        })
    }
}
