//! Made cases of pairs and of solves with their records, and what a list's header
//! says of them.

use super::faults::Asked;
use super::outcome::Outcome;
use super::watch::NotFinite;
use super::{FitCase, Given, Numbers, PairCase, Report, Settings, SolveCase};
use crate::calls::Runs;
use crate::departures::{self, STEPS_PAIRED};
use crate::leaves::Kind;
use crate::list::Part;
use crate::loops;
use crate::record::Record;
use crate::words::Word;

pub struct Made {
    given: Given,
    record: Record,
    /// Where in the answers the solve's begin; none where the preparation refused.
    solve: Option<usize>,
    /// How the run ended, where there was one.
    run: Option<Outcome>,
}

/// What refusal 7 is about, with the words of the header.
pub const NUMBERS: [(NotFinite, &str); 7] = [
    (NotFinite::Constant, "a constant"),
    (NotFinite::Inverse, "an inverse"),
    (NotFinite::Product, "an entry of X'y"),
    (NotFinite::Gradient, "a gradient"),
    (NotFinite::Violation, "a violation"),
    (NotFinite::Weight, "a weight"),
    (NotFinite::FitEntry, "a fit entry"),
];

impl Made {
    /// The Rust's own run is that of the pair, its preparation's 7 too.
    pub fn pair(case: PairCase) -> Made {
        let record = Record::of(&case);
        let answered = record.answers()[0] == Word::Count(0);
        let runs = case.refusal().is_none() && case.0.fit.refusal().is_none();
        Made {
            solve: answered.then_some(2 + case.0.prepared.len()),
            run: runs.then(|| loops::Rust::run(&case.0.fit, Numbers::Own)),
            record,
            given: case.0,
        }
    }

    pub fn solve(case: SolveCase) -> Made {
        let record = Record::of(&case);
        let run = |case: &SolveCase| loops::Rust::run(&case.0.fit, Numbers::Handed(&case.handed()));
        Made {
            solve: Some(0),
            run: case.refusal().is_none().then(|| run(&case)),
            record,
            given: case.0,
        }
    }

    pub fn settings(&self) -> &Settings {
        &self.given.fit.settings
    }

    /// Of a run that is answered, with its case.
    pub fn report(&self) -> Option<(&FitCase, &Report)> {
        match &self.run {
            Some(Outcome::Finished(report)) => Some((&self.given.fit, report)),
            _ => None,
        }
    }

    /// The refusal's number, by the call that refused.
    fn refused(&self, by: Asked, number: u32) -> bool {
        let at = match by {
            Asked::Solve => self.solve,
            _ => self.solve.is_none().then_some(0),
        };
        at.is_some_and(|at| self.record.answers()[at] == Word::Count(number))
    }

    fn finished(&self) -> bool {
        self.refused(Asked::Solve, 0)
    }

    fn status(&self, status: u32) -> bool {
        let word = |at: usize| self.record.answers()[at + 2];
        self.finished() && self.solve.map(word) == Some(Word::Count(status))
    }

    fn kind(&self, kind: Kind) -> bool {
        self.finished() && self.given.fit.settings.penalty.kind == kind
    }

    fn not_taken(&self) -> bool {
        self.report()
            .is_some_and(|(_, report)| report.not_taken > 0)
    }
}

fn count(made: &[Made], wanted: impl Fn(&Made) -> bool) -> usize {
    made.iter().filter(|made| wanted(made)).count()
}

fn refusals(made: &[Made], by: Asked) -> String {
    let numbers = (1..=10).map(|number| (number, count(made, |made| made.refused(by, number))));
    let told = numbers
        .filter(|&(_, refused)| refused > 0)
        .map(|(number, refused)| format!("{refused} with {number}"));
    told.collect::<Vec<_>>().join(", ")
}

fn remark(made: &[Made]) -> String {
    let answered = count(made, Made::finished);
    let refused = refusals(made, Asked::Solve);
    match refusals(made, Asked::Pair) {
        none if none.is_empty() && refused.is_empty() => {
            format!("{answered} answered, none refused")
        }
        none if none.is_empty() => format!("{answered} answered, refused {refused}"),
        first => format!(
            "{answered} answered, refused by the preparation {first}, by the solve {refused}"
        ),
    }
}

fn statuses_and_penalties(made: &[Made]) -> String {
    format!(
        "of those answered {} have status 1, {} have status 2; {} are L1, {} L1PlusL2, {} MCP",
        count(made, |made| made.status(1)),
        count(made, |made| made.status(2)),
        count(made, |made| made.kind(Kind::L1)),
        count(made, |made| made.kind(Kind::L1PlusL2)),
        count(made, |made| made.kind(Kind::Mcp)),
    )
}

fn depths(made: &[Made]) -> String {
    let on = |made: &Made| made.finished() && made.given.fit.settings.extrapolate;
    let below = |made: &Made| on(made) && !made.given.fit.has_places();
    format!(
        "extrapolation is off in {} of those answered, on in {}, on with p below K in {}",
        count(made, |made| made.finished() && !on(made)),
        count(made, |made| on(made) && !below(made)),
        count(made, below),
    )
}

fn extrapolations(made: &[Made]) -> String {
    let accepts = |made: &Made| made.run.as_ref().is_some_and(Outcome::accepts);
    format!(
        "{} of those answered accepted an extrapolation; {} had a smaller one that isn't finite",
        count(made, accepts),
        count(made, Made::not_taken),
    )
}

fn not_finite(made: &[Made]) -> String {
    let numbers = NUMBERS.map(|(number, name)| {
        let refused = |run: &Outcome| run.is_refused_for(number);
        let refused = count(made, |made| made.run.as_ref().is_some_and(refused));
        format!("{name} {refused}")
    });
    format!("not finite in the run or before it: {}", numbers.join(", "))
}

/// The part of a list. Nothing is redrawn but without request 3.
pub fn part(code: u32, made: Vec<Made>, redrawn: usize) -> Part {
    let mut details = vec![
        statuses_and_penalties(&made),
        depths(&made),
        extrapolations(&made),
        not_finite(&made),
    ];
    if !departures::holds(STEPS_PAIRED) {
        details.push(format!("redrawn because the Rust panicked: {redrawn}"));
    }
    Part {
        code,
        remark: remark(&made),
        details,
        records: made.into_iter().map(|made| made.record).collect(),
    }
}
