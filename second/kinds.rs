// What a case book must meet: every code of the checker and the widener that a case can get, in both forms, and code 10
// of every kind that a program with a usual error would answer wrongly. A book that misses one of them is not made.
// It leans on book, outcomes, answer, board, check, read, job and outcome.

use crate::answer::Answer;
use crate::board::{Board, Combination};
use crate::book::BookCase;
use crate::check::read_answer;
use crate::job::{Form, Job, MOST_RULES, MOST_WIRES};
use crate::outcome::RULE_BROKEN;
use crate::outcomes::Outcomes;
use crate::read::read_job;

const CHECKER_CODES: &[u64] = &[1, 2, 3, 4, 5, 7, 8, 9, 10, 11, 12, 13, 20, 21];
const WIDENER_CODES: &[u64] = &[1, 2, 3, 4, 5, 7, 8, 9, 10, 11, 12, 13, 14, 15, 20];
/// How often code 10 must be met in each form by each of the two, and every other kind.
const BROKEN_OFTEN: usize = 75;
const OFTEN: usize = 2;

/// A case with its outcomes and, for code 10 of the checker, what is broken.
struct Met<'a> {
    case: &'a BookCase,
    outcomes: Outcomes,
    broken: Option<Broken>,
}

/// Tables that break a rule, and where.
struct Broken {
    job: Job,
    board: Board,
    tables: [Vec<u8>; 2],
    place: Combination,
    rule: usize,
}

struct Kind {
    name: String,
    /// How often it must be met in form one and in form two.
    least: [usize; 2],
    is: Box<dyn Fn(&Met) -> bool>,
}

/// How often the book meets each kind, in lines; an error if one is not met often enough.
pub fn coverage(cases: &[BookCase]) -> Result<String, String> {
    let met: Vec<Met> = cases.iter().map(Met::of).collect();
    let mut lines = String::new();
    for kind in kinds() {
        let counts = [Form::One, Form::Two]
            .map(|form| met.iter().filter(|met| met.case.form() == form && (kind.is)(met)).count());
        let [one, two] = counts;
        lines += &format!("{}: {one} in form one, {two} in form two\n", kind.name);
        if one < kind.least[0] || two < kind.least[1] {
            let [least_one, least_two] = kind.least;
            return Err(format!("{lines}too few: {least_one} and {least_two} are wanted"));
        }
    }
    Ok(lines)
}

impl<'a> Met<'a> {
    fn of(case: &'a BookCase) -> Met<'a> {
        let outcomes = Outcomes::of(case);
        let broken = (outcomes.check.code == RULE_BROKEN as u64).then(|| Broken::of(case, &outcomes));
        Met { case, outcomes, broken }
    }
}

fn kinds() -> Vec<Kind> {
    let code = |caller: &str, code: u64, is: fn(&Met, u64) -> bool| {
        let often = if code == RULE_BROKEN as u64 { BROKEN_OFTEN } else { OFTEN };
        Kind { name: format!("{caller} {code}"), least: [often; 2], is: Box::new(move |met| is(met, code)) }
    };
    let checker =
        CHECKER_CODES.iter().map(|number| code("check", *number, |met, code| met.outcomes.check.code == code));
    let widener =
        WIDENER_CODES.iter().map(|number| code("widen", *number, |met, code| met.outcomes.widen.code == code));
    let broken = BROKEN_KINDS.iter().map(|(name, is)| Kind {
        name: format!("check 10: {name}"),
        least: [OFTEN; 2],
        is: Box::new(move |met| met.broken.as_ref().is_some_and(is)),
    });
    let excused = Kind {
        name: "check 10: a lower combination is broken and excused".into(),
        least: [0, OFTEN],
        is: Box::new(|met| met.broken.as_ref().is_some_and(Broken::excused_below)),
    };
    let reordered = Kind {
        name: "widen 10: Q has the rules in another order, and the rule under another number".into(),
        least: [OFTEN; 2],
        is: Box::new(reordered_in_q),
    };
    checker.chain(widener).chain(broken).chain([excused, reordered]).collect()
}

type BrokenKind = (&'static str, fn(&Broken) -> bool);

const BROKEN_KINDS: &[BrokenKind] = &[
    ("rule 0", |broken| broken.rule == 0),
    ("rule 1", |broken| broken.rule == 1),
    ("a rule from 2 on that is not the last", |broken| broken.rule >= 2 && broken.rule + 1 < broken.rules().len()),
    ("rule 255, the last", |broken| broken.rule + 1 == MOST_RULES),
    ("several rules are broken there", |broken| broken.behind().any(|rule| broken.breaks(rule))),
    ("the same rule stands again behind it", |broken| broken.behind().any(|rule| rule == broken.told())),
    ("equal rules stand before it", Broken::equal_before),
    ("a rule that always holds stands before it", |broken| broken.before().iter().any(|rule| always_holds(rule))),
    ("the empty rule", |broken| broken.told().is_empty()),
    ("no wires", |broken| broken.board.wires() == 0),
    ("12 wires", |broken| broken.board.wires() == MOST_WIRES),
    ("place 0 of several", |broken| broken.board.wires() > 0 && broken.place.0 == 0),
    ("the highest place of several", |broken| broken.place.0 > 0 && broken.place.0 + 1 == broken.board.combinations()),
    ("rule 0 is broken at a later combination only", Broken::first_broken_later),
];

impl Broken {
    fn of(case: &BookCase, outcomes: &Outcomes) -> Broken {
        let job = read_job(case.form(), &case.p).expect("the checker has read the job");
        let board = Board::of(job.clone());
        let Ok(Answer::Tables(tables)) = read_answer(&board, &case.answer) else {
            unreachable!("the checker has read tables")
        };
        let place = Combination(outcomes.check.place as usize);
        Broken { job, board, tables, place, rule: outcomes.check.rule as usize }
    }

    fn rules(&self) -> &[Vec<u8>] {
        &self.job.rules
    }

    fn told(&self) -> &Vec<u8> {
        &self.rules()[self.rule]
    }

    fn before(&self) -> &[Vec<u8>] {
        &self.rules()[..self.rule]
    }

    fn behind(&self) -> impl Iterator<Item = &Vec<u8>> {
        self.rules()[self.rule + 1..].iter()
    }

    /// Whether the tables break this rule at the place.
    fn breaks(&self, rule: &[u8]) -> bool {
        !self.board.holds(rule, self.place, self.board.values(&self.tables, self.place))
    }

    fn equal_before(&self) -> bool {
        let before = self.before();
        (1..before.len()).any(|later| before[..later].contains(&before[later]))
    }

    fn first_broken_later(&self) -> bool {
        let broken = |combination: Combination| {
            let values = self.board.values(&self.tables, combination);
            !self.board.is_excused(combination) && !self.board.holds(&self.rules()[0], combination, values)
        };
        self.rule > 0 && (self.place.0 + 1..self.board.combinations()).map(Combination).any(broken)
    }

    /// Whether another rule is broken at a lower combination, one that is excused.
    fn excused_below(&self) -> bool {
        let broken = |combination: Combination| {
            let values = self.board.values(&self.tables, combination);
            self.board.broken_rule(combination, values).is_some_and(|rule| rule != self.rule)
        };
        (0..self.place.0).map(Combination).any(broken)
    }
}

fn always_holds(rule: &[u8]) -> bool {
    rule.iter().any(|term| rule.contains(&(term ^ 1)))
}

/// Whether the widener tells a rule, and Q has the same rules in an order by which it would be another number.
fn reordered_in_q(met: &Met) -> bool {
    let (Some(broken), Ok(q)) = (&met.broken, read_job(met.case.form(), &met.case.q)) else {
        return false;
    };
    let in_order = |rules: &[Vec<u8>]| {
        let mut rules = rules.to_vec();
        rules.sort();
        rules
    };
    met.outcomes.widen.code == RULE_BROKEN as u64
        && q.wires() == broken.board.wires()
        && in_order(&q.rules) == in_order(broken.rules())
        && q.rules.iter().position(|rule| broken.breaks(rule)) != Some(broken.rule)
}
