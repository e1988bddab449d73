// The comparison with the proved library over its C face: for each call cases are made, each is judged by the papers
// alone, and the command's responses must be the same in all that the C face hands over.
// It leans on jobs, answers, tasks, widenings, descriptions and moves for the cases and on pipe for the command.

use crate::case::{to_hex, Call, Case, Judgement, Response};
use crate::outcome::{TABLES, WALK};
use crate::pipe::{self, Requests, Responses};
use crate::random::Random;
use crate::{answers, descriptions, jobs, moves, tasks, widenings};
use std::collections::BTreeMap;
use std::sync::mpsc::{channel, Receiver, Sender};
use std::thread;

const CALLS: &[Call] = &[
    jobs::READER,
    jobs::READER.in_form_two(),
    jobs::EXCUSES.in_form_two(),
    answers::CHECKER,
    answers::CHECKER.in_form_two(),
    answers::WITHOUT_EXCUSES.in_form_two(),
    tasks::SOLVER,
    tasks::SOLVER.in_form_two(),
    tasks::WITHOUT_EXCUSES.in_form_two(),
    widenings::WIDENER,
    widenings::WIDENER.in_form_two(),
    descriptions::WRITER,
    descriptions::WRITTEN,
    moves::TO_TWO,
    moves::TO_ONE,
    moves::BACK,
    moves::BACK.in_form_two(),
];

/// How often each code must be met, and those a call is there for: once in so many cases, but no more than so often.
const ONCE_IN: usize = 200;
const FOREMOST_ONCE_IN: usize = 50;
const OFTEN: usize = 1_000;
/// The least part of the answers, in percent, that tables and walks must have; fewer answers say nothing.
const LEAST_PART: usize = 40;
const FEW_ANSWERS: usize = 1_000;
const MOST_DIFFERENCES: usize = 5;
/// So many bytes are shown from where two slices differ.
const SHOWN: usize = 16;

type Tally = BTreeMap<u64, usize>;

pub struct Settings {
    pub seed: u64,
    /// Cases for each call; each has its own count if none is given.
    pub count: Option<usize>,
    pub command: Vec<String>,
}

/// Compares every call; the number of cases, or what went wrong.
pub fn compare_all(settings: &Settings) -> Result<usize, String> {
    let mut cases = 0;
    for call in CALLS {
        let tally = compare(call, settings)?;
        cases += tally.values().sum::<usize>();
        report(call, &tally)?;
        if call.balanced {
            report_balance(call, &tally)?;
        }
    }
    Ok(cases)
}

/// Prints how often each code was met, and refuses a comparison that hardly meets one of them.
fn report(call: &Call, tally: &Tally) -> Result<(), String> {
    let cases = tally.values().sum::<usize>();
    for (code, met) in tally {
        println!("{}: code {code} met by {met} cases", call);
    }
    for code in call.codes {
        let once_in = if call.foremost.contains(code) { FOREMOST_ONCE_IN } else { ONCE_IN };
        let (met, often) = (met(tally, *code), OFTEN.min(cases / once_in));
        if met < often {
            return Err(format!("{}: code {code} is met by {met} cases, and {often} are wanted", call));
        }
    }
    Ok(())
}

fn met(tally: &Tally, code: u64) -> usize {
    tally.get(&code).copied().unwrap_or(0)
}

/// Prints how many boards had tables and how many a walk, and refuses a comparison with too few of either.
fn report_balance(call: &Call, tally: &Tally) -> Result<(), String> {
    let (tables, walks) = (met(tally, TABLES as u64), met(tally, WALK as u64));
    let answers = tables + walks;
    println!("{}: {answers} boards answered, {tables} with tables and {walks} with a walk", call);
    if answers >= FEW_ANSWERS && 100 * tables.min(walks) < LEAST_PART * answers {
        return Err(format!("{}: tables and walks must each be {LEAST_PART} percent of the answers", call));
    }
    Ok(())
}

/// Runs one call's cases through the command and through this program: how often each code was met.
fn compare(call: &'static Call, settings: &Settings) -> Result<Tally, String> {
    let (requests, mut responses) = pipe::start(&settings.command, call.op)?;
    let (sender, cases) = channel();
    let (seed, count) = (settings.seed, settings.count.unwrap_or(call.count));
    let writer = thread::spawn(move || send_cases(call, requests, sender, Random::new(seed), count));
    let judged = judge_cases(call, &cases, &mut responses);
    match judged {
        Ok(tally) => {
            writer.join().map_err(|_| "the making of cases failed")?;
            responses.finish()?;
            Ok(tally)
        }
        Err(Trouble::Differences) => {
            responses.stop();
            Err(format!("{}: the command and the second program differ", call))
        }
        Err(Trouble::NoResponse { answered, error }) => {
            Err(format!("{}: {}", call, responses.explain(answered, error)))
        }
    }
}

/// Makes the cases, writes each to the command, and hands it on for judgement. Stops if the command is gone.
fn send_cases(call: &Call, mut requests: Requests, judge: Sender<Case>, mut random: Random, count: usize) {
    let mut batch = (call.named)(call.form, &mut random);
    let mut sent = 0;
    loop {
        for case in batch {
            let written = requests.send(&case);
            if judge.send(case).is_err() || written.is_err() {
                return;
            }
            sent += 1;
        }
        if sent >= count {
            return;
        }
        batch = (call.make)(call.form, &mut random);
    }
}

enum Trouble {
    Differences,
    NoResponse { answered: usize, error: std::io::Error },
}

fn judge_cases(call: &Call, cases: &Receiver<Case>, responses: &mut Responses) -> Result<Tally, Trouble> {
    let mut tally = Tally::new();
    let (mut answered, mut differences) = (0, 0);
    for case in cases {
        let got = responses.next(&case, call.writes).map_err(|error| Trouble::NoResponse { answered, error })?;
        answered += 1;
        let judgement = (call.judge)(call.form, &case.slices, &got);
        *tally.entry(judgement.expected.outcome.code).or_insert(0) += 1;
        if !agree(call, &case, &got, &judgement) {
            differences += 1;
        }
        if differences == MOST_DIFFERENCES {
            break;
        }
    }
    if differences > 0 {
        return Err(Trouble::Differences);
    }
    Ok(tally)
}

/// Whether the command, this program and the making of the case agree; prints the case where they don't.
fn agree(call: &Call, case: &Case, got: &Response, judgement: &Judgement) -> bool {
    let Judgement { expected, fault } = judgement;
    let otherwise = case.known.as_ref().filter(|known| !known.agrees(expected));
    if got.equals_as_handed_over(expected) && fault.is_none() && otherwise.is_none() {
        return true;
    }
    println!("{}: responses differ", call);
    for slice in &case.slices[..case.slices.len() - call.writes] {
        println!("  slice of {} bytes: {}", slice.len(), to_hex(slice));
    }
    println!("  command:        {}", got.outcome);
    println!("  second program: {}", expected.outcome);
    for (bytes, wanted) in got.after.iter().zip(&expected.after) {
        print_difference(bytes, wanted);
    }
    if let Some(fault) = fault {
        println!("  {fault}");
    }
    if let Some(known) = otherwise {
        println!("  settled by how the case was made: {known}");
    }
    false
}

/// The first bytes in which a written slice is not as this program wants it.
fn print_difference(bytes: &[u8], wanted: &[u8]) {
    if let Some(place) = (0..bytes.len()).find(|place| bytes[*place] != wanted[*place]) {
        let shown = place..bytes.len().min(place + SHOWN);
        println!("  of {} bytes lent, from place {place} on", bytes.len());
        println!("    command:        {}", to_hex(&bytes[shown.clone()]));
        println!("    second program: {}", to_hex(&wanted[shown]));
    }
}
