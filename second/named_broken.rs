// Hand-made cases of code 10, each with the rule that must be told; a program with a usual error would tell another.
// Each case's comment says what it shows.
// It leans on settled and job.

use crate::job::{Form, Job, MOST_RULES, MOST_WIRES};
use crate::settled::{blind_job, cell_terms, Settled};

const ZEROS: [&[u8]; 2] = [&[0], &[0]];
const ALL_WIRES: u8 = MOST_WIRES as u8;
const HIGHEST: usize = (1 << MOST_WIRES) - 1;

pub fn named_broken(form: Form) -> Vec<Settled> {
    let mut cases = without_wires(form);
    cases.extend(each_of_four(form));
    cases.extend(many_rules(form));
    cases.extend(few_wires(form));
    cases.extend(all_wires(form));
    cases.extend(widened(form));
    if form == Form::Two {
        cases.extend(excused());
        cases.extend(excused_of_all_wires());
        cases.extend(excused_widened());
    }
    cases
}

/// There is one combination, so the place is 0.
fn without_wires(form: Form) -> Vec<Settled> {
    let [a, not_a, b, not_b] = cell_terms(0);
    let broken = |rules: &[&[u8]], tables, rule| Settled::broken(&blind_job(form, 0, rules), tables, 0, rule);
    vec![
        // The empty rule alone.
        broken(&[&[]], ZEROS, 0),
        // The rule before it holds.
        broken(&[&[a], &[b]], [&[1], &[0]], 1),
        // The first two are broken, and the first is told.
        broken(&[&[a], &[b], &[not_a]], ZEROS, 0),
        // The last three are broken, and the first of these is told.
        broken(&[&[not_a], &[a], &[b], &[a, b]], ZEROS, 1),
        // The same rule again.
        broken(&[&[not_a], &[b], &[b]], ZEROS, 1),
        // Equal rules before it count one each.
        broken(&[&[not_a], &[not_a], &[a]], ZEROS, 2),
        // A rule that always holds counts too.
        broken(&[&[a, not_a], &[b]], ZEROS, 1),
        // The empty rule after rules that hold.
        broken(&[&[not_a], &[not_b], &[]], ZEROS, 2),
        // The empty rule before another broken one.
        broken(&[&[], &[a]], ZEROS, 0),
        // Rules are numbered as they stand on the sheet, not as sets in order: not A comes before B.
        broken(&[&[b], &[not_a]], ZEROS, 0),
        broken(&[&[b], &[a]], [&[0], &[1]], 1),
        // A rule with fewer terms does not come before one with more.
        broken(&[&[not_a], &[a, b], &[a]], ZEROS, 1),
    ]
}

/// Four rules of which each pair of values breaks another one.
fn each_of_four(form: Form) -> Vec<Settled> {
    let [a, not_a, b, not_b] = cell_terms(0);
    let job = blind_job(form, 0, &[&[a, b], &[a, not_b], &[not_a, b], &[not_a, not_b]]);
    let pairs: [[&[u8]; 2]; 4] = [[&[0], &[0]], [&[0], &[1]], [&[1], &[0]], [&[1], &[1]]];
    pairs.into_iter().enumerate().map(|(rule, tables)| Settled::broken(&job, tables, 0, rule)).collect()
}

/// No wires; so many rules that hold, then so many that don't.
fn many_rules(form: Form) -> Vec<Settled> {
    let [a, not_a, ..] = cell_terms(0);
    let [holds, breaks]: [&[u8]; 2] = [&[not_a], &[a]];
    let broken = |holding: usize, breaking: usize| {
        let rules = [vec![holds; holding], vec![breaks; breaking]].concat();
        Settled::broken(&blind_job(form, 0, &rules), ZEROS, 0, holding)
    };
    vec![
        // The last of as many rules as there may be.
        broken(MOST_RULES - 1, 1),
        // The last but one, and the last.
        broken(MOST_RULES - 2, 2),
        // All of them.
        broken(0, MOST_RULES),
        // The rule for which a technician would hunt through two hundred.
        broken(200, 1),
        // Numbers on both sides of a byte's half.
        broken(127, 2),
        broken(128, 1),
    ]
}

fn few_wires(form: Form) -> Vec<Settled> {
    let [wire, not_wire] = [0, 1];
    let [a, not_a, b, not_b] = cell_terms(1);
    let blind = |rules: &[&[u8]]| blind_job(form, 1, rules);
    let copying = Job { sees: [vec![0], vec![]], ..blind(&[&[wire, not_b], &[a]]) };
    let [two_a, two_not_a, two_b, two_not_b] = cell_terms(2);
    let crossed = Job { sees: [vec![1], vec![0]], ..blind_job(form, 2, &[&[two_not_a, two_not_b], &[two_a, two_b]]) };
    vec![
        // Rule 0 is broken too, but at a later combination.
        Settled::broken(&blind(&[&[not_wire, a], &[wire, b]]), ZEROS, 0, 1),
        // The same rules the other way round: rule 0 is broken at 0, rule 1 later.
        Settled::broken(&blind(&[&[wire, b], &[not_wire, a]]), ZEROS, 0, 0),
        // The highest combination alone breaks a rule.
        Settled::broken(&blind(&[&[wire, not_a], &[not_wire, a]]), ZEROS, 1, 1),
        // At 0 the row of A holds 1, at 1 it holds 0.
        Settled::broken(&copying, [&[1, 0], &[0]], 1, 1),
        // A sees the second wire and B the first. At 1 both are 0, at 2 both are 1; there rule 0 would be broken.
        Settled::broken(&crossed, [&[0, 1], &[1, 0]], 1, 1),
    ]
}

/// The rule that is broken at the highest combination of all wires alone, if A is 0.
fn at_the_highest() -> Vec<u8> {
    let [a, ..] = cell_terms(ALL_WIRES);
    (0..ALL_WIRES).map(|wire| 2 * wire + 1).chain([a]).collect()
}

fn all_wires(form: Form) -> Vec<Settled> {
    let [a, not_a, _, not_b] = cell_terms(ALL_WIRES);
    let blind = |rules: &[&[u8]]| blind_job(form, ALL_WIRES, rules);
    let (holds, highest) = ([not_a], at_the_highest());
    let mut last = vec![&holds[..]; MOST_RULES];
    last[MOST_RULES - 1] = &highest;
    // Both cells are 1 where wires 0 to 7, 9 and 11 are: in A's last row, and in row 15 + 32 + 128 of B.
    let seeing = Job { sees: [(0..8).collect(), (4..12).collect()], ..blind(&[&[a, not_a], &[not_a, not_b]]) };
    let one_at = |row: usize| (0..256).map(|other| u8::from(other == row)).collect::<Vec<u8>>();
    vec![
        // The lowest combination.
        Settled::broken(&blind(&[&holds, &[a]]), ZEROS, 0, 1),
        // The highest alone.
        Settled::broken(&blind(&[&holds, &highest]), ZEROS, HIGHEST, 1),
        // The highest alone, and the last of all rules.
        Settled::broken(&blind(&last), ZEROS, HIGHEST, MOST_RULES - 1),
        // One combination between them, by the rows that it shows.
        Settled::broken(&seeing, [&one_at(255), &one_at(15 + 32 + 128)], 255 + 512 + 2048, 1),
    ]
}

/// The widener tells P's rule, by P's numbering.
fn widened(form: Form) -> Vec<Settled> {
    let [a, not_a, b, not_b] = cell_terms(0);
    let of = |rules: &[&[u8]]| blind_job(form, 0, rules);
    let wider = |p: &[&[u8]], q: Job, rule| Settled::broken_with_q(&of(p), &q, ZEROS, 0, rule);
    let [one_a, ..] = cell_terms(1);
    vec![
        // Q has the rule first.
        wider(&[&[not_a], &[not_b], &[a]], of(&[&[a], &[not_a], &[not_b]]), 2),
        // Q has P's rules backwards, two of them broken.
        wider(&[&[not_a], &[a], &[b]], of(&[&[b], &[a], &[not_a]]), 1),
        // Q has the rule last, and rules before it that hold.
        wider(&[&[a], &[not_a], &[not_b]], of(&[&[not_a], &[not_b], &[a]]), 0),
        // Q has this rule alone.
        wider(&[&[not_a], &[a]], of(&[&[a]]), 1),
        // Q has no rules, so that the tables would fit it.
        wider(&[&[not_a], &[a]], of(&[]), 1),
        // Q asks more, by its wire; that is looked for later.
        wider(&[&[not_a], &[a]], blind_job(form, 1, &[&[one_a]]), 1),
    ]
}

/// Form two, on one wire and on two.
fn excused() -> Vec<Settled> {
    let [first, not_first, second, not_second] = [0, 1, 2, 3];
    let [one_a, _, one_b, _] = cell_terms(1);
    let one = |excuse: &[u8], rules: &[&[u8]]| Job { excuses: vec![excuse.to_vec()], ..blind_job(Form::Two, 1, rules) };
    let [a, _, b, _] = cell_terms(2);
    // The rules are broken at 0, at 1, at 3 and at 2.
    let rules: [&[u8]; 4] =
        [&[first, second, a], &[not_first, second, a], &[not_first, not_second, b], &[first, not_second, a]];
    let two = |excuses: &[&[u8]], place, rule| {
        let excuses = excuses.iter().map(|excuse| excuse.to_vec()).collect();
        let job = Job { excuses, ..blind_job(Form::Two, 2, &rules) };
        Settled::broken(&job, ZEROS, place, rule)
    };
    vec![
        // At 0 rule 0 is broken and excused.
        Settled::broken(&one(&[not_first], &[&[first, one_b], &[not_first, one_a]]), ZEROS, 1, 1),
        // At 1 rule 0 is broken and excused.
        Settled::broken(&one(&[first], &[&[not_first, one_a], &[first, one_b]]), ZEROS, 0, 1),
        // No excuse, and none that ever holds.
        two(&[], 0, 0),
        two(&[&[first, not_first]], 0, 0),
        // 0 and 1 are excused, then 2 as well.
        two(&[&[first, not_first], &[not_second]], 2, 3),
        two(&[&[not_second], &[not_first, second]], 3, 2),
        // Only what is above the place is excused.
        two(&[&[second]], 0, 0),
        // 0 alone is excused.
        two(&[&[not_first, not_second]], 1, 1),
    ]
}

fn excused_of_all_wires() -> Vec<Settled> {
    let [a, ..] = cell_terms(ALL_WIRES);
    let [first, not_first] = [0, 1];
    let [last, not_last] = [2 * ALL_WIRES - 2, 2 * ALL_WIRES - 1];
    let lower_half =
        Job { excuses: vec![vec![not_last]], ..blind_job(Form::Two, ALL_WIRES, &[&[last, a], &[first, not_last, a]]) };
    let all_but_the_highest = Job {
        excuses: (0..ALL_WIRES).map(|wire| vec![2 * wire + 1]).collect(),
        ..blind_job(Form::Two, ALL_WIRES, &[&[first, a], &[not_first, a]])
    };
    vec![
        // The lower half breaks rule 0 and is excused.
        Settled::broken(&lower_half, ZEROS, 2048, 1),
        // All but the highest are excused, and half of them break rule 0.
        Settled::broken(&all_but_the_highest, ZEROS, HIGHEST, 1),
    ]
}

/// P's excuses count for the widener's code 10, and not Q's.
fn excused_widened() -> Vec<Settled> {
    let [wire, not_wire] = [0, 1];
    let [a, _, b, _] = cell_terms(1);
    let job = |excuses: &[&[u8]], rules: &[&[u8]]| Job {
        excuses: excuses.iter().map(|excuse| excuse.to_vec()).collect(),
        ..blind_job(Form::Two, 1, rules)
    };
    let rules: [&[u8]; 2] = [&[wire, b], &[not_wire, a]];
    let exchanged: [&[u8]; 2] = [rules[1], rules[0]];
    vec![
        // Q excuses every combination.
        Settled::broken_with_q(&job(&[], &rules), &job(&[&[]], &rules), ZEROS, 0, 0),
        // P excuses 0, at which rule 0 is broken, and Q excuses nothing.
        Settled::broken_with_q(&job(&[&[not_wire]], &rules), &job(&[], &rules), ZEROS, 1, 1),
        // The same to Q with the rules the other way round and 1 excused.
        Settled::broken_with_q(&job(&[&[not_wire]], &rules), &job(&[&[wire]], &exchanged), ZEROS, 1, 1),
    ]
}
