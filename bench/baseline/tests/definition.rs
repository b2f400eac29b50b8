//! Judging compared with the definition of an activity, on texts of few contexts: all chains are gone through, without any
//! search, and each step is asked whether some legal run has it.

use baseline::generate;
use baseline::judge::{Judge, Step, Verdict};
use baseline::reader::read;
use baseline::sheet::{Property, Sheet, Template};

const READ_LIKE: [&str; 4] = ["read", "update", "stat", "receive"];
const WRITE_LIKE: [&str; 5] = ["write", "append", "update", "signal", "send"];

fn number(operation: &str) -> usize {
    baseline::operations::by_name(operation.as_bytes()).unwrap()
}

/// Whether the let set of (s, t) has the operation.
fn lets(sheet: &Sheet, s: usize, t: usize, operation: &str) -> bool {
    let (subject, target) = (&sheet.contexts[s], &sheet.contexts[t]);
    let reads = READ_LIKE.contains(&operation);
    let writes = WRITE_LIKE.contains(&operation) || operation == "execute";
    (subject.owner == target.owner || sheet.constrained >> number(operation) & 1 == 0)
        && (!reads || subject.level <= target.level)
        && (!writes || subject.level >= target.level)
}

fn written(sheet: &Sheet, s: usize, t: usize, operation: &str) -> bool {
    sheet.written[s * sheet.n() + t] >> number(operation) & 1 == 1
}

/// Whether some legal run has the interaction at a wished place: the policy has it written, or a permitted change adds it.
fn can(sheet: &Sheet, s: usize, t: usize, operation: &str) -> bool {
    let gives = sheet.grants.values().any(|grant| grant.gives(s, t) >> number(operation) & 1 == 1);
    lets(sheet, s, t, operation) && (written(sheet, s, t, operation) || gives)
}

fn transfer(sheet: &Sheet, g: usize, k: usize) -> bool {
    WRITE_LIKE.iter().any(|operation| can(sheet, g, k, operation))
        || READ_LIKE.iter().any(|operation| can(sheet, k, g, operation))
}

/// A move along a chain: whether it is a transfer, and the context that it leads to. So transitions come before transfers, and of
/// each the lower contexts first.
type Turn = (bool, usize);

/// Of two chains the shorter, and of two as short the one that comes first.
fn first(chains: impl Iterator<Item = Vec<Turn>>) -> Option<Vec<Turn>> {
    chains.min_by_key(|turns| (turns.len(), turns.clone()))
}

/// The first of the shortest chains from a context to a wished one, of at most so many moves. `forward` says which way transfers go.
fn shortest(sheet: &Sheet, at: usize, wished: &[bool], transitions: bool, forward: bool, most: usize) -> Option<Vec<Turn>> {
    if wished[at] {
        return Some(Vec::new());
    }
    if most == 0 {
        return None;
    }
    let onward = |later: usize, transfers: bool| {
        let rest = shortest(sheet, later, wished, transitions && !transfers, forward, most - 1)?;
        Some([(transfers, later)].into_iter().chain(rest).collect::<Vec<_>>())
    };
    first((0..sheet.n()).flat_map(|later| {
        let becomes = transitions && can(sheet, at, later, "become");
        let gives = if forward { transfer(sheet, at, later) } else { transfer(sheet, later, at) };
        [becomes.then(|| onward(later, false)), gives.then(|| onward(later, true))].into_iter().flatten().flatten()
    }))
}

/// The steps of a chain in working order.
fn steps(judge: &Judge, start: usize, turns: &[Turn], forward: bool) -> Vec<Step> {
    let starts = [start].into_iter().chain(turns.iter().map(|turn| turn.1));
    let (transfers, transitions): (Vec<_>, Vec<_>) = starts.zip(turns).partition(|(_, turn)| turn.0);
    let becoming = transitions.into_iter().map(|(c, turn)| judge.transition(c, turn.1));
    let mut passing: Vec<_> = transfers
        .into_iter()
        .map(|(c, turn)| if forward { judge.transfer(c, turn.1) } else { judge.transfer(turn.1, c) })
        .collect();
    if !forward {
        passing.reverse();
    }
    becoming.chain(passing).map(|step| step.expect("a move of a chain can be made")).collect()
}

/// The steps of the first of the shortest activities that a property forbids: of several that are as short that from the lowest
/// start, and of these the first chain.
fn least(sheet: &Sheet, judge: &Judge, property: &Property) -> Option<Vec<Step>> {
    let n = sheet.n();
    let Property { template, first, second } = property;
    let chained = |transitions: bool, forward: bool, wished: &dyn Fn(usize) -> Vec<bool>| {
        let chains =
            (0..n).filter(|&a| first[a]).filter_map(|a| Some((a, shortest(sheet, a, &wished(a), transitions, forward, n)?)));
        let (start, turns) = chains.min_by_key(|(_, turns)| turns.len())?;
        Some(steps(judge, start, &turns, forward))
    };
    match template {
        Template::Integrity => chained(true, true, &|_| second.clone()),
        Template::Confidentiality => chained(true, false, &|_| second.clone()),
        Template::Domain => {
            let mut pairs = (0..n).flat_map(|s| (0..n).map(move |t| (s, t))).filter(|&(s, t)| first[s] != first[t]);
            let done =
                |&(s, t): &(usize, usize)| baseline::operations::NAMES.iter().any(|operation| can(sheet, s, t, operation));
            pairs.find(done).map(|(s, t)| vec![judge.interaction(s, t).unwrap()])
        }
        Template::Consistency => chained(false, false, &|a| {
            let reads = |b| READ_LIKE.iter().any(|operation| written(sheet, a, b, operation) && lets(sheet, a, b, operation));
            (0..n).map(|b| second[b] && !reads(b)).collect()
        }),
    }
}

#[test]
fn judging_is_as_defined() {
    let mut counts = [[0; 6]; 4];
    for seed in 0..40_000 {
        let Ok(sheet) = read(&generate::text(seed)) else { continue };
        if sheet.n() > 5 {
            continue;
        }
        let judge = Judge::new(&sheet);
        for (number, property) in &sheet.properties {
            let steps = match judge.judge(property) {
                Verdict::Guaranteed => None,
                Verdict::Broken(steps) => Some(steps),
            };
            assert_eq!(steps, least(&sheet, &judge, property), "seed {seed}, property {number}");
            counts[property.template as usize][steps.map_or(0, |steps| steps.len())] += 1;
        }
    }
    println!("by template, then by number of steps: {counts:?}");
    assert!(counts.iter().all(|of_template| of_template[0] > 0 && of_template[1] > 0));
    assert!(counts.iter().zip([4, 4, 1, 3]).all(|(of_template, most)| of_template[most] > 0));
}
