//! Judging: breadth-first search over the contexts, with the possible operations of each pair worked out once. Of several shortest
//! activities the first is found: that with the lowest start, and then along the way a transition before a transfer, and the lower
//! context.

use crate::operations::{lowest, Operations, BECOME, NONE, READ_LIKE, TRANSITION, WRITE_LIKE};
use crate::sheet::{Marks, Property, Sheet, Template};

#[derive(Clone, Copy, PartialEq, Eq, Debug)]
pub struct Step {
    pub subject: usize,
    pub operation: usize,
    pub target: usize,
    /// 0, or the grant that the step needs.
    pub origin: usize,
}

#[derive(PartialEq, Eq, Debug)]
pub enum Verdict {
    Guaranteed,
    Broken(Vec<Step>),
}

/// The kinds of activity that go along a chain.
#[derive(Clone, Copy, PartialEq, Eq, Debug)]
pub enum Kind {
    /// Transitions, then transfers forward.
    Push,
    /// Transitions, then transfers in which the later context gives to the earlier one.
    Pull,
    /// A pull without transitions.
    Flow,
}

pub struct Judge<'a> {
    sheet: &'a Sheet,
    n: usize,
    /// The possible operations of (s, t) at s * n + t.
    possible: Vec<Operations>,
    /// Whether a can become b, at a * n + b.
    becomes: Vec<bool>,
    /// Whether a can give to b, at a * n + b.
    gives: Vec<bool>,
    /// Whether a can get from b, at a * n + b.
    gets: Vec<bool>,
}

impl<'a> Judge<'a> {
    pub fn new(sheet: &'a Sheet) -> Judge<'a> {
        let n = sheet.n();
        let possible = possible(sheet);
        let can = |s: usize, t: usize, among: Operations| possible[s * n + t] & among != NONE;
        let can_give = |g, k| can(g, k, WRITE_LIKE) || can(k, g, READ_LIKE);
        let becomes = table(n, |a, b| can(a, b, TRANSITION));
        let gives = table(n, can_give);
        let gets = table(n, |a, b| can_give(b, a));
        Judge { sheet, n, becomes, gives, gets, possible }
    }

    pub fn judge(&self, property: &Property) -> Verdict {
        let Property { template, first, second } = property;
        let steps = match template {
            Template::Integrity => self.activity(Kind::Push, first, second),
            Template::Confidentiality => self.activity(Kind::Pull, first, second),
            Template::Domain => self.crossing(first).map(|step| vec![step]),
            Template::Consistency => self.unread_flow(first, second),
        };
        steps.map_or(Verdict::Guaranteed, Verdict::Broken)
    }

    /// Whether consistency forbids flows from a to b: the policy by itself allows no read-like operation of a on b.
    pub fn unread(&self, a: usize, b: usize) -> bool {
        self.sheet.allowed(a, b) & READ_LIKE == NONE
    }

    /// The step by which c becomes d.
    pub fn transition(&self, c: usize, d: usize) -> Option<Step> {
        self.step(c, d, TRANSITION)
    }

    /// The step by which g gives to k: the giver's, if there is one, before the taker's.
    pub fn transfer(&self, g: usize, k: usize) -> Option<Step> {
        self.step(g, k, WRITE_LIKE).or_else(|| self.step(k, g, READ_LIKE))
    }

    /// The step by which s does anything to t.
    pub fn interaction(&self, s: usize, t: usize) -> Option<Step> {
        self.step(s, t, !NONE)
    }

    /// The step of s on t with the lowest possible operation among these.
    fn step(&self, s: usize, t: usize, among: Operations) -> Option<Step> {
        let operation = lowest(self.possible(s, t) & among)?;
        Some(Step { subject: s, operation, target: t, origin: self.sheet.origin(s, t, operation) })
    }

    fn possible(&self, s: usize, t: usize) -> Operations {
        self.possible[s * self.n + t]
    }

    /// An interaction with exactly one end in the domain.
    fn crossing(&self, domain: &Marks) -> Option<Step> {
        (0..self.n).find_map(|s| {
            let t = (0..self.n).find(|&t| domain[s] != domain[t] && self.possible(s, t) != NONE)?;
            self.interaction(s, t)
        })
    }

    /// A shortest flow that consistency forbids, over each source by itself.
    fn unread_flow(&self, from: &Marks, to: &Marks) -> Option<Vec<Step>> {
        let mut shortest: Option<Vec<Step>> = None;
        for a in marked(from) {
            let source: Marks = (0..self.n).map(|c| c == a).collect();
            let forbidden: Marks = (0..self.n).map(|b| to[b] && self.unread(a, b)).collect();
            if let Some(steps) = self.activity(Kind::Flow, &source, &forbidden) {
                if shortest.as_ref().is_none_or(|best| steps.len() < best.len()) {
                    shortest = Some(steps);
                }
            }
        }
        shortest
    }

    /// A shortest activity between two sets that share no context. Place c is context c while transitions may still come, place
    /// n + c is context c once a transfer has been made.
    fn activity(&self, kind: Kind, from: &Marks, to: &Marks) -> Option<Vec<Step>> {
        let n = self.n;
        let transfers = if kind == Kind::Push { &self.gives } else { &self.gets };
        let mut reached = Reached::from(from);
        let mut taken = 0;
        while let Some(&place) = reached.queue.get(taken) {
            taken += 1;
            let row = place % n * n..(place % n + 1) * n;
            let mut end = None;
            if place < n && kind != Kind::Flow {
                end = reached.extend(place, 0, &self.becomes[row.clone()], to);
            }
            end = end.or_else(|| reached.extend(place, n, &transfers[row], to));
            if let Some(end) = end {
                return Some(self.steps(kind, &reached.before, end));
            }
        }
        None
    }

    /// The steps to a place in working order: transitions first, then transfers as the information goes.
    fn steps(&self, kind: Kind, before: &[usize], end: usize) -> Vec<Step> {
        let n = self.n;
        let mut transitions = Vec::new();
        let mut transfers = Vec::new();
        let mut later = end;
        while before[later] != START {
            let earlier = before[later];
            let (c, d) = (earlier % n, later % n);
            match kind {
                _ if later < n => transitions.push(self.transition(c, d)),
                Kind::Push => transfers.push(self.transfer(c, d)),
                Kind::Pull | Kind::Flow => transfers.push(self.transfer(d, c)),
            }
            later = earlier;
        }
        transitions.reverse();
        if kind == Kind::Push {
            transfers.reverse();
        }
        transitions.into_iter().chain(transfers).map(|step| step.expect("a reached place has its move")).collect()
    }
}

/// What a search has reached.
struct Reached {
    /// The place before each place, or one of the two marks below.
    before: Vec<usize>,
    /// The reached places in their order.
    queue: Vec<usize>,
}

/// The mark of a place that is not reached, and of one that the search starts from.
const NOWHERE: usize = usize::MAX;
const START: usize = usize::MAX - 1;

impl Reached {
    fn from(starts: &Marks) -> Reached {
        let mut before = vec![NOWHERE; 2 * starts.len()];
        let queue: Vec<usize> = marked(starts).collect();
        queue.iter().for_each(|&start| before[start] = START);
        Reached { before, queue }
    }

    /// Reaches from a place what its row of moves leads to, the places from `base` on. Answers the first that is wanted.
    fn extend(&mut self, place: usize, base: usize, row: &[bool], wanted: &Marks) -> Option<usize> {
        for (later, &moves) in row.iter().enumerate() {
            let next = base + later;
            if moves && self.before[next] == NOWHERE {
                self.before[next] = place;
                self.queue.push(next);
                if wanted[later] {
                    return Some(next);
                }
            }
        }
        None
    }
}

/// What can be done in some legal run, for each pair. Permitted changes may come before every step, so each step can have what
/// grants give, whatever came before it.
fn possible(sheet: &Sheet) -> Vec<Operations> {
    let n = sheet.n();
    let mut possible = sheet.written.clone();
    for grant in sheet.grants.values() {
        for s in marked(&grant.subjects) {
            for t in marked(&grant.targets) {
                possible[s * n + t] |= grant.operations;
            }
        }
    }
    for s in 0..n {
        for t in 0..n {
            possible[s * n + t] &= sheet.let_set(s, t);
        }
    }
    possible
}

/// What holds of (a, b), at a * n + b.
fn table(n: usize, holds: impl Fn(usize, usize) -> bool) -> Vec<bool> {
    let mut table = Vec::with_capacity(n * n);
    for a in 0..n {
        table.extend((0..n).map(|b| holds(a, b)));
    }
    table
}

/// The contexts that a set marks.
pub fn marked(set: &Marks) -> impl Iterator<Item = usize> + '_ {
    (0..set.len()).filter(|&context| set[context])
}

impl Step {
    /// Whether the step is a transition.
    pub fn is_transition(&self) -> bool {
        self.operation == BECOME
    }
}
