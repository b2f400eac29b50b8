//! Checking another program's report: the same verdicts and numbers of steps as here, steps that are a forbidden activity, and of
//! several shortest ones the same as here.

use crate::judge::{marked, Judge, Kind, Step, Verdict};
use crate::operations::by_name;
use crate::reader::read;
use crate::report::{step_line, verdict_line};
use crate::sheet::{Marks, Property, Sheet, Template};

/// Says what is wrong with a report on a text.
pub fn check(text: &[u8], report: &[u8]) -> Result<(), String> {
    match read(text) {
        Err(fault) => same(format!("{fault}\n").as_bytes(), report),
        Ok(sheet) => check_sheet(&sheet, report),
    }
}

fn check_sheet(sheet: &Sheet, report: &[u8]) -> Result<(), String> {
    let judge = Judge::new(sheet);
    let mut lines = report.split_inclusive(|&byte| byte == b'\n');
    for (&number, property) in &sheet.properties {
        let verdict = judge.judge(property);
        same(verdict_line(number, &verdict).as_bytes(), lines.next().unwrap_or_default())?;
        if let Verdict::Broken(own) = verdict {
            let shown = lines.by_ref().take(own.len());
            let steps = shown.map(|line| step(sheet, line)).collect::<Result<Vec<_>, _>>()?;
            if steps.len() < own.len() || !forbidden(&judge, property, &steps) {
                return Err(format!("the steps of property {number} are no forbidden activity, shown in working order"));
            }
            if steps != own {
                return Err(format!("the steps of property {number} are not the first of the shortest activities"));
            }
        }
    }
    same(b"", lines.next().unwrap_or_default())
}

fn same(expected: &[u8], shown: &[u8]) -> Result<(), String> {
    if expected == shown {
        return Ok(());
    }
    let [expected, shown] = [expected, shown].map(String::from_utf8_lossy);
    Err(format!("expected {expected:?}, shown {shown:?}"))
}

/// Reads a step line, which must be written as we would write that step.
fn step(sheet: &Sheet, line: &[u8]) -> Result<Step, String> {
    let parts: Vec<&[u8]> = line.trim_ascii().split(|&byte| byte == b' ').collect();
    let context = |name: &[u8]| sheet.contexts.iter().position(|context| context.name == name);
    let read = || {
        let &[subject, operation, target, origin] = &parts[..] else { return None };
        let origin = std::str::from_utf8(origin).ok()?.parse().ok()?;
        Some(Step { subject: context(subject)?, operation: by_name(operation)?, target: context(target)?, origin })
    };
    match read() {
        Some(step) if step_line(sheet, step) == line => Ok(step),
        _ => Err(format!("no step line: {:?}", String::from_utf8_lossy(line))),
    }
}

/// Whether steps, each shown as its move must be, are an activity that the property forbids.
fn forbidden(judge: &Judge, property: &Property, steps: &[Step]) -> bool {
    let Property { template, first, second } = property;
    match template {
        Template::Integrity => is_activity(judge, Kind::Push, first, second, steps),
        Template::Confidentiality => is_activity(judge, Kind::Pull, first, second, steps),
        Template::Domain => match steps {
            [step] => first[step.subject] != first[step.target] && judge.interaction(step.subject, step.target) == Some(*step),
            _ => false,
        },
        Template::Consistency => marked(first).any(|a| {
            let source = marks(first.len(), [a]);
            let unread = marks(first.len(), marked(second).filter(|&b| judge.unread(a, b)));
            is_activity(judge, Kind::Flow, &source, &unread, steps)
        }),
    }
}

/// Whether steps are an activity between two sets. A step may be either of two transfers (update goes both ways), so we follow
/// the set of contexts that the chain can have come to.
fn is_activity(judge: &Judge, kind: Kind, from: &Marks, to: &Marks, steps: &[Step]) -> bool {
    let leading = steps.iter().take_while(|step| step.is_transition()).count();
    let (transitions, transfers) = steps.split_at(leading);
    if kind == Kind::Flow && leading > 0 {
        return false;
    }
    let turned = transitions.iter().fold(from.clone(), |at, step| {
        let (c, d) = (step.subject, step.target);
        marks(at.len(), (at[c] && judge.transition(c, d) == Some(*step)).then_some(d))
    });
    match kind {
        Kind::Push => meet(&carried(judge, turned, transfers), to),
        Kind::Pull | Kind::Flow => meet(&carried(judge, to.clone(), transfers), &turned),
    }
}

/// Where information can have come by transfers, shown as steps, from the contexts of a set.
fn carried(judge: &Judge, from: Marks, transfers: &[Step]) -> Marks {
    transfers.iter().fold(from, |at, step| {
        let (s, t) = (step.subject, step.target);
        let moves = [(s, t), (t, s)];
        let made = moves.into_iter().filter(|&(g, k)| at[g] && judge.transfer(g, k) == Some(*step));
        marks(at.len(), made.map(|(_, k)| k))
    })
}

fn marks(n: usize, members: impl IntoIterator<Item = usize>) -> Marks {
    let mut set = vec![false; n];
    members.into_iter().for_each(|member| set[member] = true);
    set
}

fn meet(one: &Marks, other: &Marks) -> bool {
    one.iter().zip(other).any(|(&a, &b)| a && b)
}
