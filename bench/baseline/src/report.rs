//! The report: each property by rising number, and the steps of the broken ones.

use crate::judge::{Judge, Step, Verdict};
use crate::operations::NAMES;
use crate::sheet::Sheet;

pub fn report(sheet: &Sheet) -> Vec<u8> {
    let judge = Judge::new(sheet);
    let mut report = Vec::new();
    for (&number, property) in &sheet.properties {
        let verdict = judge.judge(property);
        report.extend_from_slice(verdict_line(number, &verdict).as_bytes());
        if let Verdict::Broken(steps) = verdict {
            for step in steps {
                report.extend_from_slice(&step_line(sheet, step));
            }
        }
    }
    report
}

pub fn verdict_line(number: usize, verdict: &Verdict) -> String {
    match verdict {
        Verdict::Guaranteed => format!("{number} guaranteed\n"),
        Verdict::Broken(steps) => format!("{number} broken {}\n", steps.len()),
    }
}

pub fn step_line(sheet: &Sheet, step: Step) -> Vec<u8> {
    let mut line = vec![b' '];
    line.extend_from_slice(&sheet.contexts[step.subject].name);
    line.extend_from_slice(format!(" {} ", NAMES[step.operation]).as_bytes());
    line.extend_from_slice(&sheet.contexts[step.target].name);
    line.extend_from_slice(format!(" {}\n", step.origin).as_bytes());
    line
}
