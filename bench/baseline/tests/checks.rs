//! The check of another program's report accepts our own, and refuses it once anything in it is changed.

use baseline::{check::check, generate, operations::NAMES, report_on};

/// The report with its line `at` replaced.
fn with_line(lines: &[String], at: usize, line: String) -> Vec<u8> {
    let mut lines = lines.to_vec();
    lines[at] = line;
    lines.concat().into_bytes()
}

#[test]
fn changed_reports_are_refused() {
    let mut refused = 0;
    for seed in 0..3000 {
        let text = generate::text(seed);
        let Ok(report) = report_on(&text) else { continue };
        assert_eq!(check(&text, &report), Ok(()), "seed {seed}");
        let lines: Vec<String> = String::from_utf8(report).unwrap().split_inclusive('\n').map(String::from).collect();
        for (at, line) in lines.iter().enumerate() {
            for changed in changes(line) {
                let report = with_line(&lines, at, changed);
                assert!(check(&text, &report).is_err(), "seed {seed}: {}", String::from_utf8_lossy(&report));
                refused += 1;
            }
            if at > 0 && lines[at - 1].starts_with(' ') && line.starts_with(' ') {
                let mut swapped = lines.clone();
                swapped.swap(at - 1, at);
                assert!(check(&text, swapped.concat().as_bytes()).is_err(), "seed {seed}");
                refused += 1;
            }
        }
        assert!(check(&text, (lines.concat() + "\n").as_bytes()).is_err());
    }
    assert!(refused > 10_000);
}

/// A line with one thing changed.
fn changes(line: &str) -> Vec<String> {
    let words: Vec<&str> = line.trim_end().split(' ').collect();
    let mut changed = vec![String::new(), line.repeat(2), line.replace('\n', " \n"), line.replace('\n', "")];
    match words[..] {
        ["", subject, operation, target, origin] => {
            let others = NAMES.iter().filter(|&&name| name != operation);
            changed.extend(others.map(|other| format!(" {subject} {other} {target} {origin}\n")));
            let origin: usize = origin.parse().unwrap();
            changed.push(format!(" {subject} {operation} {target} {}\n", origin + 1));
            changed.push(format!(" {subject} {operation} {target} 0{origin}\n"));
            changed.push(format!(" {subject} {operation} nobody {origin}\n"));
        }
        [number, "guaranteed"] => changed.push(format!("{number} broken 1\n")),
        [number, "broken", steps] => {
            changed.push(format!("{number} guaranteed\n"));
            changed.push(format!("{number} broken {}\n", steps.parse::<usize>().unwrap() + 1));
        }
        _ => panic!("no line of a report: {line}"),
    }
    changed
}
