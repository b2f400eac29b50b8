//! `baseline < TEXT` prints the report on a policy text, or its first fault.
//! `baseline --check REPORT < TEXT` says whether REPORT is a right report on the text.

use baseline::{check, reader::LONGEST_TEXT, report_on};
use std::error::Error;
use std::io::{stdin, stdout, Read, Write};
use std::process::ExitCode;

fn main() -> Result<ExitCode, Box<dyn Error>> {
    let arguments: Vec<String> = std::env::args().skip(1).collect();
    let mut text = Vec::new();
    stdin().take(LONGEST_TEXT as u64 + 1).read_to_end(&mut text)?;
    match &arguments[..] {
        [] => judge(&text),
        [option, report] if option == "--check" => compare(&text, &std::fs::read(report)?),
        _ => Err("usage: baseline [--check REPORT] < TEXT".into()),
    }
}

fn judge(text: &[u8]) -> Result<ExitCode, Box<dyn Error>> {
    match report_on(text) {
        Ok(report) => {
            stdout().write_all(&report)?;
            Ok(ExitCode::SUCCESS)
        }
        Err(fault) => {
            println!("{fault}");
            Ok(ExitCode::FAILURE)
        }
    }
}

fn compare(text: &[u8], report: &[u8]) -> Result<ExitCode, Box<dyn Error>> {
    match check::check(text, report) {
        Ok(()) => Ok(ExitCode::SUCCESS),
        Err(wrong) => {
            println!("{wrong}");
            Ok(ExitCode::FAILURE)
        }
    }
}
