//! `compare PROGRAM FIRST LAST` has PROGRAM report on the texts of the seeds FIRST to LAST, and checks each report and whether
//! the program's exit status is 0 after a report and 1 after a fault. A text that it gets wrong is kept as `differs-SEED.policy`.

use baseline::{check::check, generate, reader};
use std::error::Error;
use std::io::Write;
use std::process::{Command, ExitCode, Stdio};

fn main() -> Result<ExitCode, Box<dyn Error>> {
    let arguments: Vec<String> = std::env::args().skip(1).collect();
    let [program, first, last] = &arguments[..] else {
        return Err("usage: compare PROGRAM FIRST LAST".into());
    };
    let mut wrong = 0;
    let mut faults = [0; 18];
    for seed in first.parse()?..=last.parse()? {
        let text = generate::text(seed);
        let number = reader::read(&text).err().map_or(0, |fault| fault.number);
        faults[usize::from(number)] += 1;
        if let Err(why) = agrees(program, &text, number != 0)? {
            println!("seed {seed}: {why}");
            std::fs::write(format!("differs-{seed}.policy"), &text)?;
            wrong += 1;
        }
    }
    println!("{} reports, and faults:", faults[0]);
    for (number, count) in faults.iter().enumerate().skip(1).filter(|(_, &count)| count > 0) {
        println!("  {count} of {number}");
    }
    println!("{wrong} wrong");
    Ok(if wrong == 0 { ExitCode::SUCCESS } else { ExitCode::FAILURE })
}

/// Whether the program answers a text rightly.
fn agrees(program: &str, text: &[u8], faulty: bool) -> Result<Result<(), String>, Box<dyn Error>> {
    let mut child = Command::new(program).stdin(Stdio::piped()).stdout(Stdio::piped()).spawn()?;
    // The program may stop reading a text that is too long.
    let _ = child.stdin.take().map(|mut input| input.write_all(text));
    let output = child.wait_with_output()?;
    let status = output.status.code();
    Ok(check(text, &output.stdout).and_then(|()| {
        if status == Some(i32::from(faulty)) {
            Ok(())
        } else {
            Err(format!("exit status {status:?}"))
        }
    }))
}
