//! The sample controller and other texts of which the report is known.

use baseline::report_on;

const CONTROLLER: &str = "\
context clock 0 0
context keypad 0 0
context maint 0 0
context opening 0 0
context log 0 0
vector clock opening update
vector keypad log append
vector maint log read
grant 1 maint opening write
property 1 integrity keypad opening
property 2 confidentiality keypad opening
property 3 domain clock,opening
property 4 consistency maint keypad
";

/// What is printed for a text: the report, or the fault.
fn printed(text: &str) -> String {
    match report_on(text.as_bytes()) {
        Ok(report) => String::from_utf8(report).unwrap(),
        Err(fault) => format!("{fault}\n"),
    }
}

fn contexts(count: usize) -> String {
    (0..count).map(|c| format!("context c{c} 0 0\n")).collect()
}

#[test]
fn the_sample_controller() {
    let report = "\
1 broken 3
 keypad append log 0
 maint read log 0
 maint write opening 1
2 guaranteed
3 broken 1
 maint write opening 1
4 broken 2
 keypad append log 0
 maint read log 0
";
    assert_eq!(printed(CONTROLLER), report);
}

#[test]
fn without_the_grant_integrity_is_guaranteed() {
    let text = CONTROLLER.replace("grant 1 maint opening write\n", "");
    assert!(printed(&text).starts_with("1 guaranteed\n"));
}

#[test]
fn with_opening_at_level_1_integrity_is_guaranteed() {
    let text = CONTROLLER.replace("context opening 0 0", "context opening 1 0");
    assert!(printed(&text).starts_with("1 guaranteed\n"));
}

#[test]
fn transitions_come_before_transfers() {
    let text = contexts(5)
        + "vector c1 c2 write\nvector c1 c3 become\nvector c3 c2 become\nvector c2 c4 become\nproperty 1 integrity c1 c4\n";
    let report = "1 broken 3\n c1 become c3 0\n c3 become c2 0\n c2 become c4 0\n";
    assert_eq!(printed(&text), report);
}

#[test]
fn sets_that_share_a_context() {
    assert_eq!(printed("context a 0 0\nproperty 1 integrity a a\n"), "fault 7 line 2 column 1 layer 3\n");
}

#[test]
fn as_many_pairs_as_fit() {
    let vectors: Vec<String> = (0..1025).map(|pair| format!("vector c{} c{} read\n", pair % 33, pair / 33)).collect();
    let again = "vector c0 c0 write\n";
    assert_eq!(printed(&(contexts(33) + &vectors[..1024].concat() + again)), "");
    assert_eq!(printed(&(contexts(33) + &vectors.concat())), "fault 11 line 1058 column 1 layer 3\n");
}

#[test]
fn an_empty_text() {
    assert_eq!(printed(""), "fault 15 line 1 column 1 layer 1\n");
}

#[test]
fn as_many_contexts_as_fit() {
    assert_eq!(printed(&contexts(256)), "");
    assert_eq!(printed(&contexts(257)), "fault 15 line 257 column 1 layer 1\n");
}

#[test]
fn as_many_bytes_as_fit() {
    let line = |reads: usize| format!("vector c0 c0 write{}\n", " read".repeat(reads));
    let text = contexts(1) + &line(200).repeat(64) + &line(56).replace("write", "write write");
    assert_eq!(text.len(), 65_536);
    assert_eq!(printed(&text), "");
    assert_eq!(printed(&(text + "\n")), "fault 13 line 1 column 1 layer 1\n");
}

#[test]
fn as_long_a_line_as_fits() {
    let line = |length: usize| contexts(1) + "vector c0 c0" + &" ".repeat(length - 17) + " read\n";
    assert_eq!(printed(&line(1024)), "fault 16 line 2 column 14 layer 2\n");
    assert_eq!(printed(&line(1025)), "fault 14 line 2 column 1 layer 1\n");
}
