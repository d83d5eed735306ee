//! Consoles as processes: the reference agrees with itself, one with a fault is found, none is waited for in vain.

use std::process::{Command, Output};
use std::time::{Duration, Instant};
use trials::programs::Program;
use trials::trial::run;

/// Longer than any of this takes, also on time that other work leaves.
const LONG: Duration = Duration::from_secs(600);

const REFERENCE: &str = env!("CARGO_BIN_EXE_reference");

fn trial(console: &[&str]) -> Output {
    Command::new(env!("CARGO_BIN_EXE_trial"))
        .args(["--seeds", "5", "--calls", "100", "--"])
        .args(console)
        .output()
        .unwrap()
}

#[test]
fn the_reference_agrees() {
    let output = trial(&[REFERENCE]);
    let said = String::from_utf8_lossy(&output.stdout);
    assert_eq!(output.status.code(), Some(0), "{said}");
    assert!(said.contains("0 seeds differ"), "{said}");
}

#[test]
fn a_fault_is_shown() {
    let output = trial(&["sh", "-c", "\"$0\" | sed 's/^no 5$/no 7/'", REFERENCE]);
    let said = String::from_utf8_lossy(&output.stdout);
    assert_eq!(output.status.code(), Some(1), "{said}");
    assert!(said.ends_with("  expected no 5\n  found    no 7\n"), "{said}");
    let script = said.split("made short:\n").nth(1).unwrap();
    assert!(script.lines().filter(|line| line.starts_with("  ")).count() <= 5, "{said}");
}

/// Its first run answers otherwise, and leaves a mark by which the later ones are right.
#[test]
fn a_fault_that_does_not_come_again_is_shown() {
    let mark = format!("{}/second run", env!("CARGO_TARGET_TMPDIR"));
    let _ = std::fs::remove_file(&mark);
    let flaky = "if [ -e \"$1\" ]; then exec \"$0\"; fi; : >\"$1\"; \"$0\" | sed 's/^sum .*/sum/'";
    let output = trial(&["sh", "-c", flaky, REFERENCE, &mark]);
    let said = String::from_utf8_lossy(&output.stdout);
    assert_eq!(output.status.code(), Some(1), "{said}");
    assert!(said.ends_with("  found    sum\n"), "{said}");
    let script = said.split("not again; its script up to there:\n").nth(1).unwrap();
    let asked = said.lines().rev().nth(2).unwrap().split(": ").nth(1).unwrap();
    assert_eq!(script.lines().take_while(|line| line.starts_with("  ")).last().unwrap().trim(), asked, "{said}");
}

#[test]
fn a_bad_end_is_a_difference() {
    let output = trial(&["sh", "-c", "\"$0\"; exit 3", REFERENCE]);
    let said = String::from_utf8_lossy(&output.stdout);
    assert_eq!(output.status.code(), Some(1), "{said}");
    assert!(said.contains("exit status: 3"), "{said}");
}

#[test]
fn no_console_is_another_fault() {
    assert_eq!(trial(&["/no/such/console"]).status.code(), Some(2));
}

fn programs(crates: &str) -> Output {
    Command::new(env!("CARGO_BIN_EXE_programs")).arg(crates).output().unwrap()
}

#[test]
fn no_programs_are_another_fault() {
    assert_eq!(programs("/no/such/folder").status.code(), Some(2));
}

/// Programs that answer nothing, each where its crate is built.
#[test]
fn programs_are_tried_where_they_are_built() {
    let crates = format!("{}/crates", env!("CARGO_TARGET_TMPDIR"));
    let _ = std::fs::remove_dir_all(&crates);
    for name in Program::ALL.map(Program::name) {
        std::fs::create_dir_all(format!("{crates}/{name}/out")).unwrap();
        std::os::unix::fs::symlink("/bin/true", format!("{crates}/{name}/out/{name}")).unwrap();
    }
    let output = programs(&crates);
    let said = String::from_utf8_lossy(&output.stdout);
    assert_eq!(output.status.code(), Some(1), "{said}");
    assert!(Program::ALL.iter().all(|it| said.contains(&format!("programs: {} answers ", it.name()))), "{said}");
}

/// More than a pipe holds, both ways.
#[test]
fn pipes_do_not_block() {
    let script = vec![b'#'; 3 << 20];
    let heard = run(&["cat".to_string()], &script, LONG).unwrap();
    assert!(heard.answers == script && heard.fault.is_none());
}

#[test]
fn a_console_that_does_not_end() {
    let began = Instant::now();
    let heard = run(&["sleep".to_string(), "1000".to_string()], b"begin\n", Duration::from_secs(1)).unwrap();
    assert!(heard.fault.is_some() && began.elapsed() < LONG);
}
