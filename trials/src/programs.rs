//! The programs on inputs that are no ordinary ones. No contract can say what a program writes, and the gate runs each
//! of them on one stored input.

mod batches;
pub mod inputs;

use crate::compare::short;
use crate::trial::{judge, Heard};
use crate::whiteboard::page;
use crate::workload::Workload;

#[derive(Clone, Copy, PartialEq, Eq, Debug)]
pub enum Program {
    Whiteboard,
    Workload,
    Console,
}

impl Program {
    pub const ALL: [Program; 3] = [Program::Whiteboard, Program::Workload, Program::Console];

    pub fn name(self) -> &'static str {
        match self {
            Program::Whiteboard => "whiteboard",
            Program::Workload => "workload",
            Program::Console => "console",
        }
    }

    fn inputs(self) -> Vec<inputs::Named> {
        match self {
            Program::Whiteboard => inputs::whiteboards(),
            Program::Workload => [inputs::workloads(), inputs::other_inputs()].concat(),
            Program::Console => [inputs::consoles(), batches::batches()].concat(),
        }
    }

    /// What is wrong with what the program wrote, if anything.
    fn judge(self, input: &[u8], heard: &Heard) -> Result<(), String> {
        if self == Program::Console {
            return judge(input, heard).map(drop).map_err(|difference| difference.to_string());
        }
        if let Some(fault) = &heard.fault {
            return Err(told("a good end", fault));
        }
        match self {
            Program::Workload => match Workload::read(input) {
                Some(workload) => same(&workload.run(), &heard.answers),
                None => one_line(&heard.answers),
            },
            // A script that may have been cut is not run.
            _ if input.len() >= inputs::BUFFER => one_line(&heard.answers),
            _ => same(page(input).text.as_bytes(), &heard.answers),
        }
    }
}

fn same(expected: &[u8], found: &[u8]) -> Result<(), String> {
    if found == expected {
        return Ok(());
    }
    let at = expected.iter().zip(found).take_while(|(a, b)| a == b).count();
    Err(told(&line_at(expected, at), &line_at(found, at)))
}

/// The line that has the byte at this place; a dump is one or more of them.
fn line_at(bytes: &[u8], at: usize) -> String {
    let start = bytes[..at].iter().rposition(|byte| *byte == b'\n').map_or(0, |newline| newline + 1);
    let line = bytes[start..].split_inclusive(|byte| *byte == b'\n').next().unwrap_or_default();
    line.escape_ascii().to_string()
}

/// Other input is answered by one line of text, whatever its words.
fn one_line(found: &[u8]) -> Result<(), String> {
    let is_text = |line: &[u8]| !line.is_empty() && line.iter().all(|byte| (b' '..=b'~').contains(byte));
    match found.strip_suffix(b"\n") {
        Some(line) if is_text(line) => Ok(()),
        _ => Err(told("one line of text", &found.escape_ascii().to_string())),
    }
}

fn told(expected: &str, found: &str) -> String {
    format!("  expected {}\n  found    {}", short(expected), short(found))
}

/// An input that a program does not answer as it has to.
pub struct Fault {
    /// What the input is.
    pub what: &'static str,
    pub told: String,
}

/// What is wrong with what a program writes; and how many inputs were tried.
pub fn faults(program: Program, run: &dyn Fn(&[u8]) -> Heard) -> (Vec<Fault>, usize) {
    let inputs = program.inputs();
    let mut faults = Vec::new();
    for (what, input) in &inputs {
        let heard = run(input.as_bytes());
        faults.extend(program.judge(input.as_bytes(), &heard).err().map(|told| Fault { what, told }));
    }
    (faults, inputs.len())
}

#[cfg(test)]
mod tests {
    use super::*;
    use crate::compare::expected;
    use crate::workload::OTHER;

    /// A program that is right.
    fn right(program: Program, input: &[u8]) -> Vec<u8> {
        let answers = |input| expected(input).filter_map(|(_, answer)| answer).map(|answer| answer + "\n").collect();
        match program {
            Program::Whiteboard if input.len() >= inputs::BUFFER => b"too long\n".to_vec(),
            Program::Whiteboard => page(input).text.into_bytes(),
            Program::Workload => Workload::read(input).map_or(format!("{OTHER}\n").into_bytes(), |it| it.run()),
            Program::Console => String::into_bytes(answers(input)),
        }
    }

    /// The inputs that show a fault, of a program that is right but for it.
    fn shown(program: Program, fault: impl Fn(&[u8], Vec<u8>) -> Vec<u8>) -> Vec<&'static str> {
        let run = |input: &[u8]| Heard { answers: fault(input, right(program, input)), fault: None };
        faults(program, &run).0.iter().map(|fault| fault.what).collect()
    }

    fn replaced(output: Vec<u8>, old: &str, new: &str) -> Vec<u8> {
        String::from_utf8(output).unwrap().replace(old, new).into_bytes()
    }

    #[test]
    fn right_programs() {
        for program in Program::ALL {
            assert!(shown(program, |_, output| output).is_empty());
        }
    }

    #[test]
    fn every_answer_judged_right() {
        let found = shown(Program::Whiteboard, |_, page| replaced(page, "WRONG", "right"));
        assert_eq!(found, ["demands that are not met", "no right answer"]);
    }

    #[test]
    fn only_right_answers_counted() {
        let found = shown(Program::Whiteboard, |_, page| replaced(page, "3 of 11 answers", "3 of 3 answers"));
        assert_eq!(found, ["demands that are not met"]);
    }

    #[test]
    fn a_cut_script_is_run() {
        let found = shown(Program::Whiteboard, |input, _| page(input).text.into_bytes());
        assert_eq!(found, ["a script that fills the buffer"]);
    }

    #[test]
    fn two_lines_for_other_input() {
        let found = shown(Program::Workload, |input, output| match Workload::read(input) {
            Some(_) => output,
            None => [&output[..], b"see the manual\n"].concat(),
        });
        assert_eq!(found.len(), inputs::other_inputs().len());
    }

    #[test]
    fn a_dump_for_other_input() {
        let dump = Workload::read(b"1\n0\n1\n1\n0\n1\n1").unwrap().run();
        let found = shown(Program::Workload, |input, output| if input.is_empty() { dump.clone() } else { output });
        assert_eq!(found, ["nothing"]);
    }

    #[test]
    fn a_long_line_done() {
        let found = shown(Program::Console, |_, answers| replaced(answers, "what", "ok"));
        assert_eq!(found.len(), 10, "{found:?}");
    }

    #[test]
    fn a_bad_end() {
        for program in [Program::Whiteboard, Program::Workload] {
            let run = |input: &[u8]| Heard { answers: right(program, input), fault: Some("signal 11".to_string()) };
            let (faults, tried) = faults(program, &run);
            assert_eq!(faults.len(), tried);
        }
    }
}
