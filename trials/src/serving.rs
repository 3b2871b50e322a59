//! The line server, with each of its requests failing in turn.

use crate::process::Program;
use std::io::Write;
use std::path::Path;
use std::process::{Command, Stdio};

/// The exit status for an allocation that failed.
const OUT_OF_MEMORY: i32 = 3;

/// Lines of all kinds.
const FEW: &str =
    "put 2 20\nput 1 10\nput 2 21\nrank 2\nrank 3\nat 0\nnext 1\ndel 1\nall\nget 01x\n";

const FEW_ANSWERS: &str = "new\nnew\nold 20\nin 1\nout 2\n1 10\n2 21\ngone 10\n2 21\nbad\n";

/// So many lines put a pair.
const MANY: usize = 300;

/// An input, its replies, and its name.
pub struct Lines {
    pub name: &'static str,
    input: String,
    answers: String,
    /// How many lines come before each line that takes memory.
    takes: Vec<usize>,
}

// The first lines of a text.
fn first_lines(text: &str, many: usize) -> String {
    text.split_inclusive('\n').take(many).collect()
}

/// The inputs. A leaf has room for 64 pairs, and if one more comes behind them, 32 stay in it. So of
/// pairs that come in their order those behind 64, 96, 128 and so on take memory.
pub fn all() -> Vec<Lines> {
    let put = |place: usize| format!("put 1{place:03} 7\n");
    vec![
        Lines {
            name: "lines of each kind",
            input: FEW.to_string(),
            answers: FEW_ANSWERS.to_string(),
            takes: Vec::new(),
        },
        Lines {
            name: "lines that put",
            input: (0..MANY).map(put).collect(),
            answers: "new\n".repeat(MANY),
            takes: (64..MANY).step_by(32).collect(),
        },
    ]
}

/// What came of a run: its status, its replies, how many requests it made, whether one failed,
/// and the blocks that it left.
struct Run {
    status: Option<i32>,
    said: String,
    errors: String,
    requests: u64,
    is_refused: bool,
    left: u64,
}

// Runs the program on the first lines of an input, with the request of a number failing, or with 0
// no request.
fn run(
    (server, program): (&Path, &Program),
    lines: &Lines,
    many: usize,
    number: u64,
) -> Result<Run, String> {
    let fault = |error: std::io::Error| error.to_string();
    let shim = program.shim.as_ref().ok_or("requests are not counted")?;
    let count = program.folder.join(format!("lines-{}", lines.name.len()));
    let input = first_lines(&lines.input, many);
    let mut page = [0; 32];
    page[24..].copy_from_slice(&number.to_le_bytes());
    std::fs::write(&count, page).map_err(fault)?;
    let mut child = Command::new(server)
        .env("LD_PRELOAD", shim)
        .env("REFUSE_COUNT", &count)
        .stdin(Stdio::piped())
        .stdout(Stdio::piped())
        .stderr(Stdio::piped())
        .spawn()
        .map_err(fault)?;
    if let Some(mut to) = child.stdin.take() {
        // The program may end before it has read all.
        let _ = to.write_all(input.as_bytes());
    }
    let output = child.wait_with_output().map_err(fault)?;
    let page = std::fs::read(&count).map_err(fault)?;
    let word = |place: usize| {
        let mut bytes = [0; 8];
        bytes.copy_from_slice(&page[place..place + 8]);
        u64::from_le_bytes(bytes)
    };
    Ok(Run {
        status: output.status.code(),
        said: String::from_utf8_lossy(&output.stdout).into_owned(),
        errors: String::from_utf8_lossy(&output.stderr).into_owned(),
        requests: word(0),
        is_refused: number > 0 && word(24) == 0,
        left: word(8),
    })
}

// How many requests the program makes for each number of first lines, with no failure.
fn requests_of_first(programs: (&Path, &Program), lines: &Lines) -> Result<Vec<u64>, String> {
    let all = lines.input.lines().count();
    (0..=all)
        .map(|many| Ok(run(programs, lines, many, 0)?.requests))
        .collect()
}

// The numbers of lines that come before each line that takes memory.
fn lines_that_take(requests: &[u64]) -> Vec<usize> {
    let steps = requests.windows(2).enumerate();
    let takes = steps.filter(|(_, pair)| pair[0] < pair[1]);
    takes.map(|(before, _)| before).collect()
}

// What is not as it must be of a run in which a request failed. All lines before the one that
// makes the request have their replies, and no more.
fn fault_of(lines: &Lines, run: &Run, answered: usize) -> Option<String> {
    if run.status != Some(OUT_OF_MEMORY) || run.errors != "out of memory\n" {
        Some(format!("status {:?}, {:?}", run.status, run.errors))
    } else if run.said != first_lines(&lines.answers, answered) || run.left > 0 {
        Some(format!(
            "{:?} in place of {answered} replies, {} blocks left",
            run.said, run.left
        ))
    } else {
        None
    }
}

/// Serves an input again and again, with one later request failing each time. Returns how many
/// requests it makes, and what was not as it must be.
pub fn carry_out(
    server: &Path,
    program: &Program,
    lines: &Lines,
) -> Result<(u64, Vec<String>), String> {
    let mut errors = Vec::new();
    let requests = requests_of_first((server, program), lines)?;
    let takes = lines_that_take(&requests);
    if takes != lines.takes {
        errors.push(format!("{}: memory is taken behind {takes:?}", lines.name));
    }
    for number in 1.. {
        let run = run((server, program), lines, usize::MAX, number)?;
        if !run.is_refused {
            let is_well = run.status == Some(0) && run.said == lines.answers && run.left == 0;
            if !is_well {
                errors.push(format!(
                    "{}: status {:?}, {:?}",
                    lines.name, run.status, run.said
                ));
            }
            return Ok((number - 1, errors));
        }
        // Before the first line the tree is made.
        let met = requests.iter().filter(|many| **many < number).count();
        if let Some(fault) = fault_of(lines, &run, met.saturating_sub(1)) {
            errors.push(format!("{}, request {number}: {fault}", lines.name));
        }
    }
    Err("there are too many requests".to_string())
}
