//! Trials of the library, by a program that makes its calls: each allocation fails in
//! turn, or calls in random order are compared with a model.
//!
//! `trials refuse PROGRAM SHIM SERVER [WORD]` carries out the scenarios, or those with a word in
//! their names; `trials random PROGRAM SHIM [ROUNDS [KIND]]` the calls in random order, perhaps of a kind
//! alone. The program is that of bptree_trials, the shim is built of tools/refuse.c, or is `-` for
//! no shim, and the server is the program bptree. The last line is 'N passed, M failed'.

mod answers;
mod batch;
mod cutting;
mod dice;
mod drawing;
mod fixed;
mod jobs;
mod kind;
mod known;
mod model;
mod nodes;
mod process;
mod random;
mod record;
mod refusing;
mod routes;
mod scenario;
mod scenarios;
mod serving;
mod shapes;
mod stopped;
mod streams;
mod sweep;
mod words;

use process::Program;
use std::path::PathBuf;
use std::process::ExitCode;

fn program_of(path: &str, shim: &str) -> std::io::Result<Program> {
    let folder = std::env::temp_dir().join(format!("trials-{}", std::process::id()));
    std::fs::create_dir_all(&folder)?;
    let shim = if shim == "-" {
        None
    } else {
        Some(PathBuf::from(shim))
    };
    Ok(Program {
        path: PathBuf::from(path),
        shim,
        folder,
    })
}

// Carries out what the arguments name, and returns how many trials passed and failed.
fn carry_out(arguments: &[&str]) -> Option<(u64, u64)> {
    let (path, shim) = (arguments.get(1)?, arguments.get(2)?);
    let program = program_of(path, shim).ok()?;
    let counts = match arguments {
        ["refuse", _, _, server] => refusing::all(&program, server, ""),
        ["refuse", _, _, server, word] => refusing::all(&program, server, word),
        ["random", _, _] => jobs::random(&program, 19, None),
        ["random", _, _, rounds] => jobs::random(&program, rounds.parse().ok()?, None),
        ["random", _, _, rounds, kind] => {
            jobs::random(&program, rounds.parse().ok()?, kind.parse().ok())
        }
        _ => return None,
    };
    let _ = std::fs::remove_dir_all(&program.folder);
    Some(counts)
}

fn main() -> ExitCode {
    let arguments: Vec<String> = std::env::args().skip(1).collect();
    let words: Vec<&str> = arguments.iter().map(String::as_str).collect();
    match carry_out(&words) {
        Some((passed, failed)) => {
            println!("{passed} passed, {failed} failed");
            if failed == 0 && passed > 0 {
                ExitCode::SUCCESS
            } else {
                ExitCode::FAILURE
            }
        }
        None => {
            let usage = "refuse PROGRAM SHIM SERVER [WORD] | random PROGRAM SHIM [ROUNDS [KIND]]";
            eprintln!("usage: trials {usage}");
            ExitCode::from(2)
        }
    }
}
