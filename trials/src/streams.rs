//! The line server over streams in memory: inputs and their replies, bad lines, long inputs, and
//! streams that fail. The replies were written by hand.

use crate::process::{Process, Program};
use crate::record::{call, Record};

/// The kind of subject that serves lines.
pub const KIND: u64 = 22;

/// How the server ends: well, or by a fault of a stream.
const WELL: u64 = 0;
const FAULT: u64 = 1;

type Outcome = Result<(), String>;

/// A case: its name, and what is done.
pub struct Case {
    pub name: &'static str,
    run: fn(&mut Process) -> Outcome,
}

/// How the streams behave.
#[derive(Clone, Copy, Debug)]
struct Streams {
    /// The most bytes of a read.
    read: u64,
    /// The number of reads before one that fails.
    reads: u64,
    /// The most bytes of a write.
    write: u64,
    /// The number of bytes that are taken before a write fails.
    room: u64,
    can_flush: bool,
}

/// Streams that do not fail.
const SOUND: Streams = Streams {
    read: 1_000,
    reads: u64::MAX,
    write: 1_000,
    room: u64::MAX,
    can_flush: true,
};

/// All cases.
pub fn all() -> Vec<Case> {
    let case = |name, run| Case { name, run };
    vec![
        case(
            "lines and their replies",
            examples as fn(&mut Process) -> Outcome,
        ),
        case("bad lines", bad_lines),
        case("a long line", long_line),
        case("many lines, byte by byte", byte_by_byte),
        case("streams that fail", faults),
    ]
}

/// Carries out a case.
pub fn carry_out(program: &Program, case: &Case) -> Outcome {
    let fault = |error: std::io::Error| format!("{}: no reply: {error}", case.name);
    let mut process = Process::start(program, KIND).map_err(fault)?;
    (case.run)(&mut process).map_err(|error| format!("{}: {error}", case.name))?;
    if process.end().map_err(fault)? {
        Ok(())
    } else {
        Err(format!("{}: it did not end well", case.name))
    }
}

// The number in up to eight bytes, the least one first.
fn number_of(bytes: &[u8]) -> u64 {
    let number = |sum: u64, byte: &u8| sum << 8 | u64::from(*byte);
    bytes.iter().rev().fold(0, number)
}

// The calls that replace the input.
fn feed(input: &[u8]) -> Vec<Record> {
    let mut calls = vec![call(0, 2, &[])];
    for part in input.chunks(16) {
        let (first, rest) = part.split_at(part.len().min(8));
        let many = part.len() as u64;
        calls.push(call(0, 0, &[many, number_of(first), number_of(rest)]));
    }
    calls
}

// Serves an input, and compares how that ends and what is written.
fn serve(
    process: &mut Process,
    input: &[u8],
    streams: Streams,
    ending: u64,
    written: &[u8],
) -> Outcome {
    let mut calls = feed(input);
    let writes = streams.write << 1 | u64::from(!streams.can_flush);
    let arguments = [streams.read, streams.reads, writes, streams.room];
    calls.push(call(0, 1, &arguments));
    let replies = process.ask(&calls).map_err(|error| error.to_string())?;
    let Some((reply, fed)) = replies.split_last() else {
        return Err("there is no reply".to_string());
    };
    let mut wanted = vec![ending, written.len() as u64];
    wanted.extend(written.iter().map(|byte| u64::from(*byte)));
    let is_fed = fed.iter().all(|one| one.is_done() && one.has(&[]));
    if is_fed && reply.is_done() && reply.has(&wanted) {
        return Ok(());
    }
    let start = String::from_utf8_lossy(&input[..input.len().min(60)]);
    let words = &reply.words[..reply.words.len().min(20)];
    Err(format!("{start:?}, {streams:?}: {words:?}"))
}

fn answers(process: &mut Process, input: &[u8], output: &[u8]) -> Outcome {
    serve(process, input, SOUND, WELL, output)
}

const INPUT: &str = "put 2 20\nput 1 10\nput 2 21\nget 2\nget 3\nlen\nall\nget 01";

const OUTPUT: &str = "new\nnew\nold 20\n21\nnone\n2\n1 10,2 21\nbad\n";

const RANKS: &str =
    "put 2 20\nput 1 10\nput 2 21\nrank 2\nrank 3\nat 0\nat 1\nat 2\nrank 0\nall\nget 01x\n";

const RANKED: &str = "new\nnew\nold 20\nin 1\nout 2\n1 10\n2 21\nnone\nout 0\n1 10,2 21\nbad\n";

const NEIGHBOURS: &str =
    "put 2 20\nput 1 10\nput 2 21\nrank 2\nrank 3\nat 0\nnext 1\ndel 1\nall\nget 01x";

const NEIGHBOURED: &str = "new\nnew\nold 20\nin 1\nout 2\n1 10\n2 21\ngone 10\n2 21\nbad\n";

const EXAMPLES: [(&str, &str); 18] = [
    ("", ""),
    ("len", "0\n"),
    ("all\nget 1\nlen\n", "empty\nnone\n0\n"),
    ("first\nlast\n", "none\nnone\n"),
    (
        "put 7 70\nfirst\nlast\nput 2 20\nput 11 0\nput 11 110\nfirst\nlast\nlen\n",
        "new\n7 70\n7 70\nnew\nnew\nold 0\n2 20\n11 110\n3\n",
    ),
    (INPUT, OUTPUT),
    (RANKS, RANKED),
    (
        "at 0\nrank 1\nat 18446744073709551615\n",
        "none\nout 0\nnone\n",
    ),
    (
        "put 18446744073709551615 1\nput 0 2\nrank 18446744073709551615\nrank 1\nat 1\nput 0 3\nat 0\nat 2\n",
        "new\nnew\nin 1\nout 1\n18446744073709551615 1\nold 2\n0 3\nnone\n",
    ),
    (
        "put 0 18446744073709551615\nput 18446744073709551615 0\nall\nget 18446744073709551615\nget 0",
        "new\nnew\n0 18446744073709551615,18446744073709551615 0\n0\n18446744073709551615\n",
    ),
    (
        "put 18446744073709551615 18446744073709551615\nput 18446744073709551615 184467440737095516150\nlen",
        "new\nbad\n1\n",
    ),
    (NEIGHBOURS, NEIGHBOURED),
    (
        "put 0 18446744073709551615\nput 18446744073709551615 0\nall\nback\nat 2\nprev 0\nclear\nall\nlen",
        "new\nnew\n0 18446744073709551615,18446744073709551615 0\n18446744073709551615 0,0 18446744073709551615\nnone\nnone\ncleared\nempty\n0\n",
    ),
    (
        "back\nnext 0\nprev 5\nput 5 50\nback\nnext 5\nprev 5\nnext 0\nprev 18446744073709551615\nput 7 70\nput 6 60\nnext 5\nprev 7\nnext 6\nback\n",
        "empty\nnone\nnone\nnew\n5 50\nnone\nnone\n5 50\n5 50\nnew\nnew\n6 60\n6 60\n7 70\n7 70,6 60,5 50\n",
    ),
    (
        "del 5\nput 5 50\ndel 5\ndel 5\nlen\nclear\nput 5 51\ndel 5\n",
        "none\nnew\ngone 50\nnone\n0\ncleared\nnew\ngone 51\n",
    ),
    (
        "put 5 50\nput 6 60\nput 7 70\nrange 6 18446744073709551615\nrange 7 7\nrange 5\nrange 18446744073709551615 18446744073709551615\nrange 1 18446744073709551616\nrange 18446744073709551615 184467440737095516150",
        "new\nnew\nnew\n6 60,7 70\nempty\nbad\nempty\nbad\nbad\n",
    ),
    (
        "put 5 50\nput 6 60\nput 7 70\npage 0 2\npage 1 2\npage 2 2\npage 0 0\npage 9223372036854775808 2\npage 0",
        "new\nnew\nnew\n5 50,6 60\n7 70\nempty\nbad\nempty\nbad\n",
    ),
    (
        "put 1 10\nPUT 1 11\nget 1\n\nget 1\n",
        "new\nbad\n10\nbad\n10\n",
    ),
];

fn examples(process: &mut Process) -> Outcome {
    for (input, output) in EXAMPLES {
        answers(process, input.as_bytes(), output.as_bytes())?;
    }
    Ok(())
}

const BAD_LINES: [&[u8]; 45] = [
    b"",
    b"put  1 2",
    b" len",
    b"len ",
    b"\tlen",
    b"len\t",
    b"PUT 1 2",
    b"Len",
    b"put 1",
    b"get",
    b"put 1 2 3",
    b"get 1 2",
    b"len 0",
    b"first 1",
    b"last ",
    b"First",
    b"lasts",
    b"at",
    b"at ",
    b"at 01",
    b"at 1 2",
    b"At 0",
    b"at 18446744073709551616",
    b"rank",
    b"rank 1 2",
    b"rank 01",
    b"next",
    b"prev 1 2",
    b"back 1",
    b"ranks 1",
    b"del",
    b"del 01",
    b"del 1 2",
    b"clear ",
    b"clear 1",
    b"Clear",
    b"get 01",
    b"get +1",
    b"get -0",
    b"get 1x",
    b"get 18446744073709551616",
    b"put 1 18446744073709551616",
    b"len\r",
    b"get 1\r",
    b"get \xff\x00",
];

// The reply to a bad line is `bad`, and it changes nothing.
fn is_bad(process: &mut Process, line: &[u8]) -> Outcome {
    let input = [line, b"\nlen"].concat();
    answers(process, &input, b"bad\n0\n")
}

fn bad_lines(process: &mut Process) -> Outcome {
    BAD_LINES.iter().try_for_each(|line| is_bad(process, line))
}

// A line of a megabyte has one reply, whatever it begins with.
fn long_line(process: &mut Process) -> Outcome {
    let mut line = b"put 1 1".to_vec();
    line.resize(1_000_000, b'0');
    is_bad(process, &line)
}

// Reads and writes of one byte, of which there are more than 100,000.
fn byte_by_byte(process: &mut Process) -> Outcome {
    let streams = Streams {
        read: 1,
        write: 1,
        ..SOUND
    };
    let input = "get 123\n".repeat(15_000) + "clear\n" + NEIGHBOURS;
    let output = "none\n".repeat(15_000) + "cleared\n" + NEIGHBOURED;
    let (input, output) = (input.as_bytes(), output.as_bytes());
    serve(process, input, streams, WELL, output)
}

// An input; the most bytes of a read and the number of reads; the most bytes of a write and of all
// writes; whether the output can be flushed; and what is written.
type Faulty = (&'static str, u64, u64, u64, u64, bool, &'static str);

const FAULTY: [Faulty; 11] = [
    (INPUT, 1, 1000, 1, 6, true, "new\nne"),
    (INPUT, 100, 1000, 100, 6, true, "new\nne"),
    ("len", 100, 1000, 100, 1, true, "0"),
    (NEIGHBOURS, 1, 1000, 100, 6, true, "new\nne"),
    ("len", 100, 1000, 0, 100, true, ""),
    ("len", 100, 1000, 100, 100, false, "0\n"),
    ("", 100, 1000, 100, 100, false, ""),
    ("len\n", 3, 1, 100, 100, true, ""),
    ("len\nlen\n", 6, 1, 100, 100, true, "0\n"),
    ("len\nlen", 100, 1, 100, 100, true, "0\n"),
    ("len\n", 4, 0, 100, 100, true, ""),
];

// The replies to the lines that were read come before the read that fails. A line that it cuts off has
// no reply.
fn faults(process: &mut Process) -> Outcome {
    for (input, read, reads, write, room, can_flush, written) in FAULTY {
        let streams = Streams {
            read,
            reads,
            write,
            room,
            can_flush,
        };
        let (input, written) = (input.as_bytes(), written.as_bytes());
        serve(process, input, streams, FAULT, written)?;
    }
    Ok(())
}
