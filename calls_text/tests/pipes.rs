//! The calls program where input comes in portions, nobody reads the output, or reading fails.

mod common;

use std::fs::File;
use std::io::{BufRead, BufReader, Write};
use std::os::unix::process::ExitStatusExt;
use std::process::{Child, ChildStdin, Command, ExitStatus, Stdio};
use std::sync::mpsc::channel;
use std::thread;
use std::time::Duration;

use calls_text::kinds::Form;
use common::{assert_lines, end, example, program, repository, run, through_pipe, DEADLINE};
use model::program::encode;
use model::random::Random;

const BROKEN_PIPE: i32 = 13;

/// Writes portions of the sizes that are asked for, with a pause after each, so that reads are short.
fn in_portions(
    input: Vec<u8>,
    mut size: impl FnMut() -> usize,
    pause: Duration,
) -> impl FnOnce(ChildStdin) {
    move |mut pipe| {
        let mut left = &input[..];
        while !left.is_empty() {
            let (portion, rest) = left.split_at(size().min(left.len()));
            // A program that has met its 9 reads no further.
            if pipe.write_all(portion).is_err() {
                return;
            }
            left = rest;
            thread::sleep(pause);
        }
    }
}

#[test]
fn a_short_read_is_not_the_end() {
    let pause = Duration::from_micros(300);
    for name in ["each-kind", "wrong-length", "cut"] {
        let input = example(name);
        let expected = model::program::run(&input);
        for size in [1, 3, 5, 7] {
            let output = through_pipe(Form::Plain, in_portions(input.clone(), move || size, pause));
            assert_lines(&format!("{name} in portions of {size}"), &output, &expected);
        }
    }
}

#[test]
fn random_portions_with_pauses() {
    for seed in 0..12 {
        println!("seed {seed}");
        let mut random = Random::new(seed);
        let input = model::generate::file::file(&mut random, 400);
        let expected = model::program::run(&input);
        let size = move || 1 + random.below(60) as usize;
        let output = through_pipe(
            Form::Plain,
            in_portions(input, size, Duration::from_micros(200)),
        );
        assert_lines(&format!("seed {seed}"), &output, &expected);
    }
}

/// A pause in the middle of a record is not its end.
#[test]
fn a_long_pause_inside_a_record() {
    let input = example("worked");
    let expected = model::program::run(&input);
    for at in [1, 3, 19, 21, 23, 25, 31] {
        let mut first = true;
        let size = move || {
            if std::mem::take(&mut first) {
                at
            } else {
                usize::MAX
            }
        };
        let output = through_pipe(
            Form::Plain,
            in_portions(input.clone(), size, Duration::from_millis(60)),
        );
        assert_lines(&format!("a pause after {at} bytes"), &output, &expected);
    }
}

/// More records than any buffer takes; tells whether the program stopped reading before their end.
fn flood(mut pipe: ChildStdin) -> bool {
    let records = encode(9, &[]).repeat(1000);
    (0..16_000).any(|_| pipe.write_all(&records).is_err())
}

/// A program that nobody reads any more must end by itself, and not only with its input.
fn ends_under_flood(command: &mut Command, reader: fn(&mut Child)) {
    let child = command.stdin(Stdio::piped()).spawn();
    let mut child = child.expect("the program starts");
    let input = child.stdin.take().expect("a pipe");
    let feeder = thread::spawn(move || flood(input));
    reader(&mut child);
    ended_well(end(&mut child, DEADLINE));
    let stopped = feeder.join().expect("the feeder ends with the program");
    assert!(stopped, "the program read on though its output failed");
}

/// Takes one line and closes the output.
fn one_line(child: &mut Child) {
    let output = child.stdout.take().expect("a pipe");
    let (send, received) = channel();
    thread::spawn(move || {
        let mut line = String::new();
        let read = BufReader::new(output).read_line(&mut line);
        send.send(read.map(|_| line))
    });
    let Ok(line) = received.recv_timeout(DEADLINE) else {
        child.kill().expect("a running program");
        panic!("no line within {DEADLINE:?}");
    };
    assert_eq!(line.expect("a line"), "9 1\n");
}

fn ended_well(status: ExitStatus) {
    let well = status.success() || status.signal() == Some(BROKEN_PIPE);
    assert!(well, "the program ended with {status}");
}

#[test]
fn a_closed_output_ends_the_run() {
    let mut command = Command::new(program(Form::Plain));
    ends_under_flood(command.stdout(Stdio::piped()), one_line);
}

/// Where the signal is ignored, writing fails instead.
#[test]
fn a_closed_output_without_the_signal_ends_the_run() {
    let mut shell = Command::new("sh");
    let command = shell.args(["-c", "trap '' PIPE; exec \"$0\""]);
    let command = command.arg(program(Form::Plain)).stdout(Stdio::piped());
    ends_under_flood(command, one_line);
}

#[test]
fn a_full_disk_ends_the_run() {
    let full = File::create("/dev/full").expect("/dev/full");
    ends_under_flood(Command::new(program(Form::Plain)).stdout(full), |_| ());
}

#[test]
fn a_read_error_ends_the_run() {
    let folder = File::open(repository("examples")).expect("a folder");
    let ran = run(
        Command::new(program(Form::Plain)).stdin(folder),
        DEADLINE,
        |_| (),
    );
    ended_well(ran.status);
    let mut shell = Command::new("sh");
    shell
        .args(["-c", "exec \"$0\" <&-"])
        .arg(program(Form::Plain));
    ended_well(run(&mut shell, DEADLINE, |_| ()).status);
}
