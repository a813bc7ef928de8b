//! Runs a program on fresh call lists beside the oracle and compares every byte. The first
//! difference is shrunk to a short list and printed.
//! Usage: compare [--rewrite | --published FILE] [LISTS [SEED]] -- COMMAND..
//! With --rewrite the program is one that writes the lists anew, as `rewrite` does. With --published the part
//! of a list before it leaves demand 2 (request Q-5) is compared with what the program FILE, `unlimited`,
//! answers, and the rest with the oracle.
//!
//! Exit status: 0 if all agree, 1 if a list differs, 2 if the comparison cannot be made.

use std::env;
use std::io::{self, Write};
use std::process::{Command, ExitCode, Stdio};
use std::{slice, thread};

mod answer_line;
#[path = "../vendor/bandwidth.rs"]
#[rustfmt::skip]
#[allow(dead_code)]
mod bandwidth;
mod bwe;
mod call_line;
mod instant;
#[allow(dead_code)]
mod kinds;
mod limit;
mod line;
#[allow(dead_code)]
mod list;
mod random;
mod shrink;
mod stream;
mod tie;

use answer_line::ANSWER_LENGTH;
use line::Profile;

struct Settings {
    lists: u64,
    seed: u64,
    command: Vec<String>,
    published: Option<String>,
    oracle: fn(&[u8]) -> Expected,
}

/// What a program has to print, and how many lines come before the list leaves demand 2, if it does.
struct Expected {
    text: Vec<u8>,
    before: Option<usize>,
}

/// How many of a list's lines a controller by packets answers.
fn by_packets(list: &[u8]) -> usize {
    let mut program = bwe::call_list::Program::new();
    let mut is_by_packets = |line: &&[u8]| {
        program.answer(line);
        program.profile() == Profile::Packets
    };
    list.split_inclusive(|&byte| byte == b'\n')
        .map(|line| line.strip_suffix(b"\n").unwrap_or(line))
        .filter(|line| is_by_packets(line))
        .count()
}

fn settings() -> Option<Settings> {
    let arguments: Vec<String> = env::args().skip(1).collect();
    let split = arguments.iter().position(|argument| argument == "--")?;
    let command = arguments[split + 1..].to_vec();
    let mut settings =
        Settings { lists: 1_000, seed: 1, command, published: None, oracle: answered };
    let numbers = match &arguments[..split] {
        [option, numbers @ ..] if option == "--rewrite" => {
            settings.oracle = rewritten;
            numbers
        }
        [option, file, numbers @ ..] if option == "--published" => {
            settings.published = Some(file.clone());
            numbers
        }
        numbers => numbers,
    };
    let numbers: Result<Vec<u64>, _> = numbers.iter().map(|text| text.parse()).collect();
    match *numbers.ok()? {
        [] => {}
        [lists] => settings.lists = lists,
        [lists, seed] => (settings.lists, settings.seed) = (lists, seed),
        _ => return None,
    }
    // A comparison of no list would always agree.
    (settings.lists != 0 && !settings.command.is_empty()).then_some(settings)
}

fn answered(list: &[u8]) -> Expected {
    let mut program = bwe::call_list::Program::new();
    let mut text = vec![];
    let (mut lines, mut before) = (0, None);
    // What was changed before, by the list's making.
    limit::changed();
    let answer = |line: &[u8]| {
        let answer = program.answer(line);
        if limit::changed() && before.is_none() {
            before = Some(lines);
        }
        lines += 1;
        answer
    };
    stream::run(list, &mut text, answer).expect("a Vec grows");
    Expected { text, before }
}

fn rewritten(list: &[u8]) -> Expected {
    let mut text = vec![];
    stream::run(list, &mut text, line::read).expect("a Vec grows");
    Expected { text, before: None }
}

/// The oracle's text, with the published build's up to where the list leaves.
fn expected(settings: &Settings, list: &[u8]) -> io::Result<Expected> {
    let Expected { text, before } = (settings.oracle)(list);
    let Some(published) = &settings.published else {
        return Ok(Expected { text, before });
    };
    let mut joined = run(slice::from_ref(published), list)?;
    if joined.len() != text.len() {
        return Err(io::Error::other(format!("{published}: not the published build's answers")));
    }
    if let Some(lines) = before {
        let end = lines * (ANSWER_LENGTH + 1);
        joined.truncate(end);
        joined.extend_from_slice(&text[end..]);
    }
    Ok(Expected { text: joined, before })
}

/// What the command prints for a list; a failure is an answer too, and a wrong one.
fn run(command: &[String], list: &[u8]) -> io::Result<Vec<u8>> {
    let mut child = Command::new(&command[0])
        .args(&command[1..])
        .stdin(Stdio::piped())
        .stdout(Stdio::piped())
        .spawn()
        .map_err(|error| io::Error::other(format!("{}: {error}", command[0])))?;
    let mut stdin = child.stdin.take().expect("a piped stdin");
    let text = list.to_vec();
    // A program that ends early closes the pipe; its output tells.
    let feeder = thread::spawn(move || drop(stdin.write_all(&text)));
    let output = child.wait_with_output()?;
    feeder.join().expect("the feeder only writes");
    let mut answers = output.stdout;
    if !output.status.success() {
        answers.extend_from_slice(format!("[{}]", output.status).as_bytes());
    }
    Ok(answers)
}

fn differs(settings: &Settings, list: &[u8]) -> io::Result<bool> {
    Ok(run(&settings.command, list)? != expected(settings, list)?.text)
}

/// How many lines were compared, before and after their lists left, and how many lists left.
#[derive(Default)]
struct Counts {
    before: usize,
    after: usize,
    left: usize,
    by_packets: usize,
}

impl Counts {
    fn add(&mut self, list: &[u8], before: Option<usize>) {
        let lines = list.split_inclusive(|&byte| byte == b'\n').count();
        let inside = before.unwrap_or(lines);
        self.before += inside;
        self.after += lines - inside;
        self.left += usize::from(before.is_some());
        self.by_packets += by_packets(list);
    }

    fn show(&self, settings: &Settings) {
        let Counts { before, after, left, by_packets } = self;
        let (lists, seed, lines) = (settings.lists, settings.seed, before + after);
        println!("{lists} lists from seed {seed}, {lines} lines: no difference");
        println!("{} lines by bytes, {by_packets} by packets", lines - by_packets);
        if settings.published.is_some() {
            println!("{before} lines as the published build, {after} as the departed one; {left} lists leave");
        }
    }
}

fn show(what: &str, text: &[u8]) {
    println!("{what}:");
    print!("{}", String::from_utf8_lossy(text));
    if !text.ends_with(b"\n") {
        println!("[no newline]");
    }
}

fn compare(settings: &Settings) -> io::Result<bool> {
    let mut counts = Counts::default();
    for seed in settings.seed..settings.seed + settings.lists {
        let (kind, list) = kinds::any(seed);
        let wanted = expected(settings, &list)?;
        counts.add(&list, wanted.before);
        if run(&settings.command, &list)? == wanted.text {
            continue;
        }
        println!("a difference: generate {kind} {seed}");
        let short = shrink::shrink(&list, |list| differs(settings, list))?;
        show("shortest list found", &short);
        show_expected(settings, &expected(settings, &short)?);
        show("the command's answers", &run(&settings.command, &short)?);
        return Ok(false);
    }
    counts.show(settings);
    Ok(true)
}

fn show_expected(settings: &Settings, expected: &Expected) {
    show("the oracle's answers", &expected.text);
    match (&settings.published, expected.before) {
        (None, _) => {}
        (_, None) => println!("all of them the published build's"),
        (_, Some(lines)) => println!("after {lines} lines the departed build's"),
    }
}

fn main() -> ExitCode {
    let Some(settings) = settings() else {
        eprintln!("usage: compare [--rewrite | --published FILE] [LISTS [SEED]] -- COMMAND..");
        return ExitCode::from(2);
    };
    match compare(&settings) {
        Ok(true) => ExitCode::SUCCESS,
        Ok(false) => ExitCode::FAILURE,
        Err(error) => {
            eprintln!("{error}");
            ExitCode::from(2)
        }
    }
}
