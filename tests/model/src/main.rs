//! An independent model of document 01 (the trigger desk) and document 02 up to P7, to test the product against. See README.md.

mod board;
mod check;
mod check_any_log;
mod check_editions;
mod check_history;
mod check_older;
mod check_rules;
mod check_salvage;
mod check_schedules;
mod check_sound;
mod check_split;
mod check_steady;
mod check_store;
mod cover;
mod cover_groups;
mod cover_history;
mod cover_older;
mod cover_rules;
mod cover_salvage;
mod cover_schedules;
mod cover_texts;
mod damage_log;
mod damage_record;
mod damage_text;
mod damage_values;
mod disk;
mod edition;
mod generate;
mod history;
mod journal;
mod merge;
mod older;
mod program;
mod refusal;
mod report;
mod rules;
mod salvage;
mod schedules;
mod settings;
mod sound;
mod steady;
mod store;
mod trigger;

use std::io::Write;
use std::process::ExitCode;
use std::{env, fs};

const USAGE: &str = "model report DIR | rows DIR | edition DIR | history DIR INPUT | salvage DIR OUT | refusal DIR | \
    generate KIND SEED DIR | cover KIND|all FROM TO | check";

fn main() -> ExitCode {
    let arguments: Vec<String> = env::args().skip(1).collect();
    let arguments: Vec<&str> = arguments.iter().map(String::as_str).collect();
    let output = match arguments[..] {
        ["report", dir] => Some(run(dir, |board, _| report::report(board).into_bytes())),
        ["rows", dir] => Some(run(dir, |_, rows| rows)),
        ["edition", dir] => Some(program::edition(&board_set(dir)).into_bytes()),
        ["history", dir, input] => input.parse().ok().map(|input| program::history(&board_set(dir), &run_rec(dir), input)),
        ["salvage", dir, out] => salvage(dir, out),
        ["refusal", dir] => Some(refusal(dir).into_bytes()),
        ["generate", kind, seed, dir] => seed.parse().ok().and_then(|seed| generate(kind, seed, dir)),
        ["cover", kind, from, to] => cover(kind, from, to),
        ["check"] => return check::check(),
        _ => None,
    };
    match output {
        Some(bytes) if std::io::stdout().write_all(&bytes).is_ok() => ExitCode::SUCCESS,
        Some(_) => ExitCode::FAILURE,
        None => {
            eprintln!("{USAGE}");
            ExitCode::from(2)
        }
    }
}

/// "A program reads `board.set` and `run.rec` (one that can't be opened reads as empty) and prints the report, or
/// `refused=N` and a newline with the first refusal's number and nothing else."
fn run(dir: &str, print: fn(&board::Board, Vec<u8>) -> Vec<u8>) -> Vec<u8> {
    match program::run(&board_set(dir), &run_rec(dir), &mut |_, _| {}) {
        Ok((board, rows)) => print(&board, rows),
        Err(refusal) => program::refused(refusal).into_bytes(),
    }
}

fn board_set(dir: &str) -> Vec<u8> {
    fs::read(format!("{dir}/board.set")).unwrap_or_default()
}

fn run_rec(dir: &str) -> Vec<u8> {
    fs::read(format!("{dir}/run.rec")).unwrap_or_default()
}

/// `desk_salvage` "reads `run.rec` alone and writes `salvaged.rec` and `changes.txt` beside it"; here they go to another folder, so
/// that the product's own are not overwritten.
fn salvage(dir: &str, out: &str) -> Option<Vec<u8>> {
    fs::create_dir_all(out).expect("the folder can be made");
    if fs::canonicalize(dir).ok() == fs::canonicalize(out).ok() {
        return None;
    }
    let (salvaged, list) = salvage::salvage(&run_rec(dir), 0);
    fs::write(format!("{out}/salvaged.rec"), salvaged).expect("salvaged.rec can be written");
    fs::write(format!("{out}/changes.txt"), list).expect("changes.txt can be written");
    Some(Vec::new())
}

/// The number of the refusal of `board.set` and what it carries; nothing for good text.
fn refusal(dir: &str) -> String {
    let refusal = edition::read(&board_set(dir)).err();
    refusal.map_or(String::new(), |refusal| format!("{} {refusal:?}\n", refusal.number()))
}

fn generate(kind: &str, seed: usize, dir: &str) -> Option<Vec<u8>> {
    let (text, log) = generate::generate(kind, seed)?;
    fs::create_dir_all(dir).expect("the folder can be made");
    fs::write(format!("{dir}/board.set"), text).expect("board.set can be written");
    fs::write(format!("{dir}/run.rec"), log).expect("run.rec can be written");
    Some(Vec::new())
}

fn cover(kind: &str, from: &str, to: &str) -> Option<Vec<u8>> {
    Some(cover::cover(kind, from.parse().ok()?, to.parse().ok()?)?.into_bytes())
}
