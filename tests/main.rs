//! Compares the library with the reference on seeded inputs: every answer, and every byte of what is lent.
//! main ROUNDS COMMAND.. : COMMAND runs serve.c's program.

mod calls;
mod examples;
mod generate;
mod library;
mod random;
mod reference;
mod reports;
mod starts;
mod tables;

use library::Library;
use random::Random;

/// The numbers that each call must have returned in a run, so that no refusal goes untried.
const RETURNS: [(char, &[u64]); 17] = [
    ('J', &[0, 1, 2, 3, 4, 5, 6, 15, 16, 17, 18]),
    ('S', &[0, 1, 3, 4, 5, 11, 15, 16, 17, 18]),
    ('T', &[0, 1]),
    ('B', &[0, 5, 7, 19]),
    ('D', &[0, 1]),
    ('W', &[0, 5, 7, 8]),
    ('R', &[0, 7]),
    ('P', &[0, 7, 8, 11]),
    ('Q', &[0, 7, 8, 11]),
    ('N', &[0, 11]),
    ('O', &[0, 8, 11]),
    ('m', &[0, 11, 13]),
    ('p', &[0, 9, 11, 12, 13]),
    ('u', &[0, 13, 14]),
    ('a', &[0, 5, 7, 10, 13]),
    ('c', &[0, 8, 10, 11, 13]),
    ('i', &[0, 1]),
];

fn main() {
    let arguments: Vec<String> = std::env::args().skip(1).collect();
    let rounds: u64 = arguments[0].parse().expect("the number of rounds");
    let mut library = Library::start(&arguments[1..]);
    let examples = examples::all(&mut library);
    reports::every_change(&mut library);
    let mut decided = starts::Decided::default();
    for round in 1..=rounds {
        library.round(round);
        let mut r = Random::new(round);
        calls::round(&mut r, &mut library);
        tables::round(&mut r, &mut library);
        reports::round(&mut r, &mut library);
        starts::round(&mut r, &mut library, &mut decided);
        library.compare();
    }
    let mut untried = 0;
    for (call, numbers) in RETURNS {
        let counts: Vec<String> = numbers.iter().map(|n| format!("{n}: {}", library.seen.get(&(call, *n)).unwrap_or(&0))).collect();
        untried += numbers.iter().filter(|n| !library.seen.contains_key(&(call, **n))).count();
        println!("{:<18} {}", name(call), counts.join("  "));
    }
    println!("{:<18} due: {}  not due: {}", "start clauses", decided.due, decided.not_due);
    untried += usize::from(decided.due == 0) + usize::from(decided.not_due == 0);
    println!("{} calls in {rounds} rounds, {examples} examples, {} differences, {untried} answers untried", library.calls, library.differences);
    if library.differences > 0 || untried > 0 {
        std::process::exit(1);
    }
}

fn name(call: char) -> &'static str {
    match call {
        'J' => "rb_read_job",
        'S' => "rb_read_statement",
        'T' => "rb_is_text_at",
        'B' => "rb_is_due",
        'D' => "rb_is_real_date",
        'W' => "rb_write_record",
        'R' => "rb_read_record",
        'P' => "rb_read_report",
        'Q' => "rb_write_report",
        'N' => "rb_read_file_name",
        'O' => "rb_write_file_name",
        'm' => "rb_table_make",
        'p' => "rb_table_place",
        'u' => "rb_table_take_up",
        'a' => "rb_table_answer",
        'c' => "rb_table_collect",
        _ => "rb_is_sound",
    }
}
