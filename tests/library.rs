//! The library, behind a program that makes its calls (serve.c): requests go to it in batches, and each answer is compared, byte for
//! byte, with what the reference expects.

use std::collections::BTreeMap;
use std::io::{Read, Write};
use std::process::{Child, Command, Stdio};

use crate::reference::Refusal;

/// A request's or an answer's bytes.
#[derive(Clone, Default)]
pub struct Message(pub Vec<u8>);

impl Message {
    pub fn call(call: u8) -> Message {
        Message(vec![call])
    }

    pub fn number(mut self, n: u64) -> Message {
        self.0.extend(n.to_le_bytes());
        self
    }

    pub fn numbers(self, numbers: &[u64]) -> Message {
        numbers.iter().fold(self, |m, n| m.number(*n))
    }

    pub fn bytes(mut self, bytes: &[u8]) -> Message {
        self.0.extend(bytes);
        self
    }

    /// For a call that is asked by its numbers, and by the header's structure of them.
    pub fn twice(self) -> Message {
        let once = self.0.clone();
        self.bytes(&once)
    }

    pub fn lent(self, bytes: &[u8]) -> Message {
        self.number(bytes.len() as u64).bytes(bytes)
    }
}

/// What a call returns: 0, or the refusal's number in the low 8 bits with its place in the 56 above.
pub fn returned<T>(answer: &Result<T, Refusal>) -> u64 {
    match answer {
        Ok(_) => 0,
        Err(r) => r.number as u64 + 256 * r.place as u64,
    }
}

struct Expected {
    call: u8,
    request: Message,
    answer: Message,
}

pub struct Library {
    child: Child,
    waiting: Vec<Expected>,
    batch: Vec<u8>,
    /// How often each call returned each number.
    pub seen: BTreeMap<(char, u64), u64>,
    pub calls: u64,
    pub differences: u64,
    round: u64,
}

const BATCH_BYTES: usize = 1 << 18;

impl Library {
    pub fn start(command: &[String]) -> Library {
        let child = Command::new(&command[0])
            .args(&command[1..])
            .stdin(Stdio::piped())
            .stdout(Stdio::piped())
            .spawn()
            .expect("the program that makes the calls starts");
        Library { child, waiting: Vec::new(), batch: Vec::new(), seen: BTreeMap::new(), calls: 0, differences: 0, round: 0 }
    }

    /// Names the round that the next calls belong to.
    pub fn round(&mut self, round: u64) {
        self.round = round;
    }

    /// Lends a session table.
    pub fn lend(&mut self, table: &[u8]) {
        let m = Message::call(b'L').lent(table);
        self.batch.extend(&m.0);
    }

    /// Asks for a call whose answer begins with what it returns.
    pub fn expect(&mut self, request: Message, answer: Message) {
        self.batch.extend(&request.0);
        self.waiting.push(Expected { call: request.0[0], request, answer });
        if self.batch.len() > BATCH_BYTES {
            self.compare();
        }
    }

    /// Sends what is waiting, and compares the answers.
    pub fn compare(&mut self) {
        self.batch.push(b'F');
        let stdin = self.child.stdin.as_mut().unwrap();
        stdin.write_all(&self.batch).expect("the program takes requests");
        stdin.flush().unwrap();
        self.batch.clear();
        for e in std::mem::take(&mut self.waiting) {
            let got = self.answer();
            let number = u64::from_le_bytes(got[..8].try_into().unwrap()) % 256;
            *self.seen.entry((e.call as char, number)).or_default() += 1;
            self.calls += 1;
            if got != e.answer.0 {
                self.differences += 1;
                if self.differences <= 5 {
                    report(self.round, &e, &got);
                }
            }
        }
    }

    fn answer(&mut self) -> Vec<u8> {
        let stdout = self.child.stdout.as_mut().unwrap();
        let mut count = [0; 8];
        stdout.read_exact(&mut count).expect("the program answers");
        let mut bytes = vec![0; u64::from_le_bytes(count) as usize];
        stdout.read_exact(&mut bytes).expect("the program answers");
        bytes
    }
}

impl Drop for Library {
    fn drop(&mut self) {
        drop(self.child.stdin.take());
        let _ = self.child.wait();
    }
}

fn shown(bytes: &[u8]) -> String {
    let text: String = bytes.iter().take(600).flat_map(|b| std::ascii::escape_default(*b)).map(char::from).collect();
    format!("{} bytes: {text}", bytes.len())
}

fn report(round: u64, e: &Expected, got: &[u8]) {
    println!("difference in round {round}, call {}", e.call as char);
    println!("  asked    {}", shown(&e.request.0));
    println!("  expected {}", shown(&e.answer.0));
    println!("  answered {}", shown(got));
}
