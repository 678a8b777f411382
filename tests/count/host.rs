//! A host of the bench, asked in words: a program that makes the calls in its own language, with that language's own types (tests/hosts).
//!
//! A request is a line: the call's name, then what it takes, each with its name, a number as `n=5`, a list as `blocks:1,4,2,3`; a real number is the number of its bits. The requests up to an empty
//! line are answered at once, by several threads, with a line each, in their order:
//!
//!     accepted LIST ..             for each room and slot, in the order of hosts/bench.h, the entries that are written: a signed one modulo 2^64, a real one by its bits
//!     refused NUMBER INDEX PLACE
//!     beyond                       what is asked cannot be said in the host's own types, as a pool whose lengths do not add up: nothing is compared

use crate::asked::Asked;
use std::fmt::Display;
use std::io::{BufRead, BufReader, Write};
use std::process::{Child, ChildStdin, ChildStdout, Command, Stdio};
use std::thread;

/// A request, by what the call takes.
pub fn request(call: &str, taken: &[&str], asked: &Asked) -> String {
    let words: Vec<String> = taken.iter().map(|kind| said(kind, asked)).collect();
    format!("{call} {}\n", words.join(" "))
}

fn said(kind: &str, asked: &Asked) -> String {
    match kind {
        "head" => format!("n={} flag={} p={} m={}", asked.head.n, asked.head.flag, asked.head.p, asked.head.m),
        "blocks" => list("blocks", &asked.objects),
        "readings" => list("readings", &asked.readings),
        "restraint" => format!("set={} sum={}", asked.set, asked.sum),
        "set" => format!("set={}", asked.set),
        "number" => format!("number={}", asked.number),
        "bytes" => list("bytes", &asked.bytes),
        "second" => list("bytes", &asked.second),
        "names" => list("names", &asked.names),
        "field" => format!("place={} tag={} length={}", asked.place, asked.tag, asked.length),
        "size" => format!("g={}", asked.size),
        "grouping" => {
            let grouping = &asked.grouping;
            let lists = [list("blocks", &grouping.objects), list("groups", &grouping.groups)].join(" ");
            format!("count={} v={} p={} {lists}", grouping.count, grouping.v, grouping.p)
        }
        "sheet" => {
            let sheet = &asked.sheet;
            format!("{} has_spread={} spread={} freedom={}", list("claims", &sheet.claims), sheet.has_spread, sheet.spread.to_bits(), sheet.freedom)
        }
        "practice" => format!("{} start={} width={}", list("truths", &asked.practice.truths), asked.practice.start, asked.practice.width),
        "pool" => format!("{} {}", list("bytes", &asked.pool.bytes), list("lengths", &asked.pool.lengths)),
        _ => panic!("there are no words for {kind}: they are a row here"),
    }
}

fn list<T: Display>(name: &str, entries: &[T]) -> String {
    format!("{name}:{}", commas(entries))
}

/// Entries as they stand in a request and in an answer.
pub fn commas<T: Display>(entries: &[T]) -> String {
    entries.iter().map(T::to_string).collect::<Vec<_>>().join(",")
}

pub struct Host {
    child: Child,
    input: ChildStdin,
    output: BufReader<ChildStdout>,
}

impl Host {
    pub fn start(command: &[String]) -> Host {
        let mut child = Command::new(&command[0]).args(&command[1..]).stdin(Stdio::piped()).stdout(Stdio::piped()).spawn().expect("a host that starts");
        let (input, output) = (child.stdin.take().expect("a pipe"), BufReader::new(child.stdout.take().expect("a pipe")));
        Host { child, input, output }
    }

    /// The answers to some requests, fewer where the host has ended. They are written beside, so that a host may answer before it has read all.
    pub fn answers(&mut self, requests: &[&str]) -> Vec<String> {
        let Host { input, output, .. } = self;
        thread::scope(|scope| {
            scope.spawn(|| {
                // A host that is gone is seen by its missing answers.
                let _ = input.write_all((requests.concat() + "\n").as_bytes()).and_then(|()| input.flush());
            });
            output.lines().take(requests.len()).map_while(Result::ok).collect()
        })
    }

    /// Whether it ends well when nothing more is asked.
    pub fn ended(self) -> bool {
        let Host { mut child, input, .. } = self;
        drop(input);
        child.wait().is_ok_and(|status| status.success())
    }
}
