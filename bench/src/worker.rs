//! The same program built for this machine's own processor, as a process that times its own Rust code.
use crate::row::{Row, Side, Work};
use std::io::{BufRead, BufReader, Write};
use std::process::{Child, ChildStdin, ChildStdout, Command, Stdio};

/// The other build, from the side that asks.
pub struct Worker {
    child: Child,
    ask: ChildStdin,
    answers: BufReader<ChildStdout>,
}

impl Worker {
    pub fn start(program: &str, archive: &str) -> Worker {
        let mut child = Command::new(program)
            .arg("worker")
            .stdin(Stdio::piped())
            .stdout(Stdio::piped())
            .spawn()
            .expect("the other build starts");
        let ask = child.stdin.take().expect("piped");
        let mut answers = BufReader::new(child.stdout.take().expect("piped"));
        let mut theirs = String::new();
        answers.read_line(&mut theirs).expect("the worker answers");
        assert_eq!(theirs.trim(), archive, "both builds have one archive");
        Worker { child, ask, answers }
    }

    pub fn time(&mut self, row: usize) -> f64 {
        writeln!(self.ask, "{row}").expect("the worker listens");
        let mut line = String::new();
        self.answers.read_line(&mut line).expect("the worker answers");
        line.trim().parse().expect("nanoseconds")
    }

    pub fn stop(self) {
        let Worker { mut child, ask, .. } = self;
        drop(ask);
        child.wait().expect("the worker ends");
    }
}

/// What the other build does: it names its archive, and times the rows that it is asked for.
pub fn work(rows: &[Row], archive: &str) {
    println!("{archive}");
    let mut made: Option<(usize, Work, u32)> = None;
    for line in std::io::stdin().lines() {
        let i: usize = line.expect("a line").parse().expect("a row's number");
        if made.as_ref().map_or(true, |&(number, ..)| number != i) {
            let work = rows[i].work();
            work.compare();
            let calls = work.calls(Side::Rust);
            made = Some((i, work, calls));
        }
        let (_, work, calls) = made.as_ref().expect("made above");
        println!("{}", work.time(Side::Rust, *calls));
    }
}
