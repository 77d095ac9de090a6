//! Watches standard input by a list, with the fastest engine that the list admits.
//!
//!     cargo run --example input RULES < FLOW
//!
//! Writes a line for each pair, signature and offset, and last `end` and the offset, or `refused`
//! and the number. The exit status is 0 where the flow ended, 1 where it was refused, 2 where a
//! file could not be read or a line not be written.

use std::io::{self, Write};
use std::process::ExitCode;
use watch::{Engine, Flow, FlowReader, Index, List, ReadError, Record, Refusal};

/// Feeds standard input to a flow by any engine, and writes a line for each pair. Answers the
/// offset at its end, or the refusal.
fn watch<E: Engine>(engine: &E, flow: E::Flow, out: &mut impl Write) -> io::Result<Result<u32, Refusal>> {
    let mut reader = FlowReader::new(engine, flow, io::stdin().lock());
    for pair in &mut reader {
        match pair {
            Ok(pair) => writeln!(out, "{pair}")?,
            Err(ReadError::Feed(error)) => return Ok(Err(error.refusal())),
            Err(error) => return Err(error.into()),
        }
    }
    Ok(Ok(reader.into_parts().0.offset()))
}

/// Watches by the list in some bytes: by its index, or where that would be too large by itself.
fn watched(rules: &[u8], out: &mut impl Write) -> io::Result<Result<u32, Refusal>> {
    let list = match List::check(rules) {
        Ok(list) => list,
        Err(refusal) => return Ok(Err(refusal)),
    };
    let mut told = Vec::new();
    let flow = Flow::open_all(&list, |pair| told.push(pair));
    told.iter().try_for_each(|pair| writeln!(out, "{pair}"))?;
    match Index::prepare(&list) {
        Ok(prepared) => watch(&prepared.index(), flow, out),
        Err(_) => watch(&list, flow, out),
    }
}

fn main() -> ExitCode {
    let named: Vec<_> = std::env::args_os().skip(1).collect();
    if named.len() != 1 {
        eprintln!("usage: input RULES < FLOW");
        return ExitCode::from(2);
    }
    let mut out = io::BufWriter::new(io::stdout().lock());
    let ended = std::fs::read(&named[0]).and_then(|rules| {
        let ended = watched(&rules, &mut out)?;
        match ended {
            Ok(offset) => writeln!(out, "end {offset}")?,
            Err(refusal) => writeln!(out, "refused {}", refusal.number())?,
        }
        out.flush()?;
        Ok(ended.is_ok())
    });
    match ended {
        Ok(true) => ExitCode::SUCCESS,
        Ok(false) => ExitCode::from(1),
        Err(error) => {
            eprintln!("input: {error}");
            ExitCode::from(2)
        }
    }
}
