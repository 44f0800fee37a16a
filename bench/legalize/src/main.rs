//! Reads a job from standard input, carries it out, and prints what comes of each record, where the cells
//! stand then, and what they cost.

mod floor;
mod job;
mod measure;
mod setting;

use std::io::{self, Read, Write};
use std::process::ExitCode;

use floor::{Floor, Refusal, Seat};
use job::{LARGEST_JOB, Reader, Record};
use measure::{Measure, Plain, Squared};

fn main() -> io::Result<ExitCode> {
    let mut job = Vec::new();
    io::stdin().lock().read_to_end(&mut job)?;
    let mut out = Vec::new();
    match job.first() {
        _ if job.len() > LARGEST_JOB => writeln!(out, "0 bad 12 0")?,
        None => writeln!(out, "0 bad 15 0")?,
        Some(0) => carry_out::<Squared>(&job, &mut out)?,
        Some(1) => carry_out::<Plain>(&job, &mut out)?,
        Some(_) => writeln!(out, "0 bad 19 0")?,
    }
    io::stdout().lock().write_all(&out)?;
    if job.is_empty() {
        eprintln!("the input is empty: a job is expected");
        return Ok(ExitCode::FAILURE);
    }
    Ok(ExitCode::SUCCESS)
}

/// Carries out the records of a job, and writes all lines.
fn carry_out<M: Measure>(job: &[u8], out: &mut Vec<u8>) -> io::Result<()> {
    let mut floor = Floor::<M>::new();
    let mut reader = Reader::new(job);
    let mut index = 0;
    while let Some(record) = reader.next() {
        match record {
            Ok(Record::Row(row)) => put_answer(out, index, floor.add_row(row))?,
            Ok(Record::Place(cell, name)) => put_seat(out, index, floor.place(cell), name)?,
            Ok(Record::Try(cell, name)) => put_seat(out, index, floor.try_place(cell), name)?,
            Ok(Record::Withdraw(number)) => put_answer(out, index, floor.withdraw(number))?,
            Err(fault) => {
                writeln!(out, "{index} bad {} {}", fault.number, fault.place)?;
                break;
            }
        }
        index += 1;
    }
    for (cell, line, site) in floor.seats() {
        writeln!(out, "{} {line} {site}", cell.number)?;
    }
    writeln!(out, "cost {}", floor.cost())
}

fn put_answer(out: &mut Vec<u8>, index: usize, answer: Result<(), Refusal>) -> io::Result<()> {
    match answer {
        Ok(()) => writeln!(out, "{index} ok"),
        Err(number) => writeln!(out, "{index} no {number}"),
    }
}

fn put_seat(
    out: &mut Vec<u8>,
    index: usize,
    answer: Result<Seat, Refusal>,
    name: &[u8],
) -> io::Result<()> {
    match answer {
        Ok(Seat { line, site, rise }) => write!(out, "{index} ok {line} {site} {rise}")?,
        Err(number) => write!(out, "{index} no {number}")?,
    }
    if !name.is_empty() {
        out.push(b' ');
        out.extend_from_slice(name);
    }
    out.push(b'\n');
    Ok(())
}
