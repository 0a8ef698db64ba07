//! Compares the bench, the judge and the rack here with another program's, case by case.

mod aimed;
mod cases;
mod child;
mod damage;
mod edits;
mod file_edits;
mod files;
mod invented;
mod layout;
mod log_edits;
mod logs;
mod make;
mod mix;
mod orders;
mod racks;
mod random;
mod replies;
mod schedules;
mod show;
mod shrink;
mod worked;

use cases::Case;
use child::Child;
use make::Maker;
use std::io::{self, Read, Write};
use std::process::ExitCode;

const USAGE: &str = "second worked              checks the worked runs against this side
second make COUNT SEED     writes the cases of a seed
second racks COUNT SEED    writes the racks of a seed
second orders              writes all orders of some small files
second reply               reads cases, writes this side's replies
second explain PROGRAM..   reads cases, shows the first to which the program replies otherwise";

fn main() -> ExitCode {
    let arguments: Vec<String> = std::env::args().skip(1).collect();
    let words: Vec<&str> = arguments.iter().map(String::as_str).collect();
    let done = match words[..] {
        ["worked"] => worked(),
        ["make", count, seed] => {
            numbers(count, seed).and_then(|(count, seed)| make(|maker| maker.of_seed(count, seed)))
        }
        ["racks", count, seed] => numbers(count, seed)
            .and_then(|(count, seed)| make(|maker| maker.racks_of_seed(count, seed))),
        ["orders"] => make(orders::all_orders),
        ["reply"] => reply(),
        ["explain", _, ..] => explain(arguments[1..].to_vec()),
        _ => Err(io::Error::other(USAGE)),
    };
    match done {
        Ok(true) => ExitCode::SUCCESS,
        Ok(false) => ExitCode::from(1),
        Err(error) => {
            eprintln!("{error}");
            ExitCode::from(2)
        }
    }
}

fn numbers(count: &str, seed: &str) -> io::Result<(usize, u64)> {
    match (count.parse(), seed.parse()) {
        (Ok(count), Ok(seed)) => Ok((count, seed)),
        _ => Err(io::Error::other("COUNT and SEED are numbers")),
    }
}

fn worked() -> io::Result<bool> {
    let differences = worked::differences();
    for difference in &differences {
        print!("{difference}");
    }
    Ok(differences.is_empty())
}

type Out = io::BufWriter<io::Stdout>;

fn make(fill: impl FnOnce(&mut Maker<Out>) -> io::Result<()>) -> io::Result<bool> {
    let mut maker = Maker::new(io::BufWriter::new(io::stdout()));
    fill(&mut maker)?;
    let mix = maker.finish()?;
    eprint!("{mix}");
    if let Some(case) = &mix.faulted {
        eprintln!("of a run without gone-round takes the judge finds fault with the log, or the log leaves other nodes than the table:");
        eprint!("{}", show::show(case));
    }
    Ok(mix.faulted.is_none())
}

fn cases_of_input() -> io::Result<Vec<Case>> {
    let mut bytes = Vec::new();
    io::stdin().read_to_end(&mut bytes)?;
    Case::take_all(&bytes).ok_or_else(|| io::Error::other("these are no cases"))
}

fn reply() -> io::Result<bool> {
    let mut out = io::BufWriter::new(io::stdout());
    for case in cases_of_input()? {
        writeln!(out, "{}", replies::reply(&case))?;
    }
    out.flush()?;
    Ok(true)
}

fn explain(command: Vec<String>) -> io::Result<bool> {
    let child = Child { command };
    let mut cases = cases_of_input()?;
    let Some((index, found)) = child.first_difference(&cases)? else {
        return Ok(true);
    };
    println!("the replies differ first at case {index}; made smaller, it is");
    let (case, found) = shrink::shrink(&child, cases.swap_remove(index), found)?;
    let own = replies::reply(&case);
    print!("{}", show::show(&case));
    println!("this side:  {own}\nother side: {found}");
    print!("{}", show::show_logs(&own, &found));
    Ok(false)
}
