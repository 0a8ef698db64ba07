//! The bench, the judge and the rack a second time, written from the request's page alone.

pub mod bench;
pub mod judge;
pub mod left;
pub mod log;
pub mod queue;
pub mod rack;
pub mod runfile;
mod seen;

use bench::Bench;
use runfile::RunFile;

pub const ROW: usize = 67;
pub const TABLE: usize = 8 * ROW;

pub use judge::judge;
pub use left::left;
pub use rack::rack;

/// Runs a file: gives the length of the part of `log` that was written. The report is the number,
/// the entries, the steps and the gone-round takes.
pub fn run(file: &[u8], log: &mut [u8], report: &mut [u16; 4], table: &mut [u16; TABLE]) -> usize {
    *report = [0; 4];
    table.fill(0);
    match finished(file, log.len()) {
        Err(number) => {
            report[0] = number;
            0
        }
        Ok(bench) => {
            *report = bench.report();
            bench.write_table(table);
            bench.write_log(log)
        }
    }
}

fn finished(file: &[u8], room: usize) -> Result<Bench<'_>, u16> {
    let file = RunFile::read(file)?;
    if room < log::length(file.call_count()) {
        return Err(8);
    }
    let mut bench = Bench::new(file);
    bench.run();
    Ok(bench)
}
