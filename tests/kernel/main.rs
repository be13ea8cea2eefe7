//! The Linux kernel as a peer of the proved station: what it runs and what it expects is in README.md.
//!
//!     kernel                       all scenarios against the kernel; SKIPPED where there is none to be had
//!     kernel --captures DIR        makes the captures of tests/captures
//!     kernel --captures-check DIR  makes them again, as far as they can be, and compares
//!     kernel --datagrams FILE      the datagrams of a capture to 10.0.0.2, back to back
//!     kernel --show FILE           a capture as text

mod acts;
mod bridge;
mod captures;
mod checks;
mod compare;
mod counts;
mod cuts;
mod foreign;
mod older;
mod opening;
mod pair;
mod pcap;
mod recovery;
mod runner;
mod scripts;
mod station;
mod strays;
mod strays_to_kernel;
mod strays_to_us;
mod sys;
#[path = "../../crates/boundary/tabor.rs"]
mod tabor;
mod wire;
mod world;
mod wrapped;

use std::path::Path;
use std::process::ExitCode;
use sys::NoRig;

const USAGE: &str = "usage: kernel [--captures DIR | --captures-check DIR | --datagrams FILE | --show FILE]";

fn main() -> ExitCode {
    let args: Vec<String> = std::env::args().skip(1).collect();
    let args: Vec<&str> = args.iter().map(String::as_str).collect();
    match args[..] {
        [] => ended(runner::run()),
        ["--captures", dir] => ended(captures::make(Path::new(dir))),
        ["--captures-check", dir] => ended(captures::check(Path::new(dir)).map_err(NoRig::Broken)),
        ["--datagrams", file] => ended(captures::stream(Path::new(file)).map_err(NoRig::Broken)),
        ["--show", file] => ended(captures::show(Path::new(file)).map_err(NoRig::Broken)),
        _ => ended(Err(NoRig::Broken(USAGE.into()))),
    }
}

/// A machine that refuses the rig has not failed it; the line says that nothing was shown.
fn ended(result: Result<(), NoRig>) -> ExitCode {
    match result {
        Ok(()) => ExitCode::SUCCESS,
        Err(NoRig::Refused(reason)) => {
            println!("SKIPPED: kernel: {reason}");
            ExitCode::SUCCESS
        }
        Err(NoRig::Broken(reason)) => {
            eprintln!("kernel: {reason}");
            ExitCode::FAILURE
        }
    }
}
