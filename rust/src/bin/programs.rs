//! Times whole programs on one text: TEXT PROGRAM [PROGRAM ..]. Each is started as a process,
//! in turn, with the text as its input; what it prints is thrown away.

use std::env;
use std::fs::File;
use std::io;
use std::process::{exit, Command, Stdio};
use std::time::{Duration, Instant};

const WARM_UP: usize = 5;
const RUNS: usize = 50;

/// From the start of the process to its end.
fn run(program: &str, text: &str) -> io::Result<Duration> {
    let mut command = Command::new(program);
    command.stdin(File::open(text)?).stdout(Stdio::null());
    let start = Instant::now();
    let status = command.status()?;
    let time = start.elapsed();
    match status.success() {
        true => Ok(time),
        false => Err(io::Error::other(status.to_string())),
    }
}

/// The times of each program, in rising order.
fn times(programs: &[String], text: &str) -> io::Result<Vec<Vec<Duration>>> {
    let mut times = vec![Vec::with_capacity(RUNS); programs.len()];
    for round in 0..WARM_UP + RUNS {
        for (program, times) in programs.iter().zip(&mut times) {
            let time = run(program, text)?;
            if round >= WARM_UP {
                times.push(time);
            }
        }
    }
    times.iter_mut().for_each(|times| times.sort());
    Ok(times)
}

fn main() -> io::Result<()> {
    let arguments: Vec<String> = env::args().skip(1).collect();
    let Some((text, programs)) = arguments.split_first().filter(|(_, rest)| !rest.is_empty())
    else {
        eprintln!("programs: TEXT PROGRAM [PROGRAM ..]");
        exit(2);
    };
    let times = times(programs, text)?;
    let micros = |time: Duration| time.as_secs_f64() * 1e6;
    let median = |times: &[Duration]| micros(times[RUNS / 2]);
    println!("{RUNS} runs each; a ratio is the time of the first program over that of this one");
    println!("{:<46}{:>14}{:>14}{:>8}", text, "median", "least", "ratio");
    for (program, own) in programs.iter().zip(&times) {
        let ratio = median(&times[0]) / median(own);
        let (median, least) = (median(own), micros(own[0]));
        println!("{program:<46}{median:>11.0} us{least:>11.0} us{ratio:>8.2}");
    }
    Ok(())
}
