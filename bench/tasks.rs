//! The tasks of bench/tasks.c by the crate for Rust, and the boards by one call, timed by the clock:
//!
//!     tasks BOARDS SCRIPT COMMANDS
use std::time::{Duration, Instant};
use std::{env, fs};
use voting_board::{indices_of_all, indices_of_many, Board, Majority, Register};

const CHAIRS: usize = 24;
const ROUNDS: usize = 3;

fn main() {
    let given: Vec<String> = env::args().skip(1).collect();
    let bytes = fs::read(&given[0]).expect("the boards");
    let rows: Vec<Vec<u64>> = bytes.chunks_exact(8 * CHAIRS).map(|it| it.chunks_exact(8).map(word).collect()).collect();
    let boards: Vec<Board> = rows.iter().map(|it| Board::new(it.clone())).collect();
    let script = fs::read(&given[1]).expect("the script");
    let text = fs::read_to_string(&given[2]).expect("the commands");
    let commands: Vec<(&str, u64)> = text.lines().map(command).collect();
    timed("boards", processor_time, || rows.iter().map(|it| omegas(it)).sum());
    timed("commands", processor_time, || carry_out(&script, &commands));
    let begun = Instant::now();
    timed(
        "many",
        || begun.elapsed(),
        || {
            let many = indices_of_many(&boards, &Majority::ALL).expect("counts");
            many.iter().flatten().map(|it| it.omega).sum()
        },
    );
}

/// Prints the least time of several rounds, and the last one's sum.
fn timed(name: &str, now: impl Fn() -> Duration, work: impl Fn() -> u64) {
    let round = |_| {
        let begun = now();
        let sum = work();
        ((now() - begun).as_nanos(), sum)
    };
    let (least, sum) = (0..ROUNDS).map(round).min().expect("a round");
    println!("{name} {least} {sum}");
}

fn word(bytes: &[u8]) -> u64 {
    u64::from_le_bytes(bytes.try_into().expect("8 bytes"))
}

fn omegas(weights: &[u64]) -> u64 {
    indices_of_all(weights).expect("a board").iter().map(|it| it.omega).sum()
}

fn command(line: &str) -> (&str, u64) {
    let (code, votes) = line.split_once(' ').expect("a code and votes");
    (code, votes.parse().expect("votes"))
}

fn carry_out(script: &[u8], commands: &[(&str, u64)]) -> u64 {
    let mut register = Register::from_script(script).expect("a register");
    let omega = |&(code, votes): &(&str, u64)| {
        register.set_votes(code, votes).expect("accepted");
        register.indices(Majority::Half).expect("counted").omega
    };
    commands.iter().map(omega).sum()
}

#[repr(C)]
struct Timespec {
    seconds: i64,
    nanoseconds: i64,
}

extern "C" {
    fn clock_gettime(clock: i32, to: *mut Timespec) -> i32;
}

/// The time that the processors have worked for this process.
fn processor_time() -> Duration {
    const PROCESS: i32 = 2;
    let mut now = Timespec { seconds: 0, nanoseconds: 0 };
    // SAFETY: `now` is a timespec of Linux on 64-bit systems.
    assert_eq!(unsafe { clock_gettime(PROCESS, &mut now) }, 0);
    Duration::new(now.seconds as u64, now.nanoseconds as u32)
}
