//! Four threads call each other, call all others, and stop all, while one of them adds up what all have summed.
#[path = "../include/smp_tables.rs"]
mod smp_tables;
use smp_tables::{Call, Cpu, Error, Seat, open};
use std::sync::atomic::{AtomicU32, AtomicU64, Ordering::SeqCst};
use std::thread;

const ADD: u32 = 1;
const ROOTS: u32 = 2;
static TOTAL: [AtomicU64; 4] = [const { AtomicU64::new(0) }; 4];
static DONE: AtomicU32 = AtomicU32::new(0);

fn run(me: u32, call: &Call) -> i32 {
    match call.func {
        ADD => TOTAL[me as usize].fetch_add(call.info, SeqCst) as i32,
        _ => TOTAL.iter().map(|it| it.load(SeqCst)).sum::<u64>() as i32, // all others wait
    }
}

fn work(cpu: Cpu) -> Result<(), Error> {
    let (me, mut seat) = (cpu.number(), Seat::new(cpu, run));
    for i in 0..1000 {
        seat.call_single((me + 1) % 4, ADD, 1, true)?;
        seat.call_many(seat.cpu.online(), ADD, 10, true)?;
        assert!(i % 100 > 0 || seat.stop_machine(1, ROOTS, 0)? > 31 * i);
    }
    DONE.fetch_add(1, SeqCst);
    while DONE.load(SeqCst) < 4 {
        seat.poll()?;
    }
    Ok(())
}

fn main() -> Result<(), Error> {
    let cpus = open(4, 15, None)?.into_iter();
    let threads: Vec<_> = cpus.map(|cpu| thread::spawn(|| work(cpu))).collect();
    threads.into_iter().try_for_each(|it| it.join().unwrap())?;
    println!("{TOTAL:?}");
    Ok(())
}
