//! storm THREADS ROUNDS SLEEP_AFTER: as storm.c, over the safe types of smp_tables.rs. SLEEP_AFTER 0: no wait sleeps.
//!
//! It ends with status 0 where each call has run once, each wait has ended after its function had run, and no function has run
//! beside a stop function of all, and each site was seen as its key.
#[path = "../../crates/smp_tables_c/include/smp_tables.rs"]
mod smp_tables;

use smp_tables::{Call, Cpu, Error, Seat, Site, open_keys};
use std::sync::atomic::{AtomicU32, AtomicU64, Ordering::SeqCst};
use std::{array, env, thread};

const COUNT: u32 = 1;
const ALONE: u32 = 2;
const SITES: [Site; 2] = [
    Site {
        key: 0,
        branch: false,
    },
    Site {
        key: 0,
        branch: true,
    },
];

/// What all threads see: what was sent and has run, between each two; who runs a function; how many stops ran, and have ended.
struct All {
    threads: u32,
    rounds: u32,
    sent: [[AtomicU64; 32]; 32],
    ran: [[AtomicU64; 32]; 32],
    busy: AtomicU32,
    alone: AtomicU32,
    stops: AtomicU32,
    done: AtomicU32,
}

fn run(all: &All, me: u32, call: &Call) -> i32 {
    let before = all.busy.fetch_add(1, SeqCst);
    if call.func == COUNT {
        all.ran[call.src as usize][me as usize].fetch_add(call.info, SeqCst);
    } else {
        assert_eq!(before, 0, "a function ran beside a stop function of all");
        all.alone.fetch_add(1, SeqCst);
    }
    all.busy.fetch_sub(1, SeqCst);
    7
}

/// The calls of one round; with `wait` what was sent to each CPU has run then.
fn make_calls<F: FnMut(u32, &Call) -> i32>(
    all: &All,
    seat: &mut Seat<F>,
    to: u32,
) -> Result<(), Error> {
    let (me, online) = (seat.cpu.number(), seat.cpu.online());
    let send = |mask: u32, info: u64| {
        for cpu in (0..all.threads).filter(|cpu| *cpu != me && mask >> cpu & 1 == 1) {
            all.sent[me as usize][cpu as usize].fetch_add(info, SeqCst);
        }
    };
    let has_run = |cpu: u32| all.ran[me as usize][cpu as usize].load(SeqCst);
    let before = has_run(to);
    send(1 << to, 1 << 32);
    seat.call_single(to, COUNT, 1 << 32, true)?;
    assert!(has_run(to) >= before + (1 << 32), "call_single");
    send(1 << to, 1);
    seat.call_single(to, COUNT, 1, false)?;
    match seat.call_async(1, to, COUNT, 2) {
        Ok(()) => send(1 << to, 2),
        Err(Error::Busy) => {}
        Err(error) => return Err(error),
    }
    send(online, 3);
    seat.call_many(online, COUNT, 3, true)?;
    send(online, 4);
    seat.call_many(online, COUNT, 4, false)?;
    let within = seat.call_many_within(online, COUNT, 5, 8)?;
    send(within.called, 5);
    Ok(())
}

fn make_stops<F: FnMut(u32, &Call) -> i32>(
    all: &All,
    seat: &mut Seat<F>,
    to: u32,
    on: bool,
) -> Result<(), Error> {
    all.stops.fetch_add(1, SeqCst);
    assert_eq!(seat.stop_machine(1 << to, ALONE, 0)?, 7);
    assert_eq!(seat.stop_machine(0, ALONE, 0)?, 0);
    assert_eq!(seat.stop_one(to, COUNT, 0)?, 7);
    assert_eq!(seat.stop_one(seat.cpu.number(), COUNT, 0)?, 7);
    seat.set_key(0, on)?;
    assert_eq!(seat.cpu.read_key(0)?, on);
    assert_eq!(seat.cpu.read_site(0)?, on);
    assert_eq!(seat.cpu.read_site(1)?, !on);
    seat.count_key(1, true)?;
    assert!(seat.cpu.read_key(1)?);
    seat.count_key(1, false)?;
    Ok(())
}

fn work(all: &All, cpu: Cpu) -> Result<(), Error> {
    let me = cpu.number();
    let mut seat = Seat::new(cpu, |me, call: &Call| run(all, me, call));
    for i in 0..all.rounds {
        let to = (me + 1 + i % (all.threads - 1)) % all.threads;
        make_calls(all, &mut seat, to)?;
        if i % 100 == 0 {
            make_stops(all, &mut seat, to, i % 200 == 0)?;
        }
    }
    all.done.fetch_add(1, SeqCst);
    while all.done.load(SeqCst) < all.threads {
        seat.poll()?;
    }
    seat.poll().map(drop)
}

fn main() -> Result<(), Error> {
    let words: Vec<u32> = env::args()
        .skip(1)
        .map(|word| word.parse().expect("a number"))
        .collect();
    let [threads, rounds, sleep_after] = words[..] else {
        panic!("THREADS ROUNDS SLEEP_AFTER")
    };
    let table = || array::from_fn(|_| array::from_fn(|_| AtomicU64::new(0)));
    let [busy, alone, stops, done] = array::from_fn(|_| AtomicU32::new(0));
    let all = All {
        threads,
        rounds,
        sent: table(),
        ran: table(),
        busy,
        alone,
        stops,
        done,
    };
    let cpus = open_keys(
        threads,
        u32::MAX >> (32 - threads),
        2,
        &SITES,
        (sleep_after > 0).then_some(sleep_after),
    )?;
    thread::scope(|s| {
        for cpu in cpus {
            s.spawn(|| work(&all, cpu).expect("refused"));
        }
    });
    for (sent, ran) in all.sent.as_flattened().iter().zip(all.ran.as_flattened()) {
        assert_eq!(
            sent.load(SeqCst),
            ran.load(SeqCst),
            "a call was lost, or has run twice"
        );
    }
    assert_eq!(
        all.alone.load(SeqCst),
        all.stops.load(SeqCst),
        "a stop was lost, or has run twice"
    );
    println!(
        "{} rounds, {} stops of each kind",
        threads * rounds,
        all.stops.load(SeqCst)
    );
    Ok(())
}
