//! The tables of Linux 6.1's cross-processor calls and stops, for the threads of a Rust program: `smp_tables.h` in safe types.
//!
//! Take this file as a module. It links `libsmp_tables.a`; `build.rs` has to say where that is:
//! `println!("cargo:rustc-link-search=PREFIX/lib");`
//!
//! [`open`] gives the CPUs, each for one thread at a time. A [`Cpu`] has the steps of the library, which are proved. A [`Seat`] has
//! calls, stops and sleeps over them, which are tested alone: they are those of `smp_tables.h`, in Rust. Each thread polls, as long
//! as others may call it or stop all. A function that panics leaves its CPU inside: those that wait for it wait without end.
#![allow(dead_code)]
use std::ffi::c_void;
use std::ptr::null_mut;
use std::sync::atomic::{AtomicBool, AtomicU32, Ordering::SeqCst};
use std::sync::{Arc, Condvar, Mutex, PoisonError};
use std::{hint, mem, thread};

/// The version of the library that this file is for.
pub const VERSION: u32 = 2;

/// Why something was refused: the numbers of `smp_tables.h`, which says when each comes.
#[derive(Clone, Copy, Debug, PartialEq, Eq)]
pub enum Error {
    NoCpu = -1,
    Busy = -2,
    NoStopper = -3,
    BadArgument = -4,
    Contended = -5,
    NoMemory = -6,
    Stale = -7,
    SlotBusy = -8,
    KeyRange = -13,
    Closed = -20,
    Inside = -21,
    Outside = -22,
    Version = -23,
}

use Error::*;

/// The answer of a step, or why it was refused.
fn answer(status: i32) -> Result<i32, Error> {
    let all = [
        NoCpu,
        Busy,
        NoStopper,
        BadArgument,
        Contended,
        NoMemory,
        Stale,
        SlotBusy,
        KeyRange,
        Closed,
        Inside,
        Outside,
    ];
    match all.into_iter().find(|error| *error as i32 == status) {
        Some(error) => Err(error),
        None => Ok(status),
    }
}

#[repr(C)]
struct Handle {
    at: *mut c_void,
    is_open: u32,
}

/// A function that is to be run: `func` with `info`, for the CPU `src`. Where it is that of a stop, `src` is the stop's slot.
#[repr(C)]
#[derive(Clone, Copy, Debug, Default, PartialEq, Eq)]
pub struct Call {
    pub info: u64,
    pub src: u32,
    pub func: u32,
}

/// The work of a stop: which CPUs it stops, and which of them run `func` with `arg`.
#[repr(C)]
#[derive(Clone, Copy, Debug, PartialEq, Eq)]
pub struct Work {
    pub arg: u64,
    pub kind: u32,
    pub mask: u32,
    pub active: u32,
    pub func: u32,
}

/// A site: a place that branches on the key of this number. It jumps while the key is on, or with `branch` while it is off.
#[derive(Clone, Copy, Debug, PartialEq, Eq)]
pub struct Site {
    pub key: u32,
    pub branch: bool,
}

#[repr(C)]
struct SiteNumbers {
    key: u32,
    branch: u32,
}

/// The class of a call: its source waits for it, or does not.
pub const SYNC: u32 = 0;
pub const ASYNC: u32 = 1;
/// The kind of a stop: of one CPU, of several, of all for a key.
pub const ONE: u32 = 0;
pub const MULTI: u32 = 1;
pub const PATCH: u32 = 2;
/// The function number by which a CPU is told of a stop. No call has it.
pub const STOP_FUNC: u32 = 0xffff;
/// How many compare-exchanges a post makes, before it gives its processor to others and tries again.
const TRIES: u32 = 64;

#[link(name = "smp_tables", kind = "static")]
unsafe extern "C" {
    fn smp_tables_version() -> u32;
    fn smp_open(
        nr: u32,
        online: u32,
        keys: u32,
        sites: *const SiteNumbers,
        sites_length: usize,
        cpus: *mut Handle,
        length: usize,
    ) -> i32;
    fn smp_close(cpu: &mut Handle) -> i32;
    fn smp_post(
        cpu: &mut Handle,
        k: u32,
        to: u32,
        class: u32,
        func: u32,
        info: u64,
        tries: u32,
    ) -> i32;
    fn smp_send(cpu: &mut Handle, to: u32) -> i32;
    fn smp_is_done(cpu: &mut Handle, k: u32) -> i32;
    fn smp_handle(cpu: &mut Handle, call: &mut Call) -> i32;
    fn smp_next(cpu: &mut Handle, call: &mut Call) -> i32;
    fn smp_try_gate(cpu: &mut Handle) -> i32;
    fn smp_open_gate(cpu: &mut Handle) -> i32;
    fn smp_begin(cpu: &mut Handle, work: &Work) -> i32;
    fn smp_enter(cpu: &mut Handle, slot: u32) -> i32;
    fn smp_turn(cpu: &mut Handle, call: &mut Call) -> i32;
    fn smp_reply(cpu: &mut Handle, answer: i32) -> i32;
    fn smp_finish(cpu: &mut Handle) -> i32;
    fn smp_poll_done(cpu: &mut Handle, result: &mut i32) -> i32;
    fn smp_read_key(cpu: &mut Handle, k: u32) -> i32;
    fn smp_read_site(cpu: &mut Handle, i: u32) -> i32;
    fn smp_try_key(cpu: &mut Handle, k: u32, up: u32) -> i32;
}

/// By what a CPU is woken.
#[derive(Default)]
#[repr(align(64))]
struct Bell {
    /// Whether the CPU may sleep.
    is_set: AtomicBool,
    /// How often it was rung.
    rings: Mutex<u32>,
    wakes: Condvar,
}

/// What the CPUs share beside the tables.
struct Crew {
    online: u32,
    /// After how many looks in vain a wait sleeps.
    sleep_after: Option<u32>,
    /// The CPUs that wait and may sleep.
    waiting: AtomicU32,
    bells: [Bell; 32],
}

impl Crew {
    /// Wakes a CPU that sleeps.
    fn ring(&self, cpu: u32) {
        let bell = &self.bells[cpu as usize % 32];
        if bell.is_set.load(SeqCst) {
            let mut rings = bell.rings.lock().unwrap_or_else(PoisonError::into_inner);
            *rings = rings.wrapping_add(1);
            bell.wakes.notify_one();
        }
    }

    /// Wakes the CPUs that wait asleep.
    fn ring_waiting(&self) {
        members(self.waiting.load(SeqCst)).for_each(|cpu| self.ring(cpu));
    }
}

/// A CPU of the tables. It may go from thread to thread, and is used by one at a time. It is closed when it is dropped.
pub struct Cpu {
    handle: Handle,
    number: u32,
    crew: Arc<Crew>,
}

// SAFETY: a handle may be passed on, and each step takes it by `&mut`. The pointer in it keeps a `Cpu` from being `Sync`.
unsafe impl Send for Cpu {}

impl Drop for Cpu {
    fn drop(&mut self) {
        unsafe { smp_close(&mut self.handle) };
    }
}

/// What a CPU that handles goes on with.
#[derive(Clone, Copy, Debug, PartialEq, Eq)]
pub enum Next {
    /// No interrupt was pending.
    Idle,
    /// This call is to be run now, and then [`Cpu::next`] is due.
    Run(Call),
    /// The batch has run.
    Over,
}

/// What a turn of a stop has done.
#[derive(Clone, Copy, Debug, PartialEq, Eq)]
pub enum Turn {
    /// There is no new phase.
    Same,
    /// This function is to be run now, and then [`Cpu::answer`] is due.
    Call(Call),
    /// It has acknowledged a phase.
    Moved,
    /// It has left; of several CPUs' stop, [`Cpu::finish`] is due.
    Left,
}

/// What a change of a key's count by one has done.
#[derive(Clone, Copy, Debug, PartialEq, Eq)]
pub enum Nudge {
    Done,
    Lost,
    Stop,
}

/// Makes the tables of `nr` CPUs with no keys: the CPUs of the mask `online`, ascending. A wait sleeps after `sleep_after` looks in
/// vain; with `None` it polls all the time.
pub fn open(nr: u32, online: u32, sleep_after: Option<u32>) -> Result<Vec<Cpu>, Error> {
    open_keys(nr, online, 0, &[], sleep_after)
}

/// The same with this many keys, all off, and these sites.
pub fn open_keys(
    nr: u32,
    online: u32,
    keys: u32,
    sites: &[Site],
    sleep_after: Option<u32>,
) -> Result<Vec<Cpu>, Error> {
    if unsafe { smp_tables_version() } != VERSION {
        return Err(Version);
    }
    let mut handles: [Handle; 32] = std::array::from_fn(|_| Handle {
        at: null_mut(),
        is_open: 0,
    });
    let numbers = |site: &Site| SiteNumbers {
        key: site.key,
        branch: site.branch.into(),
    };
    let sites: Vec<_> = sites.iter().map(numbers).collect();
    answer(unsafe {
        smp_open(
            nr,
            online,
            keys,
            sites.as_ptr(),
            sites.len(),
            handles.as_mut_ptr(),
            handles.len(),
        )
    })?;
    let crew = Arc::new(Crew {
        online,
        sleep_after,
        waiting: AtomicU32::new(0),
        bells: Default::default(),
    });
    let opened = handles
        .into_iter()
        .zip(0..)
        .filter(|(_, number)| online >> number & 1 == 1);
    Ok(opened
        .map(|(handle, number)| Cpu {
            handle,
            number,
            crew: crew.clone(),
        })
        .collect())
}

impl Cpu {
    pub fn number(&self) -> u32 {
        self.number
    }

    pub fn online(&self) -> u32 {
        self.crew.online
    }

    /// Queues a call by the own record `k`: whether an interrupt is owed.
    pub fn post(
        &mut self,
        k: u32,
        to: u32,
        class: u32,
        func: u32,
        info: u64,
        tries: u32,
    ) -> Result<bool, Error> {
        Ok(answer(unsafe { smp_post(&mut self.handle, k, to, class, func, info, tries) })? == 1)
    }

    pub fn send(&mut self, to: u32) -> Result<(), Error> {
        answer(unsafe { smp_send(&mut self.handle, to) }).map(drop)
    }

    pub fn is_done(&mut self, k: u32) -> Result<bool, Error> {
        Ok(answer(unsafe { smp_is_done(&mut self.handle, k) })? == 1)
    }

    pub fn handle(&mut self) -> Result<Next, Error> {
        let mut call = Call::default();
        next_of(unsafe { smp_handle(&mut self.handle, &mut call) }, call)
    }

    pub fn next(&mut self) -> Result<Next, Error> {
        let mut call = Call::default();
        next_of(unsafe { smp_next(&mut self.handle, &mut call) }, call)
    }

    pub fn try_gate(&mut self) -> Result<bool, Error> {
        Ok(answer(unsafe { smp_try_gate(&mut self.handle) })? == 1)
    }

    pub fn open_gate(&mut self) -> Result<(), Error> {
        answer(unsafe { smp_open_gate(&mut self.handle) }).map(drop)
    }

    pub fn begin(&mut self, work: &Work) -> Result<(), Error> {
        answer(unsafe { smp_begin(&mut self.handle, work) }).map(drop)
    }

    /// Enters the stop of a slot: its kind.
    pub fn enter(&mut self, slot: u32) -> Result<u32, Error> {
        answer(unsafe { smp_enter(&mut self.handle, slot) }).map(|kind| kind as u32)
    }

    pub fn turn(&mut self) -> Result<Turn, Error> {
        let mut call = Call::default();
        Ok(
            match answer(unsafe { smp_turn(&mut self.handle, &mut call) })? {
                0 => Turn::Same,
                1 => Turn::Call(call),
                3 => Turn::Left,
                _ => Turn::Moved,
            },
        )
    }

    pub fn answer(&mut self, value: i32) -> Result<(), Error> {
        answer(unsafe { smp_reply(&mut self.handle, value) }).map(drop)
    }

    pub fn finish(&mut self) -> Result<(), Error> {
        answer(unsafe { smp_finish(&mut self.handle) }).map(drop)
    }

    /// The answer of the own stop, once all CPUs have completed it.
    pub fn poll_done(&mut self) -> Result<Option<i32>, Error> {
        let mut result = 0;
        Ok(
            (answer(unsafe { smp_poll_done(&mut self.handle, &mut result) })? == 1)
                .then_some(result),
        )
    }

    pub fn read_key(&mut self, k: u32) -> Result<bool, Error> {
        Ok(answer(unsafe { smp_read_key(&mut self.handle, k) })? == 1)
    }

    /// Whether a site is a jump.
    pub fn read_site(&mut self, i: u32) -> Result<bool, Error> {
        Ok(answer(unsafe { smp_read_site(&mut self.handle, i) })? == 1)
    }

    pub fn try_key(&mut self, k: u32, up: bool) -> Result<Nudge, Error> {
        Ok(
            match answer(unsafe { smp_try_key(&mut self.handle, k, up.into()) })? {
                0 => Nudge::Done,
                1 => Nudge::Lost,
                _ => Nudge::Stop,
            },
        )
    }
}

fn next_of(status: i32, call: Call) -> Result<Next, Error> {
    Ok(match answer(status)? {
        0 => Next::Idle,
        1 => Next::Run(call),
        _ => Next::Over,
    })
}

/// The record for calls to a CPU among many.
pub fn many(to: u32) -> u32 {
    if to < 8 { to + 2 } else { to + 4 }
}

/// The CPUs of a mask, ascending.
fn members(mask: u32) -> impl Iterator<Item = u32> {
    (0..32).filter(move |cpu| mask >> cpu & 1 == 1)
}

/// Spins, longer each time, and then gives the processor to others.
fn relax(step: &mut u32) {
    if *step > 6 {
        return thread::yield_now();
    }
    (0..1 << *step).for_each(|_| hint::spin_loop());
    *step += 1;
}

/// What [`Seat::call_many_within`] has come to.
#[derive(Clone, Copy, Debug, PartialEq, Eq)]
pub struct Within {
    /// For which CPUs a call was queued.
    pub called: u32,
    /// Which CPUs have not answered; one that was called runs the call later, once it polls.
    pub silent: u32,
}

/// What a wait looks for: none where it is not there yet.
type Look<T> = fn(&mut Cpu, u32) -> Result<Option<T>, Error>;

fn look_record(cpu: &mut Cpu, k: u32) -> Result<Option<()>, Error> {
    Ok(cpu.is_done(k)?.then_some(()))
}

/// A CPU with what runs its calls and stop functions: their answers are those of stop functions. It can make no call itself.
///
/// Where a method waits, it polls meanwhile: it runs the calls of others, and takes part in their stops.
pub struct Seat<F: FnMut(u32, &Call) -> i32> {
    pub cpu: Cpu,
    run: F,
    /// The slots of the stops that it was told of, and has not entered.
    stops: u32,
}

impl<F: FnMut(u32, &Call) -> i32> Seat<F> {
    /// A seat of this CPU.
    pub fn new(cpu: Cpu, run: F) -> Seat<F> {
        Seat { cpu, run, stops: 0 }
    }

    fn own(&self) -> u32 {
        1 << self.cpu.number
    }

    fn crew(&self) -> &Crew {
        &self.cpu.crew
    }

    /// Takes part in the stop of a slot, from its entry to its end. Where the stop does not call this CPU, it does nothing.
    fn take_part(&mut self, slot: u32) -> Result<(), Error> {
        let kind = match self.cpu.enter(slot) {
            Err(Stale) => return Ok(()),
            kind => kind?,
        };
        let mut step = 0;
        loop {
            match self.cpu.turn()? {
                Turn::Same => relax(&mut step),
                Turn::Moved => step = 0,
                Turn::Left => break self.cpu.finish()?,
                Turn::Call(call) => {
                    let value = (self.run)(self.cpu.number, &call);
                    self.cpu.answer(value)?;
                    if kind == ONE {
                        break;
                    }
                }
            }
        }
        self.crew().ring(slot);
        Ok(())
    }

    /// Runs the calls that are queued for this CPU, then takes part in the stops that it was told of: whether there was something.
    /// It waits in a stop alone.
    pub fn poll(&mut self) -> Result<bool, Error> {
        let mut next = self.cpu.handle()?;
        let found = next != Next::Idle;
        while let Next::Run(call) = next {
            if call.func == STOP_FUNC {
                self.stops |= 1 << (call.info % 32);
            } else {
                (self.run)(self.cpu.number, &call);
            }
            next = self.cpu.next()?;
        }
        if found {
            self.crew().ring_waiting();
        }
        for slot in members(mem::take(&mut self.stops)) {
            self.take_part(slot)?;
        }
        Ok(found)
    }

    /// Looks with the own bell set, and sleeps unless the look has found something or the bell has rung since.
    fn look_or_sleep<T>(
        &mut self,
        look: impl FnOnce(&mut Seat<F>) -> Result<(T, bool), Error>,
    ) -> Result<T, Error> {
        let crew = self.cpu.crew.clone();
        let bell = &crew.bells[self.cpu.number as usize];
        bell.is_set.store(true, SeqCst);
        let noted = *bell.rings.lock().unwrap_or_else(PoisonError::into_inner);
        let looked = look(self);
        if let Ok((_, false)) = looked {
            let rings = bell.rings.lock().unwrap_or_else(PoisonError::into_inner);
            drop(bell.wakes.wait_while(rings, |rings| *rings == noted));
        }
        bell.is_set.store(false, SeqCst);
        looked.map(|(found, _)| found)
    }

    /// A poll; where there was nothing, it sleeps until something is sent to this CPU. What ends that has to be told by a call:
    /// who only sets a flag does not wake it.
    pub fn rest(&mut self) -> Result<bool, Error> {
        self.look_or_sleep(|seat| seat.poll().map(|found| (found, found)))
    }

    /// A look, and a poll where it found nothing: what it found, and whether there was anything.
    fn look_and_poll<T>(&mut self, look: Look<T>, k: u32) -> Result<(Option<T>, bool), Error> {
        let found = look(&mut self.cpu, k)?;
        let polled = found.is_none() && self.poll()?;
        let any = polled || found.is_some();
        Ok((found, any))
    }

    /// Polls until this look finds what it looks for, and sleeps between two looks where the crew lets it.
    fn wait_for<T>(&mut self, look: Look<T>, k: u32) -> Result<T, Error> {
        let (mut looks, mut step) = (0u32, 0);
        loop {
            let found = if self.crew().sleep_after.is_some_and(|after| looks >= after) {
                let own = self.own();
                self.crew().waiting.fetch_or(own, SeqCst);
                let found = self.look_or_sleep(|seat| seat.look_and_poll(look, k));
                self.crew().waiting.fetch_and(!own, SeqCst);
                found?
            } else {
                self.look_and_poll(look, k)?.0
            };
            match found {
                Some(found) => return Ok(found),
                None => relax(&mut step),
            }
            looks = looks.saturating_add(1);
        }
    }

    /// Queues a call by a record that is free, however many tries it takes: whether an interrupt is owed.
    fn post_free(
        &mut self,
        k: u32,
        to: u32,
        class: u32,
        func: u32,
        info: u64,
    ) -> Result<bool, Error> {
        let mut step = 0;
        loop {
            match self.cpu.post(k, to, class, func, info, TRIES) {
                Err(Contended) => relax(&mut step),
                owed => return owed,
            }
        }
    }

    /// Sends an interrupt, and wakes the CPU.
    fn interrupt(&mut self, to: u32) -> Result<(), Error> {
        self.cpu.send(to)?;
        self.crew().ring(to);
        Ok(())
    }

    fn wait_each(&mut self, mask: u32) -> Result<(), Error> {
        members(mask).try_for_each(|cpu| self.wait_for(look_record, many(cpu)))
    }

    /// Waits for these records with at most so many polls: the CPUs whose records are locked still.
    fn wait_within(&mut self, mask: u32, polls: u32) -> Result<u32, Error> {
        let mut step = 0;
        for left in (0..=polls).rev() {
            let mut locked = 0;
            for cpu in members(mask) {
                locked |= if self.cpu.is_done(many(cpu))? {
                    0
                } else {
                    1 << cpu
                };
            }
            if locked == 0 || left == 0 {
                return Ok(locked);
            }
            self.poll()?;
            relax(&mut step);
        }
        Ok(0)
    }

    /// Queues a call for each of these CPUs, whose records are free, before it sends the first interrupt.
    fn queue_each(&mut self, mask: u32, class: u32, func: u32, info: u64) -> Result<(), Error> {
        let mut owed = 0;
        let mut posted = Ok(());
        for cpu in members(mask) {
            match self.post_free(many(cpu), cpu, class, func, info) {
                Ok(owes) => owed |= u32::from(owes) << cpu,
                Err(error) => posted = posted.and(Err(error)),
            }
        }
        members(owed).try_for_each(|cpu| self.interrupt(cpu))?;
        posted
    }

    fn others(&self, mask: u32) -> u32 {
        mask & self.cpu.online() & !self.own()
    }

    /// Calls `func` on the CPU `to`, and waits until it has run there if it is to. On this CPU it runs at once.
    pub fn call_single(&mut self, to: u32, func: u32, info: u64, wait: bool) -> Result<(), Error> {
        let (k, class) = if wait { (0, SYNC) } else { (1, ASYNC) };
        is_call(func)?;
        if to == self.cpu.number {
            self.wait_for(look_record, k)?;
            (self.run)(
                to,
                &Call {
                    info,
                    src: to,
                    func,
                },
            );
            return Ok(());
        }
        let owed = loop {
            match self.post_free(k, to, class, func, info) {
                Err(Busy) => self.wait_for(look_record, k)?,
                owed => break owed?,
            }
        };
        if owed {
            self.interrupt(to)?;
        }
        if wait {
            self.wait_for(look_record, k)
        } else {
            Ok(())
        }
    }

    /// Calls `func` on another CPU by the user's record `u`, 0 or 1, and waits for nothing.
    pub fn call_async(&mut self, u: u32, to: u32, func: u32, info: u64) -> Result<(), Error> {
        is_call(func)?;
        if u > 1 {
            return Err(BadArgument);
        }
        if self.post_free(10 + u, to, ASYNC, func, info)? {
            self.interrupt(to)
        } else {
            Ok(())
        }
    }

    /// Calls `func` on each online CPU of the mask but this one, and waits until it has run on all of them if it is to.
    pub fn call_many(&mut self, mask: u32, func: u32, info: u64, wait: bool) -> Result<(), Error> {
        let others = self.others(mask);
        is_call(func)?;
        self.wait_each(others)?;
        self.queue_each(others, if wait { SYNC } else { ASYNC }, func, info)?;
        if wait { self.wait_each(others) } else { Ok(()) }
    }

    /// As [`Seat::call_many`] with wait, but it gives up: it waits with at most `polls` polls for the records, and as many for the
    /// calls. A CPU whose record stays locked is not called. It does not sleep.
    pub fn call_many_within(
        &mut self,
        mask: u32,
        func: u32,
        info: u64,
        polls: u32,
    ) -> Result<Within, Error> {
        let others = self.others(mask);
        is_call(func)?;
        let locked = self.wait_within(others, polls)?;
        let called = others & !locked;
        self.queue_each(called, SYNC, func, info)?;
        let late = self.wait_within(called, polls)?;
        Ok(Within {
            called,
            silent: locked | late,
        })
    }

    fn take_gate(&mut self) -> Result<(), Error> {
        self.wait_for(|cpu, _| Ok(cpu.try_gate()?.then_some(())), 0)
    }

    fn leave_gate(&mut self) -> Result<(), Error> {
        self.cpu.open_gate()?;
        self.crew().ring_waiting();
        Ok(())
    }

    /// Begins a stop with the gate held, and tells its CPUs of it.
    fn tell(&mut self, work: &Work) -> Result<(), Error> {
        let (others, own) = (work.mask & !self.own(), self.cpu.number.into());
        self.cpu.begin(work)?;
        self.wait_each(others)?;
        self.queue_each(others, ASYNC, STOP_FUNC, own)
    }

    /// A stop of this work by a CPU that holds the gate: its answer. The gate is given up once the CPU of a stop of one is told,
    /// else at the end.
    fn stop(&mut self, work: &Work) -> Result<i32, Error> {
        let (told, is_short) = (self.tell(work), work.kind == ONE);
        if told.is_err() || is_short {
            self.leave_gate()?;
        }
        told?;
        if work.mask & self.own() != 0 {
            self.take_part(self.cpu.number)?;
        }
        let value = self.wait_for(|cpu, _| cpu.poll_done(), 0)?;
        if !is_short {
            self.leave_gate()?;
        }
        Ok(value)
    }

    /// Runs `func` with `arg` on the CPU `to`, between its calls: its answer.
    pub fn stop_one(&mut self, to: u32, func: u32, arg: u64) -> Result<i32, Error> {
        if to > 31 || self.cpu.online() >> to & 1 == 0 {
            return Err(NoStopper);
        }
        let mask = 1 << to;
        self.take_gate()?;
        self.stop(&Work {
            arg,
            kind: ONE,
            mask,
            active: mask,
            func,
        })
    }

    /// Stops all online CPUs, and runs `func` with `arg` on those of the mask `active`, with the interrupts of all off: 0 where all
    /// have answered 0, else one of the other answers.
    pub fn stop_machine(&mut self, active: u32, func: u32, arg: u64) -> Result<i32, Error> {
        let mask = self.cpu.online();
        self.take_gate()?;
        self.stop(&Work {
            arg,
            kind: MULTI,
            mask,
            active,
            func,
        })
    }

    fn patch(&mut self, k: u32, change: u64) -> Result<bool, Error> {
        let mask = self.cpu.online();
        let active = mask & mask.wrapping_neg();
        let value = self.stop(&Work {
            arg: change,
            kind: PATCH,
            mask,
            active,
            func: k,
        })?;
        if value == 0 { Ok(true) } else { Err(KeyRange) }
    }

    /// Turns a key on or off, with all its sites, in a stop of all online CPUs: false where it was so already.
    pub fn set_key(&mut self, k: u32, on: bool) -> Result<bool, Error> {
        self.take_gate()?;
        match self.cpu.read_key(k) {
            Ok(was) if was != on => self.patch(k, on.into()),
            read => self.leave_gate().and(read).map(|_| false),
        }
    }

    /// Moves the count of a key by one outside a stop, however many tries it takes.
    fn nudge(&mut self, k: u32, up: bool) -> Result<Nudge, Error> {
        let mut step = 0;
        loop {
            match self.cpu.try_key(k, up) {
                Ok(Nudge::Lost) => relax(&mut step),
                nudge => return nudge,
            }
        }
    }

    /// Moves the count of a key by one, up or down: whether the key has turned, in a stop of all online CPUs.
    pub fn count_key(&mut self, k: u32, up: bool) -> Result<bool, Error> {
        if self.nudge(k, up)? == Nudge::Done {
            return Ok(false);
        }
        self.take_gate()?;
        match self.nudge(k, up) {
            Ok(Nudge::Stop) => self.patch(k, if up { 2 } else { 3 }),
            moved => self.leave_gate().and(moved).map(|_| false),
        }
    }
}

/// A call may have this function.
fn is_call(func: u32) -> Result<(), Error> {
    if func < STOP_FUNC {
        Ok(())
    } else {
        Err(BadArgument)
    }
}
