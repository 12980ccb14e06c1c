//! Sites that send each other what changes, each runner on a thread of its own. `bench/links.py` makes a crate of this file.
//! Arguments: how many sites, how many turns, and `measure`, where the texts of one outbox are to be measured in place of
//! runs over links.
#![tactic(auto)]

ghost use Rattle.std.specs.Prelude.{◌≡◌, All, IsSome, IfSome, true};
ghost use Rattle.admission_core.specs.Kept.{DurableState};

use admission_core::{Ask, Call};
use crossbeam_channel::{Receiver, Sender, unbounded};
use durable_keeper::{Keeper, MemoryKeeper};
use exchange_threads::{End, Gate, Port, Report, make_link, run_links};
use merge_core::{Layout, RecordName, RecordSpec};
use session_book::{Opening, Pass, Site};
use std::alloc::Global;
use std::marker::Brand;
use std::sync::Wait;
use std::sync::ledger::Blank;
use std::thread::Threads;
use std::{env, io, thread};

const RECORDS: u16 = 64;

/// Before a text is sent, a reader enters or leaves the record whose turn it is.
#[derive(Drop)]
pub enum Changes<'a, K: Keeper, L: Opening, R> {
    None,
    One(&'a R, &'a Site<K, L>, Pass<L>),
}

impl<'a, K: Keeper, L: Opening, R: Wait> Gate for Changes<'a, K, L, R> {
    ghost answers = { λ _ _ answer _. answer ≡ true };

    fn open(&mut self, turn: u64) -> bool {
        if let Changes::One(rt, site, pass) = self {
            let r = (turn % u64::from(RECORDS)) as u16;
            let ask = if turn / u64::from(RECORDS) % 2 == 0 {
                Ask::Read { r, h: 1 }
            } else {
                Ask::Leave { r, h: 1 }
            };
            let _ = site.call(*rt, pass, Call::Ask(ask));
        }
        true
    }
}

/// An end that has no gate yet.
#[derive(Drop)]
pub enum Half {
    Out(Sender<String>),
    In(Receiver<String>),
}

fn layout_of(alloc: Global, sites: u16) -> Option<Layout> {
    let mut records = Vec::new(alloc);
    for r in 0..RECORDS {
        let name = format!(in alloc; "r{r}").ok()?;
        let record = RecordSpec {
            name: RecordName::from_string(name),
            seats: 65_535,
            home: 0,
            problem: 1,
        };
        records.push(record).ok()?;
    }
    Layout::new(sites, records).ok()
}

// Adds the links from a site to all others.
fn add_links(alloc: Global, layout: &Layout, all: &mut [Vec<Half>], from: u16) -> Option<()> {
    for to in 0..layout.sites() {
        if from != to {
            let (sender, receiver) = make_link(alloc, layout, from, to).ok()?;
            all.get_mut(usize::from(from))?
                .push(Half::Out(sender))
                .ok()?;
            all.get_mut(usize::from(to))?.push(Half::In(receiver)).ok()?;
        }
    }
    Some(())
}

// The ends of the links between all sites, site by site.
fn all_ends(alloc: Global, sites: u16) -> Option<Vec<Vec<Half>>> {
    let layout = layout_of(alloc, sites)?;
    let mut all = Vec::new(alloc);
    for _ in 0..sites {
        all.push(Vec::new(alloc)).ok()?;
    }
    for from in 0..sites {
        add_links(alloc, &layout, all.as_mut_slice(), from)?;
    }
    Some(all)
}

/// Texts sent, texts taken, counters that rose, and turns without memory.
pub type Sums = (u64, u64, u64, u64);

fn with(sums: Sums, more: Sums) -> Sums {
    (
        sums.0.saturating_add(more.0),
        sums.1.saturating_add(more.1),
        sums.2.saturating_add(more.2),
        sums.3.saturating_add(more.3),
    )
}

fn sums_of<L: Opening, G>(ports: &[Port<L, G>]) -> Sums {
    let mut sums = (0u64, 0u64, 0u64, 0u64);
    for port in ports {
        let more = match &port.report {
            Some(Report::Sent(told)) => (told.sent, 0, 0, told.memory),
            Some(Report::Got(heard)) => (0, heard.taken, heard.raised, heard.memory),
            None => (0, 0, 0, 0),
        };
        sums = with(sums, more);
    }
    sums
}

// The end with a gate: the first outbox gets the pass for the changes.
fn gated<'a, K: Keeper, L: Opening, R: Wait>(
    rt: &'a R,
    site: &'a Site<K, L>,
    caller: &mut Option<Pass<L>>,
    end: Half,
) -> End<Changes<'a, K, L, R>> {
    match end {
        Half::Out(sender) => match caller.take() {
            Some(pass) => End::Outlet(sender, Changes::One(rt, site, pass)),
            None => End::Outlet(sender, Changes::None),
        },
        Half::In(receiver) => End::Inlet(receiver),
    }
}

// A port for each end. The first outbox changes a record at each turn.
fn ports_of<'a, K: Keeper, L: Opening, R: Wait>(
    rt: &'a R,
    alloc: Global,
    site: &'a Site<K, L>,
    passes: Vec<Pass<L>>,
    ends: Vec<Half>,
) -> Option<Vec<Port<L, Changes<'a, K, L, R>>>>
    ensures { IfSome result (λ ports. All (λ p. IsSome p.link) ports.items) }
{
    let mut ports = Vec::new(alloc);
    let mut passes = passes;
    let mut ends = ends;
    let mut caller = passes.pop();
    'ends: while let Some(end) = ends.pop() {
        let pass = passes.pop()?;
        let link = Some(gated(rt, site, &mut caller, end));
        let report = None;
        ports.push(Port { pass, link, report }).ok()?;
    }
    Some(ports)
}

/// A site with the ends of its links.
#[derive(Drop)]
pub struct Job {
    pub sites: u16,
    pub number: u16,
    pub ends: Vec<Half>,
    pub turns: u64,
}

// A site with an empty store, and its passes.
fn opened<L: Opening>(
    alloc: Global,
    blank: Blank,
    passes: u16,
    job: &Job,
) -> Option<(Site<MemoryKeeper, L>, Vec<Pass<L>>)>
    requires name { blank.name ≡ L.name }
    requires parts { blank.parts ≡ L.parts }
    requires unknown { (d : DurableState) → ¬ L.kept d }
    requires one_each { blank.parts ≡ passes }
{
    let layout = layout_of(alloc, job.sites)?;
    let keeper = MemoryKeeper::new(alloc, &layout, job.number).ok()?;
    Site::<MemoryKeeper, L>::open(alloc, blank, keeper, layout, job.number, passes, 65_536).ok()
}

// Runs the links of a site.
fn run_ends<K: Keeper + Send, L: Opening + Send + Sync, R: Threads + Wait + Sync>(
    rt: &R,
    alloc: Global,
    site: &Site<K, L>,
    passes: Vec<Pass<L>>,
    job: Job,
) -> Option<Sums> {
    let turns = job.turns.min(1_000_000_000);
    let mut ports = ports_of(rt, alloc, site, passes, job.ends)?;
    run_links(rt, alloc, site, ports.as_mut_slice(), turns);
    Some(sums_of(ports.as_slice()))
}

fn run_over<L: Opening + Send + Sync, R: Threads + Wait + Sync>(
    rt: &R,
    alloc: Global,
    blank: Blank,
    passes: u16,
    job: Job,
) -> Option<Sums>
    requires name { blank.name ≡ L.name }
    requires parts { blank.parts ≡ L.parts }
    requires unknown { (d : DurableState) → ¬ L.kept d }
    requires one_each { blank.parts ≡ passes }
{
    let (site, all) = opened::<L>(alloc, blank, passes, &job)?;
    run_ends(rt, alloc, &site, all, job)
}

fn run_site<R: Threads + Wait + Sync>(rt: &R, alloc: Global, job: Job) -> Option<Sums> {
    let Ok(ends) = u16::try_from(job.ends.len()) else {
        return None;
    };
    let passes = ends.checked_add(1)?;
    let blank = Blank::new(u64::from(passes));
    run_over::<Brand, R>(rt, alloc, blank, passes, job)
}

fn run_all<R: Threads + Wait + Sync>(
    rt: &R,
    alloc: Global,
    sites: u16,
    turns: u64,
) -> Option<Sums> {
    let mut jobs = Vec::new(alloc);
    let mut number = 0u16;
    for ends in all_ends(alloc, sites)? {
        let job = Job {
            sites,
            number,
            ends,
            turns,
        };
        jobs.push(job).ok()?;
        number = number.saturating_add(1);
    }
    let all = thread::map_vec(rt, jobs, &|job| run_site(rt, alloc, job)).ok()?;
    let mut sums = (0u64, 0u64, 0u64, 0u64);
    for one in all {
        sums = with(sums, one?);
    }
    Some(sums)
}

// How many whole texts there were, with how many bytes, and how many thin ones. Texts 0, 16, 32 and so on are whole.
fn measure<R: Threads + Wait + Sync>(
    rt: &R,
    alloc: Global,
    sites: u16,
    turns: u64,
) -> Option<Sums> {
    let (sender, receiver) = unbounded(alloc).ok()?;
    let mut ends = Vec::new(alloc);
    ends.push(Half::Out(sender)).ok()?;
    let job = Job {
        sites,
        number: 0,
        ends,
        turns,
    };
    run_site(rt, alloc, job)?;
    let mut sums = (0u64, 0u64, 0u64, 0u64);
    for number in 0..turns {
        let text = receiver.recv(rt).ok()?;
        let bytes = text.len() as u64;
        let more = if number % 16 == 0 {
            (1, bytes, 0, 0)
        } else {
            (0, 0, 1, bytes)
        };
        sums = with(sums, more);
    }
    Some(sums)
}

fn main(rt: HostRuntime) -> Result<(), io::Error> {
    let mut words = env::args(&rt)?;
    let _ = words.next();
    let sites = words.next().and_then(|word| word.parse::<u16>().ok());
    let turns = words.next().and_then(|word| word.parse::<u64>().ok());
    let (Some(sites), Some(turns)) = (sites, turns) else {
        return println!(rt; "usage: SITES TURNS [measure]");
    };
    let sums = if words.next().is_some() {
        measure(&rt, rt.alloc(), sites, turns)
    } else {
        run_all(&rt, rt.alloc(), sites, turns)
    };
    match sums {
        Some((a, b, c, d)) => println!(rt; "{a} {b} {c} {d}"),
        None => println!(rt; "out of memory"),
    }
}
