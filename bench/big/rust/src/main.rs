//! big CONTENDER THREADS ENTRIES PASSES: as `big` of ../../big.c, in Rust, and prints the same line.

#[cfg(with_dashmap)]
use dashmap::DashMap;
use kupaldiz::{Name, Patience, Table, TableThread};
use std::collections::HashMap;
use std::env;
use std::sync::atomic::{AtomicBool, Ordering};
use std::sync::{Arc, Barrier, RwLock};
use std::thread;
use std::time::{Duration, Instant};

/// What a name leads to.
#[repr(align(64))]
struct Item(u64);

/// A table, as one thread uses it.
trait Contender {
    fn add(&self, name: Name, item: Item);
    fn find(&self, name: &Name) -> Option<u64>;
    /// Returns once nobody uses the old item.
    fn replace(&self, name: Name, item: Item);
}

impl Contender for TableThread<Item> {
    fn add(&self, name: Name, item: Item) {
        self.attach(name, item).expect("an attach");
    }

    fn find(&self, name: &Name) -> Option<u64> {
        self.get(name).ok().map(|held| held.0)
    }

    fn replace(&self, name: Name, item: Item) {
        let (_, old) = TableThread::replace(self, name, item).expect("a replacement");
        old.destroy(Patience::Forever).expect("an old item");
    }
}

#[cfg(with_dashmap)]
impl Contender for Arc<DashMap<Name, Item>> {
    fn add(&self, name: Name, item: Item) {
        self.insert(name, item);
    }

    fn find(&self, name: &Name) -> Option<u64> {
        self.get(name).map(|held| held.0)
    }

    fn replace(&self, name: Name, item: Item) {
        self.insert(name, item);
    }
}

impl Contender for Arc<RwLock<HashMap<Name, Item>>> {
    fn add(&self, name: Name, item: Item) {
        self.write().unwrap().insert(name, item);
    }

    fn find(&self, name: &Name) -> Option<u64> {
        self.read().unwrap().get(name).map(|held| held.0)
    }

    fn replace(&self, name: Name, item: Item) {
        self.add(name, item);
    }
}

/// The names in the order in which they are looked up, each with its id, if an entry has it.
type Names = Vec<(Name, Option<u64>)>;

/// The first lookups, later ones, those of absent names, and replacements: beside readers, by one
/// thread alone and by two.
type Times = [f64; 6];

/// After this nothing more is begun of one kind.
const ENOUGH: Duration = Duration::from_millis(300);

fn nanoseconds(since: Instant, count: usize) -> f64 {
    since.elapsed().as_nanos() as f64 / count.max(1) as f64
}

struct Plan {
    names: Names,
    absent: Names,
    passes: u64,
    threads: usize,
    all_here: Barrier,
    is_over: AtomicBool,
}

impl Plan {
    fn new(threads: usize, entries: u64, passes: u64) -> Plan {
        let (mut ids, mut random): (Vec<u64>, u64) = ((0..entries).collect(), 1);
        for place in (1..ids.len()).rev() {
            random ^= random << 13;
            random ^= random >> 7;
            random ^= random << 17;
            ids.swap(place, (random % (place as u64 + 1)) as usize);
        }
        Plan {
            names: ids.iter().map(|id| (Name::from_id(*id), Some(*id))).collect(),
            absent: ids.iter().map(|id| (Name::from_id(entries + id), None)).collect(),
            passes,
            threads,
            all_here: Barrier::new(threads),
            is_over: AtomicBool::new(false),
        }
    }

    /// The nanoseconds for each lookup: the least of several times, each of 10,000 or one pass.
    fn timed(&self, of: &impl Contender, names: &Names, passes: u64) -> f64 {
        self.all_here.wait();
        let at_once = (10_000_u64.div_ceil(names.len() as u64)).min(passes);
        let started = Instant::now();
        let mut least = f64::MAX;
        for _ in 0..passes.div_ceil(at_once) {
            let begin = Instant::now();
            for (name, id) in (0..at_once).flat_map(|_| names) {
                assert!(of.find(name) == *id, "a wrong result");
            }
            least = least.min(nanoseconds(begin, names.len() * at_once as usize));
            if started.elapsed() > ENOUGH {
                break;
            }
        }
        least
    }

    /// Replaces names of its own: of so many threads each has others.
    fn replaces(&self, of: &impl Contender, thread: usize, changers: usize) -> f64 {
        let own = self.names.iter().skip(thread).step_by(changers).take(2000 / changers);
        let begin = Instant::now();
        let in_time = own.take_while(|_| begin.elapsed() < ENOUGH);
        let count = in_time.map(|(name, id)| of.replace(*name, Item(id.unwrap()))).count();
        nanoseconds(begin, count)
    }

    fn beside_readers(&self, of: &impl Contender, thread: usize) -> f64 {
        self.all_here.wait();
        let took = if thread == 0 { self.replaces(of, 0, 1) } else { 0.0 };
        self.is_over.fetch_or(thread == 0, Ordering::SeqCst);
        while !self.is_over.load(Ordering::SeqCst) {
            assert!(self.names.iter().all(|(name, id)| of.find(name) == *id), "one was missed");
        }
        took
    }

    fn changers(&self, of: &impl Contender, thread: usize, changers: usize) -> f64 {
        self.all_here.wait();
        match thread < changers && changers <= self.threads {
            true => self.replaces(of, thread, changers),
            false => 0.0,
        }
    }

    fn work(&self, of: impl Contender, thread: usize) -> Times {
        if thread == 0 {
            self.names.iter().for_each(|(name, id)| of.add(*name, Item(id.unwrap())));
        }
        [
            self.timed(&of, &self.names, 1),
            self.timed(&of, &self.names, self.passes),
            self.timed(&of, &self.absent, self.passes),
            self.beside_readers(&of, thread),
            self.changers(&of, thread, 1),
            self.changers(&of, thread, 2),
        ]
    }

    /// The longest of all threads.
    fn run<C: Contender + Send>(&self, of: impl Fn() -> C) -> Times {
        thread::scope(|scope| {
            let all: Vec<_> = (0..self.threads)
                .map(|thread| (thread, of()))
                .map(|(thread, own)| scope.spawn(move || self.work(own, thread)))
                .collect();
            all.into_iter().map(|one| one.join().unwrap()).fold(Times::default(), |most, one| {
                std::array::from_fn(|which| f64::max(most[which], one[which]))
            })
        })
    }
}

/// What malloc says of its blocks, as C has it.
#[repr(C)]
struct Mallinfo {
    arena: usize,
    ordblks: usize,
    smblks: usize,
    hblks: usize,
    hblkhd: usize,
    usmblks: usize,
    fsmblks: usize,
    uordblks: usize,
    fordblks: usize,
    keepcost: usize,
}

extern "C" {
    fn mallinfo2() -> Mallinfo;
}

fn bytes_in_use() -> usize {
    // SAFETY: it takes nothing, and returns numbers.
    let info = unsafe { mallinfo2() };
    info.uordblks + info.hblkhd
}

fn main() {
    let words: Vec<String> = env::args().collect();
    let [_, contender, threads, entries, passes] = &words[..] else {
        panic!("CONTENDER THREADS ENTRIES PASSES");
    };
    let (threads, entries): (usize, u64) = (threads.parse().unwrap(), entries.parse().unwrap());
    let plan = Plan::new(threads, entries, passes.parse().unwrap());
    let before = bytes_in_use();
    let kept: Box<dyn std::any::Any>;
    let times = match contender.as_str() {
        "Table" => {
            let table = Arc::new(Table::open(threads as u8, (entries as u32) + 8).unwrap());
            kept = Box::new(Arc::clone(&table));
            plan.run(|| table.thread().unwrap())
        }
        #[cfg(with_dashmap)]
        "dashmap" => {
            let map = Arc::new(DashMap::with_capacity(entries as usize));
            kept = Box::new(Arc::clone(&map));
            plan.run(|| Arc::clone(&map))
        }
        "RwLock" => {
            let map = Arc::new(RwLock::new(HashMap::with_capacity(entries as usize)));
            kept = Box::new(Arc::clone(&map));
            plan.run(|| Arc::clone(&map))
        }
        other => panic!("{other}: Table, dashmap or RwLock"),
    };
    // What the values take isn't counted, as in C.
    let bytes = (bytes_in_use() - before) as f64 / entries as f64 - 64.0;
    drop(kept);
    let times: Vec<String> = times.iter().map(|time| format!("{time:.1}")).collect();
    println!("{contender} {threads} {entries} {} {bytes:.0}", times.join(" "));
}
