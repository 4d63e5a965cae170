//! What lanes cost without proofs: the steps of lane_table's writes and reads on plain atomic words, without fuses.
//! usage: lanes_twin THREADS WRITES READS APART LINE LOGS AHEAD, as bench/lanes.rt.txt; reader words stand LINE words apart (1: side by side)
//! LOGS 0: no logs; 1: each lane keeps its calls and the words of its writes, in room that was reserved before, as lane_table does
//! AHEAD 1: before its scan a write loads a word of each line of its free block, as lane_table does
use std::env;
use std::hint::black_box;
use std::sync::atomic::{AtomicU64, Ordering::SeqCst};
use std::thread;
use std::time::Instant;

const SECTORS: u32 = 64_716;
const LANES: u32 = 256;
const WIDTH: usize = 64;
/// The arena's layout, in words.
const DATA_AT: usize = 4_096 / 8;
const MAP_AT: usize = 33_271_808 / 8;
const LOG_AT: usize = 33_533_952 / 8;
const TOTAL: usize = 33_554_432 / 8;

struct Arena {
    words: Vec<AtomicU64>,
    line: usize,
    ahead: bool,
}

struct Lane {
    number: u32,
    /// Its free block.
    block: u32,
    /// The side and the sequence number of its current log half.
    side: u32,
    seq: u32,
    log: Option<Log>,
}

/// A lane's calls, the words of its writes, and room for the words of those to come.
struct Log {
    calls: Vec<Call>,
    written: Vec<Vec<u64>>,
    rooms: Vec<Vec<u64>>,
}

/// A call in a log.
#[derive(Clone)]
struct Call {
    _session: u32,
    _call: u32,
    _sector: u32,
    _is_write: bool,
}

impl Log {
    /// The room is touched, so that no call waits for the system to find a page.
    fn new(writes: usize, reads: usize) -> Log {
        let none = Call { _session: 0, _call: 0, _sector: 0, _is_write: false };
        let rooms = (0..writes).map(|_| vec![0; WIDTH]).collect();
        let mut log = Log { calls: vec![none; writes + reads], written: vec![Vec::new(); writes], rooms };
        log.calls.clear();
        log.written.clear();
        log
    }

    fn add(&mut self, sector: u32, is_write: bool) {
        self.calls.push(Call { _session: 0, _call: 0, _sector: sector, _is_write: is_write });
    }
}

impl Lane {
    fn keep_write(&mut self, sector: u32, words: &[u64; WIDTH]) {
        if let Some(log) = &mut self.log {
            let mut room = log.rooms.pop().unwrap();
            room.copy_from_slice(words);
            log.written.push(room);
            log.add(sector, true);
        }
    }

    fn keep_read(&mut self, sector: u32) {
        if let Some(log) = &mut self.log {
            log.add(sector, false);
        }
    }
}

impl Arena {
    /// Every sector has zeros, and lane `l` has the free block behind the sectors'.
    fn new(line: usize, ahead: bool) -> (Arena, Vec<Lane>) {
        let words = (0..2 * TOTAL + LANES as usize * (line + 1)).map(|_| AtomicU64::new(0)).collect();
        let arena = Arena { words, line, ahead };
        for sector in 0..SECTORS {
            let word = arena.load(MAP_AT + sector as usize / 2);
            arena.keep(MAP_AT + sector as usize / 2, with_entry(word, sector, sector | 0x8000_0000));
        }
        let lanes = (0..LANES).map(|number| Lane { number, block: SECTORS + number, side: 0, seq: 1, log: None });
        (arena, lanes.collect())
    }

    fn load(&self, at: usize) -> u64 {
        self.words[at].load(SeqCst)
    }

    fn store(&self, at: usize, value: u64) {
        self.words[at].store(value, SeqCst);
    }

    /// Stores a word, and keeps it.
    fn keep(&self, at: usize, value: u64) {
        self.store(at, value);
        self.store(TOTAL + at, value);
    }

    fn reader(&self, lane: u32) -> usize {
        2 * TOTAL + lane as usize * self.line
    }

    fn lock(&self, sector: u32) -> usize {
        2 * TOTAL + LANES as usize * self.line + (sector / 2 % LANES) as usize
    }

    /// Whether no other lane reads the lane's free block.
    fn scan(&self, lane: &Lane) -> bool {
        (0..LANES - 1).all(|j| {
            let other = if j < lane.number { j } else { j + 1 };
            self.load(self.reader(other)) != u64::from(lane.block) + 1
        })
    }

    fn try_stage(&self, lane: &Lane, words: &[u64; WIDTH]) -> bool {
        let at = DATA_AT + lane.block as usize * WIDTH;
        if self.ahead {
            for first in [at, TOTAL + at] {
                for k in (0..WIDTH).step_by(8) {
                    self.load(first + k);
                }
            }
        }
        if !self.scan(lane) {
            return false;
        }
        for (k, word) in words.iter().enumerate() {
            self.store(at + k, *word);
        }
        for (k, word) in words.iter().enumerate() {
            self.store(TOTAL + at + k, *word);
        }
        true
    }

    fn try_commit(&self, lane: &mut Lane, sector: u32) -> bool {
        let lock = self.lock(sector);
        if self.words[lock].compare_exchange(0, u64::from(lane.number) + 1, SeqCst, SeqCst).is_err() {
            return false;
        }
        let map = MAP_AT + sector as usize / 2;
        let word = self.load(map);
        let old = block_of(entry_in(word, sector), sector);
        let log = LOG_AT + 8 * lane.number as usize + 2 * (1 - lane.side) as usize;
        let seq = lane.seq % 3 + 1;
        self.keep(log, u64::from(sector) | u64::from(old) << 32);
        self.keep(log + 1, u64::from(lane.block) | u64::from(seq) << 32);
        self.keep(map, with_entry(word, sector, lane.block | 0xC000_0000));
        self.store(lock, 0);
        (lane.block, lane.side, lane.seq) = (old, 1 - lane.side, seq);
        true
    }

    fn try_read(&self, lane: &Lane, sector: u32, into: &mut [u64; WIDTH]) -> bool {
        let map = MAP_AT + sector as usize / 2;
        let entry = entry_in(self.load(map), sector);
        if entry >> 30 == 2 {
            into.fill(0);
            return true;
        }
        let block = block_of(entry, sector);
        self.store(self.reader(lane.number), u64::from(block) + 1);
        let same = entry_in(self.load(map), sector) == entry;
        if same {
            let at = DATA_AT + block as usize * WIDTH;
            for (k, word) in into.iter_mut().enumerate() {
                *word = self.load(at + k);
            }
        }
        self.store(self.reader(lane.number), 0);
        same
    }

    fn write(&self, lane: &mut Lane, sector: u32, words: &[u64; WIDTH]) {
        while !self.try_stage(lane, words) {}
        while !self.try_commit(lane, sector) {}
        lane.keep_write(sector, words);
    }
}

fn entry_in(word: u64, sector: u32) -> u32 {
    (word >> (32 * (sector % 2))) as u32
}

fn with_entry(word: u64, sector: u32, entry: u32) -> u64 {
    let shift = 32 * (sector % 2);
    word & !(0xFFFF_FFFF << shift) | u64::from(entry) << shift
}

fn block_of(entry: u32, sector: u32) -> u32 {
    if entry >> 30 == 0 { sector } else { entry & 0x3FFF_FFFF }
}

fn random(seed: u64) -> u64 {
    seed.wrapping_mul(6_364_136_223_846_793_005).wrapping_add(1_442_695_040_888_963_407)
}

fn sector_of(random: u64) -> u32 {
    ((random >> 33) % u64::from(SECTORS)) as u32
}

fn write_many(arena: &Arena, lane: &mut Lane, calls: u32) {
    let mut seed = u64::from(lane.number);
    let mut words = [7; WIDTH];
    for _ in 0..calls {
        seed = random(seed);
        words[0] = seed;
        arena.write(lane, sector_of(seed), &words);
    }
}

fn read_many(arena: &Arena, lane: &mut Lane, calls: u32) {
    let mut seed = u64::from(lane.number);
    let mut words = [7; WIDTH];
    let mut sum = 0;
    for _ in 0..calls {
        seed = random(seed);
        while !arena.try_read(lane, sector_of(seed), &mut words) {}
        lane.keep_read(sector_of(seed));
        sum ^= words[(seed % 64) as usize];
    }
    black_box(sum);
}

/// The lanes make their calls at once, each in a thread. The threads are started as the proved program's library starts its own, the first
/// half by a new thread and the rest by this one: where Linux puts a thread depends on who started it.
fn at_once(arena: &Arena, lanes: &mut [Lane], calls: u32, many: fn(&Arena, &mut Lane, u32)) {
    if let [lane] = lanes {
        return many(arena, lane, calls);
    }
    let (first, rest) = lanes.split_at_mut(lanes.len() / 2);
    thread::scope(|scope| {
        scope.spawn(|| at_once(arena, first, calls, many));
        at_once(arena, rest, calls, many);
    });
}

/// Returns how many nanoseconds the calls of all lanes took.
fn run(arena: &Arena, lanes: &mut [Lane], calls: u32, many: fn(&Arena, &mut Lane, u32)) -> u128 {
    let start = Instant::now();
    at_once(arena, lanes, calls, many);
    start.elapsed().as_nanos()
}

fn main() {
    let numbers: Vec<u32> = env::args().skip(1).map(|word| word.parse().unwrap()).collect();
    let [threads, writes, reads, apart, line, logs, ahead] = numbers[..] else { panic!("lanes_twin THREADS WRITES READS APART LINE LOGS AHEAD") };
    let (arena, lanes) = Arena::new(line as usize, ahead == 1);
    let mut lanes: Vec<Lane> = lanes.into_iter().step_by(apart as usize).take(threads as usize).collect();
    if logs == 1 {
        for lane in &mut lanes {
            lane.log = Some(Log::new((SECTORS + 2 * writes) as usize, 2 * reads as usize));
        }
    }
    for sector in 0..SECTORS {
        arena.write(&mut lanes[0], sector, &[7; WIDTH]);
    }
    run(&arena, &mut lanes, writes, write_many);
    println!("write: {}", run(&arena, &mut lanes, writes, write_many));
    run(&arena, &mut lanes, reads, read_many);
    println!("read: {}", run(&arena, &mut lanes, reads, read_many));
}
