// Times the proved rules against a plain Rust version of the same loop, on the same inputs, in one run.
// bench/run builds and runs it. Columns: nanoseconds a call for each, their ratio, steps of the climb a call
// (the plain loop's, and with the leap that the proved climb makes after 15 steps).
use std::hint::black_box;
use std::time::Instant;

#[repr(C)]
#[derive(Clone, Copy)]
struct Record {
    priority: u32,
    period: u32,
    jitter: u32,
    least: u32,
    greatest: u32,
}

unsafe extern "C" {
    fn proved_worst(bit_time: u8, records: *const Record, count: usize, place: usize) -> u32;
}

fn is_row(r: &Record) -> bool {
    r.period >= 1 && r.period <= 10_000_000 && r.jitter <= 10_000_000 && r.least >= 1 && r.least <= r.greatest && r.greatest <= 20_000_000
}

fn asked(records: &[Record], priority: u32, base: u32, more: u8, n: u32) -> u64 {
    let mut sum = u64::from(base);
    for r in records {
        if r.priority < priority {
            let span = n + r.jitter + u32::from(more);
            sum += u64::from((span + (r.period - 1)) / r.period) * u64::from(r.greatest);
        }
    }
    sum
}

fn leap(records: &[Record], priority: u32, base: u32) -> u64 {
    let mut slope = 0u64;
    for r in records {
        if r.priority < priority {
            slope += (u64::from(r.greatest) << 32) / u64::from(r.period);
            if slope >= 1 << 32 {
                return u64::MAX;
            }
        }
    }
    (u64::from(base) << 32) / ((1 << 32) - slope)
}

// The smallest solution up to the limit; a patience of 0 never leaps.
fn climb(records: &[Record], priority: u32, base: u32, more: u8, limit: u32, mut patience: u32, steps: &mut u64) -> Option<u32> {
    let mut n = u64::from(base);
    for r in records {
        if r.priority < priority {
            n += u64::from(r.greatest);
        }
    }
    while n <= u64::from(limit) {
        *steps += 1;
        let next = asked(records, priority, base, more, n as u32);
        if next == n {
            return Some(n as u32);
        }
        patience = patience.saturating_sub(1);
        n = if patience == 1 { next.max(leap(records, priority, base)) } else { next };
    }
    None
}

#[inline(never)]
fn plain_worst(bit_time: u8, records: &[Record], place: usize, patience: u32, steps: &mut u64) -> u32 {
    if !records.iter().all(is_row) || place >= records.len() || records.len() > 256 {
        return 0;
    }
    let me = records[place];
    let (base, after) = if bit_time == 0 {
        (me.greatest, 0)
    } else {
        let longest = records.iter().filter(|r| me.priority <= r.priority).map(|r| r.greatest).max();
        (longest.unwrap_or(0), me.greatest)
    };
    let Some(room) = me.period.checked_sub(me.jitter).and_then(|n| n.checked_sub(after)) else {
        return 0;
    };
    climb(records, me.priority, base, bit_time, room, patience, steps).map_or(0, |n| n + after)
}

struct Random(u64);

impl Random {
    fn below(&mut self, n: u32) -> u32 {
        self.0 = self.0.wrapping_mul(6364136223846793005).wrapping_add(1442695040888963407);
        ((self.0 >> 33) as u32) % n
    }
}

// Rows of random periods and priorities whose demands come to `share` of the whole.
fn rows(count: usize, share: f64, seed: u64) -> Vec<Record> {
    let mut random = Random(seed);
    let mut priorities: Vec<u32> = (0..count as u32).collect();
    for i in (1..count).rev() {
        priorities.swap(i, random.below(i as u32 + 1) as usize);
    }
    let mut made = Vec::new();
    for &priority in &priorities {
        let period = 10_000 + random.below(990_000);
        let greatest = ((f64::from(period) * share / count as f64) as u32).max(1);
        made.push(Record { priority, period, jitter: random.below(100), least: 1, greatest });
    }
    made
}

// Higher rows that ask for nearly all, or all, in steps of one tick: the longest climbs.
fn slow_rows(all: bool) -> Vec<Record> {
    let row = |priority, period| Record { priority, period, jitter: 0, least: 1, greatest: 1 };
    let mut made: Vec<Record> = [2, 3, 7, 43, 1807].iter().enumerate().map(|(i, &t)| row(i as u32, t)).collect();
    if all {
        made = vec![row(0, 1)];
    }
    made.push(row(100, 10_000_000));
    made
}

// The places that are asked: all, or only that of the lowest row.
fn places(records: &[Record], lowest: bool) -> Vec<usize> {
    let last = records.iter().map(|r| r.priority).max();
    (0..records.len()).filter(|&place| !lowest || Some(records[place].priority) == last).collect()
}

fn compare(name: &str, bit_time: u8, records: &[Record], places: Vec<usize>) {
    let (mut plain_steps, mut leap_steps) = (0, 0);
    for &place in &places {
        let expected = plain_worst(bit_time, records, place, 0, &mut plain_steps);
        assert_eq!(plain_worst(bit_time, records, place, 16, &mut leap_steps), expected);
        assert_eq!(unsafe { proved_worst(bit_time, records.as_ptr(), records.len(), place) }, expected);
    }
    let once = Instant::now();
    for &place in &places {
        black_box(plain_worst(bit_time, black_box(records), place, 0, &mut 0));
    }
    let rounds = (20_000_000 / once.elapsed().as_nanos().max(1)).clamp(1, 2_000_000) as usize;
    let (mut plain, mut proved) = (f64::MAX, f64::MAX);
    for _ in 0..7 {
        let start = Instant::now();
        for _ in 0..rounds {
            for &place in &places {
                black_box(plain_worst(bit_time, black_box(records), place, 0, &mut 0));
            }
        }
        plain = plain.min(start.elapsed().as_nanos() as f64);
        let start = Instant::now();
        for _ in 0..rounds {
            for &place in &places {
                let records = black_box(records);
                black_box(unsafe { proved_worst(bit_time, records.as_ptr(), records.len(), place) });
            }
        }
        proved = proved.min(start.elapsed().as_nanos() as f64);
    }
    let calls = (rounds * places.len()) as f64;
    let each = |steps: u64| steps as f64 / places.len() as f64;
    println!("| {name} | {:.0} | {:.0} | {:.2} | {:.1} | {:.1} |", plain / calls, proved / calls, proved / plain, each(plain_steps), each(leap_steps));
}

fn main() {
    println!("| rows | plain Rust, ns | proved, ns | ratio | steps of the plain loop | steps with the leap |");
    println!("|---|---|---|---|---|---|");
    for bit_time in [0, 8] {
        let kind = if bit_time == 0 { "processor" } else { "bus" };
        for count in [1, 16, 64, 256] {
            let easy = rows(count, 0.3, 7);
            compare(&format!("{count}, {kind}, easy, every row"), bit_time, &easy, places(&easy, false));
            let mut hard = rows(count, 0.97, 7);
            compare(&format!("{count}, {kind}, hard, every row"), bit_time, &hard, places(&hard, false));
            let lowest = places(&hard, true);
            hard[lowest[0]].period = 10_000_000;
            compare(&format!("{count}, {kind}, hard, the lowest row"), bit_time, &hard, lowest);
        }
    }
    let nearly = slow_rows(false);
    compare("6, processor, the higher rows fill all but 1 / 3,263,442", 0, &nearly, places(&nearly, true));
    let full = slow_rows(true);
    compare("2, processor, the higher row fills all", 0, &full, places(&full, true));
}
