// The damage test of the proved library beside the same test in plain Rust, in one process on one machine.
// `damage compare N`: both answer alike on N tables made from a fixed seed; any difference ends it with an error.
// `damage measure`: nanoseconds a call, beside two plain forms.
use std::hint::black_box;
use std::time::Instant;

#[link(name = "host", kind = "static")]
extern "C" {
    fn ledger_is_damaged(
        head: *const u64, head_len: usize, prices: *const u64, prices_len: usize, lots: *const i64, lots_len: usize,
        value: *const i64, value_len: usize, book: *const u64, book_len: usize, lines: *const i64, lines_len: usize,
    ) -> u64;
}

struct Tables {
    head: Vec<u64>,
    prices: Vec<u64>,
    lots: Vec<i64>,
    value: Vec<i64>,
    book: Vec<u64>,
    lines: Vec<i64>,
}

fn proved(t: &Tables) -> bool {
    // Each slice is a pointer and a count; the library reads no place past the count.
    unsafe {
        ledger_is_damaged(
            t.head.as_ptr(), t.head.len(), t.prices.as_ptr(), t.prices.len(), t.lots.as_ptr(), t.lots.len(),
            t.value.as_ptr(), t.value.len(), t.book.as_ptr(), t.book.len(), t.lines.as_ptr(), t.lines.len(),
        ) != 0
    }
}

fn is_leap(y: u64) -> bool {
    y % 4 == 0 && y % 100 != 0 || y % 400 == 0
}

fn year_start(year: u64) -> u64 {
    (2020..year).map(|y| if is_leap(y) { 366 } else { 365 }).sum()
}

fn is_short(t: &Tables) -> bool {
    t.head.len() < 224 || t.prices.len() < 510 || t.lots.len() < 3264 || t.value.len() < 3264 || t.book.len() < 2048 || t.lines.len() < 800
}

// The span of a head that is sound.
fn head_span(head: &[u64]) -> Option<std::ops::Range<u64>> {
    let (year, members, holidays, day) = (head[0], head[1], head[2], head[3]);
    if !(2020..=2094).contains(&year) || !(1..=32).contains(&members) || holidays > 120 {
        return None;
    }
    let span = year_start(year)..year_start(year + 6);
    let list = &head[8..8 + holidays as usize];
    if list.windows(2).any(|w| w[0] >= w[1]) || list.iter().any(|d| !span.contains(d)) {
        return None;
    }
    if !span.contains(&day) || day % 7 == 3 || day % 7 == 4 || list.contains(&day) {
        return None;
    }
    if head[4] > 86_399 || head[5] > 4_000_000_000 || head[6] > 5_000_000 || head[7] > 256 {
        return None;
    }
    if (0..members as usize).any(|m| head[128 + m] > 100_000 || head[160 + m] > 1 || head[192 + m] > 5) {
        return None;
    }
    Some(span)
}

fn is_price_unsound(p: &[u64], run: u64) -> bool {
    p[0] > 1_000_000 || p[1] < 1 || p[1] > p[2] || p[2] > 1_000_000 || p[3] > run || p[4] < p[3] || p[4] > 1_000_000 * p[3]
}

fn is_order_unsound(o: &[u64], accepted: u64, members: u64, span: &std::ops::Range<u64>) -> bool {
    o[0] >= accepted || o[1] >= members || o[2] > 101 || o[3] > 1 || !(1..=1_000_000).contains(&o[4]) || !(1..=100).contains(&o[5]) || !span.contains(&o[6]) || o[7] > 86_399
}

// Loops left at the first fault.
fn plain_loops(t: &Tables) -> bool {
    if is_short(t) {
        return true;
    }
    let Some(span) = head_span(&t.head) else { return true };
    let (members, accepted, run, orders) = (t.head[1], t.head[5], t.head[6], t.head[7] as usize);
    for p in t.prices[..510].chunks_exact(5) {
        if is_price_unsound(p, run) {
            return true;
        }
    }
    for c in 0..102 {
        for m in 0..members as usize {
            if t.lots[c * 32 + m].unsigned_abs() > run || t.value[c * 32 + m].unsigned_abs() > 1_000_000 * run {
                return true;
            }
        }
    }
    let mut rising = true;
    for i in 0..orders {
        let o = &t.book[i * 8..i * 8 + 8];
        if is_order_unsound(o, accepted, members, &span) {
            return true;
        }
        rising &= i == 0 || t.book[i * 8 - 8] < o[0];
    }
    !rising && (0..orders).any(|i| (0..i).any(|j| t.book[i * 8] == t.book[j * 8]))
}

// Iterators over whole slices, and no way out of a row.
fn plain_iterators(t: &Tables) -> bool {
    if is_short(t) {
        return true;
    }
    let Some(span) = head_span(&t.head) else { return true };
    let (members, accepted, run, orders) = (t.head[1], t.head[5], t.head[6], t.head[7] as usize);
    if t.prices[..510].chunks_exact(5).any(|p| is_price_unsound(p, run)) {
        return true;
    }
    let n = members as usize;
    let within = |rows: &[i64], bound: u64| rows[..3264].chunks_exact(32).all(|row| row[..n].iter().fold(true, |ok, x| ok & (x.unsigned_abs() <= bound)));
    if !within(&t.lots, run) || !within(&t.value, 1_000_000 * run) {
        return true;
    }
    let book = &t.book[..orders * 8];
    if book.chunks_exact(8).any(|o| is_order_unsound(o, accepted, members, &span)) {
        return true;
    }
    let numbers = || book.iter().step_by(8);
    if numbers().zip(numbers().skip(1)).all(|(a, b)| a < b) {
        return false;
    }
    numbers().enumerate().any(|(i, a)| numbers().take(i).any(|b| a == b))
}

fn sound(members: u64, run: u64) -> Tables {
    let mut t = Tables { head: vec![0; 224], prices: vec![0; 510], lots: vec![0; 3264], value: vec![0; 3264], book: vec![0; 2048], lines: vec![0; 800] };
    t.head[..10].copy_from_slice(&[2021, members, 2, 369, 36_000, 300, run, 256, 500, 501]);
    for p in t.prices.chunks_exact_mut(5) {
        p.copy_from_slice(&[26_000, 1, 1_000_000, 0, 0]);
        if run > 9 {
            p[3..].copy_from_slice(&[10, 260_000]);
        }
    }
    for c in 0..102 {
        for m in 0..members as usize {
            let lots = (m as i64 - 5).clamp(-(run as i64), run as i64);
            t.lots[c * 32 + m] = lots;
            t.value[c * 32 + m] = 26_000 * lots;
        }
    }
    for (i, o) in t.book.chunks_exact_mut(8).enumerate() {
        o.copy_from_slice(&[i as u64, i as u64 % members, 17, i as u64 % 2, 26_000, 7, 369, 36_000]);
    }
    t
}

struct Seed(u64);

impl Seed {
    fn next(&mut self) -> u64 {
        self.0 ^= self.0 << 13;
        self.0 ^= self.0 >> 7;
        self.0 ^= self.0 << 17;
        self.0
    }

    fn of<T: Copy>(&mut self, list: &[T]) -> T {
        list[self.next() as usize % list.len()]
    }
}

// A sound table with one place changed by a little or a lot, or two numbers exchanged, or a table cut short.
fn changed(seed: &mut Seed) -> Tables {
    let members = seed.of(&[1, 2, 3, 8, 31, 32]);
    let run = seed.of(&[0, 1, 2, 1000, 1023, 1024, 5_000_000]);
    let mut t = sound(members, run);
    let edges = [
        0, 1, 2, 5, 6, 31, 32, 100, 101, 102, 120, 121, 256, 257, 299, 300, 365, 366, 369, 500, 2556, 2557, 86_399, 86_400, 100_000, 100_001, 1_000_000, 1_000_001,
        5_000_000, 5_000_001, 4_000_000_000, 4_000_000_001, run, run + 1, 1_000_000 * run, 1_000_000 * run + 1, 1 << 63, (1 << 63) - 1, u64::MAX,
    ];
    let near = [run as i64, 1_000_000 * run as i64, 512, 1024, 1 << 22, 1 << 42];
    let (place, edge) = (seed.next() as usize, seed.of(&edges));
    let row = (seed.of(&near) + seed.of(&[-1, 0, 1])) * seed.of(&[-1, 1]);
    match seed.next() % 12 {
        0 => t.head[place % 16] = edge,
        1 => t.head[place % 224] = edge,
        2 | 3 => t.prices[place % 510] = edge,
        4 => t.lots[place % 3264] = row,
        5 => t.lots[place % 102 * 32] = if edge % 2 == 0 { row } else { edge as i64 },
        6 => t.value[place % 3264] = row,
        7 => t.value[place % 102 * 32] = if edge % 2 == 0 { row } else { edge as i64 },
        8 | 9 => t.book[place % 2048] = edge,
        10 => t.book.swap(place % 256 * 8, seed.next() as usize % 256 * 8),
        _ => match place % 6 {
            0 => t.head.truncate(223),
            1 => t.prices.truncate(509),
            2 => t.lots.truncate(3263),
            3 => t.value.truncate(3263),
            4 => t.book.truncate(2047),
            _ => t.lines.truncate(799),
        },
    }
    t
}

fn compare(count: usize) {
    let (mut seed, mut damaged) = (Seed(1), 0);
    for i in 0..count {
        let t = changed(&mut seed);
        let answers = [proved(&t), plain_loops(&t), plain_iterators(&t)];
        assert!(answers == [answers[0]; 3], "table {i}: proved, loops, iterators answer {answers:?}");
        damaged += answers[0] as usize;
    }
    assert!(count / 5 < damaged && damaged < count - count / 5, "{damaged} of {count} damaged: the tables test too little");
    println!("{count} tables, {damaged} of them unsound: the proved test and two plain ones answer alike");
}

// The least nanoseconds for a call of each, in turn, of many rounds of 50 calls: long rounds are interrupted.
fn measure(members: u64) {
    let t = sound(members, 1000);
    let forms: [(&str, fn(&Tables) -> bool); 3] = [("proved", proved), ("loops", plain_loops), ("iterators", plain_iterators)];
    let mut least = [f64::MAX; 3];
    for _ in 0..4000 {
        for (k, (_, form)) in forms.iter().enumerate() {
            let start = Instant::now();
            for _ in 0..50 {
                black_box(form(black_box(&t)));
            }
            least[k] = least[k].min(start.elapsed().as_nanos() as f64 / 50.0);
        }
    }
    print!("{members} members, 256 orders:");
    for (k, (name, form)) in forms.iter().enumerate() {
        assert!(!form(&t));
        print!(" {name} {:.0} ns,", least[k]);
    }
    println!(" {:.2} of the better plain form", least[0] / least[1].min(least[2]));
}

fn main() {
    let words: Vec<String> = std::env::args().collect();
    match words.get(1).map(String::as_str) {
        Some("compare") => compare(words[2].parse().unwrap()),
        _ => [2u64, 8, 16, 31, 32].into_iter().for_each(measure),
    }
}
