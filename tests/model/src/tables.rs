//! The lent tables, with the places of docs/LAYOUT.md.
use crate::calendar::Calendar;

pub const HEAD: usize = 224;
pub const PRICES: usize = 510;
pub const ROWS: usize = 3264;
pub const BOOK: usize = 2048;
pub const LINES: usize = 800;

pub const FIRST_YEAR: usize = 0;
pub const MEMBERS: usize = 1;
pub const HOLIDAY_COUNT: usize = 2;
pub const DAY: usize = 3;
pub const TIME: usize = 4;
pub const ACCEPTED: usize = 5;
pub const RUN: usize = 6;
pub const ORDER_COUNT: usize = 7;
pub const HOLIDAYS: usize = 8;
pub const LIMITS: usize = 128;
pub const MARKS: usize = 160;
pub const SUBMITS: usize = 192;

pub const GGF: usize = 0;
pub const LOW: usize = 1;
pub const HIGH: usize = 2;
pub const DAY_LOTS: usize = 3;
pub const DAY_VALUE: usize = 4;
pub const PRICE_WIDTH: usize = 5;

pub const ROW_WIDTH: usize = 32;
pub const ORDER_WIDTH: usize = 8;
pub const LINE_WIDTH: usize = 4;

pub const MOST_MEMBERS: u64 = 32;
pub const MOST_HOLIDAYS: u64 = 120;
pub const MOST_ORDERS: u64 = 256;
pub const MOST_PRICE: u64 = 1_000_000;
pub const MOST_LOTS: u64 = 100;
pub const MOST_LIMIT: u64 = 100_000;
pub const MOST_RUN: u64 = 5_000_000;
pub const MOST_ACCEPTED: u64 = 4_000_000_000;
pub const MOST_SUBMITS: u64 = 5;
pub const LAST_SECOND: u64 = 86_399;

#[derive(Clone, Debug, PartialEq, Eq)]
pub struct Tables {
    pub head: Vec<u64>,
    pub prices: Vec<u64>,
    pub lots: Vec<i64>,
    pub value: Vec<i64>,
    pub book: Vec<u64>,
    pub lines: Vec<i64>,
}

#[derive(Clone, Copy, Debug, PartialEq, Eq)]
pub enum Side {
    Buy,
    Sell,
}

impl Side {
    pub fn numbered(number: u64) -> Option<Side> {
        match number {
            0 => Some(Side::Buy),
            1 => Some(Side::Sell),
            _ => None,
        }
    }

    pub fn number(self) -> u64 {
        self as u64
    }

    /// Lots with the sign that they have in a row.
    pub fn signed(self, lots: u64) -> i64 {
        match self {
            Side::Buy => lots as i64,
            Side::Sell => -(lots as i64),
        }
    }

    pub fn other(self) -> Side {
        match self {
            Side::Buy => Side::Sell,
            Side::Sell => Side::Buy,
        }
    }

    /// Whether the first price is the better one of this side's orders.
    pub fn better(self, price: u64, than: u64) -> bool {
        match self {
            Side::Buy => price > than,
            Side::Sell => price < than,
        }
    }
}

#[derive(Clone, Copy, Debug, PartialEq, Eq)]
pub struct Order {
    pub number: u64,
    pub member: u64,
    pub contract: u64,
    pub side: Side,
    pub price: u64,
    pub lots: u64,
    pub day: u64,
    pub time: u64,
}

impl Order {
    fn numbers(&self) -> [u64; ORDER_WIDTH] {
        [self.number, self.member, self.contract, self.side.number(), self.price, self.lots, self.day, self.time]
    }

    /// Same contract and side, and a better price or the same price and a lower number.
    pub fn has_priority_over(&self, other: &Order) -> bool {
        self.contract == other.contract
            && self.side == other.side
            && (self.side.better(self.price, other.price) || self.price == other.price && self.number < other.number)
    }
}

#[derive(Clone, Copy, Debug, PartialEq, Eq)]
pub struct Line {
    pub member: u64,
    pub contract: u64,
    pub lots: i64,
    pub price: u64,
}

fn row(contract: u64, member: u64) -> usize {
    ROW_WIDTH * contract as usize + member as usize
}

impl Tables {
    /// Tables of the least lengths, all places 0.
    pub fn empty() -> Tables {
        Tables {
            head: vec![0; HEAD],
            prices: vec![0; PRICES],
            lots: vec![0; ROWS],
            value: vec![0; ROWS],
            book: vec![0; BOOK],
            lines: vec![0; LINES],
        }
    }

    pub fn members(&self) -> u64 {
        self.head[MEMBERS]
    }

    pub fn day(&self) -> u64 {
        self.head[DAY]
    }

    pub fn time(&self) -> u64 {
        self.head[TIME]
    }

    pub fn run(&self) -> u64 {
        self.head[RUN]
    }

    pub fn calendar(&self) -> Calendar<'_> {
        let holidays = HOLIDAYS..HOLIDAYS + self.head[HOLIDAY_COUNT] as usize;
        Calendar { first_year: self.head[FIRST_YEAR], holidays: &self.head[holidays] }
    }

    pub fn limit(&self, member: u64) -> u64 {
        self.head[LIMITS + member as usize]
    }

    pub fn is_defaulted(&self, member: u64) -> bool {
        self.head[MARKS + member as usize] == 1
    }

    pub fn submits(&self, member: u64) -> u64 {
        self.head[SUBMITS + member as usize]
    }

    /// One of a contract's five prices and day figures.
    pub fn price(&self, contract: u64, which: usize) -> u64 {
        self.prices[PRICE_WIDTH * contract as usize + which]
    }

    pub fn price_mut(&mut self, contract: u64, which: usize) -> &mut u64 {
        &mut self.prices[PRICE_WIDTH * contract as usize + which]
    }

    pub fn lots(&self, contract: u64, member: u64) -> i64 {
        self.lots[row(contract, member)]
    }

    pub fn value(&self, contract: u64, member: u64) -> i64 {
        self.value[row(contract, member)]
    }

    pub fn order_count(&self) -> usize {
        self.head[ORDER_COUNT] as usize
    }

    pub fn order(&self, place: usize) -> Order {
        let at = ORDER_WIDTH * place;
        let numbers: &[u64; ORDER_WIDTH] = self.book[at..at + ORDER_WIDTH].try_into().expect("eight numbers");
        let &[number, member, contract, side, price, lots, day, time] = numbers;
        let side = if side == 0 { Side::Buy } else { Side::Sell };
        Order { number, member, contract, side, price, lots, day, time }
    }

    /// The resting orders by place.
    pub fn orders(&self) -> impl Iterator<Item = Order> + '_ {
        (0..self.order_count()).map(|place| self.order(place))
    }

    pub fn put_order(&mut self, place: usize, order: &Order) {
        let at = ORDER_WIDTH * place;
        self.book[at..at + ORDER_WIDTH].copy_from_slice(&order.numbers());
    }

    pub fn add_order(&mut self, order: &Order) {
        self.put_order(self.order_count(), order);
        self.head[ORDER_COUNT] += 1;
    }

    /// Each order keeps the lots that `left` says; those left with none go. The others move down to places 0 on; places
    /// past them stay as they were, so lots are written only where an order comes to stand.
    pub fn keep_orders(&mut self, left: impl Fn(usize, &Order) -> u64) {
        let mut kept = 0;
        for place in 0..self.order_count() {
            let order = self.order(place);
            let lots = left(place, &order);
            if lots > 0 {
                self.put_order(kept, &Order { lots, ..order });
                kept += 1;
            }
        }
        self.head[ORDER_COUNT] = kept as u64;
    }

    pub fn remove_orders(&mut self, goes: impl Fn(&Order) -> bool) {
        self.keep_orders(|_, order| if goes(order) { 0 } else { order.lots });
    }

    pub fn line(&self, place: usize) -> Line {
        let at = LINE_WIDTH * place;
        let part = &self.lines[at..at + LINE_WIDTH];
        Line { member: part[0] as u64, contract: part[1] as u64, lots: part[2], price: part[3] as u64 }
    }

    /// Prints deal lines and books each: lots and value into its member's row, its lots into the lots run.
    pub fn book_lines(&mut self, lines: &[Line]) -> u64 {
        for (place, line) in lines.iter().enumerate() {
            let numbers = [line.member as i64, line.contract as i64, line.lots, line.price as i64];
            self.lines[LINE_WIDTH * place..LINE_WIDTH * (place + 1)].copy_from_slice(&numbers);
            let row = row(line.contract, line.member);
            self.lots[row] += line.lots;
            self.value[row] += line.lots * line.price as i64;
            self.head[RUN] += line.lots.unsigned_abs();
        }
        lines.len() as u64
    }

    /// An accepted record's time; a later one begins a new second, in which nobody has submitted.
    pub fn set_time(&mut self, time: u64) {
        if time > self.time() {
            self.head[TIME] = time;
            self.clear_submits();
        }
    }

    pub fn clear_submits(&mut self) {
        let members = self.members() as usize;
        self.head[SUBMITS..SUBMITS + members].fill(0);
    }

    /// Adds a contract's rows to those of its parts and sets them to zero.
    pub fn cascade(&mut self, contract: u64, parts: &[u64]) {
        for member in 0..self.members() {
            let from = row(contract, member);
            for &part in parts {
                let to = row(part, member);
                self.lots[to] += self.lots[from];
                self.value[to] += self.value[from];
            }
            self.lots[from] = 0;
            self.value[from] = 0;
        }
    }
}

/// Whether `lots` more would take the lots run past its end.
pub fn passes_run(tables: &Tables, lots: u64) -> bool {
    tables.run() + lots > MOST_RUN
}
