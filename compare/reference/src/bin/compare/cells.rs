//! The numbers of an account by name, and wrong ones put into them.

use crate::generate;
use crate::rng::Rng;
use reference::head::{ACCOUNT_SIZE, PRICE_CELLS};
use reference::ledger::{Event, Terms};
use reference::numbers::{DayCells, Numbers, TermCells};
use reference::rows::Record;

/// One number of an account: its group, the place in it, its field.
#[derive(Clone, Copy, Debug, PartialEq, Eq)]
pub struct Cell {
    group: usize,
    index: usize,
    field: usize,
}

/// The groups as they stand in memory: name, bytes of a number, how many, fields.
const GROUPS: [(&str, usize, usize, &[&str]); 10] = [
    ("totals", 8, 1, &["credit", "debit", "plan", "standing"]),
    ("counts", 4, 1, &["count", "events", "last", "on"]),
    ("charges", 8, 75, &["sum"]),
    ("terms", 4, 1, &["year", "month", "day", "price", "connect", "cutoff", "share"]),
    ("prices", 4, PRICE_CELLS, &["day", "price"]),
    ("days", 4, 400, &["state", "wh", "cost"]),
    ("payments", 4, 128, &["day", "amount", "part", "reversed"]),
    ("spare", 4, 1, &["number"]),
    ("marks", 1, 400, &["byte"]),
    ("warned", 1, 400, &["byte"]),
];

/// Every byte of an account is one of these numbers'.
const _: () = {
    let (mut bytes, mut i) = (0, 0);
    while i < GROUPS.len() {
        bytes += GROUPS[i].1 * GROUPS[i].2 * GROUPS[i].3.len();
        i += 1;
    }
    assert!(bytes == ACCOUNT_SIZE);
};

impl Cell {
    fn at(self) -> std::ops::Range<usize> {
        let before: usize = GROUPS[..self.group].iter().map(|&(_, width, count, fields)| width * count * fields.len()).sum();
        let (_, width, _, fields) = GROUPS[self.group];
        let at = before + width * (self.index * fields.len() + self.field);
        at..at + width
    }

    pub fn get(self, n: &Numbers) -> u64 {
        let mut number = [0; 8];
        let at = self.at();
        number[..at.len()].copy_from_slice(&n.bytes()[at]);
        u64::from_le_bytes(number)
    }

    pub fn set(self, n: &mut Numbers, value: u64) {
        let at = self.at();
        let width = at.len();
        n.bytes_mut()[at].copy_from_slice(&value.to_le_bytes()[..width]);
    }

    pub fn name(self) -> String {
        let (group, _, _, fields) = GROUPS[self.group];
        format!("{group} {} {}", self.index, fields[self.field])
    }

    pub fn read(group: &str, index: &str, field: &str) -> Option<Cell> {
        let group = GROUPS.iter().position(|g| g.0 == group)?;
        let field = GROUPS[group].3.iter().position(|&f| f == field)?;
        let index = index.parse().ok().filter(|&i: &usize| i < GROUPS[group].2)?;
        Some(Cell { group, index, field })
    }

    fn all() -> impl Iterator<Item = Cell> {
        let fields = |group: usize, index: usize| (0..GROUPS[group].3.len()).map(move |field| Cell { group, index, field });
        (0..GROUPS.len()).flat_map(move |group| (0..GROUPS[group].2).flat_map(move |index| fields(group, index)))
    }
}

/// Where an account has other numbers than it should after so many accepted events. Credit and debit are taken by their difference. What
/// the header reads alike may be written alike: by each event `on`, one payment's `reversed` and one day that is blank may become 0, 0 and 0.
pub fn difference(good: &Numbers, got: &Numbers, events: usize) -> Option<String> {
    let balance = |n: &Numbers| n.totals.credit as i128 - n.totals.debit as i128;
    let mut good = *good;
    if balance(&good) != balance(got) {
        return Some(format!("credit less debit: reference {}, tested {}", balance(&good), balance(got)));
    }
    (good.totals.credit, good.totals.debit) = (got.totals.credit, got.totals.debit);
    if good == *got {
        return None;
    }
    let alike = |good: u32, got: u32| good > 1 && got == 0;
    if events > 0 && alike(good.totals.on, got.totals.on) {
        good.totals.on = 0;
    }
    let payments = good.payments.iter_mut().zip(&got.payments).filter(|(good, got)| alike(good.reversed, got.reversed));
    payments.take(events).for_each(|(good, _)| good.reversed = 0);
    let blank = |day: &DayCells| !matches!(day.state, 1 | 2);
    let days = good.days.iter_mut().zip(&got.days).filter(|(good, got)| good != got && blank(good) && **got == DayCells::default());
    days.take(events).for_each(|(good, _)| *good = DayCells::default());
    if good == *got {
        return None;
    }
    let cell = Cell::all().find(|c| c.get(&good) != c.get(got)).unwrap();
    Some(format!("{}: reference {}, tested {}", cell.name(), cell.get(&good), cell.get(got)))
}

// Wrong numbers.

const TOTAL: u64 = 1 << 60;

/// Some number for a cell: next to a limit, of too many bits, any, or good.
fn wrong(r: &mut Rng, cell: Cell) -> u64 {
    let flag = [0, 1, 2, 3, 255, 256, 257, 258, 65_537, (1 << 31) + 1, (1 << 31) + 2, u32::MAX as u64];
    let any = r.any_u32() as u64;
    match (GROUPS[cell.group].0, GROUPS[cell.group].3[cell.field]) {
        ("totals", field) => match r.below(30) {
            0 => r.pick(&[TOTAL + 1, TOTAL + 7_501, 1 << 61, 1 << 62, 1 << 63, u64::MAX - 1, u64::MAX]),
            1..=4 => r.pick(&[TOTAL, TOTAL - 1, TOTAL - 10_000_000, TOTAL - 7_500]),
            5..=7 => any,
            8..=20 if field == "plan" => 0,
            _ => r.below(12_000),
        },
        ("counts", "count") => match r.below(40) {
            0 => r.pick(&[129, 255, 256, 257, 1 << 31, u32::MAX as u64]),
            _ => r.pick(&[0, 1, 2, 3, 5, 126, 127, 128]),
        },
        ("counts", "events") => match r.below(20) {
            0 => r.pick(&[4_096, 4_097, 65_536, u32::MAX as u64]),
            1..=3 => r.pick(&[4_093, 4_094, 4_095]),
            _ => r.below(4_000),
        },
        ("counts", "last") => match r.below(30) {
            0 => r.pick(&[398, 399, 400, 65_536, u32::MAX as u64]),
            _ => r.below(4),
        },
        ("counts", _) => r.pick(&flag),
        ("charges", _) => match r.below(4) {
            0 => r.pick(&[(1 << 40) - 1, 1 << 40, (1 << 40) + 1]),
            1 => r.pick(&[TOTAL - 1, TOTAL, TOTAL + 1, 1 << 63, u64::MAX]),
            _ => any,
        },
        ("terms", field) => {
            let good = generate::good_terms(r);
            let t = TermCells::of(&if r.percent(90) { good } else { generate::edge_terms(r) });
            let TermCells { year, month, day, price, connect, cutoff, share } = t;
            (match field {
                "year" => year,
                "month" => month,
                "day" => day,
                "price" => price,
                "connect" => connect,
                "cutoff" => cutoff,
                _ => share,
            }) as u64
        }
        ("prices", "day") => match r.below(5) {
            0 => r.pick(&[398, 399, 400, 401, 65_536, u32::MAX as u64]),
            1 => r.pick(&[0, 400]),
            2 => r.below(12),
            _ => r.below(401),
        },
        ("prices", _) => match r.below(8) {
            0 => r.pick(&[100_000, 100_001, (1 << 17) + 1, 1 << 31, u32::MAX as u64]),
            1 => r.pick(&[0, 1, 99_999, 100_000, u32::MAX as u64]),
            2 => any,
            _ => r.range(1, 99_999) as u64,
        },
        (_, "state" | "reversed") if r.percent(50) => r.below(3),
        (_, "state" | "reversed") => r.pick(&flag),
        ("payments", "day") => match r.below(4) {
            0 => r.pick(&[398, 399, 400, 401, 430, 65_536, u32::MAX as u64]),
            _ => r.below(400),
        },
        ("marks", _) => match r.below(4) {
            0 => 0,
            1 => r.below(8),
            2 => r.pick(&[8, 64, 128, 0xF8]),
            _ => r.below(256),
        },
        ("warned", _) => r.pick(&[0, 0, 1, 1, 1, 2, 3, 128, 129, 255]),
        _ => match r.below(3) {
            0 => any,
            1 => r.pick(&[0, 1, 1 << 31, u32::MAX as u64]),
            _ => r.below(20_000),
        },
    }
}

/// All cells of the prices, for a price on day `x` or the price of a usage day: in order as an account's are, or not.
fn price_cells(r: &mut Rng, x: u32, usage: u32) -> Vec<(Cell, u64)> {
    let (x, usage) = (x as i64, usage.min(399) as i64);
    let mut days = [400; PRICE_CELLS];
    match r.below(8) {
        0 => days.fill(r.pick(&[0, 0, 400, usage, usage + 1, x, u32::MAX as i64])),
        1 => days = days.map(|_| r.range(0, 400)),
        2 => days = days.map(|_| r.pick(&[0, usage - 1, usage, usage + 1, x - 1, x, x + 1, 400]).max(0)),
        _ => {
            // The last one taken is near the two days.
            let taken = r.pick(&[1, 2, 3, 8, 16, 17, 17]);
            let last = r.pick(&[usage - 1, usage, usage, usage + 1, x - 1, x, x + 1, x + 9]);
            let step = r.pick(&[1, 1, 2, 7]);
            for (i, day) in days[..taken].iter_mut().enumerate() {
                *day = (last - step * (taken - 1 - i) as i64).max(i as i64);
            }
            if r.percent(80) {
                days[0] = 0;
            }
        }
    }
    for _ in 0..r.pick(&[0, 0, 0, 1, 1, 3]) {
        days[r.index(PRICE_CELLS)] = r.pick(&[0, usage, usage + 1, x, 398, 399, 400, 400, 400, 401, 65_536, u32::MAX as i64]);
    }
    if r.percent(15) {
        days.swap(r.index(PRICE_CELLS), r.index(PRICE_CELLS));
    }
    let zeros = r.percent(4);
    let mut cells = Vec::new();
    for index in 0..PRICE_CELLS {
        let cell = |field| Cell { group: GROUPS.iter().position(|g| g.0 == "prices").unwrap(), index, field };
        let price = wrong(r, cell(1));
        cells.push((cell(0), if zeros { 0 } else { days[index] as u64 }));
        cells.push((cell(1), if zeros { 0 } else { price }));
    }
    cells
}

/// An event on day `x`, and wrong numbers in the cells that it looks at.
pub fn pointed(r: &mut Rng, terms: &Terms, x: u32) -> (Vec<(Cell, u64)>, Record) {
    let amount = if r.percent(80) { 1 + r.below(9_000) as u32 } else { r.pick(&[1, 10_000_000]) };
    let (number, kind, usage) = (r.pick(&[0, 1, 2, 127]), r.range(1, 5) as u32, x.saturating_sub(1 + r.below(5) as u32));
    let usage = if r.percent(92) { usage } else { r.pick(&[x, x + 1, 399, 400, 401, 800, u32::MAX]) };
    let from = (x + r.below(3) as u32).min(399);
    let to = (from + r.below(4) as u32).min(399);
    let event = match r.below(14) {
        12 | 13 => Event::Price { price: r.pick(&[1, 2, 1_250, 2_500, 99_998, 99_999]) },
        0 => Event::Pay { amount },
        1 | 2 => Event::Reverse { number },
        3 => Event::Credit { amount },
        4 => Event::Charge { kind, amount },
        5 => Event::Estimate { usage, wh: r.below(60_000) as u32 },
        6 | 7 => Event::Read { usage, wh: r.below(60_000) as u32 },
        8 => r.pick(&[Event::Warn, Event::Mark { kind: 1 + kind % 3, from, to }]),
        9 => Event::Plan { kind: 1 + kind % 2 },
        10 => Event::Connect,
        _ => Event::Disconnect,
    };
    let mut names: Vec<(&str, u32)> = match event {
        Event::Pay { .. } => (0..4).map(|i| ("payments", i)).chain([("payments", 127)]).collect(),
        Event::Reverse { number } => vec![("payments", number); 3],
        Event::Charge { kind, .. } => vec![("charges", terms.month_of(x) * 5 + kind - 1)],
        Event::Estimate { usage, .. } | Event::Read { usage, .. } => vec![("days", usage.min(399)); 2],
        Event::Warn => vec![("warned", x)],
        Event::Mark { from, to, .. } => (from..=to).map(|day| ("marks", day)).collect(),
        Event::Plan { .. } => (x.saturating_sub(3)..=x).map(|day| ("marks", day)).collect(),
        Event::Disconnect => (x.saturating_sub(8)..=x).map(|day| ("warned", day)).chain([("marks", x)]).collect(),
        Event::Credit { .. } | Event::Connect | Event::Price { .. } => Vec::new(),
    };
    names.retain(|_| r.percent(75));
    let mut cells: Vec<(Cell, u64)> = Vec::new();
    for (name, index) in names {
        let group = GROUPS.iter().position(|g| g.0 == name).unwrap();
        for field in 0..GROUPS[group].3.len() {
            let cell = Cell { group, index: index as usize, field };
            if r.percent(70) {
                cells.push((cell, wrong(r, cell)));
            }
        }
    }
    if matches!(event, Event::Estimate { .. } | Event::Read { .. } | Event::Price { .. }) && r.percent(85) {
        cells.extend(price_cells(r, x, usage));
    }
    for cell in Cell::all().filter(|c| matches!(GROUPS[c.group].0, "totals" | "counts")) {
        if r.percent(25) {
            cells.push((cell, wrong(r, cell)));
        }
    }
    // What must hold so that the event comes to these cells.
    let mut put = |group: &str, field: &str, value: u64| cells.push((Cell::read(group, "0", field).unwrap(), value));
    if r.percent(90) {
        match event {
            Event::Reverse { .. } => put("counts", "count", 128),
            Event::Plan { .. } => put("totals", "plan", 0),
            Event::Disconnect => put("counts", "on", 1),
            Event::Connect => put("counts", "on", r.pick(&[0, 2, 257])),
            _ => {}
        }
        match event {
            Event::Plan { .. } | Event::Disconnect if r.percent(70) => put("totals", "credit", 0),
            Event::Connect if r.percent(70) => put("totals", "debit", 0),
            _ => {}
        }
        put("counts", "last", x as u64);
    }
    (cells, Record::of(x, event))
}

/// Wrong numbers in what the page of a month shows: payments, usage days, sums of charges.
pub fn of_page(r: &mut Rng, terms: &Terms, month: u32) -> Vec<(Cell, u64)> {
    let days = generate::days_of(terms, month);
    let mut cells: Vec<(Cell, u64)> = Vec::new();
    let mut put = |group: &str, index: usize, field: &str, value: u64| {
        cells.push((Cell::read(group, &index.to_string(), field).expect("a cell"), value));
    };
    let most = r.percent(8);
    let any = |r: &mut Rng| if most { u32::MAX } else { r.pick(&[0, 1, 9, 10, 99, 100, 12_345, 1 << 31, u32::MAX]) } as u64;
    if r.percent(60) {
        let count = r.pick(&[0, 1, 2, 3, 5, 127, 128]);
        let whole = r.percent(30);
        let some_day = |r: &mut Rng| match r.below(8) {
            0 => r.pick(&[0, 399, 400, 401, 65_536, u32::MAX]),
            1 => r.below(400) as u32,
            _ => days.get(r.index(days.len().max(1))).copied().unwrap_or(0),
        };
        put("counts", 0, "count", count);
        for index in 0..if whole { 128 } else { 4 } {
            put("payments", index, "day", if whole && !days.is_empty() { r.pick(&days) } else { some_day(r) } as u64);
            put("payments", index, "amount", any(r));
            put("payments", index, "reversed", if whole { 0 } else { r.pick(&[0, 0, 1, 2, 255, 256, 257, u32::MAX as u64]) });
        }
    }
    if month < 15 {
        for kind in 0..5 {
            if r.percent(60) {
                let sum = match r.below(12) {
                    0 => r.pick(&[(1 << 40) + 1, TOTAL, 1 << 63, u64::MAX]),
                    1 => r.pick(&[(1 << 40) - 1, 1 << 40, 1 << 40, (1 << 40) + 1]),
                    2 => 99_999_999,
                    _ => any(r),
                };
                put("charges", month as usize * 5 + kind, "sum", sum);
            }
        }
    }
    let (share, no_energy) = if most { (100, false) } else { (r.pick(&[0, 5, 30, 100]), r.percent(30)) };
    for &day in &days {
        if r.percent(share) {
            put("days", day as usize, "state", if most { 2 } else { r.pick(&[0, 1, 1, 2, 2, 3, 257]) });
            put("days", day as usize, "wh", if no_energy { 0 } else { any(r) });
            put("days", day as usize, "cost", any(r));
        } else if r.percent(70) {
            put("days", day as usize, "state", 0);
        }
    }
    for name in ["credit", "debit", "plan", "standing"] {
        if r.percent(80) {
            put("totals", 0, name, r.pick(&[0, 5_000, TOTAL]));
        }
    }
    cells
}

/// Cells of an account with wrong numbers: a few near what the coming records touch, or most of them.
pub fn damage(r: &mut Rng, coming: &[Record]) -> Vec<(Cell, u64)> {
    let put = |r: &mut Rng, cell| (cell, wrong(r, cell));
    if r.percent(25) {
        // As if anything stood there; the terms and totals mostly such that it is an account.
        let (share, kept) = (r.pick(&[30, 100]), r.percent(90));
        return Cell::all()
            .filter(|c| match GROUPS[c.group].0 {
                "terms" => !kept,
                "totals" | "counts" => r.percent(30),
                _ => r.percent(share),
            })
            .collect::<Vec<Cell>>()
            .into_iter()
            .map(|c| put(r, c))
            .collect();
    }
    let few = r.pick(&[1, 1, 2, 3, 6, 20]);
    let of_group = |r: &mut Rng| {
        let group = r.weighted(&[12, 14, 8, 3, 14, 30, 20, 1, 8, 8]);
        let (name, _, count, fields) = GROUPS[group];
        let field = r.index(fields.len());
        let near = coming.get(r.index(coming.len().clamp(1, 6))).copied().unwrap_or_default();
        let index = match name {
            "payments" => r.pick(&[near.number as usize, 0, 0, 1, 2, 127]),
            "charges" if r.percent(80) => r.index(10),
            "prices" => r.pick(&[0, 0, 1, 1, 2, 3, 15, 16]),
            "days" => near.usage as usize,
            "warned" => (near.day as usize).wrapping_sub(r.index(9)),
            "marks" => (near.day as usize).wrapping_sub(r.index(5)),
            _ => r.index(count),
        };
        Cell { group, index: if index < count { index } else { r.index(count) }, field }
    };
    (0..few)
        .map(|_| of_group(r))
        .collect::<Vec<Cell>>()
        .into_iter()
        .map(|c| put(r, c))
        .collect()
}
