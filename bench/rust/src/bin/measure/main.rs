//! Times the Rattle head (libhead.a) and the fast Rust account on the same inputs, in one process. See bench/run.sh.
//!
//! measure times [samples]            the tables (a), (b), (c) in one process, (d), and the ratios that decide
//! measure text [LIMIT]               the event text of the measurements, on standard output
//! measure row                        the row of the measurements, as numbers (for stack.c)

mod sorts;

use fast::account::*;
use fast::head;
use fast::mix;
use std::hint::black_box;

/// The bytes of the account in C; the Rattle record has as many.
const RECORD: usize = head::ACCOUNT_SIZE;
const ROW: usize = 4_096;
const SEED: u64 = 1;

/// The value that a share of them is not above.
fn share(mut v: Vec<f64>, share: f64) -> f64 {
    v.sort_by(f64::total_cmp);
    v[((v.len() - 1) as f64 * share) as usize]
}

fn median(v: Vec<f64>) -> f64 {
    share(v, 0.5)
}

/// The median, and the lowest tenth: what a quieter machine would give.
fn both(v: &[f64]) -> String {
    let (m, l) = (median(v.to_vec()), share(v.to_vec(), 0.1));
    if m < 100.0 {
        format!("{m:.1} | {l:.1}")
    } else {
        format!("{m:.0} | {l:.0}")
    }
}

/// The median of the ratios of neighbours.
fn ratio(a: &[f64], b: &[f64]) -> f64 {
    median(a.iter().zip(b).map(|(a, b)| a / b).collect())
}

/// (long - short) / events, neighbour by neighbour.
fn difference(long: &[f64], short: &[f64], events: usize) -> Vec<f64> {
    long.iter().zip(short).map(|(l, s)| (l - s) / events as f64).collect()
}

/// Nanoseconds of each task, as many as `samples`, in turn so that a disturbance meets all alike.
fn in_turn(samples: usize, tasks: &mut [Box<dyn FnMut() -> f64 + '_>]) -> Vec<Vec<f64>> {
    let mut times = vec![Vec::with_capacity(samples); tasks.len()];
    for i in 0..samples + 2 {
        for (task, times) in tasks.iter_mut().zip(&mut times) {
            let t = task();
            // The first two warm up.
            if i >= 2 {
                times.push(t);
            }
        }
    }
    times
}

/// The thread's own time, in nanoseconds: what other processes take of the core is not in it.
fn clock() -> f64 {
    #[repr(C)]
    struct Timespec {
        seconds: i64,
        nanoseconds: i64,
    }
    extern "C" {
        fn clock_gettime(clock: i32, time: *mut Timespec) -> i32;
    }
    const CLOCK_THREAD_CPUTIME_ID: i32 = 3;
    let mut t = Timespec { seconds: 0, nanoseconds: 0 };
    unsafe { assert_eq!(clock_gettime(CLOCK_THREAD_CPUTIME_ID, &mut t), 0) };
    t.seconds as f64 * 1e9 + t.nanoseconds as f64
}

fn time(f: impl FnOnce()) -> f64 {
    let start = clock();
    f();
    clock() - start
}

/// A fresh account of C's.
fn opened(terms: &Terms) -> head::Account {
    let mut account = head::Account::filled(0);
    assert_eq!(head::open(&mut account, terms), 0);
    account
}

/// A row on a fresh account, by each side.
fn head_row<'a>(fresh: &'a head::Account, row: &'a [Event]) -> Box<dyn FnMut() -> f64 + 'a> {
    let mut codes = vec![0; row.len()];
    Box::new(move || {
        let mut account = Box::new(*fresh);
        time(|| _ = black_box(head::row(&mut account, black_box(row), &mut codes)))
    })
}

fn fast_row<'a>(fresh: &'a Account, row: &'a [Event]) -> Box<dyn FnMut() -> f64 + 'a> {
    let mut codes = vec![0; row.len()];
    Box::new(move || {
        let mut account = Box::new(*fresh);
        time(|| _ = black_box(account.row(black_box(row), &mut codes)))
    })
}

/// Both sides answer alike; the codes.
fn agreed(terms: &Terms, row: &[Event]) -> Vec<u8> {
    let mut lent = opened(terms);
    let mut account = Account::open(terms).unwrap();
    let mut codes = vec![0; row.len()];
    for (e, code) in row.iter().zip(&mut codes) {
        let (a, b) = (head::post(&mut lent, e), account.post(e));
        assert_eq!((a.code, a.value), (b.code as u64, b.value), "{e:?}");
        *code = b.code;
    }
    let r = head::readings(&lent);
    assert_eq!((r.balance, r.settled, r.plan, r.estimates), (account.balance(), account.settled(), account.plan(), account.estimates()));
    for month in 0..=15 {
        let (a, b) = (head::summary(&lent, month), account.summary(month));
        assert_eq!((a.code, a.kept_sum, a.reversed_sum, a.average), (b.code as u64, b.kept.1, b.reversed.1, b.average));
    }
    let (mut a, mut b) = (vec![0; row.len()], vec![0; row.len()]);
    assert_eq!(head::row(&mut opened(terms), row, &mut a), 0);
    assert_eq!(Account::open(terms).unwrap().row(row, &mut b), 0);
    assert!(a == codes && b == codes);
    codes
}

/// Memory for the copy: two accounts at chosen places.
#[repr(align(4096))]
struct Pages([u8; 65_536]);

/// Where the two accounts lie.
const PLACES: [(&str, usize, usize); 3] = [
    ("both at a page's start", 0, 12_288),
    ("side by side", 16, 16 + RECORD),
    ("10,000 apart", 8, 10_008),
];

/// Nanoseconds to copy an account to another place.
fn copy(pages: &mut Pages, from: usize, to: usize) -> f64 {
    assert!(from + RECORD <= to && to + RECORD <= pages.0.len());
    let base = pages.0.as_mut_ptr();
    let t = time(|| {
        for _ in 0..200 {
            unsafe {
                std::ptr::copy_nonoverlapping(black_box(base.add(from)), black_box(base.add(to)), black_box(RECORD));
                std::ptr::copy_nonoverlapping(black_box(base.add(to)), black_box(base.add(from)), black_box(RECORD));
            }
        }
    });
    t / 400.0
}

fn names() -> [&'static str; 12] {
    ["", "pay", "reverse", "credit", "charge", "estimate", "read", "warn", "mark", "plan", "disconnect", "connect"]
}

fn tell_mix(what: &str, row: &[Event], codes: &[u8]) {
    print!("{what}: {} events, {} accepted;", row.len(), codes.iter().filter(|&&c| c == 0).count());
    for sort in 1..=11 {
        print!(" {} {}", names()[sort], row.iter().filter(|e| e.sort == sort as u32).count());
    }
    print!("; refused:");
    for code in 1..=16 {
        let n = codes.iter().filter(|&&c| c == code).count();
        if n > 0 {
            print!(" {n} with {code}");
        }
    }
    println!();
}

/// What decides: a ratio and what it should be.
type Aims = Vec<(&'static str, f64, &'static str)>;

fn one_post(samples: usize, row: &[Event], aims: &mut Aims) {
    let fresh = opened(&mix::TERMS);
    let fast = Account::open(&mix::TERMS).unwrap();
    let (mut singly, mut fast_singly) = (Box::new(fresh), Box::new(fast));
    let mut pages: Vec<Box<Pages>> = PLACES.iter().map(|_| Box::new(Pages([1; 65_536]))).collect();
    let mut tasks: Vec<Box<dyn FnMut() -> f64>> = vec![
        Box::new(|| {
            *singly = fresh;
            time(|| row.iter().for_each(|e| _ = black_box(head::post(&mut singly, black_box(e)))))
        }),
        Box::new(|| {
            *fast_singly = fast;
            time(|| row.iter().for_each(|e| _ = black_box(fast_singly.post(black_box(e)))))
        }),
        head_row(&fresh, row),
        fast_row(&fast, row),
    ];
    for (pages, &(_, from, to)) in pages.iter_mut().zip(&PLACES) {
        tasks.push(Box::new(move || copy(pages, from, to)));
    }
    let mut times = in_turn(samples, &mut tasks);
    times[..4].iter_mut().flatten().for_each(|t| *t /= ROW as f64);
    let copies = &times[4..];
    let least = copies.iter().min_by(|a, b| median(a.to_vec()).total_cmp(&median(b.to_vec()))).unwrap();
    println!("\n## (a) One post, of the mix\n");
    println!("| | ns, median | lowest tenth | to the copy | to Rust |\n|---|---|---|---|---|");
    let tell = |name: &str, v: &[f64], rust: &[f64]| println!("| {name} | {} | {:.2} | {:.2} |", both(v), ratio(v, least), ratio(v, rust));
    tell("prepay_post", &times[0], &times[1]);
    tell("Rust post in place", &times[1], &times[1]);
    tell(&format!("prepay_row of {ROW}, an event"), &times[2], &times[3]);
    tell("Rust row, an event", &times[3], &times[3]);
    for ((place, ..), t) in PLACES.iter().zip(copies) {
        tell(&format!("bare copy of {RECORD} bytes, {place}"), t, &times[1]);
    }
    aims.extend([
        ("prepay_post to Rust's post in place", ratio(&times[0], &times[1]), "at most 4"),
        ("prepay_post to the lowest bare copy, one way", ratio(&times[0], least), "below 1"),
        ("an event of prepay_row to prepay_post", ratio(&times[2], &times[0]), "at most 1"),
    ]);

    println!("\nBy sort: (row with the timed events less row without them) / timed events\n");
    println!("| events timed | Rattle ns, median | lowest tenth | Rust ns, median | lowest tenth | ratio |\n|---|---|---|---|---|---|");
    for case in sorts::cases() {
        let whole: Vec<Event> = case.before.iter().chain(&case.timed).copied().collect();
        let codes = agreed(&case.terms, &whole);
        assert!(codes[..case.before.len()].iter().all(|&c| c == 0), "{}", case.name);
        assert!(codes[case.before.len()..].iter().all(|&c| c == case.code), "{}", case.name);
        let fresh = opened(&case.terms);
        let fast = Account::open(&case.terms).unwrap();
        let mut tasks = vec![
            head_row(&fresh, &case.before),
            head_row(&fresh, &whole),
            fast_row(&fast, &case.before),
            fast_row(&fast, &whole),
        ];
        let times = in_turn(samples / 2, &mut tasks);
        let rattle = difference(&times[1], &times[0], case.timed.len());
        let rust = difference(&times[3], &times[2], case.timed.len());
        println!("| {} ({}) | {} | {} | {:.1} |", case.name, case.timed.len(), both(&rattle), both(&rust), ratio(&rattle, &rust));
    }
}

fn other_calls(samples: usize, row: &[Event]) {
    const TIMES: u32 = 140;
    let (mut lent, mut account) = (Box::new(opened(&mix::TERMS)), Box::new(Account::open(&mix::TERMS).unwrap()));
    let (mut lent_fresh, mut fresh) = (lent.clone(), account.clone());
    let mut codes = vec![0; row.len()];
    assert_eq!((head::row(&mut lent, row, &mut codes), account.row(row, &mut codes)), (0, 0));
    let (lent, account, terms) = (&*lent, &*account, &mix::TERMS);
    let mut tasks: Vec<Box<dyn FnMut() -> f64>> = vec![
        Box::new(|| time(|| (0..TIMES).for_each(|_| _ = black_box(head::open(&mut lent_fresh, black_box(terms)))))),
        Box::new(|| time(|| (0..TIMES).for_each(|_| *fresh = Account::open(black_box(terms)).unwrap()))),
        Box::new(|| time(|| (0..TIMES).for_each(|_| _ = black_box(head::readings(black_box(lent)))))),
        Box::new(|| {
            time(|| {
                (0..TIMES).for_each(|_| {
                    let a = black_box(account);
                    black_box((a.balance(), a.settled(), a.plan(), a.estimates(), a.service()));
                })
            })
        }),
        Box::new(|| time(|| (0..TIMES).for_each(|i| _ = black_box(head::summary(black_box(lent), i % 14))))),
        Box::new(|| time(|| (0..TIMES).for_each(|i| _ = black_box(black_box(account).summary(i % 14))))),
    ];
    let mut times = in_turn(samples, &mut tasks);
    times.iter_mut().flatten().for_each(|t| *t /= TIMES as f64);
    println!("\n## (b) The other calls, after the row\n");
    println!("| | ns, median | lowest tenth | Rust ns, median | lowest tenth | ratio |\n|---|---|---|---|---|---|");
    for (name, t) in ["prepay_open", "prepay_readings", "prepay_summary, months 0 to 13"].iter().zip(times.chunks(2)) {
        println!("| {name} | {} | {} | {:.2} |", both(&t[0]), both(&t[1]), ratio(&t[0], &t[1]));
    }
}

/// Reads a text event by event, and does something with each.
fn by_events(text: &[u8], mut each: impl FnMut(&Event)) {
    let (mut reader, mut terms, mut event) = Default::default();
    assert_eq!(head::read_terms(text, &mut reader, &mut terms), 0);
    while head::read_event(text, &mut reader, &mut event) == 0 {
        each(&event);
    }
    assert_eq!(reader.code, head::END as u32);
}

/// Reads and posts a text event by event, as firmware does; the answers' codes added up.
fn posted(text: &[u8], account: &mut head::Account) -> u64 {
    let mut codes = 0;
    assert_eq!(head::open(account, &mix::TERMS), 0);
    by_events(text, |event| codes += head::post(account, event).code);
    codes
}

fn transcripts(samples: usize, aims: &mut Aims) {
    let (text, events) = mix::text(SEED, &mix::TERMS, head::MAX_TEXT);
    let (mut a, mut b) = (vec![0; head::TRANSCRIPT_ROOM], vec![0; head::TRANSCRIPT_ROOM]);
    let mut account = Box::new(head::Account::filled(0));
    let len = head::transcript(&text, &mut a);
    assert_eq!(len, fast::text::transcript(&text, &mut b));
    assert!(a[..len] == b[..len]);
    let codes = agreed(&mix::TERMS, &events);
    let sum = codes.iter().map(|&c| c as u64).sum::<u64>();
    let terms_alone = &text[..text.windows(4).position(|w| w == b"day=").unwrap()];
    let mut out = vec![0; head::STATEMENT_ROOM];
    let mut statement = |text: &[u8]| time(|| _ = black_box(head::statement(black_box(text), &mut out)));
    let mut pages = Box::new(Pages([1; 65_536]));
    let mut tasks: Vec<Box<dyn FnMut() -> f64>> = vec![
        Box::new(|| time(|| assert_eq!(len, head::transcript(black_box(&text), &mut a)))),
        Box::new(|| time(|| assert_eq!(len, fast::text::transcript(black_box(&text), &mut b)))),
        Box::new(|| time(|| assert_eq!(sum, posted(black_box(&text), &mut account)))),
        Box::new(|| time(|| by_events(black_box(&text), |e| _ = black_box(e)))),
        Box::new(|| statement(&text) - statement(terms_alone)),
        Box::new(|| PLACES.iter().map(|&(_, from, to)| copy(&mut pages, from, to)).fold(f64::MAX, f64::min)),
    ];
    let times = in_turn(samples, &mut tasks);
    println!("\n## (c) In one process: a text of {} bytes, {} events, to {len} bytes\n", text.len(), events.len());
    tell_mix("The mix, text", &events, &codes);
    println!();
    println!("| | us, median | lowest tenth | ns an event | ns a byte |\n|---|---|---|---|---|");
    let names = [
        "prepay_transcript",
        "Rust transcript",
        "prepay_read_event and prepay_post, event by event, nothing printed",
        "prepay_read_event alone",
        "prepay_statement, less that of the terms alone",
    ];
    for (name, t) in names.iter().zip(&times) {
        let t: Vec<f64> = t.iter().map(|t| t / 1e3).collect();
        let m = median(t.clone()) * 1e3;
        println!("| {name} | {} | {:.1} | {:.2} |", both(&t), m / events.len() as f64, m / text.len() as f64);
    }
    let by_value = difference(&times[4], &times[3], events.len());
    let floor: Vec<f64> = times[5].iter().map(|t| 2.0 * t).collect();
    println!(
        "\nRatio of the transcripts {:.1}. A post by value, of prepay_statement, which posts so, less the reading: ns {}; the floor, the lowest \
         bare copy there and back: {}.",
        ratio(&times[0], &times[1]),
        both(&by_value),
        both(&floor)
    );
    aims.push(("a post by value to the floor, the bare copy there and back", ratio(&by_value, &floor), "at most 2"));
}

/// Least, median, greatest, and the slope of the least squares line through (i, v[i]).
fn spread(v: &[f64]) -> (f64, f64, f64, f64) {
    let n = v.len() as f64;
    let (mx, my) = ((n - 1.0) / 2.0, v.iter().sum::<f64>() / n);
    let (mut xy, mut xx) = (0.0, 0.0);
    for (i, y) in v.iter().enumerate() {
        xy += (i as f64 - mx) * (y - my);
        xx += (i as f64 - mx) * (i as f64 - mx);
    }
    (v.iter().copied().fold(f64::MAX, f64::min), median(v.to_vec()), v.iter().copied().fold(0.0, f64::max), xy / xx)
}

/// The credit that is the first event, or the 4,096th, which is the last that is accepted: posted anew to the totals before it.
fn credit_after(count: usize, mixed: &[Event]) -> Box<dyn FnMut() -> f64> {
    const TIMES: usize = 1_000;
    let credit = Event { sort: CREDIT, day: 399, amount: 100, ..Event::default() };
    let mut account = Box::new(opened(&mix::TERMS));
    for e in mixed.iter().chain(std::iter::repeat(&credit)) {
        if account.totals.events as usize == count {
            break;
        }
        head::post(&mut account, e);
    }
    let before = account.totals;
    Box::new(move || {
        time(|| {
            for _ in 0..TIMES {
                account.totals = black_box(before);
                assert_eq!(black_box(head::post(&mut account, black_box(&credit))).code, 0);
            }
        }) / TIMES as f64
    })
}

fn kth_event(samples: usize, mixed: &[Event], aims: &mut Aims) {
    const BUCKET: usize = 256;
    let credits = vec![Event { sort: CREDIT, day: 3, amount: 100, ..Event::default() }; ROW];
    let (fresh, fast) = (opened(&mix::TERMS), Account::open(&mix::TERMS).unwrap());
    println!("\n## (d) The k-th event, k from 1 to {ROW}: single posts, timed {BUCKET} at a time\n");
    println!("| ns an event | least bucket | median bucket | greatest | slope, ns per 1,000 events |\n|---|---|---|---|---|");
    for (what, row) in [("credits", &credits[..]), ("the mix", mixed)] {
        for rattle in [true, false] {
            let mut buckets = vec![Vec::with_capacity(samples); ROW / BUCKET];
            for _ in 0..samples {
                let (mut lent, mut account) = (Box::new(fresh), Box::new(fast));
                for (events, bucket) in row.chunks(BUCKET).zip(&mut buckets) {
                    let t = if rattle {
                        time(|| events.iter().for_each(|e| _ = black_box(head::post(&mut lent, black_box(e)))))
                    } else {
                        time(|| events.iter().for_each(|e| _ = black_box(account.post(black_box(e)))))
                    };
                    bucket.push(t / BUCKET as f64);
                }
            }
            let buckets: Vec<f64> = buckets.into_iter().map(median).collect();
            let (least, middle, most, slope) = spread(&buckets);
            let name = if rattle { "prepay_post" } else { "Rust post" };
            println!("| {name}, {what} | {least:.1} | {middle:.1} | {most:.1} | {:+.2} |", slope * 1_000.0 / BUCKET as f64);
        }
    }
    let times = in_turn(samples, &mut [credit_after(0, mixed), credit_after(ROW - 1, mixed)]);
    println!(
        "\nA credit as the first event and as the {ROW}th, after the mix: ns {} and {} (medians and lowest tenths; the storing of the totals \
         before it is in both).",
        both(&times[0]),
        both(&times[1])
    );
    aims.push(("the 4,096th event to the first", ratio(&times[1], &times[0]), "1: it does not grow"));
}

fn times(samples: usize) {
    assert_eq!(head::version() as usize, head::VERSION);
    let row = mix::row(SEED, ROW);
    let codes = agreed(&mix::TERMS, &row);
    let mut aims = Vec::new();
    println!("{samples} runs each, both sides in turn in one process on one core; the thread's own time.\n");
    tell_mix("The mix, row", &row, &codes);
    println!("Sizes: prepay_account {RECORD} bytes, the Rust record {}, an event {}.", size_of::<Account>(), size_of::<Event>());
    one_post(samples, &row, &mut aims);
    other_calls(samples, &row);
    transcripts(samples, &mut aims);
    kth_event(samples, &row, &mut aims);
    println!("\n## The ratios that decide\n\n| | ratio | aim |\n|---|---|---|");
    for (what, ratio, aim) in aims {
        println!("| {what} | {ratio:.2} | {aim} |");
    }
}

fn main() {
    use std::io::Write;
    let args: Vec<String> = std::env::args().collect();
    let number = |i: usize, or: usize| args.get(i).map_or(or, |s| s.parse().expect("a number"));
    match args.get(1).map(String::as_str) {
        Some("times") => times(number(2, 101)),
        Some("text") => std::io::stdout().write_all(&mix::text(SEED, &mix::TERMS, number(2, head::MAX_TEXT)).0).unwrap(),
        Some("row") => {
            for e in mix::row(SEED, ROW) {
                println!("{} {} {} {} {} {} {} {} {}", e.sort, e.day, e.amount, e.number, e.kind, e.usage, e.wh, e.from, e.to);
            }
        }
        _ => panic!("measure times [samples] | text [limit] | row"),
    }
}
