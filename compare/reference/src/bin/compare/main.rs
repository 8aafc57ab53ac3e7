//! Feeds the same event texts to the reference and to the programs and calls
//! under test, and compares what they print, byte for byte; and the same lists
//! of calls (openings, single posts, rows) to the reference's ledger and to the library.

mod calls;
mod cells;
mod damage;
mod execute;
mod generate;
mod lent;
mod rng;
mod shrink;
mod stats;

use calls::{Difference, List};
use execute::{End, Feed, Output, Runner};
use lent::{by_events, page_after, Guarded, Printer, Room};
use reference::head;
use reference::text::Run;
use reference::{page, summary, text};
use rng::Rng;
use std::cell::RefCell;
use std::collections::BTreeMap;
use std::ffi::OsString;
use std::fs::File;
use std::io::Write;
use std::os::unix::ffi::OsStrExt;
use std::os::unix::fs::FileExt;
use std::path::{Path, PathBuf};
use std::process::exit;
use std::time::{Duration, Instant};

const USAGE: &str = "usage: compare [--prepay PROGRAM] [--summary PROGRAM] [--page PROGRAM] [--texts N] [--lists N] [--seed S] [--start I]
               [--programs PERCENT] [--places N] [--failures FOLDER] [--most-failures N] [--shrink-seconds N]
               [--progress FILE] [--text FILE] [--calls FILE] [--show I] [--show-list I]
  --prepay, --summary, --page  the programs under test; the references lie beside this program. The library is linked in
  --texts, --lists     how many texts (default 20000) and lists of calls (default 20000)
  --seed, --start      from which seed (default 1), from which index on (default 0): text I and list I are the same
                       in every run of a seed
  --programs           for how many of a hundred texts the programs are started too (default 10)
  --places             for how many of a thousand texts a short one is damaged at every place (default 10)
  --failures           where failing texts and lists go (default: failures)
  --most-failures      stop after so many differences (default 10)
  --shrink-seconds     time for making a failing text or list small (default 60)
  --progress FILE      where the run stands, if a call of the library should end it
  --text FILE          compare this one text only
  --calls FILE         compare this one list of calls only
  --show I             print text I of the seed and stop; --show-list I list I";

/// Document 01's worked example.
const EXAMPLE: &[u8] = b"open=2024-01-01\nprice=1250\nconnect=5000\ncutoff=1000\nshare=50\n\
day=0\ndo=pay\namount=6000\nday=0\ndo=connect\nday=2\ndo=estimate\nusage=1\nwh=30000\n\
day=3\ndo=read\nusage=1\nwh=32000\nday=3\ndo=warn\nday=3\ndo=charge\nkind=1\namount=4700\n\
day=3\ndo=disconnect\nday=4\ndo=disconnect\nday=5\ndo=pay\namount=4000\nday=5\ndo=connect\n";

/// The figures of T-01: 30,000 Wh before and after the price moved, and a read after it of a day estimated before.
const PRICES: &[u8] = b"open=2024-01-01\nprice=1250\nconnect=5000\ncutoff=1000\nshare=50\n\
day=0\ndo=price\nprice=1250\nday=5\ndo=estimate\nusage=4\nwh=30000\nday=5\ndo=price\nprice=2500\n\
day=6\ndo=read\nusage=5\nwh=30000\nday=6\ndo=read\nusage=4\nwh=32000\nday=7\ndo=price\nprice=100000\n";

struct Options {
    prepay: Option<PathBuf>,
    summary: Option<PathBuf>,
    page: Option<PathBuf>,
    texts: u64,
    lists: u64,
    seed: u64,
    start: u64,
    programs: u64,
    places: u64,
    failures: PathBuf,
    most_failures: u64,
    shrink_seconds: u64,
    progress: Option<PathBuf>,
    text: Option<PathBuf>,
    calls: Option<PathBuf>,
    show: Option<u64>,
    show_list: Option<u64>,
}

fn options() -> Options {
    let mut o = Options {
        prepay: None,
        summary: None,
        page: None,
        texts: 20_000,
        lists: 20_000,
        seed: 1,
        start: 0,
        programs: 10,
        places: 10,
        failures: PathBuf::from("failures"),
        most_failures: 10,
        shrink_seconds: 60,
        progress: None,
        text: None,
        calls: None,
        show: None,
        show_list: None,
    };
    let stop = |message: String| -> ! {
        eprintln!("{message}\n{USAGE}");
        exit(2)
    };
    let mut args = std::env::args().skip(1);
    while let Some(key) = args.next() {
        let Some(value) = args.next() else { stop(format!("{key}: no value")) };
        let number = || value.parse::<u64>().unwrap_or_else(|_| stop(format!("{key} {value}: not a number")));
        match key.as_str() {
            "--prepay" => o.prepay = Some(PathBuf::from(&value)),
            "--summary" => o.summary = Some(PathBuf::from(&value)),
            "--page" => o.page = Some(PathBuf::from(&value)),
            "--texts" => o.texts = number(),
            "--lists" => o.lists = number(),
            "--programs" => o.programs = number(),
            "--places" => o.places = number(),
            "--progress" => o.progress = Some(PathBuf::from(&value)),
            "--calls" => o.calls = Some(PathBuf::from(&value)),
            "--show-list" => o.show_list = Some(number()),
            "--seed" => o.seed = number(),
            "--start" => o.start = number(),
            "--failures" => o.failures = PathBuf::from(&value),
            "--most-failures" => o.most_failures = number(),
            "--shrink-seconds" => o.shrink_seconds = number(),
            "--text" => o.text = Some(PathBuf::from(&value)),
            "--show" => o.show = Some(number()),
            _ => stop(format!("{key}: unknown")),
        }
    }
    o
}

/// What is under test: a program, or a call of the library.
enum Side {
    Program { reference: PathBuf, tested: PathBuf },
    Library(Printer),
    /// Read and posted event by event.
    Events,
    /// The same, then a month's page.
    Page,
}

/// A reference and what must print the same.
struct Pair {
    name: &'static str,
    side: Side,
    print: Print,
}

/// What a run prints, of a month or not.
#[derive(Clone, Copy)]
enum Print {
    All(fn(&Run) -> String),
    Month(fn(&Run, u32) -> String),
}

/// How a text is given: how it comes to a program; a program's arguments; the byte that buffers lent for a page hold.
#[derive(Clone, Debug)]
struct Way {
    feed: Feed,
    args: Vec<OsString>,
    fill: u8,
}

impl Way {
    fn of_month(feed: Feed, month: u32, fill: u8) -> Way {
        Way { feed, args: vec![month.to_string().into()], fill }
    }

    /// The month that the arguments name.
    fn month(&self) -> Option<u32> {
        page::argument(&self.args.iter().map(|a| a.as_bytes()).collect::<Vec<_>>())
    }
}

impl Pair {
    fn is_program(&self) -> bool {
        matches!(self.side, Side::Program { .. })
    }

    fn is_of_month(&self) -> bool {
        matches!(self.print, Print::Month(_))
    }

    /// What it prints, and the status with which a program for it ends.
    fn prints(&self, run: &Run, way: &Way) -> Output {
        let (printed, status) = match self.print {
            Print::All(print) => (print(run), 0),
            Print::Month(print) => way.month().map_or((String::new(), 2), |m| (print(run, m), 0)),
        };
        Output { bytes: printed.into_bytes(), end: End::Exit(status) }
    }

    /// Of the exit codes of `prepay` and `summary` the papers say nothing: they are counted, not compared. A program that is killed or
    /// does not end has failed.
    fn differs(&self, good: &Output, got: &Output) -> bool {
        let ended = if self.is_of_month() { got.end == good.end } else { matches!(got.end, End::Exit(_)) };
        got.bytes != good.bytes || !ended
    }
}

/// Means of running the sides.
struct Bench {
    runner: Runner,
    room: RefCell<Room>,
}

impl Bench {
    fn program(&self, program: &Path, text: &[u8], way: &Way) -> Output {
        self.runner.run(program, &way.args, text, way.feed).unwrap_or_else(|e| {
            eprintln!("{}: {e}", program.display());
            exit(2)
        })
    }

    /// What the reference makes of a text.
    fn good(&self, pair: &Pair, text: &[u8], way: &Way) -> Output {
        match &pair.side {
            Side::Program { reference, .. } => self.program(reference, text, way),
            Side::Library(_) | Side::Events | Side::Page => pair.prints(&text::run(text), way),
        }
    }

    /// What the side under test makes of it.
    fn tested(&self, pair: &Pair, text: &[u8], way: &Way) -> Output {
        let printed = match &pair.side {
            Side::Program { tested, .. } => return self.program(tested, text, way),
            Side::Library(printer) => self.room.borrow_mut().print(*printer, text, text.len() % 130),
            Side::Events => by_events(text),
            Side::Page => page_after(text, way.month().expect("a month"), way.fill),
        };
        match printed {
            Ok(bytes) => Output { bytes, end: End::Exit(0) },
            Err(what) => Output { bytes: Vec::new(), end: End::Wrong(what) },
        }
    }
}

/// Text with everything but plain characters and line feeds escaped.
fn visible(bytes: &[u8], most: usize) -> String {
    let mut s = String::new();
    for line in bytes[..bytes.len().min(most)].split_inclusive(|&b| b == b'\n') {
        let (body, end) = match line.strip_suffix(b"\n") {
            Some(body) => (body, "\n"),
            None => (line, "<no line feed>\n"),
        };
        s.push_str("    ");
        s.push_str(&body.escape_ascii().to_string());
        s.push_str(end);
    }
    if bytes.len() > most {
        s.push_str(&format!("    .. {} bytes in all\n", bytes.len()));
    }
    s
}

fn first_different_line(a: &[u8], b: &[u8]) -> String {
    let mut a = a.split_inclusive(|&b| b == b'\n');
    let mut b = b.split_inclusive(|&b| b == b'\n');
    for n in 1.. {
        let (x, y) = (a.next(), b.next());
        if x != y {
            let show = |l: Option<&[u8]>| l.map_or("<end>".to_string(), |l| l.escape_ascii().to_string());
            return format!("line {n}: reference {}\n    {:>w$} tested    {}", show(x), "", show(y), w = 5 + n.to_string().len());
        }
        if x.is_none() {
            break;
        }
    }
    "same lines".to_string()
}

fn save(o: &Options, name: &str, files: &[(&str, &[u8])]) {
    if let Err(e) = std::fs::create_dir_all(&o.failures) {
        println!("  {}: {e}", o.failures.display());
        return;
    }
    for (i, (end, bytes)) in files.iter().enumerate() {
        let path = o.failures.join(format!("{name}.{end}"));
        match std::fs::write(&path, bytes) {
            Ok(()) if i == 0 => println!("  saved as {}", path.display()),
            Ok(()) => {}
            Err(e) => println!("  {}: {e}", path.display()),
        }
    }
}

fn report(o: &Options, bench: &Bench, pair: &Pair, name: &str, text: &[u8], way: &Way) {
    let (good, got) = (bench.good(pair, text, way), bench.tested(pair, text, way));
    if !pair.differs(&good, &got) {
        println!("  (did not come up again)");
        return;
    }
    println!("  {} bytes, {way:?}, what was tested ended with {:?}", text.len(), got.end);
    println!("    {}", first_different_line(&good.bytes, &got.bytes));
    let started = Instant::now();
    let small = shrink::shrink(text, 20_000, |t| {
        // Past its time it ends as it is.
        if started.elapsed() > Duration::from_secs(o.shrink_seconds) {
            return false;
        }
        pair.differs(&pair.prints(&text::run(t), way), &bench.tested(pair, t, way))
    });
    let (good, got) = (bench.good(pair, &small, way), bench.tested(pair, &small, way));
    println!("  shrunk to {} bytes, ended with {:?}:", small.len(), got.end);
    print!("{}", visible(&small, 2_000));
    println!("  reference:");
    print!("{}", visible(&good.bytes, 1_500));
    println!("  tested:");
    print!("{}", visible(&got.bytes, 1_500));
    save(o, name, &[("txt", &small), ("whole.txt", text), ("reference.out", &good.bytes), ("tested.out", &got.bytes)]);
}

fn report_list(o: &Options, name: &str, list: &List, found: &Difference) {
    let mut account = Guarded::new(head::Account::filled(0));
    println!("  call {} of {}: {}", found.call + 1, list.calls.len(), found.what);
    let started = Instant::now();
    let small = calls::shrink(list, 20_000, |l| {
        started.elapsed() < Duration::from_secs(o.shrink_seconds) && calls::run(l, &mut account, None).is_some()
    });
    let written = calls::write(&small);
    println!("  shrunk to {} bytes:", written.len());
    print!("{}", visible(written.as_bytes(), 2_000));
    match calls::run(&small, &mut account, None) {
        Some(d) => println!("  call {}: {}", d.call + 1, d.what),
        None => println!("  (did not come up again)"),
    }
    save(o, name, &[("calls", written.as_bytes()), ("whole.calls", calls::write(list).as_bytes())]);
}

/// Differences found so far, and where the run stands: kept in a file, so that it can be
/// seen where a call of the library ended the program.
struct Progress {
    differences: u64,
    file: Option<File>,
}

impl Progress {
    fn at(&self, what: &str, seed: u64, i: u64) {
        if let Some(file) = &self.file {
            let _ = file.write_all_at(format!("{:<60}\n", format!("--seed {seed} --start {i}: {what}")).as_bytes(), 0);
        }
    }
}

fn main() {
    let o = options();
    if let Some(i) = o.show {
        let (text, maker) = generate::text(&mut Rng::for_text(o.seed, i));
        eprintln!("seed {} text {i}: {maker}, {} bytes", o.seed, text.len());
        let _ = std::io::stdout().write_all(&text);
        return;
    }
    if let Some(i) = o.show_list {
        let (list, maker) = calls::list(&mut Rng::for_list(o.seed, i));
        eprintln!("seed {} list {i}: {maker}, {} calls", o.seed, list.calls.len());
        print!("{}", calls::write(&list));
        return;
    }
    let here = std::env::current_exe().unwrap().parent().unwrap().to_path_buf();
    let mut pairs = vec![
        Pair { name: "prepay_transcript", side: Side::Library(Printer::Transcript), print: Print::All(text::print) },
        Pair { name: "prepay_statement", side: Side::Library(Printer::Statement), print: Print::All(summary::print) },
        Pair { name: "prepay_read_event", side: Side::Events, print: Print::All(text::print) },
        Pair { name: "prepay_page", side: Side::Page, print: Print::Month(page::print) },
    ];
    let program = |name: &str, tested: &PathBuf| Side::Program { reference: here.join(name), tested: tested.clone() };
    if let Some(tested) = &o.prepay {
        pairs.push(Pair { name: "prepay", side: program("prepay_ref", tested), print: Print::All(text::print) });
    }
    if let Some(tested) = &o.summary {
        pairs.push(Pair { name: "summary", side: program("summary_ref", tested), print: Print::All(summary::print) });
    }
    if let Some(tested) = &o.page {
        pairs.push(Pair { name: "page", side: program("page_ref", tested), print: Print::Month(page::print) });
    }
    let bench = Bench { runner: Runner::new().expect("scratch file"), room: RefCell::new(Room::new()) };
    for p in &pairs {
        match &p.side {
            Side::Program { reference, tested } => println!("{}: {} against {}", p.name, tested.display(), reference.display()),
            Side::Library(_) => println!("{}: the library's call against the reference", p.name),
            Side::Events => println!("{}: each call, and the text posted event by event, against the reference", p.name),
            Side::Page => println!("{}: a month's page of the text posted event by event, against the reference", p.name),
        }
    }

    if head::version() as usize != head::VERSION {
        println!("\nDIFFERENCE: the header is version {}, the library {}", head::VERSION, head::version());
        exit(1);
    }

    if let Some(path) = &o.text {
        let text = std::fs::read(path).expect("text");
        let mut differences = 0;
        for p in &pairs {
            let months: Vec<u32> = (0..=summary::LAST_MONTH + 1).chain([u32::MAX]).collect();
            for &month in if p.is_of_month() { &months[..] } else { &[0] } {
                let mut way = Way::of_month(Feed::Pipe, month, 0xEE);
                if !p.is_of_month() {
                    way.args.clear();
                }
                let (good, got) = (bench.good(p, &text, &way), bench.tested(p, &text, &way));
                if p.differs(&good, &got) {
                    differences += 1;
                    println!("{} {:?}: DIFFERENT, ended with {:?}", p.name, way.args, got.end);
                    println!("    {}", first_different_line(&good.bytes, &got.bytes));
                } else {
                    println!("{} {:?}: same, {} bytes of answer", p.name, way.args, good.bytes.len());
                }
            }
        }
        drop(bench);
        exit((differences > 0) as i32);
    }
    if let Some(path) = &o.calls {
        let list = calls::read(&std::fs::read_to_string(path).expect("calls")).expect("a list of calls");
        let found = calls::run(&list, &mut Guarded::new(head::Account::filled(0)), None);
        match &found {
            Some(d) => println!("calls: DIFFERENT, call {}: {}", d.call + 1, d.what),
            None => println!("calls: same, {} calls", list.calls.len()),
        }
        drop(bench);
        exit(found.is_some() as i32);
    }

    println!("seed {}, texts and lists of calls from {}: {} texts, {} lists", o.seed, o.start, o.texts, o.lists);
    let mut progress = Progress { differences: 0, file: o.progress.as_ref().and_then(|p| File::create(p).ok()) };
    let (mut told, started) = (Instant::now(), Instant::now());
    let mut tell = |texts: u64, lists: u64, differences: u64| {
        if told.elapsed().as_secs() >= 15 {
            println!("  .. {texts} texts, {lists} lists, {:.0} s, {differences} differences", started.elapsed().as_secs_f64());
            told = Instant::now();
        }
    };

    let mut call_stats = stats::CallStats::default();
    let mut account = Guarded::new(head::Account::filled(0));
    let (mut text_time, mut list_time) = (Duration::ZERO, Duration::ZERO);
    let mut stats = stats::Stats::default();
    let mut ends: BTreeMap<(&str, End), u64> = BTreeMap::new();
    let mut feeds = [0u64; 3];
    let (mut short, mut places, mut place_texts) = (0u64, 0u64, 0u64);
    for i in o.start..o.start + o.texts.max(o.lists) {
        if progress.differences >= o.most_failures {
            println!("\nstopped after {} differences", progress.differences);
            break;
        }
        tell(stats.texts, call_stats.lists, progress.differences);
        let now = Instant::now();
        if i < o.start + o.texts {
            let mut r = Rng::for_text(o.seed, i);
            let (text, maker) = generate::text(&mut r);
            let feed = match r.below(100) {
                0..=4 => Feed::Pieces(r.index(text.len() + 1)),
                5..=14 => Feed::File,
                _ => Feed::Pipe,
            };
            let programs = r.percent(o.programs);
            progress.at("texts", o.seed, i);
            let run = text::run(&text);
            stats.note(&text, &run, maker);
            let plain = Way { feed, args: Vec::new(), fill: 0 };
            let mut pages: Vec<Way> = Vec::new();
            for _ in 0..r.pick(&[1, 1, 2]) {
                let month = generate::month_of(&mut r, &run);
                pages.push(Way::of_month(feed, month, r.next() as u8));
                stats.note_page(&run, month);
            }
            let mut arguments = pages.clone();
            if r.percent(4) {
                arguments.push(Way { args: generate::bad_arguments(&mut r), ..plain.clone() });
            }
            let mut trouble: Vec<(&Pair, Vec<u8>, Way, String)> = Vec::new();
            let each_way = |p: &Pair| match (p.print, p.is_program()) {
                (Print::All(_), _) => vec![plain.clone()],
                (Print::Month(_), false) => pages.clone(),
                (Print::Month(_), true) => arguments.clone(),
            };
            for (p, way) in pairs.iter().flat_map(|p| each_way(p).into_iter().map(move |way| (p, way))) {
                if p.is_program() && !programs && !p.is_of_month() {
                    continue;
                }
                let good = p.prints(&run, &way);
                if p.is_program() && programs {
                    if p.name == "prepay" {
                        feeds[match feed { Feed::Pipe => 0, Feed::Pieces(_) => 1, Feed::File => 2 }] += 1;
                    }
                    if bench.good(p, &text, &way) != good {
                        println!("text {i}: {} is not what its own library prints", p.name);
                        exit(2);
                    }
                }
                let got = bench.tested(p, &text, &way);
                *ends.entry((p.name, got.end.clone())).or_default() += 1;
                if p.differs(&good, &got) {
                    trouble.push((p, text.clone(), way, format!("a {maker} text")));
                } else if let (Side::Library(printer), true) = (&p.side, r.percent(10)) {
                    // The same with a buffer that is too short.
                    let room = printer.room();
                    let out_len = match r.below(5) {
                        0 => 0,
                        1 => good.bytes.len().min(room - 1),
                        2 => r.index(room),
                        _ => room - 1,
                    };
                    short += 1;
                    if let Err(what) = bench.room.borrow_mut().short(*printer, &text, out_len) {
                        progress.differences += 1;
                        println!("\nDIFFERENCE {} in {}: seed {} text {i}, a {maker} text: {what}", progress.differences, p.name, o.seed);
                        save(&o, &format!("{}-seed{}-text{i}-short", p.name, o.seed), &[("txt", &text)]);
                    }
                }
            }
            // Wrong bytes at every place of a short text.
            if i < 2 || r.below(1_000) < o.places {
                let base = match i {
                    0 => EXAMPLE.to_vec(),
                    1 => PRICES.to_vec(),
                    _ => generate::guided(&mut r, 350, 4),
                };
                let mut each: Vec<Vec<u8>> = Vec::new();
                damage::at_every_place(&mut r, &base, |t| each.push(t));
                place_texts += 1;
                for t in each {
                    places += 1;
                    let run = text::run(&t);
                    let found = pairs
                        .iter()
                        .filter(|p| !p.is_program() && !p.is_of_month())
                        .find(|p| p.differs(&p.prints(&run, &plain), &bench.tested(p, &t, &plain)));
                    if let Some(p) = found {
                        trouble.push((p, t, plain.clone(), "a text with a wrong byte".into()));
                        break;
                    }
                }
            }
            for (p, text, way, what) in trouble {
                progress.differences += 1;
                println!("\nDIFFERENCE {} in {}: seed {} text {i}, {what}", progress.differences, p.name, o.seed);
                let name = format!("{}-seed{}-text{i}", p.name, o.seed);
                report(&o, &bench, p, &name, &text, &way);
            }
        }
        text_time += now.elapsed();
        let now = Instant::now();
        if i < o.start + o.lists {
            let (list, maker) = calls::list(&mut Rng::for_list(o.seed, i));
            progress.at("lists of calls", o.seed, i);
            call_stats.lists += 1;
            call_stats.calls += list.calls.len() as u64;
            *call_stats.makers.entry(maker).or_default() += 1;
            if let Some(found) = calls::run(&list, &mut account, Some(&mut call_stats)) {
                progress.differences += 1;
                println!("\nDIFFERENCE {} in calls: seed {} list {i}, a {maker} list", progress.differences, o.seed);
                report_list(&o, &format!("calls-seed{}-list{i}", o.seed), &list, &found);
            }
        }
        list_time += now.elapsed();
    }
    let (text_seconds, list_seconds) = (text_time.as_secs_f64(), list_time.as_secs_f64());

    println!("\n==== texts");
    stats.print();
    println!("\nwrong bytes and truncations at every place of {place_texts} texts: {places} texts more");
    println!("output buffers too short: {short}");
    println!("programs fed by pipe {}, in pieces {}, from a file {}", feeds[0], feeds[1], feeds[2]);
    println!("how what was tested ended:");
    for ((name, end), n) in &ends {
        println!("  {name} {end:?}: {n}");
    }
    println!("\n==== calls");
    call_stats.print();
    println!(
        "\nseed {}: {} texts and {places} with wrong bytes in {text_seconds:.0} s; {} lists with {} calls, {} rows, {} events in {list_seconds:.0} s; {} differences",
        o.seed,
        stats.texts,
        call_stats.lists,
        call_stats.calls,
        call_stats.rows_in_all,
        call_stats.posts + call_stats.row_events,
        progress.differences
    );
    drop(bench);
    if let Some(path) = &o.progress {
        let _ = std::fs::remove_file(path);
    }
    exit((progress.differences > 0) as i32);
}
