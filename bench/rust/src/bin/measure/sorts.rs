//! Rows for each sort: what goes before, and the events that are timed.

use fast::account::*;
use fast::mix::TERMS;

pub struct Case {
    pub name: &'static str,
    pub terms: Terms,
    pub before: Vec<Event>,
    pub timed: Vec<Event>,
    /// The code that each timed event must be answered.
    pub code: u8,
}

fn of(sort: u32, day: u32) -> Event {
    Event { sort, day, amount: 100, kind: 1, wh: 30_000, from: day, to: day, ..Event::default() }
}

fn again(n: usize, events: &[Event]) -> Vec<Event> {
    events.iter().copied().cycle().take(n * events.len()).collect()
}

fn case(name: &'static str, before: Vec<Event>, timed: Vec<Event>) -> Case {
    Case { name, terms: TERMS, before, timed, code: 0 }
}

pub fn cases() -> Vec<Case> {
    let pays = || again(128, &[of(PAY, 0)]);
    let reverses = (0..128).map(|number| Event { number, ..of(REVERSE, 0) }).collect();
    let usage = |sort| (0..399).map(|usage| Event { usage, ..of(sort, 399) }).collect::<Vec<Event>>();
    let free = Terms { connect: 0, cutoff: 0, share: 50, ..TERMS };
    let level = Terms { connect: 1_000, cutoff: 1_000, ..TERMS };
    vec![
        case("pay", vec![], pays()),
        case("reverse", pays(), reverses),
        case("credit", vec![], again(3_000, &[of(CREDIT, 3)])),
        case("charge, month 0", vec![], again(3_000, &[of(CHARGE, 3)])),
        case("charge, month 13", vec![], again(3_000, &[of(CHARGE, 399)])),
        case("estimate", vec![], usage(ESTIMATE)),
        case("read on a blank day", vec![], usage(READ)),
        case("read on an estimate", usage(ESTIMATE), usage(READ)),
        case("warn", vec![], again(3_000, &[of(WARN, 3)])),
        case("mark of one day", vec![], again(3_000, &[of(MARK, 3)])),
        case("mark of 400 days", vec![], again(3_000, &[Event { to: 399, ..of(MARK, 0) }])),
        Case {
            terms: free,
            ..case(
                "charge, plan, pay in turn",
                vec![Event { amount: 1, ..of(CREDIT, 3) }],
                again(120, &[Event { amount: 2, ..of(CHARGE, 3) }, Event { kind: 2, ..of(PLAN, 3) }, Event { amount: 2, ..of(PAY, 3) }]),
            )
        },
        Case {
            terms: level,
            ..case(
                "credit, connect, charge, disconnect in turn",
                vec![Event { amount: 950, ..of(CREDIT, 1) }, of(WARN, 1)],
                again(1_000, &[of(CREDIT, 8), of(CONNECT, 8), of(CHARGE, 8), of(DISCONNECT, 8)]),
            )
        },
        Case { code: 2, ..case("refused, 2", vec![of(WARN, 5)], again(3_000, &[of(PAY, 4)])) },
        Case { code: 3, ..case("refused, 3", vec![], again(3_000, &[Event { kind: 6, ..of(CHARGE, 3) }])) },
        Case { code: 9, ..case("refused, 9 (plan 1, no weather)", vec![of(CHARGE, 0), Event { amount: 9_000, ..of(CHARGE, 0) }], again(3_000, &[of(PLAN, 3)])) },
        Case {
            code: 13,
            terms: level,
            ..case("refused, 13", vec![Event { amount: 1_000, ..of(CREDIT, 0) }, of(CONNECT, 0), of(CHARGE, 0)], again(3_000, &[of(DISCONNECT, 9)]))
        },
    ]
}
