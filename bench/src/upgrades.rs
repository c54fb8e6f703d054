//! Rows for the planner, the interpreter and the dispatch, on headers of 16 and 24 bytes. The port admits both layouts, tests the body and every rule of a plan; the
//! Rust tests none of these.
use crate::measure::Call;
use crate::{inputs, port, row, Ends, Row};
use judge::block;
use judge::layout::wire::upgrade::{Dispatch, Plan, Step};
use judge::layout::StreamLayout;
use judge::slot;
use std::hint::black_box;

const HEADER: usize = slot::HEADER;
const SOURCE_HEADER: usize = slot::SOURCE_HEADER;
const RTYPE: u8 = 1;
/// One byte longer than a header may be, and the refusal for it.
const LONG_HEADER: usize = 65;
const BAD_HEADER: u8 = 7;

// ---- the planner

pub struct Planning {
    fields: u16,
    source: Vec<u8>,
    target: Vec<u8>,
    body: Vec<u8>,
    theirs: (StreamLayout, StreamLayout),
}

pub fn plannings() -> Vec<Planning> {
    let of = |fields: u16| {
        let (source, target) = (inputs::in_order(fields), inputs::widened(fields));
        Planning {
            fields,
            body: vec![0; 8 * usize::from(fields)],
            theirs: (block::layout(&source), block::layout(&target)),
            source,
            target,
        }
    };
    [30, 128].map(of).into()
}

fn planned((source, target): &(StreamLayout, StreamLayout)) -> Plan {
    Plan::new(&source.record_layouts[0], &target.record_layouts[0])
}

pub fn planning_row<'a>(catalogue: &'a [u8], p: &'a Planning) -> Row<'a> {
    let mut ours = vec![0; slot::SLOT];
    assert_eq!(
        port::plan(catalogue, &p.source, &p.target, HEADER, &p.body, &mut ours),
        0,
        "the port refuses to plan"
    );
    let base = |l: &StreamLayout| l.record_layouts[0].base_record_size;
    let theirs = slot::packed(&planned(&p.theirs), base(&p.theirs.0), base(&p.theirs.1));
    assert!(ours == theirs, "the plans differ");
    let ours: Call = Box::new(move || {
        black_box(port::plan(
            black_box(catalogue),
            black_box(&p.source),
            black_box(&p.target),
            HEADER,
            black_box(&p.body),
            &mut ours,
        ));
    });
    let theirs: Call = Box::new(move || {
        black_box(planned(black_box(&p.theirs)));
    });
    row(
        &format!(
            "a plan of {} fields with admission and the body's test, `UpgradePlan::new`",
            p.fields
        ),
        ours,
        theirs,
        Ends::Most(1.5),
    )
}

// ---- the interpreter and the dispatch

pub struct Upgrading {
    what: &'static str,
    most: f64,
    plan: Plan,
    slot: Vec<u8>,
    record: Vec<u8>,
    dispatch: Dispatch,
}

fn copy(source: u16, target: u16, size: u16) -> Step {
    Step::Copy {
        source,
        target,
        size,
    }
}

fn int(source: u16, target: u16, from: u16, to: u16, signed: bool, marked: bool) -> Step {
    Step::Int {
        source,
        target,
        from,
        to,
        signed,
        marked,
    }
}

/// A record whose header states its rtype and its length in words.
fn record(size: usize) -> Vec<u8> {
    let mut bytes: Vec<u8> = (0..size).map(|i| (i * i / 3) as u8).collect();
    (bytes[0], bytes[1]) = ((size / 4) as u8, RTYPE);
    bytes
}

fn upgrading(
    what: &'static str,
    most: f64,
    steps: &[Step],
    source: usize,
    size: usize,
) -> Upgrading {
    let body: Vec<u8> = (HEADER..size).map(|i| i as u8).collect();
    let plan = || Plan::by_hand(RTYPE.into(), 2, steps, &body);
    Upgrading {
        what,
        most,
        slot: slot::packed(&plan(), source as u16, size as u16),
        record: record(source),
        dispatch: Dispatch::by_hand(vec![plan()], Vec::new()),
        plan: plan(),
    }
}

pub fn upgradings() -> Vec<Upgrading> {
    let typical = [
        copy(16, 24, 8),
        int(24, 32, 4, 8, false, false),
        copy(28, 40, 12),
        int(40, 56, 2, 4, true, true),
        copy(42, 60, 14),
    ];
    let integers: Vec<Step> = (0..128)
        .map(|i| int(16 + 2 * i, 24 + 4 * i, 2, 4, i % 2 == 0, i % 4 < 2))
        .collect();
    vec![
        upgrading(
            "a record of 56 bytes to 88 by 5 steps",
            1.1,
            &typical,
            56,
            88,
        ),
        upgrading("128 integer steps", 0.8, &integers, 272, 536),
        upgrading(
            "a joined copy of 1,000 bytes",
            2.2,
            &[copy(16, 24, 1000)],
            1016,
            1024,
        ),
    ]
}

pub fn apply_row(u: &Upgrading) -> Row<'_> {
    let n = u.plan.record_size();
    let (mut ours, mut theirs) = (vec![0xAA; n], vec![0xAA; n]);
    assert_eq!(
        port::apply(&u.slot, &u.record, &mut ours),
        0,
        "the port refuses the record"
    );
    u.plan.apply(&u.record, &mut theirs);
    assert!(ours == theirs, "the records differ");
    let ours: Call = Box::new(move || {
        black_box(port::apply(
            black_box(&u.slot),
            black_box(&u.record),
            &mut ours,
        ));
        black_box(&ours);
    });
    let theirs: Call = Box::new(move || {
        black_box(&u.plan).apply(black_box(&u.record), &mut theirs);
        black_box(&theirs);
    });
    row(
        &format!("{}, `UpgradePlan::apply`", u.what),
        ours,
        theirs,
        Ends::Most(u.most),
    )
}

/// The port's dispatch, which answers so.
fn dispatched(u: &Upgrading, headers: (usize, usize), status: u8) -> Call<'_> {
    let mut into = vec![0xAA; u.plan.record_size()];
    let mut turn = move || {
        let answer = port::upgrade(
            black_box(&u.slot),
            RTYPE.into(),
            headers,
            black_box(&u.record),
            &mut into,
        );
        black_box(&into);
        answer
    };
    assert_eq!(turn(), status, "the port answers otherwise");
    Box::new(move || {
        black_box(turn());
    })
}

/// The Rust writes the target's header too.
pub fn dispatch_row(u: &Upgrading) -> Row<'_> {
    let n = u.plan.record_size();
    let (mut ours, mut theirs) = (vec![0xAA; n], vec![0xAA; n]);
    let headers = (SOURCE_HEADER, HEADER);
    port::upgrade(&u.slot, RTYPE.into(), headers, &u.record, &mut ours);
    assert_eq!(u.dispatch.upgrade(&u.record, &mut theirs).unwrap(), Some(n));
    assert!(ours[HEADER..] == theirs[HEADER..], "the records differ");
    let theirs: Call = Box::new(move || {
        let _ = black_box(u.dispatch.upgrade(black_box(&u.record), &mut theirs));
        black_box(&theirs);
    });
    row(
        &format!("dispatch of {}, `Upgrader::upgrade`", u.what),
        dispatched(u, headers, 0),
        theirs,
        Ends::Most(u.most),
    )
}

type Export = extern "C" fn(
    *const u8,
    usize,
    *const u16,
    usize,
    u16,
    usize,
    usize,
    *const u8,
    usize,
    usize,
    *mut u8,
    usize,
    &mut u16,
    &mut usize,
) -> u8;

/// A function of the arguments that the export takes, which makes its first test and no more: what any call costs.
#[allow(clippy::too_many_arguments)] // those of the export
extern "C" fn plain(
    _plans: *const u8,
    _plans_len: usize,
    _unplanned: *const u16,
    _unplanned_len: usize,
    _rtype: u16,
    source: usize,
    target: usize,
    _src: *const u8,
    _src_len: usize,
    _stated: usize,
    _dst: *mut u8,
    _dst_len: usize,
    became: &mut u16,
    size: &mut usize,
) -> u8 {
    if source.max(target) < LONG_HEADER {
        (*became, *size) = (1, 1);
        return 0;
    }
    BAD_HEADER
}

fn called(u: &Upgrading) -> Call<'_> {
    let mut into = vec![0xAA; u.plan.record_size()];
    Box::new(move || {
        let (plans, record) = (black_box(&u.slot), black_box(&u.record));
        let (mut became, mut size) = (0, 0);
        // through a pointer, so that the compiler leaves the arguments as they are
        black_box(black_box(plain as Export)(
            plans.as_ptr(),
            plans.len(),
            [].as_ptr(),
            0,
            RTYPE.into(),
            LONG_HEADER,
            HEADER,
            record.as_ptr(),
            record.len(),
            record.len(),
            into.as_mut_ptr(),
            into.len(),
            &mut became,
            &mut size,
        ));
        black_box((became, size, &into));
    })
}

/// What the C boundary adds to the port's own dispatch: a call that its first test refuses, beyond a call of any function like it.
pub fn boundary_rows(u: &Upgrading) -> [Row<'_>; 2] {
    let whole = || dispatched(u, (SOURCE_HEADER, HEADER), 0);
    [
        row(
            "a call of a function with the export's arguments, the port's dispatch",
            called(u),
            whole(),
            Ends::Plain,
        ),
        row(
            "a dispatch refused by its first test, the port's dispatch",
            dispatched(u, (LONG_HEADER, HEADER), BAD_HEADER),
            whole(),
            Ends::Beyond(0.1, "the dispatch"),
        ),
    ]
}
