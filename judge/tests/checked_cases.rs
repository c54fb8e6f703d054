//! The checked cases of the rules that the Rust answers too, so that the stand-ins and the probes can be trusted.
use judge::layout::wire::upgrade::{Dispatch, Plan, Step};
use judge::layout::wire::{hash, set_sources, upgrade};
use judge::layout::{FieldDef, RecordLayout, StreamLayout};
use judge::v3::{state, Stated};
use judge::v4::fields::{set_default, FieldDefault};

const U16: u8 = 2;
const U32: u8 = 3;
const CSTR: u8 = 49;

fn field(field_id: u8, offset: u8, size: u8, type_id: u8) -> FieldDef {
    let row = [
        field_id, 0, offset, 0, size, 0, type_id, 0, 0, 0, 0, 0, 0, 0, 0, 0,
    ];
    judge::block::fields(&row)[0]
}

fn record(base: u16, fields: &[FieldDef]) -> RecordLayout {
    RecordLayout {
        rtype: 1,
        schema: 1,
        base_record_size: base,
        layout_hash: 0,
        name: "r".to_owned(),
        field_defs: fields.to_vec(),
        field_names: vec![String::new(); fields.len()],
    }
}

/// The record of P6 with its rtype and its length of 24 in the header.
fn source() -> (RecordLayout, [u8; 24]) {
    let layout = record(24, &[field(5, 16, 6, CSTR), field(6, 22, 2, U16)]);
    let mut bytes = [0; 24];
    bytes[..2].copy_from_slice(&[6, 1]);
    bytes[16..].copy_from_slice(&[1, 2, 3, 4, 5, 6, 7, 0]);
    (layout, bytes)
}

fn target() -> RecordLayout {
    for marked in [6, 7] {
        set_default(marked, FieldDefault::Max);
    }
    let fields = [
        field(5, 24, 6, CSTR),
        field(6, 32, 4, U32),
        field(7, 36, 2, U16),
    ];
    record(40, &fields)
}

fn stream(records: Vec<RecordLayout>) -> StreamLayout {
    let mut layout = judge::block::layout(&[]);
    layout.record_layouts = records;
    layout
}

fn body_of_first(n: usize) -> [u8; 16] {
    let (layout, bytes) = source();
    let plan = upgrade::Plan::new(&layout, &target());
    let mut out = [0xAA; 40];
    plan.apply(&bytes[..n], &mut out);
    out[24..].try_into().unwrap()
}

#[test]
fn sums() {
    assert_eq!(record(0, &[]).layout_hash(&[]), 0xC15D_213A_A4D7_A795);
    assert_eq!(hash::sum(&[0x95]), 0x00C1_5D21_3AA4_D7A7);
    assert_eq!(hash::sum(b"\"null\""), 0x63DD_24E7_CC25_8F8A);
    assert_eq!(hash::sum(b"\"string\""), 0x8F01_4872_6345_03C7);
}

#[test]
fn plans() {
    let zero_to_ff = [
        0, 0, 0, 0, 0, 0, 0, 0, 0xFF, 0xFF, 0xFF, 0xFF, 0xFF, 0xFF, 0, 0,
    ];
    assert_eq!(
        body_of_first(24),
        [1, 2, 3, 4, 5, 6, 0, 0, 7, 0, 0, 0, 0xFF, 0xFF, 0, 0]
    );
    assert_eq!(body_of_first(23)[8..], zero_to_ff[8..]);
    assert_eq!(body_of_first(23)[..6], [1, 2, 3, 4, 5, 6]);
    assert_eq!(body_of_first(21), zero_to_ff);
}

#[test]
fn dispatch_by_the_header_and_by_what_is_stated() {
    let (layout, bytes) = source();
    set_sources(vec![layout]);
    let dispatch = upgrade::Dispatch::new(&stream(vec![target()]), None);
    let mut out = [0; 40];
    assert_eq!(dispatch.upgrade(&bytes, &mut out).unwrap(), Some(40));
    assert_eq!(out[24..30], bytes[16..22]);
    // no plan and not listed: the bytes after the header are copied, as many as the stated length says
    state(Stated {
        rtype: Some(300),
        length: Some(20),
    });
    assert_eq!(dispatch.upgrade(&bytes, &mut out).unwrap(), Some(28));
    assert_eq!(out[24..28], bytes[16..20]);
    // listed without a plan
    let unplanned = upgrade::Dispatch::new(&stream(Vec::new()), None);
    state(Stated::default());
    assert!(unplanned.upgrade(&bytes, &mut out).is_err());
}

/// What an integer step from 16 to 24 makes of the bytes.
fn mapped(bytes: &[u8], to: u16, signed: bool, marked: bool) -> Vec<u8> {
    let from = bytes.len() as u16;
    let step = Step::Int {
        source: 16,
        target: 24,
        from,
        to,
        signed,
        marked,
    };
    let plan = Plan::by_hand(1, 1, &[step], &vec![0; to.into()]);
    let mut out = vec![0; plan.record_size()];
    plan.apply(&[&[0; 16], bytes].concat(), &mut out);
    out[24..].to_vec()
}

#[test]
fn integers() {
    assert_eq!(mapped(&(-200i16).to_le_bytes(), 1, true, true), [127]);
    assert_eq!(mapped(&(-1i32).to_le_bytes(), 8, true, false), [0xFF; 8]);
    let most = u32::MAX.to_le_bytes();
    let same = u64::from(u32::MAX).to_le_bytes();
    assert_eq!(mapped(&most, 8, false, false), same);
    assert_eq!(mapped(&most, 8, false, true), [0xFF; 8]);
}

/// docs/DIFFERENCES.md: a length below the header where there is a plan, and plans that break a rule.
#[test]
fn what_the_port_refuses() {
    let copy = |size| Step::Copy {
        source: 8,
        target: 24,
        size,
    };
    let plan = |size| Plan::by_hand(1, 1, &[copy(size)], &[7; 4]);
    let dispatch = Dispatch::by_hand(vec![plan(4)], Vec::new());
    let below = |length| {
        state(Stated {
            rtype: Some(1),
            length: Some(length),
        });
        let mut out = [0; 28];
        let done = dispatch.upgrade(&[1; 16], &mut out).unwrap();
        (done, out[24])
    };
    assert_eq!(below(15), (Some(28), 1));
    assert_eq!(below(11), (Some(28), 7));
    state(Stated::default());
    let past = || plan(5).apply(&[1; 16], &mut [0; 28]);
    assert!(std::panic::catch_unwind(past).is_err());
    assert_eq!(mapped(&[1, 2], 1, false, false), [1]);
}
