//! Random calls, many of them wrong: a refused call leaves every lent byte, and an answered one writes where it says and nowhere else.
mod generator;

use generator::{Generator, Seen, damaged};
use tuppenceowl::{limits::*, *};

const ROUNDS: usize = 3000;

#[test]
fn the_planner_writes_a_slot_or_nothing() {
    let (mut g, mut seen) = (Generator::new(11), Seen::default());
    for _ in 0..ROUNDS {
        let cat = damaged(&mut g, Catalogue::dbn(1).to_bytes().into(), 40);
        let (old, mut new) = (g.layout(), g.layout());
        if g.one_in(20) {
            let defs = new.records[0].fields.iter_mut().map(|f| &mut f.def);
            defs.for_each(|def| def.type_id = dbn::U32);
        }
        let source = damaged(&mut g, old.to_block(), 8);
        let target = damaged(&mut g, new.to_block(), 8);
        // now and then one past the last
        let past = usize::from(g.one_in(8));
        let (k, to) = (
            g.below(old.records.len() + past),
            g.below(new.records.len() + past),
        );
        let header = g.pick(&[16, 24, 24, 24, 25, 65]);
        let size = record_size(&cat, &target, to).unwrap_or(None).unwrap_or(24);
        let length = size.saturating_sub(header) + usize::from(g.one_in(8));
        let mut body = vec![0; length];
        if g.one_in(3) {
            body = g.bytes(length);
        }
        let marks = vec![u8::from(g.one_in(3)); g.below(10)];
        let room = g.pick(&[SLOT, SLOT, SLOT + 7, SLOT - 1, 0]);
        let before = g.bytes(room);
        let mut slot = before.clone();
        let made = plan(
            &cat, &source, k, &target, to, header, &body, &marks, &mut slot,
        );
        seen.note_perhaps(&made);
        if made != Ok(Some(())) {
            assert!(slot == before, "{made:?} left other bytes");
            continue;
        }
        assert_eq!(slot[SLOT..], before[SLOT..]);
        let plan = Plan::from_slot(&slot[..SLOT]).expect("a made plan keeps the rules");
        assert_eq!((plan.body, usize::from(plan.numbers.size)), (body, size));
    }
    seen.were(&[0, 1, 2, 3, 4, 5, 6, 7, 8, 11, 255]);
}

/// A record's bytes, how many are stated, and a target.
fn record(g: &mut Generator) -> (Vec<u8>, usize, Vec<u8>) {
    let stated = g.pick(&[80, 80, 64, 30, 8, 81, 4097]);
    let room = g.pick(&[300, 200, 40, 0]);
    (g.bytes(80), stated, g.bytes(room))
}

/// Header and tail are as they were; without steps the body is the default.
fn is_upgraded(plan: &Plan, before: &[u8], target: &[u8]) {
    let (header, size) = (plan.numbers.header.into(), plan.numbers.size.into());
    assert_eq!(target[..header], before[..header]);
    assert_eq!(target[size..], before[size..]);
    if plan.steps.is_empty() {
        assert_eq!(target[header..size], plan.body);
    }
}

#[test]
fn a_plan_writes_the_body_or_nothing() {
    let (mut g, mut seen) = (Generator::new(12), Seen::default());
    for _ in 0..ROUNDS {
        let plan = g.plan();
        let slot = plan.to_slot().expect("it keeps the rules").to_vec();
        let slot = damaged(&mut g, slot, 8);
        let (record, stated, before) = record(&mut g);
        let mut target = before.clone();
        let answer = apply(&slot, &record, stated, &mut target);
        seen.note(&answer);
        match answer {
            Err(_) => assert!(target == before, "{answer:?} left other bytes"),
            Ok(said) => {
                let plan = Plan::from_slot(&slot).expect("a plan that is used keeps the rules");
                assert_eq!(
                    (said.rtype, said.size),
                    (plan.numbers.rtype, plan.numbers.size.into())
                );
                is_upgraded(&plan, &before, &target);
            }
        }
    }
    seen.were(&[0, 9, 11, 16]);
}

#[test]
fn an_upgrade_is_by_the_first_plan_or_a_copy_or_nothing() {
    let (mut g, mut seen) = (Generator::new(16), Seen::default());
    for _ in 0..ROUNDS {
        let plans = [g.plan(), g.plan()];
        let mut slots = plans
            .each_ref()
            .map(|p| p.to_slot().expect("it keeps the rules"));
        let broken = g.one_in(8);
        if broken {
            slots.iter_mut().for_each(|slot| slot[6..8].fill(255));
        }
        let (rtype, from, to) = (
            g.below(4) as u16,
            g.pick(&[0, 16, 64, 65]),
            g.pick(&[24, 24, 65]),
        );
        let (record, stated, before) = record(&mut g);
        let mut target = before.clone();
        let answer = upgrade(
            slots.as_flattened(),
            &[2],
            rtype,
            from,
            to,
            &record,
            stated,
            &mut target,
        );
        seen.note(&answer);
        let Ok(said) = answer else {
            assert!(target == before, "{answer:?} left other bytes");
            continue;
        };
        match plans.iter().find(|p| p.numbers.src_rtype == rtype) {
            Some(plan) => {
                assert!(!broken, "a plan that breaks a rule is refused");
                assert_eq!(
                    (said.rtype, said.size),
                    (plan.numbers.rtype, plan.numbers.size.into())
                );
                is_upgraded(plan, &before, &target);
            }
            None => {
                let copied = [&before[..to], &record[from..stated]].concat();
                assert_eq!((said.rtype, said.size), (rtype, copied.len()));
                assert_eq!(target, [&copied, &before[copied.len()..]].concat());
            }
        }
    }
    seen.were(&[0, 7, 9, 10, 11, 16]);
}

#[test]
fn texts_are_written_and_read_whole_or_not_at_all() {
    let (mut g, mut written, mut read) = (Generator::new(13), Seen::default(), Seen::default());
    for _ in 0..ROUNDS {
        let slot = g.plan().to_slot().expect("it keeps the rules").to_vec();
        let slot = damaged(&mut g, slot, 4);
        let room = g.pick(&[TEXT, TEXT, 400, 60]);
        let before = g.bytes(room);
        let mut text = before.clone();
        let wrote = write_plan(&slot, &mut text);
        written.note(&wrote);
        let kept = wrote.unwrap_or(0);
        assert!(text[kept..] == before[kept..], "{wrote:?} left other bytes");

        let text = damaged(&mut g, text[..kept].to_vec(), 2);
        let room = g.pick(&[SLOT, SLOT + 9, SLOT - 1]);
        let before = g.bytes(room);
        let mut back = before.clone();
        let answer = read_plan(&text, &mut back);
        read.note(&answer);
        let kept = if answer.is_ok() { SLOT } else { 0 };
        assert!(
            back[kept..] == before[kept..],
            "{answer:?} left other bytes"
        );
        if answer.is_ok() {
            let mut again = vec![0; TEXT];
            let n = write_plan(&back[..SLOT], &mut again).expect("what is read keeps the rules");
            assert!(again[..n] == text, "a text that is read is the writer's");
        }
    }
    written.were(&[0, 11, 16]);
    read.were(&[0, 11, 16]);
}
