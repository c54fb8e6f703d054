//! Plans in slots and texts: round trips, and where the limits lie.
mod generator;

use generator::Generator;
use tuppenceowl::{limits::*, *};

const ROUNDS: u64 = 400;

#[test]
fn a_plan_is_read_back_from_its_slot_and_its_text() {
    let mut g = Generator::new(5);
    for _ in 0..ROUNDS {
        let plan = g.plan();
        let slot = plan.to_slot().expect("it keeps the rules");
        assert_eq!(Plan::from_slot(&slot), Ok(plan.clone()));
        let text = plan.to_text().expect("it keeps the rules");
        assert_eq!(Plan::from_text(&text), Ok(plan));
        let mut read = [0xAA; SLOT];
        assert_eq!(read_plan(text.as_bytes(), &mut read), Ok(()));
        assert!(read == slot, "the reader lays out what is packed here");
    }
}

/// From 0 to `size`, with steps of a byte each.
fn plan_of(header: u16, size: u16, steps: usize) -> Plan {
    let step = |i| Step::Copy {
        src_offset: 0,
        dst_offset: header + i as u16,
        size: 1,
    };
    Plan {
        numbers: Numbers {
            header,
            size,
            ..Numbers::default()
        },
        body: vec![0xAB; usize::from(size - header)],
        steps: (0..steps).map(step).collect(),
    }
}

#[test]
fn plans_up_to_the_limits_have_a_slot_and_no_others() {
    let kept = |plan: &Plan| {
        let slot = plan.to_slot().expect("it keeps the rules");
        assert_eq!(Plan::from_slot(&slot).as_ref(), Ok(plan));
        assert_eq!(
            Plan::from_text(&plan.to_text().expect("it has room")).as_ref(),
            Ok(plan)
        );
    };
    let refused = |plan: Plan| {
        assert_eq!(plan.to_slot(), Err(Refusal::BadPlan));
        assert_eq!(plan.to_text(), Err(Refusal::BadPlan));
    };
    kept(&plan_of(0, 4096, MAX_STEPS));
    let most = MAX_HEADER as u16;
    kept(&plan_of(most, most, 0));
    refused(plan_of(0, 4097, 0));
    refused(plan_of(0, 65535, 0));
    refused(plan_of(most + 1, 80, 0));
    refused(plan_of(0, 4096, MAX_STEPS + 1));
    refused(Plan {
        steps: vec![plan_of(0, 8, 1).steps[0]; 65536],
        ..plan_of(0, 8, 0)
    });
    for body in [15, 17] {
        refused(Plan {
            body: vec![0; body],
            ..plan_of(0, 16, 0)
        });
    }
    let mut below = plan_of(8, 16, 0);
    below.numbers.size = 7;
    refused(below);
    let mut twice = plan_of(0, 16, 2);
    twice.steps[1] = twice.steps[0];
    refused(twice);
}

#[test]
fn the_longest_text_fits() {
    let step = |i: u16| Step::Int {
        src_offset: 4088,
        dst_offset: 1000 + 8 * i,
        src_size: 4,
        dst_size: 8,
        signed: true,
        has_undef_max: true,
    };
    let plan = Plan {
        numbers: Numbers {
            src_rtype: 65535,
            rtype: 65535,
            src_base: 4096,
            header: 0,
            base: 4096,
            size: 4096,
        },
        body: vec![0xFF; 4096],
        steps: (0..128).map(step).collect(),
    };
    let text = plan.to_text().expect("there is room");
    assert!(text.len() < TEXT, "{}", text.len());
    assert_eq!(Plan::from_text(&text), Ok(plan));
}
