//! Sees the private plan of upgrade.rs and its dispatch.
use super::{Op, UpgradePlan, Upgrader};
use crate::layout::{RecordLayout, StreamLayout};

/// A step with the numbers of dbn's private one.
#[derive(Clone, Copy)]
pub enum Step {
    Copy {
        source: u16,
        target: u16,
        size: u16,
    },
    Int {
        source: u16,
        target: u16,
        from: u16,
        to: u16,
        signed: bool,
        marked: bool,
    },
}

fn op(step: Step) -> Op {
    match step {
        Step::Copy {
            source,
            target,
            size,
        } => Op::Copy {
            src_offset: source,
            dst_offset: target,
            size,
        },
        Step::Int {
            source,
            target,
            from,
            to,
            signed,
            marked,
        } => Op::Int {
            src_offset: source,
            dst_offset: target,
            src_size: from,
            dst_size: to,
            signed,
            has_undef_max: marked,
        },
    }
}

fn step(op: &Op) -> Step {
    match *op {
        Op::Copy {
            src_offset,
            dst_offset,
            size,
        } => Step::Copy {
            source: src_offset,
            target: dst_offset,
            size,
        },
        Op::Int {
            src_offset,
            dst_offset,
            src_size,
            dst_size,
            signed,
            has_undef_max,
        } => Step::Int {
            source: src_offset,
            target: dst_offset,
            from: src_size,
            to: dst_size,
            signed,
            marked: has_undef_max,
        },
    }
}

pub struct Plan(UpgradePlan);

impl Plan {
    pub fn new(src: &RecordLayout, dst: &RecordLayout) -> Self {
        Self(UpgradePlan::new(src, dst))
    }

    pub fn by_hand(src_rtype: u16, rtype: u16, steps: &[Step], body: &[u8]) -> Self {
        Self(UpgradePlan {
            src_rtype,
            rtype,
            ops: steps.iter().map(|&s| op(s)).collect(),
            defaults: body.into(),
        })
    }

    pub fn rtypes(&self) -> (u16, u16) {
        (self.0.src_rtype, self.0.rtype)
    }

    pub fn steps(&self) -> Vec<Step> {
        self.0.ops.iter().map(step).collect()
    }

    pub fn body(&self) -> &[u8] {
        &self.0.defaults
    }

    pub fn record_size(&self) -> usize {
        self.0.record_size()
    }

    pub fn apply(&self, src: &[u8], dst: &mut [u8]) {
        self.0.apply(src, dst)
    }
}

pub struct Dispatch(Upgrader);

impl Dispatch {
    /// From the layouts that `set_sources` was given.
    pub fn new(dst: &StreamLayout, schema: Option<u16>) -> Self {
        Self(Upgrader::new(3, dst, schema))
    }

    pub fn by_hand(plans: Vec<Plan>, unplanned: Vec<u16>) -> Self {
        Self(Upgrader {
            plans: plans.into_iter().map(|plan| plan.0).collect(),
            unplanned_rtypes: unplanned,
        })
    }

    /// The sizes of the records that are planned to.
    pub fn sizes(&self) -> Vec<usize> {
        self.0.plans.iter().map(UpgradePlan::record_size).collect()
    }

    pub fn upgrade(&self, src: &[u8], dst: &mut [u8]) -> crate::Result<Option<usize>> {
        self.0.upgrade(src, dst)
    }
}
