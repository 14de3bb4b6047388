//! The two planners that are compared, behind the same three calls.
use crate::gate;
use crate::planner::boundary::{self, DecideBytes, PlanBytes, ReadBytes, SearchBytes, Space};

pub trait Calls {
    fn read(&mut self, file: &[u8], out: ReadBytes) -> u32;
    fn decide(&mut self, plan: PlanBytes, out: DecideBytes) -> u32;
    fn search(&mut self, plan: PlanBytes, start: usize, out: SearchBytes) -> u32;
}

pub struct Library;

impl Calls for Library {
    fn read(&mut self, file: &[u8], out: ReadBytes) -> u32 {
        gate::read(file, out)
    }

    fn decide(&mut self, plan: PlanBytes, out: DecideBytes) -> u32 {
        gate::decide(plan, out)
    }

    fn search(&mut self, plan: PlanBytes, start: usize, out: SearchBytes) -> u32 {
        gate::search(plan, start, out)
    }
}

pub struct Peer {
    space: Space,
}

impl Peer {
    pub fn new() -> Peer {
        Peer {
            space: Space::new(),
        }
    }
}

impl Calls for Peer {
    fn read(&mut self, file: &[u8], out: ReadBytes) -> u32 {
        boundary::gate_read(file, out, &mut self.space)
    }

    fn decide(&mut self, plan: PlanBytes, out: DecideBytes) -> u32 {
        boundary::gate_decide(plan, out, &mut self.space)
    }

    fn search(&mut self, plan: PlanBytes, start: usize, out: SearchBytes) -> u32 {
        boundary::gate_search(plan, start, out, &mut self.space)
    }
}
