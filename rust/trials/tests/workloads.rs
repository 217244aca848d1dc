//! What is timed and counted: both machines leave the same, no core stops, and an order that moves changes something at every step.

use independent::interface::{Machine, Reference};
use independent::reference::refusal;
use trials::linked::Linked;
use trials::workloads::{four_cores, workloads, Plant, Turns, Work};

#[test]
fn both_machines_leave_the_same() {
    const CALLS: usize = 2;
    for workload in workloads() {
        let work = workload.work(CALLS, 4_000);
        let (mut a, mut b, mut c) = (Plant::new(&work, &Reference), Plant::new(&work, &Linked), Plant::new(&work, &Linked));
        for call in 0..CALLS {
            a.run(&work, &Reference, call);
            b.run(&work, &Linked, call);
            c.steps(&work, &Linked, work.order(call));
            assert!(a == b, "{}", workload.name);
            assert!((&a.table, a.semaphore, &a.buffer, &a.shared) == (&c.table, c.semaphore, &c.buffer, &c.shared), "{}", workload.name);
        }
    }
}

#[test]
fn every_step_moves() {
    let work = Work::new(&four_cores(), Turns::Moving, 1, 5_000);
    let mut plant = Plant::new(&work, &Linked);
    for &core in work.order(0) {
        let before = (plant.table.clone(), plant.semaphore);
        let Plant { table, semaphore, buffer, shared, .. } = &mut plant;
        let number = Linked.step(&work.file, &work.trace, table, semaphore, buffer, shared, core, &mut None);
        assert_eq!(number, refusal::NONE);
        assert!(before != (plant.table.clone(), plant.semaphore));
    }
    assert!(plant.cycles().all(|cycles| cycles > 0), "every core has its turn");
}
