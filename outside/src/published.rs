//! Lot-sizing instances from the literature, with the least costs that are published for them. The plans beside them are those of
//! that cost which document 01 asks for.
use crate::input::{Call, Input};
use crate::plain::{self, Day, Planned, Totals};

/// An instance without capacities and without unit costs.
struct Instance {
    demand: [u16; 12],
    setup: [u32; 12],
    holding: u32,
    plan: [u16; 12],
    cost: u64,
}

const INSTANCES: [Instance; 2] = [
    // H. M. Wagner and T. M. Whitin, Dynamic version of the economic lot size model, Management Science 5 (1958), pages 89 to 96
    // (the report's reference 24).
    Instance {
        demand: [69, 29, 36, 61, 61, 26, 34, 67, 45, 67, 79, 56],
        setup: [85, 102, 102, 101, 98, 114, 105, 86, 119, 110, 98, 114],
        holding: 1,
        plan: [98, 0, 97, 0, 121, 0, 0, 112, 0, 67, 135, 0],
        cost: 864,
    },
    // The twelve months of E. A. Silver and H. C. Meal: start 54, upkeep 0.4, least cost 501.20; here five times as much, in whole
    // numbers.
    Instance {
        demand: [10, 62, 12, 130, 154, 129, 88, 52, 124, 160, 238, 41],
        setup: [270; 12],
        holding: 2,
        plan: [84, 0, 0, 130, 283, 0, 140, 0, 124, 160, 279, 0],
        cost: 2506,
    },
];

/// Every instance as an input of the full, the uncapped and the equal path, with one capacity throughout that can't bind: the largest there is, and the whole
/// demand. The plain implementation has the plan and the published cost of each, doubled: there upkeep is paid once on what a period leaves;
/// here it is paid again in the next period, on the charge before it, and there is no charge at the ends. With starts doubled too, every plan
/// costs twice as much.
pub fn inputs() -> Vec<Input> {
    let mut inputs = vec![];
    for Instance { demand, setup, holding, plan, cost } in INSTANCES {
        for capacity in [65_535, demand.iter().sum()] {
            let day = Day {
                demand: demand.into(),
                capacity: vec![capacity; 12],
                setup: setup.map(|b| 2 * b).into(),
                unit: vec![0; 12],
                holding: vec![holding; 12],
                store: vec![plain::NO_LIMIT; 12],
                opening: 0,
                closing: 0,
            };
            let setups = plan.iter().filter(|&&x| x > 0).count() as u64;
            let totals = Totals { cost: 2 * cost, setups };
            assert_eq!(plain::recursion(&day), Some(Planned { plan: plan.into(), totals }));
            for call in [Call::Full, Call::Uncapped, Call::Equal] {
                inputs.push(Input::exact(call, &day, [&[]; 2]));
            }
        }
    }
    inputs
}
