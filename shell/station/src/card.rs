//! The card and the host of a session.

use world::bus::Resource;
use world::plan::{put_be16, Behaviour, Plan, Which};
use world::registers::{INIT_HCA, MAP_FA, QUERY_DEV_CAP, QUERY_FW, RUN_FW};

use crate::options::Options;

/// How often GO is seen of a command that is not named below.
const POLLS: u64 = 3;
/// The commands that take longer.
const LONGER: [(u16, u64); 5] = [(QUERY_FW, 12), (MAP_FA, 40), (RUN_FW, 1_450), (QUERY_DEV_CAP, 15), (INIT_HCA, 900)];

/// A port with its link up at 40G, and a MAC.
fn port(last: u8) -> Vec<u8> {
    let mut reply = vec![0; 64];
    (reply[0x00], reply[0x01], reply[0x05], reply[0x0a]) = (0xc2, 0x80, 0x40, 7);
    put_be16(&mut reply, 0x02, 9600);
    reply[0x12..0x18].copy_from_slice(&[0x00, 0x02, 0xc9, 0x00, 0x00, last]);
    reply
}

/// A card that does as it is told, and takes some time for it.
fn usual() -> Plan {
    let mut plan = Plan::obedient();
    plan.card.replies.ports = [port(1), port(2)];
    plan.card.usual = Behaviour::after(POLLS);
    plan.card.commands = LONGER.map(|(op, polls)| (Which::Opcode(op), Behaviour::after(polls))).to_vec();
    plan
}

/// The plan that the options ask for.
pub fn plan(options: &Options) -> Plan {
    let mut plan = options.seed.map_or_else(usual, Plan::seeded);
    plan.faults.splice(0..0, options.faults.iter().copied());
    plan.card.commands.splice(0..0, options.behaviours());
    let lists = options.lists.iter().rev().map(|(bar, list)| (*bar, Resource::List(list.clone())));
    plan.resources.odd.splice(0..0, lists);
    plan
}
