//! The environment by itself: card rules, faults, host, configuration space.

use world::bus::{Allocation, AttributeCall, Bus, Handle, Resource};
use world::plan::{Addresses, Behaviour, Fault, Later, OddMap, Plan, Which, NEVER};
use world::registers::*;
use world::resources::{Descriptor, END};
use world::{World, OTHER_LIST, PAGE};

const GO_T1: u32 = GO | 1 << T_SHIFT;

fn world(change: impl FnOnce(&mut Plan)) -> World {
    let mut plan = Plan::obedient();
    change(&mut plan);
    World::new(plan)
}

/// A buffer of `pages` pages, mapped.
fn buffer(w: &mut World, pages: u64) -> (Handle, u64) {
    let Allocation::Pages(handle) = w.allocate(pages) else {
        panic!("no pages");
    };
    (handle, w.map(handle, pages * PAGE).unwrap().address)
}

/// Write the command dwords as a driver does.
fn post(w: &mut World, op: u16, in_mod: u32, in_param: u64, out_param: u64) {
    let halves = |v: u64| [(v >> 32) as u32, v as u32];
    let [i, j] = halves(in_param);
    let [k, l] = halves(out_param);
    for (n, dword) in [i, j, in_mod, k, l, 0xffff_0000, GO_T1 | u32::from(op)].into_iter().enumerate() {
        w.register_write(BAR_DCS, HCR + 4 * n as u64, dword.to_be());
    }
}

fn status(w: &mut World) -> u32 {
    u32::from_be(w.register_read(BAR_DCS, GO_WRITE).unwrap())
}

fn give_back(w: &mut World, handle: Handle, pages: u64) {
    w.unmap(handle);
    w.free(handle, pages);
}

/// A world whose inbox names one block at `address`, posted as MAP_FA.
fn with_mapped_page(change: impl FnOnce(&mut Plan)) -> (World, Handle) {
    let mut w = world(change);
    let (inbox, at) = buffer(&mut w, 1);
    post(&mut w, QUERY_FW, 0, 0, 0);
    let (page, address) = buffer(&mut w, 1);
    w.pages(inbox).write(8, &address.to_be_bytes());
    post(&mut w, MAP_FA, 1, at, 0);
    (w, page)
}

#[test]
fn a_page_that_the_card_holds_may_not_go_back() {
    let (mut w, page) = with_mapped_page(|_| {});
    give_back(&mut w, page, 1);
    assert_eq!(w.misuse(), [format!("{page} given back while the card may use it")]);
}

#[test]
fn unmap_or_reset_lets_it_go() {
    let (mut w, page) = with_mapped_page(|_| {});
    post(&mut w, UNMAP_FA, 0, 0, 0);
    give_back(&mut w, page, 1);
    assert_eq!(w.misuse(), [""; 0]);
    let (mut w, page) = with_mapped_page(|_| {});
    w.register_write(BAR_DCS, RESET, 1u32.to_be());
    give_back(&mut w, page, 1);
    assert_eq!(w.misuse(), [""; 0]);
}

#[test]
fn a_status_changes_nothing_and_a_pending_map_names_its_blocks() {
    let refuse = |behaviour| move |p: &mut Plan| p.card.commands.push((Which::Opcode(MAP_FA), behaviour));
    let (mut w, page) = with_mapped_page(refuse(Behaviour::status(3)));
    assert!(w.card_holds_nothing());
    give_back(&mut w, page, 1);
    assert_eq!(w.misuse(), [""; 0]);
    let (mut w, page) = with_mapped_page(refuse(Behaviour::after(NEVER)));
    assert!(w.card_holds_nothing());
    give_back(&mut w, page, 1);
    assert_eq!(w.misuse().len(), 1);
}

#[test]
fn mailboxes_stay_while_a_command_is_pending() {
    let mut w = world(|p| p.card.usual = Behaviour::after(2));
    let (inbox, _) = buffer(&mut w, 1);
    post(&mut w, RUN_FW, 0, 0, 0);
    give_back(&mut w, inbox, 1);
    assert_eq!(w.misuse().len(), 1);
}

#[test]
fn lent_pages_stay_until_close_hca() {
    for (closed, faults) in [(false, 1), (true, 0)] {
        let mut w = world(|_| {});
        post(&mut w, INIT_HCA, 0, 0, 0);
        let (lent, _) = buffer(&mut w, 2);
        if closed {
            post(&mut w, CLOSE_HCA, 0, 0, 0);
        }
        give_back(&mut w, lent, 2);
        assert_eq!(w.misuse().len(), faults);
    }
}

#[test]
fn pages_are_given_back_once_unmapped_and_whole() {
    let mut w = world(|_| {});
    let (a, _) = buffer(&mut w, 2);
    w.free(a, 2);
    give_back(&mut w, a, 2);
    let (b, _) = buffer(&mut w, 2);
    give_back(&mut w, b, 1);
    w.unmap(b);
    assert_eq!(w.misuse().len(), 4);
}

#[test]
fn icm_is_mapped_and_dropped_by_card_address() {
    let mut w = world(|_| {});
    let (inbox, at) = buffer(&mut w, 1);
    let entry = |virt: u64, low: u64| [virt.to_be_bytes(), low.to_be_bytes()].concat();
    w.pages(inbox).write(0, &entry(0x10_0000, 0x80_0002));
    post(&mut w, MAP_ICM, 1, at, 0);
    assert_eq!(w.icm_at(0x10_3fff), Some(0x80_3fff));
    assert_eq!(w.icm_at(0x10_4000), None);
    post(&mut w, UNMAP_ICM, 2, 0x10_1000, 0);
    let seen: Vec<Option<u64>> = (0..4).map(|k| w.icm_at(0x10_0000 + k * PAGE)).collect();
    assert_eq!(seen, [Some(0x80_0000), None, None, Some(0x80_3000)]);
}

#[test]
fn go_is_shown_so_many_times_then_t_and_status() {
    let mut w = world(|p| p.card.usual = Behaviour { polls: 2, status: 7 });
    post(&mut w, RUN_FW, 0, 0, 0);
    let shown: Vec<u32> = (0..4).map(|_| status(&mut w)).collect();
    let running = GO_T1 | u32::from(RUN_FW);
    let done = 7 << STATUS_SHIFT | 1 << T_SHIFT | u32::from(RUN_FW);
    assert_eq!(shown, [running, running, done, done]);
}

#[test]
fn a_command_written_while_go_is_set_is_not_taken() {
    let mut w = world(|p| p.card.usual = Behaviour::after(1));
    post(&mut w, RUN_FW, 0, 0, 0);
    post(&mut w, INIT_HCA, 0, 0, 0);
    status(&mut w);
    assert_eq!(status(&mut w) & 0xfff, u32::from(RUN_FW));
}

#[test]
fn owner_and_semaphore_are_taken_by_reading() {
    let mut w = world(|p| p.card.semaphore = vec![1]);
    let mut read = |offset| u32::from_be(w.register_read(BAR_DCS, offset).unwrap());
    assert_eq!([read(OWNER), read(OWNER)], [0, 1]);
    assert_eq!([read(RESET_SEMAPHORE), read(RESET_SEMAPHORE), read(RESET_SEMAPHORE)], [1, 0, 1]);
    w.register_write(BAR_DCS, OWNER, 0);
    assert_eq!(w.register_read(BAR_DCS, OWNER), Some(0));
}

#[test]
fn a_fault_is_taken_or_not() {
    for (taken, next) in [(true, 1), (false, 0)] {
        let mut w = world(|p| p.faults = vec![Fault { call: 0, taken }]);
        assert_eq!(w.register_read(BAR_DCS, OWNER), None);
        assert_eq!(w.register_read(BAR_DCS, OWNER).map(u32::from_be), Some(next));
    }
}

#[test]
fn a_failed_allocation_or_map_gives_nothing() {
    let mut w = world(|p| p.faults = [0, 2].map(|call| Fault { call, taken: true }).to_vec());
    assert_eq!(w.allocate(1), Allocation::Failed);
    assert_eq!(w.in_use(), []);
    assert_eq!(w.allocate(1), Allocation::Pages(Handle(1)));
    assert_eq!(w.map(Handle(1), PAGE), None);
    w.unmap(Handle(1));
    assert_eq!(w.misuse().len(), 1, "it was not mapped");
}

#[test]
fn addresses_of_every_alignment_without_overlap() {
    let mut w = world(|p| p.host.addresses = Addresses::Any { seed: 3 });
    let mut spans: Vec<(u128, u128)> = Vec::new();
    for n in 0..400 {
        let pages = 1 + n % 5;
        let (_, start) = buffer(&mut w, pages);
        let end = u128::from(start) + u128::from(pages * PAGE);
        assert!(start.is_multiple_of(PAGE) && end <= 1 << 64);
        assert!(spans.iter().all(|(s, e)| end <= *s || *e <= u128::from(start)));
        spans.push((start.into(), end));
    }
    let exponents: Vec<u32> = spans.iter().map(|(s, _)| s.trailing_zeros()).collect();
    assert!((12..46).all(|e| exponents.contains(&e)));
    assert!(spans.iter().any(|(s, _)| *s == 0) && spans.iter().any(|(_, e)| *e == 1 << 64));
}

#[test]
fn a_reset_clears_what_was_written_and_hides_the_card() {
    let mut w = world(|p| p.card.absent = vec![2]);
    w.register_write(BAR_DCS, RESET, 1u32.to_be());
    assert_eq!(w.config_read32(0x10), Some(u32::MAX));
    assert_eq!([0, 0, 0].map(|o| w.config_read16(o)), [Some(0xffff), Some(0xffff), Some(0x15b3)]);
    assert_eq!([0x10, 0x18].map(|o| w.config_read32(o)), [Some(4), Some(0xc)]);
    w.config_write32(0x10, 0xf000_0004);
    w.config_write32(0x00, 0);
    assert_eq!([0x00, 0x10].map(|o| w.config_read32(o)), [Some(0x1003_15b3), Some(0xf000_0004)]);
}

#[test]
fn resource_lists_by_register_and_by_count() {
    let base = |w: &mut World, index| match w.resource(index) {
        Resource::List(l) => Some((l.len(), u64::from_le_bytes(l[14..22].try_into().unwrap()))),
        _ => None,
    };
    let mut by_register = world(|_| {});
    let mut by_count = world(|p| p.resources.numbering = world::plan::Numbering::Count);
    let (dcs, uar) = (Some((48, 0xf000_0000)), Some((48, 0xe000_0000)));
    assert_eq!([0, 1, 2, 3].map(|i| base(&mut by_register, i)), [dcs, None, uar, None]);
    assert_eq!([0, 1, 2, 3].map(|i| base(&mut by_count, i)), [dcs, uar, None, None]);
}

#[test]
fn answers_outside_the_domain_are_told() {
    let one = Descriptor::memory(0xe000_0000, 0x80_0000).bytes();
    let (cut, moved) = (one[..45].to_vec(), Descriptor { offset: 1, ..Descriptor::memory(0, 1) }.bytes());
    let lists = [one.clone(), [one.clone(), END.into()].concat(), cut, moved, END.into()];
    for (list, outside) in lists.into_iter().zip([false, false, true, true, true]) {
        let mut w = world(|p| p.resources.odd = vec![(0, Resource::List(list.clone()))]);
        w.resource(0);
        assert_eq!(w.outside(), vec![OTHER_LIST; outside.into()], "{list:02x?}");
    }
    let mut w = world(|p| p.card.replies.aux_pages = 1 << 52);
    post(&mut w, SET_ICM_SIZE, 0, 0, 0);
    assert_eq!(w.outside(), ["auxiliary pages whose bytes pass 2^64"]);
}

#[test]
fn attributes_are_set_and_enabled() {
    let mut w = world(|_| {});
    w.attributes(AttributeCall::Enable, 0x600);
    assert_eq!(w.attributes(AttributeCall::Get, 0), Some(0x607));
    w.attributes(AttributeCall::Set, 7);
    assert_eq!(w.attributes(AttributeCall::Get, 0), Some(7));
}

/// A reply goes to the outbox and nowhere else, though another address is mapped or is named by an immediate.
#[test]
fn replies_go_to_the_outbox_alone() {
    let mut w = world(|p| {
        p.host.addresses = Addresses::Rising { from: 0 };
        p.card.replies.fw = vec![0xee; 64];
    });
    let ((inbox, _), (outbox, at)) = (buffer(&mut w, 1), buffer(&mut w, 1));
    let first = |w: &World, handle| w.pages(handle).read(0, 1);
    post(&mut w, QUERY_FW, 0, 0, 0);
    assert_eq!([first(&w, inbox), first(&w, outbox)], [[0], [0]]);
    post(&mut w, QUERY_FW, 0, 0, at);
    assert_eq!([first(&w, inbox), first(&w, outbox)], [[0], [0xee]]);
    let (third, at) = buffer(&mut w, 1);
    post(&mut w, QUERY_FW, 0, 0, at);
    assert_eq!(first(&w, third), [0]);
}

#[test]
fn what_is_decided_later_is_counted_from_there() {
    let mut w = world(|p| p.card.commands = vec![(Which::Opcode(RUN_FW), Behaviour::status(1))]);
    buffer(&mut w, 1);
    post(&mut w, QUERY_FW, 0, 0, 0);
    w.schedule(Later {
        commands: vec![(1, Behaviour::status(9))],
        faults: vec![Fault { call: 14, taken: false }],
        null: vec![1],
        odd_maps: vec![(0, OddMap { address: None, bytes: Some(7) })],
    });
    let status_of = |w: &mut World| status(w) >> STATUS_SHIFT;
    post(&mut w, RUN_FW, 0, 0, 0);
    post(&mut w, RUN_FW, 0, 0, 0);
    assert_eq!(w.register_read(BAR_DCS, GO_WRITE), None, "call 14");
    assert_eq!(status_of(&mut w), 9);
    post(&mut w, RUN_FW, 0, 0, 0);
    assert_eq!(status_of(&mut w), 1);
    assert_eq!(w.allocate(1), Allocation::Pages(Handle(2)));
    assert_eq!(w.map(Handle(2), PAGE).map(|m| m.bytes), Some(7));
    assert_eq!(w.allocate(1), Allocation::Null);
    assert_eq!(buffer(&mut w, 1).0, Handle(3));
}

#[test]
fn a_seed_decides_everything() {
    let text = |seed| format!("{:?} {:?}", Plan::seeded(seed), world::calls::seeded(seed));
    assert_eq!(text(77), text(77));
    assert_ne!(text(77), text(78));
}
