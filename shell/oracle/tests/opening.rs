//! Openings and closings on a card that does as it is told.

mod common;

use common::{assert_settled, failed, lines, open, opened, ops, plan, take};
use oracle::run;
use world::bus::Bus;
use world::plan::{fw_reply, input_l, put_be16, put_be64, Behaviour, Numbering, Plan, Which};
use world::registers::*;
use world::results::Closing;
use world::PAGE;

/// The commands of an opening with 14 single mailboxes.
fn opening_ops(ports: usize, sys_eqs: bool) -> Vec<u16> {
    let mut ops = vec![QUERY_FW, MAP_FA, RUN_FW, MOD_STAT_CFG, QUERY_DEV_CAP];
    ops.extend(vec![QUERY_PORT; ports]);
    ops.extend([SET_ICM_SIZE, MAP_ICM_AUX]);
    ops.extend([MAP_ICM; 14]);
    ops.push(INIT_HCA);
    ops.extend(sys_eqs.then_some(QUERY_FUNC));
    ops.push(QUERY_ADAPTER);
    ops
}

fn closing_ops() -> Vec<u16> {
    [vec![CLOSE_HCA], vec![UNMAP_ICM; 14], vec![UNMAP_ICM_AUX, UNMAP_FA]].concat()
}

#[test]
fn order_of_an_opening_and_a_close() {
    let (world, mut driver, result, trace) = open(Plan::obedient());
    let opened = result.unwrap();
    assert_eq!(ops(&trace), opening_ops(1, false));
    assert_eq!((opened.rev3, opened.ports.len(), opened.uar_bar, opened.uar_size), (true, 1, 2, Some(8 << 20)));
    assert_eq!(run::close(&mut driver), Ok(Closing::Clean));
    assert_eq!(ops(&take(&world)), closing_ops());
    assert_settled(&world);
    assert!(world.borrow().bus.card_holds_nothing());
}

#[test]
fn calls_before_the_first_command() {
    let (_, _, _, trace) = open(Plan::obedient());
    let lines = lines(&trace);
    let start = [
        "attr get 0 -> 7",
        "attr supported 0 -> ff07",
        "attr enable 8600 -> 0",
        "cfgr16 04 -> 0006",
        "cfgw16 04 0406 -> ok",
    ];
    assert_eq!(lines[..5], start);
    assert_eq!(lines[5..7], ["regr 0 8069c -> 00000000", "cfgr32 00 -> 100315b3"]);
    let bars = lines.iter().position(|l| l.starts_with("bar ")).unwrap();
    let mailboxes = ["alloc 1 -> h1", "map h1 1000 -> 40000000 1000", "alloc 1 -> h2", "map h2 1000 -> 40001000 1000"];
    assert!(lines[bars].starts_with("bar 2 -> 8a2b00"));
    assert_eq!(lines[bars + 1..bars + 3], ["free_pool 2", "bar 1 -> fail"]);
    assert_eq!(lines[bars + 3..bars + 7], mailboxes);
    let query_fw = "post 004 0 0 0 40001000 inbox -";
    assert_eq!(lines.iter().position(|l| l == query_fw), Some(bars + 7 + 8));
}

#[test]
fn one_command_on_the_bus() {
    let (_, _, _, trace) = open(Plan::obedient());
    let lines = lines(&trace);
    let post = lines.iter().position(|l| l.starts_with("post ffd ")).unwrap();
    let expected = [
        "regr 0 80698 -> 43000000",
        "regw 0 80680 01000000 -> ok",
        "regw 0 80684 00101200 -> ok",
        "regw 0 80688 00000000 -> ok",
        "regw 0 8068c 00000000 -> ok",
        "regw 0 80690 00000000 -> ok",
        "regw 0 80694 0000ffff -> ok",
        "post ffd 0 0 100121000 0 inbox -",
        "regw 0 80698 fd0fa000 -> ok",
        "regr 0 80698 -> fd0f2000",
        "regr 0 80698 -> fd0f2000",
        "regr 0 8068c -> 00000000",
        "regr 0 80690 -> 03000000",
        "alloc 3 -> h4",
    ];
    assert_eq!(lines[post - 7..post + 7], expected);
}

#[test]
fn ports_revision_and_system_eqs_decide_the_queries() {
    let two_ports = plan(|p| p.card.replies.cap[0x37] = 2);
    let (_, _, result, trace) = open(two_ports);
    assert_eq!(ops(&trace), opening_ops(2, false));
    assert_eq!(result.unwrap().ports.iter().map(|p| (p.num, p.b0)).collect::<Vec<_>>(), [(1, 0xc2), (2, 0x42)]);

    let revision_2 = plan(|p| p.card.replies.fw = fw_reply(4, 2));
    let (_, _, result, trace) = open(revision_2);
    assert_eq!(ops(&trace), opening_ops(0, false));
    assert_eq!(result.map(|o| (o.rev3, o.ports.len())), Ok((false, 0)));

    let sys_eqs = plan(|p| {
        put_be16(&mut p.card.replies.cap, 0x26, 0xf005);
        p.card.replies.func = vec![0, 0, 0, 0, 1, 2, 3, 4, 0, 0, 0, 0xf7];
    });
    let (_, _, result, trace) = open(sys_eqs);
    assert_eq!(ops(&trace), opening_ops(1, true));
    let cap = result.unwrap().cap;
    assert_eq!((cap.num_sys_eqs, cap.rsvd_eqs, cap.max_eqs, cap.rsvd_uars), (5, 0x102, 0x304, 7));
}

#[test]
fn the_card_maps_the_14_ranges_page_by_page() {
    let (world, driver) = opened(Plan::obedient());
    let state = driver.state().unwrap();
    let world = &world.borrow().bus;
    assert_eq!(state.icm.len(), 14);
    for (virt, buffer) in &state.icm {
        for k in 0..buffer.pages {
            assert_eq!(world.icm_at(virt + k * PAGE), Some(buffer.address + k * PAGE));
        }
    }
    let starts: Vec<u64> = state.icm.iter().map(|(v, _)| *v).collect();
    let quarters = [0, 0x4000_0000, 0x8000_0000, 0xc000_0000];
    assert_eq!(starts[..4], quarters);
    assert_eq!(state.icm[..4].iter().map(|(_, b)| b.pages).collect::<Vec<_>>(), [16, 1, 1, 2]);
    assert_eq!(starts[4..8], [0x1_0011_8000, 0x1_0012_0000, 0x1_0011_f000, 0x1_0008_0000]);
    assert_eq!(starts[8..12], [0x1_0011_0000, 0x1_0010_0000, 0x1_0000_0000, 0x1_0011_c000]);
    assert_eq!((starts[12], starts[13], state.mtt), (0x1_0011_e000, 0x1_000c_0000, Some(5)));
}

#[test]
fn quarters_have_the_pages_of_their_own_counts() {
    let reserves = plan(|p| {
        (p.card.replies.cap[0x14], p.card.replies.cap[0x1a]) = (0x80, 7);
        p.card.replies.cap[0xa0] = 1;
    });
    let (_, driver) = opened(reserves);
    let icm = driver.state().unwrap().icm;
    let pages: Vec<u64> = icm[..4].iter().map(|(_, b)| b.pages).collect();
    assert_eq!(pages, [1024, 512, 256, 128].map(|count| count * 64 / PAGE));
}

#[test]
fn every_page_is_zeroed() {
    let (world, mut driver) = opened(Plan::obedient());
    let lent = run::lend(&mut driver, 5000).unwrap();
    let state = driver.state().unwrap();
    let areas = [state.fa.unwrap(), state.aux.unwrap(), lent];
    for buffer in state.icm.iter().map(|(_, b)| b).chain(&areas) {
        let bytes = world.borrow().pages(buffer.handle).read(0, buffer.pages * PAGE);
        assert!(bytes.iter().all(|b| *b == 0), "{}", buffer.handle);
    }
}

#[test]
fn ranges_are_unmapped_newest_first() {
    let (world, mut driver) = opened(Plan::obedient());
    let icm = driver.state().unwrap().icm;
    run::close(&mut driver).unwrap();
    let trace = take(&world);
    let unmaps = trace.posts().filter(|p| p.op == UNMAP_ICM).map(|p| (p.in_param, u64::from(p.in_mod)));
    let newest_first = icm.iter().rev().map(|(virt, b)| (*virt, b.pages));
    assert_eq!(unmaps.collect::<Vec<_>>(), newest_first.collect::<Vec<_>>());
}

/// The INIT_HCA mailbox of input L, by document 01 and the layout it lists.
#[test]
fn init_hca_of_input_l() {
    let (_, _, _, trace) = open(Plan::obedient());
    let inbox = trace.posts().find(|p| p.op == INIT_HCA).unwrap().inbox.clone().unwrap();
    let mut expected = vec![0; inbox.len()];
    let bases: [(usize, u64); 11] = [
        (0x30, 0x1_0008_0000 + 10),
        (0x48, 0x1_0011_e000 + 1),
        (0x50, 0x1_0011_c000 + 6),
        (0x60, 0x1_0010_0000),
        (0x70, 0x1_0011_0000),
        (0x80, 0x1_0011_8000 + 7),
        (0x90, 0x1_0000_0000 + 4),
        (0xc0, 0x1_000c_0000),
        (0xf0, 0x1_0011_f000),
        (0x100, 0x1_0012_0000),
        (0x108, 0),
    ];
    bases.iter().for_each(|(at, base)| put_be64(&mut expected, *at, *base));
    for (at, byte) in [(0x00, 2), (0x0e, 0x50), (0x17, 1), (0xd3, 10), (0xd7, 7), (0xdb, 8), (0xfb, 6), (0x12a, 8)] {
        expected[at] = byte;
    }
    assert_eq!(inbox, expected);
}

#[test]
fn more_than_256_blocks_take_several_mailboxes() {
    // RDMARC of 512 pages on an odd page: 512 single pages.
    let wide = plan(|p| {
        put_be16(&mut p.card.replies.cap, 0x80, 128);
        p.card.replies.cap[0xa0] = 1;
    });
    let (world, mut driver, result, trace) = open(wide);
    let layout = result.unwrap().layout;
    let state = driver.state().unwrap();
    let (virt, buffer) = state.icm[10];
    assert_eq!((virt, buffer.pages, buffer.address % 0x2000), (layout.tables[1].base, 512, 0x1000));
    let of_range = |virt: u64| move |b: &&Vec<u8>| b[..8] == virt.to_be_bytes();
    let inboxes: Vec<Vec<u8>> = trace.posts().filter(|p| p.op == MAP_ICM).filter_map(|p| p.inbox.clone()).collect();
    let second = inboxes.iter().find(of_range(virt + 256 * PAGE)).unwrap();
    assert_eq!(second[8..16], (buffer.address + 256 * PAGE).to_be_bytes());
    let counts: Vec<u32> = trace.posts().filter(|p| p.op == MAP_ICM).map(|p| p.in_mod).filter(|n| *n == 256).collect();
    assert_eq!(counts, [256, 256]);
    assert_eq!(run::close(&mut driver), Ok(Closing::Clean));
    assert_settled(&world);
}

#[test]
fn zero_pages_asked_give_one() {
    let none = plan(|p| {
        p.card.replies.fw = fw_reply(0, 3);
        p.card.replies.aux_pages = 0;
    });
    let (_, driver, _, trace) = open(none);
    let state = driver.state().unwrap();
    assert_eq!((state.fa.unwrap().pages, state.aux.unwrap().pages), (1, 1));
    assert!(trace.posts().filter(|p| p.op == MAP_FA || p.op == MAP_ICM_AUX).all(|p| p.in_mod == 1));
}

#[test]
fn both_bar_numberings_find_the_uar() {
    let count = plan(|p| p.resources.numbering = Numbering::Count);
    let (_, _, result, trace) = open(count);
    assert_eq!(result.map(|o| (o.uar_bar, o.uar_size)), Ok((1, Some(8 << 20))));
    let asked: Vec<String> =
        lines(&trace).into_iter().filter(|l| l.starts_with("bar ")).map(|l| l[..5].into()).collect();
    assert_eq!(asked, ["bar 2", "bar 1"]);
}

#[test]
fn mailboxes_hold_what_was_put_there() {
    let (_, driver) = opened(Plan::obedient());
    let [inbox, outbox] = driver.mailboxes().map(Option::unwrap);
    assert_eq!(inbox, oracle::leaves::init_hca(&input_l()).unwrap());
    assert_eq!(outbox, [0; 4096]);
    let refused = plan(|p| p.card.replies.cap[0x4b] = 13);
    let (world, driver, result, _) = open(refused);
    assert_eq!(result, failed(12, &[13], Closing::Clean));
    let [inbox, outbox] = driver.mailboxes().map(Option::unwrap);
    assert_eq!((inbox[2], inbox.iter().filter(|b| **b != 0).count()), (1, 1));
    assert_eq!((outbox[0x4b], outbox[0x37]), (13, 1));
    assert_settled(&world);
}

#[test]
fn a_status_of_mod_stat_cfg_or_query_adapter_is_passed_over() {
    for op in [MOD_STAT_CFG, QUERY_ADAPTER] {
        let (world, mut driver) = opened(common::with_command(op, Behaviour::status(2)));
        assert!(!driver.state().unwrap().broken);
        assert_eq!(run::close(&mut driver), Ok(Closing::Clean));
        assert_settled(&world);
    }
}

#[test]
fn refusals_of_the_replies() {
    let multi = common::with_command(QUERY_FW, Behaviour::status(0x50));
    assert_eq!(open(multi).2, failed(10, &[], Closing::Clean));
    let revision = plan(|p| p.card.replies.fw = fw_reply(4, 4));
    assert_eq!(open(revision).2, failed(11, &[4], Closing::Clean));
    let small_bar = plan(|p| p.resources.sizes[2] = 0x8000);
    assert_eq!(open(small_bar).2, failed(15, &[1 << 20], Closing::Clean));
    let field = plan(|p| p.card.replies.cap[0x49] = 0x2c);
    assert_eq!(open(field).2, failed(14, &[0x2c], Closing::Clean));
    let entry = plan(|p| put_be16(&mut p.card.replies.cap, 0x92, 0));
    assert_eq!(open(entry).2, failed(16, &[7], Closing::Clean));
}

/// For each command of an opening, what closing sends after its status 3.
#[test]
fn a_status_is_followed_by_the_commands_owed() {
    let opening = opening_ops(1, false);
    for (n, op) in opening.iter().enumerate().filter(|(_, op)| ![MOD_STAT_CFG, QUERY_ADAPTER].contains(op)) {
        let status = plan(|p| p.card.commands.push((Which::Number(n as u64), Behaviour::status(3))));
        let (world, _, result, trace) = open(status);
        assert_eq!(result, failed(6, &[3, 0], Closing::Clean), "command {n}");
        let icm = opening[..=n].iter().filter(|o| **o == MAP_ICM).count();
        let mut owed = vec![UNMAP_ICM; icm];
        owed.extend((n >= 7).then_some(UNMAP_ICM_AUX));
        owed.extend((n >= 1).then_some(UNMAP_FA));
        assert_eq!(ops(&trace)[n..], [vec![*op], owed].concat(), "command {n}");
        assert_settled(&world);
    }
}
