//! The subcommands of the `oracle` program.

use std::process::{Command, Output};

use world::plan::input_l;
use world::trace::hex;

fn oracle(args: &[&str]) -> Output {
    Command::new(env!("CARGO_BIN_EXE_oracle")).args(args).output().expect("the program runs")
}

fn printed(args: &[&str]) -> String {
    let output = oracle(args);
    assert!(output.status.success(), "{output:?}");
    String::from_utf8(output.stdout).unwrap()
}

#[test]
fn profile_lists_or_refuses() {
    let l = hex(&input_l());
    let listing = printed(&["profile", &l]);
    assert!(listing.starts_with("cMPT 64 67108864 100000000 0\nRDMARC 32 16384 80000 100000000\n"));
    assert!(listing.ends_with("total 100121000\nbase_sqpn 200\nfirst_free_mtt 8\n"));
    assert_eq!(printed(&["profile", "00"]), "refused 13 0\n");
}

#[test]
fn init_hca_by_an_opening() {
    let mailbox = oracle::leaves::init_hca(&input_l()).unwrap();
    assert_eq!(printed(&["init_hca", &hex(&input_l())]), hex(&mailbox[..300]) + "\n");
    assert_eq!(printed(&["init_hca", "00"]), "refused 13 0 Clean\n");
}

#[test]
fn blocks_and_mailboxes() {
    assert_eq!(printed(&["blocks", "none", "0x3000", "0x5000"]), "0 3000 12\n0 4000 14\n");
    assert_eq!(printed(&["blocks", "0x1000", "16384", "4096"]), "1000 4000 12\n");
    let mailbox = printed(&["mailboxes", "none", "0x3000", "5"]);
    assert!(mailbox.starts_with("2 0000000000000000000000000000300000000000000000000000000000004002000000"));
    assert_eq!(mailbox.len(), 2 + 2 * 4096 + 1);
}

#[test]
fn bars() {
    let regs = ["0xf0000004", "0", "0xe000000c", "0", "0", "0", "2"];
    let with = |head: &str, tail: &[&str]| printed(&[&[head], &regs[..], tail].concat());
    assert_eq!(with("base", &[]), "e0000000\n");
    assert_eq!(with("candidates", &[]), "2 1\n");
    let answers = ["none", "0xe0000000:0x800000", "none", "none", "none", "none"];
    assert_eq!(with("choose", &answers), "index 1 size 800000 BaseMatches asked [2, 1]\n");
    let outside = printed(&["base", "0", "0", "0", "0", "0", "0", "6"]);
    assert!(outside.starts_with("outside the domain: "));
}

#[test]
fn sessions_print_trace_and_result() {
    let open = printed(&["open", "obedient"]);
    assert!(open.starts_with("call Open\nattr get 0 -> 7\n"));
    assert!(open.lines().last().unwrap().starts_with("result Opened("));
    assert!(printed(&["close", "obedient", "full"]).ends_with("attr set 7 -> 0\nresult Closed(Clean)\n"));
    assert_eq!(printed(&["session", "5"]), printed(&["session", "5"]));
}

#[test]
fn wrong_arguments_fail() {
    for args in [&["profile", "xx"][..], &["blocks", "0"], &["base", "1", "2"], &["nothing"]] {
        assert!(!oracle(args).status.success(), "{args:?}");
    }
}
