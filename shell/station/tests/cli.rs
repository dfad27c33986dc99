//! The program: exit statuses, bad options, faults, a Timeout, and the picture.

use std::process::{Command, Output};

use world::resources::{Descriptor, END, IO};

fn station(args: &[&str]) -> Output {
    Command::new(env!("CARGO_BIN_EXE_station")).args(args).output().expect("the program runs")
}

/// Its exit status, and what it wrote.
fn ran(args: &[&str]) -> (i32, String, String) {
    let Output { status, stdout, stderr } = station(args);
    let text = |bytes: Vec<u8>| String::from_utf8(bytes).expect("text");
    (status.code().expect("an exit status"), text(stdout), text(stderr))
}

/// A run that ends with this status and says these things.
fn says(args: &[&str], status: i32, what: &[&str]) -> String {
    let (code, out, _) = ran(args);
    assert_eq!(code, status, "{args:?}\n{out}");
    what.iter().for_each(|w| assert!(out.contains(w), "{args:?}: {w}\n{out}"));
    out
}

#[test]
fn a_good_session() {
    let what = [
        "    1  QUERY_FW                 0        12  0x00 good\n",
        "   24  QUERY_ADAPTER            0         3  0x00 good\n",
        "result: open\n",
        "UAR BAR: index 2, 8 MiB",
        "  cMPT 64 67108864 100000000 0\n",
        "  total 100121000\n  put in order by 27 comparisons\n",
        "  QPC        100080000      64          40023000  h12\n",
        "   41  UNMAP_FA                 0         3  0x00 good\n",
        "closed: clean",
        "held: nothing",
    ];
    let out = says(&[], 0, &what);
    assert!(!out.contains("failed") && !out.contains("note"), "{out}");
    assert_eq!(ran(&[]).2, "");
}

/// An I/O range ahead of the memory range, whose minimum is 2^32 less than the BAR's base: 94 bytes.
#[test]
fn a_list_of_two_descriptors() {
    let memory = Descriptor { offset: 1 << 32, ..Descriptor::memory(0xe000_0000u64.wrapping_sub(1 << 32), 8 << 20) };
    let io = Descriptor { kind: IO, ..Descriptor::memory(0xc000, 0x100) };
    let list = [io.bytes(), memory.bytes(), END.into()].concat();
    assert_eq!(list.len(), 94);
    let of = |list: &[u8]| format!("2={}", list.iter().map(|b| format!("{b:02x}")).collect::<String>());
    let found = "UAR BAR: index 2, 8 MiB (its base is the one in configuration space)\n";
    says(&["--list", &of(&list)], 0, &["result: open\n", found, "closed: clean"]);
    let bad = "refused 27: the firmware's resource list of a BAR is damaged or cut";
    says(&["--list", &of(&list[..91])], 1, &[bad, "held: nothing"]);
}

/// Command lines that are refused.
const BAD: [&[&str]; 47] = [
    &["--nope"],
    &["extra"],
    &["--seed"],
    &["--seed", "-1"],
    &["--seed", "0x"],
    &["--seed", "18446744073709551616"],
    &["--fail"],
    &["--fail", "0"],
    &["--fail", "x"],
    &["--fail", "3:later"],
    &["--fail", ":taken"],
    &["--status"],
    &["--status", "MAP_FA"],
    &["--status", "MAP_FA=256"],
    &["--status", "MAP_FA="],
    &["--status", "NOPE=1"],
    &["--list"],
    &["--list", "2"],
    &["--list", "6=7900"],
    &["--list", "2=790"],
    &["--timeout"],
    &["--timeout", "0x1000"],
    &["--timeout", ""],
    &["--trace=1"],
    &["--picture"],
    &["--picture", ""],
    &["--imm"],
    &["--imm", ""],
    &["--imm", "CLOSE_PORT,x"],
    &["--imm", "CLOSE_PORT,0x100000000"],
    &["--imm", "CLOSE_PORT/256"],
    &["--imm", "CLOSE_PORT,1,2,3"],
    &["--with-in", "SET_PORT,1,abc"],
    &["--with-in", "SET_PORT,1,zz"],
    &["--with-out", "QUERY_PORT,1,00"],
    &["--in-out", "NOPE"],
    &["--lend", "-1"],
    &["--undo"],
    &["--undo-to", "one"],
    &["--quiesce=1"],
    &["--seed", "1", "--seed", "2"],
    &["--trace", "--trace"],
    &["--picture", "-", "--picture=-"],
    &["--picture", "--trace"],
    &["--seed", "+1"],
    &["--undo-to", ""],
    &["--lend", "0xg"],
];

#[test]
fn bad_options_are_one_line_and_2() {
    for args in BAD {
        let (code, out, err) = ran(args);
        assert_eq!((code, out.as_str()), (2, ""), "{args:?}");
        assert!(err.starts_with("station: ") && err.lines().count() == 1, "{args:?}: {err}");
    }
}

/// What is wrong is said, with the text that is wrong.
#[test]
fn bad_options_are_told_apart() {
    let told: [(&[&str], &str); 19] = [
        (&["--nope"], "no such option: --nope"),
        (&["extra"], "no such option: extra"),
        (&["--seed"], "--seed needs a value"),
        (&["--seed", "--trace"], "--seed needs a value, and --trace is an option"),
        (&["--picture", "--trace"], "--picture needs a value, and --trace is an option"),
        (&["--seed", "12x"], "--seed: not a number: 12x"),
        (&["--seed", "18446744073709551616"], "--seed: too large, 2^64 or more: 18446744073709551616"),
        (&["--seed", "1", "--seed=2"], "--seed is given twice"),
        (&["--trace", "--trace"], "--trace is given twice"),
        (&["--trace=1"], "--trace takes no value"),
        (&["--fail", "0"], "--fail: calls are counted from 1"),
        (&["--status", "MAP_FA"], "--status: not OP=S: MAP_FA"),
        (&["--status", "MAP_FA=256"], "--status: a status is below 256, not 256"),
        (&["--status", "MAP_FA="], "--status: a number is missing"),
        (&["--status", "=1"], "--status: a command is missing"),
        (&["--timeout", ""], "--timeout: a command is missing"),
        (&["--timeout", "RUN"], "--timeout: no such command: RUN"),
        (&["--timeout", "0x1000"], "--timeout: an opcode is below 0x1000, not 0x1000"),
        (&["--imm", "CLOSE_PORT,4294967296"], "--imm: an input modifier is too large"),
    ];
    for (args, why) in told {
        assert_eq!(ran(args), (2, String::new(), format!("station: {why} (--help says more)\n")), "{args:?}");
    }
    assert_eq!(ran(&["--seed=18446744073709551615"]).2, "");
}

/// A reader who has gone away is no fault of the program's.
#[test]
fn a_closed_pipe_is_no_panic() {
    for args in [&["--help"][..], &["--trace"]] {
        let (reader, writer) = std::io::pipe().expect("a pipe");
        drop(reader);
        let run = Command::new(env!("CARGO_BIN_EXE_station")).args(args).stdout(writer).output();
        let Output { status, stderr, .. } = run.expect("the program runs");
        assert_eq!((status.code(), String::from_utf8_lossy(&stderr).as_ref()), (Some(1), ""), "{args:?}");
    }
}

#[test]
fn help_is_no_error() {
    let (code, out, err) = ran(&["--help", "--nope"]);
    assert_eq!((code, err.as_str()), (0, ""));
    assert!(["--seed", "--fail", "--status", "--timeout", "--trace", "--picture"].iter().all(|o| out.contains(o)));
    assert!(["--imm", "--with-in", "--with-out", "--in-imm", "--in-out"].iter().all(|o| out.contains(o)));
    assert!(["--lend", "--undo", "--undo-to", "--quiesce"].iter().all(|o| out.contains(o)));
}

#[test]
fn a_failing_call() {
    says(&["--fail", "60"], 1, &["call 60 failed: map h2 1000 -> fail\n", "result: refused 5: ", "held: nothing"]);
    says(&["--fail=1"], 1, &["call 1 failed: attr ", "result: refused 1: "]);
    says(&["--fail", "99999"], 0, &["note: call 99999 was never made\n"]);
    // The first write of GO: not taken, or taken and not waited for.
    for fail in ["69", "69:taken"] {
        let what = ["call 69 failed: regw 0 80698 ", "QUERY_FW                 0         0  none: the bus failed"];
        says(&["--fail", fail], 1, &[&what[..], &["result: refused 9: ", "closed: by a reset"]].concat());
    }
}

/// The reset of the closing fails, too: everything is kept.
#[test]
fn what_is_kept_is_told() {
    let what = [
        "result: refused 8: ",
        "closed: the reset failed: ",
        "held: 2 buffers by the session, 2 by the host's books; 0 blocks by the card\n",
        "  inbox: h1, 1 page at ",
    ];
    says(&["--seed", "119"], 1, &what);
}

#[test]
fn a_status() {
    let refused = "result: refused 6: a command ended with status 0x08 (exceeds the device's limits) after 1 µs\n";
    let out = says(&["--status", "INIT_HCA=8"], 1, &[refused, "closed: clean"]);
    assert_eq!(says(&["--status=0x7=0x8"], 1, &[]), out);
    assert_eq!(says(&["--status", "init_hca=1", "--status", "init_hca=8"], 1, &[]), out);
    says(&["--status", "QUERY_FW=0x50"], 1, &["result: refused 10: "]);
    says(&["--status", "CLOSE_HCA=1"], 1, &["result: open", "closed: by a reset of the card\n"]);
    says(&["--status", "MOD_STAT_CFG=2"], 0, &["0x02 bad opcode"]);
    says(&["--status", "QUERY_FUNC=2"], 0, &["note: QUERY_FUNC was never sent\n"]);
}

#[test]
fn a_timeout_has_progress_in_simulated_time() {
    let (code, out, err) = ran(&["--timeout", "RUN_FW"]);
    assert_eq!(code, 1);
    assert!(out.contains("RUN_FW                   0  60000000  never ended\n"), "{out}");
    assert!(out.contains("result: refused 7: ") && out.contains("closed: by a reset"), "{out}");
    let line = |s: u32| format!("RUN_FW: {s} s of 60 s waited, in simulated time\n");
    assert_eq!(err, [10, 20, 30, 40, 50, 60].map(line).concat());
    says(&["--timeout", "QUERY_ADAPTER"], 1, &["result: open", "never ended", "closed: by a reset"]);
}

#[test]
fn a_trace_numbers_the_calls_and_folds_the_waits() {
    let out = says(&["--trace", "--timeout", "RUN_FW"], 1, &["       1  attr ", "          free_pool 2\n"]);
    let folded: Vec<&str> = out.lines().filter(|l| l.contains("  x")).collect();
    assert!(folded.iter().any(|l| l.contains("x1000 regr 0 80698 -> ") && l.ends_with("; stall 1")), "{folded:?}");
    assert!(folded.iter().any(|l| l.contains("x599990 regr") && l.ends_with("; stall 100")), "{folded:?}");
    // The numbers are those of --fail.
    let call = out.lines().find(|l| l.contains("map h2")).expect("a map");
    assert!(call.starts_with("      60  map h2 1000 -> "), "{call}");
}

#[test]
fn seeds_end_in_every_way_and_tell_the_same_twice() {
    let mut statuses = [0; 3];
    for seed in 0..60 {
        let seed = seed.to_string();
        let first = ran(&["--seed", &seed]);
        assert!(first.1.contains("\nheld: ") && !first.1.contains("misuse"), "{}", first.1);
        let well = first.1.contains("\nresult: open") && first.1.contains("\nclosed: clean");
        assert_eq!(first.0 == 0, well, "{}", first.1);
        statuses[usize::try_from(first.0).expect("0 or 1")] += 1;
    }
    assert!(statuses[0] > 5 && statuses[1] > 5 && statuses[2] == 0, "{statuses:?}");
    assert_eq!(ran(&["--seed", "7"]), ran(&["--seed", "0x7"]));
}

/// The calls on the open session.
mod uses {
    use super::says;

    /// Every form of a command, with its result.
    #[test]
    fn client_commands() {
        let args = ["--imm", "CLOSE_PORT,1", "--with-in=SET_PORT/1,2,00ff", "--with-out", "QUERY_DEV_CAP"];
        let more = ["--in-imm", "MGID_HASH", "--in-out", "0x24,1,0102"];
        let what = [
            "\nclient command CLOSE_PORT, in parameter 0x0\n",
            "   25  CLOSE_PORT               1         3  0x00 good\nresult: good, immediate 0x",
            "   26  SET_PORT                 2         3  0x00 good, opcode modifier 1\nresult: good, 3 µs\n",
            "client command QUERY_DEV_CAP, an outbox\n",
            "result: good, the reply begins with 00000000000000000000000000000000, 15 µs\n",
            "client command MGID_HASH, an inbox of 0 bytes, immediate out\n",
            "   29  MAD_IFC                  1         3  0x00 good\nresult: good, the reply begins with ",
            "closed: clean",
        ];
        says(&[&args[..], &more].concat(), 0, &what);
    }

    #[test]
    fn commands_that_fail() {
        let status = "result: failed, 6: a command ended with status 0x03 (bad parameter) after 1 µs\n";
        says(&["--imm", "INIT_PORT", "--status", "INIT_PORT=3"], 1, &[status, "closed: clean"]);
        let busy = "result: failed, 8: the command register was busy before a command\n";
        let args = ["--imm", "INIT_PORT", "--imm", "CLOSE_PORT", "--timeout", "INIT_PORT"];
        says(&args, 1, &["result: failed, 7: ", busy, "closed: by a reset of the card\n", "held: nothing"]);
        says(&["--imm", "MAP_FA"], 1, &["result: not taken, 22: ", "closed: clean"]);
        let long = format!("SET_PORT,0,{}", "00".repeat(4097));
        says(&["--with-in", &long], 1, &["an inbox of 4097 bytes\nresult: not taken, 21: ", "closed: clean"]);
    }

    #[test]
    fn lending() {
        let what =
            ["\nlending 0 bytes\nresult: lent h19, 1 page at ", "\nresult: lent h20, 2 pages at ", "held: nothing"];
        says(&["--lend", "0", "--lend", "4097"], 0, &what);
        says(&["--lend", "0x10000000000"], 1, &["result: failed, 5: ", "closed: clean"]);
        says(&["--lend", "0xfffffffffffff001"], 1, &["result: not taken, 18: ", "closed: clean"]);
        let many: Vec<&str> = ["--lend", "1"].into_iter().cycle().take(130).collect();
        says(&many, 1, &["result: lent h82, ", "result: not taken, 19: ", "held: nothing"]);
    }

    /// Newest first, to the mark, and the rest by the close.
    #[test]
    fn undoing() {
        let args = ["--undo", "HW2SW_EQ,7", "--undo", "HW2SW_CQ/2,3,0x10", "--undo-to", "1"];
        let what = [
            "undo record HW2SW_CQ, modifier 3, 0x10\nresult: good, 2 records are on the undo list\n",
            "   25  HW2SW_CQ                 3         3  0x00 good, opcode modifier 2\n",
            "result: good, 1 record is on the undo list\n",
            "   26  HW2SW_EQ                 7         3  0x00 good\n",
            "closed: clean",
        ];
        says(&args, 0, &what);
        let failed = ["result: failed, 23: ", "closed: by a reset"];
        says(&[&args[..], &["--status", "HW2SW_CQ=1"]].concat(), 1, &failed);
        says(&["--undo", "RUN_FW"], 1, &["result: not taken, 22: ", "closed: clean"]);
    }

    /// The close behind it resets, and that is as it must be.
    #[test]
    fn quiescing() {
        let what = [
            "\nquiescing\n",
            "   41  UNMAP_FA ",
            "result: quiesced, 0 records are on the undo list\n",
            "held: nothing",
        ];
        let out = says(&["--quiesce"], 0, &what);
        assert!(out.contains("closed: by a reset of the card\n"), "{out}");
        says(&["--quiesce", "--lend", "1", "--imm", "INIT_PORT", "--quiesce"], 0, &["result: lent h19", "immediate"]);
        says(
            &["--quiesce", "--undo", "HW2SW_EQ", "--undo-to", "0"],
            1,
            &["result: failed, 23: ", "closed: by a reset"],
        );
    }
}

/// The tags are balanced, and every attribute is quoted.
fn well_formed(svg: &str) {
    let mut open: Vec<&str> = Vec::new();
    for part in svg.split('<').skip(1) {
        let (tag, text) = part.split_once('>').expect("a tag ends");
        assert!(!text.contains(['>', '&']), "{text}");
        assert_eq!(tag.matches('"').count() % 2, 0, "{tag}");
        let name = tag.trim_start_matches('/').split([' ', '/']).next().expect("a name");
        match (tag.starts_with('/'), tag.ends_with('/')) {
            (true, _) => assert_eq!(open.pop(), Some(name)),
            (_, true) => {}
            _ => open.push(name),
        }
    }
    assert!(open.is_empty(), "{open:?}");
}

#[test]
fn a_picture_as_svg() {
    let file = std::env::temp_dir().join(format!("station-{}.svg", std::process::id()));
    let name = file.to_str().expect("a name");
    says(&["--picture", name], 0, &["closed: clean"]);
    let svg = std::fs::read_to_string(&file).expect("the picture");
    std::fs::remove_file(&file).expect("the picture");
    assert!(svg.starts_with("<svg xmlns=\"http://www.w3.org/2000/svg\" ") && svg.ends_with("</svg>\n"));
    well_formed(&svg);
    assert!(world::results::NAMES.iter().all(|n| svg.contains(&format!(">{n}</text>"))));
    // Eleven tables and a legend, fourteen ranges and a legend.
    let count = |what: &str| svg.matches(what).count();
    assert_eq!((count("<rect class=\"t\""), count("<rect class=\"m\""), count("<title>")), (12, 15, 14));
}

#[test]
fn a_picture_of_text() {
    let cmpt =
        "cMPT              0 |#.........#.........#.........#.........|     4 GiB, 20 pages mapped in 4 ranges\n";
    let rdmarc = "RDMARC    100000000 |###############|                            512 KiB, 128 pages mapped\n";
    let mtt = "MTT       100120000 |#|                                            4 KiB, 1 page mapped\n";
    says(&["--picture", "-"], 0, &["ICM layout: 11 tables, 4 GiB", cmpt, rdmarc, mtt]);
}

#[test]
fn no_picture_without_a_session() {
    let (code, _, err) = ran(&["--picture", "-", "--fail", "1"]);
    assert_eq!((code, err.as_str()), (1, "station: no picture: the session was not opened\n"));
    let (code, out, err) = ran(&["--picture", "/nowhere/at/all.svg"]);
    assert_eq!(code, 1);
    assert!(err.starts_with("station: /nowhere/at/all.svg: ") && out.contains("closed: clean"));
}
