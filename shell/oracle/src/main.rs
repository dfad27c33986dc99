//! Prints what the driver's Rust gives; see `USAGE`.

use std::fmt::Display;
use std::process::ExitCode;

use oracle::leaves;
use oracle::run;
use world::calls::{self, Call, List};
use world::plan::{Later, Plan};
use world::registers::INIT_HCA;
use world::results::{Given, Outcome};
use world::trace::{hex, Trace};

const USAGE: &str = "\
oracle profile [REPLY]             the layout of a capability reply, or its refusal
oracle init_hca [REPLY]            the INIT_HCA mailbox of an opening with that reply
oracle blocks V|none P SIZE        the blocks: card address, device address, exponent
oracle mailboxes V|none P PAGES    the page mailboxes of such a buffer: entries, bytes
oracle base D0 .. D5 REG           the address in a BAR
oracle candidates D0 .. D5 REG     the two indexes asked first
oracle choose D0 .. D5 REG A0 .. A5
                                   the index chosen; an answer is none or BASE:LENGTH
oracle open SEED [full]            an opening: trace, then result
oracle close SEED [full]           an opening and a close
oracle session SEED [full]         the list of calls of that seed, up to a failed opening

REPLY is bytes in hexadecimal, read from standard input if left out, and filled
up with zeros. Other numbers are decimal, or hexadecimal after 0x. SEED may be
`obedient`. A trace has repeated waits in one line unless `full` is given.
";

fn main() -> ExitCode {
    let args: Vec<String> = std::env::args().skip(1).collect();
    match print(&args) {
        Ok(text) => {
            print!("{text}");
            ExitCode::SUCCESS
        }
        Err(why) => {
            eprint!("{why}\n{USAGE}");
            ExitCode::FAILURE
        }
    }
}

/// The output of a subcommand, or what is wrong with its arguments.
fn print(args: &[String]) -> Result<String, String> {
    let args: Vec<&str> = args.iter().map(String::as_str).collect();
    match *args.as_slice() {
        ["profile", ref reply @ ..] => Ok(shown(profile(&bytes(reply)?))),
        ["init_hca", ref reply @ ..] => init_hca(&bytes(reply)?),
        ["blocks", v, p, size] => blocks(v, p, size),
        ["mailboxes", v, p, pages] => mailboxes(v, p, pages),
        ["base", ref rest @ ..] => base(rest),
        ["candidates", ref rest @ ..] => candidates(rest),
        ["choose", ref rest @ ..] => choose(rest),
        [what @ ("open" | "close" | "session"), seed] => session(what, seed, Trace::folded),
        [what @ ("open" | "close" | "session"), seed, "full"] => session(what, seed, Trace::full),
        _ => Err("no such subcommand, or too few or too many arguments".into()),
    }
}

fn shown<T: Display>(outcome: Outcome<T>) -> String {
    match outcome {
        Ok(v) => v.to_string(),
        Err(stop) => format!("{stop}\n"),
    }
}

fn profile(reply: &[u8]) -> Outcome<String> {
    let layout = leaves::profile(reply, None)?;
    Ok(format!("{layout}base_sqpn {:x}\nfirst_free_mtt {:x}\n", layout.base_sqpn, layout.first_free_mtt))
}

/// By a whole opening, in which all else does as it is told.
fn init_hca(reply: &[u8]) -> Result<String, String> {
    let mut plan = Plan::obedient();
    plan.card.replies.cap = reply[..reply.len().min(4096)].to_vec();
    let (world, mut driver) = run::in_world(plan);
    let opened = run::open(&mut driver);
    let trace = world.borrow_mut().take();
    let posted = trace.posts().find(|p| p.op == INIT_HCA).and_then(|p| p.inbox.clone());
    Ok(match (posted, opened) {
        (Some(mut inbox), _) => {
            inbox.resize(300, 0);
            hex(&inbox) + "\n"
        }
        (None, Err(stop)) => format!("{stop}\n"),
        (None, Ok(_)) => unreachable!("an opening posts INIT_HCA"),
    })
}

fn blocks(v: &str, p: &str, size: &str) -> Result<String, String> {
    let all = leaves::blocks(optional(v)?, number(p)?, number(size)?);
    Ok(all.map(|b| format!("{:x} {:x} {}\n", b.virt, b.phys, b.log)).collect())
}

fn mailboxes(v: &str, p: &str, pages: &str) -> Result<String, String> {
    let all = leaves::mailboxes(optional(v)?, number(p)?, number(pages)? as usize);
    let line = |m: &leaves::Mailbox| format!("{} {}\n", m.entries, hex(&m.page));
    Ok(shown(all.map(|m| m.iter().map(line).collect::<String>())))
}

fn base(rest: &[&str]) -> Result<String, String> {
    let (regs, reg, _) = registers(rest)?;
    Ok(shown(leaves::base(&regs, reg).map(|b| format!("{b:x}\n"))))
}

fn candidates(rest: &[&str]) -> Result<String, String> {
    let (regs, reg, _) = registers(rest)?;
    Ok(shown(leaves::candidates(&regs, reg).map(|[a, b]| format!("{a} {b}\n"))))
}

fn choose(rest: &[&str]) -> Result<String, String> {
    let (regs, reg, answers) = registers(rest)?;
    let answers: Vec<_> = answers.iter().map(|a| answer(a)).collect::<Result<_, _>>()?;
    let answers = answers.try_into().map_err(|_| "six answers, please")?;
    let text = |c: leaves::Choice| {
        let size = c.size.map_or("unknown".into(), |s| format!("{s:x}"));
        format!("index {} size {size} {:?} asked {:?}\n", c.index, c.how, c.asked)
    };
    Ok(shown(leaves::choose(&regs, reg, &answers).map(text)))
}

/// The six dwords and the register number, and what follows them.
fn registers<'a, 'b>(rest: &'a [&'b str]) -> Result<([u32; 6], usize, &'a [&'b str]), String> {
    let Some((head, rest)) = rest.split_at_checked(7) else {
        return Err("six dwords and a register number, please".into());
    };
    let head: Vec<u64> = head.iter().map(|n| number(n)).collect::<Result<_, _>>()?;
    Ok((core::array::from_fn(|i| head[i] as u32), head[6] as usize, rest))
}

fn answer(text: &str) -> Result<Option<(u64, u64)>, String> {
    match text.split_once(':') {
        Some((base, length)) => Ok(Some((number(base)?, number(length)?))),
        None if text == "none" => Ok(None),
        None => Err(format!("{text}: not an answer")),
    }
}

fn optional(text: &str) -> Result<Option<u64>, String> {
    if text == "none" {
        return Ok(None);
    }
    number(text).map(Some)
}

fn number(text: &str) -> Result<u64, String> {
    let parsed = match text.strip_prefix("0x") {
        Some(digits) => u64::from_str_radix(digits, 16),
        None => text.parse(),
    };
    parsed.map_err(|e| format!("{text}: {e}"))
}

/// A reply from the argument or from standard input; white space is left out.
fn bytes(reply: &[&str]) -> Result<Vec<u8>, String> {
    let text = match reply {
        [text] => text.to_string(),
        [] => std::io::read_to_string(std::io::stdin()).map_err(|e| e.to_string())?,
        _ => return Err("one reply, please".into()),
    };
    let digits: Vec<u8> = text.bytes().filter(|b| !b.is_ascii_whitespace()).collect();
    let byte = |pair: &[u8]| u8::from_str_radix(&String::from_utf8_lossy(pair), 16).map_err(|e| e.to_string());
    digits.chunks(2).map(byte).collect()
}

fn session(what: &str, seed: &str, form: fn(&Trace) -> String) -> Result<String, String> {
    let short = |calls: &[Call]| List { calls: calls.to_vec(), later: Later::default() };
    let (plan, list) = match seed {
        "obedient" => (Plan::obedient(), short(&[Call::Open, Call::Close])),
        _ => (Plan::seeded(number(seed)?), calls::seeded(number(seed)?)),
    };
    let list = match what {
        "open" => short(&[Call::Open]),
        "close" => short(&[Call::Open, Call::Close]),
        _ => list,
    };
    let (world, mut driver) = run::in_world(plan);
    let mut text = String::new();
    run::list(&world, &mut driver, &list, |call, given| {
        let trace = world.borrow_mut().take();
        text += &format!("call {call:?}\n{}result {}\n", form(&trace), result(given));
    });
    Ok(text)
}

fn result(given: Outcome<Given>) -> String {
    match given {
        Ok(given) => format!("{given:?}"),
        Err(stop) => stop.to_string(),
    }
}
