//! The card: its registers, and the commands it carries out.

use crate::held::{blocks, Block, Held};
use crate::host::{Host, Span};
use crate::plan::{Behaviour, CardPlan, Replies, Which, NEVER};
use crate::prng::Prng;
use crate::registers::*;

/// A command as it was posted.
struct Command {
    op: u16,
    in_mod: u32,
    in_param: u64,
    out_param: u64,
    inbox: Vec<u8>,
}

impl Command {
    fn blocks(&self) -> Vec<Block> {
        blocks(&self.inbox, self.in_mod)
    }

    fn is_map(&self) -> bool {
        matches!(self.op, MAP_FA | MAP_ICM | MAP_ICM_AUX)
    }
}

/// What shows GO: a command, or nothing that a session knows of (GO after a reset).
struct Running {
    command: Option<Command>,
    /// Reads of the status dword that still show GO.
    polls: u64,
    status: u8,
}

impl Running {
    /// One more read has shown GO; true when it was the last.
    fn polled(&mut self) -> bool {
        if self.polls != NEVER {
            self.polls -= 1;
        }
        self.polls == 0
    }
}

pub struct Card {
    plan: CardPlan,
    /// What the next read of the owner register gives, as the CPU sees it.
    owner: u32,
    /// Reads of the reset semaphore that are not 0 before one is.
    semaphore: u32,
    semaphore_taken: bool,
    resets: usize,
    /// The command registers, as big-endian values.
    hcr: [u32; 7],
    running: Option<Running>,
    commands: u64,
    fresh: bool,
    held: Held,
    /// Replies given that lie outside the domain of document 01.
    outside: Vec<&'static str>,
}

impl Card {
    pub fn new(plan: CardPlan) -> Card {
        let mut card = Card {
            owner: plan.owner,
            semaphore: plan.semaphore.first().copied().unwrap_or(0),
            semaphore_taken: false,
            resets: 0,
            hcr: [0; 7],
            running: None,
            commands: 0,
            fresh: true,
            held: Held::default(),
            outside: Vec::new(),
            plan,
        };
        card.start();
        card
    }

    /// GO, T and status as they stand before the first command.
    fn start(&mut self) {
        let start = &self.plan.start;
        let go = if start.polls == 0 { 0 } else { GO };
        self.hcr[6] = u32::from(start.status) << STATUS_SHIFT | go | u32::from(start.t) << T_SHIFT;
        let anonymous = Running { command: None, polls: start.polls, status: start.status };
        self.running = (start.polls != 0).then_some(anonymous);
    }

    /// A reset was taken: everything is dropped, a pending command ends.
    /// Gives the vendor reads for which the card stays away.
    pub fn reset(&mut self) -> u32 {
        let absent = self.plan.absent.get(self.resets).copied().unwrap_or(0);
        self.resets += 1;
        self.semaphore = self.plan.semaphore.get(self.resets).copied().unwrap_or(0);
        self.semaphore_taken = false;
        self.owner = 0;
        self.held = Held::default();
        self.fresh = true;
        self.hcr = [0; 7];
        self.start();
        absent
    }

    /// A register of BAR 0, as the CPU sees it.
    pub fn read(&mut self, offset: u64, host: &Host) -> u32 {
        match offset {
            OWNER => self.read_owner(),
            RESET_SEMAPHORE => self.read_semaphore(),
            GO_WRITE => self.read_status(host).to_be(),
            _ => parameter(offset).map_or_else(|| self.other(BAR_DCS, offset), |i| self.hcr[i].to_be()),
        }
    }

    /// Any other register: a value that depends on its place alone.
    pub fn other(&self, bar: u8, offset: u64) -> u32 {
        Prng::new(self.plan.registers ^ offset.rotate_left(8) ^ u64::from(bar)).next_u64() as u32
    }

    pub fn write(&mut self, offset: u64, value: u32, host: &Host) {
        match offset {
            OWNER => self.owner = value,
            GO_WRITE => self.post(u32::from_be(value), host),
            _ => {
                if let Some(i) = parameter(offset) {
                    self.hcr[i] = u32::from_be(value);
                }
            }
        }
    }

    /// A read of 0 takes the card; later reads give 1.
    fn read_owner(&mut self) -> u32 {
        let shown = self.owner;
        if shown == 0 {
            self.owner = 1u32.to_be();
        }
        shown
    }

    /// A read of 0 takes the semaphore; later reads give 1.
    fn read_semaphore(&mut self) -> u32 {
        if self.semaphore_taken {
            return 1u32.to_be();
        }
        if self.semaphore == 0 {
            self.semaphore_taken = true;
            return 0;
        }
        self.semaphore -= 1;
        1u32.to_be()
    }

    fn read_status(&mut self, host: &Host) -> u32 {
        let shown = self.hcr[6];
        if let Some(done) = self.running.take_if(Running::polled) {
            self.finish(done, host);
        }
        shown
    }

    /// A command is taken, unless another one still shows GO.
    fn post(&mut self, go: u32, host: &Host) {
        if self.running.is_some() {
            return;
        }
        let command = self.posted(go, host);
        let behaviour = self.plan.behaviour(self.commands, command.op);
        self.commands += 1;
        self.fresh = false;
        self.hcr[6] = go;
        let running = Running { command: Some(command), polls: behaviour.polls, status: behaviour.status };
        if behaviour.polls == 0 {
            self.finish(running, host);
        } else {
            self.running = Some(running);
        }
    }

    fn posted(&self, go: u32, host: &Host) -> Command {
        let pair = |i: usize| u64::from(self.hcr[i]) << 32 | u64::from(self.hcr[i + 1]);
        Command {
            op: (go & 0xfff) as u16,
            in_mod: self.hcr[2],
            in_param: pair(0),
            out_param: pair(3),
            inbox: host.read_at(pair(0)).unwrap_or_default(),
        }
    }

    /// GO goes, T stays as posted; a status other than 0 changes nothing else.
    fn finish(&mut self, done: Running, host: &Host) {
        self.hcr[6] = (self.hcr[6] & !GO & 0x00ff_ffff) | u32::from(done.status) << STATUS_SHIFT;
        if let (0, Some(command)) = (done.status, done.command) {
            self.carry_out(&command, host);
        }
    }

    fn carry_out(&mut self, c: &Command, host: &Host) {
        let replies = &self.plan.replies;
        match c.op {
            MAP_FA => self.held.fa.extend(c.blocks()),
            MAP_ICM_AUX => self.held.aux.extend(c.blocks()),
            MAP_ICM => self.held.icm.extend(c.blocks()),
            UNMAP_FA => self.held.fa.clear(),
            UNMAP_ICM_AUX => self.held.aux.clear(),
            UNMAP_ICM => self.held.drop_icm(c.in_param, c.in_mod),
            INIT_HCA => self.held.open = true,
            CLOSE_HCA => self.held.open = false,
            RUN_FW | MOD_STAT_CFG => {}
            SET_ICM_SIZE => self.set_icm_size(replies.aux_pages),
            QUERY_FW => host.reply_at(c.out_param, &replies.fw),
            QUERY_DEV_CAP => host.reply_at(c.out_param, &replies.cap),
            QUERY_PORT => host.reply_at(c.out_param, &replies.ports[usize::from(c.in_mod == 2)]),
            QUERY_FUNC => host.reply_at(c.out_param, &replies.func),
            QUERY_ADAPTER => host.reply_at(c.out_param, &replies.adapter),
            _ => self.client(c, host),
        }
    }

    fn set_icm_size(&mut self, aux_pages: u64) {
        if aux_pages >= 1 << 52 {
            self.outside.push("auxiliary pages whose bytes pass 2^64");
        }
        self.immediate(aux_pages);
    }

    /// A client's command: an immediate where no outbox is named, else a reply.
    fn client(&mut self, c: &Command, host: &Host) {
        let mut reply = Prng::new(self.plan.replies.client ^ self.commands);
        if c.out_param == 0 {
            self.immediate(reply.next_u64());
        } else {
            let length = reply.below(4097) as usize;
            host.reply_at(c.out_param, &reply.bytes(length));
        }
    }

    fn immediate(&mut self, value: u64) {
        self.hcr[3] = (value >> 32) as u32;
        self.hcr[4] = value as u32;
    }

    pub fn outside(&self) -> &[&'static str] {
        &self.outside
    }

    /// No command since the reset: what is mapped now is a mailbox.
    pub fn fresh(&self) -> bool {
        self.fresh
    }

    pub fn open(&self) -> bool {
        self.held.open
    }

    /// A session's command may still be running.
    pub fn pending(&self) -> bool {
        self.running.as_ref().is_some_and(|r| r.command.is_some())
    }

    /// The card holds part of `span`, or a pending MAP names it.
    pub fn holds(&self, span: Span) -> bool {
        let running = self.running.as_ref().and_then(|r| r.command.as_ref());
        let named = running.filter(|c| c.is_map()).is_some_and(|c| c.blocks().iter().any(|b| b.span.meets(span)));
        named || self.held.has(span)
    }

    pub fn icm_at(&self, virt: u64) -> Option<u64> {
        self.held.icm_at(virt)
    }

    /// Nothing of the firmware area, the auxiliary area or the ICM is held.
    pub fn holds_nothing(&self) -> bool {
        self.held.fa.is_empty() && self.held.aux.is_empty() && self.held.icm.is_empty() && !self.held.open
    }

    pub fn held(&self) -> &Held {
        &self.held
    }

    /// How commands end, counted from here.
    pub fn schedule(&mut self, commands: Vec<(u64, Behaviour)>) {
        let first = self.commands;
        let numbered = commands.into_iter().map(|(n, b)| (Which::Number(first + n), b));
        self.plan.commands.splice(0..0, numbered);
    }

    pub fn replies(&mut self) -> &mut Replies {
        &mut self.plan.replies
    }
}
