/// Stands after the unchanged text: the toggle, and one step of a command.
pub mod oracle_access {
    use super::*;

    pub fn toggle(hcr: &Hcr) -> u32 {
        hcr.toggle
    }

    pub fn set_toggle(hcr: &mut Hcr, toggle: bool) {
        hcr.toggle = toggle.into();
    }

    pub fn pending(hcr: &Hcr, pci: &mut PciIo) -> Result<bool, CmdError> {
        hcr.pending(pci)
    }

    pub fn post(hcr: &mut Hcr, pci: &mut PciIo, op: Op, op_mod: u8, in_mod: u32, params: [u64; 2]) -> Result<u64, CmdError> {
        hcr.post(pci, op, op_mod, in_mod, params[0], params[1])
    }

    /// A command register as it may stand between two commands.
    pub fn register(toggle: bool, inbox: DmaBuf, outbox: DmaBuf, catas: Option<(u8, u64)>, silent: bool) -> Hcr {
        Hcr { toggle: toggle.into(), inbox, outbox, catas, quiet: false, silent, optional: false }
    }
}
