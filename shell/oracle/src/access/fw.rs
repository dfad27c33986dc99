/// Stands after the unchanged text: the private steps of bring-up, one at a
/// time, and what an `Hca` holds.
pub mod oracle_access {
    use super::*;

    /// An `Hca` as `start` makes it.
    pub fn hca(hcr: Hcr, uar_bar: u8, uar_size: Option<u64>) -> Hca {
        Hca {
            hcr,
            uar_bar,
            uar_size,
            fa: None,
            aux: None,
            icm: Vec::new(),
            mtt: None,
            open: false,
            broken: false,
            undo: Vec::new(),
            lent: Vec::new(),
            original: 0,
        }
    }

    pub fn set_uar_size(hca: &mut Hca, size: Option<u64>) {
        hca.uar_size = size;
    }

    pub fn query_dev_cap(hca: &mut Hca, pci: &mut PciIo) -> Result<DevCap, Fail> {
        hca.query_dev_cap(pci)
    }

    pub fn query_fw(hca: &mut Hca, pci: &mut PciIo) -> Result<(), Fail> {
        hca.query_fw(pci).map(|_| ())
    }

    pub fn port_info(hca: &Hca, port: u8) -> PortInfo {
        hca.port_info(port)
    }

    pub fn profile(cap: &DevCap) -> Result<Profile, Fail> {
        super::profile(cap)
    }

    pub fn init_hca(hca: &mut Hca, pci: &mut PciIo, cap: &DevCap, p: &Profile) -> Result<(), Fail> {
        hca.init_hca(pci, cap, p)
    }

    pub fn map_pages(hca: &mut Hca, pci: &mut PciIo, op: Op, virt: Option<u64>, buf: &DmaBuf) -> Result<(), CmdError> {
        super::map_pages(&mut hca.hcr, pci, op, virt, buf)
    }

    pub fn total(p: &Profile) -> u64 {
        p.total
    }

    /// The private fields of an `Hca`.
    pub struct Books<'a> {
        pub uar_size: Option<u64>,
        pub fa: Option<&'a DmaBuf>,
        pub aux: Option<&'a DmaBuf>,
        pub icm: Vec<(u64, &'a DmaBuf)>,
        pub mtt: Option<usize>,
        pub open: bool,
        pub undo: &'a [Undo],
        pub lent: &'a [DmaBuf],
        pub original: u64,
    }

    pub fn books(hca: &Hca) -> Books<'_> {
        Books {
            uar_size: hca.uar_size,
            fa: hca.fa.as_ref(),
            aux: hca.aux.as_ref(),
            icm: hca.icm.iter().map(|r| (r.virt, &r.buf)).collect(),
            mtt: hca.mtt,
            open: hca.open,
            undo: &hca.undo,
            lent: &hca.lent,
            original: hca.original,
        }
    }

    pub fn reset(pci: &mut PciIo) -> Result<(), Fail> {
        super::reset(pci)
    }

    pub fn claim(pci: &mut PciIo) -> Result<(), Fail> {
        super::claim(pci)
    }

    /// With the wait, as an opening that fails and a closing do it.
    pub fn release(pci: &mut PciIo) {
        super::release(pci, true);
    }

    pub fn restore(pci: &mut PciIo, original: u64) {
        super::restore(pci, original);
    }

    /// `quiesce` of a session that is broken: no command is sent.
    pub fn quiesce_broken(hca: &mut Hca, pci: &mut PciIo) {
        hca.broken = true;
        quiesce(hca, pci);
    }
}
