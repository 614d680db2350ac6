//! Instructions of classic BPF, laid out as the kernel has them.

/// `struct sock_filter` of linux/filter.h: one instruction.
///
/// ```
/// use callfilter::sock_filter;
///
/// let allow = sock_filter { code: 6, jt: 0, jf: 0, k: 0x7fff_0000 };
/// assert_eq!(sock_filter::from_bytes(allow.to_bytes()), allow);
/// ```
#[allow(non_camel_case_types)]
#[repr(C)]
#[derive(Clone, Copy, Debug, Default, PartialEq, Eq, Hash)]
pub struct sock_filter {
    /// What it does.
    pub code: u16,
    /// How many instructions are skipped where a test holds.
    pub jt: u8,
    /// How many are skipped where it does not.
    pub jf: u8,
    /// The number that goes with the code.
    pub k: u32,
}

impl sock_filter {
    /// Eight bytes, as the kernel reads them.
    pub fn to_bytes(self) -> [u8; 8] {
        let ([c0, c1], [k0, k1, k2, k3]) = (self.code.to_le_bytes(), self.k.to_le_bytes());
        [c0, c1, self.jt, self.jf, k0, k1, k2, k3]
    }

    /// The instruction that eight bytes stand for.
    pub fn from_bytes([c0, c1, jt, jf, k0, k1, k2, k3]: [u8; 8]) -> sock_filter {
        sock_filter { code: u16::from_le_bytes([c0, c1]), jt, jf, k: u32::from_le_bytes([k0, k1, k2, k3]) }
    }
}
