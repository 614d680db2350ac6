//! Calls, as the kernel hands them to a filter.

use crate::Architecture;

/// A call that a process makes: `struct seccomp_data` of seccomp(2).
///
/// The architecture is the kernel's word for it, so that calls from any other machine's programs can be tried too.
///
/// ```
/// use callfilter::{Architecture, Call};
///
/// let call = Call::new(Architecture::X86_64, 1, [1, 0, 0, 0, 0, 0]);
/// let from_32_bits = Call { architecture: 0x4000_0003, ..call };
/// assert_eq!(from_32_bits.number, 1);
/// ```
///
/// A call has six arguments, no more and no less:
///
/// ```compile_fail,E0308
/// # use callfilter::{Architecture, Call};
/// let call = Call::new(Architecture::X86_64, 1, [1, 0, 0]);
/// ```
#[derive(Clone, Copy, Debug, PartialEq, Eq, Hash)]
pub struct Call {
    /// Which system call it is.
    pub number: u32,
    /// The kernel's word for the architecture.
    pub architecture: u32,
    /// Where the call was made. No rule looks at it.
    pub instruction_pointer: u64,
    /// What was handed over.
    pub arguments: [u64; 6],
}

impl Call {
    /// A call from a known architecture.
    pub fn new(architecture: Architecture, number: u32, arguments: [u64; 6]) -> Call {
        Call { number, architecture: architecture.word(), instruction_pointer: 0, arguments }
    }

    /// The 64 bytes that a filter sees.
    ///
    /// ```
    /// use callfilter::{Architecture, Call};
    ///
    /// let bytes = Call::new(Architecture::X86_64, 257, [7, 0, 0, 0, 0, 1 << 32]).to_bytes();
    /// assert_eq!(bytes[..8], [1, 1, 0, 0, 0x3e, 0, 0, 0xc0]);
    /// assert_eq!((bytes[16], bytes[60]), (7, 1));
    /// ```
    pub fn to_bytes(&self) -> [u8; 64] {
        let mut bytes = [0; 64];
        bytes[..4].copy_from_slice(&self.number.to_le_bytes());
        bytes[4..8].copy_from_slice(&self.architecture.to_le_bytes());
        bytes[8..16].copy_from_slice(&self.instruction_pointer.to_le_bytes());
        for (place, argument) in bytes[16..].chunks_exact_mut(8).zip(self.arguments) {
            place.copy_from_slice(&argument.to_le_bytes());
        }
        bytes
    }
}
