//! How a report is asked for.

/// The manner of a report or a walk: the model, and for a report the wording. The default names nothing: it is document 01's model
/// and wording 2. Each method names one thing.
///
/// ```
/// use korsepal::{report_in, Answer, Manner};
///
/// let said = |manner, case| match report_in(manner, case, &mut [0; 16], &mut [0; 256]) {
///     Answer::Message { text, .. } => String::from_utf8_lossy(text).into_owned(),
///     other => panic!("{other:?}"),
/// };
/// let usual = Manner::default();
///
/// // Loading z[i + 1] faults: aload_0, iload_1, iconst_1, iadd, then daload at index 4. A record names local 0.
/// let sum = b"\x08\x04\x06\x2a\x1b\x04\x60\x31\xaf\x0bnext:([DI)D\x00\x01\x00\x06\x00\x01z";
/// assert_eq!(said(usual, sum), "Cannot load from double array");
/// assert_eq!(said(usual.full(), sum), "Cannot load from double array because \"z\" is null");
///
/// // Loading from local 0 faults: aload_0, iconst_0, then baload at index 2, which is of byte arrays and of boolean ones.
/// let mask = b"\x08\x02\x03\x2a\x03\x33\x00\x00\x00";
/// assert_eq!(said(usual, mask), "Cannot load from byte/boolean array because \"<local0>\" is null");
/// assert_eq!(said(usual.wording(1), mask), "Cannot load from byte array because \"<local0>\" is null");
/// ```
#[derive(Clone, Copy, Debug, PartialEq, Eq)]
pub struct Manner {
    is_full: bool,
    wording: u32,
}

impl Default for Manner {
    fn default() -> Self {
        Manner { is_full: false, wording: 2 }
    }
}

impl Manner {
    /// In the full model (document 02, requests 1 and 7): the walk goes on through arithmetic, conversions, comparisons, stores to
    /// arrays and fields, dup_x1 to dup2_x2, monitors and multianewarray, and through loads, stores and iinc behind wide, where
    /// document 01's model gives up. So a cause is given more often; and the stack may lack room behind the place where document
    /// 01's model gave up.
    pub fn full(mut self) -> Self {
        self.is_full = true;
        self
    }

    /// In a wording (document 02, request 11). Where an array was loaded from by `baload` or stored to by `bastore`, 1 says "byte
    /// array" and 2 says "byte/boolean array"; nothing else differs. Who compares messages with stored ones names 1, the text of
    /// before. Any other number is no wording, and a report answers [`NoWording`](crate::Answer::NoWording).
    pub fn wording(mut self, number: u32) -> Self {
        self.wording = number;
        self
    }

    pub(crate) fn is_full(self) -> bool {
        self.is_full
    }

    pub(crate) fn wording_number(self) -> u32 {
        self.wording
    }
}
