//! Lower and upper transport PDUs.

use crate::{answer, raw, Refused};

pub use raw::{MeshnodeAcknowledgment as Acknowledgment, MeshnodeLower as Lower, MeshnodeMessage as Message};

/// The octets of the lower transport PDU of these fields.
///
/// ```
/// use meshnode::{digits::hex, lower_write, Lower};
/// let head = Lower { seg: true, seq_zero: 0x09ab, seg_o: 1, seg_n: 1, ..Lower::default() };
/// let piece: [u8; 12] = hex("cfdc18c52fdef772e0e17308");
/// assert_eq!(lower_write(&head, &piece), Ok(hex::<16>("8026ac21cfdc18c52fdef772e0e17308").to_vec()));
/// ```
pub fn lower_write(head: &Lower, octets: &[u8]) -> Result<Vec<u8>, Refused> {
    let mut tpdu = [0; 16];
    let mut size = 0;
    answer(unsafe { raw::meshnode_lower_write(head, octets.as_ptr(), octets.len(), tpdu.as_mut_ptr(), tpdu.len(), &mut size) })?;
    Ok(tpdu[..size].to_vec())
}

/// The fields and the octets of the lower transport PDU in the transport PDU of a network PDU with this CTL.
///
/// ```
/// use meshnode::{digits::hex, lower_read, Lower};
/// # fn main() -> Result<(), meshnode::Refused> {
/// let (head, upper) = lower_read(false, &hex::<10>("665a8bde6d9106ea078a"))?;
/// assert_eq!(head, Lower { akf: true, aid: 0x26, ..Lower::default() });
/// assert_eq!(upper, hex::<9>("5a8bde6d9106ea078a"));
/// # Ok(())
/// # }
/// ```
pub fn lower_read(ctl: bool, tpdu: &[u8]) -> Result<(Lower, Vec<u8>), Refused> {
    let mut head = Lower::default();
    let mut octets = [0; 15];
    let mut size = 0;
    answer(unsafe { raw::meshnode_lower_read(ctl, tpdu.as_ptr(), tpdu.len(), &mut head, octets.as_mut_ptr(), octets.len(), &mut size) })?;
    Ok((head, octets[..size].to_vec()))
}

/// The parameters of a Segment Acknowledgment, a control message with opcode 00.
///
/// ```
/// use meshnode::{acknowledgment_write, digits::hex, Acknowledgment};
/// let said = Acknowledgment { obo: true, seq_zero: 0x09ab, block_ack: 2 };
/// assert_eq!(acknowledgment_write(&said), Ok(hex("a6ac00000002")));
/// ```
pub fn acknowledgment_write(said: &Acknowledgment) -> Result<[u8; 6], Refused> {
    let mut params = [0; 6];
    answer(unsafe { raw::meshnode_acknowledgment_write(said, params.as_mut_ptr(), params.len()) })?;
    Ok(params)
}

/// What the parameters of a Segment Acknowledgment say.
///
/// ```
/// use meshnode::{acknowledgment_read, digits::hex, Acknowledgment};
/// let said = Acknowledgment { obo: true, seq_zero: 0x09ab, block_ack: 2 };
/// assert_eq!(acknowledgment_read(&hex("a6ac00000002")), Ok(said));
/// ```
pub fn acknowledgment_read(params: &[u8; 6]) -> Result<Acknowledgment, Refused> {
    let mut said = Acknowledgment::default();
    answer(unsafe { raw::meshnode_acknowledgment_read(params.as_ptr(), params.len(), &mut said) })?;
    Ok(said)
}

/// SEQ of SeqAuth, for a segment that came with this SEQ and this SeqZero.
///
/// ```
/// use meshnode::{seq_auth, Refused};
/// assert_eq!(seq_auth(0x647262, 0x1849), Ok(0x645849));
/// assert_eq!(seq_auth(0x001ffe, 0x1fff), Err(Refused::Unread));
/// ```
pub fn seq_auth(seq: u32, seq_zero: u16) -> Result<u32, Refused> {
    let mut auth = 0;
    answer(unsafe { raw::meshnode_seq_auth(seq, seq_zero, &mut auth) })?;
    Ok(auth)
}

/// The key of an access message.
#[derive(Clone, Copy)]
pub enum Key<'a> {
    /// The device key.
    Device(&'a [u8; 16]),
    /// An application key.
    Application(&'a [u8; 16]),
}

impl Key<'_> {
    fn is_device(&self) -> bool {
        matches!(self, Key::Device(_))
    }

    fn octets(&self) -> &[u8; 16] {
        match self {
            Key::Device(key) | Key::Application(key) => key,
        }
    }
}

// The octets of a label, or none.
fn label_octets(label: Option<&[u8; 16]>) -> &[u8] {
    label.map_or(&[], |label| label.as_slice())
}

/// Seals an access payload, with the label of a virtual DST: the octets of its upper transport PDU.
///
/// ```
/// use meshnode::{access_seal, digits::hex, Key, Message};
/// let message = Message { iv: 0x1234_5677, seq: 0x07080c, src: 0x1234, dst: 0x9736, long_mic: false };
/// let key = hex("63964771734fbd76e3b40519d1d94a48");
/// let label = hex("f4a002c7fb1e4ca0a469a021de0db875");
/// let sealed = access_seal(Key::Application(&key), &message, Some(&label), &hex::<8>("d50a0048656c6c6f"));
/// assert_eq!(sealed, Ok(hex::<12>("2456db5e3100eef65daa7a38").to_vec()));
/// ```
pub fn access_seal(by: Key<'_>, message: &Message, label: Option<&[u8; 16]>, payload: &[u8]) -> Result<Vec<u8>, Refused> {
    let (key, label) = (by.octets(), label_octets(label));
    let mut upper = vec![0; payload.len() + message.mic_length()];
    answer(unsafe {
        raw::meshnode_access_seal(
            by.is_device(), key.as_ptr(), key.len(), message, label.as_ptr(), label.len(), payload.as_ptr(), payload.len(), upper.as_mut_ptr(),
            upper.len(),
        )
    })?;
    Ok(upper)
}

/// Opens the octets of an upper transport PDU: the access payload, if they open under this key with these fields.
///
/// ```
/// use meshnode::{access_open, digits::hex, Key, Message, Refused};
/// let message = Message { iv: 0x1234_5678, seq: 7, src: 0x1201, dst: 0xffff, long_mic: false };
/// let key = hex("63964771734fbd76e3b40519d1d94a48");
/// let upper: [u8; 9] = hex("5a8bde6d9106ea078a");
/// assert_eq!(access_open(Key::Application(&key), &message, None, &upper), Ok(hex::<5>("0400000000").to_vec()));
/// assert_eq!(access_open(Key::Device(&key), &message, None, &upper), Err(Refused::Unread));
/// ```
pub fn access_open(by: Key<'_>, message: &Message, label: Option<&[u8; 16]>, upper: &[u8]) -> Result<Vec<u8>, Refused> {
    let (key, label) = (by.octets(), label_octets(label));
    let mut payload = vec![0; upper.len().saturating_sub(message.mic_length())];
    answer(unsafe {
        raw::meshnode_access_open(
            by.is_device(), key.as_ptr(), key.len(), message, label.as_ptr(), label.len(), upper.as_ptr(), upper.len(), payload.as_mut_ptr(),
            payload.len(),
        )
    })?;
    Ok(payload)
}
