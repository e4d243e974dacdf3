//! The layers of a mesh node, and a node, over the static library of the proved crate `meshnode_c`. Each call here is safe, and gives what the contract
//! of the call below it says; `../c/meshnode.h` has these calls with what they ask for. [`Node`] is the node.
//!
//! What is proved ends at the calls of C: this crate is plain Rust, and its `unsafe` blocks pass each slice with its own length.

#[cfg(not(target_pointer_width = "64"))]
compile_error!("the library's sizes have 64 bits, and those of this crate are usize: it is for 64 bits");

pub mod digits;
mod node;
mod raw;
mod transport;

pub use node::{Fault, Line, Node, IMAGE};
pub use transport::{
    access_open, access_seal, acknowledgment_read, acknowledgment_write, lower_read, lower_write, seq_auth, Acknowledgment, Key, Lower, Message,
};

use std::fmt;

/// Why a call was refused. What it was given is as it was, but for the text of `ccm_open`.
#[derive(Clone, Copy, Debug, PartialEq, Eq)]
pub enum Refused {
    /// A slice hasn't the length that the call asks for.
    Length,
    /// A number is out of its range.
    Range,
    /// The octets are none of what was asked for, or none under this key.
    Unread,
    /// The text is none that can be audited: its first line, from 1 on, that isn't of the form.
    NotReport(u32),
    /// There was no memory.
    Memory,
}

impl fmt::Display for Refused {
    fn fmt(&self, f: &mut fmt::Formatter<'_>) -> fmt::Result {
        match self {
            Refused::Length => f.write_str("a slice hasn't the length that is asked for"),
            Refused::Range => f.write_str("a number is out of its range"),
            Refused::Unread => f.write_str("the octets are none under this key"),
            Refused::NotReport(line) => write!(f, "line {line} is no line of a report"),
            Refused::Memory => f.write_str("out of memory"),
        }
    }
}

impl std::error::Error for Refused {}

fn answer(status: u32) -> Result<(), Refused> {
    match status {
        raw::OK => Ok(()),
        raw::LENGTH => Err(Refused::Length),
        raw::RANGE => Err(Refused::Range),
        raw::UNREAD => Err(Refused::Unread),
        _ => Err(Refused::Memory),
    }
}

/// Seals a text in place and gives its MIC of 4 or 8 octets.
///
/// ```
/// use meshnode::{ccm_seal, digits::hex};
/// # fn main() -> Result<(), meshnode::Refused> {
/// let mut text: [u8; 13] = hex("fffd034b50057e400000010000");
/// let key = hex("0953fa93e7caac9638f58820220a398e");
/// let mic: [u8; 8] = ccm_seal(&key, &hex("00800000011201000012345678"), &[], &mut text)?;
/// assert_eq!((text, mic), (hex("b5e5bfdacbaf6cb7fb6bff871f"), hex("035444ce83a670df")));
/// # Ok(())
/// # }
/// ```
pub fn ccm_seal<const MIC: usize>(key: &[u8; 16], nonce: &[u8; 13], additional: &[u8], text: &mut [u8]) -> Result<[u8; MIC], Refused> {
    let mut mic = [0; MIC];
    // Each pointer is that of its slice, with its length.
    answer(unsafe {
        raw::meshnode_ccm_seal(
            key.as_ptr(), key.len(), nonce.as_ptr(), nonce.len(), additional.as_ptr(), additional.len(), text.as_mut_ptr(), text.len(),
            mic.as_mut_ptr(), mic.len(),
        )
    })?;
    Ok(mic)
}

/// Opens a sealed text in place, if `mic` is its MIC. Else it is zeros.
///
/// ```
/// use meshnode::{ccm_open, digits::hex, Refused};
/// let key = hex("0953fa93e7caac9638f58820220a398e");
/// let nonce = hex("00800000011201000012345678");
/// let mut text: [u8; 13] = hex("b5e5bfdacbaf6cb7fb6bff871f");
/// assert_eq!(ccm_open(&key, &nonce, &[], &mut text, &hex::<8>("035444ce83a670df")), Ok(()));
/// assert_eq!(text, hex("fffd034b50057e400000010000"));
/// assert_eq!(ccm_open(&key, &nonce, &[], &mut text, &[0; 8]), Err(Refused::Unread));
/// assert_eq!(text, [0; 13]);
/// ```
pub fn ccm_open(key: &[u8; 16], nonce: &[u8; 13], additional: &[u8], text: &mut [u8], mic: &[u8]) -> Result<(), Refused> {
    answer(unsafe {
        raw::meshnode_ccm_open(
            key.as_ptr(), key.len(), nonce.as_ptr(), nonce.len(), additional.as_ptr(), additional.len(), text.as_mut_ptr(), text.len(),
            mic.as_ptr(), mic.len(),
        )
    })
}

/// AES-CMAC of a message.
///
/// ```
/// use meshnode::{cmac, digits::hex};
/// let key = hex("2b7e151628aed2a6abf7158809cf4f3c");
/// let message: [u8; 16] = hex("6bc1bee22e409f96e93d7e117393172a");
/// assert_eq!(cmac(&key, &message), Ok(hex("070a16b46b4d4144f79bdd9dd04a287c")));
/// ```
pub fn cmac(key: &[u8; 16], message: &[u8]) -> Result<[u8; 16], Refused> {
    let mut mac = [0; 16];
    answer(unsafe { raw::meshnode_cmac(key.as_ptr(), key.len(), message.as_ptr(), message.len(), mac.as_mut_ptr(), mac.len()) })?;
    Ok(mac)
}

/// s1: a salt from a text.
///
/// ```
/// use meshnode::{digits::hex, s1};
/// assert_eq!(s1(b"test"), Ok(hex("b73cefbd641ef2ea598c2b6efb62f79c")));
/// ```
pub fn s1(message: &[u8]) -> Result<[u8; 16], Refused> {
    let mut salt = [0; 16];
    answer(unsafe { raw::meshnode_s1(message.as_ptr(), message.len(), salt.as_mut_ptr(), salt.len()) })?;
    Ok(salt)
}

/// k1: a key from key material, a salt and a text.
///
/// ```
/// use meshnode::{digits::hex, k1};
/// let n: [u8; 16] = hex("3216d1509884b533248541792b877f98");
/// let p: [u8; 16] = hex("5a09d60797eeb4478aada59db3352a0d");
/// assert_eq!(k1(&n, &hex("2ba14ffa0df84a2831938d57d276cab4"), &p), Ok(hex("f6ed15a8934afbe7d83e8dcb57fcf5d7")));
/// ```
pub fn k1(n: &[u8], salt: &[u8; 16], p: &[u8]) -> Result<[u8; 16], Refused> {
    let mut key = [0; 16];
    answer(unsafe { raw::meshnode_k1(n.as_ptr(), n.len(), salt.as_ptr(), salt.len(), p.as_ptr(), p.len(), key.as_mut_ptr(), key.len()) })?;
    Ok(key)
}

/// k3: the Network ID of a network key.
///
/// ```
/// use meshnode::{digits::hex, k3};
/// assert_eq!(k3(&hex("f7a2a44f8e8a8029064f173ddc1e2b00")), Ok(hex("ff046958233db014")));
/// ```
pub fn k3(key: &[u8; 16]) -> Result<[u8; 8], Refused> {
    let mut id = [0; 8];
    answer(unsafe { raw::meshnode_k3(key.as_ptr(), key.len(), id.as_mut_ptr(), id.len()) })?;
    Ok(id)
}

/// k4: the AID, below 64, of an application key.
///
/// ```
/// use meshnode::{digits::hex, k4};
/// assert_eq!(k4(&hex("3216d1509884b533248541792b877f98")), Ok(0x38));
/// ```
pub fn k4(key: &[u8; 16]) -> Result<u8, Refused> {
    let mut aid = 0;
    answer(unsafe { raw::meshnode_k4(key.as_ptr(), key.len(), &mut aid) })?;
    Ok(aid)
}

/// The virtual address of a label.
///
/// ```
/// use meshnode::{digits::hex, virtual_address};
/// assert_eq!(virtual_address(&hex("f4a002c7fb1e4ca0a469a021de0db875")), Ok(0x9736));
/// ```
pub fn virtual_address(label: &[u8; 16]) -> Result<u16, Refused> {
    let mut address = 0;
    answer(unsafe { raw::meshnode_virtual_address(label.as_ptr(), label.len(), &mut address) })?;
    Ok(address)
}

pub use raw::MeshnodeCredentials as Credentials;

/// k2, of P of 1 to 32 octets: 00 for the master credentials.
///
/// ```
/// use meshnode::{digits::hex, k2};
/// # fn main() -> Result<(), meshnode::Refused> {
/// let derived = k2(&hex("7dd7364cd842ad18c17c2b820c84c3d6"), &[0])?;
/// assert_eq!((derived.nid, derived.encryption), (0x68, hex("0953fa93e7caac9638f58820220a398e")));
/// # Ok(())
/// # }
/// ```
pub fn k2(key: &[u8; 16], p: &[u8]) -> Result<Credentials, Refused> {
    let mut derived = Credentials { nid: 0, encryption: [0; 16], privacy: [0; 16] };
    answer(unsafe { raw::meshnode_k2(key.as_ptr(), key.len(), p.as_ptr(), p.len(), &mut derived) })?;
    Ok(derived)
}

/// The Secure Network beacon of a network key. Of the flags bit 0 is Key Refresh and bit 1 is IV Update.
///
/// ```
/// use meshnode::{beacon, digits::hex};
/// let key = hex("7dd7364cd842ad18c17c2b820c84c3d6");
/// assert_eq!(beacon(&key, 0, 0x1234_5678), Ok(hex("01003ecaff672f673370123456788ea261582f364f6f")));
/// ```
pub fn beacon(key: &[u8; 16], flags: u8, iv: u32) -> Result<[u8; 22], Refused> {
    let mut beacon = [0; 22];
    answer(unsafe { raw::meshnode_beacon(key.as_ptr(), key.len(), flags, iv, beacon.as_mut_ptr(), beacon.len()) })?;
    Ok(beacon)
}

/// The flags and the IV Index of a Secure Network beacon, if it is one of this network key.
///
/// ```
/// use meshnode::{beacon_open, digits::hex, Refused};
/// let key = hex("7dd7364cd842ad18c17c2b820c84c3d6");
/// let heard: [u8; 22] = hex("01003ecaff672f673370123456788ea261582f364f6f");
/// assert_eq!(beacon_open(&key, &heard), Ok((0, 0x1234_5678)));
/// assert_eq!(beacon_open(&[0; 16], &heard), Err(Refused::Unread));
/// ```
pub fn beacon_open(key: &[u8; 16], beacon: &[u8]) -> Result<(u8, u32), Refused> {
    let mut flags = 0;
    let mut iv = 0;
    answer(unsafe { raw::meshnode_beacon_open(key.as_ptr(), key.len(), beacon.as_ptr(), beacon.len(), &mut flags, &mut iv) })?;
    Ok((flags, iv))
}

pub use raw::MeshnodeHead as Head;

/// The octets of the network PDU of these fields.
///
/// ```
/// use meshnode::{digits::hex, k2, net_open, net_seal, Head};
/// # fn main() -> Result<(), meshnode::Refused> {
/// let by = k2(&hex("7dd7364cd842ad18c17c2b820c84c3d6"), &[0])?;
/// let head = Head { iv: 0x1234_5678, seq: 1, src: 0x1201, dst: 0xfffd, ctl: true, ttl: 0 };
/// let tpdu: [u8; 11] = hex("034b50057e400000010000");
/// let pdu = net_seal(&by, &head, &tpdu)?;
/// assert_eq!(net_open(&by, 0x1234_5678, &pdu)?, (head, tpdu.to_vec()));
/// # Ok(())
/// # }
/// ```
pub fn net_seal(by: &Credentials, head: &Head, tpdu: &[u8]) -> Result<Vec<u8>, Refused> {
    let mut pdu = [0; 29];
    let mut size = 0;
    answer(unsafe { raw::meshnode_net_seal(by, head, tpdu.as_ptr(), tpdu.len(), pdu.as_mut_ptr(), pdu.len(), &mut size) })?;
    Ok(pdu[..size].to_vec())
}

/// The fields and the transport PDU of a network PDU, heard by a node whose IV Index is `current`.
///
/// ```
/// use meshnode::{k2, net_open, Refused};
/// # fn main() -> Result<(), meshnode::Refused> {
/// assert_eq!(net_open(&k2(&[0; 16], &[0])?, 7, &[0; 29]), Err(Refused::Unread));
/// # Ok(())
/// # }
/// ```
pub fn net_open(by: &Credentials, current: u32, pdu: &[u8]) -> Result<(Head, Vec<u8>), Refused> {
    let mut head = Head { iv: 0, seq: 0, src: 0, dst: 0, ctl: false, ttl: 0 };
    let mut tpdu = [0; 16];
    let mut size = 0;
    answer(unsafe {
        raw::meshnode_net_open(by, current, pdu.as_ptr(), pdu.len(), &mut head, tpdu.as_mut_ptr(), tpdu.len(), &mut size)
    })?;
    Ok((head, tpdu[..size].to_vec()))
}

/// The line of the verdict of an audit of a text: at most 16 lines `key NET`, and then lines of reports.
///
/// ```
/// use meshnode::{audit, Refused};
/// assert_eq!(audit(b"life 1 12345678 n 12345678 000000\n").as_deref(), Ok("sound 1\n"));
/// assert_eq!(audit(b"no line\n"), Err(Refused::NotReport(1)));
/// ```
pub fn audit(text: &[u8]) -> Result<String, Refused> {
    let mut verdict = [0; 32];
    let mut size = 0;
    let mut line = 0;
    let status = unsafe { raw::meshnode_audit(text.as_ptr(), text.len(), verdict.as_mut_ptr(), verdict.len(), &mut size, &mut line) };
    if status == raw::NOT_REPORT {
        return Err(Refused::NotReport(line));
    }
    answer(status)?;
    Ok(String::from_utf8_lossy(&verdict[..size]).into_owned())
}
