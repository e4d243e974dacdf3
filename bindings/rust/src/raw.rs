//! The calls of C, as `../../c/meshnode.h` has them.

pub const OK: u32 = 0;
pub const LENGTH: u32 = 1;
pub const RANGE: u32 = 2;
pub const UNREAD: u32 = 3;
pub const NOT_REPORT: u32 = 4;
pub const EMPTY: u32 = 6;
pub const NO_NODE: u32 = 8;
pub const WAS_RESET: u32 = 9;
pub const NOTHING: u32 = 10;
pub const WRONG: u32 = 11;
pub const WAITING: u32 = 12;
pub const OVER: u32 = 13;
pub const LOST: u32 = 14;

/// A node, or none where it is null.
#[repr(C)]
pub struct Meshnode {
    pub at: *mut u8,
}

/// Credentials: what network PDUs are sealed and opened with, as k2 derives it of a network key.
#[repr(C)]
#[derive(Clone, Copy)]
pub struct MeshnodeCredentials {
    /// NID, below 128.
    pub nid: u8,
    /// The EncryptionKey.
    pub encryption: [u8; 16],
    /// The PrivacyKey.
    pub privacy: [u8; 16],
}

/// The fields of a network PDU but for its transport PDU.
#[repr(C)]
#[derive(Clone, Copy, Debug, PartialEq, Eq)]
pub struct MeshnodeHead {
    /// The IV Index.
    pub iv: u32,
    /// SEQ, below 2^24.
    pub seq: u32,
    /// SRC.
    pub src: u16,
    /// DST.
    pub dst: u16,
    /// Whether it is a control message.
    pub ctl: bool,
    /// TTL, below 128.
    pub ttl: u8,
}

/// The fields of a lower transport PDU but for its octets. Of a PDU that was read those that its kind hasn't are 0; of one that is written they
/// aren't looked at.
#[repr(C)]
#[derive(Clone, Copy, Debug, Default, PartialEq, Eq)]
pub struct MeshnodeLower {
    /// Whether it is of a control message.
    pub ctl: bool,
    /// SEG: whether it is a segment.
    pub seg: bool,
    /// AKF, of an access message: whether an application key sealed it; else the device key.
    pub akf: bool,
    /// SZMIC, of a segment of an access message: whether the TransMIC has 8 octets; else 4.
    pub szmic: bool,
    /// AID, below 64, of an access message: 0 with the device key.
    pub aid: u8,
    /// The opcode, below 128, of a control message.
    pub opcode: u8,
    /// SegO, of a segment: which it is, from 0 to SegN.
    pub seg_o: u8,
    /// SegN, below 32, of a segment: the number of the last one.
    pub seg_n: u8,
    /// SeqZero, below 2^13, of a segment: the low bits of SeqAuth.
    pub seq_zero: u16,
}

/// What a Segment Acknowledgment says.
#[repr(C)]
#[derive(Clone, Copy, Debug, Default, PartialEq, Eq)]
pub struct MeshnodeAcknowledgment {
    /// OBO: whether a friend acknowledges on behalf of its Low Power node.
    pub obo: bool,
    /// SeqZero, below 2^13.
    pub seq_zero: u16,
    /// BlockAck: bit n is 1 where segment n was received.
    pub block_ack: u32,
}

/// What an access message is sealed with besides its key.
#[repr(C)]
#[derive(Clone, Copy, Debug, Default, PartialEq, Eq)]
pub struct MeshnodeMessage {
    /// The IV Index of SeqAuth.
    pub iv: u32,
    /// The SEQ of SeqAuth, below 2^24: that of the message, or of its first segment.
    pub seq: u32,
    /// SRC.
    pub src: u16,
    /// DST.
    pub dst: u16,
    /// Whether the TransMIC has 8 octets; else 4.
    pub long_mic: bool,
}

impl MeshnodeMessage {
    /// How many octets the TransMIC has.
    pub(crate) fn mic_length(&self) -> usize {
        if self.long_mic { 8 } else { 4 }
    }
}

#[rustfmt::skip]
extern "C" {
    pub fn meshnode_ccm_seal(
        key: *const u8, key_length: usize, nonce: *const u8, nonce_length: usize, additional: *const u8, additional_length: usize, text: *mut u8,
        text_length: usize, mic: *mut u8, mic_length: usize,
    ) -> u32;
    pub fn meshnode_ccm_open(
        key: *const u8, key_length: usize, nonce: *const u8, nonce_length: usize, additional: *const u8, additional_length: usize, text: *mut u8,
        text_length: usize, mic: *const u8, mic_length: usize,
    ) -> u32;
    pub fn meshnode_cmac(key: *const u8, key_length: usize, message: *const u8, message_length: usize, mac: *mut u8, mac_length: usize) -> u32;
    pub fn meshnode_s1(message: *const u8, message_length: usize, salt: *mut u8, salt_length: usize) -> u32;
    pub fn meshnode_k1(
        n: *const u8, n_length: usize, salt: *const u8, salt_length: usize, p: *const u8, p_length: usize, key: *mut u8, key_length: usize,
    ) -> u32;
    pub fn meshnode_k3(n: *const u8, n_length: usize, id: *mut u8, id_length: usize) -> u32;
    pub fn meshnode_k4(n: *const u8, n_length: usize, aid: *mut u8) -> u32;
    pub fn meshnode_virtual_address(label: *const u8, label_length: usize, dst: *mut u16) -> u32;
    pub fn meshnode_beacon_open(
        key: *const u8, key_length: usize, beacon: *const u8, beacon_length: usize, flags: *mut u8, iv: *mut u32,
    ) -> u32;
    pub fn meshnode_lower_write(
        head: *const MeshnodeLower, octets: *const u8, octets_length: usize, tpdu: *mut u8, tpdu_length: usize, size: *mut usize,
    ) -> u32;
    pub fn meshnode_lower_read(
        ctl: bool, tpdu: *const u8, tpdu_length: usize, head: *mut MeshnodeLower, octets: *mut u8, octets_length: usize, size: *mut usize,
    ) -> u32;
    pub fn meshnode_acknowledgment_write(said: *const MeshnodeAcknowledgment, params: *mut u8, params_length: usize) -> u32;
    pub fn meshnode_acknowledgment_read(params: *const u8, params_length: usize, said: *mut MeshnodeAcknowledgment) -> u32;
    pub fn meshnode_seq_auth(seq: u32, seq_zero: u16, auth: *mut u32) -> u32;
    pub fn meshnode_access_seal(
        device: bool, key: *const u8, key_length: usize, message: *const MeshnodeMessage, label: *const u8, label_length: usize,
        payload: *const u8, payload_length: usize, upper: *mut u8, upper_length: usize,
    ) -> u32;
    pub fn meshnode_access_open(
        device: bool, key: *const u8, key_length: usize, message: *const MeshnodeMessage, label: *const u8, label_length: usize,
        upper: *const u8, upper_length: usize, payload: *mut u8, payload_length: usize,
    ) -> u32;
    pub fn meshnode_k2(n: *const u8, n_length: usize, p: *const u8, p_length: usize, to: *mut MeshnodeCredentials) -> u32;
    pub fn meshnode_beacon(key: *const u8, key_length: usize, flags: u8, iv: u32, beacon: *mut u8, beacon_length: usize) -> u32;
    pub fn meshnode_net_seal(
        by: *const MeshnodeCredentials, head: *const MeshnodeHead, tpdu: *const u8, tpdu_length: usize, pdu: *mut u8, pdu_length: usize,
        size: *mut usize,
    ) -> u32;
    pub fn meshnode_net_open(
        by: *const MeshnodeCredentials, current: u32, pdu: *const u8, pdu_length: usize, head: *mut MeshnodeHead, tpdu: *mut u8,
        tpdu_length: usize, size: *mut usize,
    ) -> u32;
    pub fn meshnode_audit(
        text: *const u8, text_length: usize, verdict: *mut u8, verdict_length: usize, size: *mut usize, line: *mut u32,
    ) -> u32;
    pub fn meshnode_node_open(
        node: *mut Meshnode, image: *const u8, image_length: usize, text: *mut u8, text_length: usize, size: *mut usize,
    ) -> u32;
    pub fn meshnode_node_line(node: *mut Meshnode, line: *const u8, line_length: usize, rule: *mut u32) -> u32;
    pub fn meshnode_node_write(
        node: *mut Meshnode, at: *mut u32, octets: *mut u8, octets_length: usize, size: *mut usize, erased: *mut bool,
    ) -> u32;
    pub fn meshnode_node_report(node: *mut Meshnode, text: *mut u8, text_length: usize, size: *mut usize) -> u32;
    pub fn meshnode_node_due(node: *mut Meshnode, ticks: *mut u32) -> u32;
    pub fn meshnode_node_close(node: *mut Meshnode, text: *mut u8, text_length: usize, size: *mut usize) -> u32;
}
