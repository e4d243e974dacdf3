//! A peer in safe Rust with four tables, beside the proved code, in one process: each is timed in many short windows in turn, and the
//! least time of each counts. With the words `SIDE CALL COUNT` it only makes so many calls, so that an instruction counter can look.
use std::hint::black_box;
use std::time::Instant;

mod proved {
    extern "C" {
        fn meshnode_bench_blocks(start: u64, count: u32) -> u64;
        fn meshnode_bench_kept(count: u32) -> u8;
        fn meshnode_bench_made(count: u32) -> u8;
        fn meshnode_bench_open(count: u32) -> u32;
        fn meshnode_bench_foreign(count: u32) -> u32;
    }
    pub fn blocks(start: u64, count: u32) -> u64 {
        unsafe { meshnode_bench_blocks(start, count) }
    }
    pub fn kept(count: u32) -> u8 {
        unsafe { meshnode_bench_kept(count) }
    }
    pub fn made(count: u32) -> u8 {
        unsafe { meshnode_bench_made(count) }
    }
    pub fn open(count: u32) -> u32 {
        unsafe { meshnode_bench_open(count) }
    }
    pub fn foreign(count: u32) -> u32 {
        unsafe { meshnode_bench_foreign(count) }
    }
}

mod ciphers;

mod peer {
    use super::ciphers::{add, ccm, open_ccm, Schedule};

    const IV: u32 = 0x12345678;

    fn nonce_of(header: &[u8; 6], iv: u32) -> [u8; 13] {
        let mut nonce = [0; 13];
        nonce[1..7].copy_from_slice(header);
        nonce[9..].copy_from_slice(&iv.to_be_bytes());
        nonce
    }
    fn mask_of(privacy: &Schedule, pdu: &[u8], iv: u32) -> [u8; 16] {
        let mut block = [0; 16];
        block[5..9].copy_from_slice(&iv.to_be_bytes());
        block[9..].copy_from_slice(&pdu[7..14]);
        privacy.encrypt(block)
    }
    // A control PDU of 11 octets of transport PDU.
    fn pdu_of(encryption: &Schedule, privacy: &Schedule, number: u32) -> [u8; 28] {
        let seq = (number % 0x1000000).to_be_bytes();
        let header = [0x80, seq[1], seq[2], seq[3], 0x12, 0x01];
        let nonce = nonce_of(&header, IV);
        let mut pdu = [0u8; 28];
        pdu[7..9].copy_from_slice(&[0xff, 0xfd]);
        pdu[9..20].copy_from_slice(&[0x03, 0x4b, 0x50, 0x05, 0x7e, 0x40, 0x00, 0x00, 0x01, 0x00, 0x00]);
        let (front, mic) = pdu.split_at_mut(20);
        ccm(encryption, &nonce, &mut front[7..], mic);
        let mask = mask_of(privacy, &pdu, IV);
        pdu[0] = (IV % 2) as u8 * 0x80 + 0x68;
        pdu[1..7].copy_from_slice(&header);
        add(&mut pdu[1..7], &mask);
        pdu
    }
    fn last_octet(encryption: &Schedule, privacy: &Schedule, number: u32) -> u8 {
        let pdu = pdu_of(encryption, privacy, number);
        super::black_box(&pdu);
        pdu[27]
    }
    // The SEQ of a PDU, if it is one under these keys.
    fn seq_of(encryption: &Schedule, privacy: &Schedule, pdu: &[u8]) -> Option<u32> {
        if pdu.len() < 14 || pdu[0] % 0x80 != 0x68 {
            return None;
        }
        let iv = IV - (IV % 2 ^ u32::from(pdu[0] / 0x80));
        let mut header = [0; 6];
        header.copy_from_slice(&pdu[1..7]);
        add(&mut header, &mask_of(privacy, pdu, iv));
        let mic = if header[0] >= 0x80 { 8 } else { 4 };
        let (front, mic) = pdu.split_at(pdu.len() - mic);
        let mut text = [0; 18];
        let text = text.get_mut(..front.len() - 7)?;
        text.copy_from_slice(&front[7..]);
        if !open_ccm(encryption, &nonce_of(&header, iv), text, mic) {
            return None;
        }
        super::black_box(&text);
        Some(u32::from_be_bytes([0, header[1], header[2], header[3]]))
    }

    pub fn blocks(start: u64, count: u32) -> u64 {
        let key = u128::from(start).to_be_bytes();
        let schedule = Schedule::new(&key);
        let mut block = key;
        for _ in 0..count {
            block = schedule.encrypt(block);
        }
        u128::from_be_bytes(block) as u64
    }
    pub fn kept(count: u32) -> u8 {
        let (encryption, privacy) = (Schedule::new(&[1; 16]), Schedule::new(&[2; 16]));
        (0..count).fold(0, |sum, number| sum ^ last_octet(&encryption, &privacy, number))
    }
    pub fn made(count: u32) -> u8 {
        (0..count).fold(0, |sum, number| {
            sum ^ last_octet(&Schedule::new(super::black_box(&[1; 16])), &Schedule::new(super::black_box(&[2; 16])), number)
        })
    }
    fn two_pdus() -> [[u8; 28]; 2] {
        let (encryption, privacy) = (Schedule::new(&[1; 16]), Schedule::new(&[2; 16]));
        [pdu_of(&encryption, &privacy, 1), pdu_of(&encryption, &privacy, 6)]
    }
    pub fn open(count: u32) -> u32 {
        let (encryption, privacy) = (Schedule::new(&[1; 16]), Schedule::new(&[2; 16]));
        let pdus = two_pdus();
        (0..count).fold(0, |sum, number| sum ^ seq_of(&encryption, &privacy, &pdus[number as usize % 2]).unwrap_or(0))
    }
    pub fn foreign(count: u32) -> u32 {
        let (encryption, privacy) = (Schedule::new(&[3; 16]), Schedule::new(&[4; 16]));
        let pdus = two_pdus();
        (0..count).filter(|number| seq_of(&encryption, &privacy, &pdus[*number as usize % 2]).is_none()).count() as u32
    }
}

// Nanoseconds for one of `count`, the least of many windows of the two in turn.
fn least(count: u32, one: &dyn Fn(u32), other: &dyn Fn(u32)) -> (f64, f64) {
    let mut times = (f64::MAX, f64::MAX);
    let window = |call: &dyn Fn(u32)| {
        let start = Instant::now();
        call(count);
        start.elapsed().as_nanos() as f64 / f64::from(count)
    };
    for _ in 0..3000 {
        times.0 = times.0.min(window(one));
        times.1 = times.1.min(window(other));
    }
    times
}

fn row(name: &str, times: (f64, f64)) {
    println!("{name:<28} {:>8.1} {:>8.1} {:>8.2}", times.0, times.1, times.0 / times.1);
}

// One side's calls by name, so many of each.
fn call(side: &str, name: &str, count: u32) -> u64 {
    match (side, name) {
        ("proved", "block") => proved::blocks(black_box(7), count),
        ("proved", "seal") => proved::kept(count).into(),
        ("proved", "made") => proved::made(count).into(),
        ("proved", "open") => proved::open(count).into(),
        ("proved", "foreign") => proved::foreign(count).into(),
        ("rust", "block") => peer::blocks(black_box(7), count),
        ("rust", "seal") => peer::kept(count).into(),
        ("rust", "made") => peer::made(count).into(),
        ("rust", "open") => peer::open(count).into(),
        ("rust", "foreign") => peer::foreign(count).into(),
        _ => panic!("no call {name} of {side}"),
    }
}

fn main() {
    let words: Vec<String> = std::env::args().skip(1).collect();
    if let [side, name, count] = words.as_slice() {
        black_box(call(side, name, count.parse().expect("a count")));
        return;
    }
    for name in ["block", "seal", "made", "open", "foreign"] {
        assert_eq!(call("proved", name, 101), call("rust", name, 101), "both do the same: {name}");
    }
    println!("{:<28} {:>8} {:>8} {:>8}", "ns, least of 3000 windows", "proved", "Rust", "ratio");
    for (text, name, count) in [
        ("a block", "block", 500),
        ("a seal, schedules kept", "seal", 100),
        ("a seal, schedules made", "made", 100),
        ("a PDU opened", "open", 100),
        ("a PDU of another network", "foreign", 100),
    ] {
        row(text, least(count, &|n| { black_box(call("proved", name, n)); }, &|n| { black_box(call("rust", name, n)); }));
    }
}
