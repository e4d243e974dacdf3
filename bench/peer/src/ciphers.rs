//! AES-128 by four tables of words, and AES-CCM over it, in safe Rust.

const fn times_x(a: u8) -> u8 {
    (a << 1) ^ (if a >= 128 { 0x1b } else { 0 })
}
const fn times(a: u8, b: u8) -> u8 {
    let (mut a, mut b, mut sum) = (a, b, 0);
    while a != 0 {
        if a & 1 == 1 {
            sum ^= b;
        }
        b = times_x(b);
        a >>= 1;
    }
    sum
}
const fn sbox() -> [u8; 256] {
    let mut table = [0u8; 256];
    let mut a = 0;
    while a < 256 {
        let mut inverse = 0u8;
        let mut b = 1;
        while b < 256 {
            if times(a as u8, b as u8) == 1 {
                inverse = b as u8;
            }
            b += 1;
        }
        let i = inverse;
        table[a] = i ^ i.rotate_left(1) ^ i.rotate_left(2) ^ i.rotate_left(3) ^ i.rotate_left(4) ^ 0x63;
        a += 1;
    }
    table
}
#[allow(long_running_const_eval)]
static SBOX: [u8; 256] = sbox();
const fn products(row: u32) -> [u32; 256] {
    let boxed = sbox();
    let mut table = [0u32; 256];
    let mut a = 0;
    while a < 256 {
        let s = boxed[a];
        table[a] = u32::from_be_bytes([times(2, s), s, s, times(3, s)]).rotate_right(8 * row);
        a += 1;
    }
    table
}
#[allow(long_running_const_eval)]
static T: [[u32; 256]; 4] = [products(0), products(1), products(2), products(3)];

pub struct Schedule([[u32; 4]; 11]);

fn words(block: &[u8; 16]) -> [u32; 4] {
    let w = |i: usize| u32::from_be_bytes([block[i], block[i + 1], block[i + 2], block[i + 3]]);
    [w(0), w(4), w(8), w(12)]
}
fn octet(w: u32, row: usize) -> usize {
    w.to_be_bytes()[row] as usize
}

impl Schedule {
    pub fn new(key: &[u8; 16]) -> Schedule {
        let mut keys = [[0; 4]; 11];
        keys[0] = words(key);
        let mut constant = 1u8;
        for i in 1..11 {
            let k = keys[i - 1];
            let o = k[3].to_be_bytes().map(|o| SBOX[o as usize]);
            let turned = u32::from_be_bytes([o[1] ^ constant, o[2], o[3], o[0]]);
            let a = k[0] ^ turned;
            let b = k[1] ^ a;
            let c = k[2] ^ b;
            keys[i] = [a, b, c, k[3] ^ c];
            constant = times_x(constant);
        }
        Schedule(keys)
    }
    pub fn encrypt(&self, block: [u8; 16]) -> [u8; 16] {
        let mut s = words(&block);
        for (w, k) in s.iter_mut().zip(&self.0[0]) {
            *w ^= k;
        }
        for k in &self.0[1..10] {
            let column = |a: u32, b: u32, c: u32, d: u32, k: u32| {
                T[0][octet(a, 0)] ^ T[1][octet(b, 1)] ^ T[2][octet(c, 2)] ^ T[3][octet(d, 3)] ^ k
            };
            s = [
                column(s[0], s[1], s[2], s[3], k[0]),
                column(s[1], s[2], s[3], s[0], k[1]),
                column(s[2], s[3], s[0], s[1], k[2]),
                column(s[3], s[0], s[1], s[2], k[3]),
            ];
        }
        let k = &self.0[10];
        let last = |a: u32, b: u32, c: u32, d: u32, k: u32| {
            (u32::from_be_bytes([SBOX[octet(a, 0)], SBOX[octet(b, 1)], SBOX[octet(c, 2)], SBOX[octet(d, 3)]]) ^ k).to_be_bytes()
        };
        let columns = [
            last(s[0], s[1], s[2], s[3], k[0]),
            last(s[1], s[2], s[3], s[0], k[1]),
            last(s[2], s[3], s[0], s[1], k[2]),
            last(s[3], s[0], s[1], s[2], k[3]),
        ];
        let mut out = [0; 16];
        for (to, from) in out.chunks_exact_mut(4).zip(&columns) {
            to.copy_from_slice(from);
        }
        out
    }
}

pub fn add(a: &mut [u8], b: &[u8]) {
    for (x, y) in a.iter_mut().zip(b) {
        *x ^= y;
    }
}
fn nonce_block(flags: u8, nonce: &[u8; 13], number: u16) -> [u8; 16] {
    let mut block = [flags; 16];
    block[1..14].copy_from_slice(nonce);
    block[14..].copy_from_slice(&number.to_be_bytes());
    block
}
// AES-CCM in place, without additional data.
pub fn ccm(schedule: &Schedule, nonce: &[u8; 13], text: &mut [u8], mic: &mut [u8]) {
    let flags = 8 * ((mic.len() as u8 - 2) / 2) + 1;
    let mut tag = schedule.encrypt(nonce_block(flags, nonce, text.len() as u16));
    for part in text.chunks(16) {
        add(&mut tag, part);
        tag = schedule.encrypt(tag);
    }
    mic.copy_from_slice(&tag[..mic.len()]);
    add(mic, &schedule.encrypt(nonce_block(1, nonce, 0)));
    for (i, part) in text.chunks_mut(16).enumerate() {
        add(part, &schedule.encrypt(nonce_block(1, nonce, i as u16 + 1)));
    }
}
// Octets that were sealed so become the text again, if the MIC is theirs.
pub fn open_ccm(schedule: &Schedule, nonce: &[u8; 13], text: &mut [u8], mic: &[u8]) -> bool {
    for (i, part) in text.chunks_mut(16).enumerate() {
        add(part, &schedule.encrypt(nonce_block(1, nonce, i as u16 + 1)));
    }
    let flags = 8 * ((mic.len() as u8 - 2) / 2) + 1;
    let mut tag = schedule.encrypt(nonce_block(flags, nonce, text.len() as u16));
    for part in text.chunks(16) {
        add(&mut tag, part);
        tag = schedule.encrypt(tag);
    }
    add(&mut tag, &schedule.encrypt(nonce_block(1, nonce, 0)));
    tag[..mic.len()] == *mic
}
