//! A node in plain Rust, to compare with: std only, safe, schedules kept, a mutex around the state, a history, a journal in memory, and one
//! write at the end. It reads a script of one life on standard input and writes the report of `meshnode run --hex`, of these events alone:
//! `raw`, `send` under the device key, `net` in one PDU, of no model where it is delivered, `tick`. What else a node does it doesn't know, and then it ends with 1.
#[path = "../ciphers.rs"]
mod ciphers;

use ciphers::{add, ccm, open_ccm, Schedule};
use std::collections::{HashMap, VecDeque};
use std::io::{Read, Write};
use std::sync::atomic::{AtomicU32, Ordering};
use std::sync::Mutex;

type Fault = &'static str;

const RESERVED: u32 = 256;
const CACHED: usize = 128;
const SOURCES: usize = 512;
const SLOT: usize = 32;
const FLASH: usize = 65_536;
const SLOTS: usize = 1_023;

/// What seals and opens network PDUs: the credentials of a network key.
struct NetKey {
    nid: u8,
    encryption: Schedule,
    privacy: Schedule,
}

/// Whether a model of a node has messages of this opcode, by its first octet: the Configuration Server, or one of two octets.
fn is_of_a_model(payload: &[u8]) -> bool {
    matches!(payload[0], 0x00..=0x06 | 0x80..=0xbf)
}

/// Keys and addresses, which no event changes.
struct Identity {
    unicast: u16,
    elements: u16,
    iv: u32,
    net: NetKey,
    device: Schedule,
}

enum Event {
    Raw { dst: u16, ttl: u8, tpdu: Vec<u8> },
    Send { element: u16, dst: u16, ttl: u8, payload: Vec<u8> },
    Net(Vec<u8>),
    Tick(u64),
}

enum Answer {
    Planned,
    Unread,
    BadAddress,
    Own,
    Cached,
    NotMine,
    Malformed,
    NoKey,
    ListFull,
    Replay { iv: u32, seq: u32 },
    Delivered { header: Header, payload: Vec<u8> },
    Control { header: Header, opcode: u8, params: Vec<u8> },
    Ticked(u64),
}

struct Entry {
    bearer: u8,
    number: u32,
    kind: &'static str,
    answer: Answer,
}

/// A network PDU that went out.
struct Sent {
    entry: usize,
    seq: u32,
    ttl: u8,
    src: u16,
    dst: u16,
    what: What,
    pdu: Vec<u8>,
}

enum What {
    Control(Vec<u8>),
    Message(Vec<u8>),
}

#[derive(Clone, Copy)]
struct Header {
    ctl: bool,
    ttl: u8,
    iv: u32,
    seq: u32,
    src: u16,
    dst: u16,
}

/// What events change, behind the mutex.
struct State {
    ticks: u64,
    replay: HashMap<u16, (u32, u32)>,
    cache: VecDeque<(u16, u32, u32)>,
    history: Vec<Entry>,
    flash: Vec<u8>,
    used: usize,
    mark: u32,
}

impl State {
    /// A record of a kind: its slot but for the gate, and then the gate.
    fn put(&mut self, kind: u8, body: &[u8]) -> Result<(), Fault> {
        if self.used == SLOTS {
            self.compact()?;
        }
        self.used += 1;
        let slot = &mut self.flash[self.used * SLOT..][..SLOT];
        slot[0] = kind;
        slot[1..=body.len()].copy_from_slice(body);
        slot[1 + body.len()..SLOT - 1].fill(0);
        slot[SLOT - 1] = 0;
        Ok(())
    }

    /// Writes anew what the records say, behind those of identity, numbers and key.
    fn compact(&mut self) -> Result<(), Fault> {
        self.flash[4 * SLOT..].fill(0xff);
        self.used = 3;
        let entries: Vec<_> = self.replay.iter().map(|(src, name)| replay_body(*src, *name)).collect();
        entries.iter().try_for_each(|body| self.put(4, body))
    }

    /// Reserves numbers below a higher mark.
    fn refill(&mut self, iv: u32) -> Result<(), Fault> {
        self.mark += RESERVED;
        let mut body = [0; 17];
        body[..4].copy_from_slice(&iv.to_be_bytes());
        body[5..13].copy_from_slice(&(u64::from(iv) << 25 | u64::from(self.mark)).to_be_bytes());
        self.put(2, &body)
    }

    /// The answer to a PDU that was read.
    fn hear(&mut self, me: &Identity, header: Header, tpdu: &[u8]) -> Result<Answer, Fault> {
        let Header { iv, seq, src, dst, .. } = header;
        if !(1..0x8000).contains(&src) || dst == 0 {
            return Ok(Answer::BadAddress);
        }
        let is_own = |address: u16| (me.unicast..me.unicast + me.elements).contains(&address);
        if is_own(src) {
            return Ok(Answer::Own);
        }
        if self.cache.contains(&(src, iv, seq)) {
            return Ok(Answer::Cached);
        }
        if self.cache.len() == CACHED {
            self.cache.pop_front();
        }
        self.cache.push_back((src, iv, seq));
        if !is_own(dst) && dst != 0xffff {
            return Ok(Answer::NotMine);
        }
        if tpdu[0] >= 0x80 {
            return Err("a segment");
        }
        if !header.ctl && !(6..=16).contains(&tpdu.len()) {
            return Ok(Answer::Malformed);
        }
        let entry = self.replay.get(&src);
        if let Some(&(iv, seq)) = entry.filter(|name| **name >= (iv, seq)) {
            return Ok(Answer::Replay { iv, seq });
        }
        let is_new = entry.is_none();
        let answer = if header.ctl {
            Answer::Control { header, opcode: tpdu[0], params: tpdu[1..].to_vec() }
        } else if tpdu[0] >= 0x40 {
            return Ok(Answer::NoKey);
        } else {
            let (text, mic) = tpdu[1..].split_at(tpdu.len() - 5);
            let mut payload = text.to_vec();
            if !open_ccm(&me.device, &device_nonce(&header), &mut payload, mic) {
                return Ok(Answer::NoKey);
            }
            if is_of_a_model(&payload) {
                return Err("a message of a model");
            }
            Answer::Delivered { header, payload }
        };
        if is_new && self.replay.len() == SOURCES {
            return Ok(Answer::ListFull);
        }
        self.put(4, &replay_body(src, (iv, seq)))?;
        self.replay.insert(src, (iv, seq));
        Ok(answer)
    }

    fn handle(&mut self, me: &Identity, bearer: u8, number: u32, event: &Event) -> Result<usize, Fault> {
        let (kind, answer) = match event {
            Event::Raw { .. } => ("raw", Answer::Planned),
            Event::Send { .. } => ("send", Answer::Planned),
            Event::Tick(ticks) => {
                self.ticks += ticks;
                ("tick", Answer::Ticked(self.ticks))
            }
            Event::Net(octets) => {
                let mut text = [0; 18];
                match open_net(&me.net, me.iv, octets, &mut text) {
                    Some((header, length)) => ("net", self.hear(me, header, &text[2..length])?),
                    None => ("net", Answer::Unread),
                }
            }
        };
        self.history.push(Entry { bearer, number, kind, answer });
        Ok(self.history.len() - 1)
    }
}

fn replay_body(src: u16, (iv, seq): (u32, u32)) -> [u8; 9] {
    let mut body = [0; 9];
    body[..2].copy_from_slice(&src.to_be_bytes());
    body[2..6].copy_from_slice(&iv.to_be_bytes());
    body[6..].copy_from_slice(&seq.to_be_bytes()[1..]);
    body
}

fn header_octets(header: &Header) -> [u8; 6] {
    let (seq, src) = (header.seq.to_be_bytes(), header.src.to_be_bytes());
    [u8::from(header.ctl) << 7 | header.ttl, seq[1], seq[2], seq[3], src[0], src[1]]
}

fn network_nonce(octets: &[u8; 6], iv: u32) -> [u8; 13] {
    let mut nonce = [0; 13];
    nonce[1..7].copy_from_slice(octets);
    nonce[9..].copy_from_slice(&iv.to_be_bytes());
    nonce
}

fn device_nonce(header: &Header) -> [u8; 13] {
    let mut nonce = [0; 13];
    nonce[0] = 2;
    nonce[2..5].copy_from_slice(&header.seq.to_be_bytes()[1..]);
    nonce[5..7].copy_from_slice(&header.src.to_be_bytes());
    nonce[7..9].copy_from_slice(&header.dst.to_be_bytes());
    nonce[9..].copy_from_slice(&header.iv.to_be_bytes());
    nonce
}

fn mask(net: &NetKey, iv: u32, pdu: &[u8]) -> [u8; 16] {
    let mut block = [0; 16];
    block[5..9].copy_from_slice(&iv.to_be_bytes());
    block[9..].copy_from_slice(&pdu[7..14]);
    net.privacy.encrypt(block)
}

fn seal_net(net: &NetKey, header: &Header, tpdu: &[u8]) -> Vec<u8> {
    let octets = header_octets(header);
    let mut pdu = Vec::with_capacity(29);
    pdu.push((header.iv as u8) << 7 | net.nid);
    pdu.extend_from_slice(&octets);
    pdu.extend_from_slice(&header.dst.to_be_bytes());
    pdu.extend_from_slice(tpdu);
    let mut mic = [0; 8];
    let mic = &mut mic[..if header.ctl { 8 } else { 4 }];
    ccm(&net.encryption, &network_nonce(&octets, header.iv), &mut pdu[7..], mic);
    pdu.extend_from_slice(mic);
    let mask = mask(net, header.iv, &pdu);
    add(&mut pdu[1..7], &mask);
    pdu
}

/// Header of a PDU, DST and transport PDU as `text`, and how many octets that has; None where it isn't of this key.
fn open_net(net: &NetKey, iv: u32, pdu: &[u8], text: &mut [u8; 18]) -> Option<(Header, usize)> {
    if pdu.len() < 14 || pdu.len() > 29 || pdu[0] & 0x7f != net.nid {
        return None;
    }
    let iv = if u32::from(pdu[0] >> 7) == iv & 1 { iv } else { iv.checked_sub(1)? };
    let mut octets: [u8; 6] = pdu[1..7].try_into().ok()?;
    add(&mut octets, &mask(net, iv, pdu));
    let ctl = octets[0] >= 0x80;
    let (sealed, mic) = pdu.split_at(pdu.len() - if ctl { 8 } else { 4 });
    let length = sealed.len().checked_sub(7).filter(|length| *length > 2)?;
    let into = text.get_mut(..length)?;
    into.copy_from_slice(&sealed[7..]);
    if !open_ccm(&net.encryption, &network_nonce(&octets, iv), into, mic) {
        return None;
    }
    let header = Header {
        ctl,
        ttl: octets[0] & 0x7f,
        iv,
        seq: u32::from_be_bytes([0, octets[1], octets[2], octets[3]]),
        src: u16::from_be_bytes([octets[4], octets[5]]),
        dst: u16::from_be_bytes([into[0], into[1]]),
    };
    Some((header, length))
}

/// AES-CMAC.
fn cmac(key: &[u8; 16], text: &[u8]) -> [u8; 16] {
    let schedule = Schedule::new(key);
    let double = |block: [u8; 16]| {
        let number = u128::from_be_bytes(block);
        (number << 1 ^ if number >> 127 == 1 { 0x87 } else { 0 }).to_be_bytes()
    };
    let whole = double(schedule.encrypt([0; 16]));
    let (front, last) = text.split_at(text.len().saturating_sub(1) / 16 * 16);
    let mut tag = [0; 16];
    for part in front.chunks(16) {
        add(&mut tag, part);
        tag = schedule.encrypt(tag);
    }
    add(&mut tag, last);
    if last.len() == 16 {
        add(&mut tag, &whole);
    } else {
        tag[last.len()] ^= 0x80;
        add(&mut tag, &double(whole));
    }
    schedule.encrypt(tag)
}

/// The master credentials of a network key, by k2.
fn master(key: &[u8; 16]) -> NetKey {
    let t = cmac(&cmac(&[0; 16], b"smk2"), key);
    let first = cmac(&t, &[0, 1]);
    let next = |before: &[u8; 16], number: u8| cmac(&t, &[&before[..], &[0, number]].concat());
    let second = next(&first, 2);
    let third = next(&second, 3);
    NetKey { nid: first[15] & 0x7f, encryption: Schedule::new(&second), privacy: Schedule::new(&third) }
}

struct Bearer {
    place: u8,
    number: u32,
    sent: Vec<Sent>,
}

impl Bearer {
    /// Draws a number below the mark, and has the mark raised where there is none.
    fn draw(&self, me: &Identity, next: &AtomicU32, mark: &AtomicU32, state: &Mutex<State>) -> Result<u32, Fault> {
        loop {
            let seen = next.load(Ordering::SeqCst);
            if seen < mark.load(Ordering::SeqCst) {
                if next.compare_exchange(seen, seen + 1, Ordering::SeqCst, Ordering::SeqCst).is_ok() {
                    return Ok(seen);
                }
                continue;
            }
            let mut state = state.lock().map_err(|_| "a bearer ended")?;
            if mark.load(Ordering::SeqCst) == seen {
                state.refill(me.iv)?;
                mark.store(state.mark, Ordering::SeqCst);
            }
        }
    }

    fn work(&mut self, me: &Identity, next: &AtomicU32, mark: &AtomicU32, state: &Mutex<State>, event: &Event) -> Result<(), Fault> {
        self.number += 1;
        let entry = state.lock().map_err(|_| "a bearer ended")?.handle(me, self.place, self.number, event)?;
        let (ctl, ttl, src, dst) = match event {
            Event::Raw { dst, ttl, .. } => (true, *ttl, me.unicast, *dst),
            Event::Send { element, dst, ttl, .. } => (false, *ttl, me.unicast + element, *dst),
            Event::Net(_) | Event::Tick(_) => return Ok(()),
        };
        let seq = self.draw(me, next, mark, state)?;
        let header = Header { ctl, ttl, iv: me.iv, seq, src, dst };
        let (what, pdu) = match event {
            Event::Send { payload, .. } => {
                let mut tpdu = [0; 16];
                let length = payload.len();
                tpdu[1..=length].copy_from_slice(payload);
                let (text, mic) = tpdu[1..].split_at_mut(length);
                ccm(&me.device, &device_nonce(&header), text, &mut mic[..4]);
                (What::Message(payload.clone()), seal_net(&me.net, &header, &tpdu[..length + 5]))
            }
            Event::Raw { tpdu, .. } => (What::Control(tpdu.clone()), seal_net(&me.net, &header, tpdu)),
            Event::Net(_) | Event::Tick(_) => return Ok(()),
        };
        self.sent.push(Sent { entry, seq, ttl, src, dst, what, pdu });
        Ok(())
    }
}

fn digits(word: &str, width: usize) -> Result<u32, Fault> {
    if word.len() != width {
        return Err("a width");
    }
    u32::from_str_radix(word, 16).map_err(|_| "a digit")
}

fn octets(word: &str) -> Result<Vec<u8>, Fault> {
    let value = |digit: u8| (digit as char).to_digit(16).map(|value| value as u8).ok_or("a digit");
    word.as_bytes().chunks(2).map(|pair| Ok(value(pair[0])? << 4 | value(*pair.get(1).ok_or("half an octet")?)?)).collect()
}

fn key(word: &str) -> Result<[u8; 16], Fault> {
    octets(word)?.try_into().map_err(|_| "a key")
}

fn event(words: &[&str]) -> Result<Event, Fault> {
    Ok(match words {
        ["raw", dst, ttl, tpdu] => {
            Event::Raw { dst: digits(dst, 4)? as u16, ttl: digits(ttl, 2)? as u8, tpdu: octets(tpdu)? }
        }
        ["send", element, dst, ttl, "dev", payload] if payload.len() <= 22 => Event::Send {
            element: digits(element, 1)? as u16,
            dst: digits(dst, 4)? as u16,
            ttl: digits(ttl, 2)? as u8,
            payload: octets(payload)?,
        },
        ["net", pdu] => Event::Net(octets(pdu)?),
        ["tick", ticks] => Event::Tick(ticks.parse().map_err(|_| "ticks")?),
        _ => return Err("a line that this node doesn't know"),
    })
}

/// The node, and for each bearer its events.
fn script(text: &str) -> Result<(Identity, Vec<Vec<Event>>), Fault> {
    let mut lines = text.lines();
    let first: Vec<&str> = lines.next().ok_or("no line")?.split(' ').collect();
    let ["provision", unicast, elements, iv, "00", "000", net, device] = first[..] else {
        return Err("a provision line");
    };
    let me = Identity {
        unicast: digits(unicast, 4)? as u16,
        elements: digits(elements, 1)? as u16,
        iv: digits(iv, 8)?,
        net: master(&key(net)?),
        device: Schedule::new(&key(device)?),
    };
    if lines.next() != Some("life") {
        return Err("a life");
    }
    let mut events: Vec<Vec<Event>> = Vec::new();
    for line in lines {
        let words: Vec<&str> = line.split(' ').collect();
        let place = words[0].strip_prefix('b').and_then(|place| place.parse::<usize>().ok()).filter(|place| *place < 8).ok_or("a bearer")?;
        while events.len() <= place {
            events.push(Vec::new());
        }
        events[place].push(event(&words[1..])?);
    }
    Ok((me, events))
}

fn push_hex(text: &mut String, octets: &[u8]) {
    const DIGITS: [char; 16] = ['0', '1', '2', '3', '4', '5', '6', '7', '8', '9', 'a', 'b', 'c', 'd', 'e', 'f'];
    for octet in octets {
        text.push(DIGITS[usize::from(octet >> 4)]);
        text.push(DIGITS[usize::from(octet & 15)]);
    }
}

fn push_field(text: &mut String, octets: &[u8]) {
    text.push(' ');
    push_hex(text, octets);
}

fn push_number(text: &mut String, number: u64) {
    if number >= 10 {
        push_number(text, number / 10);
    }
    text.push((b'0' + (number % 10) as u8) as char);
}

fn push_name(text: &mut String, header: &Header) {
    push_field(text, &header.src.to_be_bytes());
    push_field(text, &header.dst.to_be_bytes());
    push_field(text, &header.iv.to_be_bytes());
    push_field(text, &header.seq.to_be_bytes()[1..]);
}

fn push_entry(text: &mut String, at: usize, entry: &Entry) {
    text.push_str("e ");
    push_number(text, at as u64);
    text.push_str(" b");
    push_number(text, entry.bearer.into());
    text.push(' ');
    push_number(text, entry.number.into());
    text.push(' ');
    text.push_str(entry.kind);
    match &entry.answer {
        Answer::Planned => text.push_str(" planned"),
        Answer::Unread => text.push_str(" unread"),
        Answer::BadAddress => text.push_str(" badaddress"),
        Answer::Own => text.push_str(" own"),
        Answer::Cached => text.push_str(" cached"),
        Answer::NotMine => text.push_str(" notmine"),
        Answer::Malformed => text.push_str(" malformed"),
        Answer::NoKey => text.push_str(" nokey"),
        Answer::ListFull => text.push_str(" listfull 512"),
        Answer::Replay { iv, seq } => {
            text.push_str(" replay");
            push_field(text, &iv.to_be_bytes());
            push_field(text, &seq.to_be_bytes()[1..]);
        }
        Answer::Delivered { header, payload } => {
            text.push_str(" delivered");
            push_name(text, header);
            text.push_str(" dev");
            push_field(text, payload);
        }
        Answer::Control { header, opcode, params } => {
            text.push_str(" control");
            push_name(text, header);
            push_field(text, &[*opcode]);
            if params.is_empty() {
                text.push_str(" -");
            } else {
                push_field(text, params);
            }
        }
        Answer::Ticked(ticks) => {
            text.push_str(" ticked ");
            push_number(text, *ticks);
        }
    }
    text.push('\n');
}

fn push_sent(text: &mut String, place: u8, iv: u32, sent: &Sent) {
    text.push_str("s b");
    push_number(text, place.into());
    text.push(' ');
    push_number(text, sent.entry as u64 + 1);
    text.push_str(match sent.what {
        What::Control(_) => ".1 ctl",
        What::Message(_) => ".1 msg",
    });
    push_field(text, &iv.to_be_bytes());
    push_field(text, &sent.seq.to_be_bytes()[1..]);
    push_field(text, &[sent.ttl]);
    push_field(text, &sent.src.to_be_bytes());
    push_field(text, &sent.dst.to_be_bytes());
    match &sent.what {
        What::Control(tpdu) => push_field(text, tpdu),
        What::Message(payload) => {
            text.push_str(" dev");
            push_field(text, payload);
        }
    }
    push_field(text, &sent.pdu);
    text.push('\n');
}

fn run(text: &str) -> Result<String, Fault> {
    let (me, events) = script(text)?;
    let state = Mutex::new(State {
        ticks: 0,
        replay: HashMap::new(),
        cache: VecDeque::with_capacity(CACHED),
        history: Vec::new(),
        flash: vec![0xff; FLASH],
        used: 0,
        mark: 0,
    });
    let (next, mark) = (AtomicU32::new(0), AtomicU32::new(0));
    let bearers = std::thread::scope(|scope| {
        let threads: Vec<_> = events.iter().enumerate().map(|(place, events)| {
            let (me, next, mark, state) = (&me, &next, &mark, &state);
            scope.spawn(move || {
                let mut bearer = Bearer { place: place as u8, number: 0, sent: Vec::new() };
                for event in events {
                    bearer.work(me, next, mark, state, event)?;
                }
                Ok(bearer)
            })
        }).collect();
        threads.into_iter().map(|thread| thread.join().map_err(|_| "a bearer ended")?).collect::<Result<Vec<Bearer>, Fault>>()
    })?;
    let state = state.into_inner().map_err(|_| "a bearer ended")?;
    let mut report = format!("life 1 {:08x} n {:08x} 000000\n", me.iv, me.iv);
    for (at, entry) in state.history.iter().enumerate() {
        push_entry(&mut report, at + 1, entry);
    }
    for bearer in &bearers {
        for sent in &bearer.sent {
            push_sent(&mut report, bearer.place, me.iv, sent);
        }
    }
    report.push_str("end\n");
    Ok(report)
}

fn main() {
    let mut text = String::new();
    let report = std::io::stdin().read_to_string(&mut text).map_err(|_| "standard input").and_then(|_| run(&text));
    match report.and_then(|report| std::io::stdout().write_all(report.as_bytes()).map_err(|_| "standard output")) {
        Ok(()) => {}
        Err(fault) => {
            eprintln!("node: {fault}");
            std::process::exit(1);
        }
    }
}
