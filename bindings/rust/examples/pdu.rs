//! Seals a network PDU of the standard's sample (Mesh Profile 1.0.1, section 8.3.1), opens it again, and audits a line of a report.

use meshnode::{audit, k2, net_open, net_seal, Head};

fn main() -> Result<(), meshnode::Refused> {
    let key = [0x7d, 0xd7, 0x36, 0x4c, 0xd8, 0x42, 0xad, 0x18, 0xc1, 0x7c, 0x2b, 0x82, 0x0c, 0x84, 0xc3, 0xd6];
    let by = k2(&key, &[0])?;
    let head = Head { iv: 0x1234_5678, seq: 1, src: 0x1201, dst: 0xfffd, ctl: true, ttl: 0 };
    let tpdu = [0x03, 0x4b, 0x50, 0x05, 0x7e, 0x40, 0x00, 0x00, 0x01, 0x00, 0x00];
    let pdu = net_seal(&by, &head, &tpdu)?;
    println!("{}", pdu.iter().map(|octet| format!("{octet:02x}")).collect::<String>());
    let (heard, inside) = net_open(&by, 0x1234_5678, &pdu)?;
    println!("{}", heard == head && inside == tpdu);
    print!("{}", audit(b"life 1 12345678 n 12345678 000000\n")?);
    println!("{}", audit(b"no line\n").unwrap_err());
    Ok(())
}
