//! Capture files: the classic format, version 2.4, little endian, link type 101 (raw IP).

const MAGIC: [u8; 4] = [0xd4, 0xc3, 0xb2, 0xa1];
const RAW_IP: u32 = 101;
const LONGEST: u32 = 65_535;
const FILE_HEAD: usize = 24;
const PACKET_HEAD: usize = 16;

pub struct Packet {
    pub milliseconds: u32,
    pub octets: Vec<u8>,
}

pub fn write(packets: &[Packet]) -> Vec<u8> {
    let mut file = MAGIC.to_vec();
    file.extend(2u16.to_le_bytes());
    file.extend(4u16.to_le_bytes());
    for field in [0, 0, LONGEST, RAW_IP] {
        file.extend(u32::to_le_bytes(field));
    }
    for packet in packets {
        let size = packet.octets.len() as u32;
        let (seconds, rest) = (packet.milliseconds / 1000, packet.milliseconds % 1000);
        for field in [seconds, 1000 * rest, size, size] {
            file.extend(field.to_le_bytes());
        }
        file.extend(&packet.octets);
    }
    file
}

pub fn read(file: &[u8]) -> Result<Vec<Packet>, String> {
    if file.len() < FILE_HEAD || file[..4] != MAGIC || file[4..8] != [2, 0, 4, 0] || field(file, 20) != RAW_IP {
        return Err("not a little endian capture 2.4 of raw IP".into());
    }
    let mut packets = Vec::new();
    let mut rest = &file[FILE_HEAD..];
    while !rest.is_empty() {
        let (packet, behind) = first(rest).ok_or("a packet is cut")?;
        packets.push(packet);
        rest = behind;
    }
    Ok(packets)
}

/// The first packet, and what stands behind it.
fn first(octets: &[u8]) -> Option<(Packet, &[u8])> {
    let head = octets.get(..PACKET_HEAD)?;
    let end = PACKET_HEAD.checked_add(field(head, 8) as usize)?;
    let milliseconds = field(head, 0).checked_mul(1000)?.checked_add(field(head, 4) / 1000)?;
    Some((Packet { milliseconds, octets: octets.get(PACKET_HEAD..end)?.to_vec() }, &octets[end..]))
}

fn field(octets: &[u8], at: usize) -> u32 {
    u32::from_le_bytes([octets[at], octets[at + 1], octets[at + 2], octets[at + 3]])
}
