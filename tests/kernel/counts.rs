//! What the kernel counts as errors in what it receives, in the namespace of the calling thread
//! (/proc/net/snmp). A segment that it drops for its checksum shows here and nowhere else: a timer sends
//! it again, and the opening completes.

use std::fmt;
use std::fs;
use std::ops::AddAssign;

#[derive(Clone, Copy, Debug, Default, PartialEq, Eq)]
pub struct Counts {
    /// Ip InHdrErrors: checksum, version, lengths or options of an IP header.
    pub ip_headers: u64,
    /// Ip InAddrErrors: an address that is not the kernel's.
    pub ip_addresses: u64,
    /// Tcp InErrs: checksums, header lengths below 5, and every SYN that meets an established connection.
    pub segments: u64,
    /// Tcp InCsumErrors.
    pub checksums: u64,
}

/// One datagram with a wrong IP header, or one to an address that is not the kernel's.
pub const IP_HEADER: Counts = Counts { ip_headers: 1, ..NONE };
pub const IP_ADDRESS: Counts = Counts { ip_addresses: 1, ..NONE };
/// One segment with a wrong header length, or one with a wrong checksum.
pub const SEGMENT: Counts = Counts { segments: 1, ..NONE };
pub const CHECKSUM: Counts = Counts { segments: 1, checksums: 1, ..NONE };
pub const NONE: Counts = Counts { ip_headers: 0, ip_addresses: 0, segments: 0, checksums: 0 };

impl Counts {
    pub fn now() -> Result<Counts, String> {
        let path = "/proc/thread-self/net/snmp";
        let table = fs::read_to_string(path).map_err(|e| format!("{path}: {e}"))?;
        let count = |group, name| counted(&table, group, name).ok_or(format!("{path} has no {group} {name}"));
        Ok(Counts {
            ip_headers: count("Ip:", "InHdrErrors")?,
            ip_addresses: count("Ip:", "InAddrErrors")?,
            segments: count("Tcp:", "InErrs")?,
            checksums: count("Tcp:", "InCsumErrors")?,
        })
    }
}

/// A count of the table, in which a line with the names of a group stands above one with its numbers.
fn counted(table: &str, group: &str, name: &str) -> Option<u64> {
    let mut lines = table.lines().filter(|line| line.starts_with(group));
    let place = lines.next()?.split(' ').position(|word| word == name)?;
    lines.next()?.split(' ').nth(place)?.parse().ok()
}

impl AddAssign for Counts {
    fn add_assign(&mut self, other: Counts) {
        self.ip_headers += other.ip_headers;
        self.ip_addresses += other.ip_addresses;
        self.segments += other.segments;
        self.checksums += other.checksums;
    }
}

impl fmt::Display for Counts {
    fn fmt(&self, f: &mut fmt::Formatter) -> fmt::Result {
        let (headers, addresses) = (self.ip_headers, self.ip_addresses);
        let (segments, checksums) = (self.segments, self.checksums);
        write!(f, "InHdrErrors {headers}, InAddrErrors {addresses}, InErrs {segments}, InCsumErrors {checksums}")
    }
}
