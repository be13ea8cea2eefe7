//! What the rig asks of the kernel beyond the standard library: a network namespace, a TUN device, a
//! connect from a chosen port, octets through a device, and a look into a socket. The C functions are declared here, so that
//! nothing has to be installed.

use std::ffi::{c_int, c_short, c_ulong, c_void};
use std::fs::File;
use std::io::Error;
use std::net::TcpStream;
use std::os::fd::{AsRawFd, FromRawFd};

extern "C" {
    fn unshare(flags: c_int) -> c_int;
    fn ioctl(fd: c_int, request: c_ulong, ...) -> c_int;
    fn socket(domain: c_int, kind: c_int, protocol: c_int) -> c_int;
    fn bind(fd: c_int, address: *const SocketAddress, size: u32) -> c_int;
    fn connect(fd: c_int, address: *const SocketAddress, size: u32) -> c_int;
    fn sendto(
        fd: c_int,
        octets: *const u8,
        count: usize,
        flags: c_int,
        address: *const DeviceAddress,
        size: u32,
    ) -> isize;
    fn setsockopt(fd: c_int, level: c_int, name: c_int, value: *const c_void, size: u32) -> c_int;
    fn getsockopt(fd: c_int, level: c_int, name: c_int, value: *mut c_void, size: *mut u32) -> c_int;
    fn poll(fds: *mut PollFd, count: c_ulong, milliseconds: c_int) -> c_int;
}

// The numbers are those of Linux on x86-64 and aarch64 (asm-generic).
const CLONE_NEWNET: c_int = 0x4000_0000;
const AF_INET: u16 = 2;
const AF_PACKET: u16 = 17;
const ETH_P_IP: u16 = 0x0800;
const SOCK_STREAM: c_int = 1;
const SOCK_DGRAM: c_int = 2;
const SOCK_NONBLOCK: c_int = 0o4000;
const SOCK_CLOEXEC: c_int = 0o2000000;
const SOL_SOCKET: c_int = 1;
const SO_REUSEADDR: c_int = 2;
const SO_LINGER: c_int = 13;
const IPPROTO_IP: c_int = 0;
const IP_OPTIONS: c_int = 4;
const IPPROTO_TCP: c_int = 6;
const TCP_INFO: c_int = 11;
const TCP_REPAIR: c_int = 19;
const TCP_REPAIR_QUEUE: c_int = 20;
const TCP_QUEUE_SEQ: c_int = 21;
const TCP_RECV_QUEUE: c_int = 1;
const TCP_SEND_QUEUE: c_int = 2;
const EINPROGRESS: i32 = 115;
const POLLIN: c_short = 1;
const TUNSETIFF: c_ulong = 0x4004_54ca;
const SIOCGIFFLAGS: c_ulong = 0x8913;
const SIOCSIFFLAGS: c_ulong = 0x8914;
const SIOCSIFADDR: c_ulong = 0x8916;
const SIOCSIFDSTADDR: c_ulong = 0x8918;
const SIOCSIFMTU: c_ulong = 0x8922;
const SIOCGIFINDEX: c_ulong = 0x8933;
const IFF_UP: u16 = 1;
const IFF_TUN: u16 = 1;
const IFF_NO_PI: u16 = 0x1000;

/// struct sockaddr_in; port and address in network order.
#[repr(C)]
#[derive(Clone, Copy)]
struct SocketAddress {
    family: u16,
    port: [u8; 2],
    address: [u8; 4],
    zero: [u8; 8],
}

const ADDRESS_SIZE: u32 = 16;

/// struct sockaddr_ll, as far as sending needs it.
#[repr(C)]
struct DeviceAddress {
    family: u16,
    protocol: [u8; 2],
    index: c_int,
    zero: [u8; 12],
}

const DEVICE_ADDRESS_SIZE: u32 = 20;

#[repr(C)]
struct PollFd {
    fd: c_int,
    events: c_short,
    revents: c_short,
}

/// struct ifreq: a name and 24 octets that each request reads in its own way.
#[repr(C)]
struct InterfaceRequest {
    name: [u8; 16],
    value: [u8; 24],
}

/// Why there is no rig: the machine refuses it, or the rig itself is at fault.
pub enum NoRig {
    Refused(String),
    Broken(String),
}

impl NoRig {
    pub fn reason(self) -> String {
        match self {
            NoRig::Refused(reason) | NoRig::Broken(reason) => reason,
        }
    }
}

fn told(status: c_int, what: &str) -> Result<c_int, String> {
    if status < 0 {
        return Err(format!("{what}: {}", Error::last_os_error()));
    }
    Ok(status)
}

/// A network namespace for the calling thread. It ends with the thread, and all its sockets and devices
/// with it: nothing has to be cleaned up, and no segment can leave it.
pub fn own_network() -> Result<(), NoRig> {
    let status = unsafe { unshare(CLONE_NEWNET) };
    told(status, "no network namespace").map(|_| ()).map_err(NoRig::Refused)
}

/// A TUN device in the calling thread's namespace: one read or write is one datagram, without a header.
pub fn tun(name: &str) -> Result<File, NoRig> {
    let tun = File::options().read(true).write(true).open("/dev/net/tun");
    let tun = tun.map_err(|e| NoRig::Refused(format!("no /dev/net/tun: {e}")))?;
    let mut request = interface(name, &(IFF_TUN | IFF_NO_PI).to_ne_bytes());
    let status = unsafe { ioctl(tun.as_raw_fd(), TUNSETIFF, &mut request) };
    told(status, "no TUN device").map_err(NoRig::Refused)?;
    Ok(tun)
}

/// The device with its own address, the address at its other end (which makes the route), and up.
pub fn bring_up(name: &str, ends: Option<([u8; 4], [u8; 4])>) -> Result<(), NoRig> {
    set_up(name, ends).map_err(NoRig::Broken)
}

fn set_up(name: &str, ends: Option<([u8; 4], [u8; 4])>) -> Result<(), String> {
    let control = new_socket(AF_INET, SOCK_DGRAM)?;
    if let Some((own, peer)) = ends {
        ask(&control, SIOCSIFADDR, &mut interface(name, &address_octets(own)), "own address")?;
        ask(&control, SIOCSIFDSTADDR, &mut interface(name, &address_octets(peer)), "peer address")?;
    }
    let mut flags = interface(name, &[]);
    ask(&control, SIOCGIFFLAGS, &mut flags, "read the device's flags")?;
    let up = u16::from_ne_bytes([flags.value[0], flags.value[1]]) | IFF_UP;
    ask(&control, SIOCSIFFLAGS, &mut interface(name, &up.to_ne_bytes()), "bring the device up")
}

fn ask(control: &File, request: c_ulong, interface: &mut InterfaceRequest, what: &str) -> Result<(), String> {
    told(unsafe { ioctl(control.as_raw_fd(), request, interface) }, what).map(|_| ())
}

fn interface(name: &str, value: &[u8]) -> InterfaceRequest {
    let mut request = InterfaceRequest { name: [0; 16], value: [0; 24] };
    request.name[..name.len()].copy_from_slice(name.as_bytes());
    request.value[..value.len()].copy_from_slice(value);
    request
}

fn address_octets(address: [u8; 4]) -> [u8; 16] {
    let mut octets = [0; 16];
    octets[..2].copy_from_slice(&AF_INET.to_ne_bytes());
    octets[4..8].copy_from_slice(&address);
    octets
}

fn new_socket(family: u16, kind: c_int) -> Result<File, String> {
    let fd = told(unsafe { socket(family as c_int, kind | SOCK_CLOEXEC, 0) }, "socket")?;
    Ok(unsafe { File::from_raw_fd(fd) })
}

/// The largest datagram that the device carries.
pub fn set_largest(name: &str, octets: c_int) -> Result<(), String> {
    let control = new_socket(AF_INET, SOCK_DGRAM)?;
    ask(&control, SIOCSIFMTU, &mut interface(name, &octets.to_ne_bytes()), "set the device's MTU")
}

/// A way into a device past the kernel's TCP and IP: what is sent comes out at its other end, whatever it is.
pub struct Device {
    socket: File,
    index: c_int,
}

impl Device {
    pub fn open(name: &str) -> Result<Device, String> {
        let control = new_socket(AF_INET, SOCK_DGRAM)?;
        let mut request = interface(name, &[]);
        ask(&control, SIOCGIFINDEX, &mut request, "read the device's index")?;
        let [a, b, c, d, ..] = request.value;
        Ok(Device { socket: new_socket(AF_PACKET, SOCK_DGRAM)?, index: c_int::from_ne_bytes([a, b, c, d]) })
    }

    pub fn send(&self, octets: &[u8]) -> Result<(), String> {
        let protocol = ETH_P_IP.to_be_bytes();
        let address = DeviceAddress { family: AF_PACKET, protocol, index: self.index, zero: [0; 12] };
        let fd = self.socket.as_raw_fd();
        let sent = unsafe { sendto(fd, octets.as_ptr(), octets.len(), 0, &address, DEVICE_ADDRESS_SIZE) };
        if sent != octets.len() as isize {
            return Err(format!("send through the device: {}", Error::last_os_error()));
        }
        Ok(())
    }
}

fn socket_address((address, port): ([u8; 4], u16)) -> SocketAddress {
    SocketAddress { family: AF_INET, port: port.to_be_bytes(), address, zero: [0; 8] }
}

/// A connect under way from a chosen port, which the standard library cannot choose, and under a chosen
/// number if one is given.
pub fn connecting(from: ([u8; 4], u16), to: ([u8; 4], u16), iss: Option<u32>) -> Result<TcpStream, String> {
    let stream = bound(from)?;
    if let Some(number) = iss {
        choose_number(&stream, number)?;
    }
    connect_to(stream, to)
}

/// A socket at a chosen port, which is not yet connected.
pub fn bound(from: ([u8; 4], u16)) -> Result<TcpStream, String> {
    let fd = told(unsafe { socket(AF_INET as c_int, SOCK_STREAM | SOCK_NONBLOCK | SOCK_CLOEXEC, 0) }, "socket")?;
    let stream = unsafe { TcpStream::from_raw_fd(fd) };
    set_option(&stream, SOL_SOCKET, SO_REUSEADDR, &[1])?;
    told(unsafe { bind(fd, &socket_address(from), ADDRESS_SIZE) }, "bind")?;
    Ok(stream)
}

pub fn connect_to(stream: TcpStream, to: ([u8; 4], u16)) -> Result<TcpStream, String> {
    let status = unsafe { connect(stream.as_raw_fd(), &socket_address(to), ADDRESS_SIZE) };
    if status < 0 && Error::last_os_error().raw_os_error() != Some(EINPROGRESS) {
        return Err(format!("connect: {}", Error::last_os_error()));
    }
    Ok(stream)
}

/// Options in the IP header of all that a socket sends.
pub fn send_with_ip_options(stream: &TcpStream, options: &[u8]) -> Result<(), String> {
    set_octets(stream, IPPROTO_IP, IP_OPTIONS, options)
}

/// SO_LINGER {1, 0}: the close then sends a reset; a plain close sends FIN, which 01 refuses with 6.
pub fn reset_on_close(stream: &TcpStream) -> Result<(), String> {
    set_option(stream, SOL_SOCKET, SO_LINGER, &[1, 0])
}

/// TCP_ESTABLISHED, the kernel's number for it.
pub const INFO_ESTABLISHED: u8 = 1;
/// TCP_CLOSE.
pub const INFO_CLOSED: u8 = 7;

/// The state of a socket by TCP_INFO, whose first octet it is.
pub fn info_state(stream: &TcpStream) -> Result<u8, String> {
    let mut info = [0u8; 8];
    get_option(stream, TCP_INFO, &mut info)?;
    Ok(info[0])
}

/// The kernel's own SND.NXT and RCV.NXT of an established socket. TCP_REPAIR shows them, as root; it is
/// ended with -1, since 0 would send a window probe.
pub fn numbers(stream: &TcpStream) -> Result<(u32, u32), String> {
    set_option(stream, IPPROTO_TCP, TCP_REPAIR, &[1])?;
    let send = queue_number(stream, TCP_SEND_QUEUE);
    let receive = queue_number(stream, TCP_RECV_QUEUE);
    set_option(stream, IPPROTO_TCP, TCP_REPAIR, &[-1])?;
    Ok((send?, receive?))
}

/// A closed socket's next number, which a connect takes for its ISS unless it is 0.
fn choose_number(stream: &TcpStream, number: u32) -> Result<(), String> {
    set_option(stream, IPPROTO_TCP, TCP_REPAIR, &[1])?;
    set_option(stream, IPPROTO_TCP, TCP_REPAIR_QUEUE, &[TCP_SEND_QUEUE])?;
    set_option(stream, IPPROTO_TCP, TCP_QUEUE_SEQ, &[number as c_int])?;
    set_option(stream, IPPROTO_TCP, TCP_REPAIR, &[-1])
}

fn queue_number(stream: &TcpStream, queue: c_int) -> Result<u32, String> {
    set_option(stream, IPPROTO_TCP, TCP_REPAIR_QUEUE, &[queue])?;
    let mut number = [0u8; 4];
    get_option(stream, TCP_QUEUE_SEQ, &mut number)?;
    Ok(u32::from_ne_bytes(number))
}

fn set_option(stream: &TcpStream, level: c_int, name: c_int, value: &[c_int]) -> Result<(), String> {
    let octets: Vec<u8> = value.iter().flat_map(|number| number.to_ne_bytes()).collect();
    set_octets(stream, level, name, &octets)
}

fn set_octets(stream: &TcpStream, level: c_int, name: c_int, octets: &[u8]) -> Result<(), String> {
    let size = octets.len() as u32;
    let status = unsafe { setsockopt(stream.as_raw_fd(), level, name, octets.as_ptr().cast(), size) };
    told(status, "setsockopt").map(|_| ())
}

fn get_option(stream: &TcpStream, name: c_int, value: &mut [u8]) -> Result<(), String> {
    let mut size = value.len() as u32;
    let status = unsafe { getsockopt(stream.as_raw_fd(), IPPROTO_TCP, name, value.as_mut_ptr().cast(), &mut size) };
    told(status, "getsockopt").map(|_| ())
}

/// Whether a file has something to read, waiting for it if need be.
pub fn readable(file: &File, milliseconds: c_int) -> bool {
    let mut fds = PollFd { fd: file.as_raw_fd(), events: POLLIN, revents: 0 };
    unsafe { poll(&mut fds, 1, milliseconds) > 0 && fds.revents & POLLIN != 0 }
}
