//! Sockets that the standard library can't make.

use std::io;
use std::os::raw::{c_int, c_ushort};
use std::os::unix::ffi::OsStrExt;
use std::os::unix::io::{FromRawFd, RawFd};
use std::os::unix::net::{UnixDatagram, UnixStream};
use std::path::Path;

const AF_UNIX: c_ushort = 1;
const SOCK_STREAM: c_int = 1;
const SOCK_DGRAM: c_int = 2;
const SOCK_SEQPACKET: c_int = 5;
const SOCK_CLOEXEC: c_int = 0o2000000;
const SOCK_NONBLOCK: c_int = 0o4000;
const LONGEST: usize = 108;

/// `struct sockaddr_un` of Linux.
#[repr(C)]
struct Address {
    family: c_ushort,
    path: [u8; LONGEST],
}

extern "C" {
    fn socket(domain: c_int, kind: c_int, protocol: c_int) -> c_int;
    fn connect(socket: c_int, address: *const Address, length: u32) -> c_int;
    fn close(file: c_int) -> c_int;
}

/// Returns a descriptor of a socket that is connected to a path. A path that begins with `@` is a name without a file.
fn connected(path: &Path, kind: c_int) -> io::Result<RawFd> {
    let mut address = Address { family: AF_UNIX, path: [0; LONGEST] };
    let bytes = path.as_os_str().as_bytes();
    if bytes.len() >= LONGEST || bytes.is_empty() {
        return Err(io::Error::from(io::ErrorKind::InvalidInput));
    }
    address.path[..bytes.len()].copy_from_slice(bytes);
    let is_abstract = bytes[0] == b'@';
    if is_abstract {
        address.path[0] = 0;
    }
    let length = (std::mem::size_of::<c_ushort>() + bytes.len() + usize::from(!is_abstract)) as u32;
    // SAFETY: the call takes numbers alone.
    let file = unsafe { socket(AF_UNIX.into(), kind | SOCK_CLOEXEC, 0) };
    if file < 0 {
        return Err(io::Error::last_os_error());
    }
    // SAFETY: the address has at least this length.
    if unsafe { connect(file, &address, length) } == 0 {
        return Ok(file);
    }
    let why = io::Error::last_os_error();
    // SAFETY: the descriptor is open, and nobody else has it.
    unsafe { close(file) };
    Err(why)
}

/// Connects to a daemon. If it has too many clients to accept, that is `WouldBlock`.
pub(crate) fn stream(path: &Path) -> io::Result<UnixStream> {
    let file = connected(path, SOCK_STREAM | SOCK_NONBLOCK)?;
    // SAFETY: the descriptor is a socket's, and nobody else has it.
    let made = unsafe { UnixStream::from_raw_fd(file) };
    made.set_nonblocking(false)?;
    Ok(made)
}

/// Connects to an instance by a socket that keeps the bounds of messages: each write is one, and each read returns one.
pub(crate) fn messages(path: &Path) -> io::Result<UnixStream> {
    let file = connected(path, SOCK_SEQPACKET | SOCK_NONBLOCK)?;
    // SAFETY: the descriptor is a socket's, and nobody else has it.
    let made = unsafe { UnixStream::from_raw_fd(file) };
    made.set_nonblocking(false)?;
    Ok(made)
}

/// Connects to a service manager.
pub(crate) fn datagrams(path: &Path) -> io::Result<UnixDatagram> {
    let file = connected(path, SOCK_DGRAM)?;
    // SAFETY: the descriptor is a socket's, and nobody else has it.
    Ok(unsafe { UnixDatagram::from_raw_fd(file) })
}
