//! The side of a process that dsrs started.

use crate::client::{end_of, Client};
use crate::error::ClientError;
use crate::sockets;
use crate::values::Endpoint;
use std::env;
use std::io;
use std::ops::{Deref, DerefMut};
use std::os::unix::io::FromRawFd;
use std::os::unix::net::{UnixListener, UnixStream};
use std::path::{Path, PathBuf};
use std::time::Duration;

/// An instance, which is a process of a service: a [`Client`] over its connection to the dsrs that started it.
///
/// Every call that waits answers pings. It publishes under its own endpoint. [`ClientError::Lost`] means that dsrs has ended.
///
/// ```no_run
/// let mut me = pengtawis::Instance::open(None)?;
/// me.notify("READY=1")?;
/// loop {
///     me.publish("clock.time", 1500)?;
///     me.wait(std::time::Duration::from_secs(1))?;
/// }
/// # #[allow(unreachable_code)] Ok::<(), pengtawis::ClientError>(())
/// ```
#[derive(Debug)]
pub struct Instance {
    client: Client,
    endpoint: Endpoint,
}

fn number(name: &str) -> Option<i32> {
    env::var(name).ok()?.parse().ok()
}

fn none() -> ClientError {
    ClientError::Lost(io::ErrorKind::NotConnected.into())
}

impl Instance {
    /// Takes the connection, descriptor DS_FD, which one `Instance` of a process may have. Without a timeout a call waits without end.
    pub fn open(timeout: Option<Duration>) -> Result<Instance, ClientError> {
        let endpoint: Endpoint = env::var("DS_ENDPOINT").ok().and_then(|it| it.parse().ok()).ok_or_else(none)?;
        let (file, folder) = (number("DS_FD").ok_or_else(none)?, env::var("DS_FOLDER").map_err(|_| none())?);
        let path = PathBuf::from(folder.strip_suffix(".d").unwrap_or(&folder));
        // SAFETY: dsrs opened this descriptor for the instance.
        let socket = unsafe { UnixStream::from_raw_fd(file) };
        let first_sub = number("DS_SUB").map_or(0, |it| it as u32);
        Ok(Instance { client: Client::of_instance(socket, path, endpoint, first_sub, timeout), endpoint })
    }

    pub fn endpoint(&self) -> Endpoint {
        self.endpoint
    }

    /// Returns the socket at which the instance accepts clients, descriptor DS_LISTEN, which one caller may have. Each read of a
    /// connection returns a message.
    pub fn listener(&self) -> Result<UnixListener, ClientError> {
        let file = number("DS_LISTEN").ok_or_else(none)?;
        // SAFETY: dsrs opened this descriptor for the instance.
        Ok(unsafe { UnixListener::from_raw_fd(file) })
    }

    /// Answers pings for this long.
    pub fn wait(&mut self, time: Duration) -> Result<(), ClientError> {
        let end = end_of(Some(time));
        loop {
            self.client.sort()?;
            match self.client.wait(end) {
                Err(ClientError::Timeout) => return Ok(()),
                other => other?,
            }
        }
    }

    /// Sends a heartbeat, for a process that is busy between two waits.
    pub fn beat(&mut self) -> Result<(), ClientError> {
        self.client.beat()
    }

    /// Sends a message to NOTIFY_SOCKET: `READY=1`, `WATCHDOG=1` or `STATUS=..`. Without that variable nothing is sent.
    pub fn notify(&self, message: &str) -> Result<(), ClientError> {
        let path = env::var_os("NOTIFY_SOCKET").unwrap_or_default();
        if path.is_empty() {
            return Ok(());
        }
        let sent = sockets::datagrams(Path::new(&path)).and_then(|it| it.send(message.as_bytes()));
        sent.map(drop).map_err(ClientError::Lost)
    }
}

impl Deref for Instance {
    type Target = Client;

    fn deref(&self) -> &Client {
        &self.client
    }
}

impl DerefMut for Instance {
    fn deref_mut(&mut self) -> &mut Client {
        &mut self.client
    }
}
