//! Sockets of a run: where what is sent goes, and whence what is received comes. Sides and addresses are asked of the kernel.

use std::collections::{BTreeSet, HashMap, HashSet};
use std::os::fd::OwnedFd;

use crate::event::Way;
use crate::look::{Found, Key};
use crate::resolve::path_of;
use crate::sys::{self, Tid};

/// The objects of a socket for one way, or why they are not known.
pub enum Ends {
    Objects(Vec<Found>),
    /// It has no other side yet.
    Open,
    NotFollowed(String),
}

#[derive(Default)]
pub struct Sockets {
    /// The other side of local connections, by inodes.
    peers: HashMap<u64, u64>,
    /// Local sockets that have called and that nobody was seen to answer.
    calling: BTreeSet<u64>,
    /// Local sockets that were accepted and whose other side is not known.
    answering: BTreeSet<u64>,
    /// Who has a local address: the file's identity, or an abstract name, which several name spaces may have.
    bound: HashMap<Key, BTreeSet<u64>>,
    /// The port that a socket calls, by inode.
    called: HashMap<u64, u16>,
    /// The ports to which something was sent before a connection was there.
    early: BTreeSet<u16>,
    /// Local addresses to which something was sent.
    named: HashSet<Key>,
    /// Whether a local socket was given an address.
    pub has_names: bool,
    /// The ports that a socket for datagrams has had.
    ports: HashMap<u64, BTreeSet<u16>>,
    /// The two addresses of connections, by inode.
    sides: HashMap<u64, (Vec<u8>, Vec<u8>)>,
}

/// An open copy of a task's socket.
struct Copy {
    descriptor: OwnedFd,
    inode: u64,
    family: i32,
    kind: i32,
}

/// An open copy of a descriptor of a task, if it is a socket.
fn copy(task: Tid, number: i32) -> Option<Copy> {
    let descriptor = sys::copy_descriptor(task, number).ok()?;
    let inode = sys::status_of(&descriptor).ok()?.inode;
    let family = sys::socket_option(&descriptor, libc::SO_DOMAIN).ok()?;
    let kind = sys::socket_option(&descriptor, libc::SO_TYPE).ok()?;
    Some(Copy { descriptor, inode, family, kind })
}

impl Copy {
    /// The address of the socket, or of its other side.
    fn address(&self, other_side: bool) -> Option<Vec<u8>> {
        sys::socket_address(&self.descriptor, other_side).ok()
    }

    /// Whether it sends datagrams.
    fn is_datagram(&self) -> bool {
        self.kind == libc::SOCK_DGRAM
    }
}

/// The family that an address begins with.
fn family(address: &[u8]) -> i32 {
    address.get(..2).map_or(libc::AF_UNSPEC, |bytes| i32::from(u16::from_ne_bytes([bytes[0], bytes[1]])))
}

/// Host and port as 18 bytes, for both versions of the protocol.
fn host_and_port(address: &[u8]) -> Option<Vec<u8>> {
    match family(address) {
        libc::AF_INET => Some([&[0; 10][..], &[255, 255], address.get(4..8)?, address.get(2..4)?].concat()),
        libc::AF_INET6 => Some([address.get(8..24)?, address.get(2..4)?].concat()),
        _ => None,
    }
}

/// The port of an address of the internet.
fn port(address: &[u8]) -> Option<u16> {
    host_and_port(address)?;
    address.get(2..4).map(|bytes| u16::from_be_bytes([bytes[0], bytes[1]])).filter(|port| *port != 0)
}

/// What makes a local address the same one: the socket's file, or its abstract name.
fn local_address(task: Tid, address: &[u8]) -> Option<Key> {
    let name = address.get(2..).filter(|name| !name.is_empty())?;
    if name[0] == 0 {
        return Some(Key::Address(name.to_vec()));
    }
    let end = name.iter().position(|byte| *byte == 0).unwrap_or(name.len());
    let path = std::ffi::CString::new(path_of(task, libc::AT_FDCWD, &name[..end], true)).ok()?;
    let status = sys::status(&path, true).ok()?;
    Some(Key::Inode { device: status.device, inode: status.inode, birth: status.birth })
}

/// What was sent to a port before a connection was there.
fn early(port: u16) -> Found {
    Found::passing(Key::Stream { from: Vec::new(), to: port.to_be_bytes().to_vec() })
}

/// A socket of another kind, in words.
fn not_followed(copy: &Copy) -> Ends {
    Ends::NotFollowed(format!(
        "a socket of family {} and type {}, of which the other sides are not known",
        copy.family, copy.kind
    ))
}

impl Sockets {
    /// The objects of a task's socket: of what it sends, to the address that the call names if there is one, or of what it receives.
    pub fn ends(&mut self, task: Tid, number: i32, way: Way, address: Option<&[u8]>) -> Ends {
        let Some(copy) = copy(task, number) else {
            return Ends::NotFollowed(format!("a socket of process {task}, which cannot be looked into"));
        };
        match (copy.family, copy.is_datagram()) {
            (libc::AF_UNIX, true) => self.local_datagrams(task, &copy, way, address),
            (libc::AF_UNIX, false) => Ends::Objects(self.local_stream(&copy, way)),
            (libc::AF_INET | libc::AF_INET6, true) => self.datagrams(&copy, way, address),
            (libc::AF_INET | libc::AF_INET6, false) if copy.kind == libc::SOCK_STREAM => self.stream(&copy, way),
            (libc::AF_NETLINK, _) => netlink(&copy, way, address),
            _ => not_followed(&copy),
        }
    }

    /// The objects of a local connection for one way.
    fn local_stream(&mut self, copy: &Copy, way: Way) -> Vec<Found> {
        let sent = |inode: u64| Found::passing(Key::Sent(inode));
        match way {
            Way::Out => vec![sent(copy.inode)],
            Way::In => match self.peer(copy.inode) {
                Some(peer) => vec![sent(peer)],
                // The other side was gone before it was seen, or the kernel does not tell it in this name space: it is one of those.
                None => self.calling.union(&self.answering).map(|inode| sent(*inode)).collect(),
            },
        }
    }

    /// The other side of a local socket, by inodes.
    fn peer(&mut self, inode: u64) -> Option<u64> {
        if let Some(peer) = self.peers.get(&inode) {
            return Some(*peer);
        }
        let peer = sys::local_peer(inode).ok().flatten()?;
        self.pair(inode, peer);
        Some(peer)
    }

    /// Two local sockets are sides of one connection.
    fn pair(&mut self, one: u64, other: u64) {
        self.peers.insert(one, other);
        self.peers.insert(other, one);
        for inode in [one, other] {
            self.calling.remove(&inode);
            self.answering.remove(&inode);
        }
    }

    /// The objects of a local socket for datagrams.
    fn local_datagrams(&mut self, task: Tid, copy: &Copy, way: Way, address: Option<&[u8]>) -> Ends {
        let inbox = |inode: u64| Ends::Objects(vec![Found::passing(Key::Inbox(inode))]);
        match (way, address) {
            (Way::In, _) => {
                // The kernel may have given it an address by itself.
                let own = copy.address(false).and_then(|own| local_address(task, &own));
                let own = own.filter(|key| self.named.contains(key)).map(Found::passing);
                Ends::Objects(own.into_iter().chain([Found::passing(Key::Inbox(copy.inode))]).collect())
            }
            (Way::Out, Some(address)) => match local_address(task, address) {
                Some(key) => {
                    let inboxes =
                        self.bound.get(&key).into_iter().flatten().map(|inode| Found::passing(Key::Inbox(*inode)));
                    let found = inboxes.chain([Found::passing(key.clone())]).collect();
                    self.named.insert(key);
                    Ends::Objects(found)
                }
                None => Ends::Objects(Vec::new()),
            },
            (Way::Out, None) => match sys::local_peer(copy.inode).ok().flatten() {
                Some(peer) => inbox(peer),
                None => Ends::Open,
            },
        }
    }

    /// The objects of a socket for datagrams of the internet.
    fn datagrams(&mut self, copy: &Copy, way: Way, address: Option<&[u8]>) -> Ends {
        let objects = |ports: &mut dyn Iterator<Item = u16>| {
            Ends::Objects(ports.map(|port| Found::passing(Key::Port(port))).collect())
        };
        match way {
            Way::In => {
                self.note_port(copy);
                objects(&mut self.ports.get(&copy.inode).into_iter().flatten().copied())
            }
            Way::Out => {
                let to = address.map(<[u8]>::to_vec).or_else(|| copy.address(true));
                match to.as_deref().and_then(port) {
                    Some(port) => objects(&mut std::iter::once(port)),
                    None => Ends::Open,
                }
            }
        }
    }

    /// Keeps the port that a socket has now.
    fn note_port(&mut self, copy: &Copy) {
        if let Some(port) = copy.address(false).as_deref().and_then(port) {
            self.ports.entry(copy.inode).or_default().insert(port);
        }
    }

    /// The objects of a connection of the internet.
    fn stream(&mut self, copy: &Copy, way: Way) -> Ends {
        let side = |other| copy.address(other).as_deref().and_then(host_and_port);
        if let (Some(own), Some(other)) = (side(false), side(true)) {
            self.sides.insert(copy.inode, (own, other));
        }
        let stream = |from: &Vec<u8>, to: &Vec<u8>| Found::passing(Key::Stream { from: from.clone(), to: to.clone() });
        match (self.sides.get(&copy.inode), way) {
            (Some((own, other)), Way::Out) => Ends::Objects(vec![stream(own, other)]),
            (Some((own, other)), Way::In) => {
                let port = own.get(16..18).map(|bytes| u16::from_be_bytes([bytes[0], bytes[1]]));
                let early = port.filter(|port| self.early.contains(port)).map(early);
                Ends::Objects([stream(other, own)].into_iter().chain(early).collect())
            }
            (None, Way::Out) => Ends::Open,
            // It was reset before anybody looked: what is left in it may be of any connection.
            (None, Way::In) => {
                let all = self.sides.values();
                Ends::Objects(all.flat_map(|(one, other)| [stream(one, other), stream(other, one)]).collect())
            }
        }
    }

    /// Whether a socket has no bounds between messages.
    pub fn is_stream(&self, task: Tid, number: i32) -> bool {
        copy(task, number).is_some_and(|copy| copy.kind == libc::SOCK_STREAM)
    }

    /// What a socket that calls another gives to it by that.
    pub fn call(&mut self, task: Tid, number: i32) -> Option<Found> {
        let copy = copy(task, number).filter(|copy| !copy.is_datagram())?;
        match copy.family {
            libc::AF_UNIX => Some(Found::passing(Key::Sent(copy.inode))),
            _ => self.early(task, number, None),
        }
    }

    /// What is sent on a connection that is not there yet, by the port that is called: it may arrive before the call ends.
    pub fn early(&mut self, task: Tid, number: i32, address: Option<&[u8]>) -> Option<Found> {
        let copy = copy(task, number).filter(|copy| copy.kind == libc::SOCK_STREAM)?;
        let port = address.and_then(port).or_else(|| self.called.get(&copy.inode).copied())?;
        self.early.insert(port);
        Some(early(port))
    }

    /// A socket has got an address, or another side, or both.
    pub fn addressed(&mut self, task: Tid, number: i32, address: Option<&[u8]>, binds: bool) {
        let Some(copy) = copy(task, number) else { return };
        match (copy.family, copy.is_datagram()) {
            (libc::AF_UNIX, _) if binds => {
                self.has_names = true;
                let bound =
                    address.filter(|address| address.len() > 2).map(<[u8]>::to_vec).or_else(|| copy.address(false));
                if let Some(key) = bound.and_then(|address| local_address(task, &address)) {
                    self.bound.entry(key).or_default().insert(copy.inode);
                }
            }
            (libc::AF_UNIX, false) if !self.peers.contains_key(&copy.inode) => {
                self.calling.insert(copy.inode);
            }
            (libc::AF_INET | libc::AF_INET6, true) => self.note_port(&copy),
            (libc::AF_INET | libc::AF_INET6, false) if !binds => {
                if let Some(port) = address.and_then(port) {
                    self.called.insert(copy.inode, port);
                }
            }
            _ => {}
        }
    }

    /// A connection was accepted, under this number.
    pub fn accepted(&mut self, task: Tid, number: i32) {
        if let Some(copy) = copy(task, number).filter(|copy| copy.family == libc::AF_UNIX) {
            if self.peer(copy.inode).is_none() {
                self.answering.insert(copy.inode);
            }
        }
    }

    /// The inode of the other side of a local socket.
    pub fn other_side(&mut self, task: Tid, number: i32) -> Option<u64> {
        let copy = copy(task, number).filter(|copy| copy.family == libc::AF_UNIX)?;
        self.peer(copy.inode)
    }

    /// Two sockets were made as a pair.
    pub fn paired(&mut self, task: Tid, one: i32, other: i32) {
        if let (Some(one), Some(other)) = (copy(task, one), copy(task, other)) {
            self.pair(one.inode, other.inode);
        }
    }
}

/// Messages to the kernel are about the machine; those to other processes are not followed.
fn netlink(copy: &Copy, way: Way, address: Option<&[u8]>) -> Ends {
    let to = address.map(<[u8]>::to_vec).or_else(|| copy.address(true)).unwrap_or_default();
    let to_others = to.get(4..12).is_some_and(|process_and_groups| process_and_groups.iter().any(|byte| *byte != 0));
    match way {
        Way::Out if to_others => not_followed(copy),
        _ => Ends::Objects(Vec::new()),
    }
}
