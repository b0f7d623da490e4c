// A plain peer, with std alone, that does for a put what a peer of the ensemble does: it takes the entry into the
// tree of `trees.rs`, appends the six nodes on the path of the key, the top record and the object to files, and
// with `seals` saves a fact before the object, in three steps with a sync each. Peer 1 leads, and answers once
// another peer has written. There are no elections, no gets and no calls at other peers.
//
//     rustc --edition 2021 -O -o /tmp/peer bench/plain/peer.rs
//     /tmp/peer PEER PORT [seals]      one of three peers, with its files in the working folder
//
// It takes puts from the callers of `load.rs`. bench/peers.py runs it.
use std::collections::HashMap;
use std::env;
use std::fs::File;
use std::net::UdpSocket;
use std::os::unix::fs::FileExt;

#[allow(dead_code)]
#[path = "trees.rs"]
mod trees;
use trees::{Entry, Md5, Name, Nodes, Version};

const LEADER: u32 = 1;
const FOLLOWERS: [u32; 2] = [2, 3];
const HEADER: usize = 14;
const PUT: u8 = 9;
const ACKNOWLEDGEMENT: u8 = 10;
const REQUEST: u8 = 18;
const REPLY: u8 = 19;

fn created(name: &str) -> File {
    File::options().read(true).write(true).create(true).truncate(true).open(name).expect("the folder can be written")
}

/// A file to whose end records are written, each with its lengths and a mark on both sides.
struct Log {
    file: File,
    end: u64,
}

impl Log {
    fn put(&mut self, name: &[u8], content: &[u8]) {
        let mut record = Vec::with_capacity(name.len() + content.len() + 11);
        record.extend_from_slice(&[1, name.len() as u8]);
        record.extend_from_slice(&(content.len() as u64).to_be_bytes());
        record.extend_from_slice(name);
        record.extend_from_slice(content);
        record.push(1);
        self.file.write_all_at(&record, self.end).expect("a record is written");
        self.end += record.len() as u64;
    }
}

/// A file of two slots, each of which begins with a gate.
struct FactFile {
    file: File,
    serial: u64,
}

impl FactFile {
    fn save(&mut self, fact: &[u8]) {
        let slot = self.serial % 2 * 512;
        self.serial += 1;
        let mut record = self.serial.to_be_bytes().to_vec();
        record.extend_from_slice(&(fact.len() as u16).to_be_bytes());
        record.extend_from_slice(fact);
        for (bytes, at) in [(&[0][..], slot), (&record, slot + 1), (&[1], slot)] {
            self.file.write_all_at(bytes, at).expect("a slot is written");
            self.file.sync_data().expect("the disk syncs");
        }
    }
}

/// What a peer holds: its tree in memory, and its files.
struct Storage {
    md5: Md5,
    tree: Nodes,
    top: Name,
    nodes: Log,
    objects: Log,
    facts: Option<FactFile>,
}

impl Storage {
    fn new(has_seals: bool) -> Storage {
        let (md5, mut tree) = (Md5 { k: trees::table() }, Nodes::new());
        let top = trees::store(&md5, &mut tree, trees::encode_inner(trees::TWO, 0, 0, &[]));
        let [nodes, objects] = ["nodes", "objects"].map(|name| Log { file: created(name), end: 0 });
        let facts = has_seals.then(|| FactFile { file: created("fact"), serial: 0 });
        Storage { md5, tree, top, nodes, objects, facts }
    }

    fn write(&mut self, seq: u64, key: &[u8], value: &[u8]) {
        let version = Version { count: 1, proposer: LEADER, seq };
        let object = [&[1, key.len() as u8], key, &seq.to_be_bytes(), value].concat();
        let entry = Entry { key: key.to_vec(), version, digest: self.md5.digest(&object) };
        let hash = self.md5.digest(key);
        let top = Some(self.top);
        self.top = trees::put_under(&self.md5, &mut self.tree, trees::TWO, 0, 0, top, &hash, entry).expect("the tree is whole");
        self.write_path(&hash);
        self.nodes.put(&[], &self.top);
        if let Some(facts) = &mut self.facts {
            facts.save(&[&[2; 52][..], &self.top].concat());
        }
        self.objects.put(key, &object);
    }

    /// Writes the nodes on the path of a key.
    fn write_path(&mut self, hash: &Name) {
        let (mut name, mut index) = (self.top, 0);
        for level in 0..=trees::TWO.levels {
            let node = &self.tree[&name];
            self.nodes.put(&name, node);
            if level < trees::TWO.levels {
                let children = trees::decode_inner(trees::TWO, node, level, index).expect("an inner node");
                let digit = trees::digit(hash, u32::from(level));
                name = children[usize::from(digit)].expect("the path is there");
                index = index * 16 + u32::from(digit);
            }
        }
    }
}

/// A peer, and as the leader the caller and the number of each put that nobody else has acknowledged.
struct Peer {
    socket: UdpSocket,
    port: u32,
    me: u32,
    storage: Storage,
    seq: u64,
    waiting: HashMap<u64, (u32, [u8; 8])>,
}

impl Peer {
    fn send(&self, kind: u8, to: u32, body: &[u8]) {
        let mut frame = vec![b'R', b'E', 2, kind];
        frame.extend_from_slice(&self.me.to_be_bytes());
        frame.extend_from_slice(&to.to_be_bytes());
        frame.extend_from_slice(&(body.len() as u16).to_be_bytes());
        frame.extend_from_slice(body);
        self.socket.send_to(&frame, ("127.0.0.1", (self.port + to) as u16)).expect("a frame is sent");
    }

    /// Writes a put of a caller, and asks the others to do so.
    fn lead(&mut self, caller: u32, body: &[u8]) {
        let (id, put) = (body[..8].try_into().expect("8 bytes"), &body[9..]);
        self.seq += 1;
        self.write(self.seq, put);
        self.waiting.insert(self.seq, (caller, id));
        let body = [&self.seq.to_be_bytes(), put].concat();
        for follower in FOLLOWERS {
            self.send(PUT, follower, &body);
        }
    }

    /// Writes a put: the length of the key, the key, the length of the value in two bytes, and the value.
    fn write(&mut self, seq: u64, put: &[u8]) {
        let (key, rest) = put[1..].split_at(usize::from(put[0]));
        self.storage.write(seq, key, &rest[2..]);
    }

    fn take(&mut self, frame: &[u8]) {
        let from = u32::from_be_bytes(frame[4..8].try_into().expect("4 bytes"));
        let body = &frame[HEADER..];
        let seq = || u64::from_be_bytes(body[..8].try_into().expect("8 bytes"));
        match frame[3] {
            REQUEST => self.lead(from, body),
            PUT => {
                self.write(seq(), &body[8..]);
                self.send(ACKNOWLEDGEMENT, from, &body[..8]);
            }
            _ => {
                if let Some((caller, id)) = self.waiting.remove(&seq()) {
                    self.send(REPLY, caller, &[&id[..], &[1], &[0; 20]].concat());
                }
            }
        }
    }
}

fn main() {
    let words: Vec<String> = env::args().skip(1).collect();
    let [me, port] = [0, 1].map(|place| words[place].parse().expect("a number"));
    let storage = Storage::new(words.get(2).is_some_and(|word| word == "seals"));
    let socket = UdpSocket::bind(("127.0.0.1", (port + me) as u16)).expect("the port is free");
    let mut peer = Peer { socket, port, me, storage, seq: 0, waiting: HashMap::new() };
    let mut frame = vec![0; 65536];
    loop {
        let count = peer.socket.recv(&mut frame).expect("a frame comes");
        peer.take(&frame[..count]);
    }
}
