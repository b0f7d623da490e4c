// Callers of a running ensemble of peers, or of a running etcd, with std alone. Each caller is a thread with
// a socket of its own, and makes one call at a time.
//
//     rustc --edition 2021 -O -o /tmp/load bench/plain/load.rs
//     /tmp/load peers PORT PEERS put|get CALLERS KEYS SECONDS      calls of SECONDS seconds, over UDP
//     /tmp/load etcd PORT,PORT,.. put|get CALLERS KEYS SECONDS     the same over the HTTP gateways at these ports
//     /tmp/load count PORT PEERS put|get CALLS KEYS                so many calls of one caller, over UDP
//     /tmp/load storm PORT PEERS DATAGRAMS                         datagrams that are no frames for a peer
//
// The first two print a line: calls a second, the median and the 99th of a hundred of their times in
// microseconds, and how many calls were tried again. bench/peers.py runs them.
use std::env;
use std::io::{BufRead, BufReader, Read, Write};
use std::net::{TcpStream, UdpSocket};
use std::thread;
use std::time::{Duration, Instant};

const VALUE: [u8; 64] = [97; 64];
const FIRST_CLIENT: u32 = 32;
const PATIENCE: Duration = Duration::from_secs(1);

/// Whether calls write or read.
#[derive(Clone, Copy, PartialEq)]
enum Kind {
    Put,
    Get,
}

/// One caller: makes a call on a key, and returns whether it was completed.
trait Caller: Send {
    fn call(&mut self, kind: Kind, key: u64) -> bool;
}

/// A caller of peers over UDP.
struct Client {
    socket: UdpSocket,
    port: u16,
    peers: u32,
    me: u32,
    peer: u32,
    id: u64,
    frame: Vec<u8>,
    answer: Vec<u8>,
}

impl Client {
    fn new(port: u16, peers: u32, me: u32) -> Client {
        let socket = UdpSocket::bind(("127.0.0.1", port + me as u16)).expect("the port is free");
        socket.set_read_timeout(Some(PATIENCE)).unwrap();
        let id = u64::from(me) << 48;
        let (frame, answer) = (Vec::new(), vec![0; 65536]);
        Client { socket, port, peers, me, peer: 1, id, frame, answer }
    }

    fn spell(&mut self, kind: Kind, key: u64) {
        let mut body = self.id.to_be_bytes().to_vec();
        body.push(if kind == Kind::Put { 7 } else { 1 });
        body.push(8);
        body.extend_from_slice(&key.to_be_bytes());
        if kind == Kind::Put {
            body.extend_from_slice(&(VALUE.len() as u16).to_be_bytes());
            body.extend_from_slice(&VALUE);
        }
        self.frame.clear();
        self.frame.extend_from_slice(b"RE\x02\x12");
        self.frame.extend_from_slice(&self.me.to_be_bytes());
        self.frame.extend_from_slice(&self.peer.to_be_bytes());
        self.frame.extend_from_slice(&(body.len() as u16).to_be_bytes());
        self.frame.extend_from_slice(&body);
    }

    /// The tag of the reply to the call, or none if none came in time.
    fn reply(&mut self) -> Option<u8> {
        loop {
            let count = self.socket.recv(&mut self.answer).ok()?;
            let frame = &self.answer[..count];
            if count > 22 && frame[3] == 19 && frame[14..22] == self.id.to_be_bytes() {
                return Some(frame[22]);
            }
        }
    }
}

impl Caller for Client {
    fn call(&mut self, kind: Kind, key: u64) -> bool {
        self.id += 1;
        self.spell(kind, key);
        let to = ("127.0.0.1", self.port + self.peer as u16);
        self.socket.send_to(&self.frame, to).unwrap();
        match self.reply() {
            Some(1..=4) => true,
            Some(6) => false,
            _ => {
                self.peer = self.peer % self.peers + 1;
                thread::sleep(Duration::from_millis(5));
                false
            }
        }
    }
}

/// A caller of etcd over its HTTP gateway, on one connection that stays.
struct Gateway {
    stream: BufReader<TcpStream>,
}

impl Gateway {
    fn new(port: u16) -> Gateway {
        let stream = TcpStream::connect(("127.0.0.1", port)).expect("etcd listens");
        stream.set_nodelay(true).unwrap();
        Gateway { stream: BufReader::new(stream) }
    }
}

fn base64(bytes: &[u8]) -> String {
    const DIGITS: &[u8; 64] = b"ABCDEFGHIJKLMNOPQRSTUVWXYZabcdefghijklmnopqrstuvwxyz0123456789+/";
    let mut text = String::new();
    for piece in bytes.chunks(3) {
        let word = piece.iter().fold(0u32, |word, byte| word << 8 | u32::from(*byte)) << (8 * (3 - piece.len()));
        for place in 0..4 {
            let digit = DIGITS[(word >> (18 - 6 * place)) as usize & 63];
            text.push(if place <= piece.len() { digit as char } else { '=' });
        }
    }
    text
}

impl Caller for Gateway {
    fn call(&mut self, kind: Kind, key: u64) -> bool {
        let key = base64(&key.to_be_bytes());
        let (path, body) = match kind {
            Kind::Put => ("put", format!("{{\"key\":\"{key}\",\"value\":\"{}\"}}", base64(&VALUE))),
            Kind::Get => ("range", format!("{{\"key\":\"{key}\"}}")),
        };
        let length = body.len();
        let request = format!("POST /v3/kv/{path} HTTP/1.1\r\nHost: e\r\nContent-Length: {length}\r\n\r\n{body}");
        self.stream.get_mut().write_all(request.as_bytes()).unwrap();
        let (mut line, mut length, mut is_good) = (String::new(), 0, false);
        loop {
            line.clear();
            self.stream.read_line(&mut line).unwrap();
            let header = line.trim_end().to_ascii_lowercase();
            if header.is_empty() {
                break;
            }
            is_good |= header == "http/1.1 200 ok";
            if let Some(count) = header.strip_prefix("content-length: ") {
                length = count.parse().unwrap();
            }
        }
        let mut answer = vec![0; length];
        self.stream.read_exact(&mut answer).unwrap();
        is_good
    }
}

/// A sequence that looks random, and is the same each time.
struct Sequence(u64);

impl Sequence {
    fn next(&mut self) -> u64 {
        self.0 = self.0.wrapping_mul(6364136223846793005).wrapping_add(1442695040888963407);
        self.0 >> 33
    }
}

/// The times of the completed calls of one caller in nanoseconds, and how many were tried again.
fn calls_of(mut caller: Box<dyn Caller>, kind: Kind, keys: u64, seed: u64, end: Instant) -> (Vec<u64>, u64) {
    let mut keys_drawn = Sequence(seed);
    let (mut times, mut again) = (Vec::new(), 0);
    while Instant::now() < end {
        let key = keys_drawn.next() % keys;
        let start = Instant::now();
        while !caller.call(kind, key) {
            again += 1;
            assert!(start.elapsed() < 10 * PATIENCE, "nobody completes a call");
        }
        times.push(start.elapsed().as_nanos() as u64);
    }
    (times, again)
}

fn measure(callers: Vec<Box<dyn Caller>>, kind: Kind, keys: u64, seconds: u64) {
    let end = Instant::now() + Duration::from_secs(seconds);
    let threads: Vec<_> = callers
        .into_iter()
        .enumerate()
        .map(|(seed, caller)| thread::spawn(move || calls_of(caller, kind, keys, seed as u64, end)))
        .collect();
    let (mut times, mut again) = (Vec::new(), 0);
    for thread in threads {
        let (own, tries) = thread.join().unwrap();
        times.extend(own);
        again += tries;
    }
    times.sort_unstable();
    let (median, high) = (times[times.len() / 2] / 1000, times[times.len() * 99 / 100] / 1000);
    println!("{} {median} {high} {again}", times.len() as u64 / seconds);
}

/// One caller makes so many calls.
fn count(mut caller: Client, kind: Kind, calls: u64, keys: u64) {
    let mut done = 0;
    let mut start = Instant::now();
    while done < calls {
        if caller.call(kind, done % keys) {
            done += 1;
            start = Instant::now();
        }
        assert!(start.elapsed() < 30 * PATIENCE, "nobody completes a call");
    }
    println!("{done}");
}

/// Sends datagrams of which no peer takes any: random bytes of any length up to 6,000, frames that are cut, of
/// wrong senders, and to wrong receivers.
fn storm(port: u16, peers: u32, datagrams: u64) {
    let socket = UdpSocket::bind(("127.0.0.1", 0)).unwrap();
    let mut random = Sequence(1);
    let beat = |from: u32, to: u32| {
        let mut frame = b"RE\x02\x11".to_vec();
        frame.extend_from_slice(&from.to_be_bytes());
        frame.extend_from_slice(&to.to_be_bytes());
        frame.extend_from_slice(&12u16.to_be_bytes());
        frame.extend_from_slice(&[0, 0, 0, 0, 0, 0, 0, 9, 0, 0, 0, 1]);
        frame
    };
    for number in 0..datagrams {
        let to = number as u32 % peers + 1;
        let datagram = match number / u64::from(peers) % 4 {
            0 => (0..random.next() % 6000).map(|_| random.next() as u8).collect(),
            1 => beat(to % peers + 1, to)[..(random.next() % 26) as usize].to_vec(),
            2 => beat(to, to),
            _ => beat(to % peers + 1, 40),
        };
        socket.send_to(&datagram, ("127.0.0.1", port + to as u16)).unwrap();
    }
    println!("{datagrams}");
}

fn main() {
    let words: Vec<String> = env::args().skip(1).collect();
    let number = |place: usize| words[place].parse::<u64>().expect("a number");
    let kind = |place: usize| if words[place] == "put" { Kind::Put } else { Kind::Get };
    match words[0].as_str() {
        "peers" => {
            let make = |me| Box::new(Client::new(number(1) as u16, number(2) as u32, me)) as Box<dyn Caller>;
            let callers = (FIRST_CLIENT..FIRST_CLIENT + number(4) as u32).map(make).collect();
            measure(callers, kind(3), number(5), number(6));
        }
        "etcd" => {
            let ports: Vec<u16> = words[1].split(',').map(|port| port.parse().unwrap()).collect();
            let make = |at: usize| Box::new(Gateway::new(ports[at % ports.len()])) as Box<dyn Caller>;
            measure((0..number(3) as usize).map(make).collect(), kind(2), number(4), number(5));
        }
        "count" => {
            let caller = Client::new(number(1) as u16, number(2) as u32, FIRST_CLIENT);
            count(caller, kind(3), number(4), number(5));
        }
        "storm" => storm(number(1) as u16, number(2) as u32, number(3)),
        _ => panic!("these words ask for nothing"),
    }
}
