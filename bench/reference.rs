//! The works of crates/bench/src/domain.rt in plain Rust: the yardstick of events and tickets. It answers, tests, records and
//! copies what a domain does, and proves nothing. It has the functions and operations of an instruction byte that
//! `reference.c` has, but those of channels, and no plan: the domain of that file is written down.
use std::collections::VecDeque;

const NOT_PROCESS: u32 = 0x8000_0000;
const QUEUE_BYTES: usize = 4096;
const QUANTUM: u64 = 256;
const ROUNDS: u64 = 200_000;
const LIMIT: u64 = 1 << 40;
const PORTS: u8 = 8;
const USERS: u8 = 1;

#[derive(Clone, Copy, PartialEq, Eq, Debug)]
enum Packet {
    Byte(u8),
    Ack,
}

#[derive(Clone, Copy, PartialEq, Eq, Debug, Default)]
struct End {
    byte: Option<u8>,
    acknowledge: bool,
    buffer: Option<u8>,
    overruns: u32,
    awaits: bool,
    acknowledged: bool,
}

impl End {
    fn waiting(&self) -> Option<Packet> {
        if self.acknowledge { Some(Packet::Ack) } else { self.byte.map(Packet::Byte) }
    }

    fn take(&mut self) {
        if self.acknowledge {
            self.acknowledge = false;
        } else {
            self.byte = None;
        }
    }

    fn post(&mut self, byte: u8) {
        self.byte = Some(byte);
        self.awaits = true;
        self.acknowledged = false;
    }

    fn take_byte(&mut self) -> Option<u8> {
        let byte = self.buffer.take()?;
        self.acknowledge = true;
        Some(byte)
    }

    fn deliver(&mut self, packet: Packet) {
        match packet {
            Packet::Byte(byte) if self.buffer.is_none() => self.buffer = Some(byte),
            Packet::Byte(_) => self.overruns = self.overruns.saturating_add(1),
            Packet::Ack if self.awaits => {
                self.awaits = false;
                self.acknowledged = true;
            }
            Packet::Ack => {}
        }
    }
}

#[derive(Clone, Copy, PartialEq, Eq, Debug)]
enum Fault {
    Outside,
    Unknown(u32),
    ErrorSet,
}

#[derive(Clone, Copy, PartialEq, Eq, Debug)]
enum Stepped {
    Ran,
    Idle,
    Fault(Fault),
}

#[derive(Clone, Copy, PartialEq, Eq, Debug)]
struct Cpu {
    instruction: u32,
    a: u32,
    workspace: u32,
    b: u32,
    operand: u32,
    c: u32,
    bytes: u32,
    front: u32,
    back: u32,
    error: bool,
    halt_on_error: bool,
    running: bool,
}

#[derive(Clone, Copy, PartialEq, Eq, Debug)]
enum State {
    Runs(Cpu),
    Halted(Fault),
}

#[derive(Clone, PartialEq, Eq, Debug)]
struct Node {
    state: State,
    ends: [End; 4],
    has_work: bool,
    memory: Vec<u8>,
}

fn word(memory: &[u8], address: u32) -> Result<u32, Fault> {
    let offset = (address.wrapping_sub(NOT_PROCESS) & !3) as usize;
    let bytes = memory.get(offset..offset + 4).ok_or(Fault::Outside)?;
    Ok(u32::from_le_bytes(bytes.try_into().unwrap()))
}

fn set_word(memory: &mut [u8], address: u32, word: u32) -> Result<(), Fault> {
    let offset = (address.wrapping_sub(NOT_PROCESS) & !3) as usize;
    memory.get_mut(offset..offset + 4).ok_or(Fault::Outside)?.copy_from_slice(&word.to_le_bytes());
    Ok(())
}

impl Cpu {
    fn put(&mut self, memory: &mut [u8], workspace: u32) -> Result<(), Fault> {
        if self.front == NOT_PROCESS {
            self.front = workspace;
        } else {
            set_word(memory, self.back.wrapping_sub(8), workspace)?;
        }
        self.back = workspace;
        Ok(())
    }

    fn resume(&mut self, memory: &[u8]) -> Result<bool, Fault> {
        let found = self.front;
        if found == NOT_PROCESS {
            return Ok(false);
        }
        self.front = if found == self.back { NOT_PROCESS } else { word(memory, found.wrapping_sub(8))? };
        self.workspace = found & !3;
        self.instruction = word(memory, self.workspace.wrapping_sub(4))?;
        (self.a, self.b, self.c, self.operand, self.bytes) = (0, 0, 0, 0, 0);
        self.running = true;
        Ok(true)
    }

    fn do_byte(&mut self, memory: &mut [u8]) -> Result<(), Fault> {
        let at = self.instruction.wrapping_sub(NOT_PROCESS) as usize;
        let byte = *memory.get(at).ok_or(Fault::Outside)?;
        let operand = self.operand | u32::from(byte & 15);
        self.instruction = self.instruction.wrapping_add(1);
        self.bytes = self.bytes.min(1023) + 1;
        self.operand = 0;
        match byte >> 4 {
            0x0 => {
                self.instruction = self.instruction.wrapping_add(operand);
                self.slice(memory)
            }
            0x1 => {
                self.push(self.local(operand));
                Ok(())
            }
            0x2 => {
                self.operand = operand << 4;
                Ok(())
            }
            0x4 => {
                self.push(operand);
                Ok(())
            }
            0x6 => {
                self.operand = !operand << 4;
                Ok(())
            }
            0x7 => {
                self.push(word(memory, self.local(operand))?);
                Ok(())
            }
            0x8 => {
                let (sum, overflows) = (self.a as i32).overflowing_add(operand as i32);
                self.a = sum as u32;
                if overflows {
                    if self.halt_on_error {
                        return Err(Fault::ErrorSet);
                    }
                    self.error = true;
                }
                Ok(())
            }
            0xa => {
                if self.a == 0 {
                    self.instruction = self.instruction.wrapping_add(operand);
                } else {
                    (self.a, self.b) = (self.b, self.c);
                }
                Ok(())
            }
            0xc => {
                self.a = u32::from(self.a == operand);
                Ok(())
            }
            0xd => {
                set_word(memory, self.local(operand), self.a)?;
                (self.a, self.b) = (self.b, self.c);
                Ok(())
            }
            0xf => self.operate(memory, operand),
            _ => Err(Fault::Unknown(operand)),
        }
    }

    fn local(&self, words: u32) -> u32 {
        self.workspace.wrapping_add(words.wrapping_mul(4))
    }

    fn push(&mut self, value: u32) {
        (self.a, self.b, self.c) = (value, self.a, self.b);
    }

    fn binary(&mut self, value: u32) -> Result<(), Fault> {
        (self.a, self.b) = (value, self.c);
        Ok(())
    }

    fn operate(&mut self, memory: &mut [u8], code: u32) -> Result<(), Fault> {
        let offset = self.a.wrapping_sub(NOT_PROCESS) as usize;
        match code {
            0x01 => {
                self.a = u32::from(*memory.get(offset).ok_or(Fault::Outside)?);
                Ok(())
            }
            0x02 => self.binary(self.a.wrapping_add(self.b)),
            0x09 => self.binary(u32::from(self.b as i32 > self.a as i32)),
            0x0d => {
                set_word(memory, self.a.wrapping_sub(4), self.instruction.wrapping_add(self.b))?;
                self.put(memory, self.a & !3)
            }
            0x21 => {
                let left = word(memory, self.b.wrapping_add(4))?;
                set_word(memory, self.b.wrapping_add(4), left.wrapping_sub(1))?;
                if left as i32 <= 1 {
                    return Ok(());
                }
                let index = word(memory, self.b)?;
                set_word(memory, self.b, index.wrapping_add(1))?;
                self.instruction = self.instruction.wrapping_sub(self.a);
                self.slice(memory)
            }
            0x33 => self.binary(self.b ^ self.a),
            0x3b => {
                *memory.get_mut(offset).ok_or(Fault::Outside)? = self.b as u8;
                self.a = self.c;
                Ok(())
            }
            0x42 => {
                self.push(NOT_PROCESS);
                Ok(())
            }
            0x46 => self.binary(self.b & self.a),
            _ => Err(Fault::Unknown(code)),
        }
    }

    fn slice(&mut self, memory: &mut [u8]) -> Result<(), Fault> {
        if self.bytes == 1024 {
            set_word(memory, self.workspace.wrapping_sub(4), self.instruction)?;
            self.put(memory, self.workspace)?;
            self.running = false;
        }
        Ok(())
    }
}

impl Node {
    /// A node that runs the loop of two instruction bytes.
    fn booted(size: usize) -> Node {
        let mut memory = vec![0; size];
        memory[0x48..0x4a].copy_from_slice(&[0x60, 0x0e]);
        let cpu = Cpu {
            instruction: NOT_PROCESS + 0x48,
            workspace: NOT_PROCESS + 0x50,
            a: 0,
            b: 0,
            c: 0,
            operand: 0,
            bytes: 0,
            front: NOT_PROCESS,
            back: NOT_PROCESS,
            error: false,
            halt_on_error: false,
            running: true,
        };
        Node { state: State::Runs(cpu), ends: [End::default(); 4], has_work: false, memory }
    }

    fn quiet(&self) -> bool {
        match &self.state {
            State::Runs(cpu) => !cpu.running && cpu.front == NOT_PROCESS && !self.has_work,
            State::Halted(_) => true,
        }
    }

    fn look(&self) -> Seen {
        let state = match self.state {
            State::Runs(cpu) if cpu.running || cpu.front != NOT_PROCESS => Activity::Running,
            State::Runs(_) => Activity::Idle,
            State::Halted(fault) => Activity::Halted(fault),
        };
        Seen { state, overruns: self.ends.map(|end| end.overruns) }
    }

    fn step(&mut self) -> Stepped {
        let cpu = match &mut self.state {
            State::Runs(cpu) => cpu,
            State::Halted(fault) => return Stepped::Fault(*fault),
        };
        let stepped = step(cpu, &mut self.memory, &mut self.has_work);
        if let Stepped::Fault(fault) = stepped {
            self.state = State::Halted(fault);
        }
        stepped
    }

    fn burst(&mut self, n: u64) -> (u64, Option<Stepped>) {
        let State::Runs(mut cpu) = self.state else {
            return (0, None);
        };
        let mut last = None;
        for steps in 0..n {
            match step(&mut cpu, &mut self.memory, &mut self.has_work) {
                Stepped::Ran => last = Some(Stepped::Ran),
                Stepped::Idle => {
                    self.state = State::Runs(cpu);
                    return (steps, last);
                }
                Stepped::Fault(fault) => {
                    self.state = State::Halted(fault);
                    return (steps + 1, Some(Stepped::Fault(fault)));
                }
            }
        }
        self.state = State::Runs(cpu);
        (n, last)
    }
}

// One step. No link of these works has anything to serve once the loop runs.
#[inline(always)]
fn step(cpu: &mut Cpu, memory: &mut [u8], has_work: &mut bool) -> Stepped {
    if *has_work {
        *has_work = false;
    }
    if !cpu.running {
        match cpu.resume(memory) {
            Ok(true) => {}
            Ok(false) => return Stepped::Idle,
            Err(fault) => return Stepped::Fault(fault),
        }
    }
    match cpu.do_byte(memory) {
        Ok(()) => Stepped::Ran,
        Err(fault) => Stepped::Fault(fault),
    }
}

struct Host {
    user: u8,
    sending: VecDeque<u8>,
    received: VecDeque<u8>,
    end: End,
}

impl Host {
    fn new(user: u8) -> Host {
        let queue = || VecDeque::with_capacity(QUEUE_BYTES);
        Host { user, sending: queue(), received: queue(), end: End::default() }
    }

    fn write(&mut self, byte: u8) -> bool {
        if self.sending.len() >= QUEUE_BYTES {
            return false;
        }
        self.sending.push_back(byte);
        self.send_on();
        true
    }

    fn read(&mut self) -> Option<u8> {
        let byte = self.received.pop_front();
        self.receive();
        byte
    }

    fn send_on(&mut self) {
        if !self.end.awaits && let Some(byte) = self.sending.front() {
            self.end.post(*byte);
        }
    }

    fn receive(&mut self) {
        if self.received.len() < QUEUE_BYTES && let Some(byte) = self.end.take_byte() {
            self.received.push_back(byte);
        }
    }

    fn deliver(&mut self, packet: Packet) {
        match packet {
            Packet::Byte(_) => {
                self.end.deliver(packet);
                self.receive();
            }
            Packet::Ack if self.end.awaits => {
                self.end.deliver(packet);
                self.end.acknowledged = false;
                self.sending.pop_front();
                self.send_on();
            }
            Packet::Ack => {}
        }
    }
}

#[derive(Clone, Copy, PartialEq, Eq, Debug)]
enum ConfigReply {
    Nothing,
    Answer(u8),
    BadCommand,
    BadPort,
}

#[derive(Clone, Copy)]
enum Held {
    Nothing,
    One(u8),
    Two(u8),
    TwoAnd(u8, u8),
}

/// Words of outputs: bits 0 to 4 the input, 6 ready, 7 connected, and from 8 on how often bits 0 to 7 have changed.
struct Switch {
    words: [u64; PORTS as usize],
    held: Held,
}

impl Switch {
    fn new() -> Switch {
        Switch { words: [0; PORTS as usize], held: Held::Nothing }
    }

    fn set(&mut self, output: u8, low: u64) {
        let old = self.words[usize::from(output)];
        if old & 255 != low {
            self.words[usize::from(output)] = ((old >> 8) + 1).min((1 << 56) - 1) << 8 | low;
        }
    }

    fn feed(&mut self, byte: u8) -> ConfigReply {
        match self.held {
            Held::Nothing => match byte {
                0 | 1 | 6 => {
                    self.held = Held::Two(byte);
                    ConfigReply::Nothing
                }
                2 | 5 => {
                    self.held = Held::One(byte);
                    ConfigReply::Nothing
                }
                3 => {
                    for output in 0..PORTS {
                        let word = self.words[usize::from(output)];
                        self.set(output, if word & 128 != 0 { word & 255 | 64 } else { 0 });
                    }
                    ConfigReply::Nothing
                }
                4 => {
                    for output in 0..PORTS {
                        self.set(output, 0);
                    }
                    ConfigReply::Nothing
                }
                _ => ConfigReply::BadCommand,
            },
            Held::One(command) => {
                self.held = Held::Nothing;
                if byte >= PORTS {
                    return ConfigReply::BadPort;
                }
                if command == 5 {
                    self.set(byte, 0);
                    return ConfigReply::Nothing;
                }
                let word = self.words[usize::from(byte)];
                ConfigReply::Answer(if word & 128 != 0 { 128 + (word & 31) as u8 } else { 0 })
            }
            Held::Two(command) => {
                self.held = Held::TwoAnd(command, byte);
                ConfigReply::Nothing
            }
            Held::TwoAnd(command, first) => {
                self.held = Held::Nothing;
                if first >= PORTS || byte >= PORTS {
                    return ConfigReply::BadPort;
                }
                match command {
                    0 => self.set(byte, 128 + u64::from(first)),
                    1 => {
                        self.set(byte, 128 + u64::from(first));
                        self.set(first, 128 + u64::from(byte));
                    }
                    _ => {
                        self.set(first, 0);
                        self.set(byte, 0);
                    }
                }
                ConfigReply::Nothing
            }
        }
    }
}

#[derive(Clone, Copy, PartialEq, Eq, Debug)]
enum By {
    User(u8),
    Farm,
}

#[derive(Clone, Copy, PartialEq, Eq, Debug)]
enum Event {
    Config(u8),
    Write(u8, u8),
    Read(u8),
    Reset(u8),
    Look(u8),
    Step(u8),
    Move(u8),
}

#[derive(Clone, Copy, PartialEq, Eq, Debug)]
enum Activity {
    Running,
    Idle,
    Halted(Fault),
}

#[derive(Clone, Copy, PartialEq, Eq, Debug)]
struct Seen {
    state: Activity,
    overruns: [u32; 4],
}

#[derive(Clone, Copy, PartialEq, Eq, Debug)]
enum Moved {
    Nothing,
    Lost,
    Stayed,
    Passed,
}

#[derive(Clone, Copy, PartialEq, Eq, Debug)]
enum Reply {
    Config(ConfigReply),
    Written,
    Full,
    Read(Option<u8>),
    Reset,
    Look(Seen),
    Stepped(Stepped),
    Moved(Moved),
}

#[derive(Clone, Copy, PartialEq, Eq, Debug)]
enum Refusal {
    NoSuch,
    JournalFull,
    NoMemory,
}

#[allow(dead_code)]
#[derive(Clone, Copy)]
enum Entry {
    One { by: By, event: Event, reply: Reply },
    Run { by: By, node: u8, count: u64, last: Stepped },
}

#[derive(Clone, Copy)]
enum Device {
    Host(u8),
    Link(u8, u8),
}

struct Ticket {
    number: u8,
    start: Node,
    node: Node,
    steps: u64,
    last: Option<Stepped>,
}

struct Domain {
    switch: Switch,
    nodes: Vec<Node>,
    hosts: Vec<Host>,
    devices: [Option<Device>; PORTS as usize],
    journal: Vec<Entry>,
    recorded: u64,
}

impl Domain {
    fn new() -> Domain {
        let mut devices = [None; PORTS as usize];
        devices[0] = Some(Device::Link(0, 0));
        devices[1] = Some(Device::Link(1, 0));
        devices[2] = Some(Device::Host(1));
        devices[3] = Some(Device::Host(0));
        Domain {
            switch: Switch::new(),
            nodes: vec![Node::booted(2048), Node::booted(65536)],
            hosts: vec![Host::new(0), Host::new(0)],
            devices,
            journal: Vec::new(),
            recorded: 0,
        }
    }

    fn begin(&mut self, bytes: &[u8]) {
        self.switch = Switch::new();
        self.hosts.iter_mut().for_each(|host| *host = Host::new(host.user));
        self.journal.clear();
        self.recorded = 0;
        for byte in bytes {
            self.apply(By::User(0), Event::Config(*byte)).unwrap();
        }
    }

    fn has(&self, by: By, event: Event) -> bool {
        if let By::User(user) = by && user >= USERS {
            return false;
        }
        match event {
            Event::Config(_) => true,
            Event::Write(host, _) | Event::Read(host) => {
                self.hosts.get(usize::from(host)).is_some_and(|host| by == By::User(host.user))
            }
            Event::Reset(node) | Event::Look(node) | Event::Step(node) => usize::from(node) < self.nodes.len(),
            Event::Move(port) => port < PORTS,
        }
    }

    fn waiting(&self, device: Device) -> Option<Packet> {
        match device {
            Device::Host(host) => self.hosts[usize::from(host)].end.waiting(),
            Device::Link(node, link) => self.nodes[usize::from(node)].ends[usize::from(link)].waiting(),
        }
    }

    fn pass(&mut self, port: u8) -> Moved {
        let Some(device) = self.devices[usize::from(port)] else {
            return Moved::Nothing;
        };
        let Some(packet) = self.waiting(device) else {
            return Moved::Nothing;
        };
        let is_driven = |word: &u64| word & 128 != 0 && word & 31 == u64::from(port);
        let mut moved = Moved::Lost;
        for word in self.switch.words.iter().filter(|it| is_driven(it)) {
            if word & 64 == 0 {
                return Moved::Stayed;
            }
            moved = Moved::Passed;
        }
        match device {
            Device::Host(host) => self.hosts[usize::from(host)].end.take(),
            Device::Link(node, link) => self.nodes[usize::from(node)].ends[usize::from(link)].take(),
        }
        for output in 0..usize::from(PORTS) {
            if is_driven(&self.switch.words[output]) && let Some(to) = self.devices[output] {
                match to {
                    Device::Host(host) => self.hosts[usize::from(host)].deliver(packet),
                    Device::Link(node, link) => {
                        let node = &mut self.nodes[usize::from(node)];
                        node.ends[usize::from(link)].deliver(packet);
                        node.has_work = true;
                    }
                }
            }
        }
        moved
    }

    #[inline(never)]
    fn apply(&mut self, by: By, event: Event) -> Result<Reply, Refusal> {
        if !self.has(by, event) {
            return Err(Refusal::NoSuch);
        }
        if self.recorded == LIMIT {
            return Err(Refusal::JournalFull);
        }
        if self.journal.try_reserve(1).is_err() {
            return Err(Refusal::NoMemory);
        }
        let mut recorded = true;
        let reply = match event {
            Event::Config(byte) => Reply::Config(self.switch.feed(byte)),
            Event::Write(host, byte) => {
                if self.hosts[usize::from(host)].write(byte) { Reply::Written } else { Reply::Full }
            }
            Event::Read(host) => Reply::Read(self.hosts[usize::from(host)].read()),
            Event::Reset(node) => {
                let node = &mut self.nodes[usize::from(node)];
                *node = Node::booted(node.memory.len());
                Reply::Reset
            }
            Event::Look(node) => Reply::Look(self.nodes[usize::from(node)].look()),
            Event::Step(node) => {
                recorded = !self.nodes[usize::from(node)].quiet();
                Reply::Stepped(self.nodes[usize::from(node)].step())
            }
            Event::Move(port) => {
                let moved = self.pass(port);
                recorded = matches!(moved, Moved::Passed | Moved::Lost);
                Reply::Moved(moved)
            }
        };
        if recorded {
            match (event, reply) {
                (Event::Step(node), Reply::Stepped(last)) => self.note_steps(by, node, 1, last),
                _ => self.journal.push(Entry::One { by, event, reply }),
            }
            self.recorded += 1;
        }
        Ok(reply)
    }

    fn note_steps(&mut self, asked: By, stepped: u8, steps: u64, answer: Stepped) {
        if let Some(Entry::Run { by, node, count, last }) = self.journal.last_mut()
            && *last == Stepped::Ran
            && *by == asked
            && *node == stepped
        {
            *count += steps;
            *last = answer;
        } else {
            self.journal.push(Entry::Run { by: asked, node: stepped, count: steps, last: answer });
        }
    }

    #[inline(never)]
    fn checkout(&self, number: u8) -> Result<Ticket, Refusal> {
        let home = self.nodes.get(usize::from(number)).ok_or(Refusal::NoSuch)?;
        Ok(Ticket { number, start: home.clone(), node: home.clone(), steps: 0, last: None })
    }

    #[inline(never)]
    fn commit(&mut self, ticket: Ticket) -> Result<bool, Refusal> {
        let number = usize::from(ticket.number);
        if self.nodes.get(number) != Some(&ticket.start) {
            return Ok(false);
        }
        if LIMIT - self.recorded < ticket.steps {
            return Err(Refusal::JournalFull);
        }
        if self.journal.try_reserve(1).is_err() {
            return Err(Refusal::NoMemory);
        }
        self.nodes[number] = ticket.node;
        if let Some(last) = ticket.last {
            self.note_steps(By::Farm, ticket.number, ticket.steps, last);
        }
        self.recorded += ticket.steps;
        Ok(true)
    }
}

// Events that these works don't ask for are kept all the same, since they make an entry as large as it is.
fn rests(domain: &mut Domain) -> bool {
    let seen = domain.apply(By::User(0), Event::Look(1));
    domain.apply(By::User(0), Event::Reset(1)) == Ok(Reply::Reset) && seen.is_ok()
}

fn steps(domain: &mut Domain, count: u64) -> u64 {
    (0..count)
        .take_while(|_| matches!(domain.apply(By::Farm, Event::Step(0)), Ok(Reply::Stepped(Stepped::Ran))))
        .count() as u64
}

fn passes(domain: &mut Domain, port: u8) -> bool {
    matches!(domain.apply(By::Farm, Event::Move(port)), Ok(Reply::Moved(Moved::Passed)))
}

fn pings(domain: &mut Domain, count: u64) -> u64 {
    for done in 0..count {
        if done % ROUNDS == 0 {
            domain.begin(&[1, 2, 3, 3]);
        }
        let byte = (done % 256) as u8;
        let came = matches!(domain.apply(By::User(0), Event::Write(0, byte)), Ok(Reply::Written))
            && passes(domain, 3)
            && passes(domain, 2)
            && matches!(domain.apply(By::User(0), Event::Read(1)), Ok(Reply::Read(Some(it))) if it == byte);
        if !came {
            return done;
        }
    }
    count
}

fn configs(domain: &mut Domain, count: u64) -> u64 {
    for done in 0..count {
        if done % ROUNDS == 0 {
            domain.begin(&[]);
        }
        for byte in [0, 2, 5, 2] {
            let reply = domain.apply(By::User(0), Event::Config(byte));
            if !matches!(reply, Ok(Reply::Config(ConfigReply::Nothing))) {
                return done;
            }
        }
        let reply = domain.apply(By::User(0), Event::Config(5));
        if !matches!(reply, Ok(Reply::Config(ConfigReply::Answer(0x82)))) {
            return done;
        }
    }
    count
}

fn checkouts(domain: &Domain, node: u8, count: u64) -> u64 {
    (0..count).take_while(|_| domain.checkout(node).is_ok_and(|it| it.number == node)).count() as u64
}

fn turns(domain: &mut Domain, node: u8, count: u64) -> u64 {
    for done in 0..count {
        let Ok(mut ticket) = domain.checkout(node) else {
            return done;
        };
        let (steps, last) = ticket.node.burst(QUANTUM);
        ticket.steps += steps;
        ticket.last = last;
        if ticket.steps != QUANTUM || domain.commit(ticket) != Ok(true) {
            return done;
        }
    }
    count
}

fn main() {
    let words: Vec<String> = std::env::args().collect();
    let count = words.get(1).and_then(|it| it.parse().ok()).unwrap_or(100);
    let runs = |name: &str| words.get(2).is_none_or(|it| it == name);
    let mut domain = Domain::new();
    if runs("pings") {
        println!("pings: {}", pings(&mut domain, count));
    }
    if runs("configs") {
        println!("configs: {}", configs(&mut domain, count));
    }
    domain.begin(&[]);
    if words.len() > 9 && !rests(&mut domain) {
        return;
    }
    if runs("steps") {
        println!("steps: {}", steps(&mut domain, count));
    }
    for (node, memory) in [(0, "2048"), (1, "65536"), (1, "used")] {
        if runs(&format!("checkouts-{memory}")) {
            println!("checkouts-{memory}: {}", checkouts(&domain, node, count));
        }
        if runs(&format!("turns-{memory}")) {
            println!("turns-{memory}: {}", turns(&mut domain, node, count));
        }
    }
}
