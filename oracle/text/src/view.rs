//! The whole table as plain values, and the text of `show`.

pub const SLOTS: usize = 64;
pub const HARTS: usize = 8;

#[derive(Clone, Copy, PartialEq, Eq, Debug, Default)]
pub enum State {
    #[default]
    Unused,
    Allocated,
    Runnable,
    Running,
    Sleeping,
    Zombie,
}

impl State {
    pub fn name(self) -> &'static str {
        match self {
            State::Unused => "UNUSED",
            State::Allocated => "ALLOCATED",
            State::Runnable => "RUNNABLE",
            State::Running => "RUNNING",
            State::Sleeping => "SLEEPING",
            State::Zombie => "ZOMBIE",
        }
    }
}

#[derive(Clone, Copy, PartialEq, Eq, Debug, Default)]
pub struct SlotView {
    pub state: State,
    pub channel: u64,
    pub killed: bool,
    pub status: u64,
    pub pid: u64,
    pub queued: bool,
    pub parent: Option<usize>,
    pub thread: bool,
    pub system: bool,
    pub group: Option<usize>,
    /// Of the group; 0 without one.
    pub size: u64,
    pub trapframe: u64,
    pub sp: u64,
    /// Entry, stack top, argument, return address.
    pub start: [u64; 4],
    pub name: [u8; 16],
}

#[derive(Clone, PartialEq, Eq, Debug)]
pub struct View {
    pub pids: u64,
    pub init: Option<usize>,
    pub queue: Vec<usize>,
    pub harts: [Option<usize>; HARTS],
    pub slots: [SlotView; SLOTS],
}

impl Default for View {
    fn default() -> Self {
        Self {
            pids: 0,
            init: None,
            queue: Vec::new(),
            harts: [None; HARTS],
            slots: [SlotView::default(); SLOTS],
        }
    }
}

pub fn put_number(out: &mut Vec<u8>, mut number: u64) {
    let mut digits = [0; 20];
    let mut first = 20;
    loop {
        first -= 1;
        digits[first] = b'0' + (number % 10) as u8;
        number /= 10;
        if number == 0 {
            break;
        }
    }
    out.extend_from_slice(&digits[first..]);
}

fn put_option(out: &mut Vec<u8>, number: Option<usize>) {
    match number {
        Some(number) => put_number(out, number as u64),
        None => out.push(b'-'),
    }
}

fn put_field(out: &mut Vec<u8>, name: &[u8], number: u64) {
    out.extend_from_slice(name);
    put_number(out, number);
}

impl View {
    /// The text of `show`.
    pub fn put(&self, out: &mut Vec<u8>) {
        put_field(out, b"pids ", self.pids);
        out.extend_from_slice(b" init ");
        put_option(out, self.init);
        out.extend_from_slice(b" queue ");
        if self.queue.is_empty() {
            out.push(b'-');
        }
        for (i, &slot) in self.queue.iter().enumerate() {
            if i > 0 {
                out.push(b',');
            }
            put_number(out, slot as u64);
        }
        out.extend_from_slice(b" harts ");
        for (i, &slot) in self.harts.iter().enumerate() {
            if i > 0 {
                out.push(b',');
            }
            put_option(out, slot);
        }
        out.push(b'\n');
        for (number, slot) in self.slots.iter().enumerate() {
            if slot.state != State::Unused {
                slot.put(number, out);
            }
        }
    }

    /// How many values its text holds.
    pub fn fields(&self) -> u64 {
        let used = self.slots.iter().filter(|s| s.state != State::Unused);
        (3 + HARTS + 18 * used.count()) as u64
    }
}

impl SlotView {
    fn put(&self, number: usize, out: &mut Vec<u8>) {
        put_field(out, b"slot ", number as u64);
        out.push(b' ');
        out.extend_from_slice(self.state.name().as_bytes());
        put_field(out, b" channel ", self.channel);
        put_field(out, b" killed ", self.killed.into());
        put_field(out, b" status ", self.status);
        put_field(out, b" pid ", self.pid);
        put_field(out, b" queued ", self.queued.into());
        out.extend_from_slice(b" parent ");
        put_option(out, self.parent);
        put_field(out, b" thread ", self.thread.into());
        put_field(out, b" system ", self.system.into());
        out.extend_from_slice(b" group ");
        put_option(out, self.group);
        put_field(out, b" size ", self.size);
        put_field(out, b" trapframe ", self.trapframe);
        put_field(out, b" sp ", self.sp);
        put_field(out, b" start ", self.start[0]);
        for &part in &self.start[1..] {
            put_field(out, b"/", part);
        }
        out.extend_from_slice(b" name ");
        for byte in self.name {
            out.push(HEX[usize::from(byte >> 4)]);
            out.push(HEX[usize::from(byte & 15)]);
        }
        out.push(b'\n');
    }
}

const HEX: &[u8; 16] = b"0123456789abcdef";
