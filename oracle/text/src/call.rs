//! Calls, from a line and to a line.

use std::fmt::{Display, Formatter, Result as Written};

#[derive(Clone, Copy, PartialEq, Eq, Debug)]
pub enum Wish {
    NotWanted,
    Writable,
    Unwritable,
}

#[derive(Clone, PartialEq, Eq, Debug)]
pub enum Call {
    Boot,
    Start,
    Spawn {
        name: Vec<u8>,
        entry: u64,
    },
    Fork {
        hart: u64,
        memory: bool,
    },
    Thread {
        hart: u64,
        entry: u64,
        arg: u64,
        stack: u64,
        ret: u64,
        /// Entry, return address, stack, stack top - 1.
        mapped: [bool; 4],
    },
    Dispatch(u64),
    Yield(u64),
    Sleep {
        hart: u64,
        channel: u64,
    },
    Wake(u64),
    Kill(u64),
    Wait {
        hart: u64,
        wish: Wish,
    },
    Join {
        hart: u64,
        pid: u64,
        wish: Wish,
    },
    Exit {
        hart: u64,
        status: u64,
    },
    ThreadExit {
        hart: u64,
        status: u64,
    },
    SystemReturn(u64),
    Grow {
        hart: u64,
        count: i64,
        memory: bool,
    },
    List(Option<u64>),
    Show,
    Fresh,
}

/// The words of a line, taken one by one.
struct Words<'a>(std::str::SplitAsciiWhitespace<'a>);

impl<'a> Words<'a> {
    fn next(&mut self) -> Result<&'a str, String> {
        self.0.next().ok_or_else(|| "a word is missing".to_string())
    }

    fn number(&mut self) -> Result<u64, String> {
        let word = self.next()?;
        if !word.bytes().all(|b| b.is_ascii_digit()) {
            return Err(format!("not a number: {word}"));
        }
        word.parse().map_err(|_| format!("not a number: {word}"))
    }

    fn count(&mut self) -> Result<i64, String> {
        let word = self.next()?;
        word.parse().map_err(|_| format!("not a count: {word}"))
    }

    fn answer(&mut self) -> Result<bool, String> {
        match self.next()? {
            "yes" => Ok(true),
            "no" => Ok(false),
            word => Err(format!("neither yes nor no: {word}")),
        }
    }

    fn wish(&mut self) -> Result<Wish, String> {
        match self.next()? {
            "not-wanted" => Ok(Wish::NotWanted),
            "writable" => Ok(Wish::Writable),
            "unwritable" => Ok(Wish::Unwritable),
            word => Err(format!("not a wish: {word}")),
        }
    }

    fn name(&mut self) -> Result<Vec<u8>, String> {
        let word = self.next()?;
        let Some(digits) = word.strip_prefix("hex:") else {
            return Ok(word.as_bytes().to_vec());
        };
        let bad = || format!("not hex: {word}");
        if digits.len() % 2 != 0 || !digits.is_ascii() {
            return Err(bad());
        }
        (0..digits.len() / 2)
            .map(|i| u8::from_str_radix(&digits[2 * i..2 * i + 2], 16).map_err(|_| bad()))
            .collect()
    }

    fn end(&mut self) -> Result<(), String> {
        match self.0.next() {
            None => Ok(()),
            Some(word) => Err(format!("a word too many: {word}")),
        }
    }
}

impl Call {
    /// The call that a line names. An empty line and a comment name none.
    pub fn read(line: &str) -> Result<Option<Call>, String> {
        let mut words = Words(line.split_ascii_whitespace());
        let Ok(first) = words.next() else {
            return Ok(None);
        };
        if line.starts_with('#') {
            return Ok(None);
        }
        let call = match Self::by_hart(first, &mut words)? {
            Some(call) => call,
            None => Self::by_none(first, &mut words)?,
        };
        words.end()?;
        Ok(Some(call))
    }

    fn by_hart(first: &str, words: &mut Words) -> Result<Option<Call>, String> {
        let plain = ["dispatch", "yield", "system-return"];
        let with_words = [
            "fork",
            "thread",
            "sleep",
            "wait",
            "join",
            "exit",
            "thread-exit",
            "grow",
        ];
        if !plain.contains(&first) && !with_words.contains(&first) {
            return Ok(None);
        }
        let hart = words.number()?;
        Ok(Some(match first {
            "dispatch" => Call::Dispatch(hart),
            "yield" => Call::Yield(hart),
            "system-return" => Call::SystemReturn(hart),
            "thread" => Self::thread(hart, words)?,
            _ => Self::with_words(first, hart, words)?,
        }))
    }

    fn with_words(first: &str, hart: u64, words: &mut Words) -> Result<Call, String> {
        Ok(match first {
            "fork" => Call::Fork {
                hart,
                memory: words.answer()?,
            },
            "sleep" => Call::Sleep {
                hart,
                channel: words.number()?,
            },
            "wait" => Call::Wait {
                hart,
                wish: words.wish()?,
            },
            "join" => Call::Join {
                hart,
                pid: words.number()?,
                wish: words.wish()?,
            },
            "exit" => Call::Exit {
                hart,
                status: words.number()?,
            },
            "thread-exit" => Call::ThreadExit {
                hart,
                status: words.number()?,
            },
            _ => Call::Grow {
                hart,
                count: words.count()?,
                memory: words.answer()?,
            },
        })
    }

    fn thread(hart: u64, words: &mut Words) -> Result<Call, String> {
        let (entry, arg) = (words.number()?, words.number()?);
        let (stack, ret) = (words.number()?, words.number()?);
        let mut mapped = [false; 4];
        for answer in &mut mapped {
            *answer = words.answer()?;
        }
        Ok(Call::Thread {
            hart,
            entry,
            arg,
            stack,
            ret,
            mapped,
        })
    }

    fn by_none(first: &str, words: &mut Words) -> Result<Call, String> {
        Ok(match first {
            "boot" => Call::Boot,
            "start" => Call::Start,
            "spawn" => Call::Spawn {
                name: words.name()?,
                entry: words.number()?,
            },
            "wake" => Call::Wake(words.number()?),
            "kill" => Call::Kill(words.number()?),
            "list" if words.0.clone().next().is_none() => Call::List(None),
            "list" => Call::List(Some(words.number()?)),
            "show" => Call::Show,
            "fresh" => Call::Fresh,
            _ => return Err(format!("no such call: {first}")),
        })
    }

    fn put_thread(&self, to: &mut Formatter) -> Written {
        let Call::Thread {
            hart,
            entry,
            arg,
            stack,
            ret,
            mapped,
        } = self
        else {
            return Ok(());
        };
        write!(to, "thread {hart} {entry} {arg} {stack} {ret}")?;
        mapped.iter().try_for_each(|&m| write!(to, " {}", yes(m)))
    }

    pub fn put(&self, out: &mut Vec<u8>) {
        out.extend(self.to_string().bytes());
        out.push(b'\n');
    }
}

fn yes(answer: bool) -> &'static str {
    if answer {
        "yes"
    } else {
        "no"
    }
}

impl Display for Wish {
    fn fmt(&self, to: &mut Formatter) -> Written {
        to.write_str(match self {
            Wish::NotWanted => "not-wanted",
            Wish::Writable => "writable",
            Wish::Unwritable => "unwritable",
        })
    }
}

fn put_name(to: &mut Formatter, name: &[u8]) -> Written {
    let plain = !name.is_empty() && name.iter().all(u8::is_ascii_alphanumeric);
    if plain {
        return to.write_str(&String::from_utf8_lossy(name));
    }
    to.write_str("hex:")?;
    name.iter().try_for_each(|byte| write!(to, "{byte:02x}"))
}

impl Display for Call {
    fn fmt(&self, to: &mut Formatter) -> Written {
        match self {
            Call::Boot => to.write_str("boot"),
            Call::Start => to.write_str("start"),
            Call::Spawn { name, entry } => {
                to.write_str("spawn ")?;
                put_name(to, name)?;
                write!(to, " {entry}")
            }
            Call::Fork { hart, memory } => write!(to, "fork {hart} {}", yes(*memory)),
            Call::Thread { .. } => self.put_thread(to),
            Call::Dispatch(hart) => write!(to, "dispatch {hart}"),
            Call::Yield(hart) => write!(to, "yield {hart}"),
            Call::Sleep { hart, channel } => write!(to, "sleep {hart} {channel}"),
            Call::Wake(channel) => write!(to, "wake {channel}"),
            Call::Kill(pid) => write!(to, "kill {pid}"),
            Call::Wait { hart, wish } => write!(to, "wait {hart} {wish}"),
            Call::Join { hart, pid, wish } => write!(to, "join {hart} {pid} {wish}"),
            Call::Exit { hart, status } => write!(to, "exit {hart} {status}"),
            Call::ThreadExit { hart, status } => write!(to, "thread-exit {hart} {status}"),
            Call::SystemReturn(hart) => write!(to, "system-return {hart}"),
            Call::Grow {
                hart,
                count,
                memory,
            } => write!(to, "grow {hart} {count} {}", yes(*memory)),
            Call::List(None) => to.write_str("list"),
            Call::List(Some(room)) => write!(to, "list {room}"),
            Call::Show => to.write_str("show"),
            Call::Fresh => to.write_str("fresh"),
        }
    }
}
