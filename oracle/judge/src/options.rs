//! The command line of `judge` and `generate`.

pub const USE: &str = "\
usage: judge [OPTIONS] -- PROGRAM [ARGUMENTS]
       generate [OPTIONS] > LISTS
  --seed N         the first list's seed (1)
  --calls N        random calls to make at least, half of them wild (1000000)
  --kind KIND      programs, wild, short, or all (all)
  --depth N        length of the short lists (3)
  --batch N        calls in one run of PROGRAM (20000)
  --show-every N   show the table after every so many calls (1)
  --differences N  stop after so many (3)
  --pids N         the pid counter of a fresh table (0); PROGRAM has to start there too
PROGRAM reads calls and writes answers, as lane does.";

#[derive(Clone, Debug)]
pub struct Options {
    pub seed: u64,
    pub calls: u64,
    pub kind: String,
    pub depth: u32,
    pub batch: usize,
    pub show_every: usize,
    pub differences: u64,
    pub pids: usize,
    pub command: Vec<String>,
}

impl Default for Options {
    fn default() -> Self {
        Self {
            seed: 1,
            calls: 1_000_000,
            kind: "all".to_string(),
            depth: 3,
            batch: 20_000,
            show_every: 1,
            differences: 3,
            pids: 0,
            command: Vec::new(),
        }
    }
}

impl Options {
    pub fn does(&self, kind: &str) -> bool {
        self.kind == "all" || self.kind == kind
    }

    fn set(&mut self, name: &str, value: &str) -> Option<()> {
        match name {
            "--seed" => self.seed = value.parse().ok()?,
            "--calls" => self.calls = value.parse().ok()?,
            "--kind" => self.kind = value.to_string(),
            "--depth" => self.depth = value.parse().ok()?,
            "--batch" => self.batch = value.parse().ok()?,
            "--show-every" => self.show_every = value.parse().ok().filter(|&n| n > 0)?,
            "--differences" => self.differences = value.parse().ok()?,
            "--pids" => self.pids = value.parse().ok()?,
            _ => return None,
        }
        let kinds = ["programs", "wild", "short", "all"];
        kinds.contains(&self.kind.as_str()).then_some(())
    }

    fn read(mut arguments: impl Iterator<Item = String>) -> Option<Self> {
        let mut options = Self::default();
        while let Some(name) = arguments.next() {
            if name == "--" {
                options.command = arguments.collect();
                break;
            }
            options.set(&name, &arguments.next()?)?;
        }
        Some(options)
    }

    /// From the command line; ends the program with the usage if it can't be read.
    pub fn get() -> Self {
        Self::read(std::env::args().skip(1)).unwrap_or_else(|| {
            eprintln!("{USE}");
            std::process::exit(2);
        })
    }
}
