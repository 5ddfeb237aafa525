//! The lists that the options ask for, batch by batch.

use crate::batch::Batch;
use crate::generate::{Kind, Picker};
use crate::options::Options;
use crate::oracle::Oracle;
use crate::short;
use text::Call;

pub struct Source {
    options: Options,
    short: Box<dyn Iterator<Item = Vec<Call>>>,
    random: u64,
    seed: u64,
}

impl Source {
    pub fn new(options: &Options) -> Self {
        let short: Box<dyn Iterator<Item = Vec<Call>>> = match options.does("short") {
            true => Box::new(short::lists(options.depth)),
            false => Box::new(std::iter::empty()),
        };
        Self {
            options: options.clone(),
            short,
            random: 0,
            seed: options.seed,
        }
    }

    /// Adds lists until the batch is full or nothing is left.
    pub fn fill(&mut self, batch: &mut Batch, oracle: &mut Oracle) {
        let every = self.options.show_every;
        let mut calls = 0;
        while calls < self.options.batch {
            if let Some(list) = self.short.next() {
                batch.add_list(oracle, every, &list);
            } else if !self.add_random(batch, oracle) {
                return;
            }
            calls += batch.lists.last().map_or(0, |list| list.len() + 1);
        }
    }

    fn add_random(&mut self, batch: &mut Batch, oracle: &mut Oracle) -> bool {
        let kinds = [("programs", Kind::Programs), ("wild", Kind::Wild)];
        let kinds: Vec<Kind> = kinds
            .into_iter()
            .filter(|(name, _)| self.options.does(name))
            .map(|(_, kind)| kind)
            .collect();
        if kinds.is_empty() || self.random >= self.options.calls {
            return false;
        }
        let kind = kinds[(self.seed % kinds.len() as u64) as usize];
        let mut picker = Picker::new(self.seed, kind);
        self.seed = self.seed.wrapping_add(1);
        batch.add(oracle, self.options.show_every, |view, last| {
            if let Some((call, answer)) = last {
                picker.saw(call, answer);
            }
            picker.next(view)
        });
        self.random += batch.lists.last().map_or(0, |list| list.len() as u64);
        true
    }
}
