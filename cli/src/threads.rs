//! Work on all cores.

use std::{
    io::{self, Write},
    num::NonZero,
    sync::{
        mpsc::{self, Receiver, Sender},
        Arc,
    },
    thread::{self, ScopedJoinHandle},
};

use crate::block::{Block, Hash};

/// How many blocks a thread has at most, so that it need not wait for the next.
const BLOCKS: usize = 4;

/// Threads that have texts filed, one for each core. They get blocks in turn, and give them back in
/// the order in which they got them.
pub struct Threads {
    /// Where each one gets blocks, and where it gives them back.
    channels: Vec<(Sender<Block>, Receiver<Block>)>,
    /// How many blocks were given, and how many of these were got back.
    given: usize,
    back: usize,
}

impl Threads {
    pub fn new(infinite: bool) -> Self {
        let hash = Arc::new(Hash::new());
        let start = |_| {
            let (give, given) = mpsc::channel::<Block>();
            let (filed, back) = mpsc::channel();
            let hash = Arc::clone(&hash);
            // It ends when no more blocks can come, or nobody wants them back.
            thread::spawn(move || {
                given.into_iter().try_for_each(|mut block| {
                    block.file(&hash, infinite);
                    filed.send(block)
                })
            });
            (give, back)
        };
        Self {
            channels: (0..cores()).map(start).collect(),
            given: 0,
            back: 0,
        }
    }

    /// Whether as many blocks are with the threads as there should be.
    pub fn are_busy(&self) -> bool {
        self.given - self.back == BLOCKS * self.channels.len()
    }

    /// Has a block filed.
    pub fn give(&mut self, block: Block) {
        let (give, _) = &self.channels[self.given % self.channels.len()];
        give.send(block)
            .expect("a thread lasts as long as its channels");
        self.given += 1;
    }

    /// The block that was given first of those that are with the threads.
    pub fn next(&mut self) -> Option<Block> {
        if self.back == self.given {
            return None;
        }
        let (_, back) = &self.channels[self.back % self.channels.len()];
        self.back += 1;
        Some(back.recv().expect("a thread lasts as long as its channels"))
    }
}

fn cores() -> usize {
    thread::available_parallelism().map_or(1, NonZero::get)
}

/// So many lines that starting a thread for them costs next to nothing.
const SHARE: usize = 8192;

/// Writes what is told of each group of things, in their order, on all cores.
pub fn tell<T: Sync>(
    groups: &[Vec<T>],
    tell: impl Fn(&[T], &mut Vec<u8>) -> io::Result<()> + Sync,
    out: &mut impl Write,
) -> io::Result<()> {
    let told = |share: &[Vec<T>]| {
        let mut told = Vec::new();
        share.iter().try_for_each(|group| tell(group, &mut told))?;
        Ok::<_, io::Error>(told)
    };
    // More threads than cores, since shares may be unequal.
    for shares in shares(groups).chunks(4 * cores()) {
        thread::scope(|scope| {
            let told = &told;
            let start = |&share| scope.spawn(move || told(share));
            let threads: Vec<_> = shares.iter().map(start).collect();
            let mut told = threads.into_iter().map(ScopedJoinHandle::join);
            told.try_for_each(|told| out.write_all(&told.expect("no thread panics")?))
        })?;
    }
    Ok(())
}

/// Groups that have [`SHARE`] things together, or more where the last one is large.
fn shares<T>(groups: &[Vec<T>]) -> Vec<&[Vec<T>]> {
    let mut shares = Vec::new();
    let (mut from, mut things) = (0, 0);
    for (to, group) in (1..).zip(groups) {
        things += group.len();
        if things >= SHARE || to == groups.len() {
            shares.push(&groups[from..to]);
            (from, things) = (to, 0);
        }
    }
    shares
}
