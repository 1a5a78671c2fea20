//! Times of the converters on generated messages: block by block next to each other, so that what slows the machine slows all of them.

use crate::converters::{Asked, Converter, Outputs, CONVERTERS, COUNT};
use std::time::{Duration, Instant};

/// The time of asking messages, outputs cleared before each.
pub fn timed(
    messages: &[Vec<u8>],
    out: &mut Outputs,
    asked: Asked,
    converter: &Converter,
) -> Duration {
    let began = Instant::now();
    for message in messages {
        out.clear(asked);
        converter.ask(asked, message, out);
    }
    began.elapsed()
}

/// What each block of messages took that was asked this.
pub struct Times {
    asked: Asked,
    blocks: Vec<Block>,
}

struct Block {
    bytes: usize,
    /// In the order of the converters.
    seconds: [f64; COUNT],
}

impl Times {
    pub fn of(asked: Asked) -> Times {
        Times { asked, blocks: Vec::new() }
    }

    /// Asks a block of each of them; another is the first each time.
    pub fn add(&mut self, messages: &[Vec<u8>], out: &mut Outputs) {
        let mut seconds = [0.0; COUNT];
        for turn in 0..COUNT {
            let which = (self.blocks.len() + turn) % COUNT;
            seconds[which] = timed(messages, out, self.asked, &CONVERTERS[which]).as_secs_f64();
        }
        self.blocks.push(Block { bytes: messages.iter().map(Vec::len).sum(), seconds });
    }

    pub fn print(&self) {
        let (asked, count) = (self.asked.label(), self.blocks.len());
        println!("{asked}: {count} blocks of messages, median and quartiles of the blocks:");
        for (which, Converter { name, .. }) in CONVERTERS.iter().enumerate() {
            let [low, median, high] =
                self.quartiles(|block| block.bytes as f64 / block.seconds[which]);
            let [low, median, high] = [low / 1e6, median / 1e6, high / 1e6];
            println!("{name:23}{median:8.1} MB/s ({low:.1} to {high:.1})");
        }
        for (which, Converter { name, .. }) in CONVERTERS.iter().enumerate().skip(1) {
            let [low, median, high] =
                self.quartiles(|block| block.seconds[0] / block.seconds[which]);
            println!(
                "{:23}{median:8.2} times as long ({low:.2} to {high:.2})",
                format!("ours beside {name}")
            );
        }
    }

    /// The quartiles of a figure of each block.
    fn quartiles(&self, figure: impl Fn(&Block) -> f64) -> [f64; 3] {
        let mut figures: Vec<f64> = self.blocks.iter().map(figure).collect();
        figures.sort_by(f64::total_cmp);
        [1, 2, 3].map(|quarter| figures[(figures.len() - 1) * quarter / 4])
    }
}
