//! Makes case lines: `generate SEED COUNT [CALLS]`, with CALLS such as `read,write`; or pairs of
//! them: `generate SEED COUNT CALLS unread`, or `read`, by what differs in their messages. Before
//! each pair stands a line that is no case: `pair` and the kinds of difference.
//! The same arguments make the same lines.

#[path = "generate/boards.rs"]
mod boards;
#[path = "generate/broken.rs"]
mod broken;
#[path = "generate/canadian.rs"]
mod canadian;
#[path = "generate/chance.rs"]
mod chance;
#[path = "generate/draft.rs"]
mod draft;
#[path = "generate/headers.rs"]
mod headers;
#[path = "common/hex.rs"]
mod hex;
#[path = "generate/letters.rs"]
mod letters;
#[path = "generate/messages.rs"]
mod messages;
#[path = "generate/pairs.rs"]
mod pairs;
#[path = "generate/read.rs"]
mod read;
#[path = "generate/records.rs"]
mod records;
#[path = "generate/render.rs"]
mod render;
#[path = "generate/sound.rs"]
mod sound;
#[path = "generate/times.rs"]
mod times;
#[path = "generate/tree.rs"]
mod tree;
#[path = "generate/unread.rs"]
mod unread;
#[path = "generate/wide.rs"]
mod wide;
#[path = "generate/wrong.rs"]
mod wrong;

use std::io::{stdout, BufWriter, Write};
use std::process::ExitCode;

use boards::Chain;
use chance::Chance;
use messages::Conversion;
use pairs::Differing;

const LONGEST_LINE: usize = 200_000;

/// The calls, and how often each comes in its turn: behind a header the text of the same message.
const CALLS: [(&str, usize); 9] = [
    ("header", 5),
    ("text", 5),
    ("canadian", 4),
    ("offer", 4),
    ("handout", 2),
    ("list", 2),
    ("read", 2),
    ("write", 2),
    ("program", 2),
];

struct Generator {
    chance: Chance,
    chain: Chain,
    /// What was asked for its header and not yet for its text.
    headed: Option<Conversion>,
    /// How many cases of each call there were.
    turns: [usize; CALLS.len()],
}

impl Generator {
    fn new(seed: u64) -> Generator {
        let mut chance = Chance::seeded(seed);
        let chain = Chain::new(&mut chance);
        Generator { chance, chain, headed: None, turns: [0; CALLS.len()] }
    }

    fn case(&mut self, call: usize) -> String {
        let turn = self.turns[call];
        self.turns[call] += 1;
        let (chain, headed, chance) = (&mut self.chain, &mut self.headed, &mut self.chance);
        match CALLS[call].0 {
            "header" => messages::header_case(turn, headed, chance),
            "text" => messages::text_case(turn, headed, chance),
            "canadian" => messages::canadian_case(turn, chance),
            "offer" => boards::offer_case(turn, chain, chance),
            "handout" => boards::hand_out_case(turn, chain, chance),
            "list" => boards::list_case(turn, chain, chance),
            "read" => headers::read_case(turn, chance),
            "write" => headers::write_case(turn, chance),
            _ => messages::program_case(turn, chance),
        }
    }

    /// A case, or a pair of what differs; none where it is too long, or no pair comes of it.
    fn lines(&mut self, call: usize, differing: Option<Differing>) -> Option<Vec<String>> {
        let case = self.case(call);
        let lines = match differing {
            None => vec![case],
            Some(differing) => pairs::pair(&case, differing, &mut self.chance)?.to_vec(),
        };
        lines.iter().all(|line| line.len() <= LONGEST_LINE).then_some(lines)
    }
}

/// The calls in the order of one round; None for a name that is no call.
fn round(names: Option<&str>) -> Option<Vec<usize>> {
    let mut wanted = [names.is_none(); CALLS.len()];
    for name in names.into_iter().flat_map(|names| names.split(',')) {
        wanted[CALLS.iter().position(|(call, _)| *call == name)?] = true;
    }
    let most = CALLS.iter().map(|(_, often)| *often).max()?;
    let calls = (0..most).flat_map(|pass| (0..CALLS.len()).map(move |call| (pass, call)));
    let chosen = calls.filter(|(pass, call)| wanted[*call] && *pass < CALLS[*call].1);
    Some(chosen.map(|(_, call)| call).collect())
}

struct Arguments {
    seed: u64,
    count: usize,
    round: Vec<usize>,
    /// What differs in the messages of pairs; none for single cases.
    differing: Option<Differing>,
}

impl Arguments {
    fn read(given: &[String]) -> Option<Arguments> {
        let (seed, count) = (given.first()?.parse().ok()?, given.get(1)?.parse().ok()?);
        let round = round(given.get(2).map(String::as_str))?;
        let differing = match given.get(3) {
            Some(name) => Some(Differing::named(name)?),
            None => None,
        };
        let takes_message = |call: &usize| pairs::CALLS.contains(&CALLS[*call].0);
        let fits = differing.is_none() || round.iter().all(takes_message);
        fits.then_some(Arguments { seed, count, round, differing })
    }
}

fn write_cases(arguments: &Arguments) -> std::io::Result<()> {
    let Arguments { seed, count, round, differing } = arguments;
    let mut generator = Generator::new(*seed);
    let mut output = BufWriter::new(stdout().lock());
    let mut written = 0;
    while written < *count {
        if let Some(lines) = generator.lines(round[written % round.len()], *differing) {
            writeln!(output, "{}", lines.join("\n"))?;
            written += 1;
        }
    }
    output.flush()
}

fn main() -> ExitCode {
    let given: Vec<String> = std::env::args().skip(1).collect();
    let Some(arguments) = Arguments::read(&given) else {
        eprintln!(
            "Give a seed, a count, and perhaps calls joined by commas; for pairs of header, text, \
             canadian, offer and program then unread or read."
        );
        return ExitCode::FAILURE;
    };
    match write_cases(&arguments) {
        Ok(()) => ExitCode::SUCCESS,
        Err(error) => {
            eprintln!("The lines could not be written: {error}.");
            ExitCode::FAILURE
        }
    }
}
