//! Case lines and the answers to them, read side by side.

use std::fs::File;
use std::io::{BufRead, BufReader, Lines, Read};

const SHOWN_LENGTH: usize = 400;

/// Lines and a name for them.
pub struct Source {
    pub name: String,
    lines: Lines<BufReader<Box<dyn Read>>>,
}

impl Source {
    pub fn new(name: &str, from: Box<dyn Read>) -> Source {
        Source { name: name.to_string(), lines: BufReader::new(from).lines() }
    }

    pub fn open(name: &str, path: &str) -> Result<Source, String> {
        let file = File::open(path);
        let file = file.map_err(|error| format!("{path} could not be read: {error}."))?;
        Ok(Source::new(name, Box::new(file)))
    }

    fn line(&mut self) -> Result<Option<String>, String> {
        let line = self.lines.next().transpose();
        line.map_err(|error| format!("The lines of {} could not be read: {error}.", self.name))
    }
}

/// A case and its answers.
pub struct Asked {
    pub case: String,
    pub answers: Vec<String>,
}

pub fn asked(cases: &mut Source, sources: &mut [Source]) -> Result<Option<Asked>, String> {
    let Some(case) = cases.line()? else {
        return Ok(None);
    };
    let short = |name: &str| format!("{name} has fewer answers than there are cases.");
    let answer = |source: &mut Source| source.line()?.ok_or(short(&source.name));
    let answers = sources.iter_mut().map(answer).collect::<Result<Vec<_>, _>>()?;
    Ok(Some(Asked { case, answers }))
}

pub fn at_end(sources: &mut [Source]) -> Result<(), String> {
    for source in sources {
        if source.line()?.is_some() {
            return Err(format!("{} has more answers than there are cases.", source.name));
        }
    }
    Ok(())
}

/// A line as far as it is shown.
pub fn shown(line: &str) -> String {
    match line.get(..SHOWN_LENGTH) {
        Some(start) => format!("{start}.. ({} bytes)", line.len()),
        None => line.to_string(),
    }
}

#[cfg(test)]
pub mod tests {
    use super::Source;
    use std::io::Cursor;

    pub fn lines(text: &str) -> Source {
        Source::new("some", Box::new(Cursor::new(text.to_string())))
    }
}
