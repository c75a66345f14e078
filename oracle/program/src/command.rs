//! The words of the command line, and which command they ask for.

use crate::model::{AsWritten, Model};
use crate::second::{Library, Second};
use crate::server::Server;
use crate::{compare, mutants, vectors};

/// The options of all commands.
#[derive(Default)]
pub struct Options {
    serve: String,
    emulator: String,
    /// Which Rust and which library are compared, in lines.
    pub about: String,
    pub seed: u64,
    pub seconds: Option<u64>,
    pub calls: Option<u64>,
    pub replay: Option<String>,
    pub capture: Option<String>,
    pub model: bool,
    pub rest: Vec<String>,
}

impl Options {
    fn read(words: &[String]) -> Result<Options, String> {
        let mut options = Options { seed: 1, ..Options::default() };
        let mut words = words.iter();
        while let Some(word) = words.next() {
            let mut value = || words.next().cloned().ok_or(format!("{word} needs a value"));
            match word.as_str() {
                "--serve" => options.serve = value()?,
                "--emulator" => options.emulator = value()?,
                "--about" => options.about = std::fs::read_to_string(value()?).unwrap_or_default(),
                "--seed" => options.seed = number(&value()?)?,
                "--seconds" => options.seconds = Some(number(&value()?)?),
                "--calls" => options.calls = Some(number(&value()?)?),
                "--replay" => options.replay = Some(value()?),
                "--capture" => options.capture = Some(value()?),
                "--model" => options.model = true,
                word if word.starts_with('-') => return Err(format!("there is no option {word}")),
                _ => options.rest.push(word.clone()),
            }
        }
        Ok(options)
    }

    /// The library; `heard` is whether its process may write to standard error.
    pub fn library(&self, heard: bool) -> Box<dyn Second> {
        Box::new(Library::new(&self.emulator, &self.serve, heard))
    }

    /// The library, or the third reading in its place.
    pub fn second(&self) -> Box<dyn Second> {
        if self.model {
            return Box::new(Server::new(Model { rules: Box::new(AsWritten) }));
        }
        self.library(true)
    }
}

/// A number, with or without commas.
fn number(word: &str) -> Result<u64, String> {
    word.replace(',', "").parse().map_err(|_| format!("not a number: {word}"))
}

/// Runs a command; the exit status is 0 for equal, 1 for a difference, 2 where it could not be run.
pub fn run(words: Vec<String>) -> i32 {
    let done = words.split_first().ok_or("name a command".to_string()).and_then(|(name, rest)| {
        let options = Options::read(rest)?;
        match name.as_str() {
            "compare" => compare::command(&options),
            "mutants" => mutants::command(&options),
            "vectors" => vectors::command(&options),
            _ => Err(format!("there is no command {name}")),
        }
    });
    done.unwrap_or_else(|what| {
        eprintln!("oracle: {what}");
        2
    })
}
