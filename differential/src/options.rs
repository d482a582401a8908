//! The options of the command line.

pub struct Options {
    pub cases: u64,
    pub first: u64,
    pub seed: u64,
    pub exhaustive: bool,
    pub show_that_it_sees: bool,
    pub verbose: bool,
    pub bench: bool,
    pub instructions: bool,
    pub trims: Option<String>,
    pub write: Option<String>,
    pub count: u64,
    pub largest: usize,
}

const USAGE: &str =
    "run [--cases N] [--first N] [--seed S] [--no-exhaustive] [--show-that-it-sees [--verbose]] [--bench | --instructions | --write DIR [--count N] [--largest BYTES]]";

impl Default for Options {
    fn default() -> Options {
        Options {
            cases: 20_000,
            first: 0,
            seed: 1,
            exhaustive: true,
            show_that_it_sees: false,
            verbose: false,
            bench: false,
            instructions: false,
            trims: None,
            write: None,
            count: 100,
            largest: 8192,
        }
    }
}

impl Options {
    pub fn read(words: impl Iterator<Item = String>) -> Result<Options, String> {
        let mut o = Options::default();
        let mut words = words;
        while let Some(word) = words.next() {
            let mut next = || words.next().ok_or(format!("{word} takes a word more\n{USAGE}"));
            let number = |text: String| text.parse::<u64>().map_err(|_| format!("{word} takes a number\n{USAGE}"));
            match word.as_str() {
                "--cases" => o.cases = number(next()?)?,
                "--first" => o.first = number(next()?)?,
                "--seed" => o.seed = number(next()?)?,
                "--count" => o.count = number(next()?)?,
                "--largest" => o.largest = number(next()?)? as usize,
                "--write" => o.write = Some(next()?),
                // one side's trimming alone, which `--instructions` starts
                "--trims" => o.trims = Some(next()?),
                "--no-exhaustive" => o.exhaustive = false,
                "--show-that-it-sees" => o.show_that_it_sees = true,
                "--verbose" => o.verbose = true,
                "--bench" => o.bench = true,
                "--instructions" => o.instructions = true,
                _ => return Err(format!("no option {word}\n{USAGE}")),
            }
        }
        Ok(o)
    }
}
