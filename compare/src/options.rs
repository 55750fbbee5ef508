//! The command line.

use std::time::Duration;

pub const USAGE: &str =
    "compare [--section NAME [--case N]] [--seed S] [--soak MINUTES] [--threads N] [--trace]";

#[derive(Clone, Debug, PartialEq)]
pub struct Options {
    pub section: Option<String>,
    pub case: Option<u64>,
    pub seed: u64,
    pub soak: Option<Duration>,
    pub threads: usize,
    pub trace: bool,
}

impl Options {
    pub fn new(threads: usize) -> Options {
        Options {
            section: None,
            case: None,
            seed: 1,
            soak: None,
            threads,
            trace: false,
        }
    }

    /// The options that the arguments give, or what is wrong with them.
    pub fn parse(
        mut arguments: impl Iterator<Item = String>,
        threads: usize,
    ) -> Result<Options, String> {
        let mut options = Options::new(threads);
        while let Some(name) = arguments.next() {
            if name == "--trace" {
                options.trace = true;
            } else {
                let value = arguments.next().ok_or(format!("{name} what?"))?;
                options.set(&name, value)?;
            }
        }
        Ok(options)
    }

    fn set(&mut self, name: &str, value: String) -> Result<(), String> {
        let not_a_number = || format!("{name} takes a number, not {value}");
        let number = || value.parse::<u64>().map_err(|_| not_a_number());
        match name {
            "--section" => self.section = Some(value),
            "--case" => self.case = Some(number()?),
            "--seed" => self.seed = number()?,
            "--threads" => self.threads = number()?.max(1) as usize,
            "--soak" => self.soak = Some(minutes(&value).ok_or_else(not_a_number)?),
            _ => return Err(format!("no option is called {name}")),
        }
        Ok(())
    }
}

/// A number of minutes, perhaps with a fraction.
fn minutes(text: &str) -> Option<Duration> {
    let minutes = text.parse::<f64>().ok()?;
    (0.0..1e9)
        .contains(&minutes)
        .then(|| Duration::from_secs_f64(60.0 * minutes))
}
