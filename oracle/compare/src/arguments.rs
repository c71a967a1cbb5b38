//! Arguments of a command: `--name value`, `--flag`, and plain words.

use std::collections::BTreeMap;

/// The arguments that a program was started with.
pub struct Arguments {
    named: BTreeMap<String, String>,
    flags: Vec<String>,
    plain: Vec<String>,
}

impl Arguments {
    /// Reads the command line. Names that take a value, and flags, are given; anything else that starts with
    /// `--` ends the program with a message.
    pub fn read(names: &[&str], flags: &[&str]) -> Arguments {
        let mut found = Arguments {
            named: BTreeMap::new(),
            flags: Vec::new(),
            plain: Vec::new(),
        };
        let mut words = std::env::args().skip(1);
        while let Some(word) = words.next() {
            let Some(name) = word.strip_prefix("--") else {
                found.plain.push(word);
                continue;
            };
            if flags.contains(&name) {
                found.flags.push(name.to_owned());
            } else if names.contains(&name) {
                let value = words
                    .next()
                    .unwrap_or_else(|| stop(&format!("--{name} needs a value")));
                found.named.insert(name.to_owned(), value);
            } else {
                stop(&format!(
                    "no such argument: {word}; there are {names:?} with a value and {flags:?}"
                ));
            }
        }
        found
    }

    /// A number, or what it is by default.
    pub fn number(&self, name: &str, default: u64) -> u64 {
        self.named.get(name).map_or(default, |value| {
            value
                .replace('_', "")
                .parse()
                .unwrap_or_else(|_| stop(&format!("--{name} needs a number")))
        })
    }

    /// A word, or what it is by default.
    pub fn word(&self, name: &str, default: &str) -> String {
        self.named
            .get(name)
            .cloned()
            .unwrap_or_else(|| default.to_owned())
    }

    /// Whether a flag is given.
    pub fn flag(&self, name: &str) -> bool {
        self.flags.iter().any(|flag| flag == name)
    }

    /// The words without `--`.
    pub fn plain(&self) -> &[String] {
        &self.plain
    }
}

/// Ends the program with a message.
pub fn stop(message: &str) -> ! {
    eprintln!("{message}");
    std::process::exit(2);
}
