//! The command's arguments: names of files, and options that begin with two dashes.

use crate::stop::Stop;

/// An option of a subcommand.
#[derive(Clone, Copy, Debug)]
pub struct Known {
    /// With its dashes.
    pub name: &'static str,
    /// Whether a value follows.
    pub has_value: bool,
}

/// A flag.
pub const fn flag(name: &'static str) -> Known {
    Known {
        name,
        has_value: false,
    }
}

/// An option with a value.
pub const fn valued(name: &'static str) -> Known {
    Known {
        name,
        has_value: true,
    }
}

/// The arguments of a subcommand.
#[derive(Clone, Debug, Default)]
pub struct Arguments {
    given: Vec<(&'static str, String)>,
    rest: Vec<String>,
}

impl Arguments {
    /// Takes arguments apart. Those that are not known, stand twice or lack their value are bad usage.
    pub fn parse(arguments: &[String], known: &[Known]) -> Result<Arguments, Stop> {
        let mut parsed = Arguments::default();
        let mut rest = arguments.iter();
        while let Some(argument) = rest.next() {
            if !argument.starts_with("--") {
                parsed.rest.push(argument.clone());
                continue;
            }
            let (name, value) = match argument.split_once('=') {
                Some((name, value)) => (name, Some(value.to_string())),
                None => (argument.as_str(), None),
            };
            let Some(known) = known.iter().find(|known| known.name == name) else {
                return Err(Stop::usage(format!("there is no option {name}")));
            };
            let value = match (known.has_value, value) {
                (true, Some(value)) => value,
                (true, None) => match rest.next() {
                    Some(value) => value.clone(),
                    None => return Err(Stop::usage(format!("{name} needs a value"))),
                },
                (false, None) => String::new(),
                (false, Some(_)) => return Err(Stop::usage(format!("{name} takes no value"))),
            };
            if parsed.value(known.name).is_some() {
                return Err(Stop::usage(format!("{name} stands twice")));
            }
            parsed.given.push((known.name, value));
        }
        Ok(parsed)
    }

    /// An option's value.
    pub fn value(&self, name: &str) -> Option<&str> {
        let mut given = self.given.iter();
        let found = given.find(|(one, _)| *one == name);
        found.map(|(_, value)| value.as_str())
    }

    /// Whether a flag is there.
    pub fn has(&self, name: &str) -> bool {
        self.value(name).is_some()
    }

    /// The one argument that is no option.
    pub fn one(&self, what: &str) -> Result<&str, Stop> {
        self.at_most_one(what)?
            .ok_or_else(|| Stop::usage(format!("{what} is missing")))
    }

    /// The one argument that is no option, if it is there.
    pub fn at_most_one(&self, what: &str) -> Result<Option<&str>, Stop> {
        match &self.rest[..] {
            [] => Ok(None),
            [one] => Ok(Some(one)),
            [_, other, ..] => Err(Stop::usage(format!(
                "\"{other}\" is one too many: {what} is one"
            ))),
        }
    }
}
