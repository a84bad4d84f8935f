//! A file of settings: TOML, with the options by their names. What it says becomes words of a
//! command line, so that both have the same names, limits and refusals.
use clap::Command;
use std::path::{Path, PathBuf};
use toml::Value;

/// Why a file of settings can't be taken.
#[derive(Debug, thiserror::Error)]
pub enum ConfigError {
    /// It can't be read.
    #[error("{}: {error}", path.display())]
    Unread {
        /// The file.
        path: PathBuf,
        /// Why.
        error: std::io::Error,
    },
    /// It is no TOML.
    #[error("{}: {error}", path.display())]
    Toml {
        /// The file.
        path: PathBuf,
        /// Why.
        error: toml::de::Error,
    },
    /// It has a name that no option has.
    #[error("{}: {name} isn't an option", path.display())]
    Unknown {
        /// The file.
        path: PathBuf,
        /// The name.
        name: String,
    },
    /// A value isn't a text, a number or a list of these.
    #[error("{}: {name} is a text, a number, or a list of these", path.display())]
    Kind {
        /// The file.
        path: PathBuf,
        /// The name.
        name: String,
    },
}

/// The options that a file can't have.
const COMMAND_LINE: [&str; 3] = ["completion", "config", "help"];

/// The words of a file, but those of options that `is_given` has already.
pub(super) fn words(
    path: &Path,
    options: &Command,
    is_given: impl Fn(&str) -> bool,
) -> Result<Vec<String>, ConfigError> {
    let text = std::fs::read_to_string(path)
        .map_err(|error| ConfigError::Unread { path: path.into(), error })?;
    // A table of any other kind takes a name twice.
    let lines: Value =
        toml::from_str(&text).map_err(|error| ConfigError::Toml { path: path.into(), error })?;
    let Value::Table(lines) = lines else { return Ok(Vec::new()) };
    let mut words = Vec::new();
    for (name, value) in lines {
        let option = options.get_arguments().find(|option| {
            option.get_long() == Some(name.as_str()) && !COMMAND_LINE.contains(&name.as_str())
        });
        let Some(option) = option else {
            return Err(ConfigError::Unknown { path: path.into(), name });
        };
        if is_given(option.get_id().as_str()) {
            continue;
        }
        let values = match value {
            Value::Array(values) => values,
            value => vec![value],
        };
        for value in values {
            let word = word(value)
                .ok_or_else(|| ConfigError::Kind { path: path.into(), name: name.clone() })?;
            words.push(format!("--{name}={word}"));
        }
    }
    Ok(words)
}

/// A value as a word of the command line. `true` and `false` are `yes` and `no`.
fn word(value: Value) -> Option<String> {
    match value {
        Value::String(text) => Some(text),
        Value::Integer(number) => Some(number.to_string()),
        Value::Boolean(true) => Some("yes".into()),
        Value::Boolean(false) => Some("no".into()),
        _ => None,
    }
}
