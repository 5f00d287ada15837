//! The words of a command line.
use crate::judge::counted;
use crate::model::Kind;
use crate::stop::{plain, Done, Out, Stop};
use std::ffi::{OsStr, OsString};

/// A command: its name and arguments, its help, and what it does.
pub struct Command {
    pub name: &'static str,
    /// The arguments after its name, for the usage line.
    pub usage: &'static str,
    /// One line, for the list of all commands.
    pub brief: &'static str,
    pub help: &'static str,
    /// Options that are followed by a value.
    pub valued: &'static [&'static str],
    /// Options without a value.
    pub flags: &'static [&'static str],
    /// The least and the largest number of files that it takes.
    pub files: (usize, usize),
    pub run: fn(&Words, &mut Out) -> Done,
}

/// The words after a command's name, sorted into files, values and flags.
pub struct Words {
    command: &'static str,
    pub files: Vec<OsString>,
    values: Vec<(&'static str, OsString)>,
    flags: Vec<&'static str>,
}

impl Words {
    /// Sorts words by the command's options.
    pub fn sorted(command: &Command, given: &[OsString]) -> Result<Self, Stop> {
        let mut words = Words { command: command.name, files: Vec::new(), values: Vec::new(), flags: Vec::new() };
        let mut rest = given.iter();
        while let Some(word) = rest.next() {
            let text = word.to_string_lossy();
            if text == "--" {
                words.files.extend(rest.by_ref().cloned());
            } else if text == "-" || !text.starts_with('-') {
                words.files.push(word.clone());
            } else {
                // Only a value that is a word of its own, as in `-o F`, need not be Unicode.
                let text = word.to_str().ok_or_else(|| words.wrong(&format!("there is no option {}", plain(word))))?;
                words.option(command, text, &mut rest)?;
            }
        }
        let (least, most) = command.files;
        if words.files.len() < least || words.files.len() > most {
            return Err(words.wrong(&format!("{} given; usage: loamchalice {} {}", counted(words.files.len(), "file name"), command.name, command.usage)));
        }
        Ok(words)
    }

    // `--name`, `--name value` or `--name=value`.
    fn option<'a>(&mut self, command: &Command, text: &str, rest: &mut impl Iterator<Item = &'a OsString>) -> Result<(), Stop> {
        let (name, joined) = text.split_once('=').map_or((text, None), |(name, value)| (name, Some(value)));
        if let Some(flag) = command.flags.iter().find(|flag| **flag == name) {
            if joined.is_some() {
                return Err(self.wrong(&format!("{flag} takes no value")));
            }
            self.flags.push(flag);
            return Ok(());
        }
        let Some(option) = command.valued.iter().find(|option| **option == name) else {
            return Err(self.wrong(&format!("there is no option {}", plain(OsStr::new(name)))));
        };
        let value = joined.map(OsString::from).or_else(|| rest.next().cloned());
        let value = value.ok_or_else(|| self.wrong(&format!("{option} wants a value")))?;
        self.values.push((option, value));
        Ok(())
    }

    /// An error that says what is wrong with the words, and how to get help.
    pub fn wrong(&self, what: &str) -> Stop {
        Stop::said(format!("loamchalice {}: {what}; `loamchalice {} --help` tells more", self.command, self.command))
    }

    pub fn has(&self, flag: &str) -> bool {
        self.flags.contains(&flag)
    }

    /// All values of an option that may be given several times.
    pub fn all<'a>(&'a self, option: &'a str) -> impl Iterator<Item = &'a OsStr> + 'a {
        self.values.iter().filter(move |(name, _)| *name == option).map(|(_, value)| value.as_os_str())
    }

    /// An option's value; the last one if it is given twice.
    pub fn value(&self, option: &str) -> Option<&OsStr> {
        self.values.iter().rev().find(|(name, _)| *name == option).map(|(_, value)| value.as_os_str())
    }

    pub fn wanted(&self, option: &str) -> Result<&OsStr, Stop> {
        self.value(option).ok_or_else(|| self.wrong(&format!("{option} must be given")))
    }

    /// An option's value as a finite number.
    pub fn number(&self, option: &str) -> Result<Option<f32>, Stop> {
        let Some(value) = self.value(option) else { return Ok(None) };
        let number = value.to_str().and_then(|text| text.parse::<f32>().ok()).filter(|number| number.is_finite());
        number.map(Some).ok_or_else(|| self.wrong(&format!("{option} is {}, which is no number", plain(value))))
    }

    /// An option's value as a whole number between two others.
    pub fn whole(&self, option: &str, least: usize, most: usize) -> Result<Option<usize>, Stop> {
        self.value(option).map(|value| self.whole_of(option, value, least, most)).transpose()
    }

    pub fn whole_of(&self, option: &str, value: &OsStr, least: usize, most: usize) -> Result<usize, Stop> {
        let number = value.to_str().and_then(|text| text.parse::<usize>().ok()).filter(|number| (least..=most).contains(number));
        number.ok_or_else(|| self.wrong(&format!("{option} is {}, and must be a whole number from {least} to {most}", plain(value))))
    }

    /// An option's value, which must be one of several words; the first if it is not given.
    pub fn choice(&self, option: &str, words: &[&'static str]) -> Result<&'static str, Stop> {
        let Some(value) = self.value(option) else { return Ok(words[0]) };
        let chosen = words.iter().find(|word| value == **word);
        chosen.copied().ok_or_else(|| self.wrong(&format!("{option} is {}, and must be {}", plain(value), words.join(" or "))))
    }

    /// The value of `--camera`, if it is given.
    pub fn camera(&self) -> Result<Option<Kind>, Stop> {
        let Some(value) = self.value("--camera") else { return Ok(None) };
        match value.to_string_lossy().to_ascii_uppercase().as_str() {
            "41" | "MLX90641" => Ok(Some(Kind::Mlx90641)),
            "40" | "MLX90640" => Ok(Some(Kind::Mlx90640)),
            _ => Err(self.wrong(&format!("--camera is {}, and must be 41 or 40", plain(value)))),
        }
    }
}
