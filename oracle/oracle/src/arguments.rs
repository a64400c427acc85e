//! Arguments, taken out one by one, so that what is left over is an error.

use std::ops::Range;

pub struct Arguments(Vec<String>);

impl Arguments {
    pub fn new(arguments: impl Iterator<Item = String>) -> Self {
        Self(arguments.collect())
    }

    /// The first word.
    pub fn command(&mut self) -> Option<String> {
        (!self.0.is_empty()).then(|| self.0.remove(0))
    }

    pub fn flag(&mut self, name: &str) -> bool {
        let found = self.0.iter().position(|argument| argument == name);
        found.map(|place| self.0.remove(place)).is_some()
    }

    /// The word after a name.
    pub fn value(&mut self, name: &str) -> Result<Option<String>, String> {
        let Some(place) = self.0.iter().position(|argument| argument == name) else {
            return Ok(None);
        };
        if place + 1 == self.0.len() {
            return Err(format!("{name} is followed by nothing"));
        }
        self.0.remove(place);
        Ok(Some(self.0.remove(place)))
    }

    /// The words after each occurrence of a name.
    pub fn values(&mut self, name: &str) -> Result<Vec<String>, String> {
        let mut values = Vec::new();
        while let Some(value) = self.value(name)? {
            values.push(value);
        }
        Ok(values)
    }

    /// `--seeds A..B`, B not included.
    pub fn seeds(&mut self) -> Result<Range<u64>, String> {
        let text = self.value("--seeds")?.ok_or("--seeds is missing")?;
        let seeds = text.split_once("..").and_then(|(start, end)| {
            let start = start.parse().ok()?;
            let end = end.parse().ok()?;
            Some(start..end)
        });
        seeds.ok_or_else(|| format!("{text} is not A..B"))
    }

    pub fn finish(self) -> Result<(), String> {
        match self.0.first() {
            None => Ok(()),
            Some(argument) => Err(format!("{argument} is not known here")),
        }
    }
}
