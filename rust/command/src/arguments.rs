//! The arguments of a command: names of files in their order, and options, which start with `-`.

use crate::Failure;

/// The arguments that no command has asked for yet.
pub struct Arguments {
    left: Vec<String>,
}

impl Arguments {
    pub fn new(arguments: &[&str]) -> Arguments {
        Arguments { left: arguments.iter().map(|argument| argument.to_string()).collect() }
    }

    /// Whether an option stands anywhere among the arguments; it is taken out.
    pub fn has(&mut self, option: &str) -> bool {
        let before = self.left.len();
        self.left.retain(|argument| argument != option);
        self.left.len() < before
    }

    /// The value after an option, if it is there; both are taken out.
    pub fn value_of(&mut self, option: &str) -> Result<Option<String>, Failure> {
        let Some(at) = self.left.iter().position(|argument| argument == option) else { return Ok(None) };
        if at + 1 == self.left.len() {
            return Err(Failure::Usage(format!("{option} needs a value")));
        }
        let value = self.left.remove(at + 1);
        self.left.remove(at);
        if self.left.iter().any(|argument| argument == option) {
            return Err(Failure::Usage(format!("{option} is given twice")));
        }
        Ok(Some(value))
    }

    /// The names of files that are left, each with what it should be. Options that nobody asked for, and names too few or too many, are wrong usage.
    pub fn names<const COUNT: usize>(self, wanted: [&str; COUNT]) -> Result<[String; COUNT], Failure> {
        if let Some(option) = self.left.iter().find(|argument| argument.starts_with('-')) {
            return Err(Failure::Usage(format!("no option `{option}`")));
        }
        if let Some(missing) = wanted.get(self.left.len()) {
            return Err(Failure::Usage(format!("{missing} is missing")));
        }
        <[String; COUNT]>::try_from(self.left).map_err(|left| Failure::Usage(format!("`{}` is one argument too many", left[COUNT])))
    }
}
