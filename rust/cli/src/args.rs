//! Arguments: words and options of a command, and its help.

use crate::said::{Answer, Failure};
use std::ops::RangeInclusive;

/// What follows an option.
#[derive(Debug, Copy, Clone, PartialEq, Eq)]
pub enum Takes {
    /// Nothing: it is there or not.
    Nothing,
    /// One word; the option is given at most once.
    One,
    /// One word; the option may be given again.
    Each,
    /// As many numbers as follow, at least one.
    Numbers,
}

/// An option of a command.
#[derive(Debug)]
pub struct Opt {
    pub name: &'static str,
    pub takes: Takes,
    /// What follows it, as the help has it.
    pub value: &'static str,
    pub about: &'static str,
}

/// A command.
#[derive(Debug)]
pub struct Command {
    pub name: &'static str,
    /// Its words and options, as the help has them.
    pub usage: &'static str,
    /// One line for the list of commands.
    pub brief: &'static str,
    /// What its own help adds.
    pub about: &'static str,
    pub options: &'static [&'static Opt],
    /// How many words it takes that are no options.
    pub words: RangeInclusive<usize>,
    pub run: fn(&Args) -> Answer,
}

impl Command {
    pub fn help(&self) -> String {
        let mut text = format!(
            "usage: locustkeno {} {}\n\n{}",
            self.name, self.usage, self.brief
        );
        text += &format!(".\n{}\n", self.about);
        for option in self.options {
            let head = format!("{} {}", option.name, option.value);
            text += &format!("  {:<18} {}\n", head.trim_end(), option.about);
        }
        text + "\nstatus: 0 done, 1 said no or differs, 2 refused or bad usage\n"
    }

    /// Bad usage.
    pub fn misused(&self, why: &str) -> Failure {
        let name = self.name;
        Failure::of(name, format!("{why}; `locustkeno {name} --help` says more"))
    }
}

/// The words and options that a command was given.
#[derive(Debug, Default)]
pub struct Args<'a> {
    pub words: Vec<&'a str>,
    options: Vec<(&'static str, &'a str)>,
}

fn is_digits(word: &str) -> bool {
    !word.is_empty() && word.bytes().all(|byte| byte.is_ascii_digit())
}

impl<'a> Args<'a> {
    /// Takes the arguments of a command apart; behind `--` all are words.
    pub fn parse(command: &Command, given: &'a [String]) -> Result<Self, Failure> {
        let mut args = Self::default();
        let mut rest = given;
        while let Some((first, behind)) = rest.split_first() {
            rest = behind;
            if first == "--" {
                args.words.extend(rest.iter().map(String::as_str));
                break;
            }
            // `-` alone is standard input.
            if !first.starts_with('-') || first == "-" {
                args.words.push(first);
                continue;
            }
            let option = command.options.iter().find(|option| option.name == first);
            let option =
                option.ok_or_else(|| command.misused(&format!("unknown option {first}")))?;
            rest = args
                .take(option, rest)
                .map_err(|why| command.misused(&why))?;
        }
        if !command.words.contains(&args.words.len()) {
            return Err(command.misused(&format!("usage: {}", command.usage)));
        }
        Ok(args)
    }

    /// Takes what follows an option, and answers what is left.
    fn take(&mut self, option: &Opt, rest: &'a [String]) -> Result<&'a [String], String> {
        let name = option.name;
        if self.has(name) && matches!(option.takes, Takes::Nothing | Takes::One) {
            return Err(format!("{name} is given twice"));
        }
        let many = match option.takes {
            Takes::Nothing => {
                self.options.push((name, ""));
                return Ok(rest);
            }
            Takes::One | Takes::Each => rest.len().min(1),
            Takes::Numbers => rest.iter().take_while(|word| is_digits(word)).count(),
        };
        if many == 0 {
            return Err(format!("{name} needs {}", option.value));
        }
        let (values, left) = rest.split_at(many);
        self.options
            .extend(values.iter().map(|value| (name, value.as_str())));
        Ok(left)
    }

    pub fn has(&self, name: &str) -> bool {
        self.one(name).is_some()
    }

    /// What an option was given, if it was.
    pub fn one(&self, name: &str) -> Option<&'a str> {
        self.all(name).next()
    }

    /// All that an option was given.
    pub fn all<'b>(&'b self, name: &'b str) -> impl Iterator<Item = &'a str> + 'b {
        let named = self
            .options
            .iter()
            .filter(move |(option, _)| *option == name);
        named.map(|(_, value)| *value)
    }

    /// What an option was given that has to be there.
    pub fn due(&self, name: &str) -> Result<&'a str, Failure> {
        self.one(name).ok_or_else(|| Failure::of(name, "is due"))
    }
}

#[cfg(test)]
mod tests {
    use super::{Args, Command, Opt, Takes};
    use crate::said::Said;

    const ROOT: Opt = opt("--root", Takes::Numbers);
    const ONE: Opt = opt("--one", Takes::One);
    const EACH: Opt = opt("--each", Takes::Each);
    const FORCE: Opt = opt("--force", Takes::Nothing);
    const COMMAND: Command = Command {
        name: "try",
        usage: "FILE OUT",
        brief: "Tries",
        about: "",
        options: &[&ROOT, &ONE, &EACH, &FORCE],
        words: 1..=2,
        run: |_| Ok(Said::done(String::new())),
    };

    const fn opt(name: &'static str, takes: Takes) -> Opt {
        Opt {
            name,
            takes,
            value: "N",
            about: "",
        }
    }

    fn told(line: &str) -> Result<(Vec<String>, Vec<String>), String> {
        let given: Vec<String> = line.split(' ').map(str::to_owned).collect();
        let args = Args::parse(&COMMAND, &given).map_err(|failure| failure.to_string())?;
        let owned = |words: &[&str]| words.iter().map(|word| word.to_string()).collect();
        let options: Vec<&str> = args.options.iter().map(|(_, value)| *value).collect();
        Ok((owned(&args.words), owned(&options)))
    }

    #[test]
    fn words_and_options() {
        let (words, options) = told("a --root 3 5 b --each x --each y --force").unwrap();
        assert_eq!(
            (words.join(" "), options.join(" ")),
            ("a b".into(), "3 5 x y ".into())
        );
        assert_eq!(told("a -- --force").unwrap().0, ["a", "--force"]);
        assert_eq!(told("- -- -w").unwrap().0, ["-", "-w"]);
    }

    #[test]
    fn bad_usage() {
        for (line, why) in [
            ("a --what", "try: unknown option --what"),
            ("a -w", "try: unknown option -w"),
            ("a --one x --one y", "try: --one is given twice"),
            ("a --force --force", "try: --force is given twice"),
            ("a --root b", "try: --root needs N"),
            ("a --one", "try: --one needs N"),
            ("a b c", "try: usage: FILE OUT"),
        ] {
            let failure = told(line).unwrap_err();
            assert_eq!(failure, format!("{why}; `locustkeno try --help` says more"));
        }
    }
}
