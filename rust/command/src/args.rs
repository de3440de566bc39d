//! The command line: commands, their options and what else they take.

use std::ffi::{OsStr, OsString};

use crate::hint::did_you_mean;
use crate::run::{Failure, Io, Status};
use crate::words::shown;

/// An option of some commands.
#[derive(Clone, Copy, Debug, PartialEq, Eq)]
pub enum Opt {
    /// `-o OUT`: where the result is written.
    Output,
    /// `--names FILE`
    Names,
    /// `--no-names`
    NoNames,
    /// `--plain`
    Plain,
    /// `--html OUT`: a page is written.
    Html,
    /// `--right NAME`
    Right,
    /// `--volunteer NAME`
    Volunteer,
}

impl Opt {
    const ALL: [Opt; 7] =
        [Opt::Output, Opt::Names, Opt::NoNames, Opt::Plain, Opt::Html, Opt::Right, Opt::Volunteer];

    fn long(self) -> &'static str {
        ["--output", "--names", "--no-names", "--plain", "--html", "--right", "--volunteer"]
            [self as usize]
    }

    /// What stands after it, if anything does.
    fn value(self) -> Option<&'static str> {
        match self {
            Opt::Output | Opt::Names | Opt::Html => Some("a file"),
            Opt::Right | Opt::Volunteer => Some("a name or a number"),
            Opt::NoNames | Opt::Plain => None,
        }
    }

    fn help(self) -> &'static str {
        match self {
            Opt::Output => "  -o OUT, --output=OUT  write to OUT, whole or not at all\n",
            Opt::Names => {
                "  --names FILE          take the names of FILE, not those of the file beside\n"
            }
            Opt::NoNames => "  --no-names            show numbers, and look for no names\n",
            Opt::Plain => {
                "  --plain               the plain listing: numbers, and sets in hexadecimal\n"
            }
            Opt::Html => "  --html OUT            write a page to OUT, whole or not at all\n",
            Opt::Right => "  --right NAME          show this right alone, by name or number\n",
            Opt::Volunteer => {
                "  --volunteer NAME      show this volunteer alone, by name or number\n"
            }
        }
    }
}

/// A command.
pub struct Command {
    pub name: &'static str,
    /// What it takes, as its usage shows it.
    pub takes: &'static str,
    /// The least and the most arguments.
    pub arguments: (usize, usize),
    pub options: &'static [Opt],
    /// In a line.
    pub summary: &'static str,
    /// More of it.
    pub help: &'static str,
    pub run: fn(&Call, &mut Io) -> Result<Status, Failure>,
}

/// A command with what it was given.
pub struct Call {
    pub arguments: Vec<OsString>,
    pub output: Option<OsString>,
    pub names: Option<OsString>,
    pub no_names: bool,
    pub plain: bool,
    pub html: Option<OsString>,
    pub right: Option<OsString>,
    pub volunteer: Option<OsString>,
}

impl Call {
    /// Arguments as text; what is no text is shown so, and means nothing.
    pub fn text(&self, number: usize) -> String {
        self.arguments
            .get(number)
            .map_or(String::new(), |argument| argument.to_string_lossy().into_owned())
    }
}

impl Command {
    fn usage(&self) -> String {
        let options = if self.options.contains(&Opt::Output) { " [-o OUT]" } else { "" };
        format!("softlode {} {}{options}", self.name, self.takes)
    }

    fn help(&self) -> String {
        let stop = if self.summary.ends_with('?') { "" } else { "." };
        let mut help = format!("Usage: {}\n\n{}{stop}\n", self.usage(), self.summary);
        if !self.help.is_empty() {
            help += &format!("\n{}\n", self.help);
        }
        if !self.options.is_empty() {
            help += "\n";
            help.extend(self.options.iter().map(|option| option.help()));
        }
        help
    }

    fn wrong(&self, what: String) -> Failure {
        Failure::Wrong(format!("{what} (softlode help {} tells more)", self.name))
    }

    /// Reads what follows the command's name; no call where its help is asked for.
    fn read(&self, words: &[OsString]) -> Result<Option<Call>, Failure> {
        let mut call = Call {
            arguments: Vec::new(),
            output: None,
            names: None,
            no_names: false,
            plain: false,
            html: None,
            right: None,
            volunteer: None,
        };
        let mut words = words.iter();
        let mut are_options = true;
        while let Some(word) = words.next() {
            let text = word.to_string_lossy();
            if !are_options || !text.starts_with('-') || text == "-" {
                call.arguments.push(word.clone());
            } else if text == "--" {
                are_options = false;
            } else if is_help(word) {
                return Ok(None);
            } else {
                self.option(word, &text, &mut words, &mut call)?;
            }
        }
        let (least, most) = self.arguments;
        if call.arguments.len() < least {
            return Err(self.wrong(format!("something is missing: {}", self.usage())));
        }
        if call.arguments.len() > most {
            let extra = shown(&call.text(most));
            return Err(self.wrong(format!("{extra} is one argument too many: {}", self.usage())));
        }
        if call.names.is_some() && call.no_names {
            return Err(self.wrong("--names and --no-names do not go together".into()));
        }
        Ok(Some(call))
    }

    fn option<'w>(
        &self,
        word: &OsStr,
        text: &str,
        words: &mut impl Iterator<Item = &'w OsString>,
        call: &mut Call,
    ) -> Result<(), Failure> {
        let (name, value) = split_option(word, text);
        let known = Opt::ALL.into_iter().find(|option| option.long() == name);
        let Some(option) = known.filter(|option| self.options.contains(option)) else {
            let known = self.options.iter().map(|option| option.long());
            let hint = did_you_mean(&name, known.chain(["--help"]));
            return Err(self.wrong(format!("{} has no option {}{hint}", self.name, shown(&name))));
        };
        let value = match (option.value(), value) {
            (Some(what), None) => {
                let next = words.next().cloned();
                Some(next.ok_or_else(|| self.wrong(format!("{text} needs {what} after it")))?)
            }
            (None, Some(_)) => return Err(self.wrong(format!("{} takes no value", option.long()))),
            (_, value) => value,
        };
        let is_repeated = match option {
            Opt::Output => std::mem::replace(&mut call.output, value).is_some(),
            Opt::Names => std::mem::replace(&mut call.names, value).is_some(),
            Opt::NoNames => std::mem::replace(&mut call.no_names, true),
            Opt::Plain => std::mem::replace(&mut call.plain, true),
            Opt::Html => std::mem::replace(&mut call.html, value).is_some(),
            Opt::Right => std::mem::replace(&mut call.right, value).is_some(),
            Opt::Volunteer => std::mem::replace(&mut call.volunteer, value).is_some(),
        };
        if is_repeated {
            return Err(self.wrong(format!("{} stands there twice", option.long())));
        }
        Ok(())
    }
}

/// The long name of an option, and the value that stands in the same word.
fn split_option(word: &OsStr, text: &str) -> (String, Option<OsString>) {
    use std::os::unix::ffi::{OsStrExt, OsStringExt};
    let value = |from: usize| Some(OsString::from_vec(word.as_bytes()[from..].to_vec()));
    if !text.starts_with("--") {
        if text.starts_with("-o") {
            return ("--output".into(), value(2).filter(|value| !value.is_empty()));
        }
        return (text.to_string(), None);
    }
    match word.as_bytes().iter().position(|&byte| byte == b'=') {
        Some(at) => (String::from_utf8_lossy(&word.as_bytes()[..at]).into_owned(), value(at + 1)),
        None => (text.to_string(), None),
    }
}

fn is_help(word: &OsStr) -> bool {
    word == "--help" || word == "-h"
}

fn usage(commands: &[Command]) -> String {
    let width = commands.iter().map(|command| command.usage().len()).max().unwrap_or(0);
    let mut text = String::from("Usage:\n");
    for command in commands {
        text += &format!("  {:width$}  {}\n", command.usage(), command.summary);
    }
    text
}

fn whole_help(commands: &[Command]) -> String {
    format!(
        "softlode: the rotas of an archive's volunteers in words.\n\n{}\n\
         A FILE is a rota, in its bytes; ask, next, board, list and week take a table too. - is standard input.\n\
         Names are looked for in FILE.names. Answers go to standard output, complaints to standard error.\n\
         Status 0: done; 1: refused; 2: wrong use, or a file that cannot be read or written.\n\
         softlode help COMMAND tells more of a command; softlode --version prints the version.\n",
        usage(commands)
    )
}

/// Runs the command that the words of a command line name.
pub fn run(commands: &[Command], words: &[OsString], io: &mut Io) -> Result<Status, Failure> {
    let Some((first, rest)) = words.split_first() else {
        return Err(Failure::Wrong(format!(
            "a command is missing\n{}softlode --help tells more",
            usage(commands)
        )));
    };
    let find = |word: &OsStr| {
        commands.iter().find(|command| word == command.name).ok_or_else(|| {
            let text = word.to_string_lossy();
            let hint = did_you_mean(&text, commands.iter().map(|command| command.name));
            let what = if text.starts_with('-') { "option" } else { "command" };
            Failure::Wrong(format!(
                "there is no {what} {}{hint} (softlode --help tells more)",
                shown(&text)
            ))
        })
    };
    if first == "--version" || first == "-V" {
        io.print(&format!("softlode {}\n", softlode::version()))?;
    } else if is_help(first) || first == "help" {
        let help = match rest {
            [] => whole_help(commands),
            [command] => find(command)?.help(),
            [_, extra, ..] => {
                let what = format!("{} is one argument too many", shown(&extra.to_string_lossy()));
                return Err(Failure::Wrong(format!("{what} (softlode --help tells more)")));
            }
        };
        io.print(help)?;
    } else {
        let command = find(first)?;
        match command.read(rest)? {
            Some(call) => return (command.run)(&call, io),
            None => io.print(command.help())?,
        }
    }
    Ok(Status::Done)
}
