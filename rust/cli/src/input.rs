//! Files named on the command line, and what is read of them.

use std::fs::File;
use std::io::{self, ErrorKind, Read};
use std::path::{Path, PathBuf};

use flascjuvan::{Edition, Level, Refusal, MAX_TEXT};

use crate::closed::stdin_is_open;
use crate::console::{complain, Answer, Console, Status};
use crate::paint::Paint;
use crate::visible;

/// The files that a subcommand works on, one after the other.
#[derive(clap::Args)]
pub struct Files {
    /// Files to read; `-` is standard input
    #[arg(value_name = "FILE", required = true)]
    pub files: Vec<PathBuf>,
}

/// The level to read at.
#[derive(clap::Args)]
pub struct Plain {
    /// Read plain: tags are dropped, and PUSH_LITERAL is refused
    #[arg(long)]
    plain: bool,
}

impl Plain {
    pub fn level(&self) -> Level {
        if self.plain {
            Level::Plain
        } else {
            Level::Tagged
        }
    }
}

/// The edition to read by.
#[derive(clap::Args)]
pub struct By {
    /// Read by this edition of the rules for layouts, 1 or 2; without it by 1, as the desk does
    #[arg(long, value_name = "N", value_parser = edition_of)]
    edition: Option<Edition>,
}

fn edition_of(word: &str) -> Result<Edition, String> {
    match word {
        "1" => Ok(Edition::First),
        "2" => Ok(Edition::Second),
        _ => Err("the editions are 1 and 2".to_owned()),
    }
}

impl By {
    pub fn edition(&self) -> Edition {
        self.edition.unwrap_or_default()
    }

    pub fn is_named(&self) -> bool {
        self.edition.is_some()
    }

    /// Says by which edition texts are read, if one was named.
    pub fn say(&self, console: &mut Console) -> io::Result<()> {
        console.write(&self.said())
    }

    /// The same to standard error, where what is written is a text itself.
    pub fn say_aside(&self, console: &Console) {
        console.say(|_| self.said());
    }

    fn said(&self) -> String {
        self.edition.map_or(String::new(), |edition| format!("read by edition {edition}\n"))
    }
}

/// What was read of a file, and its name for people.
pub struct Text {
    pub name: String,
    pub bytes: Vec<u8>,
}

/// A file that is open, and its name for people.
pub struct Source {
    pub name: String,
    pub from: Box<dyn Read>,
}

/// Opens files, standard input once.
#[derive(Default)]
pub struct Reader {
    stdin_read: bool,
}

impl Files {
    /// Does the work on every file and writes what it answers. Refusals are told instead, and files
    /// that can't be read. The worst status counts.
    pub fn each(
        &self,
        console: &mut Console,
        work: impl Fn(&Text, Paint) -> Result<Answer, Refusal>,
    ) -> io::Result<Status> {
        let mut reader = Reader::default();
        let mut worst = Status::Good;
        for path in &self.files {
            let status = match reader.read(path) {
                Some(text) => console.tell(&text, work(&text, console.paint))?,
                None => Status::Failed,
            };
            worst = worst.max(status);
        }
        Ok(worst)
    }

    /// Answers of several files are told apart by their names.
    pub fn titled(&self, text: &Text, answer: String) -> String {
        match self.files.len() {
            1 => answer,
            _ => format!("==> {} <==\n{answer}", text.name),
        }
    }
}

impl Reader {
    /// A file that is open, or a complaint.
    pub fn open(&mut self, path: &Path) -> Option<Source> {
        let stdin = path == Path::new("-");
        let name = if stdin { "<stdin>".to_owned() } else { shown(path) };
        let from = match (stdin, self.stdin_read) {
            (true, true) => Err("it is named twice, and can be read once".to_owned()),
            (true, false) => {
                self.stdin_read = true;
                stdin_is_open()
                    .map(|()| Box::new(io::stdin().lock()) as Box<dyn Read>)
                    .map_err(told)
            }
            (false, _) => open(path).map(|file| Box::new(file) as Box<dyn Read>).map_err(told),
        };
        match from {
            Ok(from) => Some(Source { name, from }),
            Err(why) => {
                complain(&format!("{name}: {why}"));
                None
            }
        }
    }

    /// A file's text, or a complaint. No more is read than shows that a text is too long.
    pub fn read(&mut self, path: &Path) -> Option<Text> {
        let Source { name, from } = self.open(path)?;
        match front(from) {
            Ok(bytes) => Some(Text { name, bytes }),
            Err(why) => {
                unreadable(&name, why);
                None
            }
        }
    }
}

/// Complains of a file that was open and can't be read.
pub fn unreadable(name: &str, why: io::Error) {
    complain(&format!("{name}: {}", told(why)));
}

fn shown(path: &Path) -> String {
    path.to_string_lossy().chars().map(visible::visible).collect()
}

fn front(from: impl Read) -> io::Result<Vec<u8>> {
    let mut bytes = Vec::new();
    from.take(MAX_TEXT as u64 + 1).read_to_end(&mut bytes)?;
    Ok(bytes)
}

fn open(path: &Path) -> io::Result<File> {
    let file = File::open(path)?;
    if file.metadata()?.is_dir() {
        return Err(io::Error::new(ErrorKind::Other, "this is a directory"));
    }
    Ok(file)
}

fn told(why: io::Error) -> String {
    match why.kind() {
        ErrorKind::NotFound => "there is no such file".to_owned(),
        ErrorKind::PermissionDenied => "it may not be read".to_owned(),
        _ => why.to_string(),
    }
}
