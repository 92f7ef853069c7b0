//! The command line: the options of rubis, with their ranges and defaults. Those that change no answer are read and not used.

#[derive(Clone, Copy, Debug, PartialEq, Eq)]
pub enum Command {
    Site,
    World,
    Audit,
    Widen,
}

#[derive(Debug)]
pub struct Line {
    pub command: Command,
    pub site: usize,
    pub sites: usize,
    pub keep: usize,
    pub to: usize,
}

/// What stands in place of a run: a text for standard output, or one for standard error.
#[derive(Debug)]
pub enum Stop {
    Help(String),
    Fault(String),
}

const USAGE: &str = "Usage: plain <site|world|audit|widen> [OPTIONS]\n\
    site:  [--site n] [--sites n] [--shards n] [--workers n] [--batch n] [--keep n]\n\
    world: [--sites n] [--shards n] [--workers n] [--batch n] [--keep n]\n\
    audit: [--sites n]\n\
    widen: [--sites n] [--to n]";

/// An option: its name, its range and its default.
struct Choice {
    name: &'static str,
    least: u64,
    most: u64,
    default: u64,
}

const fn choice(name: &'static str, least: u64, most: u64, default: u64) -> Choice {
    Choice { name, least, most, default }
}

const SITE: [Choice; 6] = [
    choice("site", 0, 15, 0),
    choice("sites", 1, 16, 1),
    choice("shards", 1, 64, 4),
    choice("workers", 1, 16, 2),
    choice("batch", 1, 65_536, 64),
    choice("keep", 1, 1_000_000, 1_000_000),
];

const WIDEN: [Choice; 2] = [choice("sites", 1, 16, 1), choice("to", 1, 16, 16)];

impl Command {
    fn named(word: &str) -> Option<Command> {
        match word {
            "site" => Some(Command::Site),
            "world" => Some(Command::World),
            "audit" => Some(Command::Audit),
            "widen" => Some(Command::Widen),
            _ => None,
        }
    }

    fn choices(self) -> &'static [Choice] {
        match self {
            Command::Site => &SITE,
            Command::World => &SITE[1..],
            Command::Audit => &WIDEN[..1],
            Command::Widen => &WIDEN,
        }
    }
}

fn fault<T>(text: String) -> Result<T, Stop> {
    Err(Stop::Fault(format!("error: {text}\n\n{USAGE}")))
}

/// The values that were given, in the order of the choices.
fn values(words: &[String], choices: &[Choice]) -> Result<Vec<Option<u64>>, Stop> {
    let mut values = vec![None; choices.len()];
    let mut words = words.iter();
    while let Some(word) = words.next() {
        let (name, inline) = match word.split_once('=') {
            Some((name, value)) => (name, Some(value)),
            None => (word.as_str(), None),
        };
        let Some(at) = choices.iter().position(|c| name.strip_prefix("--") == Some(c.name)) else {
            return fault(format!("unexpected argument '{word}'"));
        };
        let Some(text) = inline.or_else(|| words.next().map(String::as_str)) else {
            return fault(format!("a value is required for '{name}'"));
        };
        let (least, most) = (choices[at].least, choices[at].most);
        let Some(value) = text.parse().ok().filter(|n| (least..=most).contains(n)) else {
            return fault(format!("invalid value '{text}' for '{name}': {least}..={most}"));
        };
        if values[at].replace(value).is_some() {
            return fault(format!("'{name}' cannot be used multiple times"));
        }
    }
    Ok(values)
}

pub fn parse(words: &[String]) -> Result<Line, Stop> {
    if words.iter().any(|word| word == "--help" || word == "-h") {
        return Err(Stop::Help(USAGE.into()));
    }
    let Some(first) = words.first() else { return fault("a subcommand is required".into()) };
    let Some(command) = Command::named(first) else {
        return fault(format!("unrecognized subcommand '{first}'"));
    };
    let choices = command.choices();
    let values = values(&words[1..], choices)?;
    let value = |name| {
        let at = choices.iter().position(|c| c.name == name);
        at.map_or(0, |at| values[at].unwrap_or(choices[at].default)) as usize
    };
    let (site, sites, to) = (value("site"), value("sites"), value("to"));
    if command == Command::Site && site >= sites {
        return Err(Stop::Fault("fault: site must be below sites".into()));
    }
    if command == Command::Widen && to < sites {
        return Err(Stop::Fault("fault: to must not be below sites".into()));
    }
    Ok(Line { command, site, sites, keep: value("keep"), to })
}
