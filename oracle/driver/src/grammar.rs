//! The session language: the tables of docs/SESSIONS.md (The grammar, Kinds of words), and what is wrong with a line.

use std::collections::HashMap;

const PAGE: &str = include_str!("../../../docs/SESSIONS.md");

/// The words after a row's own: their kinds, whether the last may be repeated, and whether there may be none.
struct Row {
    kinds: Vec<&'static str>,
    repeated: bool,
    optional: bool,
}

pub struct Grammar {
    commands: HashMap<&'static str, Row>,
    specs: HashMap<&'static str, Row>,
    samples: HashMap<&'static str, Row>,
    /// What a kind of words is called.
    called: HashMap<&'static str, &'static str>,
}

/// The first two cells of each row below the head whose first cell is `head`.
fn table(head: &str) -> Vec<(&'static str, &'static str)> {
    let head = format!("| {head} |");
    PAGE.lines()
        .skip_while(|l| !l.starts_with(&head))
        .skip(2)
        .take_while(|l| l.starts_with('|'))
        .map(|l| {
            let mut cells = l.trim_matches('|').split('|').map(str::trim);
            (cells.next().unwrap_or("").trim_matches('`'), cells.next().unwrap_or(""))
        })
        .collect()
}

fn rows(head: &str) -> HashMap<&'static str, Row> {
    let row = |text: &'static str| {
        let mut kinds: Vec<&str> = text.trim_matches(['[', ']']).split_whitespace().collect();
        let repeated = kinds.last() == Some(&"..");
        if repeated {
            kinds.pop();
        }
        Row { kinds, repeated, optional: text.starts_with('[') }
    };
    table(head).into_iter().map(|(w, text)| (w, row(text))).collect()
}

/// A word between quotes: at most 40 bytes of it, `?` for what can't be seen, and two points where there are more.
pub fn quoted(w: &str) -> String {
    let seen = |c: char| if ('!'..='~').contains(&c) { c } else { '?' };
    let end = if w.chars().count() > 40 { "..'" } else { "'" };
    format!("'{}{end}", w.chars().take(40).map(seen).collect::<String>())
}

/// Decimal digits of a number up to `most`.
fn whole(w: &str, most: u64) -> bool {
    !w.is_empty() && w.bytes().all(|b| b.is_ascii_digit()) && w.parse::<u64>().is_ok_and(|n| n <= most)
}

fn hex(w: &str, n: usize) -> bool {
    w.len() == n && w.bytes().all(|b| b.is_ascii_hexdigit())
}

fn number(w: &str) -> bool {
    hex(w, 8) || crate::is_decimal(w)
}

/// The parts of a word before and after the first `c`.
fn parts(w: &str, c: char) -> (&str, &str) {
    w.split_once(c).unwrap_or((w, ""))
}

fn target(w: &str) -> bool {
    match parts(w, ':') {
        ("p", n) => whole(n, u32::MAX.into()),
        ("l", rest) => {
            let (lfo, bus) = parts(rest, ':');
            whole(lfo, 255) && whole(bus, 255)
        }
        _ => false,
    }
}

fn feed(w: &str) -> bool {
    match parts(w, ':') {
        ("src", n) => whole(n, 65_535),
        ("amt" | "out", n) => whole(n, 255),
        _ => w == "-",
    }
}

fn curve(v: &str) -> bool {
    let (rise, fall) = parts(parts(v, ':').1, ':');
    v == "lin" || (number(rise) && number(fall))
}

fn field(w: &str) -> bool {
    let (k, v) = parts(w, '=');
    match k {
        "src" | "aux" => v == "-" || whole(v, 65_535),
        "dst" => v == "-" || target(v),
        "amt" | "out" => number(v),
        "pol" => ["u", "b"].contains(&v),
        "inv" | "byp" => ["0", "1"].contains(&v),
        "sc" | "ac" => curve(v),
        _ => false,
    }
}

const GENERATORS: [&str; 6] = ["u", "b", "t", "x", "y", "r"];

impl Grammar {
    pub fn new() -> Self {
        Self {
            commands: rows("Command"),
            specs: rows("SPEC"),
            samples: rows("SAMPLES"),
            called: table("Kind").into_iter().collect(),
        }
    }

    /// Whether a word is one of those that the kind's name has between brackets: `scope (v or g)`.
    fn listed(&self, kind: &str, w: &str) -> bool {
        let called = self.called[kind];
        let list = called.split_once('(').map_or("", |(_, l)| l.trim_end_matches(')'));
        list.split(", ").flat_map(|l| l.split(" or ")).any(|l| l == w)
    }

    fn fits(&self, kind: &str, w: &str) -> bool {
        match kind {
            "WHOLE" => whole(w, u64::MAX),
            "WHOLE127" => whole(w, 127),
            "WHOLE129" => whole(w, 129),
            "WHOLE512" => whole(w, 512),
            "NUMBER" => number(w),
            "KEY" | "NAME" | "TABLE" | "PROGRAM" => true,
            "TARGET" => target(w),
            "FEED" => feed(w),
            "FIELD" => field(w),
            "DRAW" => hex(w, 16),
            "LENGTH" => ["all", "need", "need-1"].contains(&w) || whole(w, 1_000_000_000_000),
            "PLACE" => ["end", "end+1"].contains(&w) || whole(w, u64::MAX),
            "SPEC" => self.specs.contains_key(w),
            "SAMPLES" => self.samples.contains_key(w),
            "GENERATOR" => GENERATORS.contains(&w),
            "LENGTH_OR_GENERATOR" => GENERATORS.contains(&w) || whole(w, u64::MAX),
            "FLAG" | "KIND" | "SCOPE" | "RANGE" | "RATE" | "MEMORY" | "MODE" => self.listed(kind, w),
            _ => panic!("docs/SESSIONS.md has a kind of words that is not known here: {kind}"),
        }
    }

    /// What is wrong with a line of these words, by the page's tables.
    pub fn judge(&self, words: &[&str]) -> Result<(), String> {
        let Some(mut row) = self.commands.get(words[0]) else {
            return Err(format!("{} is no command", quoted(words[0])));
        };
        // the place in the row; a generator's kind still to come after its length
        let (mut at, mut letter) = (0, false);
        for (k, w) in words.iter().enumerate().skip(1) {
            let kind = if letter { "GENERATOR" } else { row.kinds.get(at).copied().unwrap_or("") };
            if kind.is_empty() {
                return Err(format!("word {}, {}, is one too many", k + 1, quoted(w)));
            }
            if !self.fits(kind, w) {
                return Err(format!("word {}, {}, is no {}", k + 1, quoted(w), self.called[kind]));
            }
            letter = kind == "LENGTH_OR_GENERATOR" && !GENERATORS.contains(w);
            match kind {
                "SPEC" => (row, at) = (&self.specs[w], 0),
                "SAMPLES" => (row, at) = (&self.samples[w], 0),
                _ if letter || (row.repeated && at + 1 == row.kinds.len()) => {}
                _ => at += 1,
            }
        }
        let done = at == row.kinds.len() || (row.repeated && at + 1 == row.kinds.len()) || (row.optional && at == 0);
        if done && !letter {
            return Ok(());
        }
        let kind = if letter { "GENERATOR" } else { row.kinds[at] };
        Err(format!("word {} is missing: a {}", words.len() + 1, self.called[kind]))
    }
}
