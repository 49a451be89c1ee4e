//! The oracle: reads a session from standard input, runs it on the published
//! engine and prints every result. README.md documents the format.

use std::collections::{BTreeMap, HashMap};
use std::fmt::Write as _;
use std::io::{Read as _, Write as _};
use std::panic::{AssertUnwindSafe, catch_unwind};

use lspk_dsp::lfo::{ENTRIES, Shape};
use lspk_dsp::simd;
use lspk_mod::curve::diagonal;
use lspk_mod::dest::DestError;
use lspk_mod::source::{SourceError, Standard};
use lspk_mod::{
    Config, Curve, DestId, DestinationInfo, Destinations, DrawnCurve, Engine, Feed, Matrix, NoteOn,
    Output, Polarity, Program, Rate, Scope, Signals, Slot, SourceId, SourceInfo, SourceKind,
    SourceRange, Sources, Target, telemetry,
};
use lspk_params::ParamId;

mod grammar;
mod state;

use grammar::{Grammar, quoted};

type Res<T> = Result<T, String>;

/// The documented generator: s ← s × 6364136223846793005 + 1442695040888963407.
struct Lcg(u64);

impl Lcg {
    fn next(&mut self) -> u64 {
        self.0 = self
            .0
            .wrapping_mul(6_364_136_223_846_793_005)
            .wrapping_add(1_442_695_040_888_963_407);
        self.0
    }

    fn value(&mut self, kind: &str) -> Res<f32> {
        const SPECIAL: [u32; 8] = [
            0x7F80_0000,
            0xFF80_0000,
            0x7FC0_0000,
            0x8000_0000,
            0x0000_0001,
            0x7F7F_FFFF,
            0xFF7F_FFFF,
            0x3F80_0000,
        ];
        let s = self.next();
        let m = (s >> 40) as f32; // 24 bits, exact
        Ok(match kind {
            "u" => m / 16_777_216.0,
            "b" => (m - 8_388_608.0) / 8_388_608.0,
            "t" => (m - 8_388_608.0) / 524_288.0, // −16 to 16
            "x" | "y" => {
                if (s >> 32) & 31 == 0 {
                    f32::from_bits(SPECIAL[((s >> 37) & 7) as usize])
                } else if kind == "x" {
                    m / 16_777_216.0
                } else {
                    (m - 8_388_608.0) / 8_388_608.0
                }
            }
            "r" => f32::from_bits((s >> 32) as u32),
            _ => return Err(format!("generator kind {kind}")),
        })
    }
}

#[derive(Clone, Copy, PartialEq)]
enum Show {
    Full,
    Hash,
    Cases,
    None,
}

const NO_ENGINE: &str = "there is no engine yet";
const NO_ENTRY: &str = "the table has no such entry";

/// The commands that are calls on an engine.
const CALLS: [&str; 20] = [
    "swap", "set_held", "set_voice_held", "set_base", "set_amount", "set_output", "set_voice_limit", "note_on",
    "note_off", "voice_ended", "set_rng", "process", "out", "latest", "latest_all", "ramp", "is_active", "rate",
    "state", "memory",
];

struct Session {
    out: String,
    config: Config,
    sources: Sources,
    dests: Destinations,
    matrix: Matrix,
    tables: HashMap<String, Vec<f32>>,
    programs: HashMap<String, Box<Program>>,
    installed: String,
    engine: Option<Engine>,
    bound: BTreeMap<u16, (usize, Vec<f32>)>,
    /// How many numbers `ramp` is lent: `memory_len out`.
    out_len: String,
    show: Show,
    canon: bool,
}

/// A whole number; the greatest of its type where it is greater.
fn int<T: TryFrom<u64> + TryFrom<u128>>(s: &str) -> Res<T> {
    let n: u64 = s.parse().map_err(|_| format!("not a number in range: {s}"))?;
    let most = (1u128 << (8 * size_of::<T>())) - 1;
    T::try_from(n).or_else(|_| T::try_from(most)).map_err(|_| format!("not a number in range: {s}"))
}

/// Eight hexadecimal digits, or a decimal.
fn float(s: &str) -> Res<f32> {
    if s.len() == 8 && s.bytes().all(|b| b.is_ascii_hexdigit()) {
        return Ok(f32::from_bits(u32::from_str_radix(s, 16).map_err(|e| e.to_string())?));
    }
    if !is_decimal(s) {
        return Err(format!("no number: {s}"));
    }
    s.parse().map_err(|_| format!("no number: {s}"))
}

/// Whether a word is a decimal that is read (docs/SESSIONS.md, How a line reads).
fn is_decimal(s: &str) -> bool {
    let body = s.strip_prefix(['+', '-']).unwrap_or(s);
    let (digits, power) = match body.split_once(['e', 'E']) {
        Some((d, p)) => (d, Some(p)),
        None => (body, None),
    };
    let (whole, part) = digits.split_once('.').unwrap_or((digits, ""));
    let power_digits = power.map_or("0", |p| p.strip_prefix(['+', '-']).unwrap_or(p));
    let all = |t: &str| t.bytes().all(|b| b.is_ascii_digit());
    let right = all(whole) && all(part) && all(power_digits) && !power_digits.is_empty();
    if !right || whole.len() + part.len() == 0 || (power.is_none() && !digits.contains('.')) {
        return false;
    }
    let joined = format!("{whole}{part}");
    let (m, e) = (joined.trim_start_matches('0'), power_digits.trim_start_matches('0'));
    if m.len() > 18 || e.len() > 3 {
        return false;
    }
    let size: i64 = e.parse().unwrap_or(0);
    let down = power.is_some_and(|p| p.starts_with('-'));
    let last = (if down { -size } else { size }) - part.len() as i64;
    m.is_empty() || (last < 0 && last >= -17) || (last >= 0 && fits(m, last))
}

/// Whether m followed by so many zeros is below 2^64.
fn fits(m: &str, zeros: i64) -> bool {
    zeros < 20 && format!("{m}{}", "0".repeat(zeros as usize)).parse::<u64>().is_ok()
}

fn flag(s: &str) -> Res<bool> {
    match s {
        "0" => Ok(false),
        "1" => Ok(true),
        _ => Err(format!("not 0 or 1: {s}")),
    }
}

fn scope(s: &str) -> Res<Scope> {
    match s {
        "v" => Ok(Scope::Voice),
        "g" => Ok(Scope::Global),
        _ => Err(format!("scope {s}")),
    }
}

/// A source as the line `source` has it.
fn entry(s: &SourceInfo) -> String {
    let kind = match s.kind {
        SourceKind::Signal => "signal",
        SourceKind::Audio => "audio",
        SourceKind::Held => "held",
        SourceKind::Velocity => "velocity",
        SourceKind::Key => "key",
        SourceKind::ReleaseVelocity => "release",
        SourceKind::Random => "random",
        SourceKind::Alternate { inverse: false } => "alt",
        SourceKind::Alternate { inverse: true } => "altinv",
        SourceKind::RandomPerRoute => "routerandom",
        SourceKind::VoiceLoad => "load",
        SourceKind::Constant => "constant",
    };
    let scope = if s.scope == Scope::Voice { "v" } else { "g" };
    let range = if s.range == SourceRange::Unipolar { "u" } else { "b" };
    let key = if s.key.is_empty() { "~" } else { &s.key };
    format!("{key} {kind} {scope} {range}")
}

fn kind(s: &str) -> Res<SourceKind> {
    Ok(match s {
        "signal" => SourceKind::Signal,
        "audio" => SourceKind::Audio,
        "held" => SourceKind::Held,
        "velocity" => SourceKind::Velocity,
        "key" => SourceKind::Key,
        "release" => SourceKind::ReleaseVelocity,
        "random" => SourceKind::Random,
        "alt" => SourceKind::Alternate { inverse: false },
        "altinv" => SourceKind::Alternate { inverse: true },
        "routerandom" => SourceKind::RandomPerRoute,
        "load" => SourceKind::VoiceLoad,
        "constant" => SourceKind::Constant,
        _ => return Err(format!("source kind {s}")),
    })
}

fn target(s: &str) -> Res<Target> {
    let p: Vec<&str> = s.split(':').collect();
    match p[..] {
        ["p", n] => Ok(Target::Param(ParamId(int(n)?))),
        ["l", lfo, bus] => Ok(Target::LfoBus {
            lfo: int(lfo)?,
            bus: int(bus)?,
        }),
        _ => Err(format!("target {s}")),
    }
}

fn feed(s: &str) -> Res<Option<Feed>> {
    if s == "-" {
        return Ok(None);
    }
    let (k, n) = s.split_once(':').ok_or(format!("feed {s}"))?;
    Ok(Some(match k {
        "src" => Feed::Source(SourceId(int(n)?)),
        "amt" => Feed::Amount(int(n)?),
        "out" => Feed::Output(int(n)?),
        _ => return Err(format!("feed {s}")),
    }))
}

fn option_id(s: &str) -> Res<Option<SourceId>> {
    Ok(if s == "-" {
        None
    } else {
        Some(SourceId(int(s)?))
    })
}

impl Session {
    fn new() -> Self {
        Self {
            out: String::new(),
            config: Config {
                sample_rate: 48_000.0,
                max_frames: 64,
                voices: 1,
            },
            sources: Sources::new(),
            dests: Destinations::new(),
            matrix: Matrix::new(),
            tables: HashMap::new(),
            programs: HashMap::new(),
            installed: "~".to_owned(),
            engine: None,
            bound: BTreeMap::new(),
            out_len: "all".to_owned(),
            show: Show::Full,
            canon: false,
        }
    }

    fn bits(&self, x: f32) -> u32 {
        if self.canon { canonical(x) } else { x.to_bits() }
    }

    fn row(&mut self, head: std::fmt::Arguments<'_>, row: &[f32]) {
        let _ = write!(self.out, "{head}");
        for x in row {
            let b = self.bits(*x);
            let _ = write!(self.out, " {b:08X}");
        }
        self.out.push('\n');
    }

    fn curve(&self, s: &str) -> Res<Curve> {
        if s == "lin" {
            return Ok(Curve::LINEAR);
        }
        let p: Vec<&str> = s.split(':').collect();
        let [name, rise, fall] = p[..] else {
            return Err(format!("curve {s}"));
        };
        Ok(Curve::Drawn(Box::new(DrawnCurve {
            shape: self.shape(name)?,
            rise: float(rise)?,
            fall: float(fall)?,
        })))
    }

    fn shape(&self, name: &str) -> Res<Shape> {
        if name == "diag" {
            return Ok(diagonal());
        }
        let table = self.tables.get(name).ok_or(format!("no table {name}"))?;
        if table.len() == ENTRIES {
            Ok(Shape::from_table(table))
        } else {
            Err(format!("a table has 513 numbers, not {}", table.len()))
        }
    }

    fn engine(&mut self) -> Res<&mut Engine> {
        self.engine.as_mut().ok_or(NO_ENGINE.to_owned())
    }

    fn table_named(&self, name: &str) -> Res<()> {
        if name == "diag" || self.tables.contains_key(name) {
            return Ok(());
        }
        Err(format!("{} names no table", quoted(name)))
    }

    /// What a line, all of whose words are right, names that is not there (docs/SESSIONS.md, Errors).
    fn absent(&self, words: &[&str]) -> Res<()> {
        match words {
            ["note", velocity, key, ..] => {
                self.table_named(velocity)?;
                self.table_named(key)
            }
            ["slot", _, fields @ ..] => fields.iter().try_for_each(|f| match f.split_once('=') {
                Some(("sc" | "ac", v)) if v != "lin" => self.table_named(v.split(':').next().unwrap_or("")),
                _ => Ok(()),
            }),
            ["compile", name] if *name == self.installed => Err(format!("{} is installed", quoted(name))),
            ["swap", name] if self.engine.is_some() && !self.programs.contains_key(*name) => {
                let what = if *name == self.installed { "is installed" } else { "names no program" };
                Err(format!("{} {what}", quoted(name)))
            }
            [c, ..] if self.engine.is_none() && CALLS.contains(c) => Err(NO_ENGINE.to_owned()),
            _ => Ok(()),
        }
    }

    /// Numbers for `bind` and `table`: `hex …`, `gen SEED LEN KIND`.
    fn data(spec: &[&str]) -> Res<Vec<f32>> {
        match spec {
            ["hex", rest @ ..] => rest.iter().map(|s| float(s)).collect(),
            ["gen", seed, len, kind] => {
                let mut g = Lcg(int(seed)?);
                (0..int::<usize>(len)?).map(|_| g.value(kind)).collect()
            }
            _ => Err(format!("numbers {spec:?}")),
        }
    }

    fn table(spec: &[&str]) -> Res<Vec<f32>> {
        let n = ENTRIES;
        Ok(match spec {
            ["len", len, rest @ ..] => {
                let mut t = Self::table(rest)?;
                let last = *t.last().ok_or(NO_ENTRY)?;
                t.resize(int(len)?, last);
                t
            }
            ["put", at, x, rest @ ..] => {
                let mut t = Self::table(rest)?;
                *t.get_mut(int::<usize>(at)?).ok_or(NO_ENTRY)? = float(x)?;
                t
            }
            ["lin"] => (0..n).map(|i| i as f32 / 512.0).collect(),
            ["rev"] => (0..n).map(|i| (512 - i) as f32 / 512.0).collect(),
            ["sq"] => (0..n).map(|i| (i * i) as f32 / 262_144.0).collect(),
            ["const", x] => vec![float(x)?; n],
            ["step", at, a, b] => {
                let (at, a, b) = (int::<usize>(at)?, float(a)?, float(b)?);
                (0..n).map(|i| if i < at { a } else { b }).collect()
            }
            ["gen", seed, kind] => Self::data(&["gen", seed, "513", kind])?,
            _ => Self::data(spec)?,
        })
    }

    fn set_slot(&mut self, n: &str, fields: &[&str]) -> Res<()> {
        if self.matrix.slot_mut(int(n)?).is_err() {
            self.out.push_str("SLOT none\n");
            return Ok(());
        }
        let mut slot = Slot::default();
        for f in fields {
            let (k, v) = f.split_once('=').ok_or(format!("field {f}"))?;
            match k {
                "src" => slot.source = option_id(v)?,
                "aux" => slot.aux = option_id(v)?,
                "inv" => slot.aux_invert = flag(v)?,
                "sc" => slot.source_curve = self.curve(v)?,
                "ac" => slot.aux_curve = self.curve(v)?,
                "amt" => slot.amount = float(v)?,
                "out" => slot.output = float(v)?,
                "byp" => slot.bypass = flag(v)?,
                "pol" => {
                    slot.polarity = match v {
                        "u" => Polarity::Unipolar,
                        "b" => Polarity::Bipolar,
                        _ => return Err(format!("polarity {v}")),
                    }
                }
                "dst" => slot.destination = if v == "-" { None } else { Some(target(v)?) },
                _ => return Err(format!("field {f}")),
            }
        }
        *self.matrix.slot_mut(int(n)?).map_err(|e| e.to_string())? = slot;
        Ok(())
    }

    /// Every destination's output; audio rows of `frames`.
    fn outputs(&mut self, frames: std::ops::Range<usize>) -> Res<()> {
        let engine = self.engine.take().ok_or("no engine")?;
        self.outputs_of(&engine, frames);
        self.engine = Some(engine);
        Ok(())
    }

    fn outputs_of(&mut self, engine: &Engine, frames: std::ops::Range<usize>) {
        if self.show == Show::None {
            return;
        }
        let p = engine.program();
        let n = self.dests.len().max(telemetry::dest_count(p));
        let mut plain = Vec::new();
        let mut chunks_shown = false;
        for d in 0..n {
            let id = DestId(d as u16);
            match engine.output(id) {
                Output::Unmodulated => plain.push(d),
                Output::Control(c) => {
                    let chunks = c.chunks();
                    if !chunks_shown && self.show != Show::Cases {
                        chunks_shown = true;
                        for (i, k) in chunks.iter().enumerate() {
                            let _ = writeln!(
                                self.out,
                                "CHUNK {i} {} {} {} {}",
                                k.start,
                                k.len,
                                k.phase,
                                u8::from(k.tick)
                            );
                        }
                    }
                    let (w, from, to) =
                        telemetry::control_rows(p, id, chunks.len()).expect("a control plan");
                    for i in 0..chunks.len() {
                        for v in 0..w {
                            assert_eq!(c.value(i, v).to_bits(), to[i * w + v].to_bits());
                        }
                    }
                    match self.show {
                        Show::Full => {
                            for i in 0..chunks.len() {
                                let part = i * w..(i + 1) * w;
                                self.row(format_args!("FROM {d} {i} {w}"), &from[part.clone()]);
                                self.row(format_args!("TO {d} {i} {w}"), &to[part]);
                            }
                        }
                        Show::Hash => {
                            let _ = writeln!(
                                self.out,
                                "HC {d} {} {w} {:016X} {:016X}",
                                chunks.len(),
                                fnv(from),
                                fnv(to)
                            );
                        }
                        Show::Cases => {
                            for (i, k) in chunks.iter().enumerate() {
                                let _ = writeln!(
                                    self.out,
                                    "D {d} {} {} {} {} {:08X} {:08X}",
                                    k.start,
                                    k.len,
                                    k.phase,
                                    u8::from(k.tick),
                                    self.bits(from[i * w]),
                                    self.bits(to[i * w])
                                );
                            }
                        }
                        Show::None => {}
                    }
                }
                Output::Audio(a) => {
                    let (w, _) = telemetry::audio_rows(p, id).expect("an audio plan");
                    match self.show {
                        Show::Full => {
                            for k in frames.clone() {
                                self.row(format_args!("A {d} {k} {w}"), a.frame(k));
                            }
                        }
                        Show::Hash => {
                            let all: Vec<f32> =
                                frames.clone().flat_map(|k| a.frame(k).to_vec()).collect();
                            let _ = writeln!(
                                self.out,
                                "HA {d} {} {w} {:016X}",
                                frames.len(),
                                fnv(&all)
                            );
                        }
                        _ => {}
                    }
                }
            }
        }
        if !plain.is_empty() && self.show != Show::Cases {
            self.out.push_str("UNMOD");
            for d in plain {
                let _ = write!(self.out, " {d}");
            }
            self.out.push('\n');
        }
    }

    fn memory(&mut self) -> Res<()> {
        let engine = self.engine.take().ok_or("no engine")?;
        let p = engine.program();
        let _ = writeln!(
            self.out,
            "M program {} primed {}",
            self.installed,
            u8::from(telemetry::primed(p))
        );
        for (d, from, cur) in telemetry::ticks(p) {
            self.row(format_args!("M from {d}"), from);
            self.row(format_args!("M cur {d}"), cur);
        }
        for (slot, n, row) in telemetry::slews(p) {
            self.row(format_args!("M slew {slot} {n}"), row);
        }
        for (slot, n, row) in telemetry::randoms(p) {
            self.row(format_args!("M random {slot} {n}"), row);
        }
        for d in 0..telemetry::dest_count(p) {
            if let Some((w, rows)) = telemetry::audio_rows(p, DestId(d as u16)) {
                let _ = writeln!(self.out, "M audio {d} {w} {:016X}", fnv(rows));
            }
        }
        self.engine = Some(engine);
        Ok(())
    }

    #[allow(clippy::too_many_lines)]
    fn run(&mut self, words: &[&str]) -> Res<()> {
        match words {
            ["config", rate, frames, voices] => {
                self.config = Config {
                    sample_rate: float(rate)?,
                    max_frames: int(frames)?,
                    voices: int(voices)?,
                };
                let _ = writeln!(
                    self.out,
                    "CONFIG stride {} chunks {}",
                    self.config.stride(),
                    self.config.max_chunks()
                );
            }
            ["source", key, k, s, range] => {
                let key = if *key == "~" { "" } else { key };
                let r = self.sources.add(SourceInfo {
                    key: key.to_owned(),
                    label: String::new(),
                    kind: kind(k)?,
                    scope: scope(s)?,
                    range: match *range {
                        "u" => SourceRange::Unipolar,
                        "b" => SourceRange::Bipolar,
                        _ => return Err(format!("range {range}")),
                    },
                });
                let _ = match r {
                    Ok(id) => writeln!(self.out, "SOURCE {}", id.0),
                    Err(SourceError::DuplicateKey(_)) => writeln!(self.out, "SOURCE duplicate"),
                    Err(SourceError::Full) => writeln!(self.out, "SOURCE full"),
                };
            }
            ["standard", envelopes, lfos, macros, values, audio @ ..] => {
                let keys: Vec<(&str, &str)> = audio
                    .iter()
                    .map(|k| (if *k == "~" { "" } else { *k }, ""))
                    .collect();
                let made = Sources::standard(&Standard {
                    envelopes: int(envelopes)?,
                    lfos: int(lfos)?,
                    macros: int(macros)?,
                    sequence_values: int(values)?,
                    audio: &keys,
                });
                let _ = writeln!(self.out, "STANDARD {}", made.len());
                for (id, s) in made.iter() {
                    let _ = writeln!(self.out, "ENTRY {} {}", id.0, entry(s));
                }
                self.sources = made;
            }
            ["dest", t, s, rate, min, max, f] => {
                let r = self.dests.add(DestinationInfo {
                    target: target(t)?,
                    label: String::new(),
                    scope: scope(s)?,
                    rate: match *rate {
                        "audio" => Rate::Audio,
                        "control" => Rate::Control,
                        "adaptive" => Rate::Adaptive,
                        _ => return Err(format!("rate {rate}")),
                    },
                    min: float(min)?,
                    max: float(max)?,
                    feed: feed(f)?,
                });
                let _ = match r {
                    Ok(id) => writeln!(self.out, "DEST {}", id.0),
                    Err(DestError::Duplicate(_)) => writeln!(self.out, "DEST duplicate"),
                    Err(DestError::BadBounds(_)) => writeln!(self.out, "DEST bounds"),
                    Err(DestError::BadSlot(_)) => writeln!(self.out, "DEST slot"),
                    Err(DestError::Full) => writeln!(self.out, "DEST full"),
                };
            }
            ["find", key] => {
                let key = if *key == "~" { "" } else { key };
                let _ = match self.sources.find(key) {
                    Some(id) => writeln!(self.out, "FIND {}", id.0),
                    None => writeln!(self.out, "FIND none"),
                };
            }
            // Only the port is lent memory, but for what a ramp fills.
            ["memory_len", "out", len] => self.out_len = (*len).to_owned(),
            ["memory_len", _, _] | ["matrix_put", _, _, _] | ["signal_part", _, _, _, _] => {}
            ["newreg"] => {
                self.sources = Sources::new();
                self.dests = Destinations::new();
            }
            ["table", name, spec @ ..] => {
                self.tables.insert((*name).to_owned(), Self::table(spec)?);
            }
            ["slot", n, fields @ ..] => self.set_slot(n, fields)?,
            ["note", velocity, key, glide, vlegato] => {
                let (v, k) = (self.shape(velocity)?, self.shape(key)?);
                let c = &mut self.matrix.note_curves;
                c.velocity = v;
                c.key = k;
                c.glide = flag(glide)?;
                c.velocity_legato = flag(vlegato)?;
            }
            ["clear"] => self.matrix = Matrix::new(),
            ["compile", name] => {
                if *name == self.installed {
                    return Err(format!("program {name} is installed"));
                }
                let p = Program::compile(&self.matrix, &self.sources, &self.dests, self.config);
                if self.show != Show::Cases {
                    self.out.push_str(&telemetry::dump(&p));
                }
                self.programs.insert((*name).to_owned(), Box::new(p));
            }
            ["engine"] => {
                let e = Engine::new(&self.sources, &self.dests, self.config);
                let _ = writeln!(self.out, "ENGINE stride {}", e.stride());
                self.engine = Some(e);
                self.installed = "~".to_owned();
            }
            ["set_held", s, x] => {
                let (s, x) = (SourceId(int(s)?), float(x)?);
                self.engine()?.set_held(s, x);
            }
            ["set_voice_held", s, v, x] => {
                let (s, v, x) = (SourceId(int(s)?), int(v)?, float(x)?);
                self.engine()?.set_voice_held(s, v, x);
            }
            ["set_base", d, x] => {
                let (d, x) = (DestId(int(d)?), float(x)?);
                self.engine()?.set_base(d, x);
            }
            ["set_amount", n, x] => {
                let (n, x) = (int(n)?, float(x)?);
                self.engine()?.set_amount(n, x);
            }
            ["set_output", n, x] => {
                let (n, x) = (int(n)?, float(x)?);
                self.engine()?.set_output(n, x);
            }
            ["set_voice_limit", n] => {
                let n = int(n)?;
                self.engine()?.set_voice_limit(n);
            }
            ["note_on", v, key, velocity, legato, glide] => {
                let v = int(v)?;
                let note = NoteOn {
                    key: float(key)?,
                    velocity: float(velocity)?,
                    legato: flag(legato)?,
                    glide_seconds: float(glide)?,
                };
                self.engine()?.note_on(v, note);
            }
            ["note_off", v, x] => {
                let (v, x) = (int(v)?, float(x)?);
                self.engine()?.note_off(v, x);
            }
            ["voice_ended", v] => {
                let v = int(v)?;
                self.engine()?.voice_ended(v);
            }
            ["swap", name] => {
                let p = self
                    .programs
                    .remove(*name)
                    .ok_or(format!("no program {name} outside the engine"))?;
                let given: *const Program = &raw const *p;
                let back = self.engine()?.swap(p);
                if std::ptr::eq(given, &raw const *back) {
                    self.out.push_str("SWAP refused\n");
                    self.programs.insert((*name).to_owned(), back);
                } else {
                    let old = std::mem::replace(&mut self.installed, (*name).to_owned());
                    let _ = writeln!(self.out, "SWAP {old}");
                    self.programs.insert(old, back);
                }
            }
            ["bind", src, stride, spec @ ..] => {
                let data = Self::data(spec)?;
                self.bound.insert(int(src)?, (int(stride)?, data));
            }
            ["unbind"] => self.bound.clear(),
            ["unbind", src] => {
                self.bound.remove(&int(src)?);
            }
            ["process", start, end] => {
                let range = int(start)?..int(end)?;
                let bound = std::mem::take(&mut self.bound);
                let mut signals = Signals::new();
                for (src, (stride, data)) in &bound {
                    signals.bind(SourceId(*src), data, *stride);
                }
                let mut engine = self.engine.take().ok_or("no engine")?;
                let r = catch_unwind(AssertUnwindSafe(|| {
                    engine.process_at(simd::level(), &signals, range.clone());
                }));
                self.engine = Some(engine);
                self.bound = bound;
                match r {
                    Err(_) => self.out.push_str("PANIC\n"),
                    Ok(()) => self.outputs(range)?,
                }
            }
            ["out"] => self.outputs(0..0)?,
            ["out", start, end] => self.outputs(int(start)?..int(end)?)?,
            ["ramp", d, v] => {
                let (id, v) = (DestId(int(d)?), int(v)?);
                let len = self.out_len.clone();
                let e = self.engine()?;
                let row = match e.output(id) {
                    Output::Control(c) => {
                        let n: usize = c.chunks().iter().map(|k| k.len).sum();
                        let lent = match len.as_str() {
                            "all" | "need" => n,
                            "need-1" => n.saturating_sub(1),
                            x => int(x)?,
                        };
                        let mut row = vec![0.0; lent];
                        c.ramp(v, &mut row);
                        row.truncate(n);
                        Some(row)
                    }
                    _ => None,
                };
                match row {
                    Some(row) => self.row(format_args!("RAMP {d} {v}"), &row),
                    None => {
                        let _ = writeln!(self.out, "RAMP {d} {v} none");
                    }
                }
            }
            ["latest", d, v] => {
                let (id, v) = (DestId(int(d)?), int(v)?);
                match self.engine()?.latest(id, v) {
                    Some(x) => self.row(format_args!("LATEST {d} {v}"), &[x]),
                    None => {
                        let _ = writeln!(self.out, "LATEST {d} {v} none");
                    }
                }
            }
            ["latest_all", voices, rows] => {
                let (voices, rows): (usize, usize) = (int(voices)?, int(rows)?);
                let mut all = vec![f32::from_bits(0xDEAD_BEEF); voices * rows];
                self.engine()?.latest_all(voices, &mut all);
                self.row(format_args!("ALL {voices} {rows}"), &all);
            }
            ["is_active", v] => {
                let on = self.engine()?.is_active(int(v)?);
                let _ = writeln!(self.out, "ACTIVE {v} {}", u8::from(on));
            }
            ["rate", d] => {
                let r = self.engine()?.program().rate(DestId(int(d)?));
                let _ = writeln!(
                    self.out,
                    "RATE {d} {}",
                    match r {
                        Some(Rate::Audio) => "audio",
                        Some(_) => "control",
                        None => "none",
                    }
                );
            }
            ["state"] => {
                let canon = self.canon;
                let s = state::dump(self.engine()?, canon)?;
                self.out.push_str(&s);
            }
            ["memory"] => self.memory()?,
            ["set_rng", x] => {
                let x = u64::from_str_radix(x, 16).map_err(|e| e.to_string())?;
                state::set_rng(self.engine()?, x)?;
            }
            ["print", mode] => {
                self.show = match *mode {
                    "full" => Show::Full,
                    "hash" => Show::Hash,
                    "cases" => Show::Cases,
                    "none" => Show::None,
                    _ => return Err(format!("print {mode}")),
                }
            }
            ["canon", x] => self.canon = flag(x)?,
            _ => return Err("not a command".to_owned()),
        }
        Ok(())
    }
}

/// NaN as 7FC00000 and either zero as 00000000.
fn canonical(x: f32) -> u32 {
    if x.is_nan() {
        0x7FC0_0000
    } else if x == 0.0 {
        0
    } else {
        x.to_bits()
    }
}

/// FNV-1a, 64 bits, over the canonical bits, least significant byte first.
fn fnv(values: &[f32]) -> u64 {
    let mut h = 0xCBF2_9CE4_8422_2325u64;
    for x in values {
        for b in canonical(*x).to_le_bytes() {
            h = (h ^ u64::from(b)).wrapping_mul(0x0000_0100_0000_01B3);
        }
    }
    h
}

/// The bytes of a text that has a character for each.
fn bytes_of(text: &str) -> Vec<u8> {
    text.chars().map(|c| c as u8).collect()
}

fn main() {
    std::panic::set_hook(Box::new(|info| eprintln!("{info}")));
    let mut bytes = Vec::new();
    if std::io::stdin().read_to_end(&mut bytes).is_err() {
        eprintln!("the session can't be read");
        std::process::exit(2);
    }
    // A character a byte, here and in what is printed.
    let text: String = bytes.iter().map(|b| char::from(*b)).collect();
    let grammar = Grammar::new();
    let quiet = std::env::args().any(|a| a == "--quiet");
    let mut s = Session::new();
    let mut stdout = std::io::stdout().lock();
    let mut code = 0;
    // Whether the line above says what the port answers in place of the Rust.
    let mut owed = false;
    for (n, line) in text.split('\n').enumerate() {
        let words: Vec<&str> = line.split([' ', '\t', '\u{b}', '\u{c}', '\r']).filter(|w| !w.is_empty()).collect();
        let refused = std::mem::replace(&mut owed, line.starts_with("#="));
        if words.is_empty() || words[0].starts_with('#') {
            continue;
        }
        let judged = grammar.judge(&words);
        let unknown = judged.as_ref().is_err_and(|e| e.ends_with(" is no command"));
        if !quiet && s.show != Show::Cases && words[0] != "print" && !unknown {
            let _ = writeln!(s.out, "@{} {}", n + 1, words[0]);
        }
        if refused && judged.is_ok() {
            continue;
        }
        let mark = s.out.len();
        // Anything else that panics (a voice past a row in `latest`, say).
        let r = catch_unwind(AssertUnwindSafe(|| {
            judged?;
            s.absent(&words)?;
            s.run(&words)
        }));
        match r {
            Ok(Ok(())) => {}
            Ok(Err(e)) => {
                let _ = writeln!(s.out, "ERROR line {}: {e}", n + 1);
                code = 2;
            }
            Err(_) => s.out.push_str("PANIC\n"),
        }
        if s.show == Show::Cases {
            let keep = |l: &&str| ["D ", "PANIC", "ERROR"].iter().any(|h| l.starts_with(h));
            let text: String = s.out[mark..]
                .lines()
                .filter(keep)
                .flat_map(|l| [l, "\n"])
                .collect();
            s.out.truncate(mark);
            s.out.push_str(&text);
        }
        if s.out.len() > 1 << 16 || code != 0 {
            if stdout.write_all(&bytes_of(&s.out)).is_err() {
                return;
            }
            s.out.clear();
        }
        if code != 0 {
            break;
        }
    }
    let _ = stdout.write_all(&bytes_of(&s.out));
    let _ = stdout.flush();
    drop(stdout);
    std::process::exit(code);
}
