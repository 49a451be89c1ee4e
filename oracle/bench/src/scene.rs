//! A scenario, and the Rust's side of it: an engine made by the rules of the port's crate `bench`, and what is timed of it.

use std::hint::black_box;

use lspk_dsp::lfo::Shape;
use lspk_dsp::simd;
use lspk_mod::{
    Config, Curve, DestId, DestinationInfo, Destinations, DrawnCurve, Engine, Feed, Matrix, NoteOn,
    Output, Polarity, Program, Rate, Scope, Signals, Slot, SourceId, SourceInfo, SourceKind,
    SourceRange, Sources, Target,
};
use lspk_params::ParamId;

pub const SLOTS: usize = 64;
/// Numbers of a table, and of the tables of a matrix.
pub const POINTS: usize = 513;
pub const TABLES: usize = 130 * POINTS;

/// What is called, and timed; the port is told its number.
#[derive(Clone, Copy, PartialEq, Eq)]
pub enum Call {
    Block = 0,
    SetBase = 1,
    SetHeld = 2,
    NoteOn = 3,
}

/// What else is so of a scenario; the port is told its number.
#[derive(Clone, Copy, PartialEq, Eq)]
pub enum Also {
    Nothing = 0,
    /// Of rich slots every other one is plain.
    EveryOther = 1,
    /// Sources 2 and 3 are velocity and key, and both glide in every voice.
    Glides = 2,
    /// A note starts before every block.
    Notes = 3,
    /// Destinations are global.
    Global = 4,
    /// A preset with slots of all kinds: its own sources, destinations and slots.
    Preset = 5,
}

/// Of the preset's slots, the source and the destination.
const PRESET_SOURCE: [usize; 12] = [0, 1, 6, 7, 5, 8, 9, 2, 3, 0, 10, 4];
const PRESET_DEST: [usize; 12] = [0, 1, 2, 1, 3, 4, 5, 6, 1, 8, 9, 7];

/// As `Scene` of the port's crate `bench`, which is told these numbers in this order, then those of its calls.
#[derive(Clone, Copy, PartialEq, Eq)]
pub struct Scene {
    pub slots: usize,
    pub dests: usize,
    pub audio: bool,
    pub rich: bool,
    pub voices: usize,
    pub active: usize,
    pub frames: usize,
    pub buffers: usize,
    pub also: Also,
}

/// What both sides are lent to read: samples, and the tables of the matrix.
pub struct Input {
    pub samples: Vec<f32>,
    pub curves: Vec<f32>,
}

/// Equally distributed numbers from 0 to below 1.
fn noise(seed: u64, len: usize) -> impl Iterator<Item = f32> {
    let mut s = seed;
    (0..len).map(move |_| {
        s = s
            .wrapping_mul(6_364_136_223_846_793_005)
            .wrapping_add(1_442_695_040_888_963_407);
        (s >> 40) as f32 / 16_777_216.0
    })
}

impl Scene {
    /// Numbers of one buffer.
    pub fn len(&self) -> usize {
        self.frames * self.voices
    }

    pub fn input(&self) -> Input {
        let len = self.len();
        Input {
            samples: (0..self.buffers as u64).flat_map(|i| noise(i, len)).collect(),
            curves: (0..130).flat_map(|i| noise(1000 + i, POINTS)).collect(),
        }
    }

    fn config(&self) -> Config {
        Config {
            sample_rate: 48_000.0,
            max_frames: self.frames,
            voices: self.voices,
        }
    }

    fn kind(&self, i: usize) -> SourceKind {
        match (self.also, i) {
            (Also::Preset, 4 | 5) => SourceKind::Held,
            (Also::Preset, 6) | (Also::Glides, 2) => SourceKind::Velocity,
            (Also::Preset, 7) | (Also::Glides, 3) => SourceKind::Key,
            (Also::Preset, 8) => SourceKind::Random,
            (Also::Preset, 9) => SourceKind::RandomPerRoute,
            (Also::Preset, 10) => SourceKind::Constant,
            (Also::Preset | Also::Glides, _) => SourceKind::Signal,
            (_, 60..) if self.rich => SourceKind::Held,
            _ => SourceKind::Signal,
        }
    }

    /// Whether source i is global: of a preset a signal and two that are held.
    fn is_global(&self, i: usize) -> bool {
        self.also == Also::Preset && (3..=5).contains(&i)
    }

    fn sources(&self) -> Sources {
        let mut sources = Sources::new();
        for i in 0..SLOTS {
            let bipolar = self.also == Also::Preset && i == 0;
            let info = SourceInfo {
                key: format!("s{i}"),
                label: String::new(),
                kind: self.kind(i),
                scope: if self.is_global(i) { Scope::Global } else { Scope::Voice },
                range: if bipolar { SourceRange::Bipolar } else { SourceRange::Unipolar },
            };
            sources.add(info).unwrap();
        }
        sources
    }

    fn feed(&self, d: usize) -> Option<Feed> {
        match d {
            7 if self.also == Also::Preset => Some(Feed::Amount(0)),
            12 if self.rich => Some(Feed::Source(SourceId(62))),
            13 if self.rich => Some(Feed::Amount(5)),
            14 if self.rich => Some(Feed::Output(6)),
            15 if self.rich => Some(Feed::Source(SourceId(61))),
            _ => None,
        }
    }

    fn rate(&self, d: usize) -> Rate {
        match (self.also, d) {
            (Also::Preset, 0 | 1) => Rate::Audio,
            (Also::Preset, 9) => Rate::Adaptive,
            (Also::Preset, _) => Rate::Control,
            _ if self.audio => Rate::Audio,
            _ => Rate::Control,
        }
    }

    /// Whether destination d is global.
    fn is_shared(&self, d: usize) -> bool {
        match self.also {
            Also::Global => true,
            Also::Preset => d == 3 || d == 7,
            _ => false,
        }
    }

    fn destinations(&self) -> Destinations {
        let mut dests = Destinations::new();
        for d in 0..self.dests {
            let info = DestinationInfo {
                target: Target::Param(ParamId(d as u32)),
                label: String::new(),
                scope: if self.is_shared(d) { Scope::Global } else { Scope::Voice },
                rate: self.rate(d),
                min: -1.0,
                max: 1.0,
                feed: self.feed(d),
            };
            dests.add(info).unwrap();
        }
        dests
    }

    fn preset_slot(&self, n: usize, plain: Slot, drawn: impl Fn(usize, f32, f32) -> Curve) -> Slot {
        Slot {
            source: Some(SourceId(PRESET_SOURCE[n] as u16)),
            source_curve: match n {
                2 => drawn(2 * n, 0.0, 0.0),
                7 | 9 => drawn(2 * n, 0.05, 0.01),
                _ => Curve::default(),
            },
            destination: Some(Target::Param(ParamId(PRESET_DEST[n] as u32))),
            aux: match n {
                0 => Some(SourceId(4)),
                7 | 9 => Some(SourceId(6)),
                _ => None,
            },
            aux_invert: n == 9,
            ..plain
        }
    }

    fn matrix(&self, input: &Input) -> Matrix {
        let mut matrix = Matrix::new();
        matrix.note_curves.glide = self.also == Also::Glides;
        matrix.note_curves.velocity_legato = self.also == Also::Glides;
        for n in 0..self.slots {
            let x = n as f32;
            let plain = Slot {
                source: Some(SourceId(n as u16)),
                destination: Some(Target::Param(ParamId((n % self.dests) as u32))),
                amount: (x - 31.5) / 64.0,
                polarity: if n % 2 == 0 { Polarity::Unipolar } else { Polarity::Bipolar },
                ..Slot::default()
            };
            let drawn = |place: usize, rise: f32, fall: f32| {
                Curve::Drawn(Box::new(DrawnCurve {
                    shape: Shape::from_table(&input.curves[place * POINTS..(place + 1) * POINTS]),
                    rise,
                    fall,
                }))
            };
            let rise = 0.001 + x / 6400.0;
            let rich = self.rich && (self.also != Also::EveryOther || n % 2 == 0);
            *matrix.slot_mut(n).unwrap() = if self.also == Also::Preset {
                self.preset_slot(n, plain, drawn)
            } else if rich {
                Slot {
                    source_curve: drawn(2 * n, rise, 0.01),
                    aux: Some(SourceId(((n + 7) % 64) as u16)),
                    aux_invert: n % 3 == 0,
                    aux_curve: drawn(2 * n + 1, 0.02, rise),
                    output: 0.5 + x / 128.0,
                    ..plain
                }
            } else {
                plain
            };
        }
        matrix
    }

    fn ready(&self, input: &Input) -> Engine {
        let (sources, dests) = (self.sources(), self.destinations());
        let program = Program::compile(&self.matrix(input), &sources, &dests, self.config());
        assert_eq!(program.route_count(), self.slots);
        let mut engine = Engine::new(&sources, &dests, self.config());
        engine.swap(Box::new(program));
        for d in 0..self.dests {
            engine.set_base(DestId(d as u16), input.samples[d]);
        }
        for v in 0..self.active {
            engine.note_on(v, NoteOn::new(60.0, 1.0));
        }
        if self.also == Also::Glides {
            for v in 0..self.active {
                engine.note_on(v, NoteOn { legato: true, glide_seconds: 1000.0, ..NoteOn::new(72.0, 0.0) });
            }
        }
        engine
    }

    /// Makes an engine, then makes the calls, then the blocks; the hash of its outputs if it is asked for.
    #[inline(never)]
    pub fn rust(&self, input: &Input, call: Call, calls: usize, blocks: usize, hash: bool) -> u64 {
        let mut engine = self.ready(input);
        let e = &mut engine;
        for i in 0..calls {
            let i = black_box(i);
            match call {
                Call::Block => {}
                Call::SetBase => e.set_base(DestId((i % 64) as u16), input.samples[i]),
                Call::SetHeld => e.set_held(SourceId((i % 64) as u16), input.samples[i]),
                Call::NoteOn => e.note_on(i % 64, NoteOn::new(60.0, 1.0)),
            }
            black_box(&mut *e);
        }
        let len = self.len();
        let mut signals = Signals::new();
        for i in 0..SLOTS {
            let at = i % self.buffers * len;
            let width = if self.is_global(i) { 1 } else { self.voices };
            signals.bind(SourceId(i as u16), &input.samples[at..at + len], width);
        }
        for i in 0..blocks {
            if self.also == Also::Notes {
                e.note_on(black_box(blocks - i) % self.active, NoteOn::new(60.0, 1.0));
            }
            e.process_at(simd::level(), black_box(&signals), 0..self.frames);
            black_box(&mut *e);
        }
        if hash { self.hash(&engine) } else { 0 }
    }

    /// FNV-1a over the bits of the outputs, as the port's crate `bench` takes it.
    fn hash(&self, engine: &Engine) -> u64 {
        let mut h = 0xCBF2_9CE4_8422_2325u64;
        let mut eat = |x: f32| {
            for b in x.to_bits().to_le_bytes() {
                h = (h ^ u64::from(b)).wrapping_mul(0x0000_0100_0000_01B3);
            }
        };
        for d in 0..self.dests {
            let lanes = if self.is_shared(d) { 1 } else { self.voices };
            match engine.output(DestId(d as u16)) {
                Output::Audio(a) => (0..self.frames)
                    .for_each(|k| a.frame(k)[..lanes].iter().for_each(|x| eat(*x))),
                Output::Control(c) => (0..c.chunks().len())
                    .for_each(|i| (0..lanes).for_each(|v| eat(c.value(i, v)))),
                Output::Unmodulated => {}
            }
        }
        h
    }
}
