//! Answers single questions about leaves of the published crate, for
//! vectors.py. One question a line; every number is the 8 hexadecimal digits
//! of its bits, NaN is answered as 7FC00000.
//!
//! `table X …`               a table, numbered from 0
//! `lookup T X`              the lookup
//! `rate SECONDS RATE`       the rate per sample of a slew's rise
//! `slew RATE RISE FALL STEPS T PREV:X:SNAP …`
//!                           16 lanes of one slew step; a line a lane:
//!                           `PREV U UP DOWN STEPS SNAP Y`

use std::io::{BufRead as _, Write as _};

use lspk_dsp::lfo::Shape;
use lspk_dsp::simd;
use lspk_mod::{
    Config, Curve, DestinationInfo, Destinations, DrawnCurve, Engine, Matrix, NoteOn, Program, Rate,
    Scope, Signals, Slot, SourceId, SourceInfo, SourceKind, SourceRange, Sources, Target,
    telemetry,
};
use lspk_params::ParamId;

const LANES: usize = 16;

fn float(s: &str) -> f32 {
    f32::from_bits(u32::from_str_radix(s, 16).expect("8 hexadecimal digits"))
}

fn hex(x: f32) -> String {
    format!("{:08X}", if x.is_nan() { 0x7FC0_0000 } else { x.to_bits() })
}

/// One slewed per-voice signal into one destination.
fn program(table: &[f32], rise: f32, fall: f32, rate: Rate, config: Config) -> (Sources, Destinations, Program) {
    let mut sources = Sources::new();
    sources
        .add(SourceInfo {
            key: "s".to_owned(),
            label: String::new(),
            kind: SourceKind::Signal,
            scope: Scope::Voice,
            range: SourceRange::Unipolar,
        })
        .expect("one source");
    let mut dests = Destinations::new();
    let target = Target::Param(ParamId(0));
    dests
        .add(DestinationInfo {
            target,
            label: String::new(),
            scope: Scope::Voice,
            rate,
            min: f32::NEG_INFINITY,
            max: f32::INFINITY,
            feed: None,
        })
        .expect("one destination");
    let mut matrix = Matrix::new();
    *matrix.slot_mut(0).expect("slot 0") = Slot {
        source: Some(SourceId(0)),
        destination: Some(target),
        amount: 1.0,
        source_curve: Curve::Drawn(Box::new(DrawnCurve {
            shape: Shape::from_table(table),
            rise,
            fall,
        })),
        ..Slot::default()
    };
    let p = Program::compile(&matrix, &sources, &dests, config);
    (sources, dests, p)
}

/// The step's memory afterwards, and both rates. A fresh voice in the second
/// group makes the first chunk tick wherever it starts.
fn slew(table: &[f32], w: &[&str]) -> Vec<String> {
    let config = Config {
        sample_rate: float(w[0]),
        max_frames: 32,
        voices: LANES + 1,
    };
    let steps = float(w[3]);
    let lanes: Vec<Vec<f32>> = w[5..]
        .iter()
        .map(|l| l.split(':').map(float).collect())
        .collect();
    assert_eq!(lanes.len(), LANES, "16 lanes");
    let rate = if steps == 1.0 { Rate::Audio } else { Rate::Control };
    let (sources, dests, mut p) = program(table, float(w[1]), float(w[2]), rate, config);
    let (up, down) = telemetry::slew_rates(&p).expect("a slew");
    telemetry::set_slew(&mut p, &lanes.iter().map(|l| l[0]).collect::<Vec<f32>>());
    let mut engine = Engine::new(&sources, &dests, config);
    let mut signals = Signals::new();
    if steps == 0.0 {
        engine.process_at(simd::level(), &signals, 0..5);
    }
    let empty = engine.swap(Box::new(p));
    for (v, lane) in lanes.iter().enumerate() {
        let mut note = NoteOn::new(60.0, 1.0);
        note.legato = lane[2] == 0.0;
        engine.note_on(v, note);
    }
    engine.note_on(LANES, NoteOn::new(60.0, 1.0));
    let mut row: Vec<f32> = lanes.iter().map(|l| l[1]).collect();
    row.resize(2 * LANES, 0.0);
    signals.bind(SourceId(0), &row, 2 * LANES);
    engine.process_at(simd::level(), &signals, 0..1);
    let p = engine.swap(empty);
    let (_, _, after) = telemetry::slews(&p).next().expect("a slew");
    lanes
        .iter()
        .zip(after)
        .map(|(l, y)| {
            let u = telemetry::lookup(table, l[1]);
            [l[0], u, up, down, steps, l[2], *y].map(hex).join(" ")
        })
        .collect()
}

fn main() {
    let mut tables: Vec<Vec<f32>> = Vec::new();
    let mut out = std::io::stdout().lock();
    for line in std::io::stdin().lock().lines() {
        let line = line.expect("text");
        let w: Vec<&str> = line.split_whitespace().collect();
        let number = |s: &str| usize::from_str_radix(s, 16).expect("a table's number");
        let answers = match w[0] {
            "table" => {
                tables.push(w[1..].iter().map(|x| float(x)).collect());
                continue;
            }
            "lookup" => vec![hex(telemetry::lookup(&tables[number(w[1])], float(w[2])))],
            "rate" => {
                let config = Config {
                    sample_rate: float(w[2]),
                    max_frames: 0,
                    voices: 1,
                };
                // A fall of 1 s, so that there is a slew whatever the rise.
                let (_, _, p) = program(&[0.0; 513], float(w[1]), 1.0, Rate::Control, config);
                vec![hex(telemetry::slew_rates(&p).expect("a slew").0)]
            }
            "slew" => slew(&tables[number(w[5])], &w[1..]),
            x => panic!("not a question: {x}"),
        };
        for a in answers {
            writeln!(out, "{a}").expect("standard output");
        }
    }
}
