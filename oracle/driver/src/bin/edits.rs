//! Makes the editor's calls on the published matrix, for edits.py: a call a line, what it answers and what the matrix
//! is afterwards. crates/replay_edits/data/HOW.txt says what the words of a line are; a question has those up to the answer
//! (and the slot's, for a slot that is set), the answer line all of them.
//!
//! Where document 01 refuses a call (a number that is not finite) it is not made, and its number is the answer. With
//! `--all` every call is made, and such a line is followed by what the published code does.

use std::io::{BufRead as _, Write as _};
use std::panic::{AssertUnwindSafe, catch_unwind};

use lspk_mod::curve::diagonal;
use lspk_mod::{
    Curve, Drag, DrawnCurve, EditError, Matrix, Polarity, Slot, SourceId, Target, drag_polarity,
    limit_depth,
};
use lspk_params::ParamId;

const NOTHING: u32 = 0xFFFF_FFFF;
const NO_SLOT: u32 = 64;
const INPUTS: usize = 10;
const SLOT: usize = 13;
const WORDS: usize = 24;

const CLEAR: u32 = 0;
const PUT: u32 = 1;
const DRAG: u32 = 2;
const VIBRATO: u32 = 3;
const VELOCITY: u32 = 4;
const POLARITY: u32 = 5;
const DEPTH: u32 = 6;

fn bits(x: f32) -> u32 {
    if x.is_nan() { 0x7FC0_0000 } else { x.to_bits() }
}

fn source(w: u32) -> SourceId {
    SourceId(u16::try_from(w).expect("a source number of 16 bits"))
}

fn pick(w: u32) -> Option<SourceId> {
    (w != NOTHING).then(|| source(w))
}

fn target(kind: u32, n: u32) -> Option<Target> {
    match kind {
        0 => None,
        1 => Some(Target::Param(ParamId(n))),
        _ => Some(Target::LfoBus {
            lfo: (n >> 8) as u8,
            bus: n as u8,
        }),
    }
}

fn polarity(flags: u32) -> Polarity {
    if flags & 1 == 1 {
        Polarity::Bipolar
    } else {
        Polarity::Unipolar
    }
}

fn curve(on: bool, rise: u32, fall: u32) -> Curve {
    if !on {
        return Curve::LINEAR;
    }
    Curve::Drawn(Box::new(DrawnCurve {
        shape: diagonal(),
        rise: f32::from_bits(rise),
        fall: f32::from_bits(fall),
    }))
}

fn slot(w: &[u32]) -> Slot {
    Slot {
        source: pick(w[0]),
        aux: pick(w[1]),
        destination: target(w[2], w[3]),
        amount: f32::from_bits(w[4]),
        output: f32::from_bits(w[5]),
        polarity: polarity(w[6]),
        aux_invert: w[6] & 2 != 0,
        bypass: w[6] & 4 != 0,
        source_curve: curve(w[6] & 8 != 0, w[7], w[8]),
        aux_curve: curve(w[6] & 16 != 0, w[9], w[10]),
    }
}

/// A slot's eleven words.
fn words(s: &Slot) -> Vec<u32> {
    let id = |s: Option<SourceId>| s.map_or(NOTHING, |s| u32::from(s.0));
    let (kind, n) = match s.destination {
        None => (0, 0),
        Some(Target::Param(ParamId(n))) => (1, n),
        Some(Target::LfoBus { lfo, bus }) => (2, u32::from(lfo) << 8 | u32::from(bus)),
    };
    let flags = u32::from(s.polarity == Polarity::Bipolar)
        | u32::from(s.aux_invert) << 1
        | u32::from(s.bypass) << 2
        | u32::from(!s.source_curve.is_linear()) << 3
        | u32::from(!s.aux_curve.is_linear()) << 4;
    let seconds = |c: &Curve| match c {
        Curve::Bend(_) => (0.0, 0.0),
        Curve::Drawn(d) => (d.rise, d.fall),
    };
    let (a, b) = (seconds(&s.source_curve), seconds(&s.aux_curve));
    let numbers = [s.amount, s.output, a.0, a.1, b.0, b.1].map(bits);
    let mut w = vec![id(s.source), id(s.aux), kind, n, numbers[0], numbers[1], flags];
    w.extend(&numbers[2..]);
    w
}

/// Where a route went, as a word.
fn place(r: Result<usize, EditError>) -> u32 {
    match r {
        Ok(n) => n as u32,
        Err(EditError::Full) => 64,
        Err(EditError::NoFreeLfo) => 65,
        Err(EditError::NoSlot(_)) => 0x105,
        Err(e) => panic!("{e}"),
    }
}

/// The number with which document 01 refuses the call: row 6, for the numbers that the call takes.
fn refused(w: &[u32]) -> Option<u32> {
    let taken: &[usize] = match w[0] {
        PUT if w[12] < NO_SLOT => &[SLOT + 4, SLOT + 5, SLOT + 7, SLOT + 8, SLOT + 9, SLOT + 10],
        DRAG | DEPTH => &[4, 5],
        VIBRATO | VELOCITY => &[5],
        POLARITY => &[4],
        _ => &[],
    };
    let finite = taken.iter().all(|i| f32::from_bits(w[*i]).is_finite());
    (!finite).then_some(0x106)
}

/// The answer of the call and its number.
fn made(m: &mut Matrix, w: &[u32]) -> (u32, f32) {
    let number = |i: usize| f32::from_bits(w[i]);
    let to = || target(w[2], w[3]).expect("a target");
    let drag = Drag {
        toggle: w[6] & 1 != 0,
        limit: w[6] & 2 != 0,
    };
    match w[0] {
        CLEAR => {
            *m = Matrix::new();
            (0, 0.0)
        }
        PUT => {
            let set = m.slot_mut(w[12] as usize).map(|s| *s = slot(&w[SLOT..]));
            (place(set.map(|()| 0)), 0.0)
        }
        DRAG => (place(m.drag(source(w[1]), to(), number(4), number(5), drag)), 0.0),
        VIBRATO => {
            let bytes = [w[8].to_be_bytes(), w[9].to_be_bytes()].concat();
            let lfos: Vec<SourceId> = bytes.iter().map(|b| SourceId(u16::from(*b))).collect();
            (place(m.create_vibrato(&lfos[..w[7] as usize], source(w[1]), to(), number(5))), 0.0)
        }
        VELOCITY => (place(m.create_velocity_to_amp(source(w[1]), to(), number(5))), 0.0),
        POLARITY => (u32::from(drag_polarity(number(4), drag.toggle) == Polarity::Bipolar), 0.0),
        DEPTH => (0, limit_depth(number(4), polarity(w[6]), number(5))),
        x => panic!("not a call: {x}"),
    }
}

/// The line: the question, its answer, and the slot that is not as it was.
fn line(w: &[u32], answer: (u32, f32), before: &Matrix, after: &Matrix) -> String {
    let changed: Vec<usize> = (0..64).filter(|n| before.slots()[*n] != after.slots()[*n]).collect();
    assert!(changed.len() < 2 || w[0] == CLEAR, "more than one slot changed");
    assert!(before.note_curves == after.note_curves, "the note curves changed");
    let mut out = w[..INPUTS].to_vec();
    out.extend([answer.0, bits(answer.1)]);
    match changed[..] {
        [n] if w[0] != CLEAR => {
            out.push(n as u32);
            out.extend(words(&after.slots()[n]));
        }
        // A slot that is refused, or set as it was, has the question's words.
        _ if w[0] == PUT => out.extend(&w[12..]),
        _ => out.extend([&[NO_SLOT][..], &[0; WORDS - SLOT][..]].concat()),
    }
    out.iter().map(|w| format!("{w:08X}")).collect::<Vec<_>>().join(" ")
}

fn main() {
    let all = std::env::args().nth(1).as_deref() == Some("--all");
    std::panic::set_hook(Box::new(|_| {}));
    let mut m = Matrix::new();
    let mut out = std::io::stdout().lock();
    for text in std::io::stdin().lock().lines() {
        let text = text.expect("text");
        let mut w: Vec<u32> = text
            .split_whitespace()
            .map(|x| u32::from_str_radix(x, 16).expect("8 hexadecimal digits"))
            .collect();
        w.resize(WORDS, 0);
        let before = m.clone();
        if let Some(row) = refused(&w) {
            writeln!(out, "{}", line(&w, (row, 0.0), &before, &before)).expect("standard output");
            if all {
                let mut other = m.clone();
                let does = match catch_unwind(AssertUnwindSafe(|| made(&mut other, &w))) {
                    Err(_) => "panics".to_owned(),
                    Ok(a) => line(&w, a, &before, &other),
                };
                writeln!(out, "# the Rust: {does}").expect("standard output");
            }
            continue;
        }
        let answer = made(&mut m, &w);
        writeln!(out, "{}", line(&w, answer, &before, &m)).expect("standard output");
    }
}
