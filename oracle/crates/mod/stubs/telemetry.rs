//! Stand-in for telemetry, used as the oracle's window onto what only the
//! crate itself can see. It writes one thing, a slew's memory, and that only
//! for the vectors, on a program outside an engine.

use std::fmt::Write;

use crate::dest::DestId;
use crate::program::{Base, Gain, Input, Program, Read, SkipReason};

fn scope(voice: bool) -> &'static str {
    if voice { "v" } else { "g" }
}

fn hex(x: f32) -> String {
    format!("{:08X}", x.to_bits())
}

/// The destination whose tick values start at `at`.
fn dest_at(p: &Program, at: u32) -> u16 {
    p.plans
        .iter()
        .find(|plan| plan.at == at as usize)
        .map_or(u16::MAX, |plan| plan.id.0)
}

fn read(p: &Program, r: Read) -> String {
    match r {
        Read::Signal { src, voice } => format!("sig:{src}:{}", scope(voice)),
        Read::Held { src, voice } => format!("held:{src}:{}", scope(voice)),
        Read::Fed { at, voice } => format!("fed:{}:{at}:{}", dest_at(p, at), scope(voice)),
        Read::Constant => "const".to_owned(),
        Read::RouteRandom { at } => format!("rnd:{at}"),
    }
}

fn gain(p: &Program, g: Gain) -> String {
    match g {
        Gain::Live => "live".to_owned(),
        Gain::Fed { at, voice } => format!("fed:{}:{at}:{}", dest_at(p, at), scope(voice)),
    }
}

fn input(p: &Program, i: &Input) -> String {
    let curve = i.curve.map_or("-".to_owned(), |c| c.to_string());
    let slew = i.slew.map_or("-".to_owned(), |s| {
        format!("{}:{}:{}", s.at, hex(s.up), hex(s.down))
    });
    format!(
        "{} {} curve {curve} slew {slew}",
        read(p, i.read),
        if i.bipolar { "b" } else { "u" }
    )
}

/// The whole program, as text.
#[must_use]
pub fn dump(p: &Program) -> String {
    let mut s = String::new();
    let _ = writeln!(
        s,
        "PROGRAM stride {} plans {} control {} routes {} luts {} slew {} random {} glide {} vlegato {}",
        p.stride,
        p.plans.len(),
        p.control,
        p.routes.len(),
        p.luts.len(),
        p.slew.len(),
        p.random.len(),
        u8::from(p.glide),
        u8::from(p.velocity_legato),
    );
    for k in p.skipped() {
        let why = match k.reason {
            SkipReason::UnknownSource => "source",
            SkipReason::UnknownAux => "aux",
            SkipReason::UnknownDestination => "dest",
        };
        let _ = writeln!(s, "SKIP {} {why}", k.slot);
    }
    for (i, plan) in p.plans.iter().enumerate() {
        let base = match plan.base {
            Base::Set => "set".to_owned(),
            Base::Held(src) => format!("held:{src}"),
            Base::Amount(n) => format!("amt:{n}"),
            Base::Output(n) => format!("out:{n}"),
        };
        let _ = writeln!(
            s,
            "PLAN {i} dest {} scope {} rate {} base {base} min {} max {} routes {} {} at {} out {}",
            plan.id.0,
            scope(plan.voice),
            if plan.audio { "a" } else { "c" },
            hex(plan.min),
            hex(plan.max),
            plan.routes.start,
            plan.routes.end,
            plan.at,
            plan.out,
        );
    }
    for (i, r) in p.routes.iter().enumerate() {
        let _ = writeln!(
            s,
            "ROUTE {i} slot {} plan {} scope {} pol {} inv {} amt {} out {} affine {} {} steady {} simple {} src {} aux {}",
            r.slot,
            r.dest,
            scope(r.voice),
            if r.bipolar { "b" } else { "u" },
            u8::from(r.aux_invert),
            gain(p, r.amount),
            gain(p, r.output),
            hex(r.affine.0),
            hex(r.affine.1),
            u8::from(r.steady),
            u8::from(r.simple),
            input(p, &r.source),
            r.aux.as_ref().map_or("-".to_owned(), |a| input(p, a)),
        );
    }
    s
}

/// Control destination `dest`'s rows for the first `chunks` chunks: width,
/// from, to. The same parts `Engine::output` lends (its fields are private).
#[must_use]
pub fn control_rows(p: &Program, dest: DestId, chunks: usize) -> Option<(usize, &[f32], &[f32])> {
    let i = (*p.by_dest.get(dest.index())?)?;
    let plan = &p.plans[usize::from(i)];
    let w = plan.width(p.stride);
    (!plan.audio).then(|| {
        let part = plan.out..plan.out + chunks * w;
        (w, &p.chunk_from[part.clone()], &p.chunk_to[part])
    })
}

/// Audio destination `dest`'s width and all its rows.
#[must_use]
pub fn audio_rows(p: &Program, dest: DestId) -> Option<(usize, &[f32])> {
    let i = (*p.by_dest.get(dest.index())?)?;
    let plan = &p.plans[usize::from(i)];
    let w = plan.width(p.stride);
    plan.audio
        .then(|| (w, &p.audio[plan.out..plan.out + w * p.config.max_frames]))
}

/// The tick values of the plans by destination: (dest, width, from, cur).
pub fn ticks(p: &Program) -> impl Iterator<Item = (u16, &[f32], &[f32])> {
    p.plans[..p.control].iter().map(|plan| {
        let w = plan.width(p.stride);
        let part = plan.at..plan.at + w;
        (plan.id.0, &p.from[part.clone()], &p.cur[part])
    })
}

/// Slew states by (slot, 0 source or 1 aux), one lane stride each.
pub fn slews(p: &Program) -> impl Iterator<Item = (u8, u8, &[f32])> {
    p.routes.iter().flat_map(|r| {
        [(0u8, Some(r.source)), (1, r.aux)]
            .into_iter()
            .filter_map(|(n, i)| {
                let s = i?.slew?.at as usize;
                Some((r.slot, n, &p.slew[s..s + p.stride]))
            })
    })
}

/// Per-route randoms by (slot, 0 source or 1 aux), one lane stride each.
pub fn randoms(p: &Program) -> impl Iterator<Item = (u8, u8, &[f32])> {
    p.routes.iter().flat_map(|r| {
        [(0u8, Some(r.source)), (1, r.aux)]
            .into_iter()
            .filter_map(|(n, i)| match i?.read {
                Read::RouteRandom { at } => {
                    let at = at as usize;
                    Some((r.slot, n, &p.random[at..at + p.stride]))
                }
                _ => None,
            })
    })
}

/// Whether its control destinations have ticked since it was installed.
#[must_use]
pub fn primed(p: &Program) -> bool {
    p.primed
}

/// How many destinations it was compiled against.
#[must_use]
pub fn dest_count(p: &Program) -> usize {
    p.by_dest.len()
}

/// `curve::lookup`, as it stands.
#[must_use]
pub fn lookup(table: &[f32], x: f32) -> f32 {
    crate::curve::lookup(table, x)
}

/// The rates per sample, up and down, of the first route's source slew.
#[must_use]
pub fn slew_rates(p: &Program) -> Option<(f32, f32)> {
    let s = p.routes.first()?.source.slew?;
    Some((s.up, s.down))
}

/// Sets the first numbers of the first route's source slew.
pub fn set_slew(p: &mut Program, lanes: &[f32]) {
    if let Some(s) = p.routes.first().and_then(|r| r.source.slew) {
        let at = s.at as usize;
        p.slew[at..at + lanes.len()].copy_from_slice(lanes);
    }
}
