//! What is timed: the rows of docs/SPEED.md.

use crate::scene::{Also, Call, Scene};

pub struct Row {
    /// A short name, to ask for the row by.
    pub key: String,
    pub text: String,
    pub scene: Scene,
    pub call: Call,
}

/// 64 plain slots from 64 signals into one audio destination, 64 voices, 512 frames.
const AUDIO: Scene = Scene {
    slots: 64,
    dests: 1,
    audio: true,
    rich: false,
    voices: 64,
    active: 64,
    frames: 512,
    buffers: 64,
    also: Also::Nothing,
};
/// The same into 64 control destinations.
const CONTROL: Scene = Scene { dests: 64, audio: false, ..AUDIO };

fn row(key: &str, text: String, scene: Scene, call: Call) -> Row {
    Row { key: key.to_owned(), text, scene, call }
}

pub fn main_rows() -> Vec<Row> {
    let block = |key: &str, text: &str, scene| row(key, text.to_owned(), scene, Call::Block);
    let mut rows = vec![
        block("a", "64 slots into 1 audio destination", AUDIO),
        block("b", "64 slots into 64 audio destinations", Scene { dests: 64, ..AUDIO }),
        block("c", "64 slots into 64 control destinations", CONTROL),
        block("d", "64 slots with curves, slews and aux into 16 control destinations, 4 of which feed", Scene { dests: 16, rich: true, ..CONTROL }),
    ];
    for (key, what, scene) in [("a", "1 audio destination", AUDIO), ("c", "64 control destinations", CONTROL)] {
        for active in [1, 16, 17, 64] {
            let voices = if active == 1 { "voice" } else { "voices" };
            let text = format!("64 slots into {what}, {active} active {voices}");
            rows.push(row(&format!("e{key}{active}"), text, Scene { active, ..scene }, Call::Block));
        }
    }
    rows.push(block("f", "no routes", Scene { slots: 0, ..CONTROL }));
    rows.push(row("g1", "one `set_base`".to_owned(), CONTROL, Call::SetBase));
    rows.push(row("g2", "one `set_held`".to_owned(), CONTROL, Call::SetHeld));
    rows.push(row("h", "one `note_on`".to_owned(), CONTROL, Call::NoteOn));
    rows
}

pub fn growth_rows() -> Vec<Row> {
    let mut rows = Vec::new();
    for (key, what, base) in [("a", "1 audio destination", AUDIO), ("c", "a control destination each", CONTROL)] {
        for slots in [1, 4, 16, 64] {
            let routes = if slots == 1 { "route" } else { "routes" };
            let scene = Scene { slots, dests: base.dests.min(slots), ..base };
            rows.push(row(&format!("r{key}{slots}"), format!("{slots} {routes} into {what}"), scene, Call::Block));
        }
        for frames in [32, 128, 512, 2048, 4096] {
            let text = format!("{frames} frames, 64 routes into {what}");
            rows.push(row(&format!("n{key}{frames}"), text, Scene { frames, ..base }, Call::Block));
        }
        for voices in [1, 4, 16, 64] {
            let plural = if voices == 1 { "voice" } else { "voices" };
            let text = format!("{voices} {plural}, 64 routes into {what}");
            let scene = Scene { voices, active: voices, ..base };
            rows.push(row(&format!("v{key}{voices}"), text, scene, Call::Block));
        }
    }
    rows
}

/// Blocks with curves, slews and aux, with glides, with a note each, into global destinations, and of a preset.
pub fn kind_rows() -> Vec<Row> {
    let mut rows = Vec::new();
    for (key, what, base) in [("d", "a control", CONTROL), ("x", "an audio", AUDIO)] {
        for slots in [1, 4, 16] {
            let routes = if slots == 1 { "route" } else { "routes" };
            let text = format!("{slots} {routes} with curves, slews and aux into {what} destination each");
            let scene = Scene { slots, dests: slots, rich: true, ..base };
            rows.push(row(&format!("r{key}{slots}"), text, scene, Call::Block));
        }
    }
    for (key, what, base) in [("c", "control", CONTROL), ("a", "audio", AUDIO)] {
        for slots in [4, 64] {
            let dests = slots.min(32);
            let text = format!("{slots} slots, every other with curves, slews and aux, into {dests} {what} destinations");
            let scene = Scene { slots, dests, rich: true, also: Also::EveryOther, ..base };
            rows.push(row(&format!("m{key}{slots}"), text, scene, Call::Block));
        }
    }
    for (key, more, also) in [
        ("l", "velocity and key gliding", Also::Glides),
        ("t", "a note in every block", Also::Notes),
        ("o", "all global", Also::Global),
    ] {
        for slots in [4, 64] {
            let text = format!("{slots} slots into a control destination each, {more}");
            let scene = Scene { slots, dests: slots, also, ..CONTROL };
            rows.push(row(&format!("{key}c{slots}"), text, scene, Call::Block));
        }
        let text = format!("64 slots into 1 audio destination, {more}");
        rows.push(row(&format!("{key}a64"), text, Scene { also, ..AUDIO }, Call::Block));
    }
    let preset = Scene { slots: 12, dests: 10, voices: 8, active: 8, frames: 128, also: Also::Preset, ..CONTROL };
    rows.push(row("p", "a preset: 8 voices, 12 slots of all kinds into 10 destinations, 128 frames".to_owned(), preset, Call::Block));
    rows
}
