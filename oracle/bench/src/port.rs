//! The port's side of a scenario: the function that its crate `bench` exports, and the memories that it is lent.

use crate::scene::{Also, Input, SLOTS, Scene, TABLES};

/// The memories of one engine and one program, as large as docs/CALLS.md says.
#[cfg_attr(not(feature = "port"), allow(dead_code))]
pub struct Memories {
    held: Vec<f32>,
    globals: Vec<f32>,
    bases: Vec<f32>,
    values: Vec<f32>,
    audio: Vec<f32>,
    tables: Vec<f32>,
}

impl Memories {
    pub fn new(scene: &Scene) -> Self {
        let stride = scene.voices.div_ceil(16).max(1) * 16;
        let chunks = scene.frames / 32 + 2;
        let plans = scene.dests.min(scene.slots);
        Self {
            held: vec![0.0; stride * SLOTS],
            globals: vec![0.0; SLOTS],
            bases: vec![0.0; scene.dests],
            values: vec![0.0; stride * (plans * (2 * chunks + 6) + 8 * scene.slots)],
            audio: vec![0.0; stride * plans * scene.frames],
            tables: vec![0.0; if scene.rich || scene.also == Also::Preset { TABLES } else { 0 }],
        }
    }
}

/// What the port answered: the first refusal, or 0, and the hash if it was asked for.
pub struct Answer {
    pub code: u64,
    pub hash: u64,
}

#[cfg(feature = "port")]
mod linked {
    use super::{Answer, Input, Memories, Scene};
    use crate::scene::Call;

    unsafe extern "C" {
        // a slice is passed as its address and its length
        fn tinuhawe_bench(
            numbers: *const usize,
            numbers_len: usize,
            held: *mut f32,
            held_len: usize,
            globals: *mut f32,
            globals_len: usize,
            bases: *mut f32,
            bases_len: usize,
            values: *mut f32,
            values_len: usize,
            audio: *mut f32,
            audio_len: usize,
            tables: *mut f32,
            tables_len: usize,
            curves: *const f32,
            curves_len: usize,
            samples: *const f32,
            samples_len: usize,
            hash: *mut u64,
            hash_len: usize,
        ) -> u64;
    }

    /// Makes an engine, then makes the calls, then the blocks; the hash of its outputs if it is asked for.
    #[inline(never)]
    pub fn run(s: &Scene, m: &mut Memories, input: &Input, call: Call, calls: usize, blocks: usize, hash: bool) -> Answer {
        let numbers = [
            s.slots,
            s.dests,
            usize::from(s.audio),
            usize::from(s.rich),
            s.voices,
            s.active,
            s.frames,
            s.buffers,
            call as usize,
            calls,
            blocks,
            s.also as usize,
        ];
        let mut place = [0u64];
        // SAFETY: every address and length is that of a slice, no slice that is written overlaps another, and the function is
        // proved to touch nothing else.
        let code = unsafe {
            tinuhawe_bench(
                numbers.as_ptr(),
                numbers.len(),
                m.held.as_mut_ptr(),
                m.held.len(),
                m.globals.as_mut_ptr(),
                m.globals.len(),
                m.bases.as_mut_ptr(),
                m.bases.len(),
                m.values.as_mut_ptr(),
                m.values.len(),
                m.audio.as_mut_ptr(),
                m.audio.len(),
                m.tables.as_mut_ptr(),
                m.tables.len(),
                input.curves.as_ptr(),
                input.curves.len(),
                input.samples.as_ptr(),
                input.samples.len(),
                place.as_mut_ptr(),
                usize::from(hash),
            )
        };
        Answer { code, hash: place[0] }
    }
}

#[cfg(feature = "port")]
pub use linked::run;

/// Without the archive there is no port to run.
#[cfg(not(feature = "port"))]
pub fn run(_: &Scene, _: &mut Memories, _: &Input, _: crate::scene::Call, _: usize, _: usize, _: bool) -> Answer {
    unreachable!("the port is not linked")
}

/// Whether the port is linked.
pub const HERE: bool = cfg!(feature = "port");
