//! An order-free model of document 01, run on oracle sessions. At a tick of an unbarred program each control value is found lane by lane by
//! asking feeders for theirs, recursively; plan order serves draws and barred programs only.
//! After each unbarred tick it also checks Rule(V) and that perturbed V break it.
use std::collections::{BTreeMap, HashMap, HashSet};
use std::io::Read as _;

fn fl(s: &str) -> f32 { f32::from_bits(u32::from_str_radix(s, 16).unwrap()) }
fn bits(x: f32) -> u32 { if x.is_nan() { 0x7FC00000 } else if x == 0.0 { 0 } else { x.to_bits() } }
fn same(a: f32, b: f32) -> bool { bits(a) == bits(b) }
fn fmax(a: f32, b: f32) -> f32 { if a.is_nan() || a < b { b } else { a } }
fn fmin(a: f32, b: f32) -> f32 { if a.is_nan() || b < a { b } else { a } }
fn cl(x: f32, lo: f32, hi: f32) -> f32 { if x < lo { lo } else if x > hi { hi } else { x } }
fn lookup(t: &[f32], x: f32) -> f32 {
    let pos = cl(x, 0.0, 1.0) * 512.0;
    let i = if pos.is_nan() { 0 } else { (pos as usize).min(511) };
    t[i] + (t[i + 1] - t[i]) * (pos - i as f32)
}

#[derive(Clone, Copy, PartialEq, Eq, Hash, PartialOrd, Ord, Debug)]
enum Thing { Src(usize), Amt(usize), Out(usize) }
#[derive(Clone)]
struct Source { kind: String, voice: bool, bip: bool }
#[derive(Clone)]
struct Dest { t: String, voice: bool, rate: String, min: f32, max: f32, feed: Option<Thing> }
#[derive(Clone)]
struct Curve { table: Vec<f32>, rise: f32, fall: f32 }
#[derive(Clone)]
struct Slot { src: Option<usize>, aux: Option<usize>, inv: bool, sc: Option<Curve>, ac: Option<Curve>, amt: f32, out: f32, bip: bool, dst: Option<String>, byp: bool }
impl Default for Slot { fn default() -> Self { Slot { src: None, aux: None, inv: false, sc: None, ac: None, amt: 0.0, out: 1.0, bip: false, dst: None, byp: false } } }
#[derive(Clone, Copy)]
enum Rd { Fed(usize), Sig(usize, bool), Held(usize, bool), Const, Rnd }
#[derive(Clone)]
struct Input { rd: Rd, voice: bool, bip: bool, table: Option<Vec<f32>>, slew: Option<(f32, f32)> }
#[derive(Clone)]
struct Route { n: usize, d: usize, inp: [Option<Input>; 2], inv: bool, bip: bool, aff: (f32, f32), fa: Option<usize>, fo: Option<usize>, rv: bool, simple: bool }
type Vals = BTreeMap<usize, Vec<f32>>;
type Key = (usize, usize);
#[derive(Clone)]
struct Prog {
    config: (f32, usize, usize), dests: Vec<Dest>, note: (Vec<f32>, Vec<f32>, bool, bool), amt: [f32; 64], out: [f32; 64],
    routes: Vec<Route>, cf: BTreeMap<usize, Option<Thing>>, ctl: Vec<usize>, order: Vec<usize>, audio: Vec<usize>, barred: bool,
    w: BTreeMap<usize, usize>, primed: bool, cur: Vals, frm: Vals, slew: HashMap<Key, Vec<f32>>, rnd: HashMap<Key, Vec<f32>>,
    rf: BTreeMap<usize, Vec<Vec<f32>>>, rt: BTreeMap<usize, Vec<Vec<f32>>>, aud: BTreeMap<usize, Vec<Vec<f32>>>,
}
struct Eng {
    config: (f32, usize, usize), src: Vec<Source>, nd: usize, s: usize, v: usize, held: Vec<Vec<f32>>, hg: Vec<f32>, base: Vec<f32>,
    amt: [f32; 64], out: [f32; 64], active: Vec<bool>, fresh: Vec<bool>, ren: Vec<bool>, af: bool, ar: bool, order: Vec<usize>, newest: Option<usize>,
    nv: [Vec<f32>; 2], gt: [Vec<f32>; 2], gs: [Vec<f32>; 2], alt: bool, rng: u64, limit: usize, phase: usize, chunks: Vec<(usize, usize, usize, bool)>, p: Prog,
    bound: BTreeMap<usize, (usize, Vec<f32>)>, stat: [usize; 4],
}
fn fnv<'a>(r: impl Iterator<Item = &'a f32>) -> u64 { r.flat_map(|x| bits(*x).to_le_bytes()).fold(0xCBF2_9CE4_8422_2325u64, |h, b| (h ^ u64::from(b)).wrapping_mul(0x0000_0100_0000_01B3)) }
fn stride(c: (f32, usize, usize)) -> usize { c.2.div_ceil(16).max(1) * 16 }
fn diag() -> Vec<f32> { (0..513).map(|i| i as f32 / 512.0).collect() }

struct Tick<'a> { e: &'a Eng, k: usize, end: usize, steps: f32, snapping: bool, kept_rule: bool }
impl Tick<'_> {
    fn snap(&self, r: &Route, m: usize) -> f32 { if self.snapping && r.rv && self.e.fresh[m] { 1.0 } else { 0.0 } }
    fn raw(&self, r: &Route, p: usize, m: usize, fed: &dyn Fn(usize, usize) -> f32) -> f32 {
        let e = self.e;
        match r.inp[p].as_ref().unwrap().rd {
            Rd::Fed(d) => fed(d, m),
            Rd::Const => 1.0,
            Rd::Rnd => e.p.rnd[&(r.n, p)][m],
            Rd::Held(i, true) => e.held[i][m],
            Rd::Held(i, false) => e.hg[i],
            Rd::Sig(i, v) => match e.bound.get(&i) {
                None => 0.0,
                Some((st, d)) => { let st = (*st).max(1);
                    if v { if m < st { d.get(self.k * st + m).copied().unwrap_or(0.0) } else { 0.0 } } else { d.get(self.k * st).copied().unwrap_or(0.0) } }
            },
        }
    }
    fn input(&self, r: &Route, p: usize, m: usize, fed: &dyn Fn(usize, usize) -> f32) -> f32 {
        let i = r.inp[p].as_ref().unwrap();
        let mut u = self.raw(r, p, m, fed);
        if i.bip { u = u * 0.5 + 0.5; }
        if let Some(t) = &i.table { u = lookup(t, u); }
        if let Some((up, dn)) = i.slew {
            let prev = self.e.p.slew[&(r.n, p)][m];
            let (up, dn) = if self.steps == 0.0 { (0.0, 0.0) } else { (up * self.steps, dn * self.steps) };
            let mv = prev + fmin(fmax(u - prev, -dn), up);
            u = mv + (u - mv) * self.snap(r, m);
        }
        u
    }
    fn term(&self, r: &Route, m: usize, fed: &dyn Fn(usize, usize) -> f32) -> f32 {
        let mut x = if r.inp[0].as_ref().unwrap().table.is_none() { self.raw(r, 0, m, fed) * r.aff.0 + r.aff.1 } else {
            let u = self.input(r, 0, m, fed); if r.bip { u * 2.0 - 1.0 } else { u } };
        if r.inp[1].is_some() { let a = self.input(r, 1, m, fed); x *= if r.inv { 1.0 - a } else { a }; }
        let ga = r.fa.map_or(self.e.amt[r.n], |d| fed(d, m));
        let go = r.fo.map_or(self.e.out[r.n], |d| fed(d, m));
        x * (ga * go)
    }
    /// Destination d, lane l, before holding; None where a lane keeps old audio.
    fn sum(&self, d: usize, l: usize, fed: &dyn Fn(usize, usize) -> f32) -> Option<f32> {
        let e = self.e; let p = &e.p;
        let base = e.base_of(d);
        let rs = p.routes.iter().filter(|r| r.d == d);
        if !p.dests[d].voice {
            let mut s = base;
            for r in rs { if e.dead(r) { continue; }
                if r.rv { if let Some(n) = e.newest { s += self.term(r, n, fed); } } else { s += self.term(r, 0, fed); } }
            return Some(s);
        }
        let (grp, span) = e.masks();
        let pl: Vec<&Route> = p.routes.iter().filter(|r| r.d == d && span.contains(&true) && e.plain(r, self.end)).collect();
        let mut s = base;
        if !pl.is_empty() {
            if span[l] {
                let mut off = 0.0; for r in &pl { off += r.aff.1 * e.gain(r); }
                s = base + off;
                for r in &pl { let a = r.aff.0 * e.gain(r); if a != 0.0 { s += self.raw(r, 0, l, fed) * a; } }
            } else if self.kept_rule { return None; }
        }
        if grp[l] { for r in rs { if pl.iter().any(|q| q.n == r.n) || e.dead(r) { continue; } s += self.term(r, if r.rv { l } else { 0 }, fed); } }
        Some(s)
    }
    fn slews(&self, d: usize, fed: &dyn Fn(usize, usize) -> f32) -> Vec<(Key, usize, f32)> {
        let e = self.e; let mut o = vec![];
        for r in e.p.routes.iter().filter(|r| r.d == d && !e.dead(r)) {
            for q in 0..2 { if r.inp[q].as_ref().is_some_and(|i| i.slew.is_some()) { for m in 0..e.s { if e.moved(r, m) { o.push(((r.n, q), m, self.input(r, q, m, fed))); } } } }
        }
        o
    }
}
impl Eng {
    fn gain(&self, r: &Route) -> f32 { self.amt[r.n] * self.out[r.n] }
    fn dead(&self, r: &Route) -> bool { r.fa.is_none() && r.fo.is_none() && self.gain(r) == 0.0 }
    fn base_of(&self, d: usize) -> f32 { match self.p.cf[&d] { None => self.base[d], Some(Thing::Src(i)) => self.hg[i], Some(Thing::Amt(n)) => self.amt[n], Some(Thing::Out(n)) => self.out[n] } }
    fn masks(&self) -> (Vec<bool>, Vec<bool>) {
        let g: Vec<bool> = (0..self.s).map(|l| self.active[l / 16 * 16..l / 16 * 16 + 16].contains(&true)).collect();
        let lo = g.iter().position(|x| *x); let hi = g.iter().rposition(|x| *x);
        let sp = (0..self.s).map(|l| lo.is_some_and(|a| l >= a) && hi.is_some_and(|b| l <= b)).collect();
        (g, sp)
    }
    fn plain(&self, r: &Route, end: usize) -> bool {
        r.simple && match r.inp[0].as_ref().unwrap().rd { Rd::Sig(i, _) => self.bound.get(&i).is_some_and(|(st, d)| (*st).max(1) >= self.s && end * (*st).max(1) <= d.len()), _ => true }
    }
    fn moved(&self, r: &Route, m: usize) -> bool {
        if !r.rv { m < 16 } else if self.p.dests[r.d].voice { self.active[m / 16 * 16..m / 16 * 16 + 16].contains(&true) } else { self.newest.is_some_and(|n| n / 16 == m / 16) }
    }
    fn hold(&self, d: usize, x: f32) -> f32 { fmin(fmax(x, self.p.dests[d].min), self.p.dests[d].max) }
    fn draw(&mut self) -> f32 { self.rng ^= self.rng >> 12; self.rng ^= self.rng << 25; self.rng ^= self.rng >> 27; (self.rng.wrapping_mul(0x2545_F491_4F6C_DD1D) >> 40) as f32 / 16_777_216.0 }
    fn wnv(&mut self, j: usize, v: usize) { for i in 0..self.src.len() { if self.src[i].kind == ["velocity", "key"][j] { self.held[i][v] = self.nv[j][v]; } } }
    fn setnv(&mut self, j: usize, v: usize, t: f32, g: Option<f32>) {
        match g { Some(s) if t != self.nv[j][v] => { self.gt[j][v] = t; self.gs[j][v] = (t - self.nv[j][v]).abs() / (s * self.config.0); }
            _ => { self.gs[j][v] = 0.0; self.nv[j][v] = t; self.wnv(j, v); } }
    }
    fn glides(&mut self, n: usize) {
        for j in 0..2 { for v in 0..self.v { if !(self.gs[j][v] > 0.0) { continue; }
            let d = self.gs[j][v] * n as f32; let (t, x) = (self.gt[j][v], self.nv[j][v]);
            if (t - x).abs() <= d { self.nv[j][v] = t; self.gs[j][v] = 0.0; } else if t > x { self.nv[j][v] = x + d; } else { self.nv[j][v] = x - d; }
            self.wnv(j, v); } }
    }
    fn note_on(&mut self, v: usize, key: f32, vel: f32, leg: bool, gl: f32) {
        if v >= self.v { return; }
        self.active[v] = true; self.order.retain(|x| *x != v); self.order.push(v); self.newest = Some(v);
        if !leg { self.fresh[v] = true; self.af = true; }
        self.ren[v] = true; self.ar = true;
        let g = (leg && self.p.note.2 && gl > 0.0).then_some(gl);
        let (a, b) = (lookup(&self.p.note.0, vel), lookup(&self.p.note.1, key / 127.0));
        if !leg || self.p.note.3 { self.setnv(0, v, a, g); }
        self.setnv(1, v, b, g);
        for i in 0..self.src.len() { if self.src[i].kind == "random" { let r = self.draw(); self.held[i][v] = r; } }
        self.alt = !self.alt;
        for i in 0..self.src.len() { match self.src[i].kind.as_str() { "alt" => self.held[i][v] = f32::from(u8::from(self.alt)), "altinv" => self.held[i][v] = f32::from(u8::from(!self.alt)), "release" => self.held[i][v] = 0.0, _ => {} } }
    }
    fn ended(&mut self, v: usize) {
        if v >= self.v { return; }
        self.active[v] = false; self.fresh[v] = false; self.ren[v] = false; self.gs[0][v] = 0.0; self.gs[1][v] = 0.0;
        if self.newest == Some(v) { self.newest = self.order.iter().rev().copied().find(|x| self.active[*x]); }
    }
    fn active(&self, v: usize) -> bool { v < self.v && self.active[v] }
    /// The latest value of d for a voice: the last chunk's, or the last frame's.
    fn latest(&self, d: usize, v: usize) -> Option<f32> {
        let c = self.chunks.last()?; let at = if self.p.w.get(&d) == Some(&1) { 0 } else { v };
        if let Some(r) = self.p.rt.get(&d) { return Some(r[self.chunks.len() - 1][at]); }
        self.p.aud.get(&d).map(|r| r[c.0 + c.1 - 1][at])
    }
    /// The control values of d for a voice, frame by frame.
    fn ramp(&self, d: usize, v: usize) -> Option<Vec<f32>> {
        let (f, t) = (self.p.rf.get(&d)?, self.p.rt.get(&d)?); let at = if self.p.w[&d] == 1 { 0 } else { v };
        Some(self.chunks.iter().enumerate().flat_map(|(i, c)| { let (a, b) = (f[i][at], t[i][at]); let step = (b - a) / 32.0; (0..c.1).map(move |j| a + step * (c.2 + j) as f32) }).collect())
    }
    fn tick(&mut self, k: usize, phase: usize, first: bool) {
        let off = phase != 0; let snapping = first && self.af;
        let kept = |e: &Eng, d: usize, l: usize| off && e.p.primed && !(e.p.dests[d].voice && snapping && e.fresh[l]);
        let lane = |e: &Eng, d: usize, m: usize| if e.p.dests[d].voice { m } else { 0 };
        let t = Tick { e: self, k, end: k + 1, steps: if off { 0.0 } else { 32.0 }, snapping, kept_rule: false };
        let e: &Eng = t.e; let p = &e.p;
        let mut v: Vals = Vals::new(); let mut sl = vec![];
        if !p.barred {
            // the rule, by recursion on feeders
            fn value(t: &Tick, kept: &dyn Fn(&Eng, usize, usize) -> bool, lane: &dyn Fn(&Eng, usize, usize) -> usize, memo: &std::cell::RefCell<HashMap<(usize, usize), f32>>, d: usize, l: usize) -> f32 {
                if let Some(x) = memo.borrow().get(&(d, l)) { return *x; }
                let x = if kept(t.e, d, l) { t.e.p.cur[&d][l] } else {
                    let fed = |a: usize, m: usize| if a == d { t.e.p.cur[&d][lane(t.e, d, m)] } else { value(t, kept, lane, memo, a, lane(t.e, a, m)) };
                    t.e.hold(d, t.sum(d, l, &fed).unwrap()) };
                memo.borrow_mut().insert((d, l), x); x
            }
            let memo = std::cell::RefCell::new(HashMap::new());
            let mut ds = p.ctl.clone(); if k % 2 == 1 { ds.reverse(); }
            for &d in &ds { let row = (0..p.w[&d]).map(|l| value(&t, &kept, &lane, &memo, d, l)).collect(); v.insert(d, row); }
            for &d in &p.ctl { sl.extend(t.slews(d, &|a, m| if a == d { p.cur[&d][lane(e, d, m)] } else { v[&a][lane(e, a, m)] })); }
            // Rule(V) holds, and a V changed in one place (and its readers recomputed or not) breaks it there
            let f = |w: &Vals, d: usize, l: usize| if kept(e, d, l) { p.cur[&d][l] } else { e.hold(d, t.sum(d, l, &|a, m| if a == d { p.cur[&d][lane(e, d, m)] } else { w[&a][lane(e, a, m)] }).unwrap()) };
            for &d in &p.ctl { for l in 0..p.w[&d] { assert!(same(f(&v, d, l), v[&d][l]), "rule"); } }
            if !p.ctl.is_empty() {
            let d0 = p.ctl[(k + phase) % p.ctl.len()]; let l0 = (k * 7 + phase) % p.w[&d0];
            let mut w = v.clone(); w.get_mut(&d0).unwrap()[l0] = if same(v[&d0][l0], 0.375) { 0.625 } else { 0.375 };
            let breaks = p.ctl.iter().any(|&d| (0..p.w[&d]).any(|l| !same(f(&w, d, l), w[&d][l])));
            assert!(breaks, "unique");
            }
        } else {
            let mut now = p.cur.clone();
            for &d in &p.order {
                let fed = |a: usize, m: usize| now[&a][lane(e, a, m)];
                let row: Vec<f32> = (0..p.w[&d]).map(|l| if kept(e, d, l) { p.cur[&d][l] } else { e.hold(d, t.sum(d, l, &fed).unwrap()) }).collect();
                sl.extend(t.slews(d, &fed));
                now.insert(d, row.clone()); v.insert(d, row);
            }
        }
        let mut frm = p.frm.clone();
        for &d in &p.ctl { for l in 0..p.w[&d] { if !kept(e, d, l) { frm.get_mut(&d).unwrap()[l] = if !p.primed || (snapping && p.dests[d].voice && e.fresh[l]) { v[&d][l] } else { p.cur[&d][l] }; } } }
        let b = p.barred;
        self.stat[if b { 1 } else { 0 }] += 1; if off { self.stat[2] += 1; }
        for (key, m, y) in sl { self.p.slew.get_mut(&key).unwrap()[m] = y; }
        self.p.cur = v; self.p.frm = frm; self.p.primed = true;
    }
    fn process(&mut self, s: usize, t: usize) -> bool {
        if t > self.config.1 { return false; }
        if s >= t { return true; }
        self.chunks.clear();
        if self.p.routes.is_empty() { self.glides(t - s); } else {
            let (mut k, mut ph, mut first) = (s, self.phase, true);
            while k < t { let n = (32 - ph).min(t - k); self.chunks.push((k, n, ph, ph == 0 || (first && self.af))); k += n; ph = 0; first = false; }
            let load = self.active.iter().filter(|a| **a).count() as f32 / self.limit as f32;
            for i in 0..self.src.len() { if self.src[i].kind == "load" { self.hg[i] = if load < 1.0 { load } else { 1.0 }; } }
            if self.ar {
                let ds: Vec<usize> = self.p.order.iter().chain(&self.p.audio).copied().collect();
                for d in ds { let ns: Vec<usize> = self.p.routes.iter().filter(|r| r.d == d).map(|r| r.n).collect();
                    for n in ns { for q in 0..2 { if self.p.rnd.contains_key(&(n, q)) { for v in 0..self.v { if self.ren[v] { let x = self.draw(); self.p.rnd.get_mut(&(n, q)).unwrap()[v] = x; } } } } } }
            }
            for ci in 0..self.chunks.len() {
                let (k, n, ph, tick) = self.chunks[ci];
                if tick { self.tick(k, ph, ci == 0); }
                for d in self.p.ctl.clone() { let (a, b) = (self.p.frm[&d].clone(), self.p.cur[&d].clone()); self.p.rf.get_mut(&d).unwrap()[ci] = a; self.p.rt.get_mut(&d).unwrap()[ci] = b; }
                for d in self.p.audio.clone() { for j in 0..n {
                    let (row, sl) = {
                        let e: &Eng = self; let t = Tick { e, k: k + j, end: k + n, steps: 1.0, snapping: ci == 0 && e.af && j == 0, kept_rule: true };
                        let fed = |a: usize, m: usize| e.p.cur[&a][if e.p.dests[a].voice { m } else { 0 }];
                        let bounded = e.p.dests[d].min > f32::NEG_INFINITY || e.p.dests[d].max < f32::INFINITY;
                        let all = e.p.dests[d].voice && e.active.contains(&true) && e.p.routes.iter().filter(|r| r.d == d).all(|r| e.plain(r, k + n));
                        let row: Vec<f32> = (0..e.p.w[&d]).map(|l| match t.sum(d, l, &fed) {
                            None => { let o = e.p.aud[&d][k + j][l]; if bounded && !all { e.hold(d, o) } else { o } }
                            Some(x) => if bounded { e.hold(d, x) } else { x } }).collect();
                        (row, t.slews(d, &fed)) };
                    self.p.aud.get_mut(&d).unwrap()[k + j] = row;
                    for (key, m, y) in sl { self.p.slew.get_mut(&key).unwrap()[m] = y; }
                } }
                self.glides(n);
            }
        }
        self.phase = (self.phase + t - s) % 32;
        self.fresh.fill(false); self.ren.fill(false); self.af = false; self.ar = false;
        true
    }
}
struct Sess { config: (f32, usize, usize), keys: HashSet<String>, src: Vec<Source>, dests: Vec<Dest>, slots: Vec<Slot>, note: (Vec<f32>, Vec<f32>, bool, bool), tables: HashMap<String, Vec<f32>>, progs: HashMap<String, Prog>, inst: String, e: Option<Eng>, bound: BTreeMap<usize, (usize, Vec<f32>)>, out: String, print: String }
fn compile(cfg: (f32, usize, usize), src: &[Source], dests: &[Dest], slots: &[Slot], note: (Vec<f32>, Vec<f32>, bool, bool)) -> Prog {
    let s = stride(cfg);
    let cand: Vec<(usize, usize)> = slots.iter().enumerate().filter_map(|(n, sl)| {
        let (i, t) = (sl.src?, sl.dst.as_ref()?); if sl.byp || i >= src.len() || sl.aux.is_some_and(|a| a >= src.len()) { return None; }
        Some((n, dests.iter().position(|d| d.t == *t)?)) }).collect();
    let mut used: Vec<usize> = cand.iter().map(|c| c.1).collect(); used.sort(); used.dedup();
    let cf: BTreeMap<usize, Option<Thing>> = used.iter().map(|&d| (d, dests[d].feed.filter(|f| match f { Thing::Src(i) => *i < src.len() && src[*i].kind == "held" && !src[*i].voice, _ => true }))).collect();
    let mut rd: BTreeMap<Thing, usize> = BTreeMap::new();
    for &d in &used { if let Some(t) = cf[&d] { rd.insert(t, d); } }
    let au = |i: usize| src[i].kind == "audio";
    let audio = |d: usize| cf[&d].is_none() && match dests[d].rate.as_str() { "audio" => true, "control" => false, _ => cand.iter().any(|c| c.1 == d && (au(slots[c.0].src.unwrap()) || slots[c.0].aux.is_some_and(au))) };
    let things = |b: usize| -> HashSet<Thing> { cand.iter().filter(|c| c.1 == b).flat_map(|c| { let sl = &slots[c.0]; let mut v = vec![Thing::Src(sl.src.unwrap()), Thing::Amt(c.0), Thing::Out(c.0)]; if let Some(a) = sl.aux { v.push(Thing::Src(a)); } v }).collect() };
    let ctl: Vec<usize> = used.iter().copied().filter(|d| !audio(*d)).collect();
    let th: BTreeMap<usize, HashSet<Thing>> = used.iter().map(|&b| (b, things(b))).collect();
    let counted = |a: usize, b: usize| cf[&a].is_some_and(|t| th[&b].contains(&t));
    let read = |a: usize, b: usize| th[&b].iter().any(|t| rd.get(t) == Some(&a));
    // barred: strip destinations that no other left one feeds (counted) until none can be
    let mut left = ctl.clone(); loop { let n = left.len(); let l2 = left.clone(); left.retain(|b| l2.iter().any(|a| a != b && counted(*a, *b))); if left.len() == n { break; } }
    let barred = !left.is_empty();
    let mut left = ctl.clone(); let mut order = vec![];
    while !left.is_empty() { let i = left.iter().position(|b| !left.iter().any(|a| a != b && read(*a, *b))).unwrap_or(0); order.push(left.remove(i)); }
    let mut slew = HashMap::new(); let mut rnd = HashMap::new(); let mut routes = vec![];
    let per = |x: f32| if x > 0.0 { 1.0 / (x * cfg.0) } else { f32::INFINITY };
    for &(n, d) in &cand {
        let sl = &slots[n];
        let mut mk = |q: usize, i: Option<usize>, c: &Option<Curve>| -> Option<Input> {
            let i = i?; let so = &src[i];
            let (r, voice) = if let Some(&f) = rd.get(&Thing::Src(i)) { (Rd::Fed(f), dests[f].voice) } else { match so.kind.as_str() {
                "signal" | "audio" => (Rd::Sig(i, so.voice), so.voice), "constant" => (Rd::Const, false), "routerandom" => { rnd.insert((n, q), vec![0.0; s]); (Rd::Rnd, true) } _ => (Rd::Held(i, so.voice), so.voice) } };
            let mut sw = None;
            if let Some(c) = c { let (a, b) = (if c.rise > 0.0 { c.rise } else { 0.0 }, if c.fall > 0.0 { c.fall } else { 0.0 }); if a > 0.0 || b > 0.0 { sw = Some((per(a), per(b))); slew.insert((n, q), vec![0.0; s]); } }
            Some(Input { rd: r, voice, bip: so.bip, table: c.as_ref().map(|c| c.table.clone()), slew: sw }) };
        let inp = [mk(0, sl.src, &sl.sc), mk(1, sl.aux, &sl.ac)];
        let (fa, fo) = (rd.get(&Thing::Amt(n)).copied(), rd.get(&Thing::Out(n)).copied());
        let rv = inp.iter().flatten().any(|i| i.voice) || fa.is_some_and(|f| dests[f].voice) || fo.is_some_and(|f| dests[f].voice);
        let i0 = inp[0].as_ref().unwrap();
        let aff = match (i0.bip, sl.bip) { (false, true) => (2.0, -1.0), (true, false) => (0.5, 0.5), _ => (1.0, 0.0) };
        let simple = i0.voice && dests[d].voice && i0.table.is_none() && inp[1].is_none() && fa.is_none() && fo.is_none();
        routes.push(Route { n, d, inv: sl.inv, bip: sl.bip, aff, fa, fo, rv, simple, inp });
    }
    let w: BTreeMap<usize, usize> = used.iter().map(|&d| (d, if dests[d].voice { s } else { 1 })).collect();
    let z = |d: &usize| (*d, vec![0.0; w[d]]); let ch = cfg.1 / 32 + 2;
    let au: Vec<usize> = used.iter().copied().filter(|d| audio(*d)).collect();
    let mut amt = [0.0; 64]; let mut out = [1.0; 64]; for (n, sl) in slots.iter().enumerate() { amt[n] = sl.amt; out[n] = sl.out; }
    Prog { config: cfg, dests: dests.to_vec(), note, amt, out, routes, cf: cf.clone(), barred, primed: false, slew, rnd,
        cur: ctl.iter().map(z).collect(), frm: ctl.iter().map(z).collect(), rf: ctl.iter().map(|d| (*d, vec![vec![0.0; w[d]]; ch])).collect(), rt: ctl.iter().map(|d| (*d, vec![vec![0.0; w[d]]; ch])).collect(),
        aud: au.iter().map(|d| (*d, vec![vec![0.0; w[d]]; cfg.1])).collect(), ctl: ctl.clone(), order, audio: au.clone(), w: w.clone() }
}
fn gen_(seed: &str, n: usize, kind: &str) -> Vec<f32> {
    const SP: [u32; 8] = [0x7F800000, 0xFF800000, 0x7FC00000, 0x80000000, 1, 0x7F7FFFFF, 0xFF7FFFFF, 0x3F800000];
    let mut s: u64 = seed.parse().unwrap();
    (0..n).map(|_| { s = s.wrapping_mul(6364136223846793005).wrapping_add(1442695040888963407); let m = (s >> 40) as f32; let (u, b) = (m / 16777216.0, (m - 8388608.0) / 8388608.0);
        match kind { "u" => u, "b" => b, "t" => (m - 8388608.0) / 524288.0, "x" | "y" => if (s >> 32) & 31 == 0 { f32::from_bits(SP[((s >> 37) & 7) as usize]) } else if kind == "x" { u } else { b }, _ => f32::from_bits((s >> 32) as u32) } }).collect()
}
fn data(w: &[&str]) -> Vec<f32> { if w[0] == "hex" { w[1..].iter().map(|x| fl(x)).collect() } else { gen_(w[1], w[2].parse().unwrap(), w[3]) } }
fn table(w: &[&str]) -> Vec<f32> {
    let u = |i: usize| -> usize { w[i].parse().unwrap() };
    match w[0] {
        "lin" => diag(),
        "rev" => (0..513).map(|i| (512 - i) as f32 / 512.0).collect(),
        "sq" => (0..513).map(|i| (i * i) as f32 / 262144.0).collect(),
        "const" => vec![fl(w[1]); 513],
        "step" => (0..513).map(|i| if i < u(1) { fl(w[2]) } else { fl(w[3]) }).collect(),
        "gen" if w.len() == 3 => gen_(w[1], 513, w[2]),
        "len" => { let mut t = table(&w[2..]); let last = t[t.len() - 1]; t.resize(u(1), last); t }
        "put" => { let mut t = table(&w[3..]); t[u(1)] = fl(w[2]); t }
        _ => data(w),
    }
}
fn thing(s: &str) -> Option<Thing> { let (a, b) = s.split_once(':')?; let n = b.parse().unwrap(); Some(match a { "src" => Thing::Src(n), "amt" => Thing::Amt(n), _ => Thing::Out(n) }) }
impl Sess {
    fn row(&mut self, h: String, r: &[f32]) { self.out.push_str(&h); for x in r { self.out.push_str(&format!(" {:08X}", bits(*x))); } self.out.push('\n'); }
    fn show(&mut self, a: usize, b: usize) {
        if self.print == "none" { return; }
        let e = self.e.take().unwrap(); let p = &e.p; let mut shown = self.print == "cases"; let mut un = vec![];
        for d in 0..self.dests.len().max(p.dests.len()) {
            if p.cur.contains_key(&d) {
                if !shown { shown = true; for (i, c) in e.chunks.iter().enumerate() { self.out.push_str(&format!("CHUNK {i} {} {} {} {}\n", c.0, c.1, c.2, u8::from(c.3))); } }
                self.control(&e, d);
            } else if p.aud.contains_key(&d) { self.audio(&e, d, a, b); } else { un.push(d.to_string()); }
        }
        if !un.is_empty() && self.print != "cases" { self.out.push_str(&format!("UNMOD {}\n", un.join(" "))); }
        self.e = Some(e);
    }
    fn control(&mut self, e: &Eng, d: usize) {
        let p = &e.p; let n = e.chunks.len();
        match self.print.as_str() {
            "hash" => self.out.push_str(&format!("HC {d} {n} {} {:016X} {:016X}\n", p.w[&d], fnv(p.rf[&d][..n].iter().flatten()), fnv(p.rt[&d][..n].iter().flatten()))),
            "cases" => for (i, c) in e.chunks.iter().enumerate() { self.out.push_str(&format!("D {d} {} {} {} {} {:08X} {:08X}\n", c.0, c.1, c.2, u8::from(c.3), bits(p.rf[&d][i][0]), bits(p.rt[&d][i][0]))); },
            _ => for i in 0..n { self.row(format!("FROM {d} {i} {}", p.w[&d]), &p.rf[&d][i]); self.row(format!("TO {d} {i} {}", p.w[&d]), &p.rt[&d][i]); },
        }
    }
    fn audio(&mut self, e: &Eng, d: usize, a: usize, b: usize) {
        let p = &e.p; let b = b.max(a);
        match self.print.as_str() {
            "hash" => self.out.push_str(&format!("HA {d} {} {} {:016X}\n", b - a, p.w[&d], fnv(p.aud[&d][a.min(p.aud[&d].len())..b.min(p.aud[&d].len())].iter().flatten()))),
            "cases" => {}
            _ => for k in a..b { self.row(format!("A {d} {k} {}", p.w[&d]), &p.aud[&d][k]); },
        }
    }
    /// The slots that are passed over with a reason, and the first reason of each.
    fn skipped(&mut self) {
        if self.print == "cases" { return; }
        for (n, s) in self.slots.iter().enumerate() {
            let (Some(i), Some(t)) = (s.src, &s.dst) else { continue };
            if s.byp { continue; }
            let reason = if i >= self.src.len() { "source" } else if s.aux.is_some_and(|a| a >= self.src.len()) { "aux" } else if self.dests.iter().all(|d| d.t != *t) { "dest" } else { continue };
            self.out.push_str(&format!("SKIP {n} {reason}\n"));
        }
    }
    fn state(&mut self) {
        let e = self.e.take().unwrap();
        let flags = |v: &[bool]| v.iter().map(|b| if *b { '1' } else { '0' }).collect::<String>();
        self.out.push_str(&format!("S phase {} newest {} alternate {} rng {:016X} limit {} anyfresh {} anyrenote {}\nS active {}\nS fresh {}\nS renote {}\n",
            e.phase, e.newest.map_or("-".to_string(), |n| n.to_string()), u8::from(e.alt), e.rng, e.limit, u8::from(e.af), u8::from(e.ar), flags(&e.active), flags(&e.fresh), flags(&e.ren)));
        self.row("S heldglobal".into(), &e.hg);
        for (i, r) in e.held.iter().enumerate() { self.row(format!("S held {i}"), r); }
        self.row("S base".into(), &e.base); self.row("S amounts".into(), &e.amt); self.row("S outputs".into(), &e.out);
        for j in 0..2 { self.row(format!("S notevalue {j}"), &e.nv[j]); }
        for j in 0..2 { self.row(format!("S target {j}"), &e.gt[j]); self.row(format!("S step {j}"), &e.gs[j]); }
        self.out.push_str(&format!("S chunks {}\n", e.chunks.len()));
        self.e = Some(e);
    }
    fn memory(&mut self) {
        let e = self.e.take().unwrap(); let p = &e.p;
        self.out.push_str(&format!("M program {} primed {}\n", self.inst, u8::from(p.primed)));
        for d in &p.order { self.row(format!("M from {d}"), &p.frm[d]); self.row(format!("M cur {d}"), &p.cur[d]); }
        for (name, rows) in [("slew", &p.slew), ("random", &p.rnd)] { for d in p.order.iter().chain(&p.audio) { for r in p.routes.iter().filter(|r| r.d == *d) { for q in 0..2 {
            if let Some(row) = rows.get(&(r.n, q)) { self.row(format!("M {name} {} {q}", r.n), row); } } } } }
        for d in &p.audio { let h = fnv(p.aud[d].iter().flatten()); self.out.push_str(&format!("M audio {d} {} {h:016X}\n", p.w[d])); }
        self.e = Some(e);
    }
    /// The lines that read without processing.
    fn reader(&mut self, w: &[&str]) {
        let Some(e) = self.e.take() else { return };
        let u = |i: usize| -> usize { w[i].parse().unwrap() };
        let head = w[1..].join(" ");
        match w[0] {
            "is_active" => self.out.push_str(&format!("ACTIVE {head} {}\n", u8::from(e.active(u(1))))),
            "rate" => self.out.push_str(&format!("RATE {head} {}\n", if e.p.cur.contains_key(&u(1)) { "control" } else if e.p.aud.contains_key(&u(1)) { "audio" } else { "none" })),
            "latest" => match e.latest(u(1), u(2)) { Some(x) => self.row(format!("LATEST {head}"), &[x]), None => self.out.push_str(&format!("LATEST {head} none\n")) },
            "ramp" => match e.ramp(u(1), u(2)) { Some(r) => self.row(format!("RAMP {head}"), &r), None => self.out.push_str(&format!("RAMP {head} none\n")) },
            _ => { let all: Vec<f32> = (0..u(1) * u(2)).map(|i| { let (d, v) = (i / u(1), i % u(1)); if d >= e.p.dests.len() { f32::from_bits(0xDEAD_BEEF) } else if e.active(v) { e.latest(d, v).unwrap_or(f32::NAN) } else { f32::NAN } }).collect();
                self.row(format!("ALL {head}"), &all); }
        }
        self.e = Some(e);
    }
    fn line(&mut self, l: &str) {
        let w: Vec<&str> = l.split_whitespace().collect(); if w.is_empty() || w[0].starts_with('#') { return; }
        let u = |i: usize| -> usize { w[i].parse().unwrap() };
        match w[0] {
            "config" => { self.config = (fl(w[1]), u(2), u(3)); if self.print != "cases" { let s = stride(self.config); self.out.push_str(&format!("CONFIG stride {s} chunks {}\n", self.config.1 / 32 + 2)); } }
            "source" => { if self.keys.contains(w[1]) || self.src.len() >= 128 { return; } self.keys.insert(w[1].to_string()); self.src.push(Source { kind: w[2].into(), voice: w[3] == "v", bip: w[4] == "b" }); }
            "dest" => { let (mn, mx, f) = (fl(w[4]), fl(w[5]), thing(w[6])); if self.dests.iter().any(|d| d.t == w[1]) || !(mn < mx) { return; } if let Some(Thing::Amt(n) | Thing::Out(n)) = f { if n >= 64 { return; } }
                self.dests.push(Dest { t: w[1].into(), voice: w[2] == "v", rate: w[3].into(), min: mn, max: mx, feed: f }); }
            "standard" => panic!("command standard"),
            "newreg" => { self.src.clear(); self.dests.clear(); self.keys.clear(); }
            "table" => { let t = table(&w[2..]); self.tables.insert(w[1].into(), t); }
            "slot" => { let n = u(1); if n > 63 { return; } let mut s = Slot::default();
                for f in &w[2..] { let (a, v) = f.split_once('=').unwrap(); let cu = |v: &str| -> Option<Curve> { if v == "lin" { return None; } let p: Vec<&str> = v.split(':').collect(); Some(Curve { table: self.tables[p[0]].clone(), rise: fl(p[1]), fall: fl(p[2]) }) };
                    match a { "src" => s.src = v.parse().ok(), "aux" => s.aux = v.parse().ok(), "inv" => s.inv = v == "1", "byp" => s.byp = v == "1", "sc" => s.sc = cu(v), "ac" => s.ac = cu(v), "amt" => s.amt = fl(v), "out" => s.out = fl(v), "pol" => s.bip = v == "b", _ => s.dst = (v != "-").then(|| v.to_string()) } }
                self.slots[n] = s; }
            "note" => self.note = (self.tables[w[1]].clone(), self.tables[w[2]].clone(), w[3] == "1", w[4] == "1"),
            "clear" => { self.slots = vec![Slot::default(); 64]; self.note = (diag(), diag(), false, false); }
            "compile" => { self.skipped(); let p = compile(self.config, &self.src, &self.dests, &self.slots, self.note.clone()); self.progs.insert(w[1].into(), p); }
            "engine" => { let c = self.config; let s = stride(c); let n = self.src.len(); let z = || [vec![0.0; s], vec![0.0; s]];
                let stat = self.e.as_ref().map_or([0; 4], |e| e.stat);
                self.e = Some(Eng { config: c, src: self.src.clone(), nd: self.dests.len(), s, v: c.2, held: vec![vec![0.0; s]; n], hg: vec![0.0; n], base: vec![0.0; self.dests.len()], amt: [0.0; 64], out: [1.0; 64], active: vec![false; s], fresh: vec![false; s], ren: vec![false; s], af: false, ar: false, order: vec![], newest: None, nv: z(), gt: z(), gs: z(), alt: false, rng: 0x9E37_79B9_7F4A_7C15, limit: c.2.max(1), phase: 0, chunks: vec![], p: compile(c, &[], &[], &vec![Slot::default(); 64], (diag(), diag(), false, false)), bound: BTreeMap::new(), stat });
                self.inst = "~".into(); }
            "bind" => { self.bound.insert(u(1), (u(2), data(&w[3..]))); }
            "unbind" => { if w.len() == 1 { self.bound.clear() } else { self.bound.remove(&u(1)); } }
            "out" => if w.len() > 1 { self.show(u(1), u(2)) } else { self.show(0, 0) },
            "swap" => { let mut p = self.progs.remove(w[1]).unwrap(); let e = self.e.as_mut().unwrap();
                if p.config != e.config { self.progs.insert(w[1].into(), p); return; }
                e.amt = p.amt; e.out = p.out; for v in 0..e.s { if e.active[v] { e.fresh[v] = true; e.ren[v] = true; e.af = true; e.ar = true; } }
                p.primed = false; let old = std::mem::replace(&mut e.p, p); let on = std::mem::replace(&mut self.inst, w[1].into()); self.progs.insert(on, old); }
            "process" => { let e = self.e.as_mut().unwrap(); e.bound = self.bound.clone(); if e.process(u(1), u(2)) { self.show(u(1), u(2)); } else { self.out.push_str("PANIC\n"); } }
            "state" => self.state(),
            "memory" => self.memory(),
            "print" => self.print = w[1].into(),
            "latest" | "latest_all" | "ramp" | "is_active" | "rate" => self.reader(&w),
            "canon" | "memory_len" | "matrix_put" | "signal_part" | "find" => {}
            _ => { let Some(e) = self.e.as_mut() else { return };
                match w[0] {
                    "set_held" => { let i = u(1); if i < e.src.len() { if e.src[i].voice { e.held[i].fill(fl(w[2])) } else { e.hg[i] = fl(w[2]) } } }
                    "set_voice_held" => { if u(1) < e.src.len() && u(2) < e.s { e.held[u(1)][u(2)] = fl(w[3]); } }
                    "set_base" => if u(1) < e.nd { e.base[u(1)] = fl(w[2]) },
                    "set_amount" => if u(1) < 64 { e.amt[u(1)] = cl(fl(w[2]), -1.0, 1.0) },
                    "set_output" => if u(1) < 64 { e.out[u(1)] = cl(fl(w[2]), 0.0, 1.0) },
                    "set_voice_limit" => e.limit = u(1).max(1),
                    "note_on" => e.note_on(u(1), fl(w[2]), fl(w[3]), w[4] == "1", fl(w[5])),
                    "note_off" => if u(1) < e.v { for i in 0..e.src.len() { if e.src[i].kind == "release" { e.held[i][u(1)] = fl(w[2]); } } },
                    "voice_ended" => e.ended(u(1)),
                    "set_rng" => e.rng = u64::from_str_radix(w[1], 16).unwrap(),
                    x => panic!("command {x}"),
                } }
        }
    }
}
fn main() {
    let mut t = String::new(); std::io::stdin().read_to_string(&mut t).unwrap();
    let mut s = Sess { config: (48000.0, 64, 1), keys: HashSet::new(), src: vec![], dests: vec![], slots: vec![Slot::default(); 64], note: (diag(), diag(), false, false), tables: HashMap::from([("diag".to_string(), diag())]), progs: HashMap::new(), inst: "~".into(), e: None, bound: BTreeMap::new(), out: String::new(), print: "full".into() };
    for (n, l) in t.lines().enumerate() { let w = l.split_whitespace().next().unwrap_or("#"); if s.print != "cases" && w != "print" && !w.starts_with('#') { s.out.push_str(&format!("@{} {w}\n", n + 1)); } s.line(l); }
    print!("{}", s.out);
    if let Some(e) = &s.e { eprintln!("STAT {} {} {}", e.stat[0], e.stat[1], e.stat[2]); }
}
