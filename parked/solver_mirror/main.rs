#![allow(unused, dead_code, unused_labels)]
mod shim {
    use std::ops::{Deref, DerefMut};
    #[derive(Clone, Copy)] pub struct Global;
    #[derive(Clone, Copy, Debug)] pub struct AllocError;
    pub struct Vec<T>(pub std::vec::Vec<T>);
    impl<T> Deref for Vec<T> { type Target = [T]; fn deref(&self) -> &[T] { &self.0 } }
    impl<T> DerefMut for Vec<T> { fn deref_mut(&mut self) -> &mut [T] { &mut self.0 } }
    impl<T> Vec<T> {
        pub fn new(_: Global) -> Self { Vec(std::vec::Vec::new()) }
        pub fn with_capacity(_: Global, n: usize) -> Result<Self, AllocError> { Ok(Vec(std::vec::Vec::with_capacity(n))) }
        #[inline(always)] pub fn push(&mut self, x: T) -> Result<(), AllocError> { self.0.push(x); Ok(()) }
        pub fn push_reserved(&mut self, x: T) { self.0.push(x) }
        pub fn clear(&mut self) { self.0.clear() }
        pub fn retain<F: FnMut(&T) -> bool>(&mut self, f: F) { self.0.retain(f) }
    }
    impl<T: Clone> Vec<T> { pub fn from_elem(_: Global, x: T, n: usize) -> Result<Self, AllocError> { Ok(Vec(vec![x; n])) } }
}
mod table_terms; mod cards; mod position_patterns; mod double_dummy;
use crate::shim::*;
use crate::cards::*; use crate::table_terms::*; use crate::position_patterns::*; use crate::double_dummy::*;
use std::io::BufRead;
fn hand(t: &str) -> Hand { let mut h = Hand::new(); for (s, part) in t.split('.').enumerate() { for c in part.chars() {
    h.insert(Card { suit: Suit::from_number(s as u8), rank: Rank::from_letter(c).unwrap() }); } } h }
#[repr(C)] struct Rusage { user: [i64; 2], rest: [i64; 16] }
extern "C" { fn getrusage(who: i32, usage: *mut Rusage) -> i32; }
// the milliseconds of user time up to now
fn spent() -> f64 { let mut r = Rusage { user: [0; 2], rest: [0; 16] }; unsafe { getrusage(0, &mut r); } r.user[0] as f64 * 1e3 + r.user[1] as f64 / 1e3 }
fn main() {
    for line in std::io::stdin().lock().lines() {
        let line = line.unwrap(); let deal_text = line.split('\t').next().unwrap();
        if !deal_text.starts_with("N:") { continue; }
        let before = spent();
        let hs: std::vec::Vec<Hand> = deal_text[2..].split_whitespace().map(hand).collect();
        let deal = match Deal::new(hs[0], hs[1], hs[2], hs[3]) { Ok(d) => d, Err(_) => panic!() };
        let patterns = DealPatterns::new(Global, &Holders::dealt(deal)).unwrap();
        let mut memory = Memory::new(Global, 13).unwrap();
        let start = 1_000_000_000_000u64;
        let mut budget = Budget::new(start);
        let mut out = [[0u8; 5]; 4];
        for (si, strain) in [Strain::Spades, Strain::Hearts, Strain::Diamonds, Strain::Clubs, Strain::NoTrump].into_iter().enumerate() {
            memory.clear();
            let mut v = 7u8;
            let mut ask = |d: Place, guess_ns: u8, memory: &mut Memory, budget: &mut Budget| -> u8 { let p = Position::start(deal, strain, d);
                match asking::value(&p, guess_ns, &patterns, memory, budget) { Ok(t) => t, Err(_) => panic!() } };
            let n = ask(Place::North, likely::likely_tricks(deal, strain), &mut memory, &mut budget);
            let s = ask(Place::South, n, &mut memory, &mut budget);
            let e = ask(Place::East, s, &mut memory, &mut budget);
            let w = ask(Place::West, e, &mut memory, &mut budget);
            out[0][si] = n; out[1][si] = 13 - e; out[2][si] = s; out[3][si] = 13 - w;
        }
        let rows: std::vec::Vec<String> = out.iter().map(|r| r.iter().map(|x| x.to_string()).collect::<std::vec::Vec<_>>().join(",")).collect();
        println!("{}\t{}\t{}\t{:.1}", deal_text, rows.join(" "), start - budget.left(), spent() - before);
    }
}
