//! Times the reader and writer of the original's test bench against `measure`, in one run. It is compiled inside that
//! bench (see bench/load_write.sh), whose modules it takes.
#![allow(dead_code, unused_imports)]

mod diagnostics;
mod file;
mod react_compiler_hir;
mod react_compiler_reactive_scopes;
mod react_compiler_utils;

use std::process::Command;
use std::time::Instant;

use oxc_allocator::Allocator;

fn main() {
    let arguments: Vec<String> = std::env::args().collect();
    let bytes = std::fs::read(&arguments[1]).expect("the file");
    let rounds: u32 = arguments[2].parse().expect("rounds");
    let mut best = u128::MAX;
    let mut out = vec![0u8; 65536];
    for _ in 0..7 {
        let begin = Instant::now();
        for _ in 0..rounds {
            let words: Vec<u32> = bytes.chunks_exact(4).map(|b| u32::from_le_bytes([b[0], b[1], b[2], b[3]])).collect();
            let allocator = Allocator::new();
            let Ok((func, mut env)) = file::load(&words, &allocator) else { panic!("the file is refused") };
            let mut at = 0;
            for word in file::write(&func, &mut env).concat() {
                out[at..at + 4].copy_from_slice(&word.to_le_bytes());
                at += 4;
            }
        }
        best = best.min(begin.elapsed().as_nanos());
    }
    assert!(out[..bytes.len()] == bytes[..], "written as it was");
    let theirs = best / u128::from(rounds);
    let said = Command::new(&arguments[3]).args(["load", &arguments[1], &arguments[2]]).output().expect("measure").stdout;
    let ours: u128 = String::from_utf8_lossy(&said).trim().parse().expect("nanoseconds");
    println!("the Rust {theirs} ns, load and write {ours} ns, ratio {:.2}", ours as f64 / theirs as f64);
}
