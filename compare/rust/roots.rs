//! Asks our machine and the Rust's standard device for the root of each pattern, and counts those that differ.
//!
//! Standard input: a u32, the bytes of a patch, and the patch; then patterns of 8 bytes to the end. The patch gets a value, has its root made through the
//! channel and puts it, until there is no input left. Our machine runs it from fresh on one slice of the patterns after the other. The Rust's
//! `StandardDevice`, unchanged, is sent each pattern, called and asked. A NaN is compared as a NaN with the fixed bits.

mod patch;
mod side_effects;
mod vm;

use patch::{binding, Reader};
use std::io::Read;
use vm::{Device, StandardDevice};

extern "C" {
    fn feltcairn_run_fresh(
        bytes: *const u8, bytes_len: usize,
        register: *mut u64, register_len: usize,
        tape: *mut u64, tape_len: usize,
        table: *mut u16, table_len: usize,
        channel: *mut u64, channel_len: usize,
        input: *const u64, input_len: usize,
        output: *mut u64, output_len: usize,
        tally: *mut u64, tally_len: usize,
        budget: u32,
        mode: u32,
        answer: *mut u64, answer_len: usize,
    ) -> usize;
}

/// Patterns of one run.
const SLICE: usize = 100_000;

/// The bits of a NaN that an op gives.
const NAN: u64 = 0x7FF8000000000000;

/// The number of an input that is empty at char: the patch ends so.
const EMPTY: usize = 35;

/// The roots of a slice by our machine.
fn ours(patch: &[u8], ops: usize, patterns: &[u64]) -> Vec<u64> {
    let mut register = vec![0u64; 1024];
    let mut table = vec![0u16; 256];
    let mut channel = vec![0u64; 256];
    let mut output = vec![0u64; patterns.len()];
    let mut tally = vec![0u64; ops];
    let mut answer = [0u64; 5];
    let number = unsafe {
        feltcairn_run_fresh(
            patch.as_ptr(), patch.len(),
            register.as_mut_ptr(), register.len(),
            [].as_mut_ptr(), 0,
            table.as_mut_ptr(), table.len(),
            channel.as_mut_ptr(), channel.len(),
            patterns.as_ptr(), patterns.len(),
            output.as_mut_ptr(), output.len(),
            tally.as_mut_ptr(), tally.len(),
            u32::MAX,
            0,
            answer.as_mut_ptr(), answer.len(),
        )
    };
    assert_eq!((number, answer[3] as usize), (EMPTY, patterns.len()), "our machine answers {number} at {}", answer[1]);
    output
}

/// The root by the Rust's standard device.
fn theirs(device: &mut StandardDevice, pattern: u64) -> u64 {
    device.poke(pattern as i64).unwrap();
    device.ffi_call(&binding(0), None).unwrap();
    let root = device.peek().unwrap() as u64;
    assert!(device.peek().is_err(), "the standard device has more than the root");
    root
}

fn main() {
    let mut bytes = vec![];
    std::io::stdin().lock().read_to_end(&mut bytes).unwrap();
    let mut r = Reader { bytes: &bytes, at: 0 };
    let patch = r.counted();
    let ops = patch::ops(patch).unwrap().0.len();
    let patterns: Vec<u64> = (0..(bytes.len() - r.at) / 8).map(|_| r.u64()).collect();
    let mut device = StandardDevice::default();
    let (mut differ, mut nans) = (0, 0);
    for slice in patterns.chunks(SLICE) {
        for (pattern, root) in slice.iter().zip(ours(patch, ops, slice)) {
            let mut judge = theirs(&mut device, *pattern);
            if f64::from_bits(judge).is_nan() && judge != NAN {
                judge = NAN;
                nans += 1;
            }
            if root != judge {
                differ += 1;
                if differ <= 10 {
                    println!("{pattern:016X}: ours {root:016X}, the Rust's {judge:016X}");
                }
            }
        }
    }
    println!("{} roots asked, {nans} of them a NaN of other bits in the Rust, {differ} differ", patterns.len());
    std::process::exit((differ != 0) as i32);
}
