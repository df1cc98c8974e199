//! Runs the same patches on our machine and on the Rust, in turn, and prints the table.
//!
//!     driver runs FILE REPEATS      FILE has the patches as bench/patches.py writes them
//!     driver calls FILE REPEATS     the same, the Rust with its standard device, which has the functions that FFI Call calls: patches with no input and no output
//!     driver files FILE REPEATS     reads, checks, readies, joins and flattens each of them
//!     driver stack FILE REPEATS     the stack that each call writes to at the most
//!
//! `plain` is the unchanged Rust, and what is timed; `probed` is the same with compare/'s probe below it, which counts steps and shows the state.

use plain::vm::{Device, StandardDevice, StandardInterpreter, StandardOp, StandardProgram, TestingDevice, VirtualMachineProgram};
use probed::patch::Reader;
use std::hint::black_box;
use std::time::Instant;

extern "C" {
    fn feltcairn_run_fresh(
        bytes: *const u8, bytes_len: usize,
        register: *mut u64, register_len: usize,
        tape: *mut u64, tape_len: usize,
        table: *mut u16, table_len: usize,
        channel: *mut u64, channel_len: usize,
        input: *const u64, input_len: usize,
        output: *mut u64, output_len: usize,
        tally: *mut u64, tally_len: usize,
        budget: u32,
        mode: u32,
        answer: *mut u64, answer_len: usize,
    ) -> usize;
    fn feltcairn_read(bytes: *const u8, bytes_len: usize, answer: *mut u64, answer_len: usize) -> usize;
    fn feltcairn_check(bytes: *const u8, bytes_len: usize, answer: *mut u64, answer_len: usize) -> usize;
    fn feltcairn_join(bytes: *const u8, bytes_len: usize, out: *mut u8, out_len: usize, answer: *mut u64, answer_len: usize) -> usize;
    fn feltcairn_flatten_numbers(
        bytes: *const u8, bytes_len: usize,
        out: *mut u8, out_len: usize,
        numbers: *mut u32, numbers_len: usize,
        firsts: *mut u32, firsts_len: usize,
        counts: *mut u32, counts_len: usize,
        answer: *mut u64, answer_len: usize,
    ) -> usize;
}

/// More steps than any of the patches makes.
const BUDGET: u32 = 20_000_000;

struct Case {
    name: String,
    patch: Vec<u8>,
    cells: usize,
    room: usize,
    mode: u32,
    inputs: Vec<u64>,
}

fn cases(bytes: &[u8]) -> Vec<Case> {
    let mut r = Reader { bytes, at: 0 };
    let mut found = vec![];
    while r.at < bytes.len() {
        let name = String::from_utf8(r.counted().to_vec()).unwrap();
        let patch = r.counted().to_vec();
        let (cells, room, mode) = (r.u32(), r.u32(), r.u32() as u32);
        let inputs = (0..r.u32()).map(|_| r.u64()).collect();
        found.push(Case { name, patch, cells, room, mode, inputs });
    }
    found
}

/// What is lent to a run.
struct Lent {
    register: Vec<u64>,
    tape: Vec<u64>,
    table: Vec<u16>,
    channel: Vec<u64>,
    output: Vec<u64>,
    tally: Vec<u64>,
    answer: [u64; 5],
}

impl Lent {
    fn new(c: &Case) -> Lent {
        let ops = plain::patch::ops(&c.patch).unwrap().0.len();
        Lent {
            register: vec![0; 1024],
            tape: vec![0; c.cells],
            table: vec![0; 256],
            channel: vec![0; 256],
            output: vec![0; c.room],
            tally: vec![0; ops],
            answer: [0; 5],
        }
    }
    fn bytes(&self) -> usize {
        8 * (self.register.len() + self.tape.len() + self.channel.len() + self.output.len() + self.tally.len()) + 2 * self.table.len()
    }
    fn run(&mut self, c: &Case) -> usize {
        self.steps(c, BUDGET)
    }
    fn steps(&mut self, c: &Case, budget: u32) -> usize {
        unsafe {
            feltcairn_run_fresh(
                c.patch.as_ptr(), c.patch.len(),
                self.register.as_mut_ptr(), self.register.len(),
                self.tape.as_mut_ptr(), self.tape.len(),
                self.table.as_mut_ptr(), self.table.len(),
                self.channel.as_mut_ptr(), self.channel.len(),
                c.inputs.as_ptr(), c.inputs.len(),
                self.output.as_mut_ptr(), self.output.len(),
                self.tally.as_mut_ptr(), self.tally.len(),
                budget,
                c.mode,
                self.answer.as_mut_ptr(), self.answer.len(),
            )
        }
    }
}

fn is_nan(v: u64) -> bool {
    f64::from_bits(v).is_nan()
}

/// The NaN rule: what an op gives that is a NaN is compared as a NaN.
fn same(a: u64, b: u64) -> bool {
    a == b || is_nan(a) && is_nan(b)
}

/// The steps of the patch, once both machines agree on them, op by op, on the outputs and on the state they leave. The Rust steps over comments too, and those
/// steps are not counted. `output` has what it put.
fn agreed<T: probed::vm::Device>(c: &Case, lent: &mut Lent, device: T, output: fn(&T) -> Vec<i64>) -> u64 {
    let number = lent.run(c);
    assert_eq!(number, 0, "{}: our machine answers {number} at {}", c.name, lent.answer[1]);
    let code = probed::vm::StandardProgram(probed::patch::ops(&c.patch).unwrap().0);
    let mut vm = probed::vm::StandardInterpreter::new(device);
    let mut steps = 0;
    let mut tally = vec![0; code.0.len()];
    while !*vm.parts().done && *vm.parts().i < code.0.len() {
        let at = *vm.parts().i;
        let comment = matches!(code.0[at], probed::vm::StandardOp::CoreOp(probed::vm::CoreOp::Comment(_)));
        vm.one_step(&code).unwrap();
        steps += !comment as u64;
        tally[at] += !comment as u64;
    }
    assert_eq!(lent.answer[2], steps, "{}: steps", c.name);
    assert_eq!(lent.tally, tally, "{}: the counts of its ops", c.name);
    assert_eq!(lent.answer[4], 0, "{}: a lane of a finished run", c.name);
    let p = vm.parts();
    for (i, v) in p.register.iter().enumerate() {
        assert!(same(*v as u64, lent.register[i]), "{}: lane {i}", c.name);
    }
    for (i, v) in lent.tape.iter().enumerate() {
        assert!(same(p.cells.get(i).copied().unwrap_or(0) as u64, *v), "{}: cell {i}", c.name);
    }
    let out = output(p.device);
    assert_eq!(out.len() as u64, lent.answer[3], "{}: outputs", c.name);
    for (i, v) in out.iter().enumerate() {
        assert!(same(*v as u64, lent.output[i]), "{}: output {i}", c.name);
    }
    steps
}

/// Nanoseconds of the Rust's own run: the program is built outside, and the interpreter is new each time. It is a function of its own in the program,
/// so that `bench/run counts` can find it.
#[inline(never)]
fn rust_run<T: Device>(code: &StandardProgram, device: T) -> (f64, T) {
    let vm = StandardInterpreter::new(device);
    let start = Instant::now();
    let device = vm.run(black_box(code)).unwrap();
    (start.elapsed().as_nanos() as f64, device)
}

struct Times {
    ours: Vec<f64>,
    rust: Vec<f64>,
}

fn least(v: &[f64]) -> f64 {
    v.iter().copied().fold(f64::INFINITY, f64::min)
}

fn sorted(v: &[f64]) -> Vec<f64> {
    let mut v = v.to_vec();
    v.sort_by(f64::total_cmp);
    v
}

impl Times {
    fn new() -> Times {
        Times { ours: vec![], rust: vec![] }
    }
    /// The ratio of the least times, and the quarter and three quarters of the ratios of neighbours.
    fn ratio(&self) -> (f64, f64, f64) {
        let each = sorted(&self.rust.iter().zip(&self.ours).map(|(r, o)| r / o).collect::<Vec<f64>>());
        (least(&self.rust) / least(&self.ours), each[each.len() / 4], each[each.len() * 3 / 4])
    }
}

fn runs(cases: &[Case], repeats: usize) {
    table(cases, repeats, false)
}

fn calls(cases: &[Case], repeats: usize) {
    table(cases, repeats, true)
}

/// The table of runs; of the Rust with its standard device, or else with the testing device.
fn table(cases: &[Case], repeats: usize, standard: bool) {
    let mut all = vec![];
    for c in cases {
        let mut lent = Lent::new(c);
        let steps = if standard {
            assert!(c.inputs.is_empty() && c.room == 0, "{}: the standard device's input and output are the program's own", c.name);
            agreed(c, &mut lent, probed::vm::StandardDevice::default(), |_| vec![])
        } else {
            let inputs = c.inputs.iter().map(|v| *v as i64).collect();
            agreed(c, &mut lent, probed::vm::TestingDevice::new_raw(inputs), |device| device.output_vals())
        };
        let code = StandardProgram(plain::patch::ops(&c.patch).unwrap().0);
        let inputs: Vec<i64> = c.inputs.iter().map(|v| *v as i64).collect();
        all.push((c, lent, steps, code, inputs, Times::new()));
    }
    for turn in 0..repeats {
        for (c, lent, _, code, inputs, times) in &mut all {
            for who in [turn % 2, 1 - turn % 2] {
                if who == 0 {
                    let start = Instant::now();
                    let number = black_box(lent.run(c));
                    times.ours.push(start.elapsed().as_nanos() as f64);
                    assert_eq!(number, 0);
                } else if standard {
                    times.rust.push(rust_run(code, StandardDevice::default()).0);
                } else {
                    let (took, device) = rust_run(code, TestingDevice::new_raw(inputs.to_vec()));
                    times.rust.push(took);
                    assert_eq!(device.output_vals().len() as u64, lent.answer[3]);
                }
            }
        }
    }
    println!("| Patch | Ops | Steps | Ours, ns a step | Rust, ns a step | Ratio | Middle half of the ratios |");
    println!("|---|---|---|---|---|---|---|");
    let (mut logs, mut worst) = (0.0, f64::INFINITY);
    for (c, _, steps, code, _, times) in &all {
        let (ratio, low, high) = times.ratio();
        logs += ratio.ln();
        worst = worst.min(ratio);
        let each = |v: &[f64]| least(v) / *steps as f64;
        println!("| {} | {} | {} | {:.2} | {:.2} | {:.2} | {:.2} to {:.2} |", c.name, code.0.len(), steps, each(&times.ours), each(&times.rust), ratio, low, high);
    }
    println!("\nGeometric mean of the ratios: {:.2}; the least: {:.2}.", (logs / all.len() as f64).exp(), worst);
    println!("Lent by the caller of the largest: {} bytes.", all.iter().map(|a| a.1.bytes()).max().unwrap());
}

/// Least nanoseconds of one call, in batches that take some 100 microseconds.
fn timed(mut call: impl FnMut()) -> f64 {
    let start = Instant::now();
    call();
    let batch = (100_000 / (start.elapsed().as_nanos() as usize + 1)).clamp(1, 1000);
    let start = Instant::now();
    for _ in 0..batch {
        call();
    }
    start.elapsed().as_nanos() as f64 / batch as f64
}

fn joined(code: Vec<StandardOp>) -> StandardProgram {
    let mut joined = StandardProgram(vec![]);
    for op in code {
        match op {
            StandardOp::CoreOp(op) => joined.op(op),
            op => joined.std_op(op).unwrap(),
        }
    }
    joined
}

fn files(cases: &[Case], repeats: usize) {
    println!("| File | Ops | Bytes | Read, us | Check, us | Ready, us | Join, us | the Rust's, us | Ratio | Flatten, us | the Rust's, us | Ratio |");
    println!("|---|---|---|---|---|---|---|---|---|---|---|---|");
    for c in cases {
        let (bytes, len) = (c.patch.as_ptr(), c.patch.len());
        let mut out = vec![0u8; len];
        let mut lists = vec![vec![0u32; 256]; 3];
        let mut answer = [0u64; 4];
        let mut lent = Lent { tape: vec![0], ..Lent::new(c) };
        assert_eq!(lent.steps(c, 0), 50, "{}: no step", c.name);
        let code = plain::patch::ops(&c.patch).unwrap().0;
        let [mut read, mut check, mut ready, mut join, mut flatten] = [(); 5].map(|_| Times::new());
        unsafe {
            assert_eq!(feltcairn_join(bytes, len, out.as_mut_ptr(), len, answer.as_mut_ptr(), 4), 0);
            assert_eq!(plain::patch::file(&joined(code.clone()).0), out[..answer[2] as usize], "{}: joined", c.name);
            let [a, b, d] = &mut lists[..] else { unreachable!() };
            assert_eq!(feltcairn_flatten_numbers(bytes, len, out.as_mut_ptr(), len, a.as_mut_ptr(), 256, b.as_mut_ptr(), 256, d.as_mut_ptr(), 256, answer.as_mut_ptr(), 4), 0);
            assert_eq!(plain::patch::file(&StandardProgram(code.clone()).flatten().0), out[..answer[2] as usize], "{}: flattened", c.name);
        }
        for _ in 0..repeats {
            unsafe {
                read.ours.push(timed(|| { black_box(feltcairn_read(bytes, len, answer.as_mut_ptr(), 4)); }));
                check.ours.push(timed(|| { black_box(feltcairn_check(bytes, len, answer.as_mut_ptr(), 4)); }));
                ready.ours.push(timed(|| { black_box(lent.steps(c, 0)); }));
                join.ours.push(timed(|| { black_box(feltcairn_join(bytes, len, out.as_mut_ptr(), len, answer.as_mut_ptr(), 4)); }));
                let [a, b, d] = &mut lists[..] else { unreachable!() };
                flatten.ours.push(timed(|| {
                    black_box(feltcairn_flatten_numbers(bytes, len, out.as_mut_ptr(), len, a.as_mut_ptr(), 256, b.as_mut_ptr(), 256, d.as_mut_ptr(), 256, answer.as_mut_ptr(), 4));
                }));
            }
            // what the Rust's calls take as theirs is copied outside the timed part
            let (mine, theirs) = (code.clone(), StandardProgram(code.clone()));
            let start = Instant::now();
            let done = black_box(joined(mine));
            join.rust.push(start.elapsed().as_nanos() as f64);
            drop(done);
            let start = Instant::now();
            let done = black_box(theirs.flatten());
            flatten.rust.push(start.elapsed().as_nanos() as f64);
            drop(done);
        }
        let us = |v: &[f64]| least(v) / 1000.0;
        println!(
            "| {} | {} | {} | {:.1} | {:.1} | {:.1} | {:.1} | {:.1} | {:.2} | {:.1} | {:.1} | {:.2} |",
            c.name, code.len(), len, us(&read.ours), us(&check.ours), us(&ready.ours),
            us(&join.ours), us(&join.rust), join.ratio().0, us(&flatten.ours), us(&flatten.rust), flatten.ratio().0
        );
    }
}

/// How far below this frame the call writes: the stack below is filled with a pattern first, and looked at after.
#[inline(never)]
fn stack_of(mut call: impl FnMut()) -> usize {
    const DEEP: usize = 4 << 20;
    const PATTERN: u64 = 0xA5A5_5A5A_A5A5_5A5A;
    let here = 0u64;
    let top = &here as *const u64 as usize;
    let low = (top - DEEP) & !7;
    for at in (low..top - 4096).step_by(8) {
        unsafe { (at as *mut u64).write_volatile(PATTERN) }
    }
    call();
    let touched = (low..top).step_by(8).find(|at| unsafe { (*at as *const u64).read_volatile() } != PATTERN).unwrap();
    top - touched
}

fn stack(cases: &[Case], _: usize) {
    let mut most = [0; 5];
    for c in cases {
        let (bytes, len) = (c.patch.as_ptr(), c.patch.len());
        let mut lent = Lent::new(c);
        let mut out = vec![0u8; len];
        let mut lists = vec![vec![0u32; 256]; 3];
        let mut answer = [0u64; 4];
        let at = answer.as_mut_ptr();
        let [a, b, d] = &mut lists[..] else { unreachable!() };
        let used = unsafe {
            [
                stack_of(|| { lent.run(c); }),
                stack_of(|| { feltcairn_read(bytes, len, at, 4); }),
                stack_of(|| { feltcairn_check(bytes, len, at, 4); }),
                stack_of(|| { feltcairn_join(bytes, len, out.as_mut_ptr(), len, at, 4); }),
                stack_of(|| {
                    feltcairn_flatten_numbers(bytes, len, out.as_mut_ptr(), len, a.as_mut_ptr(), 256, b.as_mut_ptr(), 256, d.as_mut_ptr(), 256, at, 4);
                }),
            ]
        };
        for (m, u) in most.iter_mut().zip(used) {
            *m = u.max(*m);
        }
    }
    println!("| Call | Stack, bytes |");
    println!("|---|---|");
    for (name, m) in ["run_fresh", "read", "check", "join", "flatten_numbers"].iter().zip(most) {
        println!("| {name} | {m} |");
    }
}

fn main() {
    let args: Vec<String> = std::env::args().collect();
    let bytes = std::fs::read(&args[2]).unwrap();
    let cases = cases(&bytes);
    let repeats = args[3].parse().unwrap();
    let work = match &args[1][..] {
        "runs" => runs,
        "calls" => calls,
        "files" => files,
        "stack" => stack,
        other => panic!("no work {other}"),
    };
    // the Rust's `op` calls itself, once for each op at most
    std::thread::Builder::new().stack_size(256 << 20).spawn(move || work(&cases, repeats)).unwrap().join().unwrap();
}
