//! The judge: reads a list of cases (docs/REPLAY.md) on standard input, runs the Rust on each, and writes one line for each:
//! sort, expected number, verdict, kind of the refused op (or -), how many NaNs were brought to the fixed bits, 1 where the Rust's
//! panic names the lane that the answer gives, else 0, how many steps over comments were not counted, how a run by mark was put to
//! the Rust: 0 where it was not or the run is in the Rust's own mode, 1 as it is, 2 with its table taken away at a Call, and 1 where the
//! step total ended the run, else 0.
//!
//! Verdicts: `agree`, `differ` with what differs after it, and, where the expected answer is a refusal at a step, what the Rust
//! does at that op after agreeing on every step before: `went` on, `err`, `panic`, `hang`, `big` (more room than the judge has).
//! `port` is an answer that only the port gives (files, 37, 40, the check); `utf8` and `dirty` are cases outside the domain.
//!
//! With --raw nothing is looked at before a step or changed after it: a hang is a hang, a NaN has the processor's bits, a comment is
//! a step, a Call looks in the table.

mod patch;
mod side_effects;
mod vm;

use patch::{binding, file, ops, Reader};
use side_effects::{FFIBinding, Output};
use std::collections::VecDeque;
use std::io::{Read, Write};
use std::panic::{catch_unwind, AssertUnwindSafe};
use vm::{CoreOp, Device, StandardDevice, StandardInterpreter, StandardOp, StandardProgram, TestingDevice, VirtualMachineProgram};

/// More cells than this are not asked of the Rust.
const ROOM: usize = 8_000_000;

/// The bits of a NaN that an op gives.
const NAN: i64 = 0x7FF8000000000000;

/// The greatest step total (02, ask 11).
const MOST: u64 = 1 << 53;

struct Machine {
    position: usize,
    pointer: usize,
    counted: usize,
    halted: bool,
    lanes: usize,
    functions: usize,
    first: usize,
    waiting: usize,
    taken: usize,
    written: usize,
    calls: Vec<usize>,
    refs: Vec<usize>,
    mode: usize,
    total: u64,
}

fn machine(r: &mut Reader) -> Machine {
    let n: Vec<usize> = (0..13).map(|_| r.u32()).collect();
    let total = r.u64();
    let calls = (0..n[10].min(256)).map(|_| r.u32()).collect();
    let refs = (0..n[11].min(256)).map(|_| r.u32()).collect();
    Machine {
        position: n[0],
        pointer: n[1],
        counted: n[2],
        halted: n[3] != 0,
        lanes: n[4],
        functions: n[5],
        first: n[6],
        waiting: n[7],
        taken: n[8],
        written: n[9],
        calls,
        refs,
        mode: n[12],
        total,
    }
}

/// Whether a search from the op at i ends, if it also stops at an Else of its own or not.
fn has_partner(kinds: &[u16], i: usize, at_else: bool) -> bool {
    let mut depth = 1;
    for k in &kinds[i + 1..] {
        match k {
            2 | 5 | 6 => depth += 1,
            8 => depth -= 1,
            7 if at_else && depth == 1 => return true,
            _ => {}
        }
        if depth == 0 {
            return true;
        }
    }
    false
}

type Vm = StandardInterpreter<TestingDevice>;

/// A call by the Rust's own standard device: it is handed the whole channel, oldest value first, makes the call, and all that then waits in it is
/// taken back.
fn by_standard_device(called: FFIBinding, channel: &mut VecDeque<i64>, tape: Option<&mut Vec<i64>>) {
    let mut device = StandardDevice::default();
    for value in channel.drain(..) {
        device.poke(value).unwrap();
    }
    device.ffi_call(&called, tape).unwrap();
    while let Ok(value) = device.peek() {
        channel.push_back(value);
    }
}

/// The testing device, which has no functions of its own, with those of the standard device (02, ask 9).
fn device(inputs: Vec<i64>) -> TestingDevice {
    let mut device = TestingDevice::new_raw(inputs);
    device.ffi.insert(binding(0), |channel, tape| by_standard_device(binding(0), channel, tape));
    device.ffi.insert(binding(1), |channel, tape| by_standard_device(binding(1), channel, tape));
    device
}

/// Number, verdict, kind; then NaNs, whether the lane was named, comments, how a run by mark was put, and whether the total ended the run.
type Verdict = (usize, String, String, [usize; 5]);

/// What is noted of the steps of a run.
struct Seen {
    /// NaNs that were brought to the fixed bits
    nans: usize,
    /// comments that were stepped over
    comments: usize,
    /// of a run by mark 1, or 2 where the table was taken away; else 0
    by_mark: usize,
    /// the length and the index that the last panic names, if it was at an index
    index: Option<(usize, usize)>,
}

/// "index out of bounds: the len is 4 but the index is 7": 4 and 7.
fn index_named(words: &str) -> Option<(usize, usize)> {
    let (len, index) = words.strip_prefix("index out of bounds: the len is ")?.split_once(" but the index is ")?;
    Some((len.parse().ok()?, index.parse().ok()?))
}

/// A Call by mark (02, ask 4) of which the table's entry is another mark: the table, taken away. Without it the Rust counts the marks itself.
fn table_taken(vm: &mut Vm, kinds: &[u16]) -> Option<Vec<usize>> {
    let p = vm.parts();
    let k = *p.register.first()? as usize;
    let entry = *p.functions.get(k)?;
    let is_mark = kinds[entry] == 2 && kinds[..entry].iter().filter(|kind| **kind == 2).count() == k;
    (kinds[*p.i] == 3 && !is_mark).then(|| std::mem::take(p.functions))
}

/// One step, looked at first unless raw: a search without an end and a tape beyond the judge's room are not tried.
fn step(vm: &mut Vm, code: &StandardProgram, kinds: &[u16], raw: bool, seen: &mut Seen) -> &'static str {
    let p = vm.parts();
    let (i, at, len) = (*p.i, *p.pointer, p.cells.len());
    let lane = p.register.first().copied();
    if !raw {
        let search = match kinds[i] {
            2 | 7 => true,
            5 | 6 => lane == Some(0),
            _ => false,
        };
        if search && !has_partner(kinds, i, kinds[i] == 6) {
            return "hang";
        }
        let reach = match &code.0[i] {
            StandardOp::CoreOp(CoreOp::Load(n) | CoreOp::Store(n)) => at.saturating_add(*n),
            StandardOp::CoreOp(CoreOp::Deref) => at,
            // from 2^60 cells on the Rust panics by itself
            StandardOp::Alloc => match lane {
                Some(n) if (n as u64) < 1 << 60 => len + n as usize,
                _ => 0,
            },
            _ => 0,
        };
        if reach > ROOM {
            return "big";
        }
    }
    let taken = if seen.by_mark != 0 && !raw { table_taken(vm, kinds) } else { None };
    let went = catch_unwind(AssertUnwindSafe(|| vm.one_step(code)));
    if let Some(mut table) = taken {
        // back, with what the Rust has entered: in order, once
        seen.by_mark = 2;
        let functions = vm.parts().functions;
        table.append(functions);
        table.sort();
        table.dedup();
        *functions = table;
    }
    match went {
        Err(told) => {
            seen.index = told.downcast_ref::<String>().and_then(|words| index_named(words));
            return "panic";
        }
        Ok(Err(_)) => return "err",
        Ok(Ok(())) => {}
    }
    if raw {
        return "went";
    }
    // the NaN rule: what the processor gives is compared as a NaN
    if let StandardOp::Add(n) | StandardOp::Sub(n) | StandardOp::Mul(n) | StandardOp::Div(n) | StandardOp::Rem(n) = &code.0[i] {
        for lane in &mut vm.parts().register[..*n] {
            if f64::from_bits(*lane as u64).is_nan() && *lane != NAN {
                *lane = NAN;
                seen.nans += 1;
            }
        }
    }
    // a call leaves its result at the back of the channel
    if let (StandardOp::Call(_), Some(value)) = (&code.0[i], vm.parts().device.ffi_channel.back_mut()) {
        if f64::from_bits(*value as u64).is_nan() && *value != NAN {
            *value = NAN;
            seen.nans += 1;
        }
    }
    "went"
}

/// Whether an op works on lanes and cells, and adds no cells to the tape.
fn is_cell_op(kind: u16) -> bool {
    matches!(kind, 15 | 17..=20 | 22..=26 | 28..=32 | 36 | 261..=265)
}

/// Whether the panic at an op that is refused with 21 or 22 names the lane of the answer. It does not where a cell was missing first, or where the
/// Rust passed that lane over; where it names another, that is the `Err`. The register is that before the op.
fn is_named(number: usize, kind: u16, lane: usize, seen: &Seen, register: &[i64], pointer: usize, cells: &[i64]) -> Result<bool, String> {
    let (len, index) = seen.index.ok_or("lane:none")?;
    // where there is no lane and no cell it may be the one or the other, and a cell's says less
    let of_cell = is_cell_op(kind) && len == cells.len() && index >= pointer;
    // it goes lane by lane: those below this one were had or passed over
    let at = if of_cell { index - pointer } else { index };
    let passed = |k: usize| match (number, kind) {
        // an And, an Or does not look at a cell if the lane decides
        (22, 25) => register[k] == 0,
        (22, 26) => register[k] != 0,
        // a Div, a Rem does not look at a lane if the cell is zero
        (21, 31 | 32) => cells[pointer + k] == 0,
        _ => false,
    };
    let wrong = Err(format!("lane:{at}:len:{len}"));
    match (number, of_cell) {
        (22, false) => wrong,
        (21, false) if lane != len => wrong,
        _ if lane < at && (lane..at).all(passed) => Ok(false),
        _ if lane < at => wrong,
        // a cell of this lane or of one below it was missing first
        (21, true) => Ok(false),
        _ if lane == at => Ok(true),
        _ => wrong,
    }
}

/// The counts of a case, which have no sign.
fn counts_of(values: Vec<i64>) -> Vec<u64> {
    values.into_iter().map(|v| v as u64).collect()
}

/// A run; or one step, which is a run of budget 1 but that it gives 0 where it was made.
fn run(r: &mut Reader, fresh: bool, one: bool, raw: bool) -> Verdict {
    let patch = r.counted();
    let budget = r.u32();
    let inputs: Vec<i64> = (0..r.u32()).map(|_| r.u64() as i64).collect();
    let tape = r.slice();
    let register = r.slice();
    let table = r.slice();
    let channel = r.slice();
    let outputs = r.slice();
    let counts = counts_of(r.slice());
    // a fresh run is handed its call mode, a state has its own
    let (start, mode, total) = if fresh {
        (None, r.u32(), 0)
    } else {
        let s = machine(r);
        let (mode, total) = (s.mode, s.total);
        (Some(s), mode, total)
    };
    let number = r.u32();
    let steps = r.u32();
    let place = r.u32();
    let lane = r.u32();
    let m = machine(r);
    let tape2 = r.sparse(tape.len());
    let register2 = r.sparse(register.len());
    let table2 = r.sparse(table.len());
    let channel2 = r.sparse(channel.len());
    let outputs2 = r.sparse(outputs.len());
    let counts2 = counts_of(r.sparse(counts.len()));
    assert!(!one || budget == 1 && steps < 2 && (number != 50 || steps == 0), "more than one step");
    let mut seen = Seen { nans: 0, comments: 0, by_mark: mode, index: None };
    let no_kind = "-".to_string();
    if (1..10).contains(&number) || number == 37 {
        return (number, "port".into(), no_kind, [0; 5]);
    }
    let Some((code, kinds)) = ops(patch) else {
        return (number, "utf8".into(), no_kind, [0; 5]);
    };
    let code = StandardProgram(code);
    let mut vm = StandardInterpreter::new(device(inputs.clone()));
    let mut written = 0;
    if let Some(s) = start {
        if tape.iter().skip(s.counted).any(|c| *c != 0) {
            return (number, "dirty".into(), no_kind, [0; 5]);
        }
        if s.counted > ROOM {
            return (number, "big".into(), no_kind, [0; 5]);
        }
        written = s.written;
        let p = vm.parts();
        let mut cells = tape[..tape.len().min(s.counted)].to_vec();
        cells.resize(s.counted, 0);
        *p.cells = cells;
        *p.pointer = s.pointer;
        *p.register = register[..s.lanes].to_vec();
        *p.functions = table[..s.functions].iter().map(|f| *f as usize).collect();
        *p.calls = s.calls;
        *p.refs = s.refs;
        *p.i = s.position;
        *p.done = s.halted;
        p.device.input = inputs[s.taken..].to_vec().into();
        p.device.ffi_channel = (0..s.waiting).map(|k| channel[(s.first + k) % 256]).collect();
        p.device.output = outputs[..s.written].iter().map(|v| (*v, Output::stdout_char())).collect();
    }
    let over = |vm: &mut Vm| {
        let p = vm.parts();
        *p.done || *p.i >= kinds.len()
    };
    let differ = |what: String| (number, format!("differ:{what}"), "-".to_string(), [0; 5]);
    if mode > 1 || m.mode != mode {
        return differ(format!("mode:{mode}"));
    }
    // 02, ask 11: what is not 37. The sum is exact; what is a comment is told by the Rust's own op
    let is_comment = |i: usize| matches!(code.0[i], StandardOp::CoreOp(CoreOp::Comment(_)));
    if counts.len() != kinds.len() {
        return differ("counts-not-one-an-op".into());
    }
    if !fresh && (total > MOST || counts.iter().map(|n| *n as u128).sum::<u128>() != total as u128) {
        return differ("counts-do-not-add-up".into());
    }
    if !fresh && counts.iter().enumerate().any(|(i, n)| *n != 0 && is_comment(i)) {
        return differ("a-comment-is-counted".into());
    }
    // the steps that the Rust makes at each place are added to these, from fresh to none
    let mut tally = if fresh { vec![0; kinds.len()] } else { counts };
    let mut made = 0;
    while !over(&mut vm) {
        // 02, ask 8: the Rust's step over a comment is not counted, and is made before each test
        let at = *vm.parts().i;
        let comment = !raw && is_comment(at);
        if made == steps && !comment {
            break;
        }
        match step(&mut vm, &code, &kinds, raw, &mut seen) {
            "went" if comment => seen.comments += 1,
            "went" => {
                made += 1;
                tally[at] += 1;
            }
            "big" => return (number, "big".into(), no_kind, [seen.nans, 0, seen.comments, 0, 0]),
            other => return differ(format!("{other}-at-step-{made}")),
        }
    }
    if made != steps {
        return differ(format!("over-after-{made}-steps"));
    }
    if tally != counts2 {
        return differ(format!("counts:{:?}", &tally[..tally.len().min(16)]).replace(' ', ""));
    }
    if m.total != total + made as u64 {
        return differ(format!("total:{}", total + made as u64));
    }
    {
        let p = vm.parts();
        if *p.i != m.position || place != m.position {
            return differ(format!("position:{}", p.i));
        }
        if *p.pointer != m.pointer {
            return differ(format!("pointer:{}", p.pointer));
        }
        if p.cells.len() != m.counted {
            return differ(format!("length:{}", p.cells.len()));
        }
        if *p.done != m.halted {
            return differ(format!("halted:{}", p.done));
        }
        if p.register[..] != register2[..m.lanes] {
            return differ(format!("register:{:?}", &p.register[..p.register.len().min(8)]).replace(' ', ""));
        }
        for (i, c) in p.cells.iter().enumerate() {
            if *c != tape2.get(i).copied().unwrap_or(0) {
                return differ(format!("cell:{i}:{c}"));
            }
        }
        if p.functions.iter().map(|f| *f as i64).collect::<Vec<i64>>() != table2[..m.functions] {
            return differ(format!("functions:{:?}", p.functions).replace(' ', ""));
        }
        if *p.calls != m.calls {
            return differ(format!("calls:{:?}", p.calls).replace(' ', ""));
        }
        if *p.refs != m.refs {
            return differ(format!("refs:{:?}", p.refs).replace(' ', ""));
        }
        let waiting: Vec<i64> = (0..m.waiting).map(|k| channel2[(m.first + k) % 256]).collect();
        if p.device.ffi_channel.iter().copied().collect::<Vec<i64>>() != waiting {
            return differ(format!("channel:{:?}", p.device.ffi_channel).replace(' ', ""));
        }
        if p.device.input.len() != inputs.len() - m.taken {
            return differ(format!("input:{}", p.device.input.len()));
        }
        if p.device.output_vals() != outputs2[..m.written] {
            return differ(format!("output:{:?}", p.device.output_vals()).replace(' ', ""));
        }
        if written > m.written {
            return differ("outputs-lost".into());
        }
    }
    let ended = over(&mut vm);
    // an op that is refused is within the budget and the total too; all are made that these allow
    let spent = steps == budget || m.total == MOST;
    if steps > budget || m.total > MOST || spent && number != 0 && number != 50 {
        return differ("budget".into());
    }
    let by_total = (number == 50 && steps < budget) as usize;
    let agree = (number, "agree".to_string(), no_kind, [seen.nans, 0, seen.comments, seen.by_mark, by_total]);
    match number {
        0 if ended || one && steps == 1 => agree,
        0 => differ("not-over".into()),
        50 if !ended && spent => agree,
        50 => differ("over".into()),
        _ if ended => differ("over".into()),
        _ => {
            let kind = kinds[m.position];
            let register = vm.parts().register.clone();
            let what = step(&mut vm, &code, &kinds, raw, &mut seen);
            let mut named = false;
            if what == "panic" && (number == 21 || number == 22) {
                let p = vm.parts();
                match is_named(number, kind, lane, &seen, &register, *p.pointer, p.cells) {
                    Ok(b) => named = b,
                    Err(what) => return differ(what),
                }
            }
            // what is beyond the judge's room was not put
            let by_mark = if what == "big" { 0 } else { seen.by_mark };
            (number, what.into(), kind.to_string(), [seen.nans, named as usize, seen.comments, by_mark, 0])
        }
    }
}

fn join(r: &mut Reader) -> Verdict {
    let patch = r.counted();
    r.u32();
    r.u8();
    let number = r.u32();
    let place = r.u32();
    let bytes = r.counted();
    let verdict = if number != 0 {
        "port".to_string()
    } else if let Some((code, _)) = ops(patch) {
        let mut joined = StandardProgram(vec![]);
        for op in code {
            match op {
                StandardOp::CoreOp(op) => joined.op(op),
                op => joined.std_op(op).unwrap(),
            }
        }
        if joined.0.len() != place {
            format!("differ:ops:{}", joined.0.len())
        } else if file(&joined.0) != bytes {
            format!("differ:bytes:{}", format!("{:?}", joined.0).replace(' ', ""))
        } else {
            "agree".into()
        }
    } else {
        "utf8".into()
    };
    (number, verdict, "-".into(), [0; 5])
}

fn flatten(r: &mut Reader) -> Verdict {
    let patch = r.counted();
    r.u32();
    r.u8();
    r.u32();
    let number = r.u32();
    let place = r.u32();
    let bytes = r.counted();
    let bodies: Vec<[usize; 3]> = (0..r.u32()).map(|_| [r.u32(), r.u32(), r.u32()]).collect();
    let mut kind = "-".to_string();
    let verdict = if number != 0 && number != 10 {
        "port".to_string()
    } else if let Some((code, kinds)) = ops(patch) {
        let program = StandardProgram(code);
        match catch_unwind(AssertUnwindSafe(|| (program.clone().flatten(), program.get_functions()))) {
            Err(_) if number == 10 => {
                kind = kinds[place].to_string();
                "panic".into()
            }
            Err(_) => "differ:panic".into(),
            Ok(_) if number == 10 => "differ:no-panic".into(),
            Ok((flat, functions)) => {
                let mut numbers: Vec<i32> = functions.keys().copied().collect();
                numbers.sort();
                let mut first = 0;
                let mut found = vec![];
                for n in numbers {
                    let body = &functions[&n];
                    found.push([n as usize, first, body.len()]);
                    if flat.0[first..first + body.len()] != body[..] && !has_nan(body) {
                        return (number, "differ:body".into(), kind, [0; 5]);
                    }
                    first += body.len();
                }
                if flat.0.len() != place {
                    format!("differ:ops:{}", flat.0.len())
                } else if file(&flat.0) != bytes {
                    format!("differ:bytes:{}", format!("{:?}", flat.0).replace(' ', ""))
                } else if found != bodies {
                    format!("differ:bodies:{found:?}").replace(' ', "")
                } else {
                    "agree".into()
                }
            }
        }
    } else {
        "utf8".into()
    };
    (number, verdict, kind, [0; 5])
}

/// An op that holds a NaN is not equal to itself.
fn has_nan(body: &[StandardOp]) -> bool {
    body.iter().any(|op| matches!(op, StandardOp::Set(v) if v.iter().any(|x| x.is_nan())))
}

fn judge() {
    let raw = std::env::args().any(|a| a == "--raw");
    let mut bytes = vec![];
    std::io::stdin().lock().read_to_end(&mut bytes).unwrap();
    let mut list = Reader { bytes: &bytes, at: 0 };
    let mut out = std::io::BufWriter::new(std::io::stdout().lock());
    while list.at < bytes.len() {
        let case = list.counted();
        let mut r = Reader { bytes: case, at: 0 };
        let sort = r.u8();
        let (number, verdict, kind, [nans, named, comments, by_mark, by_total]) = match sort {
            0 => run(&mut r, false, false, raw),
            1 => run(&mut r, true, false, raw),
            2 => join(&mut r),
            3 => flatten(&mut r),
            4 => {
                r.counted();
                let number = r.u32();
                r.u32();
                (number, "port".into(), "-".into(), [0; 5])
            }
            5 => run(&mut r, false, true, raw),
            s => panic!("no sort {s}"),
        };
        assert!(verdict.starts_with("differ") || r.at == case.len(), "a case of sort {sort} has bytes left over");
        writeln!(out, "{sort} {number} {verdict} {kind} {nans} {named} {comments} {by_mark} {by_total}").unwrap();
    }
}

fn main() {
    std::panic::set_hook(Box::new(|info| {
        // the judge's own faults are told; the machine's panics are answers
        if info.location().map_or(false, |l| l.file().ends_with("main.rs") || l.file().ends_with("patch.rs")) {
            eprintln!("{info}");
        }
    }));
    // `op` calls itself, once for each op at most
    std::thread::Builder::new().stack_size(256 << 20).spawn(judge).unwrap().join().unwrap();
}
