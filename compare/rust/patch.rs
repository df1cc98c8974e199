//! Patch files for the Rust: the ops of a file, and the file of a list of ops; and the reader of lists.

use crate::side_effects::{FFIBinding, Input, InputMode, Output, OutputMode};
use crate::vm::{CoreOp, StandardOp};

pub struct Reader<'a> {
    pub bytes: &'a [u8],
    pub at: usize,
}

impl<'a> Reader<'a> {
    pub fn take(&mut self, n: usize) -> &'a [u8] {
        let r = &self.bytes[self.at..self.at + n];
        self.at += n;
        r
    }
    pub fn u8(&mut self) -> u8 {
        self.take(1)[0]
    }
    pub fn u32(&mut self) -> usize {
        u32::from_le_bytes(self.take(4).try_into().unwrap()) as usize
    }
    pub fn u64(&mut self) -> u64 {
        u64::from_le_bytes(self.take(8).try_into().unwrap())
    }
    pub fn counted(&mut self) -> &'a [u8] {
        let n = self.u32();
        self.take(n)
    }
    pub fn sparse(&mut self, n: usize) -> Vec<i64> {
        let mut r = vec![0; n];
        for _ in 0..self.u32() {
            let i = self.u32();
            r[i] = self.u64() as i64;
        }
        r
    }
    pub fn slice(&mut self) -> Vec<i64> {
        let n = self.u32();
        self.sparse(n)
    }
}

fn words(payload: &[u8]) -> Vec<i64> {
    payload.chunks(8).map(|c| i64::from_le_bytes(c.try_into().unwrap())).collect()
}

fn source(mode: u8) -> Input {
    match mode {
        0 => Input::stdin_char(),
        1 => Input::stdin_int(),
        _ => Input::new(InputMode::Random, 0),
    }
}

fn sink(mode: u8) -> Output {
    match mode {
        0 => Output::stdout_char(),
        1 => Output::stdout_int(),
        _ => Output::new(OutputMode::StderrChar, 0),
    }
}

/// The binding of a number (02, ask 9), by the name and the counts that the Rust's standard device has it under.
pub fn binding(number: u8) -> FFIBinding {
    match number {
        0 => FFIBinding::new("square_root".to_string(), 1, 1),
        1 => FFIBinding::new("add".to_string(), 2, 1),
        n => panic!("binding {n} in a patch that is expected to be good"),
    }
}

/// The ops of a good patch file, with their kinds; none if a comment is not UTF-8.
pub fn ops(patch: &[u8]) -> Option<(Vec<StandardOp>, Vec<u16>)> {
    let mut r = Reader { bytes: patch, at: 0 };
    let (mut code, mut kinds) = (vec![], vec![]);
    while r.at < patch.len() {
        let body = r.counted();
        let kind = u16::from_le_bytes(body[..2].try_into().unwrap());
        let p = &body[2..];
        let n = || u32::from_le_bytes(p[..4].try_into().unwrap()) as usize;
        let core = |op| StandardOp::CoreOp(op);
        code.push(match kind {
            0 => core(CoreOp::Comment(String::from_utf8(p.to_vec()).ok()?)),
            1 => core(CoreOp::Set(words(p))),
            2 => core(CoreOp::Function),
            3 => core(CoreOp::Call),
            4 => core(CoreOp::Return),
            5 => core(CoreOp::While),
            6 => core(CoreOp::If),
            7 => core(CoreOp::Else),
            8 => core(CoreOp::End),
            9 => core(CoreOp::Store(n())),
            10 => core(CoreOp::Load(n())),
            11 => core(CoreOp::Move(words(p)[0] as isize)),
            12 => core(CoreOp::Where),
            13 => core(CoreOp::Deref),
            14 => core(CoreOp::Refer),
            15 => core(CoreOp::Index(n())),
            16 => core(CoreOp::Offset(
                words(&p[..8])[0] as isize,
                u32::from_le_bytes(p[8..].try_into().unwrap()) as usize,
            )),
            17 => core(CoreOp::BitwiseNand(n())),
            18 => core(CoreOp::BitwiseAnd(n())),
            19 => core(CoreOp::BitwiseOr(n())),
            20 => core(CoreOp::BitwiseXor(n())),
            21 => core(CoreOp::BitwiseNot(n())),
            22 => core(CoreOp::LeftShift(n())),
            23 => core(CoreOp::LogicalRightShift(n())),
            24 => core(CoreOp::ArithmeticRightShift(n())),
            25 => core(CoreOp::And(n())),
            26 => core(CoreOp::Or(n())),
            27 => core(CoreOp::Not(n())),
            28 => core(CoreOp::Add(n())),
            29 => core(CoreOp::Sub(n())),
            30 => core(CoreOp::Mul(n())),
            31 => core(CoreOp::Div(n())),
            32 => core(CoreOp::Rem(n())),
            33 => core(CoreOp::Neg(n())),
            34 => core(CoreOp::Inc(n())),
            35 => core(CoreOp::Dec(n())),
            36 => core(CoreOp::Swap(n())),
            37 => core(CoreOp::IsNonNegative(n())),
            38 => core(CoreOp::Get(source(p[0]))),
            39 => core(CoreOp::Put(sink(p[0]))),
            256 => StandardOp::Set(words(p).into_iter().map(|w| f64::from_bits(w as u64)).collect()),
            257 => StandardOp::Alloc,
            258 => StandardOp::Free,
            259 => StandardOp::ToInt(n()),
            260 => StandardOp::ToFloat(n()),
            261 => StandardOp::Add(n()),
            262 => StandardOp::Sub(n()),
            263 => StandardOp::Mul(n()),
            264 => StandardOp::Div(n()),
            265 => StandardOp::Rem(n()),
            266 => StandardOp::Neg(n()),
            267 => StandardOp::IsNonNegative(n()),
            275 => StandardOp::Peek,
            276 => StandardOp::Poke,
            277 => StandardOp::Call(binding(p[0])),
            k => panic!("kind {k} in a patch that is expected to be good"),
        });
        kinds.push(kind);
    }
    Some((code, kinds))
}

fn record(out: &mut Vec<u8>, kind: u16, payload: &[u8]) {
    out.extend((payload.len() as u32 + 2).to_le_bytes());
    out.extend(kind.to_le_bytes());
    out.extend(payload);
}

/// The patch file of a list of ops.
pub fn file(code: &[StandardOp]) -> Vec<u8> {
    let mut out = vec![];
    for op in code {
        let mut lanes = |kind, n: &usize| record(&mut out, kind, &(*n as u32).to_le_bytes());
        match op {
            StandardOp::CoreOp(op) => match op {
                CoreOp::Comment(s) => record(&mut out, 0, s.as_bytes()),
                CoreOp::Set(v) => record(&mut out, 1, &v.iter().flat_map(|w| w.to_le_bytes()).collect::<Vec<u8>>()),
                CoreOp::Function => record(&mut out, 2, &[]),
                CoreOp::Call => record(&mut out, 3, &[]),
                CoreOp::Return => record(&mut out, 4, &[]),
                CoreOp::While => record(&mut out, 5, &[]),
                CoreOp::If => record(&mut out, 6, &[]),
                CoreOp::Else => record(&mut out, 7, &[]),
                CoreOp::End => record(&mut out, 8, &[]),
                CoreOp::Store(n) => lanes(9, n),
                CoreOp::Load(n) => lanes(10, n),
                CoreOp::Move(n) => record(&mut out, 11, &(*n as i64).to_le_bytes()),
                CoreOp::Where => record(&mut out, 12, &[]),
                CoreOp::Deref => record(&mut out, 13, &[]),
                CoreOp::Refer => record(&mut out, 14, &[]),
                CoreOp::Index(n) => lanes(15, n),
                CoreOp::Offset(v, n) => {
                    let mut p = (*v as i64).to_le_bytes().to_vec();
                    p.extend((*n as u32).to_le_bytes());
                    record(&mut out, 16, &p)
                }
                CoreOp::BitwiseNand(n) => lanes(17, n),
                CoreOp::BitwiseAnd(n) => lanes(18, n),
                CoreOp::BitwiseOr(n) => lanes(19, n),
                CoreOp::BitwiseXor(n) => lanes(20, n),
                CoreOp::BitwiseNot(n) => lanes(21, n),
                CoreOp::LeftShift(n) => lanes(22, n),
                CoreOp::LogicalRightShift(n) => lanes(23, n),
                CoreOp::ArithmeticRightShift(n) => lanes(24, n),
                CoreOp::And(n) => lanes(25, n),
                CoreOp::Or(n) => lanes(26, n),
                CoreOp::Not(n) => lanes(27, n),
                CoreOp::Add(n) => lanes(28, n),
                CoreOp::Sub(n) => lanes(29, n),
                CoreOp::Mul(n) => lanes(30, n),
                CoreOp::Div(n) => lanes(31, n),
                CoreOp::Rem(n) => lanes(32, n),
                CoreOp::Neg(n) => lanes(33, n),
                CoreOp::Inc(n) => lanes(34, n),
                CoreOp::Dec(n) => lanes(35, n),
                CoreOp::Swap(n) => lanes(36, n),
                CoreOp::IsNonNegative(n) => lanes(37, n),
                CoreOp::Get(i) => {
                    let mode: u16 = (0..=3).find(|m| source(*m as u8).mode == i.mode).unwrap();
                    record(&mut out, 38, &if mode == 2 { 3 } else { mode }.to_le_bytes())
                }
                CoreOp::Put(o) => {
                    let mode: u16 = (0..=3).find(|m| sink(*m as u8).mode == o.mode).unwrap();
                    record(&mut out, 39, &if mode == 2 { 3 } else { mode }.to_le_bytes())
                }
            },
            StandardOp::Set(v) => {
                record(&mut out, 256, &v.iter().flat_map(|x| x.to_bits().to_le_bytes()).collect::<Vec<u8>>())
            }
            StandardOp::Alloc => record(&mut out, 257, &[]),
            StandardOp::Free => record(&mut out, 258, &[]),
            StandardOp::ToInt(n) => lanes(259, n),
            StandardOp::ToFloat(n) => lanes(260, n),
            StandardOp::Add(n) => lanes(261, n),
            StandardOp::Sub(n) => lanes(262, n),
            StandardOp::Mul(n) => lanes(263, n),
            StandardOp::Div(n) => lanes(264, n),
            StandardOp::Rem(n) => lanes(265, n),
            StandardOp::Neg(n) => lanes(266, n),
            StandardOp::IsNonNegative(n) => lanes(267, n),
            StandardOp::Peek => record(&mut out, 275, &[]),
            StandardOp::Poke => record(&mut out, 276, &[]),
            StandardOp::Call(b) => {
                let number: u16 = (0..=1).find(|n| binding(*n as u8) == *b).unwrap();
                record(&mut out, 277, &number.to_le_bytes())
            }
            _ => panic!("an op that no patch holds"),
        }
    }
    out
}
