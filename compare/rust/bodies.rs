//! Lends lists of bodies to `feltcairn_flatten`. Reads flattenings on standard input, as a list of docs/REPLAY.md, and compares the report,
//! every byte and every entry with the expected answer; what stands beyond a lent slice has to keep its value too.
use std::io::Read;

/// As in crates/flattening/src/body.rt.
#[repr(C)]
#[derive(Clone, Copy, PartialEq, Debug)]
struct Body {
    number: u32,
    first: u32,
    count: u32,
}

/// As in crates/flattening/src/export.rt.
#[repr(C)]
#[derive(PartialEq, Debug)]
struct Report {
    number: usize,
    place: usize,
    bytes: usize,
    bodies: usize,
}

extern "C" {
    fn feltcairn_flatten(bytes: *const u8, length: usize, out: *mut u8, room: usize, bodies: *mut Body, entries: usize) -> Report;
}

fn flatten(bytes: &[u8], out: &mut [u8], bodies: &mut [Body]) -> Report {
    // no slice overlaps another, and the contract asks nothing more
    unsafe { feltcairn_flatten(bytes.as_ptr(), bytes.len(), out.as_mut_ptr(), out.len(), bodies.as_mut_ptr(), bodies.len()) }
}

struct Reader<'a> {
    bytes: &'a [u8],
    at: usize,
}

impl<'a> Reader<'a> {
    fn take(&mut self, n: usize) -> &'a [u8] {
        self.at += n;
        &self.bytes[self.at - n..self.at]
    }

    fn u32(&mut self) -> u32 {
        u32::from_le_bytes(self.take(4).try_into().unwrap())
    }

    fn counted(&mut self) -> &'a [u8] {
        let n = self.u32() as usize;
        self.take(n)
    }
}

const BEYOND: usize = 8;

/// What differs, in words.
fn tried(r: &mut Reader) -> Option<String> {
    assert_eq!(r.take(1), [3], "not a flattening");
    let patch = r.counted();
    let room = r.u32() as usize;
    let fill = r.take(1)[0];
    let entries = r.u32() as usize;
    let number = r.u32() as usize;
    let place = r.u32() as usize;
    let written = r.counted();
    let listed: Vec<Body> = (0..r.u32()).map(|_| Body { number: r.u32(), first: r.u32(), count: r.u32() }).collect();

    let left = |i: usize| Body { number: u32::MAX - i as u32, first: u32::from(fill), count: 1_000_000 + i as u32 };
    let file = patch.to_vec();
    let mut out = vec![fill; room + BEYOND];
    let mut bodies: Vec<Body> = (0..entries + BEYOND).map(left).collect();
    let mut due_out = out.clone();
    due_out[..written.len()].copy_from_slice(written);
    let mut due_bodies = bodies.clone();
    due_bodies[..listed.len()].copy_from_slice(&listed);
    let due = Report { number, place, bytes: written.len(), bodies: listed.len() };

    let report = flatten(&file, &mut out[..room], &mut bodies[..entries]);
    if report != due {
        return Some(format!("{report:?}, due is {due:?}"));
    }
    if let Some(i) = (0..out.len()).find(|&i| out[i] != due_out[i]) {
        return Some(format!("byte {i} of {room} is {}, due is {}", out[i], due_out[i]));
    }
    if let Some(i) = (0..bodies.len()).find(|&i| bodies[i] != due_bodies[i]) {
        return Some(format!("entry {i} of {entries} is {:?}, due is {:?}", bodies[i], due_bodies[i]));
    }
    (file != patch).then(|| "the file changed".to_string())
}

fn main() {
    let mut bytes = vec![];
    std::io::stdin().lock().read_to_end(&mut bytes).unwrap();
    let mut list = Reader { bytes: &bytes, at: 0 };
    let mut cases = 0;
    let mut wrong = 0;
    while list.at < bytes.len() {
        let case = list.counted();
        let mut r = Reader { bytes: case, at: 0 };
        if let Some(what) = tried(&mut r) {
            if wrong < 10 {
                println!("differ {cases}: {what}");
            }
            wrong += 1;
        }
        assert_eq!(r.at, case.len(), "a case has bytes left over");
        cases += 1;
    }
    println!("cases {cases} agree {}", cases - wrong);
    std::process::exit(i32::from(wrong != 0));
}
