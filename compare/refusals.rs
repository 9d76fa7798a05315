//! Makes the lines that the program `replay` must print of its input (the form of the file stands at the top of answers.rs), by
//! the numbered walk and the Rust's answers in it. Fails where a number is missing.
//! usage: refusals LIST LINES
#![allow(dead_code)]
mod names;
mod numbered;
mod pointers;
mod standard;
use names::NAMES;
use numbered::{read, Answer, Record, Seen, State};

/// The room of `listing`.
const ROOM: usize = 2048;

/// Takes bytes from the front of a list.
struct List<'a>(&'a [u8]);

impl<'a> List<'a> {
    fn bytes(&mut self, n: usize) -> &'a [u8] {
        let (these, rest) = self.0.split_at(n);
        self.0 = rest;
        these
    }

    fn pair(&mut self) -> usize {
        let two = self.bytes(2);
        usize::from(u16::from_be_bytes([two[0], two[1]]))
    }

    fn slice(&mut self) -> &'a [u8] {
        let n = self.pair();
        self.bytes(n)
    }
}

/// The first line of an answer.
fn first_line(a: &Answer) -> String {
    match a[0] {
        0 => format!("accepted {} {} {}\n", a[3], a[23], a[2]),
        number => format!("refused {number} {} {}\n", a[1], a[2]),
    }
}

/// The bits of the slots of an accepted frame, block by block.
fn bits_line(a: &Answer) -> String {
    let bits: Vec<String> = a[34..].iter().map(u64::to_string).collect();
    format!("bits {}\n", bits.join(" "))
}

fn main() {
    let args: Vec<String> = std::env::args().collect();
    let file = std::fs::read(&args[1]).expect("the list can be read");
    let mut list = List(&file);
    let mut records: Vec<Record> = Vec::new();
    let mut state = State::new();
    let mut walk = |src: &[u8], records: &mut Vec<Record>| read(src, ROOM, records, &mut state, &mut Seen::default());
    let (mut lines, mut met, mut verdicts, mut sum) = (String::new(), [0; 34], [0; 4], 0);
    let cases = list.pair();
    for _ in 0..cases {
        let a = walk(list.slice(), &mut records);
        let mut theirs = List(list.bytes(69));
        verdicts[usize::from(theirs.bytes(1)[0])] += 1;
        theirs.bytes(62);
        sum += theirs.pair();
        met[a[0] as usize] += 1;
        lines += &if a[0] == 0 { bits_line(&a) } else { first_line(&a) };
    }
    let [accepted, invalid, unsupported, truncated] = verdicts;
    lines += &format!("cases {cases} accepted {accepted} invalid {invalid} unsupported {unsupported} truncated {truncated} records {sum} differences 0\n");
    for _ in 0..list.pair() {
        let listed = list.pair() == 1;
        let a = walk(list.slice(), &mut records);
        met[a[0] as usize] += 1;
        lines += &first_line(&a);
        for r in records.iter().filter(|_| listed) {
            lines += &format!("{} {} {} {} {} {}\n", r.first, r.width, NAMES[usize::from(r.name)], r.block, r.index, r.value);
        }
    }
    assert!(list.0.is_empty(), "bytes are left");
    let missing: Vec<usize> = (1..=13).chain(20..=33).filter(|&k| met[k] == 0).collect();
    assert!(missing.is_empty(), "not in the list: {missing:?}");
    std::fs::write(&args[2], &lines).expect("the lines can be written");
    println!("{} lines; of each number {met:?}", lines.lines().count());
}
