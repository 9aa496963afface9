//! How long the proved task compiler, best values and the reader of jobs take. Built and run by `bench/run`.
use std::hint::black_box;
use std::time::Instant;

#[link(name = "speed", kind = "static")]
unsafe extern "C" {
    fn jackdawwire_compile(marks: u8, codes: *const u8, length: usize) -> u8;
    fn jackdawwire_reach(queued: u8) -> u32;
    // the allocator that it is passed first takes no bytes
    fn jackdawwire_read(text: *const u8, length: usize) -> u8;
}

fn compile(marks: u8, codes: &[u8]) -> u8 {
    unsafe { jackdawwire_compile(marks, codes.as_ptr(), codes.len()) }
}

/// The least mean over `rounds` rounds of `times` compilations, in microseconds.
fn least(marks: u8, codes: &[u8], rounds: u32, times: u32) -> f64 {
    let mut least = f64::MAX;
    for _ in 0..rounds {
        let start = Instant::now();
        for _ in 0..times {
            black_box(compile(marks, black_box(codes)));
        }
        least = least.min(start.elapsed().as_secs_f64() * 1e6 / f64::from(times));
    }
    least
}

/// The form of the task with these codes, and how many codes it took.
fn form(codes: &[u8]) -> (String, usize) {
    let one = |word: &str| {
        let (inner, taken) = form(&codes[1..]);
        (format!("({word} {inner})"), taken + 1)
    };
    let two = |word: &str| {
        let (left, taken) = form(&codes[1..]);
        let (right, more) = form(&codes[1 + taken..]);
        (format!("({word} {left} {right})"), taken + more + 1)
    };
    match codes[0] {
        1 => one("not"),
        2 => two("and"),
        3 => two("or"),
        4 => one("next"),
        5 => one("weak"),
        6 => two("until"),
        7 => one("eventually"),
        8 => one("always"),
        mark @ 16..=31 => (format!("(mark {})", mark - 16), 1),
        _ => ("(true)".to_string(), 1),
    }
}

/// A full tree of this depth.
fn tree(depth: u32) -> String {
    if depth == 1 { "(true)".to_string() } else { format!("(and {} {})", tree(depth - 1), tree(depth - 1)) }
}

/// The longest job with a task, and call lines up to 65,536 bytes.
fn longest(task: &str) -> String {
    let mut text = "(job 1)\n(marks 6)\n(stations 256)\n".to_string();
    (0..256).for_each(|s| text += &format!("(label {s} 63)\n"));
    (0..1024).for_each(|l| text += &format!("(leg {} {} 1000)\n", l % 256, 255 - l % 256));
    text += &format!("(task {task})\n(start 255)\n(lookahead 1024)\n");
    while text.len() + 9 <= 65536 {
        text += "(decide)\n";
    }
    text
}

fn read_all() {
    let tree = tree(13);
    let cases = [
        ("256 labels, 1,024 legs, the task true, then calls", longest("(true)")),
        ("the same with the task of every limit", longest(&form(&WORST).0)),
        ("one task line with 8,191 operators", format!("(job 1)\n(marks 6)\n(stations 256)\n(task {tree})\n")),
        ("65,536 spaces", " ".repeat(65536)),
    ];
    println!();
    println!("bytes  refused  microseconds  job text");
    for (name, text) in cases {
        let mut least = f64::MAX;
        let mut number = 0;
        for _ in 0..500 {
            let start = Instant::now();
            number = unsafe { jackdawwire_read(black_box(text.as_ptr()), text.len()) };
            least = least.min(start.elapsed().as_secs_f64() * 1e6);
        }
        println!("{:5}  {number:7}  {least:12.1}  {name}", text.len());
    }
}

/// 64 operators, 6 of them temporal, over 6 marks, with 64 states: every limit is reached. Found by a random search.
const WORST: [u8; 64] = [
    7, 2, 3, 3, 19, 18, 2, 8, 1, 17, 1, 21, 2, 7, 3, 18, 17, 2, 2, 6, 16, 4, 1, 4, 3, 3, 19, 2, 1, 17, 3, 1, 21, 19,
    2, 19, 18, 1, 3, 2, 1, 1, 16, 20, 17, 3, 2, 2, 1, 19, 17, 3, 18, 18, 1, 2, 1, 16, 3, 2, 20, 1, 16, 16,
];

fn main() {
    let cases: [(&str, u8, &[u8]); 3] = [
        ("eventually mark 0, and later mark 1", 2, &[7, 2, 16, 4, 7, 17]),
        ("mark 0, and mark 1 five letters later", 2, &[7, 2, 16, 4, 4, 4, 4, 4, 17]),
        ("every limit reached", 6, &WORST),
    ];
    println!("operators  marks  states  microseconds  task");
    for (name, marks, codes) in cases {
        let states = compile(marks, codes);
        let time = least(marks, codes, 50, 100);
        println!("{:9}  {:5}  {:6}  {:12.1}  {name}", codes.len(), marks, states, time);
    }
    println!();
    println!("nodes reached  milliseconds  liveness on a shuffled chain of 16,384 nodes with 65,536 arcs");
    for (name, queued, rounds) in [("with a queue", 1, 50), ("by sweeps alone", 0, 1)] {
        let mut least = f64::MAX;
        let mut reached = 0;
        for _ in 0..rounds {
            let start = Instant::now();
            reached = unsafe { jackdawwire_reach(black_box(queued)) };
            least = least.min(start.elapsed().as_secs_f64() * 1e3);
        }
        println!("{reached:13}  {least:12.3}  {name}");
    }
    read_all();
}
