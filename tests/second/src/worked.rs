//! The worked runs K1 to K14, files that push a node twice, and the worked racks, typed from the pages, against this side alone.

use second::log::{length, Entry, HEAD, MOST, WIDTH};
use std::fmt::Write;

const K1: [u8; 17] = [2, 8, 4, 2, 2, 1, 0, 3, 1, 0, 7, 2, 0, 0, 3, 0, 0];
const K3: [u8; 21] = [
    2, 8, 4, 3, 2, 1, 1, 0, 4, 1, 0, 5, 1, 0, 6, 3, 0, 0, 3, 0, 0,
];
const K6: [u8; 13] = [2, 8, 1, 1, 2, 0, 2, 1, 0, 1, 1, 0, 2];
const K7: [u8; 10] = [2, 8, 4, 1, 1, 0, 1, 2, 0, 0];
const K8: [u8; 7] = [2, 8, 4, 1, 0, 0, 0];

const K1_OUTPUT: &str = "0 0 1 1 7 0 2 4
1 0 3 1 7 3 8 14
0 0 2 0 0 6 12 15
entries 3 steps 13 gone-round 0 judge 0
";
const K2_OUTPUT: &str = "0 0 1 1 7 0 2 4
0 0 2 1 7 6 11 14
1 0 3 3 0 3 12 65535
entries 3 steps 13 gone-round 0 judge 0
";
const K3_OUTPUT: &str = "0 0 1 1 5 0 2 4
0 0 1 1 6 3 5 10
2 0 3 1 5 9 12 24
1 0 3 3 0 6 13 65535
entries 4 steps 14 gone-round 0 judge 0
";
const K4_OUTPUT: &str = "0 0 1 1 1 0 2 4
0 0 2 1 1 6 11 14
0 0 1 1 2 12 14 28
0 0 2 1 2 15 20 32
0 0 1 1 3 21 23 46
1 0 3 1 1 3 24 48
entries 6 steps 25 gone-round 1 judge 17
";
const K5_OUTPUT: &str = "0 0 1 1 1 0 2 4
0 0 2 1 1 6 11 14
0 0 1 1 2 12 14 28
0 0 2 1 2 15 20 32
0 0 1 1 3 21 23 46
1 0 3 3 0 3 24 65535
entries 6 steps 25 gone-round 0 judge 0
";

const K6_OUTPUT: &str = "0 0 1 1 1 0 2 4
0 0 1 2 2 3 3 65535
entries 2 steps 4 gone-round 0 judge 0
";
const K7_OUTPUT: &str = "0 0 2 0 0 0 0 0
entries 1 steps 1 gone-round 0 judge 0
";
const K8_OUTPUT: &str = "entries 0 steps 0 gone-round 0 judge 0\n";
const K9_OUTPUT: &str = "entries 0 steps 4096 gone-round 0 judge 0\n";

/// The worked runs that come out otherwise, with what was wanted and what was found.
pub fn differences() -> Vec<String> {
    let outputs = runs().into_iter().map(|(name, file, wanted)| {
        let found = output(&file, length(MOST));
        (name, wanted.to_string(), found)
    });
    let refused = refusals().into_iter().chain(repeats());
    let judged = logs().into_iter().chain(nils());
    let all = outputs
        .chain(refused)
        .chain(judged)
        .chain(racks())
        .chain(lefts());
    all.filter(|(_, wanted, found)| wanted != found)
        .map(|(name, wanted, found)| format!("{name}: wanted\n{wanted}found\n{found}"))
        .collect()
}

fn file(front: &[u8], schedule: &[u8]) -> Vec<u8> {
    let length = (schedule.len() as u16).to_be_bytes();
    [front, &length, schedule].concat()
}

fn k4_with(tag_bits: u8) -> Vec<u8> {
    let front = [
        2, tag_bits, 4, 2, 5, 1, 0, 6, 1, 0, 1, 2, 0, 0, 1, 0, 2, 2, 0, 0, 1, 0, 3, 3, 0, 0,
    ];
    let (push, about_to_take, the_rest) = ([0; 3], [1; 3], [0; 18]);
    let schedule = [&push[..], &about_to_take, &the_rest, &[1]].concat();
    file(&front, &schedule)
}

fn runs() -> Vec<(&'static str, Vec<u8>, &'static str)> {
    let k1 = file(&K1, &[0, 0, 0, 1, 1, 1, 0, 0, 1]);
    let k2 = file(&K1, &[0, 0, 0, 1, 1, 1, 0, 0, 0, 0, 0, 0, 1]);
    let k3 = file(&K3, &[0, 0, 0, 0, 0, 0, 1, 1, 1, 2, 2, 2, 2, 1]);
    vec![
        ("K1", k1, K1_OUTPUT),
        ("K2", k2, K2_OUTPUT),
        ("K3", k3, K3_OUTPUT),
        ("K4", k4_with(1), K4_OUTPUT),
        ("K4, W = 0", k4_with(0), K4_OUTPUT),
        ("K5", k4_with(2), K5_OUTPUT),
        ("K6", file(&K6, &[0; 4]), K6_OUTPUT),
        ("K7", file(&K7, &[0]), K7_OUTPUT),
        ("K8", file(&K8, &[]), K8_OUTPUT),
        ("K9, 4096", file(&K8, &[0; 4096]), K9_OUTPUT),
    ]
}

fn refusals() -> Vec<(&'static str, String, String)> {
    let k8 = file(&K8, &[]);
    let with = |at: usize, byte: u8| {
        let mut changed = k8.clone();
        changed[at] = byte;
        changed
    };
    let most = length(MOST);
    let refused = [
        ("K9, 4097", file(&K8, &[0; 4097]), most, 6),
        ("K10", vec![], most, 1),
        ("K11, W = 17", with(1, 17), most, 2),
        ("K11, C = 0", with(2, 0), most, 2),
        ("K11, C = 65", with(2, 65), most, 2),
        ("K12", with(4, 33), most, 3),
        ("K13", k8.clone(), length(0) - 1, 8),
        ("K13, K7's", file(&K7, &[0]), length(1) - 1, 8),
    ];
    let compare = |(name, file, room, number): (_, Vec<u8>, usize, u16)| {
        (name, format!("refused {number}\n"), output(&file, room))
    };
    refused.into_iter().map(compare).collect()
}

/// Calls in bytes, 32 to a process, and no schedule.
fn scripts(calls: &[u8]) -> Vec<u8> {
    let lengths = calls.chunks(96).map(|script| (script.len() / 3) as u8);
    let lengths: Vec<u8> = lengths.collect();
    let sizes = [2, 8, 4, lengths.len() as u8];
    let count = ((calls.len() / 3) as u16).to_be_bytes();
    file(&[&sizes[..], &lengths, &count, calls].concat(), &[])
}

fn pushes(nodes: &[u16]) -> Vec<u8> {
    let call = |node: &u16| [[1].as_slice(), &node.to_be_bytes()].concat();
    nodes.iter().flat_map(call).collect()
}

/// Nodes that are near each other; a node twice; a wrong code before that and after it.
fn repeats() -> Vec<(&'static str, String, String)> {
    let nodes: Vec<u16> = (1..=256).collect();
    let first_again = [&nodes[..255], &[1]].concat();
    let (seven, code_4) = (pushes(&[7]), [4, 0, 0]);
    let wrong_before = [&seven[..], &code_4, &seven].concat();
    let wrong_after = [&seven[..], &seven, &code_4].concat();
    let cases = [
        ("pushes 8, 9", pushes(&[8, 9]), 0),
        ("pushes 7, 15", pushes(&[7, 15]), 0),
        ("pushes 255, 511", pushes(&[255, 511]), 0),
        ("pushes 32767, 65535", pushes(&[32767, 65535]), 0),
        ("pushes 65535 twice", pushes(&[65535, 65535]), 5),
        ("code 4 before the repeat", wrong_before, 4),
        ("code 4 after the repeat", wrong_after, 5),
        ("256 pushes", pushes(&nodes), 0),
        ("256 pushes, the first again", pushes(&first_again), 5),
    ];
    let compare = |(name, calls, number): (_, Vec<u8>, u16)| {
        let wanted = match number {
            0 => K8_OUTPUT.to_string(),
            _ => format!("refused {number}\n"),
        };
        (name, wanted, output(&scripts(&calls), length(MOST)))
    };
    cases.into_iter().map(compare).collect()
}

fn logs() -> Vec<(&'static str, String, String)> {
    let mut k4_log = vec![0; length(6)];
    second::run(
        &k4_with(1),
        &mut k4_log,
        &mut [0; 4],
        &mut [0; second::TABLE],
    );
    let k14 = [
        2, 1, 2, 0, 2, 0, 0, 1, 1, 0, 7, 0, 0, 0, 2, 0, 4, 0, 0, 1, 2, 0, 8, 0, 3, 0, 3, 255, 255,
    ];
    let emptied = [
        2, 1, 1, 0, 4, 0, 0, 1, 1, 0, 7, 0, 0, 0, 2, 0, 4, 0, 0, 2, 1, 0, 7, 0, 3, 0, 8, 0, 8, 0,
        0, 2, 0, 0, 0, 0, 9, 0, 9, 0, 18, 0, 0, 1, 2, 0, 8, 0, 10, 0, 10, 255, 255,
    ];
    let mut k8_log = [0; 5];
    let k8_length = second::run(
        &file(&K8, &[]),
        &mut k8_log,
        &mut [0; 4],
        &mut [0; second::TABLE],
    );
    vec![
        ("K8, log bytes", "5\n".into(), format!("{k8_length}\n")),
        ("K4, entry", "17 at entry 5\n".into(), judged(&k4_log)),
        ("K14", "19 at entry 1\n".into(), judged(&k14)),
        ("C-12", "19 at entry 3\n".into(), judged(&emptied)),
    ]
}

fn judged(log: &[u8]) -> String {
    let (number, entry) = second::judge(log);
    format!("{number} at entry {entry}\n")
}

/// One call of process 1 with no node: its kind, its result and its moment.
fn nils() -> Vec<(&'static str, String, String)> {
    let none = [255, 255];
    let calls = [
        ("3 for a top pop", 3, 3, none, 0),
        ("0 for a top pop", 3, 0, none, 0),
        ("4 for a top pop", 3, 4, none, 14),
        ("3 for a bottom pop", 2, 3, [0, 4], 14),
        ("0 for a bottom pop", 2, 0, [0, 4], 0),
        ("3 for a push", 1, 3, none, 14),
        ("3 with a moment", 3, 3, [0, 4], 16),
    ];
    let compare = |(name, kind, result, [high, low], number): (_, u8, u8, [u8; 2], u32)| {
        let log = [
            2, 2, 4, 0, 1, 1, 1, kind, result, 0, 0, 0, 0, 0, 2, high, low,
        ];
        (name, format!("{number} at entry 0\n"), judged(&log))
    };
    calls.into_iter().map(compare).collect()
}

/// What the worked runs leave in their queues, and three processes in turn; K4's take before the
/// last push, after which the table has no node 3.
fn lefts() -> Vec<(&'static str, String, String)> {
    let wanted: [&[&[u16]]; 9] = [
        &[&[], &[]],
        &[&[], &[]],
        &[&[6], &[], &[]],
        &[&[], &[]],
        &[&[], &[]],
        &[&[3], &[]],
        &[&[1]],
        &[&[]],
        &[&[]],
    ];
    let runs = runs().into_iter().zip(wanted);
    let runs = runs.map(|((name, file, _), wanted)| (name, file, wanted));
    let mut earlier = k4_with(1);
    let push_and_take = earlier.len() - 4;
    earlier[push_and_take..].rotate_right(1);
    let others: [(_, _, &[&[u16]]); 2] = [
        ("three processes", three(), &[&[2, 4], &[12, 13], &[22]]),
        ("K4, the take earlier", earlier, &[&[3], &[]]),
    ];
    let compare = |(name, file, wanted): (_, Vec<u8>, &[&[u16]])| {
        (name, format!("{wanted:?}\n"), left_by(&file, wanted.len()))
    };
    runs.chain(others).map(compare).collect()
}

fn three() -> Vec<u8> {
    let front = [
        2, 16, 3, 3, 5, 5, 5, 0, 15, 1, 0, 1, 1, 0, 2, 1, 0, 3, 2, 0, 0, 1, 0, 4, 1, 0, 11, 1, 0,
        12, 1, 0, 13, 1, 0, 14, 3, 0, 0, 1, 0, 21, 2, 0, 0, 2, 0, 0, 1, 0, 22, 3, 0, 1,
    ];
    file(&front, &[&[0; 16][..], &[1; 14], &[2; 16]].concat())
}

fn left_by(file: &[u8], queues: usize) -> String {
    let mut log = vec![0; length(MOST)];
    let written = second::run(file, &mut log, &mut [0; 4], &mut [0; second::TABLE]);
    let left = (0..queues as u8).map(|queue| second::left(&log[..written], queue).1);
    format!("{:?}\n", left.collect::<Vec<_>>())
}

fn racks() -> Vec<(&'static str, String, String)> {
    let k8 = [&[0, 1, 0, 9][..], &file(&K8, &[])].concat();
    let k8_and_a_byte = [&k8[..], &[0]].concat();
    let numbers: [(&str, &[u8], usize, u32); 8] = [
        ("no file", &[0, 0], 0, 0),
        ("no byte", &[], 0, 21),
        ("half a count", &[0], 0, 21),
        ("no file and a byte", &[0, 0, 5], 0, 21),
        ("no length", &[0, 1], 0, 21),
        ("a file cut off", &[0, 1, 0, 3, 2, 8], 8, 21),
        ("K8, 7 reply bytes", &k8, 7, 22),
        ("K8 and a byte, 7 reply bytes", &k8_and_a_byte, 7, 21),
    ];
    let unwritten = numbers.into_iter().map(|(name, rack, space, number)| {
        let wanted = (number, vec![238; 80], vec![221; space]);
        (name, format!("{wanted:?}\n"), racked(rack, 80, space))
    });
    unwritten.chain([four_files()]).collect()
}

/// K1, K4, an empty file and K8: K8's log stands over the front of K4's.
fn four_files() -> (&'static str, String, String) {
    let k1 = file(&K1, &[0, 0, 0, 1, 1, 1, 0, 0, 1]);
    let (k4, k8) = (k4_with(1), file(&K8, &[]));
    let lengths = [[0, 28], [0, 53], [0, 0], [0, 9]];
    let files = [&k1[..], &k4, &[], &k8];
    let counted = lengths.iter().zip(files);
    let counted = counted.flat_map(|(length, file)| length.iter().chain(file).copied());
    let rack: Vec<u8> = [0, 4].into_iter().chain(counted).collect();
    let replies = [
        0, 0, 3, 0, 13, 0, 0, 0, 0, 0, 6, 0, 25, 0, 1, 17, 1, 0, 0, 0, 0, 0, 0, 0, 0, 0, 0, 0, 0,
        0, 0, 0, 221, 221,
    ];
    let log = [
        2, 1, 4, 0, 0, 0, 0, 1, 1, 0, 1, 0, 0, 0, 2, 0, 4, 0, 0, 2, 1, 0, 1, 0, 6, 0, 11, 0, 14, 0,
        0, 1, 1, 0, 2, 0, 12, 0, 14, 0, 28, 0, 0, 2, 1, 0, 2, 0, 15, 0, 20, 0, 32, 0, 0, 1, 1, 0,
        3, 0, 21, 0, 23, 0, 46, 1, 0, 3, 1, 0, 1, 0, 3, 0, 24, 0, 48, 238, 238, 238,
    ];
    let wanted = format!("{:?}\n", (0, log, replies));
    ("K1, K4, an empty file, K8", wanted, racked(&rack, 80, 34))
}

/// The number, and both buffers after the call.
fn racked(rack: &[u8], room: usize, space: usize) -> String {
    let (mut log, mut replies) = (vec![238; room], vec![221; space]);
    let number = second::rack(rack, &mut log, &mut replies);
    format!("{:?}\n", (number, log, replies))
}

/// What the program prints for a file.
fn output(file: &[u8], room: usize) -> String {
    let mut log = vec![0; room];
    let (mut report, mut table) = ([0; 4], [0; second::TABLE]);
    let written = second::run(file, &mut log, &mut report, &mut table);
    let [number, entries, steps, gone_round] = report;
    if number != 0 {
        return format!("refused {number}\n");
    }
    let mut lines = String::new();
    for bytes in log[HEAD..written].chunks_exact(WIDTH) {
        writeln!(lines, "{}", Entry::read(bytes)).expect("a string takes all");
    }
    let judge = second::judge(&log[..written]).0;
    lines + &format!("entries {entries} steps {steps} gone-round {gone_round} judge {judge}\n")
}
