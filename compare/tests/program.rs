//! The program: its lines, its files and how it is driven, beside what the second program says of each text.

use std::fs::{self, File};
use std::io::{BufRead, BufReader, Read, Write};
use std::os::unix::fs::symlink;
use std::path::PathBuf;
use std::process::{Child, ChildStdin, Command, Stdio};
use std::sync::mpsc;
use std::thread;
use std::time::{Duration, Instant};

use compare::chance::Chance;
use compare::records::{chain, entry, grown_roll, node, wide, NO_PARENT};
use second::calls::nodes_of_bitmap;
use second::Reply;

/// The proved program, as `bin/draw` and the gate build it.
const PROGRAM: &str = concat!(env!("CARGO_MANIFEST_DIR"), "/../target/bin/draw");

const WORKED: &str = concat!(env!("CARGO_MANIFEST_DIR"), "/../examples/worked");

/// What a program that hangs is given.
const PATIENCE: Duration = Duration::from_secs(20);

/// The three files of a folder.
#[derive(Clone)]
struct Files {
    roll: Vec<u8>,
    view: Vec<u8>,
    filters: Vec<u8>,
}

impl Files {
    fn worked() -> Files {
        let read = |file: &str| fs::read(format!("{WORKED}/{file}")).expect(file);
        Files { roll: read("roll.rec"), view: read("view.rec"), filters: read("filters.rec") }
    }

    /// The worked roll with everything visible: positions are record numbers.
    fn open() -> Files {
        Files { view: Vec::new(), filters: Vec::new(), ..Files::worked() }
    }

    /// The line that the second program gives for a text.
    fn line(&self, text: &[u8]) -> String {
        let mut table = [0; 1536];
        let entries = match second::read_text(text, &mut table) {
            Reply::Count(entries) => entries,
            refused => return format!("{refused}\n"),
        };
        let mut bitmap = [0; 512];
        let reply = second::curators_answer(&self.roll, &self.view, &self.filters, &table[..entries * 6], &mut bitmap);
        let positions: String = nodes_of_bitmap(&bitmap).iter().map(|position| format!(" {position}")).collect();
        format!("{reply}{positions}\n")
    }

    /// The lines for some texts, each with its line feed.
    fn lines(&self, texts: &[&[u8]]) -> (Vec<u8>, String) {
        let input = texts.iter().flat_map(|text| [*text, b"\n"].concat()).collect();
        (input, texts.iter().map(|text| self.line(text)).collect())
    }
}

/// A folder of its own for each test.
struct Folder(PathBuf);

impl Folder {
    fn new(name: &str, files: &Files) -> Folder {
        let folder = Folder(PathBuf::from(env!("CARGO_TARGET_TMPDIR")).join(name));
        let _ = fs::remove_dir_all(&folder.0);
        fs::create_dir_all(&folder.0).unwrap();
        folder.put("roll.rec", &files.roll);
        folder.put("view.rec", &files.view);
        folder.put("filters.rec", &files.filters);
        folder
    }

    fn put(&self, file: &str, bytes: &[u8]) {
        fs::write(self.0.join(file), bytes).unwrap();
    }

    fn start(&self, output: Stdio) -> Child {
        let mut program = Command::new(PROGRAM);
        program.current_dir(&self.0).stdin(Stdio::piped()).stdout(output).spawn().expect("bin/draw builds it")
    }

    /// All that the program writes when its input comes in pieces of these sizes, over and over.
    fn drawn_in(&self, input: &[u8], sizes: &[usize]) -> String {
        let mut program = self.start(Stdio::piped());
        let mut pipe = program.stdin.take().unwrap();
        let (input, sizes) = (input.to_vec(), sizes.to_vec());
        let writer = thread::spawn(move || {
            let mut rest = &input[..];
            for size in sizes.iter().cycle() {
                let (piece, more) = rest.split_at((*size).min(rest.len()));
                // The program may end before it has read its input; what it wrote is judged all the same.
                if more.len() == rest.len() || pipe.write_all(piece).is_err() {
                    break;
                }
                rest = more;
            }
        });
        let mut output = String::new();
        program.stdout.take().unwrap().read_to_string(&mut output).unwrap();
        writer.join().unwrap();
        assert!(program.wait().unwrap().success());
        output
    }

    fn drawn(&self, input: &[u8]) -> String {
        self.drawn_in(input, &[1 << 20])
    }
}

/// Lines as they come out, so that waiting for one can end.
fn lines_of(program: &mut Child) -> mpsc::Receiver<String> {
    let (sender, receiver) = mpsc::channel();
    let output = BufReader::new(program.stdout.take().unwrap());
    thread::spawn(move || output.lines().try_for_each(|line| sender.send(line.unwrap())));
    receiver
}

fn say(pipe: &mut ChildStdin, bytes: &[u8]) {
    pipe.write_all(bytes).unwrap();
    pipe.flush().unwrap();
}

/// Whether the program ends by itself in time, with its input still open.
fn ends(program: &mut Child) -> bool {
    let start = Instant::now();
    while start.elapsed() < PATIENCE {
        if program.try_wait().unwrap().is_some() {
            return true;
        }
        thread::sleep(Duration::from_millis(5));
    }
    program.kill().unwrap();
    false
}

#[test]
fn the_three_lines_and_the_worked_cases() {
    let folder = Folder::new("worked", &Files::worked());
    assert_eq!(folder.drawn(b"v/v\nv//v\n[f]\n"), "A 3 2 4 7\nR 14 2\nA 0\n");
    let cases = [
        (".", "A 1 0"),
        ("^", "A 0"),
        ("v", "A 2 1 6"),
        ("v/v", "A 3 2 4 7"),
        ("v*/[#5]", "A 3 2 5 6"),
        ("v/>", "A 1 6"),
        ("v/v/>", "A 1 4"),
        ("v/v/>/<", "A 1 2"),
        ("v*/^", "A 5 0 1 2 4 6"),
        ("v/[!v/[#4]]", "A 2 1 6"),
        ("[f]", "A 0"),
        ("[t]", "A 1 0"),
        ("(v|v/v)*", "A 8 0 1 2 3 4 5 6 7"),
        ("v/", "R 14 2"),
        ("v//v", "R 14 2"),
        ("[#65]", "R 14 3"),
        ("v v", "R 14 1"),
        ("", "R 13 0"),
        ("[#64]", "A 0"),
        ("v**", "R 19 2"),
        ("(v*)*", "A 8 0 1 2 3 4 5 6 7"),
    ];
    for (text, line) in cases {
        assert_eq!(folder.drawn(format!("{text}\n").as_bytes()), format!("{line}\n"), "{text}");
    }
    let joined = |n: usize| format!("{}\n", vec!["v"; n].join("/"));
    assert_eq!(folder.drawn((joined(32) + &joined(33)).as_bytes()), "A 0\nR 16 0\n");
    let nested = |n: usize| format!("{}v{}\n", "(".repeat(n), ")".repeat(n));
    assert_eq!(folder.drawn((nested(32) + &nested(33)).as_bytes()), "A 2 1 6\nR 15 32\n");
}

#[test]
fn the_worked_cases_on_the_roll() {
    let folder = Folder::new("on_roll", &Files::open());
    assert_eq!(folder.drawn(b"v\nv*/[#5]\nv/[!v/[#4]]\n"), "A 2 1 8\nA 4 3 4 7 11\nA 0\n");
}

#[test]
fn rolls_at_their_limits() {
    let open = Files::open();
    let all = (0..4096).fold("A 4096".to_string(), |line, position| line + &format!(" {position}"));
    for (name, roll, text, line) in [("chain", chain(4096), "v/v", "A 1 2"), ("wide", wide(4096), "v*", &all)] {
        let folder = Folder::new(name, &Files { roll: roll.clone(), ..open.clone() });
        assert_eq!(folder.drawn(text.as_bytes()), format!("{line}\n"));
        folder.put("roll.rec", &[roll, node(1, 0).to_vec()].concat());
        assert_eq!(folder.drawn(b"v\n"), "R 2 0\n");
    }
    let folder = Folder::new("root", &Files { roll: node(1, NO_PARENT).to_vec(), ..open });
    assert_eq!(folder.drawn(b"v*\n"), "A 1 0\n");
    folder.put("roll.rec", &node(1, 0));
    assert_eq!(folder.drawn(b"v*\n"), "R 5 0\n");
}

#[test]
fn a_last_line_without_line_feed_counts_if_it_has_bytes() {
    let folder = Folder::new("last_line", &Files::worked());
    for (input, output) in [
        ("v/v\nv//v\n[f]", "A 3 2 4 7\nR 14 2\nA 0\n"),
        ("v", "A 2 1 6\n"),
        ("v\n", "A 2 1 6\n"),
        ("v\n\n", "A 2 1 6\nR 13 0\n"),
        ("\n", "R 13 0\n"),
        ("\n\n\nv", "R 13 0\nR 13 0\nR 13 0\nA 2 1 6\n"),
        ("", ""),
    ] {
        for sizes in [1, 2, 1 << 20] {
            assert_eq!(folder.drawn_in(input.as_bytes(), &[sizes]), output, "{input:?} in pieces of {sizes}");
        }
    }
}

#[test]
fn lines_may_be_of_any_bytes_and_any_length() {
    let folder = Folder::new("any_bytes", &Files::worked());
    assert_eq!(folder.drawn(b"v\r\n\xFF\xFE\n\0\nv \n"), "R 14 1\nR 14 0\nR 14 0\nR 14 1\n");
    for length in [1024, 1025, 1026, 2048, 4096, 65_535, 65_536, 65_537, 70_000, 131_072, 1_000_000] {
        // A text, as far as its length goes: as many times "not", and a table that is too large.
        let long = [b"[", &b"!".repeat(length - 3)[..], b"t]"].concat();
        let refused = if length <= 1024 { "R 16 0" } else { "R 13 0" };
        for sizes in [&[1 << 20][..], &[1000], &[1025, 1, 7]] {
            let input = [b"v\n", &long[..], b"\n.\n", &long, b"\n\nv/v"].concat();
            let output = format!("A 2 1 6\n{refused}\nA 1 0\n{refused}\nR 13 0\nA 3 2 4 7\n");
            assert_eq!(folder.drawn_in(&input, sizes), output, "{length} in pieces of {sizes:?}");
        }
        assert_eq!(folder.drawn(&long), format!("{refused}\n"), "{length}, the last line");
    }
}

/// The pieces in which a pipe hands the input on make no difference, nor does what is in the buffer when a line ends.
#[test]
fn lines_in_pieces_of_any_size() {
    let files = Files::worked();
    let folder = Folder::new("pieces", &files);
    let texts: [&[u8]; 7] = [b"v/v", b"v//v", b"[f]", b"", b"v*/[#5]", b"(v|v/v)*", b"v*/^"];
    let lines = texts.map(|text| files.line(text));
    let mut chance = Chance::new(19);
    let many: Vec<usize> = (0..40_000).map(|_| chance.below(texts.len())).collect();
    let joined = |many: &[usize]| {
        let input = many.iter().flat_map(|one| [texts[*one], b"\n"].concat()).collect::<Vec<u8>>();
        (input, many.iter().map(|one| &lines[*one][..]).collect::<String>())
    };
    let (input, output) = joined(&many);
    assert!(input.len() > 2 * 65_536 && output.len() > 2 * 86_039);
    assert!(folder.drawn(&input) == output);
    let sizes: Vec<usize> = (0..97).map(|_| 1 + chance.below(5000)).collect();
    assert!(folder.drawn_in(&input, &sizes) == output);
    let (input, output) = joined(&many[..500]);
    assert!(folder.drawn_in(&input, &[1]) == output);
}

/// Output of many longest lines, each of which would fill a quarter of the buffer.
#[test]
fn long_answers() {
    let files = Files { roll: wide(4096), ..Files::open() };
    let folder = Folder::new("long_answers", &files);
    let line = files.line(b"v*");
    assert_eq!(line.len(), 19_377);
    assert!(folder.drawn(&b"v*\n".repeat(500)) == line.repeat(500));
}

#[test]
fn a_file_that_cannot_be_read_gives_one_line_and_nothing_else() {
    for file in ["roll.rec", "view.rec", "filters.rec"] {
        let folder = Folder::new(&format!("missing_{file}"), &Files::worked());
        fs::remove_file(folder.0.join(file)).unwrap();
        for input in ["v/v\nv//v\n[f]\n", "v", ""] {
            assert_eq!(folder.drawn(input.as_bytes()), "R 17 0\n", "{file} is missing");
        }
        // These can be opened, but not read: the start of a process's memory, and a folder.
        symlink("/proc/self/mem", folder.0.join(file)).unwrap();
        assert_eq!(folder.drawn(b"v\n"), "R 17 0\n", "{file} fails while it is read");
        fs::remove_file(folder.0.join(file)).unwrap();
        fs::create_dir(folder.0.join(file)).unwrap();
        assert_eq!(folder.drawn(b"v\n"), "R 17 0\n", "{file} is a folder");
    }
}

/// Also where the part of it that is looked at could be a table.
#[test]
fn a_file_that_is_too_long_gets_the_refusal_of_its_table() {
    let root_and_more = |size: usize| [node(1, NO_PARENT).to_vec(), node(1, 0).repeat(size)].concat();
    let pairs = |many: u8| (0..many).flat_map(|i| [1 + i / 8, 1 + i % 8, 0, 0, 0, 0]).collect::<Vec<u8>>();
    let truths = |many: usize| [18, 0, 0, 0, 0, 0].repeat(many);
    let files = Files { roll: root_and_more(9), view: pairs(32), filters: truths(256) };
    let folder = Folder::new("too_long", &files);
    assert_eq!(folder.drawn(b"v\n"), files.line(b"v"));
    assert!(files.line(b"v").starts_with('A'));
    for (file, number, bytes) in [
        ("roll.rec", 2, root_and_more(4096)),
        ("roll.rec", 2, root_and_more(4097)),
        ("roll.rec", 2, root_and_more(100_000)),
        ("roll.rec", 2, [root_and_more(4095), vec![1]].concat()),
        ("roll.rec", 2, Vec::new()),
        ("view.rec", 6, pairs(33)),
        ("view.rec", 6, pairs(64)),
        ("view.rec", 6, pairs(32)[..191].to_vec()),
        ("view.rec", 6, [pairs(32), vec![0]].concat()),
        ("filters.rec", 7, truths(257)),
        ("filters.rec", 7, truths(5000)),
        ("filters.rec", 7, [truths(256), vec![0]].concat()),
    ] {
        let folder = Folder::new("too_long", &files);
        folder.put(file, &bytes);
        assert_eq!(folder.drawn(b"v\nv/\n"), format!("R {number} 0\nR 14 2\n"), "{file} of {} bytes", bytes.len());
    }
}

#[test]
fn a_bad_text_is_refused_before_bad_files_and_those_in_their_order() {
    let folder = Folder::new("bad_files", &Files::worked());
    folder.put("view.rec", &[1, 2, 3]);
    assert_eq!(folder.drawn(b"v\nv//v\n\n"), "R 6 0\nR 14 2\nR 13 0\n");
    folder.put("filters.rec", &[20, 0, 0, 0, 0, 0]);
    assert_eq!(folder.drawn(b"v\nv//v\n"), "R 8 0\nR 14 2\n");
    folder.put("roll.rec", &[node(1, NO_PARENT), node(2, 1)].concat());
    assert_eq!(folder.drawn(b"v\nv//v\n"), "R 5 1\nR 14 2\n");
}

/// What was answered is out before the program waits for more input.
#[test]
fn it_is_driven_line_by_line() {
    let folder = Folder::new("driven", &Files::worked());
    let mut program = folder.start(Stdio::piped());
    let mut pipe = program.stdin.take().unwrap();
    let lines = lines_of(&mut program);
    let next = || lines.recv_timeout(PATIENCE).expect("an answer before the input goes on");
    say(&mut pipe, b"v/v\n");
    assert_eq!(next(), "A 3 2 4 7");
    say(&mut pipe, b"v//v\n[f]\n");
    assert_eq!((next(), next()), ("R 14 2".to_string(), "A 0".to_string()));
    say(&mut pipe, b"v\nv/");
    assert_eq!(next(), "A 2 1 6");
    assert!(lines.recv_timeout(Duration::from_millis(50)).is_err());
    say(&mut pipe, b"v\n");
    assert_eq!(next(), "A 3 2 4 7");
    say(&mut pipe, &b"v".repeat(3000));
    assert!(lines.recv_timeout(Duration::from_millis(50)).is_err());
    say(&mut pipe, b"\n.");
    assert_eq!(next(), "R 13 0");
    drop(pipe);
    assert_eq!(next(), "A 1 0");
    assert!(program.wait().unwrap().success());
    assert!(lines.recv().is_err());
}

/// It does not wait for input that it has no way to answer.
#[test]
fn a_write_that_fails_ends_it() {
    let folder = Folder::new("full", &Files::worked());
    let full = File::options().write(true).open("/dev/full").unwrap();
    let mut program = folder.start(full.into());
    let mut pipe = program.stdin.take().unwrap();
    say(&mut pipe, b"v\n");
    assert!(ends(&mut program));
}

/// A file that cannot be read is told at once, with the input still open.
#[test]
fn an_unreadable_file_needs_no_input() {
    let folder = Folder::new("no_input", &Files::worked());
    fs::remove_file(folder.0.join("view.rec")).unwrap();
    let mut program = folder.start(Stdio::piped());
    let _pipe = program.stdin.take().unwrap();
    assert!(ends(&mut program));
    let mut output = String::new();
    program.stdout.take().unwrap().read_to_string(&mut output).unwrap();
    assert_eq!(output, "R 17 0\n");
}

/// Filters that look to a node's children, its parent and its next sibling, by hand.
fn looking_around() -> Files {
    let entries = [
        entry(4, 0, 0, 0),
        entry(17, 0, 0, 0), // 1: it has a next sibling
        entry(2, 0, 0, 0),
        entry(17, 0, 2, 0), // 3: it has a child
        entry(20, 0, 3, 0), // 4: it has none
        entry(3, 0, 0, 0),
        entry(16, 2, 0, 0),
        entry(6, 0, 6, 0),
        entry(7, 0, 5, 7),
        entry(17, 0, 8, 0), // 9: its parent has label 2
    ];
    let records = [[1, 2, 1, 0, 0, 0], [1, 3, 4, 0, 0, 0], [2, 2, 9, 0, 0, 0], [3, 1, 3, 0, 0, 0]];
    Files { roll: Vec::new(), view: records.concat(), filters: entries.concat() }
}

/// Rolls by chance, under the worked annotation and under one whose filters look around.
#[test]
fn the_same_lines_as_the_second_program() {
    let texts = ". ^ v v/v v* v*/> v*/< v*/^ v*/[#2] v*/[!v]/^ (v|>)*/[#3+#2] v/[!v/[#4]] v*/[v/[#2]&!<] (v/>*)* v*/[>/v] v//v v/  [t] [f]";
    let texts: Vec<&[u8]> = texts.split(' ').map(str::as_bytes).collect();
    let mut chance = Chance::new(6);
    for round in 0..150 {
        let size = 1 + chance.below(if round % 10 == 0 { 600 } else { 60 });
        let (labels, files) = if round % 2 == 0 { (8, Files::worked()) } else { (3, looking_around()) };
        let files = Files { roll: grown_roll(&mut chance, size, labels), ..files };
        let (input, output) = files.lines(&texts);
        let folder = Folder::new("chance", &files);
        assert_eq!(folder.drawn(&input), output, "{:?}", files.roll);
    }
}
