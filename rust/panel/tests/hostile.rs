//! Hand-ins of any bytes: the program answers, and nothing of them reaches a terminal but printable ASCII.
mod common;
use common::{command, panel, panel_reading, root, status, stderr, stdout, Scratch, BOX};

/// A plain generator of bytes, the same in every run.
struct Draw(u64);

impl Draw {
    fn next(&mut self) -> u64 {
        self.0 = self.0.wrapping_mul(6364136223846793005).wrapping_add(1442695040888963407);
        self.0 >> 33
    }

    fn below(&mut self, n: usize) -> usize {
        self.next() as usize % n
    }
}

/// Good bytes with some of them replaced, doubled or taken out.
fn damaged(draw: &mut Draw, good: &[u8]) -> Vec<u8> {
    let mut bytes = good.to_vec();
    for _ in 0..=draw.below(4) {
        let at = draw.below(bytes.len().max(1)).min(bytes.len());
        match draw.below(4) {
            0 => bytes.insert(at, draw.next() as u8),
            1 if at < bytes.len() => bytes[at] = draw.next() as u8,
            2 if at < bytes.len() => drop(bytes.remove(at)),
            _ => bytes.truncate(at.max(1)),
        }
    }
    bytes
}

fn tame(arguments: &[&std::ffi::OsStr]) {
    for columns in ["48", "60", "80"] {
        let output = command().env("COLUMNS", columns).args(arguments).output().expect("the program runs");
        common::assert_tame(&output.stdout);
        common::assert_tame(&output.stderr);
        assert!(matches!(status(&output), 0 | 1), "{arguments:?}: {}", stderr(&output));
        let most: usize = columns.parse().expect("a number");
        for line in stdout(&output).lines() {
            assert!(line.len() <= most, "over {most} columns: {line}");
        }
    }
}

#[test]
fn damaged_hand_ins() {
    let scratch = Scratch::new();
    let mut draw = Draw(7);
    let good = std::fs::read(root().join("examples/breaker/monitor.txt")).expect("the file");
    let trace = std::fs::read(root().join("examples/breaker/trace.txt")).expect("the trace");
    let guesses = std::fs::read(root().join("examples/breaker-guesses/monitor.txt")).expect("the file");
    for k in 0..80 {
        let file = match k % 4 {
            0 => good.clone(),
            1 => damaged(&mut draw, &good),
            2 => damaged(&mut draw, &guesses),
            _ => (0..draw.below(300)).map(|_| draw.next() as u8).collect(),
        };
        let file = scratch.put("monitor.txt", &file);
        let trace = scratch.put("trace.txt", &damaged(&mut draw, &trace));
        tame(&["check".as_ref(), file.as_os_str()]);
        tame(&["place".as_ref(), file.as_os_str()]);
        tame(&["show".as_ref(), file.as_os_str(), trace.as_os_str()]);
        tame(&["run".as_ref(), file.as_os_str(), trace.as_os_str()]);
    }
}

/// Bytes that a terminal would obey, and others that are hard to show, each at the refused place and around it.
#[test]
fn bytes_that_are_not_shown() {
    let scratch = Scratch::new();
    let hard: [&[u8]; 9] =
        [b"\x1b[2J\x1b]0;x\x07", b"\0", b"\x7f", b"\xef\xbb\xbf", b"\xff\xfe", b"\xe2\x80\xae", b"\r\r\r", b"\x9b31m", b"\t\x0b\x0c\x08"];
    for bytes in hard {
        let file = [b"monitor box {\n  var ".as_slice(), bytes, b" = 0 in 0..1; \x1b[31m", bytes, b"\nkeep true;"].concat();
        let file = scratch.put("monitor.txt", &file);
        let trace = scratch.put("trace.txt", &[b"000100\n0".as_slice(), bytes, b"\x1b[1m\n"].concat());
        let good = scratch.put("good.txt", BOX);
        tame(&["check".as_ref(), file.as_os_str()]);
        tame(&["run".as_ref(), good.as_os_str(), trace.as_os_str()]);
        tame(&["show".as_ref(), good.as_os_str(), trace.as_os_str()]);
    }
}

/// The places of refusals in lines without end, at their beginning and their end.
#[test]
fn long_lines() {
    let scratch = Scratch::new();
    for n in [0, 1, 30, 50, 70, 100, 5000] {
        let blanks = " ".repeat(n);
        for text in [format!("{blanks}?{blanks}"), format!("monitor {blanks}a{blanks}b"), format!("{blanks}{}", "x".repeat(n + 1))] {
            let file = scratch.put("monitor.txt", text.as_bytes());
            tame(&["check".as_ref(), file.as_os_str()]);
        }
        let guard = "full==1&&".repeat(n.min(120)) + "true";
        let long = "full==0&&".repeat(n.min(60)) + "true";
        let text = format!("monitor m{{var full=0 in 0..1;keep true;try {long};try!({long});method a{{waituntil({guard}){{}}}}method b{{waituntil(true){{full:=1;}}}}}}");
        let file = scratch.put("monitor.txt", text.as_bytes());
        let trace = scratch.put("trace.txt", b"000000\n");
        tame(&["show".as_ref(), file.as_os_str(), trace.as_os_str()]);
        tame(&["place".as_ref(), file.as_os_str()]);
    }
}

/// The mark stands under what is refused, also where the line is cut.
#[test]
fn the_mark_is_under_the_byte() {
    for n in [0, 10, 60, 200, 3000] {
        let output = panel_reading(&["check", "-"], format!("{}$ {}", " ".repeat(n), "y".repeat(n)).as_bytes());
        let text = stdout(&output);
        let lines: Vec<&str> = text.lines().collect();
        let mark = lines.iter().position(|line| line.trim_end().ends_with('^')).expect("a mark");
        let column = lines[mark].find('^').expect("a mark");
        assert_eq!(&lines[mark - 1][column..=column], "$", "{text}");
        assert!(text.contains(&format!("line 1, column {} (byte {n})", n + 1)), "{text}");
    }
}

#[test]
fn ten_megabytes() {
    let scratch = Scratch::new();
    let big = scratch.put("big", &vec![b'a'; 10 << 20]);
    let output = panel(&["check".as_ref(), big.as_os_str()]);
    assert_eq!(status(&output), 1);
    assert!(stdout(&output).contains("1: the file is too long"));
    let output = panel(&["run".as_ref(), root().join("examples/box/monitor.txt").as_os_str(), big.as_os_str()]);
    assert_eq!(status(&output), 1);
    assert!(stdout(&output).contains("12: a line that is no frame") && stdout(&output).len() < 4000);
    // A trace of so many frames is judged whole.
    let frames = b"000001\n010101\n".repeat((10 << 20) / 14);
    let long = scratch.put("long", &[&frames[..], b"000101\n"].concat());
    let output = panel(&["run".as_ref(), root().join("examples/box/monitor.txt").as_os_str(), long.as_os_str(), "--json".as_ref()]);
    let frame = frames.len() / 7;
    assert_eq!(
        stdout(&output),
        format!("{{\"answer\":[0,0,0],\"plain\":{{\"answer\":[14,{frame},0]}},\"table\":{{\"answer\":[14,{frame},0]}}}}\n")
    );
    let monitor = root().join("examples/box/monitor.txt");
    let output = panel(&["run".as_ref(), monitor.as_os_str(), long.as_os_str(), "--frames=1498000..".as_ref()]);
    assert_eq!(status(&output), 1);
    assert!(stdout(&output).contains("runner reads the first 65,536 bytes"));
}
