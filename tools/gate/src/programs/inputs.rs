//! Monitor files and traces at both sides of every limit of reading, with what document 01 asks the
//! programs to print for them.

pub const FILE_BYTES: usize = 8192;
const TRACE_BYTES: usize = 65536;
const FRAME_BYTES: usize = 7;

const FILE_SIZES: [usize; 9] = [4095, 4096, 4097, 8191, 8192, 8193, 8194, 16384, 200000];
const FILE_CUTS: [usize; 6] = [1, 4095, 4096, 4097, 8191, 8192];
const SMALL_TRACES: [usize; 12] = [0, 1, 6, 7, 8, 4088, 4089, 4095, 4096, 4097, 4102, 4103];
const LONG_TRACES: std::ops::Range<usize> = 65527..65542;
pub const TRACE_CUTS: [usize; 8] = [1, 7, 4095, 4096, 4097, 65534, 65535, 65536];

/// A monitor of 16 regions and 16 guards.
pub fn full() -> Vec<u8> {
    let region = |k: usize| format!("waituntil (x == {k}) {{ x := y; }}");
    let method = |k: usize| format!("method m{k} {{ {} {} }}", region(2 * k), region(2 * k + 1));
    let variables = "var x = 0 in 0..15; var y = 0 in 0..15; keep true;";
    let methods: Vec<String> = (0..8).map(method).collect();
    format!("monitor full {{ {variables} {} }}", methods.join(" ")).into_bytes()
}

/// Its table, an entry for each region and other guard: the longest that there is, 240 lines.
pub fn table_of_full() -> Vec<u8> {
    let mut lines = String::new();
    for region in 0..16 {
        for guard in (0..16).filter(|&guard| guard != region) {
            lines += &format!("{region:02X}{guard:02X}0001\n");
        }
    }
    lines.into_bytes()
}

/// A monitor that counts frames to 33, and folds regions 0 and 1 into a remainder by 61, so that a
/// frame left out, doubled or in another place shows in the record. Regions 2 and 3 are Box.
pub fn count() -> Vec<u8> {
    let fold =
        |sum: &str| format!("if ({sum} > 60) {{ rest := {sum} - 61; }} else {{ rest := {sum}; }}");
    let turn = "if (turn == 32) { turn := 0; } else { turn := turn + 1; }";
    let (zero, one) = (fold("rest + rest"), fold("rest + rest + 1"));
    format!(
        "monitor count {{ \
         var rest = 0 in 0..60; var turn = 0 in 0..32; var full = 0 in 0..1; keep true; \
         method zero {{ waituntil (true) {{ {zero} {turn} }} }} \
         method one {{ waituntil (true) {{ {one} {turn} }} }} \
         method put {{ waituntil (full == 0) {{ full := 1; }} }} \
         method get {{ waituntil (full == 1) {{ full := 0; }} }} }}"
    )
    .into_bytes()
}

/// Bench example 6 on regions 2 and 3 of `count`: the plain machine accepts, the table's refuses
/// the last frame.
const PARTING: &[u8] = b"000300\n010300\n020201\n030301\n010300\n";

/// The line of a refusal.
pub fn refusal(number: usize, place: usize) -> Vec<u8> {
    format!("{number:02X}{place:04X}0000\n").into_bytes()
}

/// Frames of idle threads at regions 0 and 1, in an order that does not repeat itself.
pub fn walk(count: usize) -> Vec<u8> {
    let frame = |k: usize| format!("{:02X}{:02X}01\n", k % 16, k.count_ones() % 2);
    (0..count).map(frame).collect::<String>().into_bytes()
}

/// The line of the record of `count` after frames of regions 0 and 1.
pub fn record(frames: &[u8]) -> Vec<u8> {
    record_with_places(frames, "FFFF")
}

/// The same with the places of threads 0 and 1; the others are idle.
fn record_with_places(frames: &[u8], places: &str) -> Vec<u8> {
    let (mut rest, mut turn) = (0, 0);
    for frame in frames.chunks(FRAME_BYTES) {
        let region = usize::from(frame[3] - b'0');
        (rest, turn) = ((rest + rest + region) % 61, (turn + 1) % 33);
    }
    let idle = "FF".repeat(14);
    format!("00{:02X}{:02X}80{places}{idle}\n", rest + 128, turn + 128).into_bytes()
}

/// A monitor file about the limits.
pub struct File {
    pub name: String,
    pub bytes: Vec<u8>,
    /// The refusal's line, if it is not as good as the text that it holds.
    pub refused: Option<Vec<u8>>,
}

/// Files about the limits that hold a text, or nothing of worth.
pub fn files(text: &[u8]) -> Vec<File> {
    let file = |name: &str, bytes: &[u8], refused| File {
        name: name.to_string(),
        bytes: bytes.to_vec(),
        refused,
    };
    let mut files = vec![
        file("empty", b"", Some(refusal(4, 0))),
        file("blank", b" ", Some(refusal(4, 1))),
        file("letter", b"m", Some(refusal(4, 0))),
        file("text", text, None),
    ];
    for size in FILE_SIZES {
        files.extend(files_of(text, size));
    }
    files
}

/// Files of one size.
fn files_of(text: &[u8], size: usize) -> [File; 5] {
    let long = (size > FILE_BYTES).then(|| refusal(1, 0));
    let file = |name: &str, bytes, refused: Option<Vec<u8>>| {
        let name = format!("{name}-{size}");
        File { name, bytes, refused: long.clone().or(refused) }
    };
    let blanks = vec![b' '; size - text.len()];
    let last = [&filled(text, size - 1)[..], b"?"].concat();
    [
        file("front", [&blanks, text].concat(), None),
        file("behind", filled(text, size), None),
        file("spread", spread(text, size), None),
        file("early", filled(b"monitor m", size), Some(refusal(4, size))),
        file("last", last, Some(refusal(2, size - 1))),
    ]
}

/// The text with blanks behind, so that it fills the size.
pub fn filled(text: &[u8], size: usize) -> Vec<u8> {
    let mut bytes = text.to_vec();
    bytes.resize(size, b' ');
    bytes
}

/// The text with blanks between its words, so that it fills the size.
fn spread(text: &[u8], size: usize) -> Vec<u8> {
    let words: Vec<&[u8]> = text.split(|&byte| byte == b' ').collect();
    let gaps = words.len() - 1;
    let blanks = size - words.iter().map(|word| word.len()).sum::<usize>();
    let mut bytes = Vec::new();
    for (k, word) in words.iter().enumerate() {
        bytes.extend(*word);
        if k < gaps {
            let more = usize::from(k < blanks % gaps);
            bytes.resize(bytes.len() + blanks / gaps + more, b' ');
        }
    }
    bytes
}

/// A trace of `count` about the limits.
pub struct Trace {
    pub name: String,
    pub bytes: Vec<u8>,
    /// Both machines' lines.
    pub lines: Vec<u8>,
}

pub fn traces() -> Vec<Trace> {
    let mut traces = Vec::new();
    for size in SMALL_TRACES.into_iter().chain(LONG_TRACES).chain([200000]) {
        traces.extend(traces_of(size));
    }
    let good = walk(TRACE_BYTES / FRAME_BYTES);
    traces.push(Trace {
        name: "bad-digit-at-9361".into(),
        bytes: [&with_end(&good, b"x\n"), &good[..]].concat(),
        lines: refusal(12, 9361).repeat(2),
    });
    traces
}

/// Traces of one size: a good one, and if all its frames are whole, some with another end.
fn traces_of(size: usize) -> Vec<Trace> {
    let trace = |name: &str, bytes, lines| Trace { name: format!("{name}-{size}"), bytes, lines };
    let read = size.min(TRACE_BYTES);
    let (count, over) = (read / FRAME_BYTES, read % FRAME_BYTES);
    let good = &walk(size / FRAME_BYTES + 1)[..size];
    let line = if over == 0 { record(good) } else { refusal(12, count) };
    let mut traces = vec![trace("good", good.to_vec(), line.repeat(2))];
    if over != 0 || count == 0 {
        return traces;
    }
    let bad_line = refusal(12, count - 1).repeat(2);
    traces.push(trace("bad-digit", with_end(good, b"x\n"), bad_line.clone()));
    traces.push(trace("no-end", with_end(good, b"0"), bad_line));
    if count > 5 {
        let before = &good[..size - PARTING.len()];
        let lines = [record_with_places(before, "0303"), refusal(14, count - 1)].concat();
        traces.push(trace("parting", with_end(good, PARTING), lines));
    }
    traces
}

/// The bytes with their last ones replaced.
fn with_end(bytes: &[u8], end: &[u8]) -> Vec<u8> {
    [&bytes[..bytes.len() - end.len()], end].concat()
}

/// What is written at a time.
pub type Parts = Vec<Vec<u8>>;

/// Where a file's parts end: at each limit, unless all that it has behind the text is blanks.
pub fn cuts_of(file: &File) -> &'static [usize] {
    match file.name.starts_with("behind") || file.name.starts_with("last") {
        true => &[4096, 8192],
        false => &FILE_CUTS,
    }
}

/// Ways to hand bytes over, each with its name.
pub fn in_parts(bytes: &[u8], cuts: &[usize]) -> Vec<(String, Parts)> {
    let mut ways = vec![("whole".to_string(), vec![bytes.to_vec()])];
    for &cut in cuts.iter().filter(|&&cut| cut < bytes.len()) {
        let (head, tail) = bytes.split_at(cut);
        ways.push((format!("cut-{cut}"), vec![head.to_vec(), tail.to_vec()]));
    }
    for step in [1, 1000, 4096] {
        if step < bytes.len() && bytes.len() <= 200 * step {
            let parts = bytes.chunks(step).map(<[u8]>::to_vec).collect();
            ways.push((format!("by-{step}"), parts));
        }
    }
    ways
}
