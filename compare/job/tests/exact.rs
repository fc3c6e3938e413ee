//! Text and bytes turn into each other without loss.

use job_text::{Wrong, assemble, records, show};

/// Random numbers (xorshift), the same on each run.
struct Numbers(u64);

impl Numbers {
    fn below(&mut self, count: usize) -> usize {
        self.0 ^= self.0 << 13;
        self.0 ^= self.0 >> 7;
        self.0 ^= self.0 << 17;
        (self.0 >> 11) as usize % count
    }

    fn bytes(&mut self, most: usize) -> Vec<u8> {
        (0..self.below(most + 1))
            .map(|_| self.below(256) as u8)
            .collect()
    }

    /// Records of small numbers, of known and unknown kinds.
    fn records(&mut self) -> Vec<u8> {
        let record = |_| {
            let field = |numbers: &mut Self| match numbers.below(4) {
                0 => u32::MAX,
                _ => numbers.below(3) as u32,
            };
            let fields = (0..self.below(7)).map(|_| field(self)).collect();
            (self.below(16) as u16, fields)
        };
        records::to_bytes(&(0..8).map(record).collect::<Vec<_>>())
    }
}

fn part(number: usize) -> Vec<u8> {
    let path = format!("{}/../parts/P{number}.txt", env!("CARGO_MANIFEST_DIR"));
    std::fs::read(path).expect("the part is there")
}

fn comes_back(job: &[u8]) {
    let text = show(job);
    assert_eq!(assemble(text.as_bytes()).as_deref(), Ok(job), "{text}");
}

/// The text without comments, empty lines and spare spaces.
fn plain(text: &str) -> String {
    let words = |line: &str| {
        let content = line.split('#').next().unwrap_or("");
        content.split_whitespace().collect::<Vec<_>>().join(" ")
    };
    let lines = text.lines().map(words).filter(|line| !line.is_empty());
    lines.map(|line| line + "\n").collect()
}

#[test]
fn the_drawn_parts_come_back_as_written() {
    for number in 1..=9 {
        let text = part(number);
        let job = assemble(&text).expect("the part is readable");
        comes_back(&job);
        let text = String::from_utf8(text).expect("the part is text");
        assert_eq!(show(&job), plain(&text), "P{number}");
    }
}

#[test]
fn all_bytes_come_back() {
    let mut numbers = Numbers(1);
    for _ in 0..20_000 {
        comes_back(&numbers.bytes(40));
        let mut job = numbers.records();
        comes_back(&job);
        let at = numbers.below(job.len());
        job[at] = numbers.below(256) as u8;
        comes_back(&job);
        job.truncate(numbers.below(job.len()));
        comes_back(&job);
    }
    comes_back(&numbers.bytes(100_000));
    for length in 0..=8 {
        comes_back(&vec![0; length]);
        comes_back(&vec![255; length]);
    }
}

/// What `show` writes comes back from its bytes, with spaces and comments too.
#[test]
fn texts_come_back() {
    let mut numbers = Numbers(2);
    for _ in 0..2_000 {
        let text = show(&numbers.records());
        let spaced = text.replace(' ', "\t  ").replace('\n', "  # note\r\n\n");
        let job = assemble(spaced.as_bytes()).expect("spaces and comments are free");
        assert_eq!(show(&job), text);
        assert_eq!(plain(&spaced), text);
    }
}

#[test]
fn damage_is_written_as_bytes_where_it_stands() {
    let head = [4, 0, 0, 0, 1, 0, 1, 0, 0, 0];
    let odd = [1, 0, 0, 0, 9, 0, 255];
    let cut = [4, 0, 0, 0, 8, 0, 1];
    let text = show(&[&head[..], &odd, &head, &cut].concat());
    let wanted = "\
head 1
# a length of no whole fields, at byte 10:
bytes 01 00 00 00 09 00 ff
head 1
# cut short, at byte 27:
bytes 04 00 00 00 08 00 01
";
    assert_eq!(text, wanted);
}

#[test]
fn a_record_that_does_not_fit_its_name_goes_by_number() {
    for text in ["3 5 0 1\n", "5\n", "1\n", "0 7\n", "14\n", "65535 1 2\n"] {
        let job = assemble(text.as_bytes()).expect("any kind with any fields");
        assert_eq!(show(&job), text);
    }
    let by_number = assemble(b"3 5 0 4294967295 4294967295").expect("an edge");
    assert_eq!(show(&by_number), "edge 5 0 - -\n");
}

fn reasons(text: &[u8]) -> Vec<(usize, String)> {
    let told = |wrong: Wrong| (wrong.line, wrong.reason);
    let all = assemble(text).expect_err("a line is wrong");
    all.into_iter().map(told).collect()
}

#[test]
fn every_wrong_line_is_told() {
    let text = b"head 1\nvertx 0\n# fine\nvertex one\nedge 5 0 1\nloop 0 0 1\nvertex -\n\
        vertex 4294967296\n65536\nvertex +1\nbytes 1 2\nbytes\n\xff\nhead 1 # last\n";
    let told = reasons(text);
    let wanted = [
        (2, "no record is called `vertx`"),
        (4, "`one` is not a number"),
        (5, "3 fields do not make `edge curve sense start end`"),
        (6, "3 fields do not make `loop edge sense [edge sense ..]`"),
        (7, "`-`, no vertex, is only for the ends of an `edge`"),
        (8, "4294967296 is too large for a field"),
        (9, "65536 is too large for a kind"),
        (10, "`+1` is not a number"),
        (11, "`1` is not a byte"),
        (12, "`bytes` without any byte"),
        (13, "not text in UTF-8"),
    ];
    assert_eq!(told.len(), wanted.len(), "{told:?}");
    for ((line, reason), (at, start)) in told.iter().zip(wanted) {
        assert_eq!(*line, at);
        assert!(reason.starts_with(start), "{reason}");
    }
}
