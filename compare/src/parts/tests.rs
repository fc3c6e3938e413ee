//! Wrong programs are noticed, odd files do not stop a run.

use super::answers::{self, Answers, Programs};
use super::find::{find, read};
use super::hold::{End, Held, hold};
use super::run::{Run, run};
use super::{csv, loops, page, report, split};
use crate::generate;
use crate::records::{self, fields_of};
use crate::second::Stage;
use crate::text;
use crate::twice;
use std::path::PathBuf;

fn part(number: usize) -> Vec<u8> {
    let path = format!("{}/parts/P{number}.txt", env!("CARGO_MANIFEST_DIR"));
    let text = std::fs::read(path).expect("the part is there");
    job_text::assemble(&text).expect("the part is readable")
}

fn programs(tested: fn(&[u8]) -> Answers) -> Programs {
    Programs {
        name: "library",
        tested,
        with_table: answers::second_with_table,
        for_print: answers::second_for_print,
        reference: answers::reference,
    }
}

fn held(number: usize, tested: fn(&[u8]) -> Answers) -> Held {
    hold(&part(number), &programs(tested))
}

/// Kinds and words of all differences.
fn told(held: &Held) -> Vec<String> {
    let all = held.differences.iter();
    all.map(|d| format!("{}: {}", d.kind.name(), d.told))
        .collect()
}

/// A program that loses the last loop of the body.
fn drops_a_loop(job: &[u8]) -> Answers {
    let mut answers = answers::second(job);
    if let Ok(body) = &mut answers.body {
        let (mut list, _) = records::split(body);
        if let Some(last) = list.iter().rposition(|(kind, _)| *kind == 25) {
            list.remove(last);
        }
        *body = records::to_bytes(&list);
    }
    answers
}

/// A program that gives the first two uses each other's twin.
fn swaps_twins(job: &[u8]) -> Answers {
    let mut answers = answers::second(job);
    if let Ok(twins) = &mut answers.stages[Stage::Pair as usize] {
        twins[..8].rotate_left(4);
    }
    answers
}

/// A program that tells another place.
fn wrong_place(job: &[u8]) -> Answers {
    let mut answers = answers::second(job);
    for answer in answers.stages.iter_mut().chain([&mut answers.body]) {
        *answer = answer
            .clone()
            .map_err(|(number, place)| (number, place + 1));
    }
    answers
}

/// A program that writes the right body and lists a wrong one.
fn lists_wrongly(job: &[u8]) -> Answers {
    let mut answers = answers::second(job);
    answers.listing = answers.listing.replace("lump", "lamp");
    answers
}

/// A program that counts one face join too many, in the body and its listing.
fn counts_a_join_more(job: &[u8]) -> Answers {
    let mut answers = answers::second(job);
    if let Ok(body) = &mut answers.body {
        body[30] += 1;
        answers.listing = text::listing(body);
    }
    answers
}

/// A program that leaves the face joins out, and the members.
fn counts_no_joins(job: &[u8]) -> Answers {
    answers::second(job).compared()
}

/// The second implementation's answers with other records of a kind, none for
/// those that are lost.
fn spoilt(job: &[u8], kind: u16, spoil: fn(&[u32]) -> Option<Vec<u32>>) -> Answers {
    let mut answers = answers::second(job);
    if let Ok(body) = &mut answers.body {
        let list = records::split(body).0.into_iter();
        let kept = list.filter_map(|(of, fields)| match of == kind {
            true => Some((of, spoil(&fields)?)),
            false => Some((of, fields)),
        });
        *body = records::to_bytes(&kept.collect::<Vec<_>>());
        answers.listing = text::listing(body);
    }
    answers
}

fn loses_members(job: &[u8]) -> Answers {
    spoilt(job, 29, |_| None)
}

/// A program that tells the lowest member of a face alone.
fn tells_one_member(job: &[u8]) -> Answers {
    spoilt(job, 29, |members| Some(members[..2].to_vec()))
}

/// A program that tells the highest member first.
fn turns_members(job: &[u8]) -> Answers {
    spoilt(job, 29, |members| {
        Some(members.chunks(2).rev().flatten().copied().collect())
    })
}

fn refuses_all(job: &[u8]) -> Answers {
    let mut answers = answers::second(job);
    answers.body = Err((13, 0));
    answers
}

#[test]
fn a_right_program_differs_nowhere() {
    for number in 1..=9 {
        let held = held(number, answers::second);
        assert_eq!(told(&held), Vec::<String>::new(), "P{number}");
        assert_eq!(held.tested.loops, held.other.loops);
    }
}

#[test]
fn a_lost_loop_is_noticed() {
    let held = held(9, drops_a_loop);
    let wanted = "body records: record 8: library `lump`, reference `loop 1 1 0 1`";
    assert_eq!(told(&held), [wanted]);
    assert_eq!(held.tested.loops, Some(vec![1, 0]));
    assert_eq!(held.other.loops, Some(vec![1, 1]));
    let third = "the second implementation agrees with the reference";
    assert_eq!(held.third.as_deref(), Some(third));
}

#[test]
fn swapped_twins_are_noticed() {
    let wanted = "twins: record 0 (twin of the use): library `2`, reference `5`";
    assert_eq!(told(&held(9, swaps_twins)), [wanted]);
}

#[test]
fn a_wrong_place_is_noticed() {
    let at_pairing = "refusal: pair: library refused 11 1, reference refused 11 0";
    assert_eq!(told(&held(5, wrong_place)), [at_pairing]);
    // A job that does not load is held against the second implementation.
    let at_loading = "refusal: read: library refused 6 59, second refused 6 58";
    assert_eq!(told(&held(6, wrong_place)), [at_loading]);
    let refused = "refusal: sewing: library refused 13 0, reference accepted";
    assert_eq!(told(&held(9, refuses_all)), [refused]);
}

#[test]
fn a_wrong_listing_is_noticed() {
    let wanted = "listing: record 9: library `lamp`, reference `lump`";
    assert_eq!(told(&held(9, lists_wrongly)), [wanted]);
}

/// The reference has no face joins; the second implementation has.
#[test]
fn wrong_face_joins_are_noticed() {
    let third = "the second implementation agrees with the reference";
    for (tested, body) in [
        (counts_a_join_more as fn(&[u8]) -> Answers, ".. 6 2 2 0 0 2"),
        (counts_no_joins, ".. 6 2 2 0 0"),
    ] {
        let held = held(9, tested);
        let wanted = format!("body records: record 0: library `{body}`, second `.. 6 2 2 0 0 1`");
        assert_eq!(told(&held), [wanted]);
        assert_eq!(held.third.as_deref(), Some(third));
    }
}

/// The reference has no members; the second implementation has.
#[test]
fn wrong_members_are_noticed() {
    let third = "the second implementation agrees with the reference";
    for (tested, line) in [
        (loses_members as fn(&[u8]) -> Answers, "loop 0 0 1 0"),
        (tells_one_member, "members 0 0"),
        (turns_members, "members 0 1 0 0"),
    ] {
        let held = held(9, tested);
        let wanted = format!("body records: record 6: library `{line}`, second `members 0 0 0 1`");
        assert_eq!(told(&held), [wanted]);
        assert_eq!(held.third.as_deref(), Some(third));
    }
}

/// A program that sews a face selected twice, as the reference would.
fn selects_twice(job: &[u8]) -> Answers {
    answers::second(&twice::repaired(job))
}

/// The job that document 02's request Eight begins with.
fn selected_twice() -> Vec<u8> {
    let text = include_bytes!("../../parts/requests/eight-selected-twice.txt");
    job_text::assemble(text).expect("the part is readable")
}

/// A face selected twice does not load, so the reference is not asked, and the
/// second implementation stands in.
#[test]
fn a_face_selected_twice_is_not_compared_with_the_reference() {
    let alone = |tested| Programs {
        reference: |_| panic!("asked"),
        ..programs(tested)
    };
    let job = selected_twice();
    let right = hold(&job, &alone(answers::second));
    assert_eq!(told(&right), Vec::<String>::new());
    assert_eq!(right.tested.end, End::Refused(45, 72));
    assert_eq!(right.other.name, "second");
    let wrong = hold(&job, &alone(selects_twice));
    let wanted = "refusal: read: library accepted, second refused 45 72";
    assert_eq!(told(&wrong), [wanted]);
    assert_eq!(wrong.other.end, End::Refused(45, 72));
}

/// A program that takes every table as the full one.
fn takes_all_as_full(_: &[u8], job: &[u8]) -> [answers::Answer; 2] {
    answers::second_with_table(&[1, 0, 0, 1], job)
}

/// A program that takes every table as four zeros.
fn takes_all_as_zeros(_: &[u8], job: &[u8]) -> [answers::Answer; 2] {
    answers::second_with_table(&[0; 4], job)
}

/// A program that takes a table's bytes from the last to the first.
fn turns_the_table(table: &[u8], job: &[u8]) -> [answers::Answer; 2] {
    match *table {
        [a, b, c, d] => answers::second_with_table(&[d, c, b, a], job),
        _ => answers::second_with_table(table, job),
    }
}

/// A program that tests the job before the table.
fn loads_before_the_table(table: &[u8], job: &[u8]) -> [answers::Answer; 2] {
    match crate::second::load(job) {
        Ok(_) => answers::second_with_table(table, job),
        Err(refusal) => [(); 2].map(|()| Err((refusal.number, refusal.place))),
    }
}

#[test]
fn wrong_tables_are_noticed() {
    type WithTable = fn(&[u8], &[u8]) -> [answers::Answer; 2];
    for (with_table, job, wanted) in [
        (
            takes_all_as_full as WithTable,
            part(9),
            "0001: record 0: library `body 1 6 2 2 0 0 1`, second `body 1 6 0 0 0 0 0`",
        ),
        (
            takes_all_as_zeros,
            part(9),
            "1001: record 0: library `body 1 6 0 0 0 0 0`, without a table `body 1 6 2 2 0 0 1`",
        ),
        (
            turns_the_table,
            part(9),
            "1000: record 0: library `body 1 6 0 0 0 0 0`, second `body 1 6 2 2 0 0 1`",
        ),
        (
            loads_before_the_table,
            Vec::new(),
            "1102: library refused 3 0, second refused 48 1",
        ),
    ] {
        let programs = Programs {
            with_table,
            ..programs(answers::second)
        };
        let wanted = format!("with a table: sewing with table {wanted}");
        assert_eq!(told(&hold(&job, &programs)), [wanted]);
    }
}

#[test]
fn a_program_that_stops_with_a_table_is_a_difference() {
    let programs = Programs {
        with_table: |_, _| panic!("out of tables"),
        ..programs(answers::second)
    };
    let wanted = "stopped: library stopped with table 1001: out of tables";
    assert_eq!(told(&hold(&part(9), &programs)), [wanted]);
}

/// The part of request Two that touches itself at point 4.
fn touching() -> Vec<u8> {
    let text = include_bytes!("../../parts/requests/two-touching.txt");
    job_text::assemble(text).expect("the part is readable")
}

/// A program that sews for print as it does ordinarily.
fn prints_all(job: &[u8]) -> answers::Answer {
    answers::second(job).body
}

/// A program that refuses every job for print.
fn prints_none(_: &[u8]) -> answers::Answer {
    Err((42, 0))
}

/// A program that counts fans within one boundary alone.
fn tells_31(job: &[u8]) -> answers::Answer {
    answers::second_for_print(job).map_err(|(number, place)| match number {
        42 => (31, place),
        number => (number, place),
    })
}

#[test]
fn wrong_endings_for_print_are_noticed() {
    type ForPrint = fn(&[u8]) -> answers::Answer;
    for (for_print, job, wanted) in [
        (
            prints_all as ForPrint,
            touching(),
            "library accepted, second refused 42 4",
        ),
        (
            tells_31,
            touching(),
            "library refused 31 4, second refused 42 4",
        ),
        (
            prints_none,
            part(9),
            "library refused 42 0, second accepted",
        ),
        (
            |_| Ok(vec![9]),
            part(9),
            "record 0: library nothing, second `body 1 6 2 2 0 0 1`",
        ),
        (
            prints_none,
            Vec::new(),
            "library refused 42 0, second refused 3 0",
        ),
    ] {
        let programs = Programs {
            for_print,
            ..programs(answers::second)
        };
        let wanted = format!("for print: sewing for print: {wanted}");
        assert_eq!(told(&hold(&job, &programs)), [wanted]);
    }
    let programs = Programs {
        for_print: |_| panic!("out of resin"),
        ..programs(answers::second)
    };
    let wanted = "stopped: library stopped for print: out of resin";
    assert_eq!(told(&hold(&part(9), &programs)), [wanted]);
}

/// Both reports name 45 and say what such a part was held against.
#[test]
fn reports_tell_of_a_face_selected_twice() {
    let folder = Folder::new("twice");
    folder.put("P9.job", &part(9));
    folder.put("twice.job", &selected_twice());
    let run = folder.run(answers::second);
    let lines = report::lines(&run);
    let number = "    with 45        1  the face is selected twice: the same body and source face";
    let outside = "  1 part does not load (1 to 7 and 45): the reference has no loader, \
                   so the second implementation stood in";
    for line in [number, outside] {
        assert!(lines.iter().any(|l| l == line), "{line} in {lines:?}");
    }
    let page = page::page(&run);
    assert!(page.contains("the face is selected twice: the same body and source face"));
    assert!(page.contains("(1 to 7 and 45)"));
    let table = csv::table(&run);
    let row = "twice.job,112,,same,library,refused 45 72,second,refused 45 72,";
    assert!(table.contains(row), "{table}");
}

#[test]
fn a_program_that_stops_is_a_difference() {
    let held_stopped = held(9, |_| panic!("out of thread"));
    let wanted = "stopped: library stopped: out of thread";
    assert_eq!(told(&held_stopped), [wanted]);
    assert_eq!(held_stopped.tested.end, End::Stopped);
    let programs = Programs {
        reference: |_| panic!("out of {}", "cloth"),
        ..programs(answers::second)
    };
    let wanted = "stopped: reference stopped: out of cloth";
    assert_eq!(told(&hold(&part(9), &programs)), [wanted]);
}

#[test]
fn generated_parts_agree_and_their_outputs_come_apart() {
    for index in 0..500 {
        let job = generate::sample(5, index).job;
        let held = hold(&job, &programs(answers::second));
        assert!(told(&held).is_empty(), "job {index}: {:?}", told(&held));
        let answers = answers::second(&job);
        for stage in Stage::ALL {
            if let Ok(output) = answers.stage(stage) {
                let records = split::records(stage, output);
                assert_eq!(records.concat(), fields_of(output), "job {index}");
            }
        }
        // A body that was refused has the loops of its stages.
        let mut refused = answers.clone();
        refused.body = Err((40, 0));
        if answers.body.is_ok() {
            assert_eq!(loops::per_face(&answers), loops::per_face(&refused));
        }
    }
}

/// A folder that is removed with the test.
struct Folder(PathBuf);

impl Folder {
    fn new(name: &str) -> Self {
        let name = format!("judge-{}-{name}", std::process::id());
        let path = std::env::temp_dir().join(name);
        std::fs::create_dir(&path).expect("a folder can be made");
        Self(path)
    }

    fn put(&self, name: &str, bytes: &[u8]) {
        std::fs::write(self.0.join(name), bytes).expect("a file can be written");
    }

    fn run(&self, tested: fn(&[u8]) -> Answers) -> Run {
        let report = Some(self.0.join("report.csv"));
        let found = find(std::slice::from_ref(&self.0), &[&report]).expect("a folder");
        run(found, &programs(tested))
    }
}

impl Drop for Folder {
    fn drop(&mut self) {
        let _ = std::fs::remove_dir_all(&self.0);
    }
}

/// Parts and odd files, some with names that need care.
fn full_folder(name: &str) -> Folder {
    let folder = Folder::new(name);
    folder.put("P9.job", &part(9));
    folder.put("a,\"b\" <i>.JOB", &part(2));
    folder.put("empty.job", b"");
    folder.put("long.job", &vec![0; 70_000]);
    folder.put("notes.md", b"no part");
    folder.put("report.csv", b"of an earlier run");
    folder.put("text.txt", b"head 0 # P1\n");
    folder.put("wrong.txt", b"haed 0\nhead x\n");
    let inner = folder.0.join("inner.job");
    std::fs::create_dir(&inner).expect("a folder can be made");
    std::fs::write(inner.join("line\nbreak.job"), part(5)).expect("a file can be written");
    folder
}

fn names(run: &Run) -> Vec<&str> {
    run.parts.iter().map(|part| part.name.as_str()).collect()
}

#[test]
fn odd_files_are_counted_and_no_stop() {
    let folder = full_folder("odd");
    let run = folder.run(answers::second);
    let parts = [
        "P9.job",
        "a,\"b\" <i>.JOB",
        "empty.job",
        "inner.job/line\\nbreak.job",
        "long.job",
        "text.txt",
    ];
    assert_eq!(names(&run), parts);
    let long = &run.parts[4];
    assert_eq!(long.length, 70_000);
    assert_eq!(long.held.tested.end, End::Refused(1, 65_536));
    let odd: Vec<String> = run
        .odd
        .iter()
        .map(|o| format!("{}: {}", o.name, o.why))
        .collect();
    assert_eq!(odd[0], "notes.md: neither .job nor .txt");
    assert!(odd[1].starts_with("wrong.txt: line 1: no record is called `haed`"));
    assert!(odd[1].ends_with("(and 1 more)"));
    assert_eq!(odd.len(), 2);
    let lines = report::lines(&run);
    assert!(lines.contains(&"  odd files        2".to_string()));
    assert_eq!(lines.last().map(String::as_str), Some("nothing differs"));
}

#[cfg(unix)]
#[test]
fn links_and_names_that_are_no_text_are_no_stop() {
    use std::os::unix::{ffi::OsStrExt, fs::symlink};
    let folder = Folder::new("links");
    let name = std::ffi::OsStr::from_bytes(b"no\xfftext.job");
    std::fs::write(folder.0.join(name), part(9)).expect("a file can be written");
    symlink("nowhere", folder.0.join("broken.job")).expect("a link can be made");
    symlink(".", folder.0.join("round.job")).expect("a link can be made");
    let run = folder.run(answers::second);
    assert_eq!(names(&run), ["no\u{fffd}text.job"]);
    let odd: Vec<&str> = run.odd.iter().map(|odd| odd.name.as_str()).collect();
    assert_eq!(odd, ["broken.job", "round.job"]);
    assert!(read(&folder.0.join("gone.job")).is_err());
    assert!(find(&[folder.0.join("gone")], &[]).is_err());
}

#[test]
fn reports_tell_what_differs() {
    let folder = full_folder("reports");
    let run = folder.run(drops_a_loop);
    let differing: Vec<&str> = run.differing().map(|part| part.name.as_str()).collect();
    assert_eq!(differing, ["P9.job", "a,\"b\" <i>.JOB"]);

    let lines = report::lines(&run);
    let last = lines.last().map(String::as_str);
    assert_eq!(last, Some("2 of 6 parts differ"));
    let at = lines.iter().position(|line| line.starts_with("    face"));
    let counts = &lines[at.expect("faces are shown")..][..4];
    let wanted = [
        "    face               0   1",
        "    library loops      1   0",
        "    reference loops    1   1",
        "                           *",
    ];
    assert_eq!(counts, wanted);

    let table = csv::table(&run);
    let rows: Vec<&str> = table.split("\r\n").collect();
    assert_eq!(rows.len(), 1 + 6 + 2 + 1, "{table}");
    assert!(rows[2].starts_with("\"a,\"\"b\"\" <i>.JOB\",126,2,differs,library,accepted,"));
    assert!(rows[3].starts_with("empty.job,0,,same,library,refused 3 0,second,refused 3 0,"));
    assert!(rows[7].starts_with("notes.md,,,odd,"));
}

#[test]
fn the_page_stands_alone_with_differing_parts_first() {
    let folder = full_folder("page");
    let page = page::page(&folder.run(drops_a_loop));
    assert!(page.contains("a,&quot;b&quot; &lt;i&gt;.JOB"));
    assert!(!page.contains("<i>"));
    let place = |text: &str| page.find(text).unwrap_or_else(|| panic!("{text}"));
    assert!(place("id=\"differing\"") < place("id=\"refused\""));
    assert!(place("id=\"refused\"") < place("id=\"accepted\""));
    for outside in ["http", "src=", "url(", "@import", "<script", "<link"] {
        assert!(!page.contains(outside), "{outside}");
    }
    // The lost loop is marked on both sides.
    assert_eq!(page.matches("class=\"d x\"").count(), 1 + 2 * 2);
}

/// The proved library itself, where it is built in.
#[cfg(feature = "library")]
#[test]
fn the_library_agrees() {
    for number in 1..=9 {
        let held = hold(&part(number), &answers::PROGRAMS);
        assert!(told(&held).is_empty(), "P{number}: {:?}", told(&held));
    }
    for index in 0..500 {
        let held = hold(&generate::sample(6, index).job, &answers::PROGRAMS);
        assert!(told(&held).is_empty(), "job {index}: {:?}", told(&held));
    }
}
