//! Parts P1 to P9 of document 01, those of the requests, and the edges of the interface.
use std::fs;
use std::path::Path;
use zaxclover::{
    FULL_TABLE, Refusal, Stage, VERSION, body, body_for_print, body_with_table, list, listing,
    listing_for_print, listing_with_table, loop_payload, sew, sew_for_print, sew_with_table, stage,
    walk_stage_with_table,
};

/// Kinds of records that are looked for below, as the header numbers them.
const FACE: u16 = 4;
const BODY_FACE: u16 = 24;
const BODY_MEMBERS: u16 = 29;

const KINDS: [&str; 13] = [
    "head",
    "vertex",
    "edge",
    "face",
    "loop",
    "vertex-loop",
    "radial",
    "surface",
    "points",
    "curves",
    "singular",
    "orientation",
    "inside",
];

/// The job of a part's text, and the listing that it should give.
fn part(name: &str) -> (Vec<u8>, String) {
    let file = Path::new(env!("CARGO_MANIFEST_DIR"))
        .join("../../compare/parts")
        .join(name);
    let text = fs::read_to_string(&file).expect("a part of compare/parts");
    let expected = text.lines().filter_map(|line| line.strip_prefix("#> "));
    let expected = expected.map(|line| format!("{line}\n")).collect();
    (assembled(&text), expected)
}

/// The job of a text, a record a line, or bytes as they are.
fn assembled(text: &str) -> Vec<u8> {
    let mut job = Vec::new();
    for line in text.lines() {
        let words: Vec<&str> = line
            .split('#')
            .next()
            .unwrap_or("")
            .split_whitespace()
            .collect();
        match words.split_first() {
            Some((&"bytes", bytes)) => job.extend(bytes.iter().map(|byte| hexadecimal(byte))),
            Some((kind, fields)) => job.extend(written(&[record(kind, fields)])),
            None => {}
        }
    }
    job
}

fn hexadecimal(byte: &str) -> u8 {
    u8::from_str_radix(byte, 16).expect("a byte")
}

/// Kind and fields.
type Record = (u16, Vec<u32>);

/// The kind is a name or, for a record of any kind with any fields, a number.
fn record(kind: &str, words: &[&str]) -> Record {
    let number = match KINDS.iter().position(|name| *name == kind) {
        Some(i) => 1 + i as u16,
        None => kind.parse().expect("a kind"),
    };
    let field = |word: &&str| match *word {
        "-" => u32::MAX,
        word => word.parse().expect("a number"),
    };
    (number, words.iter().map(field).collect())
}

/// The bytes of records.
fn written(records: &[Record]) -> Vec<u8> {
    let mut bytes = Vec::new();
    for (kind, fields) in records {
        bytes.extend_from_slice(&(4 * fields.len() as u32).to_le_bytes());
        bytes.extend_from_slice(&kind.to_le_bytes());
        bytes.extend(fields.iter().flat_map(|field| field.to_le_bytes()));
    }
    bytes
}

fn shown(job: &[u8]) -> String {
    listing(job).unwrap_or_else(|r| format!("refused {} {}\n", r.number, r.place))
}

fn refused(number: usize, place: usize) -> Refusal {
    Refusal { number, place }
}

#[test]
fn parts_list_as_document_01_prints_them() {
    for n in 1..=9 {
        let (job, expected) = part(&format!("P{n}.txt"));
        assert_eq!(shown(&job), expected, "P{n}");
    }
}

/// The names of the parts made for the requests of document 02.
fn parts_of_the_requests() -> Vec<String> {
    let folder = Path::new(env!("CARGO_MANIFEST_DIR")).join("../../compare/parts/requests");
    let names: Vec<String> = fs::read_dir(folder)
        .expect("compare/parts/requests")
        .map(|file| file.expect("a part").file_name())
        .map(|name| format!("requests/{}", name.to_string_lossy()))
        .collect();
    let of_request = |word: &str| names.iter().filter(|name| name.contains(word)).count();
    let seen = (of_request("/seven-"), of_request("/eight-"), names.len());
    assert!(
        seen.0 >= 7 && seen.1 >= 23 && seen.2 >= 50,
        "{seen:?} parts"
    );
    names
}

#[test]
fn parts_of_the_requests_list_as_their_files_say() {
    for name in parts_of_the_requests() {
        let (job, expected) = part(&name);
        assert!(!expected.is_empty(), "{name} says nothing");
        assert_eq!(shown(&job), expected, "{name}");
    }
}

/// Request Six: the last number of the body's line, for P1 to P9 and the parts made for it.
#[test]
fn faces_selected_less_face_joins_are_the_faces_written() {
    let joins = [
        ("P1.txt", 0),
        ("P2.txt", 0),
        ("P3.txt", 1),
        ("P7.txt", 0),
        ("P8.txt", 0),
        ("P9.txt", 1),
        ("requests/six-joined-once.txt", 1),
        ("requests/six-second-in-group.txt", 2),
        ("requests/six-first-in-group.txt", 2),
        ("requests/six-pairs.txt", 3),
        ("requests/six-round.txt", 2),
        ("requests/six-in-vain.txt", 1),
    ];
    for (name, joins) in joins {
        let (job, _) = part(name);
        let body = body(&job).expect("an accepted part");
        let told = fields(&body[30..34])[0];
        assert_eq!(told, joins, "{name}");
        let (selected, written) = (of_kind(&job, FACE).len(), of_kind(&body, BODY_FACE).len());
        assert_eq!(selected, told as usize + written, "{name}");
    }
}

/// The fields of bytes.
fn fields(bytes: &[u8]) -> Vec<u32> {
    bytes
        .chunks(4)
        .map(|field| u32::from_le_bytes(field.try_into().unwrap()))
        .collect()
}

/// The records of a job that loads, or of a body.
fn records(bytes: &[u8]) -> Vec<Record> {
    let (mut at, mut list) = (0, Vec::new());
    while at < bytes.len() {
        let length = fields(&bytes[at..at + 4])[0] as usize;
        let kind = u16::from_le_bytes([bytes[at + 4], bytes[at + 5]]);
        list.push((kind, fields(&bytes[at + 6..at + 6 + length])));
        at += 6 + length;
    }
    list
}

/// The fields of each record of a kind.
fn of_kind(bytes: &[u8], kind: u16) -> Vec<Vec<u32>> {
    let list = records(bytes).into_iter();
    list.filter(|record| record.0 == kind)
        .map(|record| record.1)
        .collect()
}

/// What `sew` writes.
fn sewn(job: &[u8]) -> Result<Vec<u8>, Refusal> {
    let mut out = vec![0xA5; 65_536];
    let length = sew(job, &mut out)?;
    out.truncate(length);
    Ok(out)
}

/// Request Seven: body and source face of the members of each face, in parts P1 to P9 and those made for it.
#[test]
fn faces_remember_their_members() {
    let parts: [(&str, &[&[u32]]); 10] = [
        ("P1.txt", &[]),
        ("P2.txt", &[&[0, 0], &[0, 1]]),
        ("P3.txt", &[&[0, 0, 0, 1]]),
        ("P7.txt", &[&[0, 0], &[0, 1]]),
        ("P8.txt", &[&[0, 0], &[0, 1]]),
        ("P9.txt", &[&[0, 0, 0, 1], &[0, 2]]),
        (
            "requests/seven-alternate.txt",
            &[&[0, 40, 1, 20], &[1, 40, 0, 20]],
        ),
        (
            "requests/seven-no-loops.txt",
            &[&[0, u32::MAX], &[1, 65_536]],
        ),
        ("requests/seven-same-source.txt", &[&[1, 6, 0, 6]]),
        (
            "requests/seven-three-members.txt",
            &[&[1, 0], &[1, 9, 0, u32::MAX, 0, 3]],
        ),
    ];
    for (name, members) in parts {
        let (job, _) = part(name);
        let body = sewn(&job).expect("an accepted part");
        assert_eq!(of_kind(&body, BODY_MEMBERS), members, "{name}");
    }
}

/// Body and source face of the selected faces of each merged face, as the merge stage groups them: by ascending lowest
/// face, and in each group ascending.
fn members_by_merging(job: &[u8]) -> Vec<Vec<u32>> {
    let mut out = vec![0; 8 * 256];
    let length = stage(Stage::Merge, job, &mut out).expect("a job that merges");
    let groups: Vec<usize> = fields(&out[..length])
        .chunks(2)
        .map(|face| face[1] as usize)
        .collect();
    let faces = of_kind(job, FACE);
    assert_eq!(faces.len(), groups.len());
    let lowest = (0..groups.len()).filter(|face| groups[*face] == *face);
    let members = |lowest| {
        let selected = faces.iter().zip(&groups);
        selected
            .filter(|(_, group)| **group == lowest)
            .flat_map(|(face, _)| face[3..].to_vec())
            .collect()
    };
    lowest.map(members).collect()
}

/// Every accepted part: the members follow their face directly and stand nowhere else, and each selected face is a
/// member of the face that merging made of it.
#[test]
fn members_follow_their_face_and_are_those_that_merging_joined() {
    let parts = (1..=9).map(|n| format!("P{n}.txt"));
    let (mut accepted, mut merged) = (0, 0);
    for name in parts.chain(parts_of_the_requests()) {
        let (job, _) = part(&name);
        let Ok(body) = sewn(&job) else {
            continue;
        };
        for pair in records(&body).windows(2) {
            let (is_face, is_members) = (pair[0].0 == BODY_FACE, pair[1].0 == BODY_MEMBERS);
            assert_eq!(is_face, is_members, "{name}: {pair:?}");
        }
        let members = of_kind(&body, BODY_MEMBERS);
        assert_eq!(members, members_by_merging(&job), "{name}");
        accepted += 1;
        merged += members.iter().filter(|member| member.len() > 2).count();
    }
    assert!(accepted >= 20 && merged >= 12, "{accepted}, {merged}");
}

/// All that takes a job refuses it.
fn hold_refused(name: &str, job: &[u8], why: Refusal) {
    let mut out = [0xA5; 1024];
    assert_eq!(sew(job, &mut out), Err(why), "{name}");
    assert_eq!(sew(job, &mut []), Err(why), "{name}");
    for s in Stage::ALL {
        assert_eq!(stage(s, job, &mut out), Err(why), "{name} {s:?}");
        assert_eq!(stage(s, job, &mut []), Err(why), "{name} {s:?}");
    }
    for table in PERMITTED {
        for run in WITH_TABLE {
            assert_eq!(run(&table, job, &mut out), Err(why), "{name} {table:?}");
            assert_eq!(run(&table, job, &mut []), Err(why), "{name} {table:?}");
        }
        assert_eq!(body_with_table(&table, job), Err(why), "{name} {table:?}");
        let text = listing_with_table(&table, job);
        assert_eq!(text, Err(why), "{name} {table:?}");
    }
    hold_not_printed(name, job, why);
    for n in [0, 1, 1024, usize::MAX] {
        assert_eq!(loop_payload(job, n), Err(why), "{name} loop {n}");
    }
    assert_eq!(out, [0xA5; 1024], "{name}");
    assert_eq!(body(job), Err(why), "{name}");
    assert_eq!(listing(job), Err(why), "{name}");
    let line = format!("refused {} {}\n", why.number, why.place);
    assert_eq!(list(job), line, "{name}");
}

/// Request Seven: faces as they were before it, a body other than 0 and 1, and a record of members in a job.
#[test]
fn faces_without_body_and_source_and_of_other_bodies_are_refused() {
    for (name, why) in [
        ("requests/seven-three-fields.txt", refused(3, 10)),
        ("requests/seven-body-two.txt", refused(4, 36)),
        ("requests/seven-as-before.txt", refused(3, 36)),
    ] {
        hold_refused(name, &part(name).0, why);
    }
}

/// P9 with another number of fields in one of its faces, or another body.
#[test]
fn each_face_of_a_part_has_five_fields_and_body_0_or_1() {
    let (job, _) = part("P9.txt");
    let list = records(&job);
    assert_eq!(written(&list), job);
    let faces: Vec<usize> = (0..list.len()).filter(|i| list[*i].0 == FACE).collect();
    assert_eq!(faces.len(), 3);
    for i in faces {
        let place = written(&list[..i]).len();
        for length in [0, 1, 2, 3, 4, 6] {
            let mut other = list.clone();
            other[i].1.resize(length, 0);
            hold_refused("P9", &written(&other), refused(3, place));
        }
        for body in [2, 3, 256, 65_536, u32::MAX] {
            let mut other = list.clone();
            other[i].1[3] = body;
            hold_refused("P9", &written(&other), refused(4, place));
        }
        for (body, source) in [(0, u32::MAX), (1, 0), (1, 65_536)] {
            let mut other = list.clone();
            other[i].1[3..].copy_from_slice(&[body, source]);
            let body = sewn(&written(&other)).expect("any source face of either body");
            let members = of_kind(&body, BODY_MEMBERS);
            assert_eq!(members, members_by_merging(&written(&other)));
        }
    }
}

/// Head, and faces without loops by surface, senses, body and source face.
fn with_faces(faces: &[[u32; 5]]) -> Vec<u8> {
    let mut list = vec![(1, vec![1])];
    list.extend(faces.iter().map(|face| (FACE, face.to_vec())));
    written(&list)
}

/// The byte where face `n` starts in such a job.
fn face_place(n: usize) -> usize {
    10 + 26 * n
}

/// A job of faces without loops is sewn, and each is alone and a member by its own body and source.
fn hold_apart(faces: &[[u32; 5]]) {
    let body = sewn(&with_faces(faces)).expect("faces that differ");
    let members: Vec<&[u32]> = faces.iter().map(|face| &face[3..]).collect();
    assert_eq!(of_kind(&body, BODY_MEMBERS), members);
}

/// Request Eight: the same body and source face, whatever surface and senses are.
#[test]
fn a_face_selected_twice_is_refused_by_its_later_record() {
    for [body, source] in [
        [0, 5],
        [1, 5],
        [0, 0],
        [1, 0],
        [0, 65_536],
        [1, 1 << 31],
        [0, u32::MAX],
        [1, u32::MAX],
    ] {
        for [surface, own, selected] in [[7, 0, 0], [8, 0, 0], [7, 1, 0], [7, 0, 1], [9, 1, 1]] {
            for surfaces in [[7, surface], [surface, 7]] {
                let face = [surfaces[0], 0, 0, body, source];
                let again = [surfaces[1], own, selected, body, source];
                let why = refused(45, 36);
                hold_refused("twice", &with_faces(&[face, again]), why);
                hold_refused("twice", &with_faces(&[again, face]), why);
            }
        }
    }
}

/// Another body or another source face is another face, by all four bytes.
#[test]
fn faces_of_another_body_or_source_are_other_faces() {
    hold_apart(&[[7, 0, 0, 0, 5], [7, 0, 0, 1, 5]]);
    hold_apart(&[[7, 0, 0, 1, 0], [7, 0, 0, 0, 0]]);
    hold_apart(&[[7, 0, 0, 0, 1], [7, 0, 0, 1, 0]]);
    hold_apart(&[[7, 0, 0, 1, u32::MAX], [7, 0, 0, 0, u32::MAX]]);
    for source in [0, 1, 5, 65_535, u32::MAX] {
        for bit in 0..32 {
            hold_apart(&[[7, 0, 0, 0, source], [7, 0, 0, 0, source ^ (1 << bit)]]);
        }
    }
}

/// The first repeat in the order of the records is told.
#[test]
fn the_first_record_that_repeats_one_is_told() {
    let face = |source| [7, 0, 0, 0, source];
    let other = |source| [7, 0, 0, 1, source];
    for (faces, place) in [
        (vec![face(5), face(6), face(5)], 62),
        (vec![face(5), face(6), face(6)], 62),
        (vec![face(5), other(5), face(5)], 62),
        (vec![face(5), other(5), other(5)], 62),
        (vec![face(5), face(5), face(5)], 36),
        (vec![face(5), face(6), face(6), face(5)], 62),
        (vec![face(5), face(6), face(5), face(6)], 62),
        (vec![face(5), face(6), face(7), face(8), face(5)], 114),
    ] {
        hold_refused("several", &with_faces(&faces), refused(45, place));
    }
}

/// 256 faces, the sources of each body descending.
fn many_faces() -> Vec<[u32; 5]> {
    (0..256).map(|i| [i, 0, 0, i % 2, 70_000 - i]).collect()
}

/// However many faces lie between, and wherever the two stand.
#[test]
fn a_face_selected_twice_is_found_at_any_distance() {
    let faces = many_faces();
    hold_apart(&faces);
    let twice = |earlier: usize, later: usize| {
        let mut faces = faces.clone();
        let [_, _, _, body, source] = faces[earlier];
        faces[later][3..].copy_from_slice(&[body, source]);
        let why = Err(refused(45, face_place(later)));
        assert_eq!(sew(&with_faces(&faces), &mut []), why, "{earlier} {later}");
    };
    for i in 1..256 {
        twice(0, i);
        twice(i - 1, i);
        twice(i - 1, 255);
    }
    for later in 1..24 {
        (0..later).for_each(|earlier| twice(earlier, later));
    }
}

/// The limit of 256 faces comes before 45, and 45 before the limit is passed.
#[test]
fn the_257th_face_is_refused_by_the_limit_though_it_repeats_one() {
    for earlier in [0, 100, 255] {
        let mut faces = many_faces();
        faces.push(faces[earlier]);
        hold_refused("257", &with_faces(&faces), refused(5, face_place(256)));
    }
    let mut faces = many_faces();
    faces.push(faces[0]);
    faces[255] = faces[254];
    hold_refused("256", &with_faces(&faces), refused(45, face_place(255)));
}

/// 45 comes after what else is wrong with its record and with earlier ones, and before later records.
#[test]
fn a_face_selected_twice_is_refused_in_the_order_of_records_and_tests() {
    let start = "head 1\nvertex 3\nvertex 4\nedge 5 0 0 1\nedge 6 0 - -\nface 7 0 0 0 9\n";
    let place = assembled(start).len();
    let twice = "face 8 0 0 0 9\n";
    for (lines, number) in [
        ("face 8 0 2 0 9\n", 4),
        ("face 8 2 0 0 9\n", 4),
        ("face 8 0 0 2 9\n", 4),
        ("face 8 0 0 0\n", 3),
        ("face 8 0 0 0 9 0\n", 3),
        ("points 3 4 0\nface 8 0 0 0 9\n", 3),
        ("loop 0 0\nface 8 0 0 0 9\n", 6),
        ("loop 1 2\nface 8 0 0 0 9\n", 4),
        ("face 8 0 0 0 9\nloop 0 0\n", 45),
        ("face 8 0 0 0 9\nloop 1 2\n", 45),
        ("face 8 0 0 0 9\nface 8 0 0 2 9\n", 45),
        ("face 8 0 0 0 9\npoints 3 4 0\npoints 3 4 0\n", 45),
        ("face 8 0 0 0 9\n14\n", 45),
        ("face 8 0 0 0 9\nvertex 3\n", 45),
        ("face 8 0 0 0 9\nhead 1\n", 45),
    ] {
        let job = assembled(&format!("{start}{lines}"));
        let before = if lines.starts_with("points") { 18 } else { 0 };
        hold_refused(lines, &job, refused(number, place + before));
    }
    let mut job = assembled(&format!("{start}{twice}head 1\n"));
    for left in [place + 35, place + 31, place + 27] {
        job.truncate(left);
        hold_refused("a later record cut short", &job, refused(45, place));
    }
    job.truncate(place + 25);
    hold_refused("the record itself cut short", &job, refused(2, place));
    let mut long = assembled(&format!("{start}{twice}"));
    long.resize(65_537, 0);
    hold_refused("a job too long", &long, refused(1, 65_536));
}

/// A ring between two faces on one surface: sewn if they are two, and refused before sewing if they are one.
#[test]
fn a_part_whose_two_faces_are_one_is_not_sewn() {
    let part = |source: u32| {
        assembled(&format!(
            "head 1\nedge 5 0 - -\nface 7 0 0 1 6\nloop 0 0\nface 7 0 0 1 {source}\nloop 0 1\nsurface 0 1\n"
        ))
    };
    hold_refused("twice", &part(6), refused(45, 72));
    let body = sewn(&part(7)).expect("two faces");
    assert_eq!(of_kind(&body, BODY_MEMBERS), [[1, 6, 1, 7]]);
}

/// Every accepted part, with each of its faces made one of the earlier ones, and with each of its faces again behind the
/// loops of all.
#[test]
fn parts_with_a_face_selected_twice_are_refused() {
    let parts = (1..=9).map(|n| format!("P{n}.txt"));
    let (mut pairs, mut again) = (0, 0);
    for name in parts.chain(parts_of_the_requests()) {
        let (job, _) = part(&name);
        if sew(&job, &mut [0; 65_536]).is_err() {
            continue;
        }
        let list = records(&job);
        let faces: Vec<usize> = (0..list.len()).filter(|i| list[*i].0 == FACE).collect();
        let end = list.iter().position(|record| record.0 > 6);
        let end = end.unwrap_or(list.len());
        for (n, later) in faces.iter().enumerate() {
            for earlier in &faces[..n] {
                let mut other = list.clone();
                let face = list[*earlier].1[3..].to_vec();
                other[*later].1[3..].copy_from_slice(&face);
                let why = refused(45, written(&list[..*later]).len());
                hold_refused(&name, &written(&other), why);
                pairs += 1;
            }
            let mut other = list.clone();
            other.insert(end, list[*later].clone());
            let why = refused(45, written(&list[..end]).len());
            hold_refused(&name, &written(&other), why);
            again += 1;
        }
    }
    assert!(pairs >= 50 && again >= 50, "{pairs}, {again}");
}

/// Every joining table that is permitted.
const PERMITTED: [[u8; 4]; 4] = [FULL_TABLE, [1, 0, 0, 0], [0, 0, 0, 1], [0, 0, 0, 0]];

type WithTable = fn(&[u8], &[u8], &mut [u8]) -> Result<usize, Refusal>;

/// The two functions that take a table and an output.
const WITH_TABLE: [WithTable; 2] = [sew_with_table, walk_stage_with_table];

/// Whether two faces join by an answer of kind 8, with senses equal or different, under document 01's rule.
fn document_01_joins(answer: usize, equal: bool) -> bool {
    (answer == 1) == equal
}

/// Request Eleven: rows by answer, columns equal then different, and the tables of 0 and 1 that are permitted are just those
/// with a 1 only where document 01 joins.
#[test]
fn a_table_joins_only_where_document_01_does() {
    let full = [(1, true), (1, false), (2, true), (2, false)]
        .map(|(answer, equal)| u8::from(document_01_joins(answer, equal)));
    assert_eq!(FULL_TABLE, full);
    let (job, _) = part("P9.txt");
    let mut accepted = Vec::new();
    for bits in 0..16u8 {
        let table = [0, 1, 2, 3].map(|i| bits >> i & 1);
        let first_wrong = (0..4).find(|i| table[*i] > full[*i]);
        for run in WITH_TABLE {
            let answer = run(&table, &job, &mut [0; 1024]);
            match first_wrong {
                Some(place) => assert_eq!(answer, Err(refused(48, place)), "{table:?}"),
                None => assert!(answer.is_ok(), "{table:?} {answer:?}"),
            }
        }
        if first_wrong.is_none() {
            accepted.push(table);
        }
    }
    accepted.sort();
    let mut permitted = PERMITTED;
    permitted.sort();
    assert_eq!(accepted, permitted);
}

/// Jobs that a wrong table is held with: parts, and jobs that are refused without a table, each by another number.
fn jobs_of_all_sorts() -> Vec<(&'static str, Vec<u8>)> {
    let short = assembled("head 1")[..9].to_vec();
    let mut jobs = vec![
        ("empty", Vec::new()),
        ("cut short", short),
        ("too long by one", vec![0; 65_537]),
        ("too long", vec![0xA5; 70_000]),
        ("as long as may be", vec![0; 65_536]),
        ("face selected twice", with_faces(&[[7, 0, 0, 0, 5]; 2])),
        (
            "surface unanswered",
            assembled(&OPPOSED.replace("surface 0 2\n", "")),
        ),
        (
            "surface undecided",
            assembled(&OPPOSED.replace("surface 0 2\n", "surface 0 4\n")),
        ),
    ];
    jobs.extend(
        ["P1.txt", "P3.txt", "P4.txt", "P5.txt", "P6.txt", "P9.txt"]
            .map(|name| (name, part(name).0)),
    );
    jobs
}

/// A table is refused by all that takes one, whatever the job and the room are, and the output stays.
fn hold_wrong_table(table: &[u8], place: usize) {
    let refusal = refused(48, place);
    for (name, job) in jobs_of_all_sorts() {
        let (bytes, text) = (
            body_with_table(table, &job),
            listing_with_table(table, &job),
        );
        assert_eq!(bytes, Err(refusal), "{table:?} {name}");
        assert_eq!(text, Err(refusal), "{table:?} {name}");
        for run in WITH_TABLE {
            let why = Err(refusal);
            let mut out = [0xA5; 1024];
            assert_eq!(run(table, &job, &mut out), why, "{table:?} {name}");
            assert_eq!(out, [0xA5; 1024], "{table:?} {name}");
            for room in 0..2 {
                assert_eq!(
                    run(table, &job, &mut out[..room]),
                    why,
                    "{table:?} {name} in {room}"
                );
            }
            assert_eq!(out, [0xA5; 1024], "{table:?} {name}");
        }
    }
}

/// 48 with place 4: a table of another length, whatever its bytes are. The length is tested first.
#[test]
fn a_table_of_another_length_is_refused_at_4() {
    for length in (0..=8).chain([300]).filter(|length| *length != 4) {
        for byte in [0, 1, 2, 255] {
            hold_wrong_table(&vec![byte; length], 4);
        }
        let mut full = vec![0; length.max(4)];
        full[..4].copy_from_slice(&FULL_TABLE);
        hold_wrong_table(&full[..length], 4);
    }
}

/// 48 with the first faulty entry: one above 1 anywhere, or a 1 where document 01 does not join.
#[test]
fn a_table_with_a_wrong_entry_is_refused_at_the_first() {
    for table in PERMITTED {
        for i in 0..4 {
            let highest = FULL_TABLE[i];
            for byte in [1, 2, 3, 48, 49, 128, 255] {
                let mut other = table;
                other[i] = byte;
                if byte > highest {
                    hold_wrong_table(&other, i);
                }
            }
        }
    }
    for (table, place) in [
        ([1, 1, 0, 2], 1),
        ([1, 1, 1, 1], 1),
        ([0, 0, 1, 2], 2),
        ([1, 0, 1, 1], 2),
        ([2, 1, 1, 2], 0),
        ([255, 0, 0, 255], 0),
        ([1, 2, 1, 1], 1),
        (*b"1001", 0),
    ] {
        hold_wrong_table(&table, place);
    }
}

/// With a permitted table the job's own refusals are as without one: first the length, then what loading finds.
#[test]
fn a_permitted_table_leaves_the_refusals_of_loading() {
    hold_refused("empty", &[], refused(3, 0));
    hold_refused("too long", &[0xA5; 70_000], refused(1, 65_536));
    hold_refused("twice", &with_faces(&[[7, 0, 0, 0, 5]; 2]), refused(45, 36));
}

/// Two faces that a ring parts, on opposed surfaces and with different senses.
const OPPOSED: &str =
    "head 1\nedge 5 0 - -\nface 7 0 0 0 0\nloop 0 0\nface 8 1 0 0 1\nloop 0 1\nsurface 0 2\n";

/// The records that sewing with a table writes.
fn records_with_table(table: [u8; 4], job: &[u8]) -> Vec<Record> {
    let mut out = vec![0xA5; 65_536];
    let length = sew_with_table(&table, job, &mut out).expect("a job that is sewn");
    assert!(out[length..].iter().all(|byte| *byte == 0xA5));
    records(&out[..length])
}

#[test]
fn opposed_surfaces_join_if_the_table_says_so() {
    let joined = [
        (21, vec![1, 2, 2, 0, 0, 0, 1]),
        (24, vec![7, 0]),
        (29, vec![0, 0, 0, 1]),
        (27, vec![]),
        (28, vec![0]),
    ];
    let apart = [
        (21, vec![1, 2, 0, 0, 0, 0, 0]),
        (23, vec![5, 0, u32::MAX, u32::MAX]),
        (24, vec![7, 0]),
        (29, vec![0, 0]),
        (25, vec![0, 0]),
        (24, vec![8, 1]),
        (29, vec![0, 1]),
        (25, vec![0, 1]),
        (27, vec![]),
        (28, vec![0, 1]),
    ];
    let job = assembled(OPPOSED);
    assert_eq!(records_with_table(FULL_TABLE, &job), joined);
    assert_eq!(records_with_table([0, 0, 0, 1], &job), joined);
    assert_eq!(records_with_table([1, 0, 0, 0], &job), apart);
    assert_eq!(records_with_table([0, 0, 0, 0], &job), apart);
    assert_eq!(sewn(&job), Ok(written(&joined)));
}

/// Body and listing by the table, and not by another.
#[test]
fn bodies_are_listed_as_the_table_joins() {
    let joined = "body 1 2 2 0 0 0 1\nface 7 0\nmembers 0 0 0 1\nlump\nshell 0\n";
    let apart = "body 1 2 0 0 0 0 0\nedge 5 0 - -\nface 7 0\nmembers 0 0\nloop 0 0\n\
        face 8 1\nmembers 0 1\nloop 0 1\nlump\nshell 0 1\n";
    let job = assembled(OPPOSED);
    for (table, text) in [
        ([1, 0, 0, 1], joined),
        ([0, 0, 0, 1], joined),
        ([1, 0, 0, 0], apart),
        ([0, 0, 0, 0], apart),
    ] {
        let listed = listing_with_table(&table, &job);
        assert_eq!(listed.as_deref(), Ok(text), "{table:?}");
        let bytes = written(&records_with_table(table, &job));
        assert_eq!(body_with_table(&table, &job), Ok(bytes), "{table:?}");
    }
    assert_eq!(listing(&job).as_deref(), Ok(joined));
    assert_eq!(body_with_table(&[1, 0], &job), Err(refused(48, 4)));
    assert_eq!(listing_with_table(&[1, 0], &job), Err(refused(48, 4)));
    let why = listing_with_table(&[1, 0], &[]).unwrap_err().to_string();
    assert!(why.starts_with("refused 48: "), "{why}");
}

/// Each answer with equal and with different senses: which tables join the two faces, and whether sewing does without one.
#[test]
fn each_entry_joins_its_own_answers() {
    for answer in 0..3 {
        for equal in [true, false] {
            let text = OPPOSED.replace("surface 0 2", &format!("surface 0 {answer}"));
            let job = assembled(&if equal {
                text.replace("8 1 0", "8 0 0")
            } else {
                text
            });
            let ordinary = records(&sewn(&job).expect("a job that is sewn"));
            let joins = answer > 0 && document_01_joins(answer, equal);
            assert_eq!(ordinary[0].1[6], u32::from(joins), "{answer} {equal}");
            for table in PERMITTED {
                let entry = 2 * answer + usize::from(!equal);
                let joins = answer > 0 && table[entry - 2] == 1;
                let body = records_with_table(table, &job);
                assert_eq!(body[0].1[6], u32::from(joins), "{answer} {equal} {table:?}");
                let faces = body.iter().filter(|record| record.0 == BODY_FACE);
                assert_eq!(
                    faces.count(),
                    2 - usize::from(joins),
                    "{answer} {equal} {table:?}"
                );
            }
        }
    }
}

/// The fields of the walks with a table.
fn walks_with_table(table: [u8; 4], job: &[u8]) -> Result<Vec<u32>, Refusal> {
    let mut out = vec![0xA5; 32_768];
    let length = walk_stage_with_table(&table, job, &mut out)?;
    assert!(out[length..].iter().all(|byte| *byte == 0xA5));
    Ok(fields(&out[..length]))
}

#[test]
fn walks_pass_over_what_the_table_joins() {
    let (job, _) = part("P9.txt");
    let joined = vec![0, 3, 1, 3, 0, 1, 4, 5, 0, 5, 4, 0];
    let apart = vec![0, 1, 0, 1, 0, 0, 2, 3, 0, 3, 2, 0, 4, 5, 0, 5, 4, 0];
    assert_eq!(walks_with_table(FULL_TABLE, &job), Ok(joined.clone()));
    assert_eq!(walks_with_table([1, 0, 0, 0], &job), Ok(joined));
    assert_eq!(walks_with_table([0, 0, 0, 1], &job), Ok(apart.clone()));
    assert_eq!(walks_with_table([0, 0, 0, 0], &job), Ok(apart));
    let why = Err(refused(48, 1));
    assert_eq!(walks_with_table([1, 1, 0, 1], &job), why);
    for table in PERMITTED {
        hold_room(&format!("P9 {table:?}"), &|out| {
            walk_stage_with_table(&table, &job, out)
        });
        hold_room(&format!("P9 {table:?}"), &|out| {
            sew_with_table(&table, &job, out)
        });
    }
}

/// Whatever the table, the surface questions are put: refused alike is what is not answered, undecided, or vanishing.
#[test]
fn every_table_puts_the_same_surface_questions() {
    for (line, why) in [
        ("", refused(20, 8)),
        ("surface 1 2\n", refused(20, 8)),
        ("surface 0 4\n", refused(21, 8)),
        ("surface 0 3\n", refused(22, 8)),
    ] {
        let job = assembled(&OPPOSED.replace("surface 0 2\n", line));
        assert_eq!(sew(&job, &mut [0; 1024]), Err(why), "{line}");
        for table in PERMITTED {
            for run in WITH_TABLE {
                assert_eq!(
                    run(&table, &job, &mut [0; 1024]),
                    Err(why),
                    "{line} {table:?}"
                );
            }
        }
    }
}

/// Boundaries follow from the pairs alone: a ring four times in one face has two pairs in one boundary with every table.
#[test]
fn two_pairs_in_one_boundary_are_refused_whatever_the_table_is() {
    let text = "head 1\nedge 5 0 - -\nface 7 0 0 0 0\nloop 0 0\nloop 0 1\nloop 0 0\nloop 0 1\nradial 0 0 1 2 3\n";
    let job = assembled(text);
    let mut out = [0xA5; 64];
    for table in PERMITTED {
        let answer = sew_with_table(&table, &job, &mut out);
        assert_eq!(answer, Err(refused(30, 0)), "{table:?}");
        assert_eq!(walks_with_table(table, &job), Ok(vec![]), "{table:?}");
    }
    assert_eq!(sew(&job, &mut out), Err(refused(30, 0)));
    assert_eq!(out, [0xA5; 64]);
}

/// Answer, place and output of the full table are those without one, on every part and whatever the room is.
#[test]
fn the_full_table_is_sewing_without_a_table() {
    let parts = (1..=9).map(|n| format!("P{n}.txt"));
    let (mut accepted, mut joined) = (0, 0);
    for name in parts.chain(parts_of_the_requests()) {
        let (job, _) = part(&name);
        for room in [0, 12, 100, 65_536] {
            let (mut out, mut due) = (vec![0xA5; room], vec![0xA5; room]);
            let answer = sew_with_table(&FULL_TABLE, &job, &mut out);
            assert_eq!(answer, sew(&job, &mut due), "{name} in {room}");
            assert_eq!(out, due, "{name} in {room}");
            let answer = walk_stage_with_table(&FULL_TABLE, &job, &mut out);
            assert_eq!(
                answer,
                stage(Stage::Walk, &job, &mut due),
                "{name} in {room}"
            );
            assert_eq!(out, due, "{name} in {room}");
        }
        assert_eq!(body_with_table(&FULL_TABLE, &job), body(&job), "{name}");
        let text = listing_with_table(&FULL_TABLE, &job);
        assert_eq!(text, listing(&job), "{name}");
        if let Ok(body) = sewn(&job) {
            accepted += 1;
            joined += usize::from(fields(&body[30..34])[0] > 0);
        }
    }
    assert!(accepted >= 20 && joined >= 12, "{accepted}, {joined}");
}

/// Lesser tables on every part: they join no more faces and remove no more uses, and a table of zeros joins none.
#[test]
fn a_lesser_table_joins_no_more() {
    let parts = (1..=9).map(|n| format!("P{n}.txt"));
    let mut fewer = 0;
    for name in parts.chain(parts_of_the_requests()) {
        let (job, _) = part(&name);
        let Ok(full) = sewn(&job) else {
            continue;
        };
        let selected = of_kind(&job, FACE).len();
        let full = fields(&full[6..34]);
        for table in PERMITTED {
            let mut out = vec![0; 65_536];
            let Ok(length) = sew_with_table(&table, &job, &mut out) else {
                continue;
            };
            let told = fields(&out[6..34]);
            let faces = of_kind(&out[..length], BODY_FACE).len();
            assert_eq!(told[1], full[1], "{name} {table:?}: uses");
            assert!(told[2] <= full[2] && told[6] <= full[6], "{name} {table:?}");
            assert_eq!(selected, faces + told[6] as usize, "{name} {table:?}");
            assert!(table != [0; 4] || told[6] == 0, "{name} {table:?}");
            fewer += usize::from(told[6] < full[6]);
        }
    }
    assert!(fewer >= 12, "{fewer}");
}

/// Sewing for a print shop refuses a job, whatever the room is, and leaves the output.
fn hold_not_printed(name: &str, job: &[u8], why: Refusal) {
    for room in [0, 1, 33, 1024] {
        let mut out = vec![0xA5; room];
        let answer = sew_for_print(job, &mut out);
        assert_eq!(answer, Err(why), "{name} in {room}");
        assert!(out.iter().all(|byte| *byte == 0xA5), "{name} in {room}");
    }
    assert_eq!(body_for_print(job), Err(why), "{name}");
    assert_eq!(listing_for_print(job), Err(why), "{name}");
}

/// Sewing for a print shop accepts a job, and writes the ordinary body.
fn hold_printed(name: &str, job: &[u8]) {
    let ordinary = sewn(job);
    assert!(ordinary.is_ok(), "{name} {ordinary:?}");
    assert_eq!(body_for_print(job), ordinary, "{name}");
    assert_eq!(listing_for_print(job), listing(job), "{name}");
    hold_room(name, &|out| sew_for_print(job, out));
}

/// What sewing for a print shop makes of a job.
fn hold_for_print(name: &str, job: &[u8], due: Option<Refusal>) {
    match due {
        Some(why) => hold_not_printed(name, job, why),
        None => hold_printed(name, job),
    }
}

/// Two faces that a ring parts, and more loops of one use of the ring, each in a face of its own.
fn ring_in_faces(senses: &[u32], answers: &str) -> Vec<u8> {
    let mut text = "head 1\nedge 5 0 - -\n".to_string();
    for (i, sense) in senses.iter().enumerate() {
        text += &format!("face {} 0 0 0 {i}\nloop 0 {sense}\n", 7 + i % 2);
    }
    assembled(&(text + answers))
}

/// Request Two's first fault: 41 after 11 for the edge, however many uses there are, and whatever their senses are.
#[test]
fn an_edge_with_more_than_two_uses_is_not_for_print() {
    let answers = "surface 0 0\nsurface 1 0\n";
    for uses in 0..12 {
        for turn in 0..3 {
            // by turns, all Same, all Same but the last
            let sense = |i: usize| match turn {
                0 => i % 2,
                1 => 0,
                _ => usize::from(i + 1 == uses),
            };
            let senses: Vec<u32> = (0..uses).map(|i| sense(i) as u32).collect();
            // an answer for a use that is not there does not load
            let job = ring_in_faces(&senses, if uses < 2 { "" } else { answers });
            let due = match uses {
                0 => None,
                2 if senses[0] != senses[1] => None,
                2 => Some(refused(10, 0)),
                _ if uses % 2 == 1 => Some(refused(11, 0)),
                _ => Some(refused(41, 0)),
            };
            hold_for_print(&format!("{senses:?}"), &job, due);
        }
    }
}

/// The lowest edge at fault is told, be it with 10, 11 or 41.
#[test]
fn edges_are_tested_for_print_in_their_order() {
    // uses Same and Reversed, and the number that the edge alone is refused with
    let edges: [(usize, usize, Option<usize>); 9] = [
        (0, 0, None),
        (1, 1, None),
        (1, 0, Some(11)),
        (2, 0, Some(10)),
        (2, 1, Some(11)),
        (2, 2, Some(41)),
        (4, 0, Some(41)),
        (3, 2, Some(11)),
        (3, 3, Some(41)),
    ];
    let mut met = Vec::new();
    for lists in edges.iter().flat_map(|a| edges.iter().map(move |b| [a, b])) {
        for selected in 0..2 {
            let mut text = format!("head 1\nedge 5 0 - -\nedge 6 0 - -\nface 7 0 {selected} 0 0\n");
            for (e, (same, reversed, _)) in lists.iter().enumerate() {
                // a face that is selected Reversed turns its uses
                text += &format!("loop {e} {selected}\n").repeat(*same);
                text += &format!("loop {e} {}\n", 1 - selected).repeat(*reversed);
            }
            let numbers = lists.iter().map(|edge| edge.2).enumerate();
            let mut faults = numbers.filter_map(|(e, number)| Some(refused(number?, e)));
            let due = faults.next();
            hold_for_print(&text, &assembled(&text), due);
            met.push(due);
        }
    }
    for why in [(10, 0), (10, 1), (11, 0), (11, 1), (41, 0), (41, 1)] {
        assert!(met.contains(&Some(refused(why.0, why.1))), "{why:?}");
    }
    assert!(met.contains(&None));
}

/// 41 whatever ordinary sewing says of the edge: accepted, refused for its radial list, or for its pairs.
#[test]
fn no_radial_list_is_asked_for_by_a_print_shop() {
    let surfaces = "surface 0 0\nsurface 1 0\n";
    for (radial, ordinary) in [
        ("radial 0 0 1 2 3\n", None),
        ("radial 0 1 2 3 0\n", None),
        ("radial 0 0 3 2 1\nsurface 2 0\n", None),
        ("", Some(refused(20, 7))),
        ("radial 0\n", Some(refused(21, 7))),
        ("radial 0 0 2 1 3\n", Some(refused(12, 0))),
        ("radial 0 0 1 2 2\n", Some(refused(23, 0))),
        ("radial 0 0 1 2\n", Some(refused(23, 0))),
    ] {
        let job = ring_in_faces(&[0, 1, 0, 1], &format!("{radial}{surfaces}"));
        assert_eq!(sewn(&job).err(), ordinary, "{radial}");
        hold_not_printed(radial, &job, refused(41, 0));
    }
    let unequal = ring_in_faces(&[0, 0, 0, 1], "radial 0 0 3 1 2\n");
    assert_eq!(sewn(&unequal), Err(refused(12, 0)));
    hold_not_printed("unequal", &unequal, refused(41, 0));
    let one_face = "head 1\nedge 5 0 - -\nface 7 0 0 0 0\nloop 0 0\nloop 0 1\nloop 0 0\nloop 0 1\nradial 0 0 1 2 3\n";
    assert_eq!(sewn(&assembled(one_face)), Err(refused(30, 0)));
    hold_not_printed("one face", &assembled(one_face), refused(41, 0));
}

/// Closed edges at vertices of these points, each between two faces of its own, so that each has a fan at its point.
fn closed_edges(points: &[u32]) -> String {
    let mut text = "head 1\n".to_string();
    for point in points {
        text += &format!("vertex {point}\n");
    }
    for i in 0..points.len() {
        text += &format!("edge {} 0 {i} {i}\n", 50 + i);
    }
    for i in 0..2 * points.len() {
        text += &format!("face {} 0 0 0 {i}\nloop {} {}\n", 70 + i % 2, i / 2, i % 2);
    }
    for i in 0..points.len() {
        text += &format!("surface {} 0\n", 2 * i);
    }
    for (i, point) in points.iter().enumerate() {
        let (edge, face) = (50 + i, 2 * i);
        text += &format!("singular {edge} {face} {} {point} 1\n", face + 1);
    }
    text
}

/// Request Two's second fault: 42 with the lowest point that has more than one fan.
#[test]
fn a_point_with_more_than_one_fan_is_not_for_print() {
    for (points, due) in [
        (vec![4], None),
        (vec![4, 5], None),
        (vec![4, 4], Some(4)),
        (vec![0, 0], Some(0)),
        (vec![4, 4, 4], Some(4)),
        (vec![5, 4, 5], Some(5)),
        (vec![9, 4, 9, 4], Some(4)),
        (vec![4, 9, 9, 4], Some(4)),
        (vec![9, 9, 4, 4], Some(4)),
        (vec![9, 0, 9, 1], Some(9)),
        (vec![0, 9, 9, 0], Some(0)),
        (vec![u32::MAX, u32::MAX], Some(u32::MAX)),
        (vec![u32::MAX, 0], None),
        (vec![4, 65_540], None),
        (vec![65_540, 4, 65_540], Some(65_540)),
        (vec![65_537, 1, 1, 65_537], Some(1)),
        ((0..100).collect(), None),
        ((0..100).chain([57]).collect(), Some(57)),
        ((0..100).rev().chain([57, 31]).collect(), Some(31)),
    ] {
        let text = closed_edges(&points);
        let due = due.map(|point| refused(42, point as usize));
        let job = assembled(&text);
        assert!(sewn(&job).is_ok(), "{points:?}");
        hold_for_print(&format!("{points:?}"), &job, due);
    }
    // one vertex for both edges
    let text = closed_edges(&[4, 4]).replacen("vertex 4\n", "", 1);
    let job = assembled(&text.replace("edge 51 0 1 1", "edge 51 0 0 0"));
    assert!(sewn(&job).is_ok());
    hold_not_printed("one vertex", &job, refused(42, 4));
}

/// 42 comes after the questions of surfaces and of points, and before all that comes after joining's.
#[test]
fn points_are_tested_for_print_after_the_fans_and_before_joining() {
    let text = closed_edges(&[4, 4]);
    let without = |kind: &str| {
        let lines = text.lines().filter(|line| !line.starts_with(kind));
        lines.map(|line| format!("{line}\n")).collect::<String>()
    };
    let no_joining = assembled(&without("singular"));
    assert_eq!(sewn(&no_joining), Err(refused(20, 11)));
    hold_not_printed("joining", &no_joining, refused(42, 4));
    let undecided = assembled(&text.replace(" 4 1\n", " 4 2\n"));
    assert_eq!(sewn(&undecided), Err(refused(21, 11)));
    hold_not_printed("joining", &undecided, refused(42, 4));
    for (answer, number) in [("", 20), ("surface 0 4\n", 21), ("surface 0 3\n", 22)] {
        let job = assembled(&(without("surface") + answer));
        hold_not_printed("surfaces", &job, refused(number, 8));
    }
    let vertex_loops = text.replace("loop 0 0\n", "loop 0 0\nvertex-loop 0\nvertex-loop 2\n");
    let vertex_loops = vertex_loops.replacen("edge", "vertex 6\nedge", 1);
    for (answer, due) in [
        ("", refused(20, 9)),
        ("points 4 6 2\n", refused(21, 9)),
        ("points 4 6 0\n", refused(42, 4)),
        ("points 4 6 1\n", refused(42, 4)),
    ] {
        let job = assembled(&format!("{vertex_loops}{answer}"));
        hold_not_printed("vertex loops", &job, due);
    }
    let open = text.replace("head 1", "head 0");
    let lump = "orientation 0 1\norientation 2 0\n";
    for (answers, ordinary) in [
        (String::new(), refused(20, 12)),
        ("orientation 0 2\n".to_string(), refused(21, 12)),
        (lump.to_string(), refused(20, 13)),
        (format!("{lump}inside 2 0 0\n"), refused(34, 2)),
        (format!("{lump}inside 2 0 1\n"), refused(32, 4)),
    ] {
        let job = assembled(&format!("{open}{answers}"));
        assert_eq!(sewn(&job), Err(ordinary), "{answers}");
        hold_not_printed(&answers, &job, refused(42, 4));
    }
}

/// Where ordinary sewing refuses with 31; and an edge with four uses beside it, whose fault comes first.
#[test]
fn two_fans_in_one_boundary_are_two_fans_at_a_point() {
    let text = "head 1\nvertex 4\nedge 1 0 0 0\nedge 2 0 0 0\nface 7 0 0 0 0\nloop 0 0\nloop 1 0\n\
        face 8 0 0 0 1\nloop 0 1\nface 9 0 0 0 2\nloop 1 1\nsurface 0 0\nsurface 1 0\n";
    assert_eq!(sewn(&assembled(text)), Err(refused(31, 4)));
    hold_not_printed("31", &assembled(text), refused(42, 4));
    let ring = text.replacen("face 7", "edge 3 0 - -\nface 7", 1);
    let four = "loop 1 1\nloop 2 0\nloop 2 1\nloop 2 0\nloop 2 1\n";
    let four = assembled(&ring.replacen("loop 1 1\n", four, 1));
    hold_not_printed("41 first", &four, refused(41, 2));
}

/// Uses that merging removes have no fan, and neither have rings and vertex loops.
#[test]
fn only_fans_of_kept_uses_count() {
    let seam = "head 1\nvertex 4\nedge 1 0 0 0\nedge 2 0 0 0\nface 7 0 0 0 0\nloop 0 0\nloop 1 0\nloop 1 1\n\
        face 8 0 0 0 1\nloop 0 1\nsurface 0 0\nsingular 1 0 1 4 1\n";
    let joined = "head 1\nvertex 4\nedge 1 0 0 0\nedge 2 0 0 0\nface 7 0 0 0 0\nloop 0 0\n\
        face 8 0 0 0 1\nloop 0 1\nface 7 0 0 0 2\nloop 1 0\nface 7 0 0 0 3\nloop 1 1\n\
        surface 0 0\nsurface 2 1\nsingular 1 0 1 4 1\n";
    let apart = joined.replace("surface 2 1\n", "surface 2 0\n") + "singular 2 2 3 4 1\n";
    let rings = "head 1\nvertex 4\nedge 5 0 - -\nedge 6 0 - -\nedge 1 0 0 0\nface 7 0 0 0 0\nloop 0 0\nloop 1 0\n\
        loop 2 0\nvertex-loop 0\nface 8 0 0 0 1\nloop 0 1\nloop 1 1\nloop 2 1\nvertex-loop 0\n\
        surface 0 0\nsurface 1 0\nsurface 2 0\nsingular 1 0 1 4 1\n";
    hold_printed("a seam", &assembled(seam));
    hold_printed("joined faces", &assembled(joined));
    hold_printed("rings and vertex loops", &assembled(rings));
    assert!(sewn(&assembled(&apart)).is_ok());
    hold_not_printed("faces apart", &assembled(&apart), refused(42, 4));
}

/// Two edges of a lens become one, and that a ring: joins and rings as in ordinary sewing.
#[test]
fn joins_and_rings_are_made_for_print_too() {
    let lens = "head 1\nvertex 4\nvertex 1\nedge 5 0 0 1\nedge 5 0 1 0\nface 7 0 0 0 0\nloop 0 0 1 0\n\
        face 8 0 0 0 1\nloop 1 1 0 1\nsurface 0 0\nsurface 1 0\nsingular 5 0 1 4 0\nsingular 5 0 1 1 0\n";
    let job = assembled(lens);
    hold_printed("a lens", &job);
    let text = listing_for_print(&job).expect("a lens");
    assert!(text.starts_with("body 1 4 0 0 1 1 0\nedge 5 "), "{text}");
    let refusal = assembled(&lens.replace("singular 5 0 1 1 0\n", ""));
    assert_eq!(sewn(&refusal), Err(refused(20, 11)));
    hold_not_printed("a question of joining", &refusal, refused(20, 11));
    let rings = "head 1\nedge 5 0 - -\nedge 6 0 - -\nface 7 0 0 0 0\nloop 0 0\nloop 1 0\n\
        face 8 0 0 0 1\nloop 0 1\nloop 1 1\nsurface 0 0\nsurface 1 0\n";
    hold_printed("rings", &assembled(rings));
    hold_printed("no faces", &assembled("head 1\nvertex 4\nedge 5 0 - -\n"));
}

/// Of each edge its uses, by sense, after the faces are selected.
fn uses_of_edges(job: &[u8]) -> Vec<[usize; 2]> {
    let (edge, the_loop) = (3, 5);
    let mut counts = vec![[0, 0]; of_kind(job, edge).len()];
    let mut selected = 0;
    for (kind, fields) in records(job) {
        if kind == FACE {
            selected = fields[2];
        }
        for item in fields.chunks(2).filter(|_| kind == the_loop) {
            counts[item[0] as usize][(item[1] ^ selected) as usize] += 1;
        }
    }
    counts
}

/// The refusal of the lowest edge at fault.
fn fault_of_edges(job: &[u8]) -> Option<Refusal> {
    let number = |[same, reversed]: [usize; 2]| match same + reversed {
        0 => None,
        n if n % 2 == 1 => Some(11),
        2 => (same != 1).then_some(10),
        _ => Some(41),
    };
    let counts = uses_of_edges(job).into_iter().enumerate();
    counts
        .filter_map(|(edge, uses)| Some(refused(number(uses)?, edge)))
        .next()
}

/// The lowest point with more than one fan, by what the stage of the fans writes.
fn fault_of_points(job: &[u8]) -> Result<Option<Refusal>, Refusal> {
    let mut out = vec![0; 24_576];
    let length = stage(Stage::Fans, job, &mut out)?;
    let mut points = Vec::new();
    for fan in fields(&out[..length]).chunks(3) {
        if fan[0] == fan[1] {
            points.push(fan[2] as usize);
        }
    }
    points.sort();
    let again = points.windows(2).find(|pair| pair[0] == pair[1]);
    Ok(again.map(|pair| refused(42, pair[0])))
}

/// What sewing for a print shop answers to a job that loads, by its uses, its fans and ordinary sewing.
fn due_for_print(job: &[u8]) -> Result<Vec<u8>, Refusal> {
    match fault_of_edges(job) {
        Some(why) => Err(why),
        None => match fault_of_points(job)? {
            Some(why) => Err(why),
            None => sewn(job),
        },
    }
}

/// Every part: what its uses and fans say, and else what ordinary sewing does.
#[test]
fn parts_are_for_print_if_edges_have_two_uses_and_points_one_fan() {
    let parts = (1..=9).map(|n| format!("P{n}.txt"));
    let (mut accepted, mut refusals) = (0, 0);
    for name in parts.chain(parts_of_the_requests()) {
        let (job, _) = part(&name);
        let read = stage(Stage::Read, &job, &mut vec![0; 65_536]);
        let due = match read {
            Ok(_) => due_for_print(&job),
            Err(why) => Err(why),
        };
        assert_eq!(body_for_print(&job), due, "{name}");
        match due {
            Ok(_) => hold_printed(&name, &job),
            Err(why) => hold_not_printed(&name, &job, why),
        }
        accepted += usize::from(due.is_ok());
        refusals += usize::from(due.is_err());
    }
    assert!(accepted >= 20 && refusals >= 20, "{accepted}, {refusals}");
}

#[test]
fn a_part_lists_as_the_program_prints_it() {
    for n in 1..=9 {
        let (job, expected) = part(&format!("P{n}.txt"));
        assert_eq!(list(&job), expected, "P{n}");
        assert_eq!(list(&job), shown(&job), "P{n}");
    }
    assert_eq!(list(&[]), "refused 3 0\n");
    assert_eq!(list(&[0; 65_537]), "refused 1 65536\n");
}

#[test]
fn an_empty_job_has_no_head() {
    assert_eq!(sew(&[], &mut []), Err(refused(3, 0)));
    assert_eq!(loop_payload(&[], 0), Err(refused(3, 0)));
    for s in Stage::ALL {
        assert_eq!(stage(s, &[], &mut []), Err(refused(3, 0)), "{s:?}");
    }
}

#[test]
fn a_job_too_long_is_refused_by_its_length() {
    assert_eq!(sew(&vec![0; 65_537], &mut []), Err(refused(1, 65_536)));
}

/// An operation on an output exactly full, one byte short, empty, and one byte long.
fn hold_room(name: &str, run: &dyn Fn(&mut [u8]) -> Result<usize, Refusal>) {
    let mut ample = vec![0xA5; 65_536];
    let Ok(needed) = run(&mut ample) else {
        panic!("{name} is refused")
    };
    assert!(
        ample[needed..].iter().all(|b| *b == 0xA5),
        "{name} writes past its length"
    );
    let mut full = vec![0x5A; needed];
    assert_eq!(run(&mut full), Ok(needed), "{name} exactly full");
    assert_eq!(full, ample[..needed], "{name} exactly full");
    for room in [needed.saturating_sub(1), 0, 1.min(needed)] {
        if room < needed {
            let mut short = vec![0xA5; room];
            assert_eq!(
                run(&mut short),
                Err(refused(40, needed)),
                "{name} in {room}"
            );
            assert!(
                short.iter().all(|b| *b == 0xA5),
                "{name} writes when refused"
            );
        }
    }
}

#[test]
fn an_output_exactly_full_and_one_short() {
    for n in [1, 2, 3, 7, 8, 9] {
        let (job, _) = part(&format!("P{n}.txt"));
        hold_room(&format!("P{n}"), &|out| sew(&job, out));
        for s in Stage::ALL {
            hold_room(&format!("P{n} {s:?}"), &|out| stage(s, &job, out));
        }
    }
}

#[test]
fn a_refused_job_leaves_the_output() {
    let (job, _) = part("P4.txt");
    let mut out = [0xA5; 64];
    assert_eq!(sew(&job, &mut out), Err(refused(10, 0)));
    assert_eq!(stage(Stage::Lumps, &job, &mut out), Err(refused(10, 0)));
    assert_eq!(out, [0xA5; 64]);
    assert_eq!(body(&job), Err(refused(10, 0)));
}

#[test]
fn loops_are_stretches_of_the_job() {
    let (job, _) = part("P9.txt");
    let loop_fields = |n| {
        let payload = loop_payload(&job, n).expect("a loop");
        let inside = job.as_ptr_range();
        assert!(inside.contains(&payload.as_ptr()));
        fields(payload)
    };
    assert_eq!(loop_fields(0), [0, 0, 2, 1]);
    assert_eq!(loop_fields(1), [2, 0, 1, 0]);
    assert_eq!(loop_fields(2), [1, 1, 0, 1]);
    assert_eq!(loop_payload(&job, 3), Err(refused(4, 3)));
    assert_eq!(loop_payload(&job, usize::MAX), Err(refused(4, usize::MAX)));
}

#[test]
fn stages_answer_by_themselves() {
    let (job, _) = part("P9.txt");
    let mut out = [0; 256];
    let length = stage(Stage::Pair, &job, &mut out).expect("pairs");
    assert_eq!(fields(&out[..length]), [5, 2, 1, 4, 3, 0]);
    let length = stage(Stage::Walk, &job, &mut out).expect("walks");
    let walks = fields(&out[..length]);
    assert_eq!(walks, [0, 3, 1, 3, 0, 1, 4, 5, 0, 5, 4, 0]);
}

#[test]
fn every_refusal_has_words() {
    let numbers: Vec<usize> = Refusal::numbers().collect();
    let expected = [
        1, 2, 3, 4, 5, 6, 7, 10, 11, 12, 13, 20, 21, 22, 23, 30, 31, 32, 33, 34, 40, 41, 42, 45, 48,
    ];
    assert_eq!(numbers, expected);
    let mut seen = Vec::new();
    for number in numbers {
        let text = refused(number, 12).to_string();
        assert!(
            text.starts_with(&format!("refused {number}: ")) && text.ends_with(" 12)"),
            "{text}"
        );
        assert!(!seen.contains(&refused(number, 0).words()), "{text}");
        seen.push(refused(number, 0).words());
    }
    let (job, _) = part("P4.txt");
    let why: Box<dyn std::error::Error> = Box::new(listing(&job).unwrap_err());
    assert_eq!(
        why.to_string(),
        "refused 10: two uses of the edge in one sense (edge 0)"
    );
}

/// The name of a refusal's number in the header.
fn name_in(header: &str, number: usize) -> &str {
    let numbers = header
        .split("enum zaxclover_number {")
        .nth(1)
        .expect("the numbers");
    let numbers = numbers.split("};").next().expect("their end");
    let entry = |line: &'_ str| {
        line.split([',', '/'])
            .next()
            .unwrap_or("")
            .trim()
            .to_string()
    };
    numbers
        .lines()
        .find(|line| entry(line).ends_with(&format!(" = {number}")))
        .and_then(|line| line.split_whitespace().next())
        .expect("a name for each number")
}

#[test]
fn the_header_has_the_same_words() {
    let file = Path::new(env!("CARGO_MANIFEST_DIR")).join("../../include/sewing.h");
    let header = fs::read_to_string(file).expect("the header");
    for number in Refusal::numbers() {
        let name = name_in(&header, number);
        let line = format!("case {name}: return \"{}\";", refused(number, 0).words());
        assert!(header.contains(&line), "{line}");
    }
}

#[test]
fn the_header_has_the_same_version_and_kinds() {
    let file = Path::new(env!("CARGO_MANIFEST_DIR")).join("../../include/sewing.h");
    let header = fs::read_to_string(file).expect("the header");
    assert_eq!(VERSION, 2);
    for line in [
        format!("#define ZAXCLOVER_VERSION {VERSION}\n"),
        format!("    ZAXCLOVER_FACE = {FACE}, "),
        format!("    ZAXCLOVER_BODY_FACE = {BODY_FACE}, "),
        format!("    ZAXCLOVER_BODY_MEMBERS = {BODY_MEMBERS} "),
        format!("    ZAXCLOVER_TABLE_BYTES = {}, ", FULL_TABLE.len()),
    ] {
        assert!(header.contains(&line), "{line}");
    }
}

/// Threads of the standard size suffice, and so does a stack little larger than what a call takes.
#[test]
fn a_call_fits_its_stack() {
    let (job, expected) = part("P9.txt");
    for list_it in [shown, list as fn(&[u8]) -> String] {
        let small = std::thread::Builder::new().stack_size(zaxclover::STACK + 64 * 1024);
        let job = job.clone();
        let text = small.spawn(move || list_it(&job)).unwrap().join();
        assert_eq!(text.unwrap(), expected);
    }
}
