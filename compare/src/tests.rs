//! Document 01's parts P1 to P9 in both implementations, and the judge's own
//! forms of jobs.

use crate::answer::{Wanted, answer, entries_of, table_of};
use crate::compare::{ROOM, compare};
use crate::compared::{compared, compared_lines, in_room, lacking};
use crate::demand;
use crate::generate::rng::Rng;
use crate::generate::split::split_vertices;
use crate::generate::tables::{self as drawn, Drawn, FAULTY, FULL, LESSER};
use crate::generate::{self, Expected, Sample, limits};
use crate::print_shop::totals::Prints;
use crate::print_shop::{self, MANY_FANS, MANY_USES};
use crate::records;
use crate::second::load::MAX_BYTES;
use crate::second::{Refusal, Stage, Supplied};
use crate::tables::totals::Tables;
use crate::twice::{self, CLOSE, SELECTED_TWICE, first_repeat};
use crate::{run, second, tables, text, vectors};
use std::collections::{BTreeMap, BTreeSet};
use std::path::Path;

/// A part of document 01, by its number.
fn part(number: usize) -> (Vec<u8>, String) {
    part_in(format!("{}/parts/P{number}.txt", env!("CARGO_MANIFEST_DIR")).as_ref())
}

/// The part's bytes and the lines marked `#>` in its file.
fn part_in(path: &Path) -> (Vec<u8>, String) {
    let file = std::fs::read_to_string(path).expect("the part is there");
    let marked = file.lines().filter_map(|line| line.strip_prefix("#> "));
    let expected = marked.map(|line| format!("{line}\n")).collect();
    let job = job_text::assemble(file.as_bytes()).expect("the part is readable");
    (job, expected)
}

/// The second implementation's listing or refusal.
fn listing(job: &[u8]) -> String {
    let loaded = match second::load(job) {
        Ok(loaded) => loaded,
        Err(refusal) => return format!("{refusal}\n"),
    };
    let trail = second::sew(&loaded, &mut &loaded.answers);
    match second::sew_output(&trail, ROOM) {
        Ok(body) => text::listing(&body),
        Err(refusal) => format!("{refusal}\n"),
    }
}

#[test]
fn parts_give_what_their_files_say() {
    for number in 1..=9 {
        let (job, expected) = part(number);
        assert_eq!(listing(&job), expected, "P{number}");
    }
}

/// What `answer` is called with, and what it must print, for each sort of lines
/// of a part's file that name it, as `#walk table 0001> 0 1 0` does.
fn named_answers(path: &Path) -> BTreeMap<String, String> {
    let file = std::fs::read_to_string(path).expect("the part is there");
    let mut answers = BTreeMap::new();
    for line in file.lines() {
        let Some((words, told)) = line
            .strip_prefix('#')
            .and_then(|line| line.split_once("> "))
        else {
            continue;
        };
        if !words.is_empty() {
            let answer: &mut String = answers.entry(words.to_string()).or_default();
            *answer += &format!("{told}\n");
        }
    }
    answers
}

/// The answer to a job, called with words as from a shell.
fn told(job: &[u8], words: &str, room: usize) -> String {
    let words: Vec<String> = words.split(' ').map(str::to_string).collect();
    answer(job, Wanted::of_words(&words).expect("right words"), room)
}

/// The parts made for the requests of document 02, in both implementations.
#[test]
fn parts_of_the_requests_give_what_their_files_say() {
    let folder = format!("{}/parts/requests", env!("CARGO_MANIFEST_DIR"));
    let files = std::fs::read_dir(folder).expect("the parts are there");
    let mut seen = 0;
    for file in files {
        let path = file.expect("a part of a request").path();
        let (job, expected) = part_in(&path);
        assert_eq!(listing(&job), expected, "{}", path.display());
        for (words, wanted) in named_answers(&path) {
            assert_eq!(
                told(&job, &words, ROOM),
                wanted,
                "{} {words}",
                path.display()
            );
        }
        let compared = compare(&job, ROOM);
        let mut differences = print_shop::hold(&job, ROOM, &compared).differences;
        differences.extend(compared.differences);
        for table in [FULL, LESSER[0], LESSER[1], LESSER[2]] {
            let held = tables::hold(&job, ROOM, &Drawn::permitted(table));
            differences.extend(held.differences);
        }
        assert!(
            differences.is_empty(),
            "{}: {differences:?}",
            path.display()
        );
        seen += 1;
    }
    assert!(seen >= 100, "{seen} parts");
}

#[test]
fn reference_agrees_on_the_parts() {
    for number in 1..=9 {
        let differences = compare(&part(number).0, ROOM).differences;
        assert!(differences.is_empty(), "P{number}: {differences:?}");
    }
}

/// The lines that document 01 itself gives, with the face joins and members of
/// document 02.
#[test]
fn parts_have_the_lines_of_the_paper() {
    let given: [(usize, &[&str]); 9] = [
        (1, &["body 0 0 0 0 0 0 0"]),
        (
            2,
            &["edge 5 0 - -", "members 0 0", "members 0 1", "shell 0 1"],
        ),
        (3, &["body 1 2 2 0 0 0 1", "face 7 0", "members 0 0 0 1"]),
        (4, &["refused 10 0"]),
        (5, &["refused 11 0"]),
        (6, &["refused 6 58"]),
        (
            7,
            &["body 1 4 0 0 1 1 0", "edge 5 1 - -", "loop 0 1", "loop 0 0"],
        ),
        (8, &["edge 5 0 0 0"]),
        (
            9,
            &[
                "body 1 6 2 2 0 0 1",
                "face 7 0",
                "members 0 0 0 1",
                "loop 0 0 1 0",
                "face 8 0",
                "members 0 2",
                "loop 1 1 0 1",
            ],
        ),
    ];
    for (number, lines) in given {
        let listing = listing(&part(number).0);
        let mut rest = listing.lines();
        for line in lines {
            assert!(rest.any(|l| l == *line), "P{number}: {line} in {listing}");
        }
    }
    let count = |number: usize, name: &str| {
        let listing = listing(&part(number).0);
        listing.lines().filter(|l| l.starts_with(name)).count()
    };
    assert_eq!(
        [count(2, "face"), count(2, "edge"), count(2, "shell")],
        [2, 1, 1]
    );
    assert_eq!([count(3, "face"), count(3, "loop")], [1, 0]);
}

/// The jobs that the gate replays.
fn stored_jobs() -> Vec<Vec<u8>> {
    let stored = stored_vectors().into_iter();
    stored.map(|(job, _)| job).collect()
}

fn stored_vectors() -> Vec<vectors::Stored> {
    let path = format!(
        "{}/../crates/replay/data/vectors",
        env!("CARGO_MANIFEST_DIR")
    );
    let packed = std::fs::read(path).expect("the vectors are there");
    vectors::stored(&packed).expect("they are packed")
}

/// The text form gives every stored job back, damaged ones too.
#[test]
fn stored_jobs_come_back_from_their_text() {
    let jobs = stored_jobs();
    assert_eq!(jobs.len(), 1174);
    for job in jobs {
        let text = job_text::show(&job);
        assert_eq!(job_text::assemble(text.as_bytes()), Ok(job));
    }
}

#[test]
fn generated_jobs_agree() {
    for index in 0..2_000 {
        let sample = generate::sample(1, index);
        let differences = run::judge(&sample).differences;
        assert!(differences.is_empty(), "job {index}: {differences:?}");
    }
}

/// Request Four: accepted jobs meet each product, of a face and of a use.
#[test]
fn the_four_products_of_senses_are_met() {
    let of = |index| run::judge(&generate::sample(1, index)).features;
    let met: BTreeSet<&str> = (0..500).flat_map(of).collect();
    let products = met.iter().filter(|name| name.contains(" times "));
    assert_eq!(products.count(), 8, "{met:?}");
}

/// Of 500 drawn jobs, and of the stored ones, at least so many are accepted and
/// have each of these in them.
fn assert_met(least: usize, names: &[&str]) {
    let drawn = (0..500).map(|index| generate::sample(1, index).job);
    for jobs in [drawn.collect(), stored_jobs()] {
        let features = jobs.iter().flat_map(|job| compare(job, ROOM).features);
        let met: Vec<&str> = features.collect();
        for name in names {
            let count = met.iter().filter(|feature| *feature == name).count();
            assert!(count >= least, "{name}: {count}");
        }
    }
}

/// Request Three: vertex records that share a point.
#[test]
fn vertices_that_share_a_point_are_met() {
    assert_met(
        11,
        &[
            "a joint of two vertices",
            "a use alone between two vertices",
            "a fan that starts at two vertices",
        ],
    );
}

/// Request Three: how many vertex records stand on a point changes no answer
/// of a job that loads.
#[test]
fn split_vertices_change_no_answer() {
    let answers = |job: &[u8]| {
        ["walk", "fans", "joining", "sew"].map(|name| {
            let wanted = Wanted::of_words(&[name.to_string()]).expect("a word");
            answer(job, wanted, ROOM)
        })
    };
    let mut more = 0;
    for index in 0..1_000 {
        let job = generate::sample(2, index).job;
        if second::load(&job).is_err() {
            continue;
        }
        let (mut split, _) = records::split(&job);
        split_vertices(&mut split, 50, &mut Rng::new(3, index));
        let split = records::to_bytes(&split);
        if split.len() <= MAX_BYTES {
            assert_eq!(answers(&split), answers(&job), "job {index}");
            more += usize::from(split.len() > job.len());
        }
    }
    assert!(more > 500, "{more} jobs have more vertices");
}

/// Request Six: surface answers join faces that are in a group already, and
/// answer within one.
#[test]
fn face_joins_are_met() {
    assert_met(
        5,
        &[
            "a face join",
            "three face joins or more",
            "a face join through a face that is not lowest",
            "a face join through two faces that are not lowest",
            "an answer within one group",
        ],
    );
}

/// Request Seven: merged faces have members of both bodies, and sources in any
/// order.
#[test]
fn members_are_met() {
    assert_met(
        5,
        &[
            "three faces or more merged",
            "members of both bodies",
            "members whose sources do not ascend",
            "a member of the highest source",
            "a source in both bodies",
        ],
    );
}

/// Faces of three fields, and faces of a body that is neither 0 nor 1, at which
/// these jobs are refused.
fn faces_refused(jobs: &[Vec<u8>]) -> [usize; 2] {
    let [mut short, mut bodies] = [0, 0];
    for job in jobs {
        let Err(refusal) = second::load(job) else {
            continue;
        };
        let (list, _) = records::split(job);
        let mut at = 0;
        for (kind, fields) in &list {
            if *kind == 4 && at == refusal.place as usize {
                let body = fields.get(3).is_some_and(|body| *body > 1);
                short += usize::from(refusal.number == 3 && fields.len() == 3);
                bodies += usize::from(refusal.number == 4 && body);
            }
            at += records::HEADER + 4 * fields.len();
        }
    }
    [short, bodies]
}

/// Request Seven: faces of three fields, and bodies that are neither 0 nor 1.
#[test]
fn faces_that_do_not_load_are_met() {
    let drawn: Vec<Vec<u8>> = (0..2_000)
        .map(|index| generate::sample(1, index).job)
        .collect();
    for jobs in [drawn, stored_jobs()] {
        let [short, bodies] = faces_refused(&jobs);
        assert!(
            short >= 2 && bodies >= 2,
            "{short} short faces, {bodies} bodies"
        );
    }
}

/// Drawn jobs of the class that selects faces twice.
fn repeats(count: u64) -> impl Iterator<Item = Sample> {
    (0..count).map(|index| generate::sample_of("repeats", &mut Rng::new(8, index)))
}

/// Request Eight: what the generator knows of each job holds, and so does what
/// its bytes show.
#[test]
fn jobs_of_faces_selected_twice_end_as_they_were_made() {
    let mut ends = BTreeMap::new();
    for (index, sample) in repeats(6_000).enumerate() {
        let differences = run::judge(&sample).differences;
        assert!(differences.is_empty(), "job {index}: {differences:?}");
        let number = match sample.expected {
            Expected::Unknown => 99,
            Expected::Loads => 0,
            Expected::Refused(refusal) => refusal.number,
        };
        *ends.entry(number).or_insert(0) += 1;
    }
    assert!(ends[&SELECTED_TWICE] > 3_000, "{ends:?}");
    for number in [0, 1, 2, 3, 4, 5, 6] {
        assert!(ends[&number] > 20, "{number}: {ends:?}");
    }
    assert_eq!(ends.get(&99), None, "{ends:?}");
}

/// Request Eight: the first face that an earlier one is already, in any
/// operation.
#[test]
fn a_face_selected_twice_is_refused_in_every_operation() {
    let drawn = repeats(1_500).map(|sample| sample.job);
    for jobs in [drawn.collect(), stored_jobs()] {
        let mut refused = 0;
        for job in jobs {
            let loads = second::load(&job).map(|_| ());
            if loads.map_err(|refusal| refusal.number) != Err(SELECTED_TWICE) {
                continue;
            }
            refused += 1;
            let place = first_repeat(&job).expect("a face is repeated").place;
            let number = SELECTED_TWICE;
            let wanted = Refusal { number, place };
            assert_eq!(loads, Err(wanted));
            assert_eq!(listing(&job), format!("refused 45 {place}\n"));
            // A loop number too high is told after loading, there is no room
            // for any output, and no questions are answered.
            for number in [0, 1, 1_024, u32::MAX] {
                assert_eq!(second::request(&job, number), Err(wanted));
            }
            for stage in Stage::ALL {
                let told = answer(&job, Wanted::Stage(stage, Supplied::Nothing), 0);
                assert_eq!(told, format!("refused 45 {place}\n"));
            }
            assert_eq!(compare(&job, 0).refusal, Some(wanted));
        }
        assert!(refused >= 50, "{refused} jobs");
    }
}

/// What there is about the first repeated face of a job that is refused with 45.
fn sorts_of_repeat(job: &[u8]) -> Vec<String> {
    let (Err(refusal), Some(repeat)) = (second::load(job), first_repeat(job)) else {
        return Vec::new();
    };
    let sort = twice::sort(job).expect("a face is repeated");
    let (beside, doublings) = (sort.beside, sort.doublings);
    if refusal.number != SELECTED_TWICE {
        let there = match refusal.place == repeat.place {
            true => "on it",
            false => "before it",
        };
        return vec![format!("{} {there}", refusal.number)];
    }
    let [earlier, later] = &repeat.fields;
    let mut sorts = vec![
        format!("{beside} after it"),
        format!("body {}", later[3]),
        format!("own sense turned: {}", earlier[1] != later[1]),
        format!("selected sense turned: {}", earlier[2] != later[2]),
        format!("another surface: {}", earlier[0] != later[0]),
    ];
    let mut note = |name: &str, there: bool| sorts.extend(there.then(|| name.to_string()));
    note("the next face", repeat.distance == 1);
    note("the last of three or more faces after the first", {
        let faces = twice::faces(job);
        faces.len() > 2 && repeat.distance == faces.len() - 1
    });
    note("two to seven faces after", doublings == 1 || doublings == 2);
    note("eight faces after or more", doublings >= 3);
    note("64 faces after or more", doublings >= 6);
    note("255 faces after", repeat.distance == 255);
    note("a chain modulo 256 of five before", repeat.chain >= 5);
    note("a chain modulo 256 of sixty before", repeat.chain >= 60);
    note("source 0", later[4] == 0);
    note("the highest source", later[4] == u32::MAX);
    sorts
}

/// Request Eight: 45 at every distance, in both senses, for any source and
/// beside each other refusal of loading.
#[test]
fn faces_selected_twice_are_met() {
    let wanted = [
        "the next face",
        "the last of three or more faces after the first",
        "two to seven faces after",
        "eight faces after or more",
        "64 faces after or more",
        "255 faces after",
        "body 0",
        "body 1",
        "own sense turned: true",
        "own sense turned: false",
        "selected sense turned: true",
        "selected sense turned: false",
        "another surface: true",
        "another surface: false",
        "a chain modulo 256 of five before",
        "a chain modulo 256 of sixty before",
        "source 0",
        "the highest source",
        "0 after it",
        "2 after it",
        "3 after it",
        "4 after it",
        "5 after it",
        "6 after it",
        "7 after it",
        "3 before it",
        "4 before it",
        "6 before it",
        "4 on it",
        "5 on it",
    ];
    let drawn = repeats(3_000).map(|sample| sample.job);
    for (jobs, least) in [(drawn.collect::<Vec<_>>(), 10), (stored_jobs(), 1)] {
        let met: Vec<String> = jobs.iter().flat_map(|job| sorts_of_repeat(job)).collect();
        for sort in wanted {
            let count = met.iter().filter(|met| *met == sort).count();
            assert!(count >= least, "{sort}: {count}");
        }
    }
}

/// Request Eight: faces that could be taken for each other and are not the same.
#[test]
fn faces_that_are_nearly_the_same_are_accepted() {
    let drawn = repeats(4_000).map(|sample| sample.job);
    for (jobs, least) in [(drawn.collect::<Vec<_>>(), 5), (stored_jobs(), 1)] {
        let met = jobs.iter().flat_map(|job| compare(job, ROOM).features);
        let met: Vec<&str> = met.collect();
        for name in CLOSE {
            let count = met.iter().filter(|feature| **feature == name).count();
            assert!(count >= least, "{name}: {count}");
        }
    }
}

/// Request Eight: a job without faces selected twice has none in its body, and
/// one with them has what the reference is not asked about.
#[test]
fn sound_jobs_select_no_face_twice() {
    for index in 0..3_000 {
        let sample = generate::sample(3, index);
        if matches!(sample.expected, Expected::Loads) {
            assert!(first_repeat(&sample.job).is_none(), "job {index}");
        }
    }
    for number in 1..=9 {
        assert!(first_repeat(&part(number).0).is_none(), "P{number}");
    }
}

/// Wrong endings of a job of five faces, the fourth the first one and the fifth
/// the second, which are noticed by its bytes.
#[test]
fn wrong_endings_of_repeated_faces_are_noticed() {
    let face = |source| (4, vec![7, 0, 0, 1, source]);
    let list = [(1, vec![1]), face(5), face(6), face(7), face(5), face(6)];
    let job = records::to_bytes(&list);
    let unlike = |number, place| twice::unlike(&job, Some(Refusal { number, place }));
    assert!(twice::unlike(&job, None).is_some());
    assert_eq!(unlike(45, 88), None);
    // On another record, or behind what comes later.
    for (number, place) in [(45, 10), (45, 36), (45, 62), (45, 114), (4, 114), (2, 114)] {
        assert!(unlike(number, place).is_some(), "{number} {place}");
    }
    // On one record 2, 3, 5 and 4 come before it, 6 and 7 after it.
    for (number, right) in [
        (2, true),
        (3, true),
        (4, true),
        (5, true),
        (6, false),
        (7, false),
    ] {
        assert_eq!(unlike(number, 88).is_none(), right, "{number}");
    }
    for (number, place) in [(4, 62), (6, 62), (1, 65_536)] {
        assert_eq!(unlike(number, place), None, "{number} {place}");
    }
    let repaired = twice::repaired(&job);
    assert_eq!(twice::unlike(&repaired, None), None);
    let wanted = Refusal {
        number: 45,
        place: 88,
    };
    assert!(twice::unlike(&repaired, Some(wanted)).is_some());
    assert_eq!(second::load(&job).err(), Some(wanted));
}

/// The reference is compared on all but the face joins and the members.
#[test]
fn a_body_is_compared_without_face_joins_and_members() {
    let (job, _) = part(9);
    let loaded = second::load(&job).expect("P9 loads");
    let trail = second::sew(&loaded, &mut &loaded.answers);
    let body = second::sew_output(&trail, ROOM).expect("P9 is accepted");
    let lines = text::listing(&body)
        .replace("body 1 6 2 2 0 0 1", "body 1 6 2 2 0 0")
        .replace("members 0 0 0 1\n", "")
        .replace("members 0 2\n", "");
    assert_eq!(text::listing(&compared(&body)), lines);
    assert_eq!(compared_lines(&text::listing(&body)), lines);
    // The last field of the body, two headers and three members.
    let lacks = 4 + 2 * 6 + 3 * 8;
    assert_eq!(lacking(&body), lacks);
    let reference = compared(&body);
    let needed = body.len();
    assert_eq!(
        in_room(Ok(reference.clone()), lacks, needed),
        Ok(reference.clone())
    );
    assert_eq!(
        in_room(Ok(reference), lacks, needed - 1),
        Err((40, needed as u32))
    );
}

/// docs/SPEED.md has the times of these jobs: they stay as first drawn.
#[test]
fn timed_jobs_stay_as_drawn() {
    let drawn = [
        (1_300, 2_056),
        (938, 10_880),
        (1_478, 18_114),
        (3_279, 36_822),
        (2_729, 43_024),
        (3_022, 47_078),
    ];
    for (index, bytes) in drawn {
        let job = generate::sample(5, index).job;
        assert_eq!(job.len(), bytes, "job {index}");
    }
}

#[test]
fn every_limit_is_reached_and_passed() {
    for sort in 0..limits::SORTS {
        for past in [false, true] {
            let mut rng = Rng::new(1, sort as u64);
            let (job, expected) = limits::limited(sort, past, &mut rng);
            let sample = Sample {
                class: "limits",
                job,
                room: ROOM,
                expected,
            };
            let differences = run::judge(&sample).differences;
            assert!(differences.is_empty(), "limit {sort}: {differences:?}");
        }
    }
}

/// A loop request shows the job's own bytes, and the number if it is too high.
#[test]
fn loops_can_be_requested() {
    let (job, _) = part(9);
    let wanted: [u32; 4] = [1, 1, 0, 1];
    let payload = crate::records::field_bytes(&wanted);
    assert_eq!(second::request(&job, 2), Ok(&payload[..]));
    let refusal = second::request(&job, 3).map_err(|r| (r.number, r.place));
    assert_eq!(refusal, Err((4, 3)));
}

/// P9's stages, by hand.
#[test]
fn stages_of_part_nine() {
    let (job, _) = part(9);
    let stage = |name: &str| {
        let wanted = Wanted::of_words(&[name.to_string()]).expect("a stage");
        answer(&job, wanted, ROOM)
    };
    assert_eq!(stage("pair"), "5\n2\n1\n4\n3\n0\n");
    assert_eq!(stage("merge"), "0 0\n0 0\n0 2\n");
    assert_eq!(stage("walk"), "0 3 1\n3 0 1\n4 5 0\n5 4 0\n");
    assert_eq!(stage("loops"), "0 2 0 3\n1 2 4 5\n");
    assert_eq!(stage("fans"), "0 0 0\n3 3 1\n4 0 0\n5 3 1\n");
    assert_eq!(stage("shells"), "1 2 0 1\n");
    assert_eq!(stage("lumps"), "0 2 0 1\n");
    let edges = "0 0 2\n5 0 0 3 0 1 1\n6 0 3 0 0 1 1\n0 2 0 0 1 0\n1 2 1 1 0 1\n";
    assert_eq!(stage("edges"), edges);
    assert_eq!(stage("joining"), edges);
    let walk = Wanted::of_words(&["walk".to_string()]).expect("a stage");
    assert_eq!(answer(&job, walk, 47), "refused 40 48\n");
}

/// Request Eleven: every table of four of these bytes; the four that are permitted
/// stand beside each other, and say of each place what may stand there.
#[test]
fn tables_are_taken_by_the_four_that_are_permitted() {
    let permitted = [FULL, LESSER[0], LESSER[1], LESSER[2]];
    let values = [0, 1, 2, 3, 127, 128, 129, 254, 255];
    let mut taken = 0;
    for number in 0..9usize.pow(4) {
        let bytes = [0, 1, 2, 3].map(|i| values[number / 9usize.pow(i) % 9]);
        let faulty = |i: &usize| permitted.iter().all(|table| table[*i] != bytes[*i]);
        let rules = Supplied::Table(bytes.to_vec()).rules();
        match (0..4).find(faulty) {
            Some(place) => {
                let place = place as u32;
                let number = tables::WRONG_TABLE;
                assert_eq!(rules, Err(Refusal { number, place }), "{bytes:?}");
            }
            None => {
                taken += 1;
                let table = rules.expect("permitted").table;
                for (i, byte) in bytes.into_iter().enumerate() {
                    let joins = table.joins(i < 2, i % 2 == 0);
                    assert_eq!(joins, byte == 1, "{bytes:?} at {i}");
                }
            }
        }
    }
    assert_eq!(taken, 4);
}

/// Request Eleven: 48 comes before everything else, in sewing and in the walk
/// stage: before 1, for no bytes at all, and before 40.
#[test]
fn a_wrong_table_comes_first() {
    for (bytes, place) in FAULTY {
        let wanted = format!("refused 48 {place}\n");
        let (nine, _) = part(9);
        for job in [
            &[][..],
            &nine,
            &[0; 70_000],
            &[0; MAX_BYTES + 1],
            &nine[..3],
        ] {
            for room in [0, ROOM] {
                let table = || Supplied::Table(bytes.to_vec());
                let walk = Wanted::Stage(Stage::Walk, table());
                assert_eq!(answer(job, Wanted::Sew(table()), room), wanted);
                assert_eq!(answer(job, walk, room), wanted);
            }
        }
    }
    // With a table that is permitted the job's own refusals come.
    for table in ["1001", "1000", "0001", "0000"] {
        let long = told(&[0; 70_000], &format!("sew table {table}"), ROOM);
        assert_eq!(long, "refused 1 65536\n");
        let none = told(&[], &format!("walk table {table}"), ROOM);
        assert_eq!(none, "refused 3 0\n");
    }
}

/// Request Eleven: an entry is a character's value less that of `0`; only sewing
/// and the walk stage take a table, and only one.
#[test]
fn tables_are_read_from_words() {
    let (nine, _) = part(9);
    for (entries, wanted) in [
        ("10", "refused 48 4"),
        ("10010", "refused 48 4"),
        ("", "refused 48 4"),
        ("1101", "refused 48 1"),
        ("1/01", "refused 48 1"),
        ("1001\n", "refused 48 4"),
        (":001", "refused 48 0"),
        ("1002", "refused 48 3"),
    ] {
        let words = format!("walk table {entries}");
        assert_eq!(
            told(&nine, &words, ROOM),
            format!("{wanted}\n"),
            "{entries}"
        );
    }
    assert_eq!(told(&nine, "sew table 1001", ROOM), listing(&nine));
    assert_eq!(told(&nine, "walk table 1001", 47), "refused 40 48\n");
    assert_eq!(told(&nine, "walk table 0001", 71), "refused 40 72\n");
    for words in [
        "fans table 1000",
        "read table 1001",
        "loop table 1000",
        "sew table",
        "sew table 1001 1001",
        "table 1001",
        "walk tables 1001",
    ] {
        let words: Vec<String> = words.split(' ').map(str::to_string).collect();
        assert!(Wanted::of_words(&words).is_err(), "{words:?}");
    }
    assert_eq!(table_of("1/01"), [1, 255, 0, 1]);
    assert_eq!(entries_of(&[1, 255, 0, 9]).as_deref(), Some("1/09"));
    // No word has a byte 0, or half a letter.
    assert_eq!(entries_of(&[208, 0, 0, 1]), None);
    assert_eq!(entries_of(&[128, 0, 0, 1]), None);
}

/// Request Eleven: drawn jobs with the tables drawn for them agree, and all that
/// there is to meet is met: 48 at each place, each length and each faulty entry,
/// before other refusals, and each permitted table on each answer and senses.
#[test]
fn tables_are_met() {
    let mut totals = Tables::default();
    for index in 0..6_000 {
        let sample = generate::sample(4, index);
        let held = run::judge_table(&sample, 4, index);
        assert!(
            held.differences.is_empty(),
            "job {index}: {:?}",
            held.differences
        );
        totals.add(&held);
    }
    assert_eq!(totals.unmet(), Vec::<String>::new());
}

/// Request Eleven: a job that suits a table loads as before and sews as before,
/// but for the senses of its faces and what is answered and not asked.
#[test]
fn suited_jobs_join_the_same_faces() {
    let (mut turned, mut longer) = (0, 0);
    for index in 0..1_500 {
        let job = generate::sample(5, index).job;
        let table = Drawn::permitted(LESSER[index as usize % 3]);
        let suited = drawn::suited(&job, &table, &mut Rng::new(5, index));
        let before = second::sewn(&Supplied::Nothing, &job);
        let after = second::sewn(&Supplied::Nothing, &suited);
        match (before, after) {
            // What was missing may be answered now.
            (Ok(before), Ok(_)) if before.refusal.is_some_and(|r| r.number == 20) => {}
            (Ok(before), Ok(after)) => {
                assert_eq!(before.refusal, after.refusal, "job {index}");
                assert_eq!(before.asked, after.asked, "job {index}");
                let groups = |trail: second::Trail| trail.merged.map(|merged| merged.group);
                assert_eq!(groups(before), groups(after), "job {index}");
                turned += usize::from(suited[..job.len()] != job);
                longer += usize::from(suited.len() > job.len());
            }
            (before, after) => assert_eq!(before.err(), after.err(), "job {index}"),
        }
    }
    assert!(
        turned > 400 && longer > 200,
        "{turned} turned, {longer} longer"
    );
}

/// Request Eleven: with a lesser table most jobs that suit it are accepted, and
/// many join fewer faces than by ordinary sewing.
#[test]
fn suited_jobs_are_accepted_and_join_less() {
    for bytes in LESSER {
        let table = Drawn::permitted(bytes);
        let held = |index| {
            let job = generate::sample_of("merging", &mut Rng::new(6, index)).job;
            let suited = drawn::suited(&job, &table, &mut Rng::new(6, index));
            tables::hold(&suited, ROOM, &table)
        };
        let held: Vec<tables::Held> = (0..300).map(held).collect();
        let accepted = held.iter().filter(|held| held.refusal.is_none());
        let fewer = accepted.clone().filter(|held| held.fewer).count();
        assert!(accepted.count() > 200 && fewer > 80, "{bytes:?}: {fewer}");
    }
}

/// How the stored jobs end without a table, by operation and table.
fn stored_endings() -> BTreeMap<vectors::Of, BTreeSet<u32>> {
    let met = stored_vectors().into_iter().flat_map(|(job, answers)| {
        let ordinary = second::sewn(&Supplied::Nothing, &job);
        let refusal = ordinary.map_or_else(Some, |trail| trail.refusal);
        let number = refusal.map_or(0, |refusal| refusal.number);
        answers.into_iter().map(move |of| (of, number))
    });
    let mut endings: BTreeMap<vectors::Of, BTreeSet<u32>> = BTreeMap::new();
    for (of, number) in met {
        endings.entry(of).or_default().insert(number);
    }
    endings
}

/// Request Eleven: the stored answers are those of every faulty table and of the
/// permitted ones, in sewing and in the walk stage, with jobs of all sorts.
#[test]
fn tables_are_stored() {
    let endings = stored_endings();
    for operation in [14, 15] {
        let met = |table: &[u8]| &endings[&(operation, table.to_vec())];
        let before: BTreeSet<&u32> = FAULTY.iter().flat_map(|(table, _)| met(table)).collect();
        let mut unmet = vec![0, 1, 2, 3, 4, 5, 6, 7, 45, 10, 20, 21, 31];
        unmet.retain(|number| !before.contains(number));
        assert_eq!(unmet, [], "no 48 before these, operation {operation}");
        let permitted = [FULL, LESSER[0], LESSER[1], LESSER[2]];
        let met = permitted.map(|table| met(&table).len());
        assert!(met.iter().all(|&count| count >= 12), "{met:?} endings");
    }
}

/// Request Two: the parts of document 01 have neither fault, so that a print shop
/// gets the ordinary bodies, and refusals.
#[test]
fn parts_end_for_print_as_they_do_ordinarily() {
    for number in 1..=9 {
        let (job, expected) = part(number);
        assert_eq!(told(&job, "sew print-shop", ROOM), expected, "P{number}");
    }
    let (nine, _) = part(9);
    let length = "refused 40 226\n";
    assert_eq!(told(&nine, "sew print-shop", 215), length);
    assert_eq!(told(&nine, "sew", 215), length);
    for words in [
        "fans print-shop",
        "pair print-shop",
        "loop print-shop",
        "print-shop",
        "sew print-shop table 1001",
        "sew table print-shop 1001",
        "sew printshop",
    ] {
        let words: Vec<String> = words.split(' ').map(str::to_string).collect();
        assert!(Wanted::of_words(&words).is_err(), "{words:?}");
    }
}

/// Request Two: drawn jobs agree, and all that there is to meet is met: 41 and 42
/// at each sort of edge and point and before each other refusal, and accepted jobs
/// of every sort.
#[test]
fn endings_for_print_are_met() {
    let mut totals = Prints::default();
    for index in 0..12_000 {
        let sample = generate::sample(4, index);
        let compared = run::judge(&sample);
        let held = run::judge_print(&sample, &compared, 4, index);
        assert!(
            held.differences.is_empty(),
            "job {index}: {:?}",
            held.differences
        );
        totals.add(&held);
    }
    assert_eq!(totals.unmet(), Vec::<String>::new());
}

/// Request Two: all that there is to meet is stored too, but for 40: the room is
/// that of a listing, for which no job of these is too long.
#[test]
fn endings_for_print_are_stored() {
    let mut totals = Prints::default();
    for (job, answers) in stored_vectors() {
        let of_print = answers.iter().filter(|(operation, _)| *operation == 16);
        assert_eq!(of_print.count(), 1);
        totals.add(&print_shop::hold(&job, ROOM, &compare(&job, ROOM)));
    }
    let mut unmet = totals.unmet();
    unmet.retain(|name| !name.ends_with("40"));
    assert_eq!(unmet, Vec::<String>::new());
}

/// A job of four uses round edge 1, as ordinary sewing and sewing for print end.
#[test]
fn faults_of_a_print_shop_have_their_numbers() {
    let walls = [(1, vec![1]), (3, vec![5, 0, u32::MAX, u32::MAX])];
    let face = |source, sense| [(4, vec![7, 0, 0, 0, source]), (5, vec![1, sense])];
    let mut list = walls.to_vec();
    list.push(list[1].clone());
    list.extend((0..4).flat_map(|source| face(source, source % 2)));
    let job = records::to_bytes(&list);
    let ends = |supplied| {
        let trail = second::sewn(&supplied, &job).expect("it loads");
        trail.refusal.map(|refusal| (refusal.number, refusal.place))
    };
    assert_eq!(ends(Supplied::PrintShop), Some((MANY_USES, 1)));
    assert_eq!(ends(Supplied::Nothing), Some((20, 7)));
    assert_eq!(MANY_FANS, 42);
}

/// What document 01 demands of an accepted job is noticed where it does not hold.
#[test]
fn unmet_demands_are_noticed() {
    let sewn = || {
        let (seven, _) = part(7);
        let trail = second::sewn(&Supplied::PrintShop, &seven).expect("P7 loads");
        let body = second::sew_output(&trail, ROOM).expect("P7 is accepted");
        (trail, body)
    };
    let (trail, body) = sewn();
    assert_eq!(demand::unmet(&trail, &body), Vec::<String>::new());
    let spoilt: [fn(&mut second::Trail); 5] = [
        |trail| trail.joined.as_mut().expect("joined").joins += 1,
        |trail| trail.joined.as_mut().expect("joined").rings += 1,
        |trail| trail.merged.as_mut().expect("merged").joins += 1,
        |trail| {
            trail.steps.as_mut().expect("walked")[0]
                .as_mut()
                .expect("kept")
                .passed += 1
        },
        |trail| trail.loops.as_mut().expect("walked")[0].face = 1,
    ];
    for (i, spoil) in spoilt.into_iter().enumerate() {
        let (mut trail, body) = sewn();
        spoil(&mut trail);
        assert!(!demand::unmet(&trail, &body).is_empty(), "fault {i}");
    }
    for at in 0..6 {
        let mut body = body.clone();
        body[10 + 4 * at] += 1;
        assert!(!demand::unmet(&trail, &body).is_empty(), "total {at}");
    }
}
