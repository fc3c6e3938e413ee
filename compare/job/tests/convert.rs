//! Older jobs, of bytes and of text, in the form of today.

use job_text::records::{Record, to_bytes};
use job_text::{assemble, convert};

/// Two faces of three fields, one of five, one of four, and a cut record.
fn older() -> (Vec<Record>, Vec<u8>) {
    let list = vec![
        (1, vec![1]),
        (3, vec![5, 0, u32::MAX, u32::MAX]),
        (4, vec![7, 0, 1]),
        (5, vec![0, 0]),
        (4, vec![8, 1, 0, 1, 9]),
        (4, vec![9, 0, 0, 1]),
        (4, vec![u32::MAX, 1, 1]),
        (8, vec![0, 1]),
    ];
    (list, vec![12, 0, 0, 0, 4, 0, 1])
}

#[test]
fn faces_of_three_fields_get_body_and_source() {
    let (mut list, cut) = older();
    let job = [to_bytes(&list), cut.clone()].concat();
    list[2].1.extend([0, 0]);
    list[6].1.extend([0, 3]);
    let due = [to_bytes(&list), cut].concat();
    assert_eq!(convert(&job), due);
    assert_eq!(convert(&due), due);
}

#[test]
fn a_text_keeps_its_comments() {
    let text = "head 1\n  face 7 0 0   # a lid\n\nface 8 0 0 1 4\n4 9 1 1\r\n4 9 1\n#face 1 0 0\nface 7 0 1";
    let due = "head 1\n  face 7 0 0 0 0   # a lid\n\nface 8 0 0 1 4\n4 9 1 1 0 2\r\n4 9 1\n#face 1 0 0\nface 7 0 1 0 4";
    assert_eq!(String::from_utf8(convert(text.as_bytes())), Ok(due.into()));
    assert_eq!(convert(due.as_bytes()), due.as_bytes());
}

/// A text that is converted and then assembled gives what its older bytes give.
#[test]
fn text_and_bytes_come_to_one_job() {
    let text = b"head 1\nedge 5 0 - -\n4 7 0 0\nloop 0 0\n4 8 0 0\nloop 0 1\nsurface 0 1\n";
    let bytes = assemble(text).expect("records by number may have any fields");
    assert_eq!(assemble(&convert(text)), Ok(convert(&bytes)));
}

#[test]
fn what_has_no_face_stays() {
    for job in [
        &b""[..],
        b"\0",
        b"head 1\nface",
        b"\xff\xfe",
        b"surface 4 1\n",
    ] {
        assert_eq!(convert(job), job);
    }
}
