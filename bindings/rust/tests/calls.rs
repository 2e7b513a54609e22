//! The calls from Rust. What is expected comes from the rules: the cases P6 to P9 (R150), refusals, and the worked files
//! (R88, R123).
use fascjoldi::chunks::Body;
use fascjoldi::text::{self, NoNumber};
use fascjoldi::{files, listing, Blocks, Refused};
use std::io::Cursor;

/// The place of row r of lane l (R16).
fn place(r: usize, l: usize) -> usize {
    [0, 4, 2, 6, 1, 5, 3, 7][r / 8] * 16 + r % 8 * 128 + l
}

fn refused<G>(number: usize, place: usize) -> Result<G, Refused> {
    Err(Refused { number, place })
}

/// One block of sevens as a frame of width 0: edition 1, and edition 2.
const SEVENS_1: [u8; 20] = [1, 0, 1, 0, 1, 0, 0, 0, 0, 0, 0, 0, 7, 0, 0, 0, 0, 0, 0, 0];
const SEVENS_2: [u8; 36] = [
    2, 0, 1, 0, 1, 0, 0, 0, 0, 0, 0, 0, 7, 0, 0, 0, 0, 0, 0, 0, 7, 0, 0, 0, 0, 0, 0, 0, 7, 0, 0, 0, 0, 0, 0, 0,
];

#[test]
fn p6_and_p7() {
    let mut values = [0u8; 1024];
    for r in 0..8 {
        for l in 0..128 {
            values[place(r, l)] = r as u8;
        }
    }
    let mut packed = [77; 384];
    assert_eq!(Blocks::pack(3, &values, &mut packed), Ok(()));
    assert_eq!([packed[0], packed[128], packed[256]], [136, 198, 250]);
    let single = Blocks::unpack_single(3, &packed, 256).unwrap();
    assert_eq!((single.value, single.words), (2, 2));
    assert_eq!(u8::words_at(3, 256), Some(2));
    assert_eq!(u8::words_at(9, 0), None);
    let mut back = [77; 1024];
    assert_eq!(Blocks::unpack(3, &packed, &mut back), Ok(()));
    assert_eq!(back, values);
}

#[test]
fn p8_and_p9() {
    let (values, mut packed, mut back) = ([3u8; 1024], [77; 512], [77; 1024]);
    assert_eq!(Blocks::for_pack(4, &values, 250, &mut packed), Ok(()));
    assert_eq!(Blocks::unfor_pack(4, &packed, 250, &mut back), Ok(()));
    assert_eq!(back, [3; 1024]);
    assert_eq!(Blocks::for_pack(3, &values, 250, &mut packed[..384]), Ok(()));
    assert_eq!(Blocks::unfor_pack(3, &packed[..384], 250, &mut back), Ok(()));
    assert_eq!(back, [251; 1024]);
    let mut rows = [6u8; 1024];
    for l in 0..128 {
        rows[place(0, l)] = 5;
        rows[place(1, l)] = 7;
    }
    let mut differences = [77; 1024];
    assert_eq!(Blocks::delta(&rows, &[5; 128], &mut differences), Ok(()));
    assert_eq!([0, 1, 2].map(|r| differences[place(r, 99)]), [0, 2, 255]);
    assert_eq!(Blocks::undelta(&differences, &[5; 128], &mut back), Ok(()));
    assert_eq!(back, rows);
}

#[test]
fn blocks_are_refused() {
    let (values, mut output) = ([0u8; 1024], [77u8; 1024]);
    assert_eq!(Blocks::pack(9, &values, &mut output), refused(1, 0));
    assert_eq!(Blocks::pack(3, &values[1..], &mut output[..384]), refused(2, 0));
    assert_eq!(Blocks::pack(3, &values, &mut output[..383]), refused(3, 0));
    assert_eq!(Blocks::delta(&values, &[0; 127], &mut output), refused(4, 0));
    assert_eq!(Blocks::unpack_indices(8, &values, &[0, 1], &mut output[..1]), refused(5, 0));
    assert_eq!(
        Blocks::unpack_indices(8, &values, &[0, 1023, 1024], &mut output[..3]),
        refused(6, 2)
    );
    assert_eq!(Blocks::unpack_single(8, &values, 1024), refused(6, 0));
    let mut indices = [0; 1024];
    indices[5] = 3;
    assert_eq!(Blocks::decode(&values[..3], &indices, &mut output), refused(7, 5));
    assert_eq!(Blocks::decode(&[], &indices, &mut output), refused(7, 0));
    assert_eq!(output, [77; 1024]);
}

#[test]
fn a_file_is_written_read_and_compared() {
    let mut values = [7u64; 1024];
    let mut file = [77; 400];
    assert_eq!(files::write(&values, &mut file), Ok(36));
    assert_eq!(file[..36], SEVENS_2);
    assert_eq!(file[36..], [77; 364]);
    values[3] = 9;
    assert_eq!(files::write(&values, &mut file), Ok(4 + 32 + 128 * 2));
    let file = &file[..292];
    assert_eq!(files::check(file), Ok(()));
    assert_eq!(files::check_canonical(file), Ok(()));
    let row = files::row_at(file, 3).unwrap();
    assert_eq!((row.value, row.words), (9, Some(1)));
    let (mut left, mut right, mut places) = ([0; 1024], [0; 1024], [0; 1024]);
    assert_eq!(files::block_out(&SEVENS_1, 0, &mut left), Ok(()));
    assert_eq!(files::block_out(file, 0, &mut right), Ok(()));
    assert_eq!(right, values);
    assert_eq!(files::differing(&left, &right, &mut places), Ok(1));
    assert_eq!((places[0], left[3], right[3]), (3, 7, 9));
    let found = files::search(file, 8, 10, &mut left).unwrap();
    assert_eq!((found.rows, found.opened, left[0]), (1, 1, 3));
    let front = &file[..files::front_length(&file[..4])];
    assert_eq!(files::front_check(front, file.len()), Ok(()));
    let entry = files::entry(front, 0);
    assert_eq!(
        (entry.kind, entry.width, entry.zero, entry.length, entry.reference),
        (1, 2, 0, 256, 7)
    );
    assert_eq!((files::range(front, 0).smallest, files::range(front, 0).largest), (7, 9));
    assert_eq!(files::body_block_out(front, 0, &file[36..], &mut left), Ok(()));
    assert_eq!(left, values);
}

/// What is listed of two files in memory.
#[test]
fn a_file_is_renumbered_and_back() {
    let rows: Vec<u64> = (0..2048).map(|i| i % 7 + 100).collect();
    let (mut file, mut new, mut back) = (vec![0; 20000], vec![0; 20000], vec![0; 20000]);
    let n = files::write(&rows, &mut file).unwrap();
    let many = rows.iter().filter(|row| **row < 102).count();
    let (length, changed) = files::renumber(&file[..n], &[100, 101], &[101, 100], &[1, 0], &mut new).unwrap();
    assert_eq!(changed, many);
    for (p, old) in rows.iter().enumerate() {
        let wanted = if *old < 102 { 201 - old } else { *old };
        assert_eq!(files::row_at(&new[..length], p).unwrap().value, wanted);
    }
    assert_eq!(files::renumber(&new[..length], &[100, 101], &[101, 100], &[1, 0], &mut back), Ok((n, many)));
    assert_eq!(back[..n], file[..n]);
    assert_eq!(files::renumber(&file[..n], &[100], &[101], &[0], &mut new), refused(22, 1));
    assert_eq!(files::renumber(&file[..n], &[100, 101], &[7, 7], &[0, 1], &mut new), refused(21, 0));
    assert_eq!(files::renumber(&file[..n], &[101, 100], &[7, 8], &[0, 1], &mut new), refused(19, 1));
    assert_eq!(files::renumber(&file[..n], &[100], &[7], &[], &mut new), refused(18, 0));
}

fn listed(left: &[u8], right: &[u8]) -> String {
    let mut text = Vec::new();
    listing::changes(&mut Cursor::new(left), &mut Cursor::new(right), &mut text).unwrap();
    String::from_utf8(text).unwrap()
}

#[test]
fn what_two_files_differ_in_is_listed() {
    let (mut values, mut sevens, mut nine) = ([7; 2048], [0; 400], [0; 400]);
    let long = files::write(&values, &mut sevens).unwrap();
    values[3] = 9;
    let short = files::write(&values[..1024], &mut nine).unwrap();
    assert_eq!(listed(&sevens[..long], &nine[..short]), "3 7 9\nrows 2048 1024\ndifferences 1\n");
    assert_eq!(listed(&nine[..short], &nine[..short]), "differences 0\n");
    assert_eq!(listed(&sevens[..long], &nine[..short - 1]), "refused right 8 0\n");
    assert_eq!(listed(&[], &nine[..short - 1]), "refused left 8 0\n");
    assert_eq!(listing::most_wishes(), 1300);
}

#[test]
fn numbers_in_decimal_and_a_block_in_a_line() {
    assert_eq!(text::parse(b"018446744073709551615"), Ok(u64::MAX));
    assert_eq!(text::parse(b"18446744073709551616"), Err(NoNumber::Large));
    assert_eq!(text::parse(b""), Err(NoNumber::Empty));
    assert_eq!(text::parse(b"7 8"), Err(NoNumber::Other(1)));
    let mut output = [77; 6];
    assert_eq!((text::lay(1204, &mut output), &output), (4, b"1204MM"));
    assert_eq!(text::lay(1234567, &mut output), 0);
    let (mut values, mut file) = ([7; 1024], [0; 400]);
    values[3] = 9;
    assert_eq!(files::write(&values, &mut file), Ok(292));
    let s = text::summary(&file[..36], 0, &values);
    assert_eq!(
        (s.kind, s.width, s.length, s.reference, s.smallest, s.largest),
        (1, 2, 256, 7, 7, 9)
    );
    assert_eq!((text::thousandths(292, 1024), text::thousandths(4, 0), text::marks(5)), (285, 0, 2));
    assert_eq!(
        (text::place_in(1030, 1), text::place_in(1023, 1), text::place_in(2048, 1)),
        (6, 0, 1024)
    );
}

#[test]
fn a_file_is_searched_by_its_front_and_one_body() {
    let (mut values, mut file, mut rows) = ([7; 1024], [0; 400], [77; 1024]);
    values[3] = 9;
    assert_eq!(files::write(&values, &mut file), Ok(292));
    let front = &file[..36];
    let body = files::first_body(front);
    assert_eq!((body.number, body.start, body.length), (0, 36, 256));
    let behind = files::next_body(front, body);
    assert_eq!((behind.number, behind.start, behind.length), (1, 292, 0));
    assert!(files::search_opens(front, 0, 9, 100));
    assert!(!files::search_opens(front, 0, 10, 100));
    let found = files::search_rows(&values, 2, 8, 10, &mut rows).unwrap();
    assert_eq!((found.rows, found.opened, rows[0], rows[1]), (1, 1, 2051, 77));
    assert_eq!(files::search_rows(&values[1..], 2, 8, 10, &mut rows), refused(2, 0));
    assert_eq!(files::search_rows(&values, 256, 8, 10, &mut rows), refused(12, 0));
    assert_eq!(files::search_rows(&values, 2, 7, 10, &mut rows[1..]), refused(14, 0));
    assert_eq!((rows[0], rows[1]), (2051, 77));
}

#[test]
fn a_row_is_looked_up_in_its_body() {
    let (mut values, mut room) = ([7; 2048], [0; 400]);
    values[3] = 9;
    let length = files::write(&values, &mut room).unwrap();
    assert_eq!(length, 4 + 2 * 32 + 128 * 2);
    let file = &mut room[..length];
    let first = files::first_body(file);
    let second = files::next_body(file, first);
    let row = files::row_from(file, first, 3).unwrap();
    assert_eq!((row.value, row.words), (9, Some(1)));
    let row = files::row_from(file, second, 1027).unwrap();
    assert_eq!((row.value, row.words), (7, Some(0)));
    assert_eq!(files::row_from(file, first, 1027), refused(12, 0));
    assert_eq!(files::row_from(file, files::Body { start: first.start + 1, ..first }, 3), refused(8, 0));
    assert_eq!(files::row_from(file, files::Body { number: 11, ..first }, 3), refused(10, 11));
    file[52] = 8; // the smallest number that the second entry says, above its largest
    assert_eq!(files::row_from(file, second, 1027), refused(10, 1));
    assert!(files::row_from(file, first, 3).is_ok());
}

#[test]
fn a_row_of_runs_is_looked_up_where_all_indices_are_in_range() {
    let mut file = [0; 20 + 2048 + 8];
    file[..10].copy_from_slice(&[1, 0, 1, 0, 3, 0, 0, 0, 8, 8]);
    file[2068] = 5;
    let body = files::first_body(&file);
    let row = files::row_from(&file, body, 1023).unwrap();
    assert_eq!((row.value, row.words), (5, None));
    file[20 + 2 * 700] = 1;
    assert_eq!(files::row_from(&file, body, 1023), refused(13, 0));
}

#[test]
fn files_are_refused() {
    let mut output = [77; 1024];
    assert_eq!(files::check(&SEVENS_1[..3]), refused(8, 0));
    assert_eq!(files::check(&[3, 0, 0, 0]), refused(9, 0));
    assert_eq!(files::check(&[&SEVENS_1[..], &[0]].concat()), refused(11, 0));
    assert_eq!(files::block_out(&SEVENS_1, 1, &mut output), refused(12, 0));
    assert_eq!(output, [77; 1024]);
    assert_eq!(files::write(&[7; 1024], &mut [0; 35]), refused(14, 0));
    let mut file = SEVENS_2;
    file[28] = 8;
    assert_eq!(files::check(&file), refused(15, 0));
    file[28] = 6;
    assert_eq!(files::check(&file), refused(10, 0));
}

#[test]
fn one_body_is_refused() {
    let (mut output, mut places) = ([77; 1024], [77; 1024]);
    // The second of two entries is of kind 3, with one run value, a seven; in edition 2 its range is from 7 to 7.
    let runs = [3, 0, 0, 0, 8, 8, 0, 0, 0, 0, 0, 0, 0, 0, 0, 0];
    let body = [&[0; 2048][..], &[7, 0, 0, 0, 0, 0, 0, 0]].concat();
    let first = [&[1, 0, 2, 0][..], &SEVENS_1[4..], &runs].concat();
    assert_eq!(files::body_block_out(&first, 1, &body, &mut output), Ok(()));
    assert_eq!(files::body_check_range(&first, 1, &output), Ok(()));
    assert_eq!(output, [7; 1024]);
    let second = [&[2, 0, 2, 0][..], &SEVENS_2[4..], &runs, &SEVENS_2[20..]].concat();
    assert_eq!(files::body_block_out(&second, 1, &body, &mut output), refused(10, 1));
    assert_eq!(files::body_check_range(&second, 1, &output), refused(10, 1));
    assert_eq!(files::body_block_out(&second, 2, &body, &mut output), refused(10, 2));
    // The smallest number is above the largest.
    let mut file = SEVENS_2;
    file[28] = 6;
    assert_eq!(files::body_block_out(&file, 0, &[], &mut output), refused(10, 0));
    assert_eq!(files::body_check_range(&file, 0, &output), refused(10, 0));
    assert_eq!(files::differing(&output, &output[1..], &mut places), refused(2, 0));
    assert_eq!(files::differing(&output[1..], &output, &mut places), refused(2, 0));
    assert_eq!(files::differing(&output, &output, &mut places[1..]), refused(2, 0));
    assert_eq!(files::differing(&output, &output, &mut places), Ok(0));
    assert_eq!((output, places), ([7; 1024], [77; 1024]));
}

#[test]
fn a_body_comes_in_chunks() {
    let (mut body, mut output) = (Body::start(1).unwrap(), [77; 1024]);
    assert_eq!(body.feed(&[255; 127]), 127);
    assert_eq!(body.ask(&mut output), refused(16, 127));
    assert_eq!(output, [77; 1024]);
    assert_eq!(body.feed(&[255; 10]), 1);
    assert_eq!(body.ask(&mut output), Ok(()));
    assert_eq!(output, [1; 1024]);
    assert_eq!(Body::start(65).err(), Some(Refused { number: 1, place: 0 }));
}
