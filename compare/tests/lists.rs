//! Comma lists at their edges, worked out by hand: what a line is, numbers of any length, the order of the checks, what
//! a refusal leaves, what is written, and the calls and programs on sheets.

use compare::card::{Card, Lot};
use compare::on_sheet::{self, File, LIST_READ, Refused, USAGE};
use compare::refusal::{Fault, Refusal};
use compare::tally::{Held, Tally};
use compare::{comma, sheet};

/// A tally of 40 containers that holds nothing.
fn opened(attribute: u16) -> Tally {
    opened_with(attribute, 40)
}

fn opened_with(attribute: u16, containers: u16) -> Tally {
    let card =
        Card { factor: 10, offset: 10, seeds: if attribute == 2 { 0 } else { 400 }, ..Card::default() };
    let mut tally = Tally::fresh();
    tally.open(&Lot { attribute, containers }, &card).expect("a good lot and card");
    tally
}

/// Number and line of a list's answer on a tally, and what is held then; 0 and 0 for accepted.
fn entered(tally: &mut Tally, list: &str) -> (u8, usize) {
    match comma::enter(tally, list.as_bytes()) {
        Ok(()) => (0, 0),
        Err(Fault { refusal, line }) => (refusal.number(), line),
    }
}

/// The number that one line is answered on a tally that holds nothing.
fn number(attribute: u16, line: &str) -> u8 {
    entered(&mut opened(attribute), &format!("{line}\n")).0
}

/// X of a line that is accepted.
fn x(attribute: u16, value: &str) -> u16 {
    let mut tally = opened(attribute);
    assert_eq!(entered(&mut tally, &format!("7,{value}\n")), (0, 0), "{value}");
    let [Held { container: 7, x }] = *tally.held() else { panic!("{:?}", tally.held()) };
    x
}

#[test]
fn a_percentage_has_no_one_or_two_places() {
    for attribute in [0, 1] {
        let values = [("0", 0), ("0.0", 0), ("0.00", 0), ("0.05", 5), ("0.5", 50), ("0.50", 50), ("5", 500)];
        let more = [("98.5", 9_850), ("98.05", 9_805), ("99.99", 9_999), ("100", 10_000), ("100.00", 10_000)];
        for (value, hundredths) in values.into_iter().chain(more) {
            assert_eq!(x(attribute, value), hundredths, "{value}");
        }
    }
}

#[test]
fn a_count_has_no_point() {
    for (value, seeds) in [("0", 0), ("7", 7), ("100", 100), ("10000", 10_000)] {
        assert_eq!(x(2, value), seeds);
    }
    for value in ["5.", "5.0", "5.00", ".5", "0.0", "10001.5"] {
        assert_eq!(number(2, &format!("1,{value}")), 20, "{value}");
    }
}

#[test]
fn other_lines_are_bad() {
    let lines = [
        "",
        ",",
        "1",
        "1,",
        ",1",
        "1;1",
        "1.1",
        "1 1",
        " 1,1",
        "1 ,1",
        "1, 1",
        "1,1 ",
        "1,1\r",
        "\r",
        "1\t,1",
        "+1,1",
        "-1,1",
        "1,+1",
        "1,-1",
        "01,1",
        "00,1",
        "1,01",
        "1,00",
        "1,1,",
        "1,1,1",
        "1,,1",
        ",1,1",
        "1,5.",
        "1,.5",
        "1,.",
        "1,05",
        "1,00.5",
        "1,5.555",
        "1,5.000",
        "1,5..5",
        "1,5.5.",
        "1,5.5.5",
        "1.0,5",
        "1.,5",
        "1,5,5",
        "1,1e1",
        "1,A",
        "1,0x1",
        "one,1",
        "1,5.a",
        "1,5.5a",
        "1,5. ",
        "1,5.-",
        "1,\u{0661}",
        "1,1\0",
        "0001,1",
        "1,5%",
        "\"1\",5",
    ];
    for line in lines {
        for attribute in [0, 1, 2] {
            assert_eq!(number(attribute, line), 20, "{line:?}");
        }
        assert_eq!(entered(&mut Tally::fresh(), &format!("{line}\n")), (20, 1), "{line:?}");
    }
    // The bytes beside the digits.
    for line in ["/,1", ":,1", "1,/", "1,:", "1/,1", "1,1:", "1,1./", "1,1.1:"] {
        assert_eq!(number(0, line), 20, "{line:?}");
    }
}

#[test]
fn a_line_ends_in_its_byte() {
    assert_eq!(entered(&mut opened(0), ""), (0, 0));
    assert_eq!(entered(&mut opened(0), "1,5"), (20, 1));
    assert_eq!(entered(&mut opened(0), "1,5\n2,5"), (20, 2));
    assert_eq!(entered(&mut opened(0), "1,5\n2,5\n"), (0, 0));
    assert_eq!(entered(&mut opened(0), "1,5\n2,5\n\n"), (20, 3));
    assert_eq!(entered(&mut opened(0), "\n1,5\n"), (20, 1));
    assert_eq!(entered(&mut opened(0), "1,5\r\n"), (20, 1));
    assert_eq!(entered(&mut opened(0), "1,5\r2,5\n"), (20, 1));
}

#[test]
fn numbers_of_any_length_are_read_exactly() {
    // 2^16, 2^32, 2^64 and 2^128, each with 1 more; and 1 with a thousand zeros behind it.
    let long = "1".to_string() + &"0".repeat(1_000);
    let wide = [
        "65536",
        "65537",
        "4294967296",
        "4294967297",
        "18446744073709551616",
        "18446744073709551617",
        "340282366920938463463374607431768211457",
        &long,
    ];
    for attribute in [0, 1, 2] {
        for wide in wide {
            assert_eq!(number(attribute, &format!("{wide},1")), 6, "{wide}");
            assert_eq!(number(attribute, &format!("1,{wide}")), 7, "{wide}");
            assert_eq!(number(attribute, &format!("0{wide},1")), 20, "{wide}");
            assert_eq!(number(attribute, &format!("1,0{wide}")), 20, "{wide}");
        }
    }
    for value in
        ["100.01", "100.1", "101", "10000", "655.36", "655.37", "42949672.96", "42949673", "1000000.00"]
    {
        assert_eq!(number(0, &format!("1,{value}")), 7, "{value}");
    }
    assert_eq!(number(2, "1,10001"), 7);
    let whole_lot = &mut opened_with(0, 65_535);
    assert_eq!(entered(whole_lot, "65535,1\n"), (0, 0));
    assert_eq!(entered(whole_lot, "65536,1\n"), (6, 1));
}

#[test]
fn a_line_is_20_then_6_7_8_9() {
    assert_eq!(number(0, "0,05"), 20);
    assert_eq!(number(0, "41,5.555"), 20);
    assert_eq!(number(0, "0,100.01"), 6);
    assert_eq!(number(0, "41,100.01"), 6);
    assert_eq!(number(0, "40,100"), 0);
    let mut tally = opened_with(0, 201);
    for container in 1..=200 {
        tally.enter(container, 0).expect("it has a place");
    }
    let full = tally.clone();
    for (line, number) in
        [("200,05", 20), ("202,100.01", 6), ("200,100.01", 7), ("200,5", 8), ("201,100.01", 7), ("201,5", 9)]
    {
        assert_eq!(entered(&mut tally, &format!("{line}\n")), (number, 1), "{line}");
        assert_eq!(tally, full);
    }
    assert_eq!(entered(&mut tally, ""), (0, 0));
}

#[test]
fn a_fresh_tally_is_judged_by_attribute_0() {
    let mut tally = Tally::fresh();
    for line in ["0,0", "1,1", "1,5.5", "1,5.55", "1,100.01", "65536,1"] {
        assert_eq!(entered(&mut tally, &format!("{line}\n")), (6, 1), "{line}");
    }
    for line in ["1,5.555", "1,05", "1", "0,00"] {
        assert_eq!(entered(&mut tally, &format!("{line}\n")), (20, 1), "{line}");
    }
    assert_eq!(entered(&mut tally, ""), (0, 0));
    assert_eq!(tally, Tally::fresh());
}

#[test]
fn a_refused_list_leaves_the_tally() {
    let mut tally = opened(0);
    tally.enter(9, 9_800).expect("it has a place");
    let before = tally.clone();
    for (list, answer) in [
        ("1,5\n2,5\n3,05\n4,0\n", (20, 3)),
        ("1,5\n41,5\n", (6, 2)),
        ("1,5\n2,100.5\n", (7, 2)),
        ("1,5\n9,5\n", (8, 2)),
        ("1,5\n2,5\n1,6\n", (8, 3)),
        ("1,5\n2,5", (20, 2)),
    ] {
        assert_eq!(entered(&mut tally, list), answer, "{list:?}");
        assert_eq!(tally, before);
    }
    let others: String = (10..=40).chain(1..=8).map(|container| format!("{container},1.1\n")).collect();
    assert_eq!(entered(&mut tally, &others), (0, 0));
    assert_eq!(tally.held().len(), 40);
}

#[test]
fn the_two_hundred_and_first_result_is_full() {
    let lines = |last: u16| (1..=last).map(|container| format!("{container},1\n")).collect::<String>();
    let mut tally = opened_with(2, 201);
    assert_eq!(entered(&mut tally, &lines(201)), (9, 201));
    assert!(tally.held().is_empty());
    assert_eq!(entered(&mut tally, &lines(200)), (0, 0));
    assert_eq!(tally.held().len(), 200);
}

#[test]
fn held_results_are_written_in_ascending_order() {
    let mut tally = opened_with(1, 65_535);
    for (container, x) in [(65_535, 10_000), (100, 5), (1, 9_850), (99, 0), (10, 50), (9, 110)] {
        tally.enter(container, x).expect("it has a place");
    }
    let list = "1,98.50\n9,1.10\n10,0.50\n99,0.00\n100,0.05\n65535,100.00\n";
    assert_eq!(String::from_utf8_lossy(&comma::text(&tally)), list);
    let mut counts = opened(2);
    for (container, x) in [(40, 10_000), (7, 0), (8, 10), (6, 705)] {
        counts.enter(container, x).expect("it has a place");
    }
    assert_eq!(comma::text(&counts), b"6,705\n7,0\n8,10\n40,10000\n");
}

#[test]
fn a_list_goes_by_the_rules_for_the_buffer() {
    let mut tally = opened(0);
    for empty in [&tally, &Tally::fresh()] {
        assert_eq!(comma::write(empty, &mut []), Ok(0));
        let mut buf = *b"....";
        assert_eq!(comma::write(empty, &mut buf), Ok(0));
        assert_eq!(&buf, b"....");
    }
    tally.enter(3, 9_800).expect("it has a place");
    let mut short = *b".......";
    assert_eq!(comma::write(&tally, &mut short), Err(Refusal::BufferShort));
    assert_eq!(&short, b".......");
    let mut buf = *b"..........";
    assert_eq!(comma::write(&tally, &mut buf), Ok(8));
    assert_eq!(&buf, b"3,98.00\n..");
}

#[test]
fn a_written_list_comes_back_as_held() {
    for attribute in [0, 1, 2] {
        let mut tally = opened_with(attribute, 65_535);
        for at in 0..200 {
            tally.enter(65_535 - 300 * at, (at * 301) % 10_001).expect("it has a place");
        }
        let list = comma::text(&tally);
        assert!(list.len() <= comma::LONGEST_WRITTEN);
        let mut back = opened_with(attribute, 65_535);
        assert_eq!(comma::enter(&mut back, &list), Ok(()));
        assert_eq!(back, tally);
    }
}

const SHEET: &str = "01000028\n020A0A0190\n0500032648\n0601\n";

/// What a call on a sheet answers, and the sheet after it.
fn after(call: impl Fn(&mut [u8]) -> Result<usize, Refused>) -> Result<String, u64> {
    let mut buf = [b'.'; 100];
    match call(&mut buf) {
        Ok(length) => {
            assert!(buf[length..].iter().all(|&byte| byte == b'.'));
            Ok(String::from_utf8_lossy(&buf[..length]).into_owned())
        }
        Err(refused) => {
            assert_eq!(buf, [b'.'; 100]);
            Err(refused.code())
        }
    }
}

#[test]
fn calls_on_a_sheet_take_numbers_of_32_bits() {
    let sheet = SHEET.as_bytes();
    let enter = |container, x| after(|buf| on_sheet::enter(sheet, container, x, buf));
    assert_eq!(enter(1, 10_000).unwrap(), "01000028\n020A0A0190\n0500012710\n0500032648\n0602\n");
    for (container, x, number) in [
        (0, 0, 6),
        (41, 10_001, 6),
        (65_536, 0, 6),
        (65_537, 0, 6),
        (u32::MAX, u32::MAX, 6),
        (3, 10_001, 7),
        (1, 65_536, 7),
        (1, 65_537, 7),
        (1, u32::MAX, 7),
        (3, 0, 8),
    ] {
        assert_eq!(enter(container, x), Err(number), "{container} {x}");
    }
    let withdraw = |container| after(|buf| on_sheet::withdraw(sheet, container, buf));
    assert_eq!(withdraw(3).unwrap(), "01000028\n020A0A0190\n0600\n");
    for container in [0, 1, 41, 65_535, 65_536, 65_539, 3 + (1 << 31), u32::MAX] {
        assert_eq!(withdraw(container), Err(10), "{container}");
    }
}

#[test]
fn a_list_on_a_sheet_tells_file_and_line() {
    let list =
        |sheet: &str, list: &str| after(|buf| on_sheet::enter_list(sheet.as_bytes(), list.as_bytes(), buf));
    let two = "01000028\n020A0A0190\n0500020FA0\n0500032648\n0602\n";
    assert_eq!(list(SHEET, "2,40\n").unwrap(), two);
    assert_eq!(list(SHEET, "").unwrap(), SHEET);
    assert_eq!(list(SHEET, "2,40\n3,40\n"), Err(8 + (2 << 8) + (2 << 16)));
    assert_eq!(list(SHEET, "2,40"), Err(20 + (2 << 8) + (1 << 16)));
    // The sheet's fault comes first, and a short buffer last.
    let faulty = SHEET.replace("0601", "0602");
    assert_eq!(list(&faulty, "2,40"), Err(14 + (1 << 8) + (4 << 16)));
    assert_eq!(list("", "2,40\n"), Err(2 + (1 << 8) + (1 << 16)));
    let mut short = [b'.'; 45];
    let refused = Err(Refused::Call(Refusal::BufferShort));
    assert_eq!(on_sheet::enter_list(SHEET.as_bytes(), b"2,40\n", &mut short), refused);
    assert_eq!(short, [b'.'; 45]);
    let bad = Fault { refusal: Refusal::BadListLine, line: 1 };
    let refused = Err(Refused::Line(File::List, bad));
    assert_eq!(on_sheet::enter_list(SHEET.as_bytes(), b"2,040\n", &mut []), refused);
}

#[test]
fn lotenter_prints_the_sheet_or_where_it_is_refused() {
    let print = |sheet: &str, list: &str| on_sheet::lotenter(sheet.as_bytes(), list.as_bytes());
    assert_eq!(print(SHEET, ""), SHEET);
    assert_eq!(print(SHEET, "2,40.01\n"), "01000028\n020A0A0190\n0500020FA1\n0500032648\n0602\n");
    assert_eq!(print(SHEET, "2,40\n3,40\n"), "REFUSED 8 2 2\n");
    assert_eq!(print("", ""), "REFUSED 2 1 1\n");
    assert_eq!(print("", "bad"), "REFUSED 2 1 1\n");
    // A weighed result is written as 05.
    let weighed = "01000028\n020A0A0190\n070003003F8000003F800000\n0601\n";
    assert_eq!(print(weighed, ""), "01000028\n020A0A0190\n0500031388\n0601\n");
}

/// A list of so many bytes: a good line, and one of digits that ends with the list.
fn long_list(length: usize) -> String {
    format!("2,40\n{},5\n", "1".repeat(length - 8))
}

#[test]
fn lotenter_reads_65_536_bytes_of_a_list() {
    let print = |list: &str| on_sheet::lotenter(SHEET.as_bytes(), list.as_bytes());
    assert_eq!(long_list(100).len(), 100);
    assert_eq!(print(&long_list(LIST_READ - 1)), "REFUSED 6 2 2\n");
    // The last byte that is read ends the line.
    assert_eq!(print(&long_list(LIST_READ)), "REFUSED 6 2 2\n");
    assert_eq!(print(&long_list(LIST_READ + 1)), USAGE);
    assert_eq!(print(&(long_list(LIST_READ) + "x")), "REFUSED 6 2 2\n");
    // Without its end a line is bad where the list is read wholly, and else nobody can tell.
    assert_eq!(print(&"1".repeat(LIST_READ - 1)), "REFUSED 20 2 1\n");
    assert_eq!(print(&"1".repeat(LIST_READ)), USAGE);
    assert_eq!(print(&format!("2,40\n3,1\n{}", "1".repeat(LIST_READ))), "REFUSED 8 2 2\n");
    assert_eq!(on_sheet::lotenter(b"", &vec![b'1'; LIST_READ]), "REFUSED 2 1 1\n");
}

#[test]
fn lotlist_prints_the_list_or_where_the_sheet_is_refused() {
    assert_eq!(on_sheet::lotlist(SHEET.as_bytes()), "3,98.00\n");
    assert_eq!(on_sheet::lotlist(b"01000028\n020A0A0190\n0600\n"), "");
    assert_eq!(on_sheet::lotlist(b""), "REFUSED 2 1\n");
    assert_eq!(on_sheet::lotlist(SHEET.replace("0601", "0602").as_bytes()), "REFUSED 14 4\n");
    assert!(sheet::printed(SHEET.as_bytes()).starts_with("REFUSED 15 4"));
}
