//! Balance frames: bits to tenths of a milligram, shares, the order of the checks and the longest sheet.
//! The numbers of the bits are worked out by hand.

use compare::card::{Card, Lot};
use compare::prng::Prng;
use compare::refusal::Refusal;
use compare::sheet::{self, LONGEST_READ, LONGEST_WRITTEN};
use compare::tally::{Held, Tally};
use compare::weights::{self, Weighing};

const BAD: Result<u32, Refusal> = Err(Refusal::BadWeight);

fn steady(component: u32, remainder: u32) -> Weighing {
    Weighing { status: 0, component, remainder }
}

#[track_caller]
fn weigh_as(cases: &[(u32, Result<u32, Refusal>)]) {
    for (bits, expected) in cases {
        assert_eq!(weights::tenths(*bits), *expected, "{bits:08X}");
    }
}

#[test]
fn the_least_numbers_weigh_nothing() {
    weigh_as(&[
        (0x0000_0000, Ok(0)), // zero
        (0x0000_0001, Ok(0)), // 2^-149, the least subnormal number
        (0x007F_FFFF, Ok(0)), // the largest one
        (0x0080_0000, Ok(0)), // 2^-126, the least normal number
        (0x1580_0000, Ok(0)), // 2^-84: 107 places, within 128 bits
        (0x0B00_0000, Ok(0)), // 2^-105: 128 places, just past them
        (0x0A80_0000, Ok(0)), // 2^-106: 129 places
        (0x3800_0000, Ok(0)), // 2^-15: 10000 / 32768 = 0.305..
        (0x3880_0000, Ok(1)), // 2^-14: 10000 / 16384 = 0.610..
    ]);
}

/// 0xD1B717 = 13743895 of 2^-38 g: 137438950000 of 2^-38 tenths, where half a tenth is 2^37 = 137438953472.
#[test]
fn half_of_the_first_tenth() {
    weigh_as(&[
        (0x3851_B716, Ok(0)),
        (0x3851_B717, Ok(0)),
        (0x3851_B718, Ok(1)), // 137438960000
        (0x38D1_B717, Ok(1)), // 0.99999997..
        (0x391D_4951, Ok(1)), // the last below one and a half: 0x9D4951 = 10307921, 103079210000 < 1.5 * 2^36
        (0x391D_4952, Ok(2)), // 103079220000 > 103079215104
    ]);
}

/// 10000 = 16 * 625, so that an odd number of 1/32 g, and nothing else, is a whole number of tenths and a half.
#[test]
fn halves_go_up() {
    weigh_as(&[
        (0x3CFF_FFFF, Ok(312)),
        (0x3D00_0000, Ok(313)), // 1/32 g: 312.5
        (0x3D00_0001, Ok(313)),
        (0x3DBF_FFFF, Ok(937)),
        (0x3DC0_0000, Ok(938)), // 3/32 g: 937.5
        (0x3F7F_FFFF, Ok(10_000)),
        (0x3F83_FFFF, Ok(10_312)),
        (0x3F84_0000, Ok(10_313)), // 1 + 1/32 g: 10312.5
        (0x4479_FDFF, Ok(9_999_687)),
        (0x4479_FE00, Ok(9_999_688)), // 1000 - 1/32 g: 9999687.5
    ]);
}

#[test]
fn ordinary_weights() {
    weigh_as(&[
        (0x3DCC_CCCD, Ok(1_000)),     // 0.1 g and a little
        (0x3F80_0000, Ok(10_000)),    // 1 g
        (0x3F80_0001, Ok(10_000)),    // and 2^-23 g
        (0x3FC0_0000, Ok(15_000)),    // 1.5 g
        (0x42C8_0000, Ok(1_000_000)), // 100 g
        (0x4380_0000, Ok(2_560_000)), // 256 g
    ]);
}

#[test]
fn the_limit_is_on_the_exact_weight() {
    weigh_as(&[
        (0x4479_FFFF, Ok(9_999_999)), // 1000 - 2^-14 g: 9999999.39
        (0x447A_0000, Ok(10_000_000)),
        (0x447A_0001, BAD), // 1000 + 2^-14 g, which rounds to 10000001 tenths
        (0x447A_3FFF, BAD), // the last below 1001 g
        (0x447A_4000, BAD),
        (0x4480_0000, BAD), // 1024 g
        (0x4AFF_FFFF, BAD), // 8388607.5 g: one place
        (0x4B00_0000, BAD), // 2^23 g: none
        (0x4B80_0000, BAD),
        (0x7F7F_FFFF, BAD), // the largest finite number
    ]);
}

#[test]
fn no_finite_number_and_no_sign() {
    for bits in [0x7F80_0000, 0x7F80_0001, 0x7FC0_0000, 0x7FFF_FFFF, 0xFF80_0000, 0xFFFF_FFFF] {
        assert_eq!(weights::tenths(bits), BAD, "{bits:08X}");
    }
    // Minus zero has a sign bit, and so have those that would round to zero.
    for bits in [0x8000_0000, 0x8000_0001, 0x807F_FFFF, 0xB800_0000, 0xBF80_0000, 0xC47A_0000] {
        assert_eq!(weights::tenths(bits), BAD, "{bits:08X}");
    }
}

/// The product of 24 and 14 bits is exact in a double, and so is the half added to it wherever it decides.
#[test]
fn a_double_agrees() {
    let mut prng = Prng::new(1);
    for _ in 0..2_000_000 {
        let bits = prng.below(0x447A_0001) as u32;
        let tenths = (f64::from(f32::from_bits(bits)) * 10_000.0 + 0.5).floor();
        assert_eq!(weights::tenths(bits), Ok(tenths as u32), "{bits:08X}");
    }
}

#[test]
fn shares_of_the_rounded_weights() {
    let one = 0x3F80_0000;
    let least = 0x3851_B718; // one tenth
    let nearly = 0x3851_B717; // none
    for (component, remainder, x) in [
        (one, one, Ok(5_000)),
        (one, 0, Ok(10_000)),
        (0, one, Ok(0)),
        (least, 0, Ok(10_000)),
        (least, nearly, Ok(10_000)),
        (nearly, least, Ok(0)),
        (least, least, Ok(5_000)),
        (0x447A_0000, 0x447A_0000, Ok(5_000)),
        // 10000 of 30000 and 20000 of 30000 tenths: 3333.3 and 6666.7.
        (one, 0x4000_0000, Ok(3_333)),
        (0x4000_0000, one, Ok(6_667)),
        (0, 0, Err(Refusal::BadWeight)),
        (nearly, nearly, Err(Refusal::BadWeight)),
        (0x007F_FFFF, 0, Err(Refusal::BadWeight)),
        (1 << 31, one, Err(Refusal::BadWeight)),
        (one, 1 << 31, Err(Refusal::BadWeight)),
        (0x447A_0001, one, Err(Refusal::BadWeight)),
        (one, 0x7FC0_0000, Err(Refusal::BadWeight)),
    ] {
        assert_eq!(steady(component, remainder).x(), x, "{component:08X} {remainder:08X}");
    }
}

/// Two grams are 20000 tenths, so that an odd number of them is a whole number of hundredths and a half.
#[test]
fn half_a_hundredth_goes_up() {
    let tenth = 0x38D1_B717;
    let but_a_tenth = 0x3FFF_FCB9; // 1.9999 g
    assert_eq!((weights::tenths(tenth), weights::tenths(but_a_tenth)), (Ok(1), Ok(19_999)));
    assert_eq!(steady(tenth, but_a_tenth).x(), Ok(1)); // 0.5
    assert_eq!(steady(but_a_tenth, tenth).x(), Ok(10_000)); // 9999.5
    assert_eq!(steady(tenth, 0x4000_0000).x(), Ok(0)); // 1 of 20001
}

#[test]
fn weights_that_are_not_steady_are_not_looked_at() {
    for status in [1, 2, 3, 255, 256, u32::MAX] {
        for bits in [0x3F80_0000, 0x7FC0_0000, 1 << 31] {
            let weighing = Weighing { status, component: bits, remainder: bits };
            assert_eq!(weighing.x(), Err(Refusal::NotSteady));
        }
    }
}

fn opened(attribute: u16, containers: u16) -> Tally {
    let seeds = if attribute == 2 { 0 } else { 1_000 };
    let mut tally = Tally::fresh();
    let card = Card { factor: 10, offset: 10, seeds, ..Card::default() };
    tally.open(&Lot { attribute, containers }, &card).expect("a good lot and card");
    tally
}

#[test]
fn a_weigh_answers_in_its_order() {
    let unsteady = Weighing { status: 1, component: 1 << 31, remainder: 0 };
    let bad = steady(1 << 31, 0);
    let good = steady(0x3F80_0000, 0x4000_0000);
    assert_eq!(Tally::fresh().weigh(1, &unsteady), Err(Refusal::NoSuchContainer));
    for attribute in [1, 2] {
        assert_eq!(opened(attribute, 5).weigh(0, &unsteady), Err(Refusal::OutOfTurn));
        assert_eq!(opened(attribute, 5).weigh(1, &good), Err(Refusal::OutOfTurn));
    }
    let mut tally = opened(0, 300);
    for container in 1..=199 {
        assert_eq!(tally.enter(container, 0), Ok(()));
    }
    assert_eq!(tally.weigh(0, &unsteady), Err(Refusal::NoSuchContainer));
    assert_eq!(tally.weigh(301, &unsteady), Err(Refusal::NoSuchContainer));
    assert_eq!(tally.weigh(199, &unsteady), Err(Refusal::AlreadyHeld));
    assert_eq!(tally.weigh(200, &unsteady), Err(Refusal::NotSteady));
    assert_eq!(tally.weigh(200, &bad), Err(Refusal::BadWeight));
    assert_eq!(tally.weigh(200, &good), Ok(()));
    assert_eq!(tally.held()[199], Held { container: 200, x: 3_333 });
    assert_eq!(tally.weigh(200, &unsteady), Err(Refusal::AlreadyHeld));
    assert_eq!(tally.weigh(201, &unsteady), Err(Refusal::Full));
    assert_eq!(tally.withdraw(200), Ok(()));
    assert_eq!(tally.weigh(201, &good), Ok(()));
}

/// What lotreport prints for the given lines behind lot and card.
fn printed(attribute: u16, lines: &[&str]) -> String {
    let seeds = if attribute == 2 { "0000" } else { "03E8" };
    let head = format!("01{attribute:02X}0028\n020A0A{seeds}\n");
    sheet::printed(lines.iter().fold(head, |sheet, line| sheet + line + "\n").as_bytes())
}

const GOOD: &str = "070001003F8000003F800000";

#[test]
fn a_frame_of_a_weighing_stands_among_the_results() {
    let others: Vec<String> =
        (2..=5).map(|container| format!("07{container:04X}003F8000003F800000")).collect();
    let [two, three, four, five] = [0, 1, 2, 3].map(|place| others[place].as_str());
    let report = "N 5\nMEAN 50.00=\nH 0.00- none open\nR 0.00 none open\nLOT open\n";
    assert_eq!(printed(0, &[GOOD, two, three, four, five, "0605"]), report);
    assert_eq!(printed(0, &["0500011388", two, "0500031388", four, five, "0605"]), report);
    assert_eq!(printed(0, &[GOOD, "0605"]), "REFUSED 14 4\n");
    assert_eq!(printed(0, &[GOOD, "0600"]), "REFUSED 14 4\n");
    assert_eq!(printed(0, &[GOOD, "0601"]), "REFUSED 15 4\n");
    // Behind a result of either kind no card frame may stand, and behind the end no result.
    assert_eq!(printed(0, &[GOOD, "0305009B"]), "REFUSED 2 4\n");
    assert_eq!(printed(0, &[GOOD, "040509264800C8"]), "REFUSED 2 4\n");
    assert_eq!(printed(0, &["0600", GOOD]), "REFUSED 2 4\n");
    assert_eq!(sheet::printed(format!("{GOOD}\n").as_bytes()), "REFUSED 2 1\n");
    assert_eq!(sheet::printed(format!("01000028\n{GOOD}\n").as_bytes()), "REFUSED 2 2\n");
}

#[test]
fn a_frame_of_a_weighing_is_judged_in_its_order() {
    let refused = |lines: &[&str]| printed(0, lines);
    for attribute in [1, 2] {
        assert_eq!(printed(attribute, &[GOOD]), "REFUSED 2 3\n");
        assert_eq!(printed(attribute, &["070000FF8000000080000000"]), "REFUSED 2 3\n");
        assert_eq!(printed(attribute, &["070000FF800000008000000"]), "REFUSED 1 3\n");
    }
    assert_eq!(refused(&["070000FF8000000080000000"]), "REFUSED 6 3\n");
    assert_eq!(refused(&["070029FF8000000080000000"]), "REFUSED 6 3\n");
    assert_eq!(refused(&[GOOD, "070001FF8000000080000000"]), "REFUSED 8 4\n");
    assert_eq!(refused(&["070001FF8000000080000000"]), "REFUSED 18 3\n");
    assert_eq!(refused(&["070001013F8000003F800000"]), "REFUSED 18 3\n");
    assert_eq!(refused(&["070001008000000080000000"]), "REFUSED 19 3\n");
    assert_eq!(refused(&["070001000000000000000000"]), "REFUSED 19 3\n");
    assert_eq!(refused(&["07000100000000000000000"]), "REFUSED 1 3\n");
    assert_eq!(refused(&["0700010000000000000000000"]), "REFUSED 1 3\n");
    assert_eq!(refused(&["07000100000000000000000a"]), "REFUSED 1 3\n");
}

/// The largest card and 200 weighed results, which are written back as results.
#[test]
fn the_longest_sheet_is_read() {
    let mut head = String::from("0100FFFF\n0232320001\n");
    for n in 5..=200 {
        head += &format!("03{n:02X}FFFF\n");
    }
    head += &"0405C82710FFFF\n".repeat(96);
    let lines = |kind: &str, fields: &str| -> String {
        (1..=200).map(|container| format!("{kind}{container:04X}{fields}\n")).collect()
    };
    let weighed = head.clone() + &lines("07", "004479FFFF007FFFFF") + "06C8\n";
    let entered = head + &lines("05", "2710") + "06C8\n";
    assert_eq!((weighed.len(), entered.len()), (LONGEST_READ, LONGEST_WRITTEN));
    assert_eq!(LONGEST_READ, 8_229);
    let read = sheet::read(weighed.as_bytes()).expect("a good sheet");
    assert_eq!(sheet::text(&read.tally), Ok(entered.clone().into_bytes()));
    let mut buf = [0; LONGEST_WRITTEN];
    assert_eq!(sheet::rewrite(weighed.as_bytes(), &mut buf), Ok(LONGEST_WRITTEN));
    assert_eq!(buf, entered.as_bytes());
    // A 201st is 9, whatever it weighs.
    let more = weighed.replace("06C8\n", "07FFFFFF8000000080000000\n06C8\n");
    assert_eq!(sheet::printed(more.as_bytes()), "REFUSED 9 495\n");
}
