//! The marks behind MEAN and H, worked out by hand: `=`, `+` and `-` for an exact number that equals the printed one, is larger, is
//! smaller.

use compare::sheet;

/// The lines MEAN and H of a sheet's report are these, and N, R and LOT have no mark.
#[track_caller]
fn prints(attribute: u16, card: &str, xs: &[u16], mean: &str, h: &str) {
    let results: Vec<String> =
        (1..).zip(xs).map(|(container, x)| format!("05{container:04X}{x:04X}\n")).collect();
    let sheet = format!("01{attribute:02X}0028\n{card}{}06{:02X}\n", results.concat(), xs.len());
    let text = sheet::printed(sheet.as_bytes());
    let lines: Vec<&str> = text.lines().collect();
    assert_eq!((lines[1], lines[2]), (mean, h));
    for unmarked in [lines[0], lines[3], lines[4]] {
        assert!(!unmarked.contains(['=', '+', '-']), "{unmarked}");
    }
}

/// F = G = 10, and n = 1000 seeds or a count; no critical value and no row.
const PERCENT: &str = "020A0A03E8\n";
const COUNT: &str = "020A0A0000\n";

#[test]
fn the_mean() {
    prints(0, PERCENT, &[9800, 9800, 9800, 9800, 9800], "MEAN 98.00=", "H 0.00- none open");
    prints(0, PERCENT, &[9800, 9700, 9900, 9800, 9802], "MEAN 98.00+", "H 1.56- none open"); // 98.004
    prints(0, PERCENT, &[9800, 9700, 9900, 9800, 9803], "MEAN 98.01-", "H 1.56- none open"); // 98.006
    prints(1, PERCENT, &[9800, 9700, 9900, 9800, 9803, 9800], "MEAN 98.01-", "H 1.05- none open"); // 98.005: half
    prints(2, COUNT, &[10, 10, 10, 10, 10, 11], "MEAN 10.2-", "H 0.00- none open"); // 10.1666..
    prints(2, COUNT, &[10, 10, 10, 10, 10, 12], "MEAN 10.3+", "H 0.00- none open"); // 10.3333..
}

#[test]
fn the_mean_where_void() {
    prints(0, PERCENT, &[9980, 9981, 9980, 9980, 9980], "MEAN 99.80+", "H void");
    prints(0, PERCENT, &[20, 19, 20, 20, 20], "MEAN 0.20-", "H void");
    prints(2, COUNT, &[1, 1, 1, 1, 1], "MEAN 1.0=", "H void");
}

#[test]
fn h_against_its_critical_value() {
    let xs = [9800, 9700, 9900, 9800, 9800]; // exact H is 1.55102..
    prints(0, "020A0A03E8\n0305009B\n", &xs, "MEAN 98.00=", "H 1.55+ 1.55 over");
    prints(0, "020A0A03E8\n0305009C\n", &xs, "MEAN 98.00=", "H 1.55+ 1.56 kept");
    prints(0, "020B0B03E8\n0305007A\n", &xs, "MEAN 98.00=", "H 1.22- 1.22 kept"); // 1.2191..
    let xs = [0, 0, 0, 0, 10]; // V/W is 100 / F
    prints(2, "020A0A0000\n03050384\n", &xs, "MEAN 2.0=", "H 9.00= 9.00 kept");
    prints(2, "0220000000\n03050138\n", &xs, "MEAN 2.0=", "H 3.13- 3.12 over"); // 3.125
    prints(2, "0220000000\n03050139\n", &xs, "MEAN 2.0=", "H 3.13- 3.13 kept");
}

/// V/W of 4 2 2 2 0 is 10 / F.
#[test]
fn h_at_zero_and_below() {
    let xs = [4, 2, 2, 2, 0];
    prints(2, "020A0A0000\n03050000\n", &xs, "MEAN 2.0=", "H 0.00= 0.00 kept");
    prints(2, "020A0B0000\n03050000\n", &xs, "MEAN 2.0=", "H 0.00- 0.00 kept"); // -0.1
    prints(2, "020B090000\n03050001\n", &xs, "MEAN 2.0=", "H 0.01- 0.01 kept"); // 0.00909..
    prints(2, "020B0A0000\n03050000\n", &xs, "MEAN 2.0=", "H 0.00- 0.00 kept"); // V/W prints 0.91, and is less
    prints(2, "020C0A0000\n03050000\n", &xs, "MEAN 2.0=", "H 0.00- 0.00 kept"); // V/W prints 0.83, and is more
}
