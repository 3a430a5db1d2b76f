//! Calls each function of gelvorin.h and prints what it answers.

extern "C" {
    fn gelvorin_samples(containers: u32, kilograms: u32) -> u64;
    fn gelvorin_label(labelled: u32, found: u32) -> u64;
    fn gelvorin_pair(first: u32, second: u32) -> u64;
    fn gelvorin_mixing(results: *const u32, count: usize, tolerated: u32) -> u64;
    fn gelvorin_tenths(bits: u32) -> u64;
    fn gelvorin_weighed(status: u32, component: u32, remainder: u32) -> u64;
    fn gelvorin_judge(sheet: *const u8, length: usize, buffer: *mut u8, size: usize) -> u64;
    fn gelvorin_rewrite(sheet: *const u8, length: usize, buffer: *mut u8, size: usize) -> u64;
    fn gelvorin_enter(
        sheet: *const u8,
        length: usize,
        container: u32,
        x: u32,
        buffer: *mut u8,
        size: usize,
    ) -> u64;
    fn gelvorin_withdraw(
        sheet: *const u8,
        length: usize,
        container: u32,
        buffer: *mut u8,
        size: usize,
    ) -> u64;
    fn gelvorin_enter_list(
        sheet: *const u8,
        length: usize,
        list: *const u8,
        list_length: usize,
        buffer: *mut u8,
        size: usize,
    ) -> u64;
}

/// What is added to a refusal's number.
const REFUSED: u64 = 1 << 32;

/// The bytes of the longest sheet that is written.
const SHEET_ROOM: usize = 5429;

/// The parts of a refusal: its number, and the file and the line of a fault in a sheet or a list.
fn number(answer: u64) -> u64 {
    answer & 0xFF
}

fn file(answer: u64) -> u64 {
    answer >> 8 & 0xFF
}

fn line(answer: u64) -> u64 {
    answer >> 16 & 0xFFFF
}

fn samples(containers: u32, kilograms: u32) -> u64 {
    // SAFETY: the call may be made with any numbers.
    unsafe { gelvorin_samples(containers, kilograms) }
}

fn label(labelled: u32, found: u32) -> u64 {
    // SAFETY: the call may be made with any numbers.
    unsafe { gelvorin_label(labelled, found) }
}

fn pair(first: u32, second: u32) -> u64 {
    // SAFETY: the call may be made with any numbers.
    unsafe { gelvorin_pair(first, second) }
}

fn mixing(results: &[u32], tolerated: u32) -> u64 {
    // SAFETY: pointer and length are those of a slice that lives until the call returns.
    unsafe { gelvorin_mixing(results.as_ptr(), results.len(), tolerated) }
}

fn tenths(grams: f32) -> u64 {
    // SAFETY: the call may be made with any number.
    unsafe { gelvorin_tenths(grams.to_bits()) }
}

fn weighed(status: u32, component: f32, remainder: f32) -> u64 {
    // SAFETY: the call may be made with any numbers.
    unsafe { gelvorin_weighed(status, component.to_bits(), remainder.to_bits()) }
}

fn judge(sheet: &[u8], buffer: &mut [u8]) -> u64 {
    // SAFETY: pointers and lengths are those of slices that live until the call returns, and do not overlap.
    unsafe { gelvorin_judge(sheet.as_ptr(), sheet.len(), buffer.as_mut_ptr(), buffer.len()) }
}

fn rewrite(sheet: &[u8], buffer: &mut [u8]) -> u64 {
    // SAFETY: pointers and lengths are those of slices that live until the call returns, and do not overlap.
    unsafe { gelvorin_rewrite(sheet.as_ptr(), sheet.len(), buffer.as_mut_ptr(), buffer.len()) }
}

fn enter(sheet: &[u8], container: u32, x: u32, buffer: &mut [u8]) -> u64 {
    // SAFETY: pointers and lengths are those of slices that live until the call returns, and do not overlap.
    unsafe { gelvorin_enter(sheet.as_ptr(), sheet.len(), container, x, buffer.as_mut_ptr(), buffer.len()) }
}

fn withdraw(sheet: &[u8], container: u32, buffer: &mut [u8]) -> u64 {
    // SAFETY: pointers and lengths are those of slices that live until the call returns, and do not overlap.
    unsafe { gelvorin_withdraw(sheet.as_ptr(), sheet.len(), container, buffer.as_mut_ptr(), buffer.len()) }
}

fn enter_list(sheet: &[u8], list: &[u8], buffer: &mut [u8]) -> u64 {
    let (length, size) = (sheet.len(), buffer.len());
    // SAFETY: pointers and lengths are those of slices that live until the call returns, and do not overlap.
    unsafe {
        gelvorin_enter_list(sheet.as_ptr(), length, list.as_ptr(), list.len(), buffer.as_mut_ptr(), size)
    }
}

/// A sheet whose results do not stand in the order of their containers; one is weighed.
const SHEET: &str = "01000028
020A0A03E8
0305009B
040509264800C8
0700280042C4000040000000
0500032648
05000C26AC
05000825E4
0500112648
0605
";

fn print(call: &str, answer: u64) {
    if answer < REFUSED {
        println!("{call}: {answer}");
    } else if file(answer) == 0 {
        println!("{call}: refused with {}", number(answer));
    } else {
        println!("{call}: refused with {} at file {}, line {}", number(answer), file(answer), line(answer));
    }
}

/// Calls with a buffer of so many bytes, and prints the text where there is one.
fn print_text(call: &str, function: impl Fn(&[u8], &mut [u8]) -> u64, sheet: &str, size: usize) {
    let mut buffer = vec![0; size];
    let answer = function(sheet.as_bytes(), &mut buffer);

    print(call, answer);
    if answer < REFUSED {
        print!("{}", String::from_utf8_lossy(&buffer[..answer as usize]));
    }
}

fn main() {
    let results = [9800, 9700, 9900];

    print("samples of 20 containers of 1001 kg", samples(20, 1001));
    print("samples of no container", samples(0, 50));
    print("label 4, found 7", label(4, 7));
    print("label 4, found 9", label(4, 9));
    print("label 101", label(101, 0));
    print("tests of 4 and 10", pair(4, 10));
    print("tests of 0 and 6", pair(0, 6));
    print("tests of 502 and 502", pair(502, 502));
    print("mixing within 2.00", mixing(&results, 200));
    print("mixing within 1.99", mixing(&results, 199));
    print("mixing of one lot", mixing(&results[..1], 200));
    print("weight of 1/32 g", tenths(1.0 / 32.0));
    print("weight of minus zero", tenths(-0.0));
    print("98 g and 2 g, steady", weighed(0, 98.0, 2.0));
    print("98 g and 2 g, unsteady", weighed(1, 98.0, 2.0));
    print("nothing weighed", weighed(0, 0.0, 0.0));
    print_text("the sheet judged", judge, SHEET, SHEET_ROOM);
    print_text("the sheet judged into 40 bytes", judge, SHEET, 40);
    print_text("the first 40 bytes of the sheet judged", judge, &SHEET[..40], SHEET_ROOM);
    print_text("the sheet written back", rewrite, SHEET, SHEET_ROOM);
    print_text("the sheet written back into 40 bytes", rewrite, SHEET, 40);
    print_text("the first 40 bytes of the sheet written back", rewrite, &SHEET[..40], SHEET_ROOM);
    let in_2 = |sheet: &[u8], buffer: &mut [u8]| enter(sheet, 2, 9850, buffer);
    print_text("98.50 entered for container 2", in_2, SHEET, SHEET_ROOM);
    let in_41 = |sheet: &[u8], buffer: &mut [u8]| enter(sheet, 41, 9850, buffer);
    print_text("98.50 entered for container 41", in_41, SHEET, SHEET_ROOM);
    print_text("98.50 entered into 40 bytes", in_2, SHEET, 40);
    print_text("98.50 entered on the first 40 bytes", in_2, &SHEET[..40], SHEET_ROOM);
    let out_12 = |sheet: &[u8], buffer: &mut [u8]| withdraw(sheet, 12, buffer);
    print_text("container 12 withdrawn", out_12, SHEET, SHEET_ROOM);
    let out_13 = |sheet: &[u8], buffer: &mut [u8]| withdraw(sheet, 13, buffer);
    print_text("container 13 withdrawn", out_13, SHEET, SHEET_ROOM);
    print_text("container 12 withdrawn into 40 bytes", out_12, SHEET, 40);
    print_text("container 12 withdrawn from the first 40 bytes", out_12, &SHEET[..40], SHEET_ROOM);
    let list = |list: &'static str| {
        move |sheet: &[u8], buffer: &mut [u8]| enter_list(sheet, list.as_bytes(), buffer)
    };
    print_text("a list entered", list("2,98.5\n1,100\n"), SHEET, SHEET_ROOM);
    print_text("a list with a bad line", list("2,98.5\n1,.5\n"), SHEET, SHEET_ROOM);
    print_text("a list with a container twice", list("2,98.5\n4,97\n2,98.5\n"), SHEET, SHEET_ROOM);
    print_text("a list entered into 40 bytes", list("2,98.5\n"), SHEET, 40);
    print_text("a list entered on the first 40 bytes", list("2,98.5\n"), &SHEET[..40], SHEET_ROOM);
}
