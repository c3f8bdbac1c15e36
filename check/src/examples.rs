//! Document 01's morning table, its deck runner's example, and the examples on 001's pages: each
//! is given to the library and to the model, so that both can't be wrong alike.

use crate::lib_under_test as library;
use crate::model::{Machine, Model, Stepped, Trace};

/// One step: what stands where before it, and what stands where after it.
struct Example {
    name: &'static str,
    before: Machine,
    storage: &'static [(usize, &'static [u8])],
    after: Machine,
    stored: &'static [(usize, &'static [u8])],
    number: u8,
}

/// A machine at 0100 with a status.
fn at(status: u8) -> Machine {
    Machine { iar: 0x0100, status, ..Machine::default() }
}

/// The same after an instruction of a length.
fn after(length: u16, status: u8) -> Machine {
    Machine { iar: 0x0100 + length, status, ..Machine::default() }
}

fn morning_table() -> Vec<Example> {
    let with = |m: Machine, xr1: u16| Machine { xr1, ..m };
    vec![
        Example {
            name: "01, case 1 (001, 3-6): ALC",
            before: with(at(0x01), 0x0CC0),
            storage: &[
                (0x0100, &[0x5E, 0x03, 0x00, 0x10]),
                (0x0CBD, &[0x35, 0xCB, 0xED, 0x64]),
                (0x0CCD, &[0x5B, 0x55, 0x78, 0xCD]),
            ],
            after: with(after(4, 0x02), 0x0CC0),
            stored: &[(0x0CBD, &[0x91, 0x21, 0x66, 0x31])],
            number: 0,
        },
        Example {
            name: "01, case 2: AZ F5 and D7",
            before: at(0x01),
            storage: &[(0x0100, &[0x06, 0x00, 0x02, 0x00, 0x03, 0x00]), (0x0200, &[0xF5]), (0x0300, &[0xD7])],
            after: after(6, 0x02),
            stored: &[(0x0200, &[0xD2])],
            number: 0,
        },
        Example {
            name: "01, case 3: AZ F9F9 and F1",
            before: at(0x02),
            storage: &[(0x0100, &[0x06, 0x10, 0x02, 0x01, 0x03, 0x00]), (0x0200, &[0xF9, 0xF9]), (0x0300, &[0xF1])],
            after: after(6, 0x09),
            stored: &[(0x0200, &[0xF0, 0xF0])],
            number: 0,
        },
        Example {
            name: "01, case 4: AZ D5 and D5",
            before: at(0x02),
            storage: &[(0x0100, &[0x06, 0x00, 0x02, 0x00, 0x03, 0x00]), (0x0200, &[0xD5]), (0x0300, &[0xD5])],
            after: after(6, 0x09),
            stored: &[(0x0200, &[0xF0])],
            number: 0,
        },
        Example {
            name: "01, case 5: ZAZ F1D2",
            before: at(0x01),
            storage: &[(0x0100, &[0x04, 0x21, 0x02, 0x03, 0x03, 0x01]), (0x0300, &[0xF1, 0xD2])],
            after: after(6, 0x02),
            stored: &[(0x0200, &[0xF0, 0xF0, 0xF1, 0xD2])],
            number: 0,
        },
        Example {
            name: "01, case 6: ZAZ D0",
            before: at(0x02),
            storage: &[(0x0100, &[0x04, 0x00, 0x02, 0x00, 0x03, 0x00]), (0x0300, &[0xD0])],
            after: after(6, 0x01),
            stored: &[(0x0200, &[0xF0])],
            number: 0,
        },
        Example {
            name: "01, case 7: MVC to 0102 from 0103",
            before: Machine { iar: 0, status: 1, ..Machine::default() },
            storage: &[(0, &[0x0C, 0x02, 0x01, 0x02, 0x01, 0x03]), (0x0100, &[0x11, 0x22, 0x33, 0x44])],
            after: Machine { iar: 6, status: 1, ..Machine::default() },
            stored: &[(0x0100, &[0x44, 0x44, 0x44, 0x44])],
            number: 0,
        },
        Example {
            name: "01, case 8: MVC to 0103 from 0102",
            before: Machine { iar: 0, status: 1, ..Machine::default() },
            storage: &[(0, &[0x0C, 0x02, 0x01, 0x03, 0x01, 0x02]), (0x0100, &[0x11, 0x22, 0x33, 0x44])],
            after: Machine { iar: 6, status: 1, ..Machine::default() },
            stored: &[(0x0100, &[0x11, 0x11, 0x22, 0x33])],
            number: 0,
        },
        Example {
            name: "01, case 9: ED",
            before: at(0x01),
            storage: &[
                (0x0100, &[0x0A, 0x04, 0x02, 0x04, 0x03, 0x03]),
                (0x0200, &[0x20, 0x20, 0x4B, 0x20, 0x20]),
                (0x0300, &[0xF0, 0xF1, 0xF2, 0xD3]),
            ],
            after: after(6, 0x02),
            stored: &[(0x0200, &[0xF0, 0xF1, 0x4B, 0xF2, 0xF3])],
            number: 0,
        },
        Example {
            name: "01, case 10: ITC",
            before: at(0x01),
            storage: &[
                (0x0100, &[0x0B, 0x03, 0x02, 0x00, 0x03, 0x00]),
                (0x0200, &[0xF0, 0xF0, 0xF4, 0xF0]),
                (0x0300, &[0x5C]),
            ],
            after: Machine { arr: 0x0202, ..after(6, 0x01) },
            stored: &[(0x0200, &[0x5C, 0x5C, 0xF4, 0xF0])],
            number: 0,
        },
        Example {
            name: "01, case 11: CLI",
            before: at(0x01),
            storage: &[(0x0100, &[0x3D, 0xF1, 0x02, 0x00]), (0x0200, &[0x40])],
            after: after(4, 0x02),
            stored: &[],
            number: 0,
        },
        Example {
            name: "01, case 12: L from 0000",
            before: at(0x01),
            storage: &[(0x0100, &[0x35, 0x01, 0x00, 0x00]), (0, &[0x12, 0x34])],
            after: at(0x01),
            stored: &[],
            number: 7,
        },
        Example {
            name: "01, case 12: L from 0001",
            before: at(0x01),
            storage: &[(0x0100, &[0x35, 0x01, 0x00, 0x01]), (0, &[0x12, 0x34])],
            after: with(after(4, 0x01), 0x1234),
            stored: &[],
            number: 0,
        },
    ]
}

fn pages() -> Vec<Example> {
    let xr2 = |m: Machine, xr2: u16| Machine { xr2, ..m };
    let arr = |m: Machine, arr: u16| Machine { arr, ..m };
    vec![
        Example {
            name: "001, 3-8: ALI",
            before: at(0x01),
            storage: &[(0x0100, &[0x3F, 0xF5, 0x00, 0x21]), (0x21, &[0x00])],
            after: after(4, 0x02),
            stored: &[(0x21, &[0x0B])],
            number: 0,
        },
        Example {
            name: "001, 3-12: A",
            before: xr2(at(0x01), 0x356A),
            storage: &[(0x0100, &[0x36, 0x02, 0x00, 0x04]), (0x03, &[0x48, 0x20])],
            after: xr2(after(4, 0x02), 0x7D8A),
            stored: &[],
            number: 0,
        },
        Example {
            name: "001, 3-18: BC",
            before: Machine { iar: 0x0BCC, ..at(0x19) },
            storage: &[(0x0BCC, &[0xC0, 0x88, 0x02, 0xBF])],
            after: Machine { iar: 0x02BF, arr: 0x0BD0, ..at(0x11) },
            stored: &[],
            number: 0,
        },
        Example {
            name: "001, 3-20: CLC",
            before: at(0x21),
            storage: &[
                (0x0100, &[0x0D, 0x02, 0x00, 0x12, 0x00, 0x02]),
                (0x10, &[0x27, 0xFA, 0x26]),
                (0x00, &[0x23, 0xFA, 0x26]),
            ],
            after: after(6, 0x24),
            stored: &[],
            number: 0,
        },
        Example {
            name: "001, 3-22: CLI",
            before: at(0x04),
            storage: &[(0x0100, &[0x3D, 0x7F, 0x00, 0x21]), (0x21, &[0x75])],
            after: after(4, 0x02),
            stored: &[],
            number: 0,
        },
        Example {
            name: "001, 3-25: ED",
            before: at(0x01),
            storage: &[
                (0x0100, &[0x0A, 0x0A, 0x00, 0xBF, 0x00, 0x07]),
                (0xB5, &[0x5C, 0x20, 0x6B, 0x20, 0x20, 0x20, 0x4B, 0x20, 0x20, 0x40, 0x5C]),
                (0x02, &[0xF0, 0xF1, 0xF0, 0xF8, 0xF0, 0xD9]),
            ],
            after: after(6, 0x02),
            stored: &[
                (0xB5, &[0x5C, 0xF0, 0x6B, 0xF1, 0xF0, 0xF8, 0x4B, 0xF0, 0xF9, 0x40, 0x5C]),
                (0x02, &[0xF0, 0xF1, 0xF0, 0xF8, 0xF0, 0xD9]),
            ],
            number: 0,
        },
        Example {
            name: "001, 3-27: ITC",
            before: at(0x01),
            storage: &[
                (0x0100, &[0x0B, 0x09, 0x00, 0xB6, 0x00, 0x10]),
                (0xB5, &[0x5C, 0xF0, 0x6B, 0xF1, 0xF0, 0xF8, 0x4B, 0xF0, 0xF9, 0x40, 0x5C]),
                (0x10, &[0x5C]),
            ],
            after: arr(after(6, 0x01), 0x00B8),
            stored: &[(0xB5, &[0x5C, 0x5C, 0x5C, 0xF1, 0xF0, 0xF8, 0x4B, 0xF0, 0xF9, 0x40, 0x5C])],
            number: 0,
        },
        Example {
            name: "001, 3-30: JC",
            before: Machine { iar: 0x0BBD, ..at(0x09) },
            storage: &[(0x0BBD, &[0xF2, 0x30, 0x0F])],
            after: Machine { iar: 0x0BCF, ..at(0x09) },
            stored: &[],
            number: 0,
        },
        Example {
            name: "001, 3-33: LA",
            before: Machine { xr1: 0x2A15, ..at(0x01) },
            storage: &[(0x0100, &[0xD2, 0x02, 0x05])],
            after: Machine { xr1: 0x2A15, xr2: 0x2A1A, ..after(3, 0x01) },
            stored: &[],
            number: 0,
        },
        Example {
            name: "001, 3-37: L",
            before: xr2(at(0x01), 0x0C31),
            storage: &[(0x0100, &[0x35, 0x02, 0x00, 0x11]), (0x10, &[0x00, 0x02])],
            after: xr2(after(4, 0x01), 0x0002),
            stored: &[],
            number: 0,
        },
        Example {
            name: "001, 3-39: MVC",
            before: at(0x01),
            storage: &[
                (0x0100, &[0x0C, 0x05, 0x1A, 0x06, 0x2B, 0x5A]),
                (0x1A01, &[0xD1, 0xC1, 0xD4, 0xC5, 0xE2, 0x40]),
                (0x2B55, &[0xD9, 0xD6, 0xC2, 0xC5, 0xD9, 0xE3]),
            ],
            after: after(6, 0x01),
            stored: &[(0x1A01, &[0xD9, 0xD6, 0xC2, 0xC5, 0xD9, 0xE3])],
            number: 0,
        },
        Example {
            name: "001, 3-41: MVX",
            before: Machine { xr1: 0x2B15, xr2: 0x1F20, ..at(0x01) },
            storage: &[(0x0100, &[0x98, 0x01, 0xA0, 0x65]), (0x1FC0, &[0x2F]), (0x2B7A, &[0x4C])],
            after: Machine { xr1: 0x2B15, xr2: 0x1F20, ..after(4, 0x01) },
            stored: &[(0x1FC0, &[0xCF]), (0x2B7A, &[0x4C])],
            number: 0,
        },
        Example {
            name: "001, 3-42: MVI",
            before: at(0x01),
            storage: &[(0x0100, &[0x3C, 0xAF, 0x2F, 0xCB])],
            after: after(4, 0x01),
            stored: &[(0x2FCB, &[0xAF])],
            number: 0,
        },
        Example {
            name: "001, 3-43: SBF",
            before: at(0x01),
            storage: &[(0x0100, &[0x3B, 0x81, 0x00, 0x30]), (0x30, &[0x79])],
            after: after(4, 0x01),
            stored: &[(0x30, &[0x78])],
            number: 0,
        },
        Example {
            name: "001, 3-44: SBN",
            before: at(0x01),
            storage: &[(0x0100, &[0x3A, 0x5A, 0x00, 0x20]), (0x20, &[0x0C])],
            after: after(4, 0x01),
            stored: &[(0x20, &[0x5E])],
            number: 0,
        },
        Example {
            name: "001, 3-47: ST",
            before: arr(at(0x01), 0x0ACD),
            storage: &[(0x0100, &[0x34, 0x08, 0x32, 0xBB]), (0x32BA, &[0x2F, 0xC2])],
            after: arr(after(4, 0x01), 0x0ACD),
            stored: &[(0x32BA, &[0x0A, 0xCD])],
            number: 0,
        },
        Example {
            name: "001, 3-50: S",
            before: xr2(at(0x01), 0x756A),
            storage: &[(0x0100, &[0x37, 0x02, 0x00, 0x04]), (0x03, &[0x48, 0x20])],
            after: xr2(after(4, 0x04), 0x2D4A),
            stored: &[],
            number: 0,
        },
        Example {
            // the page names XR1, but its opcode AF takes both displacements from XR2
            name: "001, 3-53: SLC",
            before: xr2(at(0x01), 0x0CC0),
            storage: &[
                (0x0100, &[0xAF, 0x03, 0x00, 0x10]),
                (0x0CBD, &[0x96, 0x5A, 0x77, 0xBF]),
                (0x0CCD, &[0x74, 0x86, 0x62, 0xA4]),
            ],
            // the page's difference is 21D4151B
            after: xr2(after(4, 0x04), 0x0CC0),
            stored: &[(0x0CBD, &[0x21, 0xD4, 0x15, 0x1B]), (0x0CCD, &[0x74, 0x86, 0x62, 0xA4])],
            number: 0,
        },
        Example {
            name: "001, 3-51: SLC of a smaller byte",
            before: at(0x01),
            storage: &[(0x0100, &[0x0F, 0x00, 0x02, 0x00, 0x03, 0x00]), (0x0200, &[0x6D]), (0x0300, &[0x7E])],
            after: after(6, 0x02),
            stored: &[(0x0200, &[0xEF])],
            number: 0,
        },
        Example {
            name: "001, 3-55: SLI",
            before: at(0x01),
            storage: &[(0x0100, &[0x3F, 0xF5, 0x00, 0x21]), (0x21, &[0x75])],
            after: after(4, 0x02),
            stored: &[(0x21, &[0x80])],
            number: 0,
        },
        Example {
            name: "001, 3-58: SZ",
            before: at(0x01),
            storage: &[
                (0x0100, &[0x07, 0x22, 0x00, 0x10, 0x00, 0x20]),
                (0x0C, &[0xF7, 0xF6, 0xF3, 0xF6, 0xF9]),
                (0x1E, &[0xF4, 0xF2, 0xF5]),
            ],
            after: after(6, 0x04),
            stored: &[(0x0C, &[0xF7, 0xF5, 0xF9, 0xF4, 0xF4]), (0x1E, &[0xF4, 0xF2, 0xF5])],
            number: 0,
        },
        Example {
            name: "001, 3-60: TBF",
            before: at(0x00),
            storage: &[(0x0100, &[0x39, 0x6C, 0x00, 0x25]), (0x25, &[0x94])],
            after: after(4, 0x10),
            stored: &[],
            number: 0,
        },
        Example {
            name: "001, 3-62: TBN",
            before: at(0x00),
            storage: &[(0x0100, &[0x38, 0x16, 0x00, 0x21]), (0x21, &[0x95])],
            after: after(4, 0x10),
            stored: &[],
            number: 0,
        },
        Example {
            name: "001, 3-66: ZAZ",
            before: at(0x01),
            storage: &[
                (0x0100, &[0x04, 0x22, 0x00, 0x10, 0x00, 0x20]),
                (0x0C, &[0xF7, 0xF6, 0xF3, 0xF6, 0xF9]),
                (0x1E, &[0xF4, 0xF2, 0xF5]),
            ],
            after: after(6, 0x04),
            stored: &[(0x0C, &[0xF0, 0xF0, 0xF4, 0xF2, 0xF5]), (0x1E, &[0xF4, 0xF2, 0xF5])],
            number: 0,
        },
    ]
}

/// Runs every example on both; answers how many there are.
pub fn check() -> Result<usize, String> {
    let mut examples = morning_table();
    examples.extend(pages());
    for example in &examples {
        let mut storage = vec![0; 0x4000];
        for (from, bytes) in example.storage {
            storage[*from..from + bytes.len()].copy_from_slice(bytes);
        }
        let mut stored = storage.clone();
        for (from, bytes) in example.stored {
            stored[*from..from + bytes.len()].copy_from_slice(bytes);
        }
        let expected = (Stepped { number: example.number, q: 0, r: 0 }, example.after, stored);
        let (mut m, mut bytes) = (example.before, storage.clone());
        let answer = Model::sound().step(&mut m, &mut bytes, &mut Trace::default());
        differs(example.name, "the model", &(answer, m, bytes), &expected)?;
        let (mut m, mut bytes) = (example.before, storage);
        let answer = library::step(&mut m, &mut bytes);
        differs(example.name, "the library", &(answer, m, bytes), &expected)?;
    }
    deck_runner_example()?;
    Ok(examples.len() + 1)
}

type Outcome = (Stepped, Machine, Vec<u8>);

fn differs(name: &str, whose: &str, got: &Outcome, expected: &Outcome) -> Result<(), String> {
    if got == expected {
        return Ok(());
    }
    let at = got.2.iter().zip(&expected.2).position(|(a, b)| a != b);
    Err(format!("{name}: {whose} answers {:?} {:X?}, first byte that differs {at:X?}", got.0, got.1))
}

/// "one page, IAR 0000, all registers 0000, status 01, page beginning 3C F1 00 10 F4 00 02 then
/// zeros, prints: 9 0004 .. 01 1 00 02"
fn deck_runner_example() -> Result<(), String> {
    let mut deck = vec![0; 19 + 258 + 1];
    deck[0] = 1;
    deck[18] = 1;
    deck[19] = 2;
    deck[21..28].copy_from_slice(&[0x3C, 0xF1, 0x00, 0x10, 0xF4, 0x00, 0x02]);
    deck[277] = 3;
    let (mut m, mut storage) = (Machine::default(), vec![0; 256]);
    let number = library::read(&mut m, &deck, &mut storage);
    let ended = library::run(&mut m, &mut storage, 1_000_000);
    let wanted = Machine { iar: 4, status: 1, ..Machine::default() };
    let same = number == 0 && m == wanted && storage[0x10] == 0xF1;
    if same && (ended.number, ended.q, ended.r, ended.steps) == (9, 0, 2, 1) {
        return Ok(());
    }
    Err(format!("the deck runner's example: read {number}, {ended:?} {m:X?}"))
}
