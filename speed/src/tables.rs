//! The tables of second/tables.txt, read while compiling, so that the programs need no file.

pub const FIRST: u32 = 360;
pub const LAST: u32 = 830;
pub const WAVELENGTHS: usize = (LAST - FIRST + 1) as usize;

/// A whole number for each nanometre from 360 to 830: weights at 10^13 to one, illuminants at 10^5.
pub type Table = [u64; WAVELENGTHS];

/// The wavelength and the tables.
const COLUMNS: usize = 12;

const TEXT: &str = include_str!(concat!(env!("CARGO_MANIFEST_DIR"), "/../second/tables.txt"));

static ALL: [Table; COLUMNS] = read(TEXT.as_bytes());

pub static X: Table = ALL[1];
pub static Y: Table = ALL[2];
pub static Z: Table = ALL[3];
pub static X10: Table = ALL[4];
pub static Y10: Table = ALL[5];
pub static Z10: Table = ALL[6];
pub static V_PRIME: Table = ALL[7];
pub static A: Table = ALL[8];
pub static D65: Table = ALL[9];
pub static V_F: Table = ALL[10];
pub static V_F10: Table = ALL[11];

/// The value of a curve at 555.017 nm, by straight line between 555 and 556, at 10^16 to one.
pub fn at_reference(curve: &Table) -> u128 {
    let at = |wavelength: u32| u128::from(curve[(wavelength - FIRST) as usize]);
    983 * at(555) + 17 * at(556)
}

/// Reads lines of whole numbers with one space between; lines that begin with # are remarks.
const fn read(text: &[u8]) -> [Table; COLUMNS] {
    let mut all = [[0; WAVELENGTHS]; COLUMNS];
    let (mut row, mut column, mut at) = (0, 0, 0);
    while at < text.len() {
        match text[at] {
            b'#' => {
                while text[at] != b'\n' {
                    at += 1;
                }
            }
            b' ' => column += 1,
            b'\n' => {
                assert!(column == COLUMNS - 1, "a number for each column");
                assert!(
                    all[0][row] == FIRST as u64 + row as u64,
                    "the rows in order"
                );
                (row, column) = (row + 1, 0);
            }
            digit => {
                assert!(digit.is_ascii_digit(), "only digits");
                all[column][row] = 10 * all[column][row] + (digit - b'0') as u64;
            }
        }
        at += 1;
    }
    assert!(row == WAVELENGTHS, "a row for each wavelength");
    all
}
