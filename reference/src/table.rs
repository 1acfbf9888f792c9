//! Tables F0-1, F0-2 and F0-3 of the source (supplement F of COADS Release 1), and what is derived from them.

/// A value as stored on the card; 0 is missing.
#[derive(Clone, Copy, Debug, PartialEq, Eq)]
pub struct Coded(pub u64);

/// A true value, counted in the field's units.
#[derive(Clone, Copy, Debug, PartialEq, Eq)]
pub struct Scaled(pub i64);

/// The columns true value (in units), base and coded; lowest and highest.
#[derive(Clone, Copy, Debug)]
pub struct Scale {
    pub true_value: (i64, i64),
    pub base: i64,
    pub coded: (u64, u64),
}

/// A line of the tables; the scale is absent where the tables say n/a.
#[derive(Clone, Copy, Debug)]
pub struct Row {
    pub number: usize,
    pub name: &'static str,
    pub scale: Option<Scale>,
    pub bits: usize,
}

const fn plain(number: usize, name: &'static str, bits: usize) -> Row {
    Row {
        number,
        name,
        scale: None,
        bits,
    }
}

const fn row(
    number: usize,
    name: &'static str,
    true_value: (i64, i64),
    base: i64,
    coded: (u64, u64),
    bits: usize,
) -> Row {
    Row {
        number,
        name,
        scale: Some(Scale {
            true_value,
            base,
            coded,
        }),
        bits,
    }
}

pub const ROWS: [Row; 49] = [
    // Table F0-1, location section.
    plain(0, "RPTIN", 16),
    row(1, "BOX10", (1, 648), 0, (1, 648), 10),
    row(2, "YEAR", (1800, 2054), 1799, (1, 255), 8),
    row(3, "MONTH", (1, 12), 0, (1, 12), 4),
    row(4, "DAY", (1, 31), 0, (1, 31), 5),
    row(5, "HOUR", (0, 23), -1, (1, 24), 5),
    row(6, "X", (0, 3599), -1, (1, 3600), 12),
    row(7, "Y", (-900, 900), -901, (1, 1801), 11),
    row(8, "XYI", (0, 3), -1, (1, 4), 3),
    row(9, "CD", (0, 999), -1, (1, 1000), 10),
    row(10, "SID", (0, 254), -1, (1, 255), 8),
    row(11, "ST", (0, 7), -1, (1, 8), 4),
    row(12, "QI", (0, 2), -1, (1, 3), 2),
    row(13, "DS", (0, 5), -1, (1, 6), 3),
    row(14, "DC", (0, 2), -1, (1, 3), 2),
    row(15, "TC", (0, 1), -1, (1, 2), 3),
    row(16, "PB", (0, 2), -1, (1, 3), 2),
    // Table F0-2, regular section.
    row(17, "DI", (0, 5), -1, (1, 6), 3),
    row(18, "D", (1, 362), 0, (1, 362), 9),
    row(19, "WI", (0, 3), -1, (1, 4), 4),
    row(20, "W", (0, 1022), -1, (1, 1023), 10),
    row(21, "VI", (0, 2), -1, (1, 3), 2),
    row(22, "VB", (90, 99), 89, (1, 10), 4),
    row(23, "PW", (0, 99), -1, (1, 100), 7),
    row(24, "W1", (0, 9), -1, (1, 10), 4),
    row(25, "W2", (0, 9), -1, (1, 10), 4),
    row(26, "P", (8700, 10746), 8699, (1, 2047), 11),
    row(27, "TI", (0, 5), -1, (1, 6), 4),
    row(28, "A", (-999, 999), -1000, (1, 1999), 11),
    row(29, "WB", (-999, 999), -1000, (1, 1999), 11),
    row(30, "DPT", (-999, 999), -1000, (1, 1999), 11),
    row(31, "S", (-999, 999), -1000, (1, 1999), 11),
    row(32, "BI", (0, 2), -1, (1, 3), 4),
    row(33, "C", (0, 9), -1, (1, 10), 4),
    row(34, "NH", (0, 9), -1, (1, 10), 4),
    row(35, "CL", (0, 10), -1, (1, 11), 4),
    row(36, "HI", (0, 1), -1, (1, 2), 2),
    row(37, "H", (0, 10), -1, (1, 11), 4),
    row(38, "CM", (0, 10), -1, (1, 11), 4),
    row(39, "CH", (0, 10), -1, (1, 11), 4),
    row(40, "WD", (0, 38), -1, (1, 39), 6),
    row(41, "WP", (0, 30), -1, (1, 31), 5),
    row(42, "WH", (0, 99), -1, (1, 100), 7),
    row(43, "SD", (0, 38), -1, (1, 39), 6),
    row(44, "SP", (0, 30), -1, (1, 31), 5),
    row(45, "SH", (0, 99), -1, (1, 100), 7),
    row(46, "A6", (0, 1), -1, (1, 2), 2),
    // Table F0-3, control section.
    plain(47, "CK", 14),
    row(48, "AC", (1, 15), 0, (1, 15), 4),
];

pub const FIELDS: usize = 46;
pub const RPTIN: usize = 0;
pub const SID: usize = 10;
pub const CK: usize = 47;
pub const AC: usize = 48;

/// BOX10, YEAR, MONTH, X and Y.
pub const REQUIRED: [usize; 5] = [1, 2, 3, 6, 7];

/// The first bit of a line's place on the card and the bit after its last.
pub fn place_on_card(number: usize) -> std::ops::Range<usize> {
    let start = ROWS[..number].iter().map(|row| row.bits).sum();
    start..start + ROWS[number].bits
}

/// One of the fields 1 to 46.
#[derive(Clone, Copy, Debug, PartialEq, Eq)]
pub struct Field {
    pub number: usize,
    pub name: &'static str,
    pub base: i64,
    pub highest: u64,
    pub bits: usize,
}

impl Field {
    pub fn is_required(self) -> bool {
        REQUIRED.contains(&self.number)
    }

    pub fn lowest_value(self) -> Scaled {
        Scaled(self.base + 1)
    }

    pub fn highest_value(self) -> Scaled {
        Scaled(self.base + self.highest as i64)
    }

    /// The coded value, or none if the value is out of range.
    pub fn coded(self, value: Scaled) -> Option<Coded> {
        let range = self.lowest_value().0..=self.highest_value().0;
        range
            .contains(&value.0)
            .then(|| Coded((value.0 - self.base) as u64))
    }

    /// The scaled value of a code up to the highest, or none for missing.
    pub fn scaled(self, code: Coded) -> Option<Scaled> {
        (code.0 != 0).then(|| Scaled(code.0 as i64 + self.base))
    }
}

/// The fields 1 to 46, ascending.
pub fn fields() -> Vec<Field> {
    ROWS[1..=FIELDS]
        .iter()
        .map(|row| {
            let scale = row.scale.expect("fields 1 to 46 have a scale");
            Field {
                number: row.number,
                name: row.name,
                base: scale.base,
                highest: scale.coded.1,
                bits: row.bits,
            }
        })
        .collect()
}

/// The field of a number, or none if it is not 1 to 46.
pub fn field(number: u64) -> Option<Field> {
    fields()
        .into_iter()
        .find(|field| field.number as u64 == number)
}
