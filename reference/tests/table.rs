use reference::table::{AC, CK, Coded, REQUIRED, ROWS, Scaled, field, fields, place_on_card};

/// Number, name, highest coded value, base, bits, as the requirements list them.
const LISTED: [(usize, &str, u64, i64, usize); 46] = [
    (1, "BOX10", 648, 0, 10),
    (2, "YEAR", 255, 1799, 8),
    (3, "MONTH", 12, 0, 4),
    (4, "DAY", 31, 0, 5),
    (5, "HOUR", 24, -1, 5),
    (6, "X", 3600, -1, 12),
    (7, "Y", 1801, -901, 11),
    (8, "XYI", 4, -1, 3),
    (9, "CD", 1000, -1, 10),
    (10, "SID", 255, -1, 8),
    (11, "ST", 8, -1, 4),
    (12, "QI", 3, -1, 2),
    (13, "DS", 6, -1, 3),
    (14, "DC", 3, -1, 2),
    (15, "TC", 2, -1, 3),
    (16, "PB", 3, -1, 2),
    (17, "DI", 6, -1, 3),
    (18, "D", 362, 0, 9),
    (19, "WI", 4, -1, 4),
    (20, "W", 1023, -1, 10),
    (21, "VI", 3, -1, 2),
    (22, "VB", 10, 89, 4),
    (23, "PW", 100, -1, 7),
    (24, "W1", 10, -1, 4),
    (25, "W2", 10, -1, 4),
    (26, "P", 2047, 8699, 11),
    (27, "TI", 6, -1, 4),
    (28, "A", 1999, -1000, 11),
    (29, "WB", 1999, -1000, 11),
    (30, "DPT", 1999, -1000, 11),
    (31, "S", 1999, -1000, 11),
    (32, "BI", 3, -1, 4),
    (33, "C", 10, -1, 4),
    (34, "NH", 10, -1, 4),
    (35, "CL", 11, -1, 4),
    (36, "HI", 2, -1, 2),
    (37, "H", 11, -1, 4),
    (38, "CM", 11, -1, 4),
    (39, "CH", 11, -1, 4),
    (40, "WD", 39, -1, 6),
    (41, "WP", 31, -1, 5),
    (42, "WH", 100, -1, 7),
    (43, "SD", 39, -1, 6),
    (44, "SP", 31, -1, 5),
    (45, "SH", 100, -1, 7),
    (46, "A6", 2, -1, 2),
];

#[test]
fn tables_agree_with_the_papers_list() {
    let derived: Vec<_> = fields()
        .iter()
        .map(|field| {
            (
                field.number,
                field.name,
                field.highest,
                field.base,
                field.bits,
            )
        })
        .collect();
    assert_eq!(derived, LISTED);
}

#[test]
fn true_values_base_and_codes_agree() {
    for row in ROWS {
        let Some(scale) = row.scale else { continue };
        assert_eq!(scale.coded.0, 1, "{}", row.name);
        assert_eq!(scale.true_value.0 - scale.base, 1, "{}", row.name);
        assert_eq!(
            scale.true_value.1 - scale.base,
            scale.coded.1 as i64,
            "{}",
            row.name
        );
        assert!(scale.coded.1 < 1 << row.bits, "{}", row.name);
    }
}

#[test]
fn sections_add_up_as_the_tables_say() {
    let bits = |rows: &[reference::table::Row]| rows.iter().map(|row| row.bits).sum::<usize>();
    assert_eq!(bits(&ROWS[..17]), 108);
    assert_eq!(bits(&ROWS[17..47]), 174);
    assert_eq!(bits(&ROWS[47..]), 18);
    assert_eq!(bits(&ROWS), 300);
    for (index, row) in ROWS.iter().enumerate() {
        assert_eq!(row.number, index);
    }
}

#[test]
fn places_on_the_card() {
    assert_eq!(place_on_card(0), 0..16);
    assert_eq!(place_on_card(1), 16..26);
    assert_eq!(place_on_card(17), 108..111);
    assert_eq!(place_on_card(31), 203..214);
    assert_eq!(place_on_card(46), 280..282);
    assert_eq!(place_on_card(CK), 282..296);
    assert_eq!(place_on_card(AC), 296..300);
}

#[test]
fn required_fields_are_box10_year_month_x_and_y() {
    let names = REQUIRED.map(|number| ROWS[number].name);
    assert_eq!(names, ["BOX10", "YEAR", "MONTH", "X", "Y"]);
}

#[test]
fn field_numbers_are_1_to_46() {
    for number in [0, 47, 48, 255, 257, u64::MAX, (1 << 32) + 1] {
        assert_eq!(field(number), None);
    }
    for number in 1..=46 {
        assert_eq!(field(number).unwrap().number as u64, number);
    }
}

#[test]
fn values_cross_by_the_base_and_no_further() {
    for field in fields() {
        let (base, highest) = (field.base, field.highest as i64);
        assert_eq!(field.coded(Scaled(base)), None);
        assert_eq!(field.coded(Scaled(base + 1)), Some(Coded(1)));
        assert_eq!(
            field.coded(Scaled(base + highest)),
            Some(Coded(field.highest))
        );
        assert_eq!(field.coded(Scaled(base + highest + 1)), None);
        assert_eq!(field.coded(Scaled(i64::MIN)), None);
        assert_eq!(field.coded(Scaled(i64::MAX)), None);
        assert_eq!(field.scaled(Coded(0)), None);
        assert_eq!(field.scaled(Coded(1)), Some(Scaled(base + 1)));
    }
}
