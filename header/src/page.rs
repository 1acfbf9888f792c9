//! The tables of fields and of indicators in docs/FORMAT.md beside those of the definitions.
use std::collections::BTreeMap;

/// A row of either table: the field's number and name, its range, base, highest code, bits and first bit.
fn row(field: &str, range: &str, rest: [&str; 4]) -> String {
    let [base, highest, bits, first] = rest;
    format!("{field}: {range}, base {base}, highest {highest}, {bits} bits from {first}")
}

/// `pos 1799`, or `minus 1`.
fn base(words: &str) -> i64 {
    let (sign, number) = words.split_once(' ').expect("a base");
    let number: i64 = number.parse().expect("a base");
    match sign {
        "pos" => number,
        "minus" => -number,
        other => panic!("a base is pos or minus, not {other}"),
    }
}

/// The rows of the definitions, each `    field 255 (pos 1799) 8 ∷  -- 2 YEAR`. RPTIN's 16 bits come before them.
pub fn defined(table: &str) -> Vec<String> {
    let mut first = 16;
    let mut rows = Vec::new();
    for line in table
        .lines()
        .filter_map(|line| line.strip_prefix("    field "))
    {
        let (numbers, field) = line
            .split_once(" ∷  -- ")
            .expect("a field's number and name");
        let (highest, numbers) = numbers.split_once(" (").expect("the highest code");
        let (words, bits) = numbers.split_once(") ").expect("a base and bits");
        let low = base(words) + 1;
        let high = base(words) + highest.parse::<i64>().expect("the highest code");
        let at = first.to_string();
        let rest = [&base(words).to_string()[..], highest, bits, &at];
        rows.push(row(field, &format!("{low} to {high}"), rest));
        first += bits.parse::<u64>().expect("bits");
    }
    rows
}

/// The rows of the page for fields 1 to 46, each `| 2 | YEAR | year | | 1800 to 2054 | 1799 | 255 | 8 | 26 |`.
pub fn written(page: &str) -> Vec<String> {
    let mut rows = Vec::new();
    for line in page.lines() {
        let cells: Vec<&str> = line.split('|').map(str::trim).collect();
        if let [_, number, name, _, _, range, base, highest, bits, first, _] = cells[..]
            && !base.is_empty()
            && number.parse::<u64>().is_ok()
        {
            rows.push(row(
                &format!("{number} {name}"),
                range,
                [base, highest, bits, first],
            ));
        }
    }
    rows
}

/// A row of either table of indicators: names, and the numbers of their fields.
fn indicator(name: &str, field: &str, data: &str, fields: &str) -> String {
    format!("{name}, field {field}: {data}, fields {fields}")
}

/// The names of the fields by their numbers, from the definitions.
fn names(table: &str) -> BTreeMap<&str, &str> {
    let rows = table.lines().filter(|line| line.starts_with("    field "));
    let said = rows.filter_map(|line| line.split_once("-- "));
    said.filter_map(|(_, said)| said.split_once(' ')).collect()
}

/// The rows of the definitions, each `    indicator 27 (28 ∷ 31 ∷ []) ∷  -- TI on A, S`. What is said behind them is not read:
/// the names are those of the field table.
pub fn defined_indicators(indicators: &str, table: &str) -> Vec<String> {
    let names = names(table);
    let name = |number: &str| *names.get(number).expect("a field of the table");
    let rows = indicators.lines();
    let rows = rows.filter_map(|line| line.strip_prefix("    indicator "));
    rows.map(|line| {
        let (field, rest) = line.split_once(" (").expect("an indicator's field");
        let (data, _) = rest.split_once(" ∷ [])").expect("its data");
        let data: Vec<&str> = data.split(" ∷ ").collect();
        let named: Vec<&str> = data.iter().map(|&number| name(number)).collect();
        indicator(name(field), field, &named.join(", "), &data.join(", "))
    })
    .collect()
}

/// The rows of the page, each `| TI | 27 | A, S | 28, 31 |`, in its section on indicators.
pub fn written_indicators(page: &str) -> Vec<String> {
    let from = page
        .lines()
        .skip_while(|line| !line.starts_with("### 2.5 "));
    let section = from.skip(1).take_while(|line| !line.starts_with('#'));
    let mut rows = Vec::new();
    for line in section {
        let cells: Vec<&str> = line.split('|').map(str::trim).collect();
        if let [_, name, field, data, fields, _] = cells[..]
            && field.parse::<u64>().is_ok()
        {
            rows.push(indicator(name, field, data, fields));
        }
    }
    rows
}

#[cfg(test)]
mod tests {
    use super::*;

    const TABLE: &str =
        "    field 648 (pos 0) 10 ∷  -- 1 BOX10\n    field 24 (minus 1) 5 ∷  -- 2 HOUR\n    []\n";
    const INDICATORS: &str = "indicators =\n    indicator 2 (1 ∷ []) ∷  -- HOUR on BOX10\n\
        \x20   indicator 1 (1 ∷ 2 ∷ []) ∷  -- BOX10 on both\n    []\n";
    const PAGE: &str = "| # | field | what | unit | range | base | highest | bits | first |\n|---|---|---|---|---|---|---|---|---|\n\
        | 0 | RPTIN | kept | | | | | 16 | 0 |\n\
        | 1 | BOX10 | 10° box | | 1 to 648 | 0 | 648 | 10 | 16 |\n| 2 | HOUR | hour | | 0 to 23 | -1 | 24 | 5 | 26 |\n";
    const SECTION: &str = "| an entry | 7 | id | 9 |\n### 2.5 Indicators\n\n| indicator | its field | its data | their fields |\n|---|---|---|---|\n\
        | HOUR | 2 | BOX10 | 1 |\n| BOX10 | 1 | BOX10, HOUR | 1, 2 |\n\n## 3. Another\n\n| a call | 7 | id | 9 |\n";

    #[test]
    fn the_same() {
        assert_eq!(written(PAGE), defined(TABLE));
        assert_eq!(defined(TABLE).len(), 2);
    }

    #[test]
    fn each_change_is_seen() {
        for (old, new) in [
            ("1 | BOX10", "1 | BOX"),
            ("1 | BOX10", "3 | BOX10"),
            ("1 to 648", "0 to 648"),
            ("0 to 23 | -1", "0 to 23 | 1"),
            ("| 24 |", "| 23 |"),
            ("| 5 | 26", "| 4 | 26"),
            ("| 5 | 26", "| 5 | 27"),
        ] {
            assert_eq!(PAGE.matches(old).count(), 1, "{old}");
            assert_ne!(written(&PAGE.replace(old, new)), defined(TABLE), "{old}");
        }
    }

    #[test]
    fn the_same_indicators() {
        let defined = defined_indicators(INDICATORS, TABLE);
        assert_eq!(written_indicators(SECTION), defined);
        assert_eq!(defined.len(), 2);
    }

    #[test]
    fn each_change_of_an_indicator_is_seen() {
        let defined = defined_indicators(INDICATORS, TABLE);
        for (old, new) in [
            ("| HOUR | 2 | BOX10 | 1 |", "| HOURS | 2 | BOX10 | 1 |"),
            ("| HOUR | 2 | BOX10 | 1 |", "| HOUR | 3 | BOX10 | 1 |"),
            ("| HOUR | 2 | BOX10 | 1 |", "| HOUR | 2 | HOUR | 1 |"),
            ("| HOUR | 2 | BOX10 | 1 |", "| HOUR | 2 | BOX10 | 2 |"),
            ("| HOUR | 2 | BOX10 | 1 |\n", ""),
            ("BOX10, HOUR | 1, 2", "HOUR, BOX10 | 2, 1"),
            ("BOX10, HOUR | 1, 2", "BOX10 | 1"),
            ("### 2.5 ", "### 2.6 "),
        ] {
            assert_eq!(SECTION.matches(old).count(), 1, "{old}");
            let changed = written_indicators(&SECTION.replace(old, new));
            assert_ne!(changed, defined, "{new}");
        }
        for (old, new) in [
            ("2 (1 ∷ [])", "1 (1 ∷ [])"),
            ("2 (1 ∷ [])", "2 (2 ∷ [])"),
            ("(1 ∷ 2 ∷ [])", "(1 ∷ [])"),
            ("    []", "    indicator 2 (2 ∷ []) ∷\n    []"),
        ] {
            assert_eq!(INDICATORS.matches(old).count(), 1, "{old}");
            let changed = defined_indicators(&INDICATORS.replace(old, new), TABLE);
            assert_ne!(written_indicators(SECTION), changed, "{new}");
        }
    }
}
