//! What crates/lmr5_c exports, over the structs of crates/lmr5, in C's words.
use crate::Declared;
use std::collections::BTreeMap;

/// The text without its line comments.
fn plain(text: &str) -> String {
    text.lines()
        .map(|line| line.split("//").next().unwrap_or(""))
        .collect::<Vec<_>>()
        .join("\n")
}

fn number(name: &str) -> String {
    match name {
        "u8" => "uint8_t",
        "u16" => "uint16_t",
        "u32" => "uint32_t",
        "u64" => "uint64_t",
        "i64" => "int64_t",
        "usize" => "size_t",
        "Answer" => "lmr5_answer",
        "Performed" => "lmr5_performed",
        "Symbol" => "lmr5_symbol",
        "FlagTable" => "lmr5_flag_table",
        other => panic!("crates/lmr5: the type {other} is not known here"),
    }
    .to_string()
}

/// C's struct for the five numbers of a reader.
const READER: &str = "lmr5_text_reader";

/// A parameter as C takes it: one, or for a slice a pointer and a length.
fn parameter(text: &str) -> Vec<String> {
    let (name, kind) = text.split_once(':').expect("a name and a type");
    let (name, kind) = (name.trim(), kind.trim());
    let Some(reference) = kind.strip_prefix('&') else {
        return vec![format!("{} {name}", number(kind))];
    };
    let (mark, inner) = match reference.strip_prefix("mut ") {
        Some(inner) => ("", inner),
        None => ("const ", reference),
    };
    let Some(inner) = inner.strip_prefix('[') else {
        return vec![format!("{mark}{} * {name}", number(inner))];
    };
    let inner = inner
        .strip_suffix(']')
        .expect("a slice's or an array's end");
    match inner.split_once(';') {
        Some(("u64", " 5")) if name == "reader" => vec![format!("{mark}{READER} * {name}")],
        Some((element, count)) => vec![format!(
            "{mark}{} {name} [ {} ]",
            number(element.trim()),
            count.trim()
        )],
        None => vec![
            format!("{mark}{} * {name}", number(inner)),
            format!("size_t {name}_length"),
        ],
    }
}

/// What a function answers, from behind its parameters; none is `void`.
fn result(text: &str) -> String {
    let Some(answer) = text.trim_start().strip_prefix("->") else {
        return "void".to_string();
    };
    number(answer.split_whitespace().next().expect("a result"))
}

fn functions(text: &str, declared: &mut Declared) {
    for part in text.split("#[unsafe(no_mangle)]").skip(1) {
        let rest = part
            .trim_start()
            .strip_prefix("pub extern \"C\" fn ")
            .expect("an exported function");
        let (name, rest) = rest.split_once('(').expect("parameters");
        let (parameters, rest) = rest.split_once(')').expect("the parameters' end");
        let mut words = vec![result(rest)];
        for text in parameters.split(',').filter(|text| !text.trim().is_empty()) {
            words.extend(parameter(text));
        }
        declared.functions.insert(name.to_string(), words);
    }
    assert_eq!(
        text.matches("extern \"C\" fn").count(),
        declared.functions.len(),
        "crates/lmr5_c: a function without #[unsafe(no_mangle)]"
    );
}

/// The text behind the lines of derived traits that it begins with.
fn underived(text: &str) -> &str {
    let text = text.trim_start();
    match text.strip_prefix("#[derive(") {
        Some(derived) => underived(derived.split_once(")]").expect("the traits' end").1),
        None => text,
    }
}

fn structs(text: &str, declared: &mut Declared) {
    for part in text.split("#[repr(C)]").skip(1) {
        let rest = underived(part)
            .strip_prefix("pub struct ")
            .expect("a struct");
        let (name, rest) = rest.split_once('{').expect("fields");
        let (fields, _) = rest.split_once('}').expect("the fields' end");
        let fields = fields.split(',').filter(|text| !text.trim().is_empty());
        let fields = fields.map(|text| parameter(text.trim().trim_start_matches("pub ")).concat());
        declared.structs.insert(
            format!("lmr5_{}", name.trim().to_lowercase()),
            fields.collect(),
        );
    }
}

/// The table of flags, which C takes as a struct: `pub type FlagTable = [[u8; 10]; 14];`.
fn flag_table(types: &str) -> Vec<String> {
    let found = types
        .lines()
        .find_map(|line| line.strip_prefix("pub type FlagTable = [["));
    let found = found.expect("the type of the table of flags");
    let (element, counts) = found.split_once("; ").expect("a row's length");
    let (columns, counts) = counts.split_once("]; ").expect("the number of rows");
    let (rows, _) = counts.split_once("];").expect("the type's end");
    vec![format!(
        "{} marks [ {rows} ] [ {columns} ]",
        number(element)
    )]
}

/// The name of what is stored, the last part of its path: `u64::from(given.present)` and `given.present as u64` are `present`.
fn stored_name(text: &str) -> &str {
    let text = text.trim();
    let text = text.strip_prefix("u64::from(").unwrap_or(text);
    let word = text.split([' ', ')', ';']).next().expect("what is stored");
    word.rsplit('.').next().expect("a name")
}

/// What is stored to a whole array, by places: `*reader = [opening.at as u64, 0];` is `at` and `0`.
fn whole<'a>(text: &'a str, array: &str) -> Vec<&'a str> {
    let start = format!("*{array} = [");
    let Some((_, rest)) = text.split_once(&start) else {
        return Vec::new();
    };
    let (items, _) = rest.split_once("];").expect("the array's end");
    let items = items.split(',').filter(|text| !text.trim().is_empty());
    items.map(stored_name).collect()
}

/// What is stored to single places of an array: `reader[0] = step.at as u64;` is 0 and `at`.
fn stores<'a>(text: &'a str, array: &str) -> Vec<(usize, &'a str)> {
    let start = format!("{array}[");
    let parts = text.split(&start).skip(1);
    let stores = parts.filter_map(|part| part.split_once("] = "));
    stores
        .filter_map(|(place, rest)| Some((place.parse().ok()?, stored_name(rest))))
        .collect()
}

/// The numbers of a reader, which C takes as a struct. Where 0 is stored, another store says what the number is.
fn text_reader(text: &str) -> Vec<String> {
    let mut names = BTreeMap::new();
    let all = whole(text, "reader").into_iter().enumerate();
    for (place, stored) in all.chain(stores(text, "reader")) {
        let name = match stored {
            "at" => "place",
            "number" => "refusal",
            "place" => "refusal_place",
            "0" => continue,
            name => name,
        };
        let before = names.insert(place, name);
        assert!(
            before.is_none_or(|before| before == name),
            "crates/lmr5: number {place} of a reader has two names"
        );
    }
    assert!(
        names.keys().copied().eq(0..5),
        "crates/lmr5: a reader has five numbers"
    );
    let names = names.values();
    names.map(|name| format!("uint64_t {name}")).collect()
}

/// The entries of the field table, by the comment at each: its number and name.
fn fields(table: &str) -> Vec<String> {
    let rows = table.lines().filter(|line| line.starts_with("    field "));
    rows.map(|line| {
        let (_, said) = line.split_once("--").expect("a field's number and name");
        let (number, name) = said
            .trim()
            .split_once(' ')
            .expect("a field's number and name");
        format!("LMR5_{name} = {number}")
    })
    .collect()
}

/// The places to which the contents are stored: `*contents = [given.word, ..];`.
fn contents(text: &str) -> Vec<String> {
    let stored = whole(text, "contents").into_iter().enumerate();
    stored
        .map(|(place, name)| format!("LMR5_CONTENTS_{} = {place}", name.to_uppercase()))
        .collect()
}

/// `set_field` as `SET_FIELD`.
fn upper(name: &str) -> String {
    assert!(
        !name.contains(|c: char| c.is_uppercase()),
        "{name} is not in snake case"
    );
    name.to_ascii_uppercase()
}

/// A header's name and its number.
type Named = (String, u64);

/// The number that a definition begins with: `2 ∷ ..`, or `0; ..`.
fn first_number(text: &str) -> u64 {
    let word = text.split([' ', ';']).next().unwrap_or("");
    word.parse()
        .unwrap_or_else(|_| panic!("a number, not {text}"))
}

/// By ascending numbers, in C's words; the definitions may stand in another order.
fn ascending(mut all: Vec<Named>) -> Vec<String> {
    all.sort_by_key(|(_, number)| *number);
    all.iter()
        .map(|(name, number)| format!("{name} = {number}"))
        .collect()
}

/// The kinds of a script's entries: `script_entry (edits (set_field k v)) = 2 ∷ ..`. The header has `DROP` for `remove`.
fn kinds(script: &str) -> Vec<Named> {
    let lines = script
        .lines()
        .filter_map(|line| line.strip_prefix("script_entry ("));
    lines
        .map(|line| {
            let (entry, bytes) = line.split_once(" = ").expect("an entry's bytes");
            let (_, call) = entry.split_once('(').expect("a call in parentheses");
            let name = match call.split([' ', ')']).next().expect("a call") {
                "remove" => "DROP".to_string(),
                name => upper(name),
            };
            (format!("LMR5_SCRIPT_{name}"), first_number(bytes))
        })
        .collect()
}

/// The number that a definition gives for a shape: `head_of (refused r) = 0 ∷ ..`.
fn by_shape(text: &str, shape: &str, name: &str) -> Named {
    let start = format!("{shape} = ");
    let found = text.lines().find_map(|line| line.strip_prefix(&start));
    let found = found.unwrap_or_else(|| panic!("{start}is not found"));
    (name.to_string(), first_number(found))
}

/// The first byte of a record.
fn logged(script: &str) -> Vec<Named> {
    vec![
        by_shape(script, "head_of (refused r)", "LMR5_LOG_REFUSED"),
        by_shape(script, "head_of (accepted gs)", "LMR5_LOG_ACCEPTED"),
    ]
}

/// The numbers that a definition gives by name: `quantity_label count = 3`.
fn by_name(text: &str, definition: &str, start: &str) -> Vec<Named> {
    let lines = text.lines().filter_map(|line| {
        let line = line.strip_prefix(definition)?.strip_prefix(' ')?;
        line.split_once(" = ")
    });
    lines
        .map(|(name, number)| (format!("{start}_{}", upper(name)), first_number(number)))
        .collect()
}

/// The labels of numbers; of no number, and of one that is missing.
fn labels(text: &str) -> Vec<Named> {
    let mut all = by_name(text, "quantity_label", "LMR5_GIVEN");
    all.push(by_shape(text, "labels []", "LMR5_GIVEN_NOTHING"));
    all.push(by_shape(text, "missing_label", "LMR5_GIVEN_MISSING"));
    all
}

/// The marks of origin.
fn origins(text: &str) -> Vec<Named> {
    vec![
        by_shape(text, "origin_of (plain b)", "LMR5_ORIGIN_PLAIN"),
        by_shape(text, "origin_of (original b)", "LMR5_ORIGIN_ORIGINAL"),
    ]
}

/// The kind of a step's symbol: `symbol_of_step None = record { kind = 0; ..`.
fn kind_of<'a>(readers: &'a str, shape: &str) -> &'a str {
    let start = format!("symbol_of_step {shape} = record {{ kind = ");
    let found = readers.lines().find_map(|line| line.strip_prefix(&start));
    found.unwrap_or_else(|| panic!("{start}is not found"))
}

/// The kinds of symbols: the end's, and those of plain and original ones, which are so much more than the marks.
fn symbol_kinds(readers: &str, text: &str) -> Vec<Named> {
    let end = first_number(kind_of(readers, "None"));
    let mut all = vec![("LMR5_SYMBOL_END".to_string(), end)];
    let given = kind_of(readers, "(Some s)");
    let more = given
        .strip_prefix("mark s.origin + ")
        .expect("a mark and so much more");
    for (name, origin) in origins(text) {
        let name = name.replace("ORIGIN_", "SYMBOL_");
        all.push((name, origin + first_number(more)));
    }
    all
}

/// The bound of a report's size: `(n ≤ 1853)`.
fn longest(sizes: &str) -> Vec<String> {
    let (_, rest) = sizes.split_once("(n ≤ ").expect("the bound of a size");
    let (bound, _) = rest.split_once(')').expect("the bound of a size");
    vec![format!("LMR5_LONGEST_REPORT = {bound}")]
}

/// How many indicators there are, each a line `    indicator 17 (18 ∷ []) ∷  -- DI on D`.
fn indicators(definitions: &str) -> Vec<String> {
    let rows = definitions.lines();
    let count = rows
        .filter(|line| line.starts_with("    indicator "))
        .count();
    vec![format!("LMR5_INDICATORS = {count}")]
}

/// The texts that the header has to agree with.
pub struct Sources<'a> {
    pub exports: &'a str,
    pub library: &'a str,
    pub types: &'a str,
    pub table: &'a str,
    pub indicators: &'a str,
    pub script: &'a str,
    pub labels: &'a str,
    pub text: &'a str,
    pub readers: &'a str,
    pub sizes: &'a str,
}

pub fn declared(sources: &Sources) -> Declared {
    let text = plain(&[sources.exports, sources.library].join("\n"));
    let mut declared = Declared::default();
    functions(&text, &mut declared);
    structs(&text, &mut declared);
    declared
        .structs
        .insert(number("FlagTable"), flag_table(sources.types));
    declared
        .structs
        .insert(READER.to_string(), text_reader(&text));
    let enums = [
        ("lmr5_field", fields(sources.table)),
        ("lmr5_contents", contents(&text)),
        ("lmr5_script", ascending(kinds(sources.script))),
        ("lmr5_log", ascending(logged(sources.script))),
        ("lmr5_given", ascending(labels(sources.labels))),
        ("lmr5_origin", ascending(origins(sources.text))),
        (
            "lmr5_set",
            ascending(by_name(sources.text, "set_number", "LMR5_SET")),
        ),
        (
            "lmr5_symbol_kind",
            ascending(symbol_kinds(sources.readers, sources.text)),
        ),
        ("lmr5_longest", longest(sources.sizes)),
        ("lmr5_indicators", indicators(sources.indicators)),
    ];
    for (name, numbers) in enums {
        declared.enums.insert(name.to_string(), numbers);
    }
    declared
}
