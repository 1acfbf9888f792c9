//! Compares include/lmr5.h with the functions that crates/lmr5_c exports and the structs of crates/lmr5, its table of flags with
//! the type of crates/format, its reader with what is stored to one, and its numbers with the definitions: fields, contents, kinds of a
//! script's entries, the log's first bytes, labels, marks of origin, sets of a deck, kinds of symbols, the longest report, how
//! many indicators there are. Sees that each refusal has its own words, and that the version was raised where a declaration
//! differs from the record in header/declarations. Compares the tables of fields and of indicators in docs/FORMAT.md with the
//! definitions. Says each difference, and fails if there is one.
//!
//! Its argument is the repository's folder. With a second one, `record`, it compares nothing else than the version, and writes
//! the record anew.
//!
//! refusals.c tries the numbers and the words of refusals, the numbers of flags, what is missing, indicators, the table of
//! flags, ship texts, their nibbles and their reader, the costliest texts, and the table of the characters.
mod code;
mod header;
mod page;
mod record;
mod words;

use code::Sources;
use header::Header;
use record::Record;
use std::collections::BTreeMap;
use std::process::ExitCode;

/// What one side declares: each function's result and parameters, each struct's fields, each enum's numbers, in C's words.
#[derive(Default)]
pub struct Declared {
    pub functions: BTreeMap<String, Vec<String>>,
    pub structs: BTreeMap<String, Vec<String>>,
    pub enums: BTreeMap<String, Vec<String>>,
}

/// What one list has and the other has not, or that only the order differs.
fn change(code: &[String], here: &[String]) -> String {
    let only = |a: &[String], b: &[String]| {
        a.iter()
            .filter(|x| !b.contains(x))
            .cloned()
            .collect::<Vec<_>>()
            .join(", ")
    };
    match (only(code, here), only(here, code)) {
        (c, h) if c.is_empty() && h.is_empty() => {
            "the order or the number of parts differs".to_string()
        }
        (c, h) => format!("the code has ({c}), here is ({h})"),
    }
}

/// The differences of two sets of declarations.
fn compare(
    kind: &str,
    code: &BTreeMap<String, Vec<String>>,
    header: &BTreeMap<String, Vec<String>>,
) -> Vec<String> {
    let mut said = Vec::new();
    for (name, want) in code {
        match header.get(name) {
            None => said.push(format!("{kind} {name} is not in the header")),
            Some(got) if got != want => said.push(format!("{kind} {name}: {}", change(want, got))),
            Some(_) => {}
        }
    }
    for name in header.keys().filter(|name| !code.contains_key(*name)) {
        said.push(format!("{kind} {name} is not in the code"));
    }
    said
}

/// The header's enums whose names the source has not.
const TRIED: [&str; 3] = ["lmr5_refusal", "lmr5_flag", "lmr5_flag_value"];

/// All differences, and what is wrong with the words of refusals.
fn differences(code: &Declared, header: &Header) -> Vec<String> {
    let declared = &header.declared;
    let mut said = compare("function", &code.functions, &declared.functions);
    said.extend(compare("struct", &code.structs, &declared.structs));
    let mut enums = declared.enums.clone();
    enums.retain(|name, _| !TRIED.contains(&name.as_str()));
    said.extend(compare("enum", &code.enums, &enums));
    said.extend(words::faults(header));
    said
}

fn read(root: &str, name: &str) -> String {
    std::fs::read_to_string(format!("{root}/{name}")).unwrap_or_else(|e| panic!("{name}: {e}"))
}

const RECORD: &str = "header/declarations";
const CHANGELOG: &str = "CHANGELOG.md";

/// What is wrong with the header's version, beside the record of the declarations and the changelog.
fn version_faults(recorded: &Record, now: &Record, changelog: &str) -> Vec<String> {
    let mut said = record::faults(recorded, now);
    if said.is_empty() && recorded != now {
        said.push(format!(
            "version {} is not in {RECORD} yet: make declarations",
            now.version
        ));
    }
    if record::newest(changelog) != Some(now.version) {
        said.push(format!(
            "version {} is not the first in {CHANGELOG}",
            now.version
        ));
    }
    said
}

/// Writes the record anew, where the version has been raised as the changes ask.
fn write_record(root: &str, now: &Record) -> ExitCode {
    let said = record::faults(&Record::parse(&read(root, RECORD)), now);
    for line in &said {
        println!("include/lmr5.h: {line}");
    }
    if !said.is_empty() {
        return ExitCode::FAILURE;
    }
    std::fs::write(format!("{root}/{RECORD}"), now.to_string()).expect(RECORD);
    println!("{RECORD}: the declarations of version {}", now.version);
    ExitCode::SUCCESS
}

/// Says what differs, or what was compared.
fn compare_all(root: &str, header: &Header) -> ExitCode {
    let table = read(root, "crates/format/specs/Field.antt");
    let indicators = read(root, "crates/format/specs/Indicators.antt");
    let code = code::declared(&Sources {
        exports: &read(root, "crates/lmr5_c/src/lib.rt"),
        library: &read(root, "crates/lmr5/src/lib.rt"),
        types: &read(root, "crates/format/src/lib.rt"),
        table: &table,
        indicators: &indicators,
        script: &read(root, "crates/script/specs/Script.antt"),
        labels: &read(root, "crates/script/specs/Labels.antt"),
        text: &read(root, "crates/format/specs/ShipText.antt"),
        readers: &read(root, "crates/lmr5/specs/Readers.antt"),
        sizes: &read(root, "crates/report/specs/Answers.antt"),
    });
    let now = Record::of(header);
    let recorded = Record::parse(&read(root, RECORD));
    let mut said = differences(&code, header);
    said.extend(version_faults(&recorded, &now, &read(root, CHANGELOG)));
    for line in &said {
        println!("include/lmr5.h: {line}");
    }
    let page = read(root, "docs/FORMAT.md");
    let fields = page::defined(&table);
    let resting = page::defined_indicators(&indicators, &table);
    let mut is_same = said.is_empty();
    for (what, defined, written) in [
        ("fields", &fields, page::written(&page)),
        ("indicators", &resting, page::written_indicators(&page)),
    ] {
        if written != *defined {
            println!("docs/FORMAT.md: {what}: {}", change(defined, &written));
            is_same = false;
        }
    }
    if !is_same {
        return ExitCode::FAILURE;
    }
    println!(
        "docs/FORMAT.md: {} fields and {} indicators as in the definitions",
        fields.len(),
        resting.len()
    );
    println!(
        "include/lmr5.h: version {}, {} functions, {} structs and {} numbers as in the code, words for {} refusals",
        now.version,
        code.functions.len(),
        code.structs.len(),
        code.enums.values().map(Vec::len).sum::<usize>(),
        header.declared.enums["lmr5_refusal"].len()
    );
    ExitCode::SUCCESS
}

fn main() -> ExitCode {
    let arguments: Vec<String> = std::env::args().skip(1).collect();
    let arguments: Vec<&str> = arguments.iter().map(String::as_str).collect();
    let (root, is_writing) = match arguments[..] {
        [root] => (root, false),
        [root, "record"] => (root, true),
        _ => panic!("usage: header FOLDER [record]"),
    };
    let header = Header::of(&read(root, "include/lmr5.h"));
    if is_writing {
        return write_record(root, &Record::of(&header));
    }
    compare_all(root, &header)
}

#[cfg(test)]
mod tests {
    use super::*;

    const LIBRARY: &str = "#[repr(C)]\n#[derive(Clone, Copy)]\npub struct Answer {\n    pub refusal: u32,\n}\n\
        fn store() {\n    *contents = [\n        given.word,\n        u64::from(given.present),\n    ];\n}\n\
        #[repr(C)]\npub struct Symbol {\n    pub kind: u32,\n}\n\
        pub fn lmr5_t(table: &mut [u16; 256])\n{}\n\
        fn opened() {\n    *reader = [opening.at as u64, opening.end as u64, 0, number, place];\n}\n\
        fn step() {\n    let [at, end, spaces, ..] = *reader;\n    reader[0] = step.at as u64;\n    reader[2] = step.spaces as u64;\n}\n";
    const EXPORTS: &str = "#[unsafe(no_mangle)]\npub extern \"C\" fn lmr5_n(report: &[u8], reader: &mut [u64; 5]) -> Symbol\n\
        \x20   ensures low { result.kind < 3 }\n    ensures { f (g report.now) reader.new }\n{}\n\
        #[unsafe(no_mangle)]\npub extern \"C\" fn lmr5_f(\n    report: &[u8], // read\n    n: usize,\n    to: &mut [u64; 6],\n) -> Answer\n{}\n\
        #[unsafe(no_mangle)]\npub extern \"C\" fn lmr5_t(table: &mut [u16; 256])\n{}\n\
        #[unsafe(no_mangle)]\npub extern \"C\" fn lmr5_m(table: &mut FlagTable)\n{}\n\
        #[unsafe(no_mangle)]\npub extern \"C\" fn lmr5_j(\n    log: &mut [u8],\n    table: &FlagTable,\n) -> Answer\n{}\n";
    const TYPES: &str =
        "pub struct Coded(pub u16);\n// A table.\npub type FlagTable = [[u8; 10]; 14];\n";
    const TABLE: &str = "    field 648 (pos 0) 10 ∷  -- 1 BOX10\n    []\n";
    const INDICATORS: &str = "    indicator 17 (18 ∷ []) ∷  -- DI on D\n    indicator 19 (20 ∷ []) ∷  -- WI on W\n    []\n";
    const SCRIPT: &str = "unfoldable pub script_entry : Entry → List ℕ\n\
        script_entry (edits (set_field k v)) = 2 ∷ (bytes8 k)\nscript_entry (edits (remove i)) = 9 ∷ bytes8 i\n\
        script_entry (reads (read_field k)) = 1 ∷ bytes8 k\nscript_entry (fetches (fetch_text out)) = 11 ∷ (bytes8 (length out))\n\
        head_of (refused r) = 0 ∷ r.number ∷ bytes8 r.place\nhead_of (accepted gs) = 1 ∷ 0 ∷ bytes8 0\n";
    const LABELS: &str = "abbrev pub quantity_label : Quantity → ℕ\nquantity_label value = 1\nquantity_label count = 3\n\
        missing_label : ℕ\nmissing_label = 128\nlabels [] = 0\nlabels (g ∷ gs) = label g + 256 * labels gs\n";
    const TEXT: &str = "origin_of (plain b) = 0\norigin_of (original b) = 1\n\
        unfoldable pub set_number : DeckSet → ℕ\nset_number ascii = 2\nset_number unknown = 0\n";
    const READERS: &str = "symbol_of_step None = record { kind = 0; byte = 0 }\n\
        symbol_of_step (Some s) = record { kind = mark s.origin + 1; byte = s.byte }\n";
    const SIZES: &str = "  within : (38 ≤ n) × (n ≤ 1853)\n";
    const HEADER: &str = "#include <stdint.h>\n#ifdef __cplusplus\nextern \"C\" {\n#endif\ntypedef struct lmr5_answer {\n    uint32_t refusal; /* a; b */\n} lmr5_answer;\n\
        enum lmr5_field { LMR5_BOX10 = 1 };\nenum lmr5_contents { LMR5_CONTENTS_WORD = 0, LMR5_CONTENTS_PRESENT = 1 };\n\
        enum lmr5_script { LMR5_SCRIPT_READ_FIELD = 1, LMR5_SCRIPT_SET_FIELD = 2, LMR5_SCRIPT_DROP = 9, LMR5_SCRIPT_FETCH_TEXT = 11 };\n\
        enum lmr5_refusal { LMR5_REFUSED_SHORT = 1 };\n\
        static inline const char *lmr5_refusal_name(uint32_t refusal)\n{\n    switch (refusal) {\n\
        \x20   case 0:\n        return \"accepted\";\n    case LMR5_REFUSED_SHORT:\n        return \"cut short\";\n\
        \x20   default:\n        return \"unknown\";\n    }\n}\n\
        enum lmr5_log { LMR5_LOG_REFUSED = 0, LMR5_LOG_ACCEPTED = 1 };\n\
        enum lmr5_given { LMR5_GIVEN_NOTHING = 0, LMR5_GIVEN_VALUE = 1, LMR5_GIVEN_COUNT = 3, LMR5_GIVEN_MISSING = 128 };\n\
        enum lmr5_longest { LMR5_LONGEST_REPORT = 1853 };\nenum lmr5_indicators { LMR5_INDICATORS = 2 };\n\
        enum lmr5_origin { LMR5_ORIGIN_PLAIN = 0, LMR5_ORIGIN_ORIGINAL = 1 };\n\
        enum lmr5_set { LMR5_SET_UNKNOWN = 0, LMR5_SET_ASCII = 2 };\n\
        typedef struct lmr5_text_reader {\n    uint64_t place;\n    uint64_t end;\n    uint64_t spaces;\n    uint64_t refusal;\n\
        \x20   uint64_t refusal_place;\n} lmr5_text_reader;\n\
        typedef struct lmr5_symbol {\n    uint32_t kind;\n} lmr5_symbol;\n\
        enum lmr5_symbol_kind { LMR5_SYMBOL_END = 0, LMR5_SYMBOL_PLAIN = 1, LMR5_SYMBOL_ORIGINAL = 2 };\n\
        lmr5_symbol lmr5_n(const uint8_t *report, size_t report_length, lmr5_text_reader *reader);\n\
        lmr5_answer lmr5_f(const uint8_t *report, size_t report_length, size_t n, uint64_t to[6]);\n\
        typedef struct lmr5_flag_table {\n    uint8_t marks[14][10];\n} lmr5_flag_table;\n\
        void lmr5_t(uint16_t table[256]);\nvoid lmr5_m(lmr5_flag_table *table);\n\
        lmr5_answer lmr5_j(uint8_t *log, size_t log_length,\n                   const lmr5_flag_table *table);\n#ifdef __cplusplus\n}\n#endif\n";

    fn sources() -> Sources<'static> {
        Sources {
            exports: EXPORTS,
            library: LIBRARY,
            types: TYPES,
            table: TABLE,
            indicators: INDICATORS,
            script: SCRIPT,
            labels: LABELS,
            text: TEXT,
            readers: READERS,
            sizes: SIZES,
        }
    }

    fn said_of(sources: &Sources, header: &str) -> Vec<String> {
        differences(&code::declared(sources), &Header::of(header))
    }

    fn said(header: &str) -> usize {
        said_of(&sources(), header).len()
    }

    #[test]
    fn the_same() {
        assert_eq!(said(HEADER), 0);
    }

    #[test]
    fn each_change_is_said() {
        let changes = [
            ("f(const uint8_t *report", "f(uint8_t *report"),
            ("size_t n, ", ""),
            ("size_t n", "uint32_t n"),
            ("to[6]", "to[5]"),
            ("table[256]", "table[255]"),
            ("void lmr5_t", "uint32_t lmr5_t"),
            ("m(lmr5_flag_table *table", "m(const lmr5_flag_table *table"),
            ("m(lmr5_flag_table *table", "m(lmr5_flag_table table"),
            ("m(lmr5_flag_table *table", "m(uint8_t *table"),
            (
                "m(lmr5_flag_table *table",
                "m(lmr5_flag_table *table, size_t table_length",
            ),
            ("const lmr5_flag_table *", "lmr5_flag_table *"),
            ("const lmr5_flag_table *", "const lmr5_answer *"),
            (",\n                   const lmr5_flag_table *table", ""),
            ("marks[14][10]", "marks[10][14]"),
            ("marks[14][10]", "marks[140]"),
            ("marks[14][10]", "marks[14][11]"),
            ("uint8_t marks", "uint16_t marks"),
            ("uint32_t refusal;", "uint64_t refusal;"),
            ("LMR5_BOX10 = 1", "LMR5_BOX10 = 2"),
            ("LMR5_BOX10 = 1", "LMR5_BOX = 1"),
            ("CONTENTS_WORD = 0", "CONTENTS_WORD = 1"),
            ("CONTENTS_PRESENT", "CONTENTS_COUNT"),
            ("lmr5_symbol lmr5_n", "lmr5_answer lmr5_n"),
            ("lmr5_text_reader *reader", "lmr5_text_reader reader"),
            ("lmr5_text_reader *reader", "const lmr5_text_reader *reader"),
            ("lmr5_text_reader *reader", "uint64_t reader[5]"),
            ("uint64_t place", "uint32_t place"),
            (
                "uint64_t end;\n    uint64_t spaces",
                "uint64_t spaces;\n    uint64_t end",
            ),
            ("    uint64_t refusal_place;\n", ""),
            ("uint64_t refusal;", "uint64_t number;"),
            ("uint32_t kind", "uint64_t kind"),
            ("ORIGIN_PLAIN = 0", "ORIGIN_PLAIN = 2"),
            ("ORIGIN_ORIGINAL = 1", "ORIGIN_ORIGINAL = 2"),
            ("SET_UNKNOWN = 0", "SET_UNKNOWN = 3"),
            ("SET_ASCII", "SET_EBCDIC"),
            ("SYMBOL_END = 0", "SYMBOL_END = 3"),
            ("SYMBOL_PLAIN = 1", "SYMBOL_PLAIN = 0"),
            ("SYMBOL_ORIGINAL = 2", "SYMBOL_ORIGINAL = 1"),
            (", LMR5_SYMBOL_ORIGINAL = 2", ""),
            ("SCRIPT_DROP = 9", "SCRIPT_DROP = 8"),
            ("SCRIPT_SET_FIELD", "SCRIPT_SET"),
            ("SCRIPT_FETCH_TEXT = 11", "SCRIPT_FETCH_TEXT = 10"),
            (", LMR5_SCRIPT_DROP = 9", ""),
            ("LOG_REFUSED = 0", "LOG_REFUSED = 2"),
            ("LOG_ACCEPTED = 1", "LOG_ACCEPTED = 2"),
            ("LOG_ACCEPTED", "LOG_NOTHING"),
            ("GIVEN_NOTHING = 0", "GIVEN_NOTHING = 4"),
            ("GIVEN_VALUE = 1", "GIVEN_VALUE = 2"),
            ("GIVEN_COUNT", "GIVEN_BYTES"),
            ("LMR5_GIVEN_COUNT = 3, ", ""),
            ("GIVEN_MISSING = 128", "GIVEN_MISSING = 129"),
            ("= 1853", "= 1852"),
            ("LMR5_INDICATORS = 2", "LMR5_INDICATORS = 3"),
            ("enum lmr5_indicators { LMR5_INDICATORS = 2 };\n", ""),
            (
                "REFUSED_SHORT = 1",
                "REFUSED_SHORT = 1, LMR5_REFUSED_CODE = 2",
            ),
        ];
        for (old, new) in changes {
            assert_eq!(HEADER.matches(old).count(), 1, "{old}");
            assert_eq!(said(&HEADER.replace(old, new)), 1, "{old}");
        }
    }

    /// A definition that is new or changed is said without a change here.
    #[test]
    fn each_change_of_a_definition_is_said() {
        let quantity = format!("{LABELS}quantity_label ship_length = 10\n");
        let sources_of = |labels| Sources {
            labels,
            ..sources()
        };
        let text = said_of(&sources_of(&quantity), HEADER);
        assert_eq!(
            text,
            ["enum lmr5_given: the code has (LMR5_GIVEN_SHIP_LENGTH = 10), here is ()"]
        );
        let missing = LABELS.replace("missing_label = 128", "missing_label = 64");
        assert_eq!(said_of(&sources_of(&missing), HEADER).len(), 1);
        for new in ["[[u8; 10]; 13]", "[[u8; 11]; 14]", "[[u16; 10]; 14]"] {
            let types = &TYPES.replace("[[u8; 10]; 14]", new);
            let sources = Sources { types, ..sources() };
            assert_eq!(said_of(&sources, HEADER).len(), 1, "{new}");
        }
        for (old, new) in [
            ("table: &FlagTable", "table: &mut FlagTable"),
            ("table: &mut FlagTable", "table: &FlagTable"),
            ("\n    table: &FlagTable,", ""),
            (
                "log: &mut [u8],\n    table: &FlagTable",
                "table: &FlagTable,\n    log: &mut [u8]",
            ),
        ] {
            assert_eq!(EXPORTS.matches(old).count(), 1, "{old}");
            let exports = &EXPORTS.replace(old, new);
            let sources = Sources {
                exports,
                ..sources()
            };
            assert_eq!(said_of(&sources, HEADER).len(), 1, "{old}");
        }
        let indicators = &format!("{INDICATORS}    indicator 21 (22 ∷ []) ∷  -- VI on VB\n");
        let more = Sources {
            indicators,
            ..sources()
        };
        assert_eq!(said_of(&more, HEADER).len(), 1);
        let kind = format!("{SCRIPT}script_entry (edits (put_text t)) = 10 ∷ bytes8 t\n");
        let head = SCRIPT.replace("head_of (accepted gs) = 1", "head_of (accepted gs) = 3");
        for script in [&kind, &head] {
            let sources = Sources {
                script,
                ..sources()
            };
            assert_eq!(said_of(&sources, HEADER).len(), 1);
        }
    }

    /// A mark is told by the kind of its symbol too.
    #[test]
    fn each_change_of_a_text_or_a_reader_is_said() {
        for (old, new, count) in [
            ("(plain b) = 0", "(plain b) = 2", 2),
            ("(original b) = 1", "(original b) = 2", 2),
            ("ascii = 2", "ascii = 1", 1),
            ("set_number unknown = 0\n", "", 1),
            ("unknown = 0", "unknown = 0\nset_number ebcdic = 1", 1),
        ] {
            assert_eq!(TEXT.matches(old).count(), 1, "{old}");
            let text = &TEXT.replace(old, new);
            let sources = Sources { text, ..sources() };
            assert_eq!(said_of(&sources, HEADER).len(), count, "{old}");
        }
        for (old, new) in [("kind = 0", "kind = 3"), ("origin + 1", "origin + 2")] {
            assert_eq!(READERS.matches(old).count(), 1, "{old}");
            let readers = &READERS.replace(old, new);
            let sources = Sources {
                readers,
                ..sources()
            };
            assert_eq!(said_of(&sources, HEADER).len(), 1, "{old}");
        }
        for (old, new) in [("[u64; 5]", "[u64; 6]"), ("-> Symbol", "-> Answer")] {
            assert_eq!(EXPORTS.matches(old).count(), 1, "{old}");
            let exports = &EXPORTS.replace(old, new);
            let sources = Sources {
                exports,
                ..sources()
            };
            assert_eq!(said_of(&sources, HEADER).len(), 1, "{old}");
        }
        for (old, new) in [
            ("kind: u32", "kind: u64"),
            ("0, number, place]", "0, place, number]"),
            ("step.spaces as u64", "step.waiting as u64"),
        ] {
            assert_eq!(LIBRARY.matches(old).count(), 1, "{old}");
            let library = &LIBRARY.replace(old, new);
            let sources = Sources {
                library,
                ..sources()
            };
            assert_eq!(said_of(&sources, HEADER).len(), 1, "{old}");
        }
    }

    #[test]
    #[should_panic(expected = "number 0 of a reader has two names")]
    fn a_number_of_a_reader_has_one_name() {
        let library = &LIBRARY.replace("reader[0] = step.at", "reader[0] = step.end");
        let sources = Sources {
            library,
            ..sources()
        };
        code::declared(&sources);
    }

    #[test]
    #[should_panic(expected = "a reader has five numbers")]
    fn each_number_of_a_reader_is_stored() {
        let library = &LIBRARY.replace("number, place]", "number]");
        let sources = Sources {
            library,
            ..sources()
        };
        code::declared(&sources);
    }

    /// A function or a struct for C is seen in either crate.
    #[test]
    fn what_the_library_has_for_c_is_said() {
        for more in [
            "#[unsafe(no_mangle)]\npub extern \"C\" fn lmr5_h(n: usize)\n{}\n",
            "#[repr(C)]\npub struct Other {\n    pub n: u32,\n}\n",
        ] {
            let (exports, library) = (format!("{EXPORTS}{more}"), format!("{LIBRARY}{more}"));
            for (exports, library) in [(&exports[..], LIBRARY), (EXPORTS, &library[..])] {
                let sources = Sources {
                    exports,
                    library,
                    ..sources()
                };
                assert_eq!(said_of(&sources, HEADER).len(), 1, "{more}");
            }
        }
    }

    #[test]
    #[should_panic(expected = "a function without #[unsafe(no_mangle)]")]
    fn each_function_for_c_has_its_own_name() {
        let exports = &EXPORTS.replacen("#[unsafe(no_mangle)]\n", "", 1);
        let sources = Sources {
            exports,
            ..sources()
        };
        code::declared(&sources);
    }

    #[test]
    fn a_version_is_recorded_and_in_the_changelog() {
        let version = |minor| {
            let text =
                format!("#define LMR5_VERSION_MAJOR 5\n#define LMR5_VERSION_MINOR {minor}\n");
            Record::of(&Header::of(&text))
        };
        let faults = |now, changelog| version_faults(&version(2), &version(now), changelog);
        assert_eq!(faults(2, "## 5.2"), [""; 0]);
        assert_eq!(
            faults(3, "## 5.3"),
            ["version 5.3 is not in header/declarations yet: make declarations"]
        );
        assert_eq!(
            faults(2, "## 5.1"),
            ["version 5.2 is not the first in CHANGELOG.md"]
        );
        assert_eq!(faults(3, "## 5.2").len(), 2);
        assert_eq!(faults(4, "## 5.4").len(), 1);
    }

    #[test]
    fn a_function_too_many_or_too_few() {
        assert_eq!(
            said(&HEADER.replace("lmr5_answer lmr5_f(", "lmr5_answer lmr5_g(")),
            2
        );
        assert_eq!(said(&format!("{HEADER}void lmr5_h(void);")), 1);
    }
}
