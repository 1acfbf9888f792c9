//! The record of the declarations: what the header declared in the version that it names. Where the header now differs, its
//! version has to have been raised: the major number where a declaration has changed or gone, the minor one where one is new.
use crate::header::Header;
use std::collections::BTreeMap;
use std::fmt;

const MAJOR: &str = "LMR5_VERSION_MAJOR";
const MINOR: &str = "LMR5_VERSION_MINOR";

#[derive(Clone, Copy, PartialEq, Eq, Debug)]
pub struct Version {
    major: u64,
    minor: u64,
}

/// How far a version is from the one before.
#[derive(Clone, Copy, PartialEq, Eq, PartialOrd, Ord)]
enum Step {
    None,
    Minor,
    Major,
}

impl Version {
    fn of(header: &Header) -> Version {
        let number = |name: &str| {
            let value = header.macros.get(name).and_then(|value| value.parse().ok());
            value.unwrap_or_else(|| panic!("include/lmr5.h: {name} is not a number"))
        };
        Version {
            major: number(MAJOR),
            minor: number(MINOR),
        }
    }

    fn parse(text: &str) -> Option<Version> {
        let (major, minor) = text.split_once('.')?;
        Some(Version {
            major: major.parse().ok()?,
            minor: minor.parse().ok()?,
        })
    }

    fn after(self, step: Step) -> Version {
        let Version { major, minor } = self;
        match step {
            Step::None => self,
            Step::Minor => Version {
                major,
                minor: minor + 1,
            },
            Step::Major => Version {
                major: major + 1,
                minor: 0,
            },
        }
    }
}

impl fmt::Display for Version {
    fn fmt(&self, f: &mut fmt::Formatter) -> fmt::Result {
        write!(f, "{}.{}", self.major, self.minor)
    }
}

/// A version, and its declarations by their names. A number of an enum is a declaration of its own. The names of parameters
/// count: two of one type that change places differ in nothing else.
#[derive(PartialEq, Debug)]
pub struct Record {
    pub version: Version,
    declarations: BTreeMap<String, String>,
}

impl Record {
    pub fn of(header: &Header) -> Record {
        let mut declarations = BTreeMap::new();
        let declared = &header.declared;
        for (name, words) in &declared.functions {
            declarations.insert(format!("function {name}"), words.join(", "));
        }
        for (name, inline) in &header.inlines {
            declarations.insert(format!("inline {name}"), inline.signature.join(", "));
        }
        for (name, fields) in &declared.structs {
            declarations.insert(format!("struct {name}"), fields.join(", "));
        }
        for (name, numbers) in &declared.enums {
            for number in numbers {
                let (number, value) = number.split_once(" = ").unwrap_or_else(|| {
                    panic!("include/lmr5.h: {number} of enum {name} has no value of its own")
                });
                declarations.insert(format!("enum {name} {number}"), value.to_string());
            }
        }
        for (name, value) in &header.macros {
            if ![MAJOR, MINOR].contains(&name.as_str()) {
                declarations.insert(format!("macro {name}"), value.clone());
            }
        }
        Record {
            version: Version::of(header),
            declarations,
        }
    }

    /// From the lines that are written: `version 5.2`, and each declaration as `struct lmr5_symbol: uint32_t kind, ..`.
    pub fn parse(text: &str) -> Record {
        let (first, rest) = text.split_once('\n').unwrap_or((text, ""));
        let version = first.strip_prefix("version ").and_then(Version::parse);
        let declarations = rest.lines().map(|line| {
            let (name, words) = line.split_once(": ").expect("a name and a declaration");
            (name.to_string(), words.to_string())
        });
        Record {
            version: version.expect("a version in the record's first line"),
            declarations: declarations.collect(),
        }
    }
}

impl fmt::Display for Record {
    fn fmt(&self, f: &mut fmt::Formatter) -> fmt::Result {
        writeln!(f, "version {}", self.version)?;
        let mut all = self.declarations.iter();
        all.try_for_each(|(name, words)| writeln!(f, "{name}: {words}"))
    }
}

/// Each change since the record, with the step that it asks for.
fn changes(record: &Record, now: &Record) -> Vec<(Step, String)> {
    let mut all = Vec::new();
    for (name, words) in &record.declarations {
        match now.declarations.get(name) {
            None => all.push((Step::Major, format!("{name} has gone"))),
            Some(other) if other != words => {
                all.push((Step::Major, format!("{name} has changed")));
            }
            Some(_) => {}
        }
    }
    let names = now.declarations.keys();
    let new = names.filter(|name| !record.declarations.contains_key(*name));
    all.extend(new.map(|name| (Step::Minor, format!("{name} is new"))));
    all
}

/// What is wrong with the version now: each change for which it has not been raised. It may be raised further than the
/// declarations ask, since what a call gives or means is not among them, but by one step only.
pub fn faults(record: &Record, now: &Record) -> Vec<String> {
    let before = record.version;
    let steps = [Step::None, Step::Minor, Step::Major];
    let taken = steps
        .into_iter()
        .find(|&step| before.after(step) == now.version);
    let Some(taken) = taken else {
        return vec![format!(
            "version {} does not follow {before}, which is recorded",
            now.version
        )];
    };
    let changes = changes(record, now);
    let asked = changes.iter().map(|(step, _)| *step).max();
    let due = before.after(asked.unwrap_or(Step::None));
    let unheeded = changes.iter().filter(|(step, _)| *step > taken);
    unheeded
        .map(|(_, change)| format!("{change} since version {before}: the next is {due}"))
        .collect()
}

/// The version that a changelog begins with: `## 5.1 (K5)`.
pub fn newest(changelog: &str) -> Option<Version> {
    let mut titles = changelog
        .lines()
        .filter_map(|line| line.strip_prefix("## "));
    Version::parse(titles.next()?.split_whitespace().next()?)
}

#[cfg(test)]
mod tests {
    use super::*;

    const TEXT: &str = "#define LMR5_VERSION_MAJOR 5\n#define LMR5_VERSION_MINOR 2\n\
        #define LMR5_VERSION (LMR5_VERSION_MAJOR * 1000 + LMR5_VERSION_MINOR)\n\
        typedef struct lmr5_symbol {\n    uint32_t kind;\n    uint32_t byte;\n} lmr5_symbol;\n\
        enum lmr5_log { LMR5_LOG_REFUSED = 0, LMR5_LOG_ACCEPTED = 1 };\n\
        static inline int lmr5_is_missing(lmr5_answer answer)\n{\n    return answer.given != 0;\n}\n\
        lmr5_answer lmr5_set_flag(uint8_t *report, size_t flag, size_t value);\nvoid lmr5_all_flags(void);\n";

    fn record() -> Record {
        Record::of(&Header::of(TEXT))
    }

    /// The header with each of these replaced.
    fn with(changes: &[(&str, &str)]) -> Record {
        let mut text = TEXT.to_string();
        for (old, new) in changes {
            assert_eq!(text.matches(old).count(), 1, "{old}");
            text = text.replace(old, new);
        }
        Record::of(&Header::of(&text))
    }

    const NEXT_MAJOR: [(&str, &str); 2] = [("MAJOR 5", "MAJOR 6"), ("MINOR 2", "MINOR 0")];
    const NEXT_MINOR: (&str, &str) = ("MINOR 2", "MINOR 3");

    /// What changes or takes away a declaration, and how that is said.
    const CHANGED: [(&str, &str, &str); 10] = [
        (
            "size_t flag, size_t value",
            "size_t flag",
            "function lmr5_set_flag has changed",
        ),
        (
            "size_t flag, size_t value",
            "size_t flag, uint8_t value",
            "function lmr5_set_flag has changed",
        ),
        (
            "size_t flag, size_t value",
            "size_t value, size_t flag",
            "function lmr5_set_flag has changed",
        ),
        (
            "size_t value)",
            "size_t value, const lmr5_flag_table *table)",
            "function lmr5_set_flag has changed",
        ),
        (
            "void lmr5_all_flags",
            "lmr5_answer lmr5_all_flags",
            "function lmr5_all_flags has changed",
        ),
        (
            "void lmr5_all_flags(void);\n",
            "",
            "function lmr5_all_flags has gone",
        ),
        (
            "lmr5_is_missing(lmr5_answer answer",
            "lmr5_is_missing(uint32_t given",
            "inline lmr5_is_missing has changed",
        ),
        (
            "uint32_t byte;",
            "uint32_t byte;\n    uint32_t place;",
            "struct lmr5_symbol has changed",
        ),
        (
            "ACCEPTED = 1",
            "ACCEPTED = 2",
            "enum lmr5_log LMR5_LOG_ACCEPTED has changed",
        ),
        ("* 1000", "* 100", "macro LMR5_VERSION has changed"),
    ];

    /// What adds one, and how that is said.
    const NEW: [(&str, &str, &str); 4] = [
        (
            "void lmr5_all_flags",
            "void lmr5_no_flags(void);\nvoid lmr5_all_flags",
            "function lmr5_no_flags is new",
        ),
        (
            "static inline",
            "static inline int lmr5_is_refused(int refusal)\n{\n    return refusal;\n}\nstatic inline",
            "inline lmr5_is_refused is new",
        ),
        (
            "ACCEPTED = 1",
            "ACCEPTED = 1, LMR5_LOG_LATER = 2",
            "enum lmr5_log LMR5_LOG_LATER is new",
        ),
        (
            "typedef struct",
            "typedef struct lmr5_size { size_t bytes; } lmr5_size;\ntypedef struct",
            "struct lmr5_size is new",
        ),
    ];

    #[test]
    fn the_same() {
        assert_eq!(faults(&record(), &record()), [""; 0]);
    }

    #[test]
    fn what_is_written_is_read_back() {
        assert_eq!(Record::parse(&record().to_string()), record());
        assert_eq!(record().to_string().lines().count(), 8);
    }

    #[test]
    fn a_change_under_the_same_version_or_the_next_minor_one_is_refused() {
        for (old, new, due) in CHANGED {
            let due = format!("{due} since version 5.2: the next is 6.0");
            assert_eq!(faults(&record(), &with(&[(old, new)])), [due.as_str()]);
            assert_eq!(faults(&record(), &with(&[(old, new), NEXT_MINOR])), [due]);
        }
    }

    #[test]
    fn a_new_declaration_under_the_same_version_is_refused() {
        for (old, new, due) in NEW {
            let due = format!("{due} since version 5.2: the next is 5.3");
            assert_eq!(faults(&record(), &with(&[(old, new)])), [due]);
        }
    }

    #[test]
    fn a_version_raised_as_asked_is_accepted() {
        let [major, minor] = NEXT_MAJOR;
        for (old, new, _) in CHANGED {
            assert_eq!(
                faults(&record(), &with(&[(old, new), major, minor])),
                [""; 0]
            );
        }
        for (old, new, _) in NEW {
            assert_eq!(faults(&record(), &with(&[(old, new), NEXT_MINOR])), [""; 0]);
            assert_eq!(
                faults(&record(), &with(&[(old, new), major, minor])),
                [""; 0]
            );
        }
        assert_eq!(faults(&record(), &with(&NEXT_MAJOR)), [""; 0]);
    }

    #[test]
    fn all_changes_are_said_with_one_next_version() {
        let both = with(&[(CHANGED[0].0, CHANGED[0].1), (NEW[2].0, NEW[2].1)]);
        assert_eq!(
            faults(&record(), &both),
            [
                "function lmr5_set_flag has changed since version 5.2: the next is 6.0",
                "enum lmr5_log LMR5_LOG_LATER is new since version 5.2: the next is 6.0"
            ]
        );
    }

    #[test]
    fn a_version_that_does_not_follow_is_refused() {
        for version in [
            [("MAJOR 5", "MAJOR 7"), ("MINOR 2", "MINOR 0")],
            [("MAJOR 5", "MAJOR 6"), ("MINOR 2", "MINOR 2")],
            [("MAJOR 5", "MAJOR 5"), ("MINOR 2", "MINOR 4")],
            [("MAJOR 5", "MAJOR 5"), ("MINOR 2", "MINOR 1")],
            [("MAJOR 5", "MAJOR 4"), ("MINOR 2", "MINOR 2")],
        ] {
            let said = faults(&record(), &with(&version));
            assert_eq!(said.len(), 1);
            assert!(said[0].ends_with("does not follow 5.2, which is recorded"));
        }
    }

    #[test]
    fn what_does_not_count() {
        for (old, new) in [
            ("answer.given != 0", "answer.given > 0"),
            (
                "uint8_t *report, size_t",
                "uint8_t *report, /* from 1 */\n    size_t",
            ),
            (
                "LMR5_LOG_REFUSED = 0, LMR5_LOG_ACCEPTED = 1",
                "LMR5_LOG_ACCEPTED = 1, LMR5_LOG_REFUSED = 0",
            ),
        ] {
            assert_eq!(with(&[(old, new)]), record());
        }
    }

    #[test]
    #[should_panic(expected = "LMR5_LOG_ACCEPTED of enum lmr5_log has no value of its own")]
    fn each_number_has_a_value_of_its_own() {
        with(&[("LMR5_LOG_ACCEPTED = 1", "LMR5_LOG_ACCEPTED")]);
    }

    #[test]
    #[should_panic(expected = "LMR5_VERSION_MINOR is not a number")]
    fn a_header_without_a_version() {
        with(&[("#define LMR5_VERSION_MINOR 2\n", "")]);
    }

    #[test]
    fn the_newest_version_of_a_changelog() {
        let text = "# Changes\n\nWhat is seen.\n\n## 5.2 (K5)\n\n## 5.1\n";
        assert_eq!(newest(text), Some(record().version));
        assert_eq!(newest("# Changes\n\n## 5.2\n"), Some(record().version));
        assert_eq!(newest("# Changes\n\n## K5\n"), None);
        assert_eq!(newest("# Changes\n"), None);
    }
}
