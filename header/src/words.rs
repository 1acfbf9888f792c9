//! The words for refusals: `lmr5_refusal_name` beside the numbers of `enum lmr5_refusal`.
use crate::header::Header;
use std::collections::BTreeMap;

/// What the function says for one case: `case LMR5_REFUSED_CODE : return "words" ;`, or `default : return "words" ;`.
fn said_for(part: &[String]) -> (&str, &str) {
    let words: Vec<&str> = part.iter().map(String::as_str).collect();
    match words.as_slice() {
        ["case", label, ":", "return", said] => (label, said),
        [label @ "default", ":", "return", said] => (label, said),
        other => panic!("lmr5_refusal_name: {} is not understood", other.join(" ")),
    }
}

/// What the function says, case by case: its body is one `switch ( refusal ) { .. }`.
fn cases(body: &[String]) -> Vec<(&str, &str)> {
    let open = body.iter().position(|t| t == "{");
    let (before, rest) = body.split_at(open.expect("lmr5_refusal_name: a switch"));
    assert_eq!(before.join(" "), "switch ( refusal )", "lmr5_refusal_name");
    let inner = &rest[1..rest.len() - 1];
    let parts = inner.split(|t| t == ";").filter(|part| !part.is_empty());
    parts.map(said_for).collect()
}

/// What is wrong: a number without words, words for what is no refusal, and words that are said twice or are none.
pub fn faults(header: &Header) -> Vec<String> {
    let Some(function) = header.inlines.get("lmr5_refusal_name") else {
        return vec!["lmr5_refusal_name is not defined".to_string()];
    };
    let numbers = header.declared.enums.get("lmr5_refusal");
    let numbers = numbers.into_iter().flatten();
    let names = numbers.filter_map(|number| number.split(' ').next());
    let due: Vec<&str> = names.chain(["0", "default"]).collect();
    let cases = cases(&function.body);
    let mut faults = Vec::new();
    for label in &due {
        if !cases.iter().any(|(named, _)| named == label) {
            faults.push(format!("lmr5_refusal_name has no words for {label}"));
        }
    }
    let mut by_words = BTreeMap::new();
    for (label, said) in cases {
        if !due.contains(&label) {
            faults.push(format!("lmr5_refusal_name: {label} is no refusal"));
        }
        if said.trim_matches('"').trim().is_empty() {
            faults.push(format!("lmr5_refusal_name says nothing for {label}"));
        }
        if let Some(before) = by_words.insert(said, label) {
            faults.push(format!(
                "lmr5_refusal_name says {said} for {before} and for {label}"
            ));
        }
    }
    faults
}

#[cfg(test)]
mod tests {
    use super::*;

    const TEXT: &str = "enum lmr5_refusal { LMR5_REFUSED_SHORT = 1, LMR5_REFUSED_TABLE = 16 };\n\
        static inline const char *lmr5_refusal_name(uint32_t refusal)\n{\n    switch (refusal) {\n\
        \x20   case 0:\n        return \"accepted\";\n    case LMR5_REFUSED_SHORT:\n        return \"cut; short\";\n\
        \x20   case LMR5_REFUSED_TABLE:\n        return \"the table\";\n    default:\n        return \"unknown\";\n    }\n}\n";

    #[test]
    fn each_number_has_its_own_words() {
        assert_eq!(faults(&Header::of(TEXT)), [""; 0]);
    }

    #[test]
    fn each_fault_is_said() {
        for (old, new, due) in [
            (
                "TABLE = 16",
                "TABLE = 16, LMR5_REFUSED_DATE = 15",
                "has no words for LMR5_REFUSED_DATE",
            ),
            (
                "    case 0:\n        return \"accepted\";\n",
                "",
                "has no words for 0",
            ),
            (
                "    default:\n        return \"unknown\";\n",
                "",
                "has no words for default",
            ),
            (
                ", LMR5_REFUSED_TABLE = 16",
                "",
                ": LMR5_REFUSED_TABLE is no refusal",
            ),
            (
                "\"the table\"",
                "\"cut; short\"",
                " says \"cut; short\" for LMR5_REFUSED_SHORT and for LMR5_REFUSED_TABLE",
            ),
            (
                "\"unknown\"",
                "\"accepted\"",
                " says \"accepted\" for 0 and for default",
            ),
            (
                "\"the table\"",
                "\" \"",
                " says nothing for LMR5_REFUSED_TABLE",
            ),
            ("refusal_name(", "refusal_words(", " is not defined"),
        ] {
            assert_eq!(TEXT.matches(old).count(), 1, "{old}");
            let said = faults(&Header::of(&TEXT.replace(old, new)));
            assert_eq!(said.len(), 1, "{said:?}");
            assert!(said[0].ends_with(due), "{said:?}");
        }
    }

    #[test]
    #[should_panic(expected = "is not understood")]
    fn two_cases_with_one_return() {
        let text = TEXT.replace("        return \"accepted\";\n", "");
        faults(&Header::of(&text));
    }
}
