//! What the header declares and defines.
use crate::Declared;
use std::collections::BTreeMap;

/// A function that the header defines itself: its result and parameters, and the tokens of its body.
pub struct Inline {
    pub signature: Vec<String>,
    pub body: Vec<String>,
}

/// What the header has: what it declares of the code, its own functions, and what `#define` stands for.
#[derive(Default)]
pub struct Header {
    pub declared: Declared,
    pub inlines: BTreeMap<String, Inline>,
    pub macros: BTreeMap<String, String>,
}

/// How many bytes the string that a text begins with takes, with both its quotation marks.
fn string_length(text: &str) -> usize {
    let mut is_escaped = false;
    for (at, c) in text.char_indices().skip(1) {
        match c {
            _ if is_escaped => is_escaped = false,
            '\\' => is_escaped = true,
            '"' => return at + 1,
            _ => {}
        }
    }
    panic!("include/lmr5.h: a string has no end");
}

/// The text without its comments. What looks like one in a string stays.
fn without_comments(text: &str) -> String {
    let mut plain = String::new();
    let mut rest = text;
    while let Some(at) = rest.find(['/', '"']) {
        plain.push_str(&rest[..at]);
        rest = &rest[at..];
        let length = match rest.strip_prefix("/*") {
            Some(comment) => {
                rest = comment.split_once("*/").expect("the comment's end").1;
                continue;
            }
            None if rest.starts_with('"') => string_length(rest),
            None => 1,
        };
        plain.push_str(&rest[..length]);
        rest = &rest[length..];
    }
    plain + rest
}

/// The words, strings and marks of C. A string is one token, with its quotation marks.
fn tokens(text: &str) -> Vec<String> {
    let mut all = Vec::new();
    let mut rest = text.trim_start();
    while let Some(first) = rest.chars().next() {
        let is_word = |c: char| c.is_alphanumeric() || c == '_';
        let length = match first {
            '"' => string_length(rest),
            c if is_word(c) => rest.find(|c| !is_word(c)).unwrap_or(rest.len()),
            c => c.len_utf8(),
        };
        all.push(rest[..length].to_string());
        rest = rest[length..].trim_start();
    }
    all
}

/// The parts between a mark, each as one text; none where nothing stands.
fn parts(tokens: &[String], mark: &str) -> Vec<String> {
    tokens
        .split(|t| t == mark)
        .filter(|part| !part.is_empty())
        .map(|part| part.join(" "))
        .collect()
}

/// What stands between the first `open` and the last `close`.
fn inside<'a>(tokens: &'a [String], open: &str, close: &str) -> &'a [String] {
    let from = tokens
        .iter()
        .position(|t| t == open)
        .expect("an opening mark");
    let to = tokens
        .iter()
        .rposition(|t| t == close)
        .expect("a closing mark");
    &tokens[from + 1..to]
}

/// A function's name, and its result and parameters: `const char * name ( uint32_t n )`.
fn signature(tokens: &[String]) -> (String, Vec<String>) {
    let open = tokens.iter().position(|t| t == "(");
    let open = open.filter(|open| *open >= 2).unwrap_or_else(|| {
        panic!("include/lmr5.h: {} is not understood", tokens.join(" "));
    });
    let mut words = vec![tokens[..open - 1].join(" ")];
    words.extend(parts(inside(tokens, "(", ")"), ","));
    (tokens[open - 1].clone(), words)
}

impl Header {
    /// A line for the preprocessor. Only what `#define` gives a value is kept.
    fn directive(&mut self, line: &str) {
        if let Some(rest) = line.strip_prefix("#define ")
            && let Some((name, value)) = rest.trim().split_once(' ')
        {
            let value = tokens(value).join(" ");
            self.macros.insert(name.to_string(), value);
        }
    }

    /// A declaration, with the `;` at its end, or a definition.
    fn item(&mut self, tokens: &[String]) {
        let words: Vec<&str> = tokens.iter().map(String::as_str).collect();
        match words.as_slice() {
            ["typedef", "struct", name, ..] => {
                let fields = parts(inside(tokens, "{", "}"), ";");
                self.declared.structs.insert(name.to_string(), fields);
            }
            ["enum", name, ..] => {
                let numbers = parts(inside(tokens, "{", "}"), ",");
                self.declared.enums.insert(name.to_string(), numbers);
            }
            ["static", "inline", ..] => {
                let open = tokens.iter().position(|t| t == "{").expect("a body");
                let (name, signature) = signature(&tokens[2..open]);
                let body = inside(tokens, "{", "}").to_vec();
                self.inlines.insert(name, Inline { signature, body });
            }
            _ => {
                let (name, words) = signature(tokens);
                self.declared.functions.insert(name, words);
            }
        }
    }

    /// What stands between `#ifdef __cplusplus` and `#endif` is left out.
    pub fn of(text: &str) -> Header {
        let mut header = Header::default();
        let mut code = String::new();
        let mut is_for_c = true;
        for line in without_comments(text).lines() {
            match line {
                "#ifdef __cplusplus" => is_for_c = false,
                "#endif" => is_for_c = true,
                _ if !is_for_c => {}
                _ if line.starts_with('#') => header.directive(line),
                _ => code = code + line + "\n",
            }
        }
        let mut one: Vec<String> = Vec::new();
        let mut depth = 0;
        for token in tokens(&code) {
            match token.as_str() {
                "{" => depth += 1,
                "}" => depth -= 1,
                _ => {}
            }
            one.push(token);
            let is_whole = match one.last().map(String::as_str) {
                Some(";") => depth == 0,
                Some("}") => depth == 0 && one[0] == "static",
                _ => false,
            };
            if is_whole {
                header.item(&one);
                one.clear();
            }
        }
        assert!(
            one.is_empty(),
            "include/lmr5.h: {} is cut off",
            one.join(" ")
        );
        header
    }
}

#[cfg(test)]
mod tests {
    use super::*;

    const TEXT: &str = "/* a; \"b */\n#ifndef A\n#define A\n#define A_NUMBER 5\n#define A_SUM (A_NUMBER * 10 + /* or 3 */ 2)\n\
        #ifdef __cplusplus\nextern \"C\" {\n#endif\nenum a { A_ONE = 1 };\n\
        static inline const char *a_name(uint32_t number, int is_long)\n{\n    if (number == 1) {\n\
        \x20       return \"a; } /* \\\" */\"; /* one */\n    }\n    return \"\";\n}\n\
        static inline int a_half(int n)\n{\n    return n / 2;\n}\nvoid a_last(void);\n\
        #ifdef __cplusplus\n}\n#endif\n\n#endif\n";

    #[test]
    fn macros_with_a_value() {
        let macros: Vec<_> = Header::of(TEXT).macros.into_iter().collect();
        let due = [("A_NUMBER", "5"), ("A_SUM", "( A_NUMBER * 10 + 2 )")];
        assert_eq!(macros, due.map(|(a, b)| (a.to_string(), b.to_string())));
    }

    #[test]
    fn functions_that_are_defined() {
        let header = Header::of(TEXT);
        assert_eq!(header.inlines.len(), 2);
        let name = &header.inlines["a_name"];
        assert_eq!(
            name.signature,
            ["const char *", "uint32_t number", "int is_long"]
        );
        assert_eq!(
            name.body.join(" "),
            "if ( number = = 1 ) { return \"a; } /* \\\" */\" ; } return \"\" ;"
        );
        assert_eq!(header.inlines["a_half"].signature, ["int", "int n"]);
        assert_eq!(header.inlines["a_half"].body.join(" "), "return n / 2 ;");
        let functions: Vec<_> = header.declared.functions.into_keys().collect();
        assert_eq!(functions, ["a_last"]);
        assert_eq!(header.declared.enums["a"], ["A_ONE = 1"]);
    }

    #[test]
    #[should_panic(expected = "is cut off")]
    fn a_body_without_its_end() {
        Header::of("static inline int a(void)\n{\n    return 1;\n");
    }

    #[test]
    #[should_panic(expected = "a string has no end")]
    fn a_string_without_its_end() {
        Header::of("static inline int a(void) { return \"b; }");
    }

    #[test]
    #[should_panic(expected = "is not understood")]
    fn what_is_no_declaration() {
        Header::of("int a;");
    }
}
