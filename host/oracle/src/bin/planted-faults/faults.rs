//! The faults: what each does, and the change that plants it.

/// A fault to plant.
pub struct Fault {
    /// Its name.
    pub name: &'static str,
    /// What the faulty reader does.
    pub about: &'static str,
    /// The changes that plant it.
    pub changes: &'static [Change],
}

/// Replaces a piece of a file that is there exactly once.
pub struct Change {
    /// The file, from `oracle/`.
    pub file: &'static str,
    /// What is there.
    pub from: &'static str,
    /// What comes in its place.
    pub to: &'static str,
}

const LEXER: &str = "cuddld_pkg_config/src/lexer.rs";
const PARSER: &str = "cuddld_pkg_config/src/parser.rs";
const TEMPLATE: &str = "cuddld_pkg_config/src/template.rs";
const ANSWER: &str = "src/answer.rs";

/// All faults.
pub const FAULTS: &[Fault] = &[
    Fault {
        name: "line-ends-not-paired",
        about: "CR LF and LF CR are two line ends each",
        changes: &[
            Change {
                file: LEXER,
                from: r"(current == '\n' && peek == Some(&'\r')) || (current == '\r' && peek == Some(&'\n'))",
                to: r"current == '\0' && peek.is_none()",
            },
        ],
    },
    Fault {
        name: "lf-cr-not-paired",
        about: "LF CR is two line ends",
        changes: &[
            Change {
                file: LEXER,
                from: r"(current == '\n' && peek == Some(&'\r')) || (current",
                to: "(current",
            },
        ],
    },
    Fault {
        name: "equal-line-ends-paired",
        about: "LF LF is one line end",
        changes: &[
            Change {
                file: LEXER,
                from: r"(current == '\n' && peek == Some(&'\r'))",
                to: r"(current == '\n' && (peek == Some(&'\r') || peek == Some(&'\n')))",
            },
        ],
    },
    Fault {
        name: "comment-eats-line-end",
        about: "a comment takes its line end along",
        changes: &[
            Change {
                file: LEXER,
                from: r"None | Some('\n') | Some('\r') => break,",
                to: r"None => break,
                        Some('\n') | Some('\r') => {
                            let _ = self.input.next();
                            break;
                        }",
            },
        ],
    },
    Fault {
        name: "comment-stops-at-lf-only",
        about: "a CR does not end a comment",
        changes: &[
            Change {
                file: LEXER,
                from: r"None | Some('\n') | Some('\r') => break,",
                to: r"None | Some('\n') => break,",
            },
        ],
    },
    Fault {
        name: "backslash-in-comment",
        about: "a backslash in a comment joins the next line to it",
        changes: &[
            Change {
                file: LEXER,
                from: "                        Some(_) => {
                            let _ = self.input.next();
                        }",
                to: r"                        Some(_) => {
                            if self.input.next() == Some('\\') {
                                let _ = self.input.next();
                            }
                        }",
            },
        ],
    },
    Fault {
        name: "comment-only-after-token",
        about: "`#` inside text is text",
        changes: &[
            Change {
                file: LEXER,
                from: "} else if c == '#' {",
                to: "} else if c == '#' && self.text_buffer.is_empty() {",
            },
        ],
    },
    Fault {
        name: "dollar-before-lf-ends-line",
        about: "`$` before a line end leaves the line end",
        changes: &[
            Change {
                file: LEXER,
                from: "                    Some(other) => {
                        self.text_buffer.push(c);",
                to: r"                    Some('\n') => {
                        self.text_buffer.push(c);
                        self.flush_text();
                        self.result.push(Token::NewLine);
                    }
                    Some(other) => {
                        self.text_buffer.push(c);",
            },
        ],
    },
    Fault {
        name: "dollar-takes-pair",
        about: "`$` before CR LF takes both",
        changes: &[
            Change {
                file: LEXER,
                from: "                        self.text_buffer.push(other);",
                to: "                        self.text_buffer.push(other);
                        self.maybe_consume_second_newline(other);",
            },
        ],
    },
    Fault {
        name: "dollar-before-blank",
        about: "`$` before a blank leaves the blank",
        changes: &[
            Change {
                file: LEXER,
                from: "                    Some(other) => {
                        self.text_buffer.push(c);",
                to: "                    Some(' ') => {
                        self.text_buffer.push(c);
                        self.flush_text();
                        self.result.push(Token::Whitespace(' '));
                    }
                    Some(other) => {
                        self.text_buffer.push(c);",
            },
        ],
    },
    Fault {
        name: "dollar-dollar-kept",
        about: "`$$` is text `$$`",
        changes: &[
            Change {
                file: LEXER,
                from: "// For whatever reason, $ is escaped as $$.",
                to: "self.text_buffer.push('$');",
            },
        ],
    },
    Fault {
        name: "dollar-at-end-dropped",
        about: "`$` at the end of the text is dropped",
        changes: &[
            Change {
                file: LEXER,
                from: "None => self.text_buffer.push(c),",
                to: "None => {}",
            },
        ],
    },
    Fault {
        name: "joined-lines-keep-blank",
        about: "a backslash before a line end leaves a blank",
        changes: &[
            Change {
                file: LEXER,
                from: "                        let _ = self.input.next();
                        self.maybe_consume_second_newline(c);",
                to: "                        let _ = self.input.next();
                        self.maybe_consume_second_newline(c);
                        self.text_buffer.push(' ');",
            },
        ],
    },
    Fault {
        name: "joined-lines-end-text",
        about: "a backslash before a line end ends the text",
        changes: &[
            Change {
                file: LEXER,
                from: "                        let _ = self.input.next();
                        self.maybe_consume_second_newline(c);",
                to: "                        let _ = self.input.next();
                        self.maybe_consume_second_newline(c);
                        self.flush_text();",
            },
        ],
    },
    Fault {
        name: "joined-lines-single",
        about: "a backslash before CR LF joins over the CR alone",
        changes: &[
            Change {
                file: LEXER,
                from: "                        let _ = self.input.next();
                        self.maybe_consume_second_newline(c);",
                to: "                        let _ = self.input.next();
                        let _ = c;",
            },
        ],
    },
    Fault {
        name: "escaped-number-sign-keeps-backslash",
        about: "backslash before `#` stays",
        changes: &[
            Change {
                file: LEXER,
                from: "self.text_buffer.push('#');",
                to: r#"self.text_buffer.push_str("\\#");"#,
            },
        ],
    },
    Fault {
        name: "tab-is-text",
        about: "a tab is no blank",
        changes: &[
            Change {
                file: LEXER,
                from: r"c == ' ' || c == '\t'",
                to: "c == ' '",
            },
        ],
    },
    Fault {
        name: "identifier-takes-hyphen",
        about: "`-` is allowed in names",
        changes: &[
            Change {
                file: LEXER,
                from: "chr == '.' || chr == '_'",
                to: "chr == '.' || chr == '_' || chr == '-'",
            },
        ],
    },
    Fault {
        name: "identifier-takes-letters-outside-ascii",
        about: "letters outside ASCII are allowed in names",
        changes: &[
            Change {
                file: LEXER,
                from: "chr.is_ascii_alphanumeric()",
                to: "chr.is_alphanumeric()",
            },
        ],
    },
    Fault {
        name: "identifier-without-dot",
        about: "`.` is not allowed in names",
        changes: &[
            Change {
                file: LEXER,
                from: "chr == '.' || chr == '_'",
                to: "chr == '_'",
            },
        ],
    },
    Fault {
        name: "empty-reference-refused",
        about: "`${}` is refused in the lexer",
        changes: &[
            Change {
                file: LEXER,
                from: "                                Some('}') => {",
                to: "                                Some('}') if name.is_empty() => return Err(LexError::MissingCloseVariable),
                                Some('}') => {",
            },
        ],
    },
    Fault {
        name: "all-trailing-blanks-cut",
        about: "all blanks before a line end drop",
        changes: &[
            Change {
                file: PARSER,
                from: "            if !pending_whitespace.is_empty() {",
                to: "            if !pending_whitespace.is_empty() && !matches!(self.tokens.peek(), Some(Token::Whitespace(_))) {",
            },
        ],
    },
    Fault {
        name: "trailing-blanks-cut-at-end",
        about: "blanks at the end of the text drop",
        changes: &[
            Change {
                file: PARSER,
                from: "            if !pending_whitespace.is_empty() {",
                to: "            if !pending_whitespace.is_empty() && self.tokens.peek().is_some() {",
            },
        ],
    },
    Fault {
        name: "no-trailing-blank-cut",
        about: "the last blank before a line end stays",
        changes: &[
            Change {
                file: PARSER,
                from: "        Ok(template)
    }",
                to: "        if !pending_whitespace.is_empty() {
            template.push(TemplateComponent::Text(pending_whitespace));
        }
        Ok(template)
    }",
            },
        ],
    },
    Fault {
        name: "13-before-14",
        about: "a list field given twice is refused before its value is read",
        changes: &[
            Change {
                file: PARSER,
                from: "                        let value = self.parse_args()?;",
                to: "                        let twice = match field {
                            ArgsField::CFlags => self.cflags.is_some(),
                            ArgsField::Libs => self.libs.is_some(),
                            ArgsField::LibsPrivate => self.libs_private.is_some(),
                        };
                        if twice {
                            return Err(ParseError::DuplicateField(key));
                        }
                        let value = self.parse_args()?;",
            },
        ],
    },
    Fault {
        name: "12-after-line-end",
        about: "an unknown field is refused only if the line has a value",
        changes: &[
            Change {
                file: PARSER,
                from: "                    _ => return Err(ParseError::UnknownField(key)),",
                to: "                    _ if self.tokens.peek().is_none() => return Ok(()),
                    _ => return Err(ParseError::UnknownField(key)),",
            },
        ],
    },
    Fault {
        name: "10-never",
        about: "names are not tested",
        changes: &[
            Change {
                file: PARSER,
                from: "if !key.chars().all(is_valid_identifier) {",
                to: "if key.is_empty() || !key.chars().any(is_valid_identifier) {",
            },
        ],
    },
    Fault {
        name: "11-never",
        about: "the later of two assignments wins",
        changes: &[
            Change {
                file: PARSER,
                from: "if self.variables.contains_key(&key) {",
                to: "if self.variables.contains_key(&key) && key.is_empty() {",
            },
        ],
    },
    Fault {
        name: "variables-and-fields-share-names",
        about: "an assignment to `Name` after the field is refused",
        changes: &[
            Change {
                file: PARSER,
                from: "if self.variables.contains_key(&key) {",
                to: r#"if self.variables.contains_key(&key) || (key == "Name" && self.name.is_some()) {"#,
            },
        ],
    },
    Fault {
        name: "escape-outlives-its-token",
        about: "a backslash in a list counts for two tokens",
        changes: &[
            Change {
                file: PARSER,
                from: "escaped_iterations = 2;",
                to: "escaped_iterations = 3;",
            },
        ],
    },
    Fault {
        name: "escape-counts-for-none",
        about: "a backslash in a list counts for no token",
        changes: &[
            Change {
                file: PARSER,
                from: "escaped_iterations = 2;",
                to: "escaped_iterations = 1;",
            },
        ],
    },
    Fault {
        name: "empty-quotes-listed",
        about: r#"`""` gives an empty argument"#,
        changes: &[
            Change {
                file: PARSER,
                from: "QuoteMode::Double => quote = QuoteMode::None,",
                to: r#"QuoteMode::Double => {
                        quote = QuoteMode::None;
                        current.push(TemplateComponent::TextStatic(""));
                    }"#,
            },
        ],
    },
    Fault {
        name: "other-quote-closes",
        about: r#"`"` closes what `'` opened"#,
        changes: &[
            Change {
                file: PARSER,
                from: "QuoteMode::Double => quote = QuoteMode::None,",
                to: "QuoteMode::Double | QuoteMode::Single => quote = QuoteMode::None,",
            },
        ],
    },
    Fault {
        name: "backslash-before-other-quote",
        about: r#"inside `'` a backslash before `"` drops"#,
        changes: &[
            Change {
                file: PARSER,
                from: "                                (QuoteMode::Double, Some(Token::DoubleQuote)) => {",
                to: "                                (_, Some(Token::DoubleQuote)) => {",
            },
        ],
    },
    Fault {
        name: "backslash-pairs-in-quotes",
        about: "inside quotes two backslashes are one, as in a shell",
        changes: &[
            Change {
                file: PARSER,
                from: r#"                                _ => current.push(TemplateComponent::TextStatic("\\")),"#,
                to: r#"                                (_, Some(Token::Backslash)) => {
                                    self.next_token();
                                    current.push(TemplateComponent::TextStatic("\\"));
                                }
                                _ => current.push(TemplateComponent::TextStatic("\\")),"#,
            },
        ],
    },
    Fault {
        name: "quote-may-stay-open",
        about: "a quote left open is closed by the line end",
        changes: &[
            Change {
                file: PARSER,
                from: "        if quote.is_quoted() {
            return",
                to: "        if quote.is_quoted() && current.is_empty() {
            return",
            },
        ],
    },
    Fault {
        name: "libs-private-is-libs",
        about: "`Libs.private` is stored as `Libs`",
        changes: &[
            Change {
                file: PARSER,
                from: r#""Libs.private" => ArgsField::LibsPrivate.into(),"#,
                to: r#""Libs.private" => ArgsField::Libs.into(),"#,
            },
        ],
    },
    Fault {
        name: "url-in-any-case",
        about: "`Url` is taken for `URL`",
        changes: &[
            Change {
                file: PARSER,
                from: r#""URL" =>"#,
                to: r#""URL" | "Url" =>"#,
            },
        ],
    },
    Fault {
        name: "fields-resolve-out-of-order",
        about: "`Libs` resolves before `Cflags`",
        changes: &[
            Change {
                file: PARSER,
                from: "                cflags,
                libs,",
                to: "                libs,
                cflags,",
            },
        ],
    },
    Fault {
        name: "split-after-expansion",
        about: "arguments are split again after references are put in",
        changes: &[
            Change {
                file: PARSER,
                from: "        Ok(resolve!(",
                to: "        let mut config: PkgConfig = resolve!(",
            },
            Change {
                file: PARSER,
                from: "                libs_private,
            }
        ))",
                to: "                libs_private,
            }
        );
        if let Some(list) = &mut config.libs {
            *list = list.iter().flat_map(|whole| whole.split(' ').map(str::to_owned)).collect();
        }
        Ok(config)",
            },
        ],
    },
    Fault {
        name: "empty-arguments-dropped",
        about: "an argument that comes out empty is dropped",
        changes: &[
            Change {
                file: PARSER,
                from: "        Ok(resolve!(",
                to: "        let mut config: PkgConfig = resolve!(",
            },
            Change {
                file: PARSER,
                from: "                libs_private,
            }
        ))",
                to: "                libs_private,
            }
        );
        if let Some(list) = &mut config.libs {
            list.retain(|argument| !argument.is_empty());
        }
        Ok(config)",
            },
        ],
    },
    Fault {
        name: "limit-over-a-list",
        about: "the limit is for a list's arguments together",
        changes: &[
            Change {
                file: PARSER,
                from: "        Ok(resolve!(",
                to: "        let config: PkgConfig = resolve!(",
            },
            Change {
                file: PARSER,
                from: "                libs_private,
            }
        ))",
                to: r#"                libs_private,
            }
        );
        if config.libs.iter().flatten().map(String::len).sum::<usize>() > 1024 * 1024 * 64 {
            return Err(ParseError::ContentTooLarge(WhileResolving::Field("libs")));
        }
        Ok(config)"#,
            },
        ],
    },
    Fault {
        name: "blanks-before-key",
        about: "blanks at a line's start are refused",
        changes: &[
            Change {
                file: PARSER,
                from: "        self.skip_whitespace();

        let key",
                to: "        let key",
            },
        ],
    },
    Fault {
        name: "blanks-after-key",
        about: "blanks after a key are refused",
        changes: &[
            Change {
                file: PARSER,
                from: "        self.skip_whitespace();

        match self.next_token() {
            Some(Token::Colon)",
                to: "        match self.next_token() {
            Some(Token::Colon)",
            },
        ],
    },
    Fault {
        name: "blanks-after-equals",
        about: "blanks after `=` stay",
        changes: &[
            Change {
                file: PARSER,
                from: "                self.skip_whitespace();
                let value = self.parse_template()?;

                if",
                to: "                let value = self.parse_template()?;

                if",
            },
        ],
    },
    Fault {
        name: "counts-from-next-pass",
        about: "a value found counts only from the next pass",
        changes: &[
            Change {
                file: TEMPLATE,
                from: "        let mut to_remove = Vec::new();",
                to: "        let mut to_remove = Vec::new();
        let mut found = Vec::new();",
            },
            Change {
                file: TEMPLATE,
                from: "                    result.insert(name.clone(), resolved);",
                to: "                    found.push((name.clone(), resolved));",
            },
            Change {
                file: TEMPLATE,
                from: "        for name in to_remove {",
                to: "        result.extend(found);
        for name in to_remove {",
            },
        ],
    },
    Fault {
        name: "one-pass",
        about: "only the first pass is made",
        changes: &[
            Change {
                file: TEMPLATE,
                from: "        if this_cycle == 0 {",
                to: "        if this_cycle < usize::MAX {",
            },
        ],
    },
    Fault {
        name: "idle-pass-skipped",
        about: "the pass that finds nothing is not made",
        changes: &[
            Change {
                file: TEMPLATE,
                from: "        if this_cycle == 0 {",
                to: "        let ready = |template: &Template| {
            template.components.iter().all(|component| match component {
                TemplateComponent::Variable(name) => result.contains_key(name),
                _ => true,
            })
        };
        if this_cycle == 0 || !templates.values().any(ready) {",
            },
        ],
    },
    Fault {
        name: "visited-backwards",
        about: "names are visited from the largest down",
        changes: &[
            Change {
                file: TEMPLATE,
                from: "in templates.iter() {",
                to: "in templates.iter().rev() {",
            },
        ],
    },
    Fault {
        name: "15-for-the-largest",
        about: "15 names the largest name without a value",
        changes: &[
            Change {
                file: TEMPLATE,
                from: "templates.pop_first()",
                to: "templates.pop_last()",
            },
        ],
    },
    Fault {
        name: "15-for-the-first-reference",
        about: "15 names the first reference, with a value or not",
        changes: &[
            Change {
                file: TEMPLATE,
                from: "                    ParseError::UndefinedVariable(var.clone(), while_resolving.clone())",
                to: "                    let first = self.components.iter().find_map(|component| match component {
                        TemplateComponent::Variable(name) => Some(name.clone()),
                        _ => None,
                    });
                    let first = first.unwrap_or_else(|| var.clone());
                    ParseError::UndefinedVariable(first, while_resolving.clone())",
            },
        ],
    },
    Fault {
        name: "15-for-the-last-missing",
        about: "15 names the last reference without a value",
        changes: &[
            Change {
                file: TEMPLATE,
                from: "                    ParseError::UndefinedVariable(var.clone(), while_resolving.clone())",
                to: "                    let last = self.components.iter().rev().find_map(|component| match component {
                        TemplateComponent::Variable(name) if !variables.contains_key(name) => Some(name.clone()),
                        _ => None,
                    });
                    let last = last.unwrap_or_else(|| var.clone());
                    ParseError::UndefinedVariable(last, while_resolving.clone())",
            },
        ],
    },
    Fault {
        name: "limit-one-less",
        about: "67,108,864 bytes are too many",
        changes: &[
            Change {
                file: TEMPLATE,
                from: "output.len() + new.len() > MAX_TEMPLATE_SIZE",
                to: "output.len() + new.len() >= MAX_TEMPLATE_SIZE",
            },
        ],
    },
    Fault {
        name: "limit-one-more",
        about: "67,108,865 bytes pass",
        changes: &[
            Change {
                file: TEMPLATE,
                from: "1024 * 1024 * 64;",
                to: "1024 * 1024 * 64 + 1;",
            },
        ],
    },
    Fault {
        name: "limit-before-the-part",
        about: "the limit is tested before a part is added",
        changes: &[
            Change {
                file: TEMPLATE,
                from: "output.len() + new.len() > MAX_TEMPLATE_SIZE",
                to: "output.len() > MAX_TEMPLATE_SIZE",
            },
        ],
    },
    Fault {
        name: "limit-at-the-end",
        about: "the limit is tested when all parts are there",
        changes: &[
            Change {
                file: TEMPLATE,
                from: "            if output.len() + new.len() > MAX_TEMPLATE_SIZE {
                return Err(ParseError::ContentTooLarge(while_resolving.clone()));
            }
            output.push_str(new);
        }",
                to: "            output.push_str(new);
        }
        if output.len() > MAX_TEMPLATE_SIZE {
            return Err(ParseError::ContentTooLarge(while_resolving.clone()));
        }",
            },
        ],
    },
    Fault {
        name: "16-waits-like-15",
        about: "a name that is too large is passed over until the end",
        changes: &[
            Change {
                file: TEMPLATE,
                from: "                Err(ParseError::UndefinedVariable(_, _)) => {}",
                to: "                Err(ParseError::UndefinedVariable(_, _) | ParseError::ContentTooLarge(_)) => {}",
            },
        ],
    },
    Fault {
        name: "missing-is-empty",
        about: "an empty name stands for an empty value",
        changes: &[
            Change {
                file: TEMPLATE,
                from: "TemplateComponent::Variable(var) => variables.get(var)",
                to: r#"TemplateComponent::Variable(var) if var.is_empty() => "",
                TemplateComponent::Variable(var) => variables.get(var)"#,
            },
        ],
    },
    Fault {
        name: "field-numbers-swapped",
        about: "15 and 16 give `Requires` and `Requires.private` each other's number",
        changes: &[
            Change {
                file: ANSWER,
                from: r#"Some("requires") => 5,"#,
                to: r#"Some("requires") => 6,"#,
            },
            Change {
                file: ANSWER,
                from: r#"Some("requires_private") => 6,"#,
                to: r#"Some("requires_private") => 5,"#,
            },
        ],
    },
    Fault {
        name: "records-out-of-order",
        about: "the record of `Libs` comes before that of `Cflags`",
        changes: &[
            Change {
                file: ANSWER,
                from: "[(8, &config.cflags), (9, &config.libs),",
                to: "[(9, &config.libs), (8, &config.cflags),",
            },
        ],
    },
    Fault {
        name: "counts-big-endian",
        about: "a list's count has its bytes the other way round",
        changes: &[
            Change {
                file: ANSWER,
                from: "writer.record(kind, &count.to_le_bytes());",
                to: "writer.record(kind, &count.to_be_bytes());",
            },
        ],
    },
    Fault {
        name: "code-point-in-16-bits",
        about: "6 gives the code point's low 16 bits",
        changes: &[
            Change {
                file: ANSWER,
                from: "(6, u32::from(*c), ",
                to: "(6, u32::from(*c) & 0xffff, ",
            },
        ],
    },
    Fault {
        name: "names-swapped",
        about: "15 gives the variable before the reference",
        changes: &[
            Change {
                file: ANSWER,
                from: "(15, field, name.clone(), variable)",
                to: "(15, field, variable, name.clone())",
            },
        ],
    },
];
