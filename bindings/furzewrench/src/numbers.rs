//! The numbers of specification, 'Rows', 'Kinds' and 'Options', by name.

macro_rules! numbered {
    ($(#[$about:meta])* $name:ident { $($(#[$each:meta])* $variant:ident = $number:literal,)+ }) => {
        $(#[$about])*
        #[derive(Clone, Copy, Debug, PartialEq, Eq, Hash)]
        #[repr(u32)]
        pub enum $name {
            $($(#[$each])* $variant = $number,)+
        }

        impl $name {
            /// The number.
            pub const fn number(self) -> u32 {
                self as u32
            }

            /// The variant that has this number.
            pub const fn from_number(number: u32) -> Option<$name> {
                match number {
                    $($number => Some($name::$variant),)+
                    _ => None,
                }
            }
        }
    };
}

numbered! {
    /// Where the opening brace of a block of several lines goes.
    Style {
        /// The brace ends the line before the block.
        SameLine = 0,
        /// The brace has a line of its own.
        Allman = 1,
    }
}

numbered! {
    /// What a row is.
    What {
        /// Trivia before its token.
        Leading = 0,
        /// A token.
        Token = 1,
        /// Trivia after its token.
        Trailing = 2,
    }
}

numbered! {
    /// The kinds of trivia: the kind of a leading or a trailing row. The bytes of a comment's row are its
    /// text without the marks, which the layout writes, so a row whose bytes begin with one shows two. What
    /// each kind writes is told in the crate's 'Comments'.
    Trivia {
        /// A comment after `//`.
        LineComment = 0,
        /// A comment after `///`.
        DocComment = 1,
        /// A comment between `/*` and `*/`.
        BlockComment = 2,
        /// A blank line. The row's bytes are not written.
        BlankLine = 3,
    }
}

numbered! {
    /// The kinds of tokens: the kind of a token row.
    Kind {
        /// The end of the file.
        Eof = 0,
        /// A line end.
        Newline = 1,
        /// `{`
        LeftBrace = 2,
        /// `}`
        RightBrace = 3,
        /// `(`
        LeftParen = 4,
        /// `)`
        RightParen = 5,
        /// `[`
        LeftBracket = 6,
        /// `]`
        RightBracket = 7,
        /// `,`
        Comma = 8,
        /// `:`
        Colon = 9,
        /// `;`
        Semicolon = 10,
        /// `?`
        Question = 11,
        /// `.`
        Dot = 12,
        /// `..`
        DotDot = 13,
        /// `::`
        ColonColon = 14,
        /// `#`
        Hash = 15,
        /// `!`
        Bang = 16,
        /// A mark of operator bytes, such as `!#`.
        BangHash = 17,
        /// `-`
        Minus = 18,
        /// `else`
        Else = 19,
        /// The word before a function's name.
        Fn = 20,
        /// The word before a record's name.
        Record = 21,
        /// A name.
        Identifier = 22,
        /// A number.
        NumberLiteral = 23,
        /// A byte.
        ByteLiteral = 24,
        /// A string.
        StringLiteral = 25,
        /// A character.
        CharacterLiteral = 26,
        /// A number with a fraction.
        FloatLiteral = 27,
        /// A truth value.
        BoolLiteral = 28,
        /// The null value.
        Null = 29,
        /// The array type's word.
        Array = 30,
        /// The map type's word.
        Map = 31,
        /// The set type's word.
        Set = 32,
        /// The result type's word.
        Result = 33,
        /// All other tokens.
        Other = 34,
    }
}

impl Kind {
    /// The lexeme that the plain mark asks of a token of this kind (specification, 'The plain mark'), or None
    /// where it asks for no one lexeme.
    ///
    /// ```
    /// use furzewrench::Kind;
    ///
    /// assert_eq!(Kind::ColonColon.lexeme(), Some("::"));
    /// assert_eq!(Kind::Identifier.lexeme(), None);
    /// ```
    pub const fn lexeme(self) -> Option<&'static str> {
        Some(match self {
            Kind::LeftBrace => "{",
            Kind::RightBrace => "}",
            Kind::LeftParen => "(",
            Kind::RightParen => ")",
            Kind::LeftBracket => "[",
            Kind::RightBracket => "]",
            Kind::Comma => ",",
            Kind::Colon => ":",
            Kind::Semicolon => ";",
            Kind::Question => "?",
            Kind::Dot => ".",
            Kind::DotDot => "..",
            Kind::ColonColon => "::",
            Kind::Hash => "#",
            Kind::Bang => "!",
            Kind::Minus => "-",
            Kind::Else => "else",
            _ => return None,
        })
    }
}

#[cfg(test)]
mod tests {
    use super::*;

    #[test]
    fn each_number_has_its_variant() {
        for number in 0..100 {
            assert_eq!(Style::from_number(number).map(Style::number), (number < 2).then_some(number));
            assert_eq!(What::from_number(number).map(What::number), (number < 3).then_some(number));
            assert_eq!(Trivia::from_number(number).map(Trivia::number), (number < 4).then_some(number));
            assert_eq!(Kind::from_number(number).map(Kind::number), (number < 35).then_some(number));
        }
    }

    #[test]
    fn lexemes_stand_at_kinds_2_to_16_and_18_and_19() {
        let expected = "{ } ( ) [ ] , : ; ? . .. :: # ! - else";
        let kinds = (2..=16).chain(18..=19);
        let lexeme = |number| Kind::from_number(number).and_then(Kind::lexeme);
        assert_eq!(kinds.filter_map(lexeme).collect::<Vec<_>>().join(" "), expected);
        assert_eq!((0..100).filter_map(lexeme).count(), 17);
    }
}
