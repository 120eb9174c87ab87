//! A stand-in for the types that format.rs imports. Payloads carry nothing that format.rs looks at.
pub mod tokentypes {
    #[derive(Debug, Clone, PartialEq)]
    pub enum TokenType {
        Eof,
        Newline,
        LeftBrace,
        RightBrace,
        LeftParen,
        RightParen,
        LeftBracket,
        RightBracket,
        Comma,
        Colon,
        Semicolon,
        Question,
        Dot,
        DotDot,
        ColonColon,
        Hash,
        Bang,
        BangHash,
        Minus,
        Else,
        Fn,
        Record,
        Identifier(()),
        NumberLiteral(()),
        ByteLiteral(()),
        StringLiteral(()),
        CharacterLiteral(()),
        FloatLiteral(()),
        BoolLiteral(()),
        Null,
        Array,
        Map,
        Set,
        Result,
        Other,
    }

    #[derive(Debug, Clone, PartialEq)]
    pub enum Trivia {
        LineComment(String),
        DocComment(String),
        BlockComment(String),
        BlankLine,
    }

    #[derive(Debug, Clone, PartialEq)]
    pub struct Token {
        pub token: TokenType,
        pub lexeme: String,
        pub leading_trivia: Vec<Trivia>,
        pub trailing_trivia: Vec<Trivia>,
    }

    /// The kind of each number (specification, 'Kinds').
    pub fn kind(number: u32) -> TokenType {
        use TokenType::*;
        let kinds = [
            Eof,
            Newline,
            LeftBrace,
            RightBrace,
            LeftParen,
            RightParen,
            LeftBracket,
            RightBracket,
            Comma,
            Colon,
            Semicolon,
            Question,
            Dot,
            DotDot,
            ColonColon,
            Hash,
            Bang,
            BangHash,
            Minus,
            Else,
            Fn,
            Record,
            Identifier(()),
            NumberLiteral(()),
            ByteLiteral(()),
            StringLiteral(()),
            CharacterLiteral(()),
            FloatLiteral(()),
            BoolLiteral(()),
            Null,
            Array,
            Map,
            Set,
            Result,
            Other,
        ];
        kinds[number as usize].clone()
    }

    pub fn trivia(number: u32, text: String) -> Trivia {
        match number {
            0 => Trivia::LineComment(text),
            1 => Trivia::DocComment(text),
            2 => Trivia::BlockComment(text),
            _ => Trivia::BlankLine,
        }
    }
}
