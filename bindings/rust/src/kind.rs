use crate::numbered::numbered;

numbered! {
    /// What a row is. Document 01, "Rows", says which value and detail each has; 46 and 47 are document 02's.
    ///
    /// ```
    /// use lekhyundo::Kind;
    ///
    /// assert_eq!(Kind::of(23), Some(Kind::Call));
    /// assert_eq!(Kind::Call.number(), 23);
    /// assert_eq!(Kind::PathType.to_string(), "path type");
    /// assert_eq!(Kind::of(9), None);
    /// ```
    Kind {
        Name = 1 "name",
        Path = 2 "path",
        /// `!`
        Never = 3 "never type",
        /// `()`
        Unit = 4 "unit type",
        /// A type and `?`.
        Option = 5 "option type",
        PathType = 6 "path type",
        RecordType = 7 "record type",
        TypedName = 8 "name with type",
        Integer = 10 "integer",
        Float = 11 "float",
        Bool = 12 "bool",
        Asn = 13 "AS number",
        Ipv4 = 14 "IPv4 address",
        Ipv6 = 15 "IPv6 address",
        String = 16 "string",
        Char = 17 "char",
        Binary = 20 "binary",
        /// `!` before an operand.
        Not = 21 "not",
        /// `-` before an operand.
        Negate = 22 "negate",
        Call = 23 "call",
        Access = 24 "access",
        /// An operand and `?`.
        Question = 25 "question",
        Assign = 26 "assign",
        Return = 27 "return form",
        If = 28 "if",
        While = 29 "while",
        For = 30 "for",
        Match = 31 "match",
        Arm = 32 "arm",
        /// `_`
        Any = 33 "any",
        Variant = 34 "variant",
        Block = 35 "block",
        Record = 36 "record",
        Field = 37 "field",
        Let = 38 "let",
        Import = 39 "import",
        Const = 40 "const",
        Fn = 41 "fn",
        Test = 42 "test",
        /// The root of what [`Reader::tree`](crate::Reader::tree) reads.
        Tree = 43 "tree",
        ImportPath = 44 "import path",
        /// `filter` and `filtermap`; the detail is 1 or 2.
        Filter = 45 "filter",
        /// Its children are its texts and the expressions in its holes. It ends before the closing quote.
        FString = 46 "f-string",
        /// Its value is how many bytes it has in UTF-8 once escapes are read and pairs of braces halved. Empty ones have no row.
        Text = 47 "text of an f-string",
    }
}

numbered! {
    /// What a row of kind [`Binary`](Kind::Binary) does with its operands, by its detail: from the loosest on.
    Operator {
        Or = 1 "||",
        And = 2 "&&",
        Equal = 3 "==",
        NotEqual = 4 "!=",
        Less = 5 "<",
        LessEqual = 6 "<=",
        Greater = 7 ">",
        GreaterEqual = 8 ">=",
        Add = 9 "+",
        Subtract = 10 "-",
        Multiply = 11 "*",
        Divide = 12 "/",
        Remainder = 13 "%",
    }
}
