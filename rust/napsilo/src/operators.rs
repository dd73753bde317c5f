//! The operators of carcara with the numbers that they have on a sheet.
//!
//! The enums have carcara's names and order (`Operator`, `ParamOperator`, `QualifiedOperator`, `Binder` of `src/ast/term.rs`). A case's
//! number is its place in the enum. Left out are those that a sheet has not: `Operator::Custom`, `ParamOperator::Tester` and
//! `ParamOperator::TupleSelect`.

use std::fmt;

/// Makes an enum of operators from its cases, each with its number on a sheet and its symbol.
macro_rules! operators {
    ($(#[$doc:meta])* $name:ident { $($case:ident = $number:literal, $symbol:literal;)* }) => {
        $(#[$doc])*
        #[derive(Debug, Clone, Copy, PartialEq, Eq, PartialOrd, Ord, Hash)]
        #[repr(u8)]
        pub enum $name {
            $(
                #[doc = concat!("`", $symbol, "`, number ", $number, ".")]
                $case = $number,
            )*
        }

        impl $name {
            /// All cases, each at its number.
            pub const ALL: &'static [$name] = &[$($name::$case,)*];

            /// The number on a sheet.
            pub const fn number(self) -> u8 {
                self as u8
            }

            /// The case with this number, if there is one.
            pub fn from_number(number: u32) -> Option<Self> {
                Self::ALL.get(usize::try_from(number).ok()?).copied()
            }

            /// The symbol, as carcara writes it.
            pub const fn symbol(self) -> &'static str {
                match self {
                    $($name::$case => $symbol,)*
                }
            }
        }

        impl fmt::Display for $name {
            fn fmt(&self, f: &mut fmt::Formatter<'_>) -> fmt::Result {
                f.write_str(self.symbol())
            }
        }
    };
}

operators! {
    /// An operator of a term [`Op`](crate::TermRecord::Op).
    Operator {
        True = 0, "true";
        False = 1, "false";
        Not = 2, "not";
        Implies = 3, "=>";
        And = 4, "and";
        Or = 5, "or";
        Xor = 6, "xor";
        Equals = 7, "=";
        Distinct = 8, "distinct";
        Ite = 9, "ite";
        Add = 10, "+";
        Sub = 11, "-";
        Mult = 12, "*";
        IntDiv = 13, "div";
        RealDiv = 14, "/";
        Mod = 15, "mod";
        Abs = 16, "abs";
        LessThan = 17, "<";
        GreaterThan = 18, ">";
        LessEq = 19, "<=";
        GreaterEq = 20, ">=";
        ToReal = 21, "to_real";
        ToInt = 22, "to_int";
        IsInt = 23, "is_int";
        Pow2 = 24, "int.pow2";
        IsPow2 = 25, "int.ispow2";
        Log2 = 26, "int.log2";
        RealPi = 27, "real.pi";
        Sqrt = 28, "sqrt";
        Exp = 29, "exp";
        Sin = 30, "sin";
        Cos = 31, "cos";
        Tan = 32, "tan";
        Csc = 33, "csc";
        Sec = 34, "sec";
        Cot = 35, "cot";
        Arcsin = 36, "arcsin";
        Arccos = 37, "arccos";
        Arctan = 38, "arctan";
        Arccsc = 39, "arccsc";
        Arcsec = 40, "arcsec";
        Arccot = 41, "arccot";
        Select = 42, "select";
        Store = 43, "store";
        StrConcat = 44, "str.++";
        StrLen = 45, "str.len";
        StrLessThan = 46, "str.<";
        StrLessEq = 47, "str.<=";
        CharAt = 48, "str.at";
        Substring = 49, "str.substr";
        PrefixOf = 50, "str.prefixof";
        SuffixOf = 51, "str.suffixof";
        Contains = 52, "str.contains";
        IndexOf = 53, "str.indexof";
        IndexOfRe = 54, "str.indexof_re";
        Replace = 55, "str.replace";
        ReplaceAll = 56, "str.replace_all";
        ReplaceRe = 57, "str.replace_re";
        ReplaceReAll = 58, "str.replace_re_all";
        StrIsDigit = 59, "str.is_digit";
        StrToCode = 60, "str.to_code";
        StrFromCode = 61, "str.from_code";
        StrToInt = 62, "str.to_int";
        StrFromInt = 63, "str.from_int";
        StrToRe = 64, "str.to_re";
        StrInRe = 65, "str.in_re";
        ReNone = 66, "re.none";
        ReAll = 67, "re.all";
        ReAllChar = 68, "re.allchar";
        ReConcat = 69, "re.++";
        ReUnion = 70, "re.union";
        ReIntersection = 71, "re.inter";
        ReKleeneClosure = 72, "re.*";
        ReComplement = 73, "re.comp";
        ReDiff = 74, "re.diff";
        ReKleeneCross = 75, "re.+";
        ReOption = 76, "re.opt";
        ReRange = 77, "re.range";
        ReFromAutomaton = 78, "re.from_automaton";
        BvNot = 79, "bvnot";
        BvNeg = 80, "bvneg";
        BvAnd = 81, "bvand";
        BvOr = 82, "bvor";
        BvAdd = 83, "bvadd";
        BvMul = 84, "bvmul";
        BvUDiv = 85, "bvudiv";
        BvURem = 86, "bvurem";
        BvShl = 87, "bvshl";
        BvLShr = 88, "bvlshr";
        BvULt = 89, "bvult";
        BvConcat = 90, "concat";
        BvNAnd = 91, "bvnand";
        BvNOr = 92, "bvnor";
        BvXor = 93, "bvxor";
        BvXNor = 94, "bvxnor";
        BvComp = 95, "bvcomp";
        BvSub = 96, "bvsub";
        BvSDiv = 97, "bvsdiv";
        BvSRem = 98, "bvsrem";
        BvSMod = 99, "bvsmod";
        BvAShr = 100, "bvashr";
        BvULe = 101, "bvule";
        BvUGt = 102, "bvugt";
        BvUGe = 103, "bvuge";
        BvSLt = 104, "bvslt";
        BvSLe = 105, "bvsle";
        BvSGt = 106, "bvsgt";
        BvSGe = 107, "bvsge";
        UBvToInt = 108, "ubv_to_int";
        SBvToInt = 109, "sbv_to_int";
        BvPBbTerm = 110, "@pbbterm";
        BvBbTerm = 111, "@bbterm";
        BvConst = 112, "@bv";
        BvSize = 113, "@bvsize";
        BvIte = 114, "bvite";
        RareList = 115, "rare-list";
        Cl = 116, "cl";
        Delete = 117, "@d";
        SetUnion = 118, "set.union";
        SetInter = 119, "set.inter";
        SetMinus = 120, "set.minus";
        SetMember = 121, "set.member";
        SetSubset = 122, "set.subset";
        SetSingleton = 123, "set.singleton";
        SetIsEmpty = 124, "set.is_empty";
        SetIsSingleton = 125, "set.is_singleton";
        SetCard = 126, "set.card";
        SetInsert = 127, "set.insert";
        SetComplement = 128, "set.complement";
        Tuple = 129, "tuple";
        TupleUnit = 130, "tuple.unit";
        RelTranspose = 131, "rel.transpose";
        RelTclosure = 132, "rel.tclosure";
        RelJoin = 133, "rel.join";
        RelProduct = 134, "rel.product";
    }
}

operators! {
    /// An indexed operator, of a term [`ParamOp`](crate::TermRecord::ParamOp).
    ParamOperator {
        BvExtract = 0, "extract";
        BvBitOf = 1, "@bit_of";
        BvIntOf = 2, "@int_of";
        ZeroExtend = 3, "zero_extend";
        SignExtend = 4, "sign_extend";
        RotateLeft = 5, "rotate_left";
        RotateRight = 6, "rotate_right";
        Repeat = 7, "repeat";
        BvConst = 8, "bv";
        IntToBv = 9, "int_to_bv";
        RePower = 10, "re.^";
        ReLoop = 11, "re.loop";
    }
}

operators! {
    /// A qualified operator, of a term [`AsOp`](crate::TermRecord::AsOp).
    QualifiedOperator {
        Const = 0, "const";
        SetEmpty = 1, "set.empty";
        SetUniverse = 2, "set.universe";
    }
}

operators! {
    /// A binder, of a term [`Binder`](crate::TermRecord::Binder).
    Binder {
        Forall = 0, "forall";
        Exists = 1, "exists";
        Choice = 2, "choice";
        Lambda = 3, "lambda";
    }
}
