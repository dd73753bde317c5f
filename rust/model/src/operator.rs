//! The operators by number.

/// Makes the enum and the list of all its cases in one order.
macro_rules! operators {
    ($($name:ident,)*) => {
        /// An operator. Its number on a sheet is its place in this order.
        #[derive(Debug, Clone, Copy, PartialEq, Eq, PartialOrd, Ord)]
        #[allow(missing_docs)]
        pub enum Operator {
            $($name,)*
        }

        /// All operators, each at its number.
        pub const OPERATORS: [Operator; 135] = [$(Operator::$name,)*];
    };
}

operators! {
    // 0 to 9: logic
    True, False, Not, Implies, And, Or, Xor, Equals, Distinct, Ite,
    // 10 to 26: arithmetic
    Add, Sub, Mult, IntDiv, RealDiv, Mod, Abs, LessThan, GreaterThan, LessEq, GreaterEq, ToReal, ToInt,
    IsInt, Pow2, IsPow2, Log2,
    // 27 to 41: transcendentals
    RealPi, Sqrt, Exp, Sin, Cos, Tan, Csc, Sec, Cot, Arcsin, Arccos, Arctan, Arccsc, Arcsec, Arccot,
    // 42 to 43: arrays
    Select, Store,
    // 44 to 63: strings
    StrConcat, StrLen, StrLessThan, StrLessEq, CharAt, Substring, PrefixOf, SuffixOf, Contains, IndexOf,
    IndexOfRe, Replace, ReplaceAll, ReplaceRe, ReplaceReAll, StrIsDigit, StrToCode, StrFromCode, StrToInt,
    StrFromInt,
    // 64 to 78: regular expressions
    StrToRe, StrInRe, ReNone, ReAll, ReAllChar, ReConcat, ReUnion, ReIntersection, ReKleeneClosure,
    ReComplement, ReDiff, ReKleeneCross, ReOption, ReRange, ReFromAutomaton,
    // 79 to 114: bit-vectors
    BvNot, BvNeg, BvAnd, BvOr, BvAdd, BvMul, BvUDiv, BvURem, BvShl, BvLShr, BvULt, BvConcat, BvNAnd, BvNOr,
    BvXor, BvXNor, BvComp, BvSub, BvSDiv, BvSRem, BvSMod, BvAShr, BvULe, BvUGt, BvUGe, BvSLt, BvSLe, BvSGt,
    BvSGe, UBvToInt, SBvToInt, BvPBbTerm, BvBbTerm, BvConst, BvSize, BvIte,
    // 115 to 117: lists and clauses
    RareList, Cl, Delete,
    // 118 to 134: sets and relations
    SetUnion, SetInter, SetMinus, SetMember, SetSubset, SetSingleton, SetIsEmpty, SetIsSingleton, SetCard,
    SetInsert, SetComplement, Tuple, TupleUnit, RelTranspose, RelTclosure, RelJoin, RelProduct,
}

/// The indexed operators. Their number on a sheet is their place in this order.
#[derive(Debug, Clone, Copy, PartialEq, Eq)]
#[allow(missing_docs)]
pub enum Indexed {
    Extract,
    BitOf,
    IntOf,
    ZeroExtend,
    SignExtend,
    RotateLeft,
    RotateRight,
    Repeat,
    BvConst,
    IntToBv,
    RePower,
    ReLoop,
}

/// All indexed operators, each at its number.
pub const INDEXED: [Indexed; 12] = [
    Indexed::Extract,
    Indexed::BitOf,
    Indexed::IntOf,
    Indexed::ZeroExtend,
    Indexed::SignExtend,
    Indexed::RotateLeft,
    Indexed::RotateRight,
    Indexed::Repeat,
    Indexed::BvConst,
    Indexed::IntToBv,
    Indexed::RePower,
    Indexed::ReLoop,
];
