//! The refusal numbers of 01 and 02.

pub type Refusal = u16;

pub const OVER_60000_BYTES: Refusal = 1;
pub const NO_SUCH_FORM: Refusal = 2;
pub const OUT_OF_PLACE: Refusal = 3;
pub const TOO_FEW_TREES: Refusal = 4;
pub const TOO_MANY_NODES: Refusal = 5;
pub const NINTH_GROUP: Refusal = 6;
pub const NOT_ONE_TREE: Refusal = 7;
pub const MARK_NOT_IN_SHEET_TREE: Refusal = 8;
pub const MARK_TWICE: Refusal = 9;
pub const NO_END: Refusal = 10;

pub const SHORT_TREE_BUFFER: Refusal = 11;
pub const NOT_A_TREE: Refusal = 12;
pub const NO_SUCH_POSITION: Refusal = 13;
pub const LEVELS: Refusal = 14;
pub const NO_STEP: Refusal = 15;
pub const RESULT_TOO_LONG: Refusal = 16;
pub const OVER_8_GROUPS: Refusal = 17;
pub const MARKS: Refusal = 18;
pub const NOT_GATHERABLE: Refusal = 19;
pub const SHORT_CODE_BUFFER: Refusal = 20;

pub const UNDER_64_BYTES: Refusal = 21;
pub const CODE_LENGTH: Refusal = 22;
pub const INSTRUCTION: Refusal = 23;
pub const PATCH_LENGTH: Refusal = 24;
pub const PAIR: Refusal = 25;

/// 02, request 5.
pub const FOREIGN_GROUP: Refusal = 26;

/// 02, request 6.
pub const INTERSECTION_ABOVE: Refusal = 27;

/// 02, request 7.
pub const TABLE_FORM: Refusal = 28;
pub const TABLE_WORD: Refusal = 29;

/// 02, request 10.
pub const NO_QUESTION: Refusal = 30;
