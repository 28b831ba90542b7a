//! Stand-in for the crate `unicode_ident`: exact below 128, near to it above.
//!
//! Document 01 refuses bytes of 128 and above, so only `full` ever asks about those.

pub fn is_xid_start(c: char) -> bool {
    c.is_alphabetic()
}

pub fn is_xid_continue(c: char) -> bool {
    c.is_alphanumeric() || c == '_'
}
