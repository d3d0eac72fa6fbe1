//! Stands in for the crate `unicode-ident`: exact for ASCII, near for the rest. Only `bundle` leans on it, through the lexer.

pub fn is_xid_start(c: char) -> bool {
    c.is_alphabetic()
}

pub fn is_xid_continue(c: char) -> bool {
    c == '_' || c.is_alphanumeric()
}
