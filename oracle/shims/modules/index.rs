//! Ids that later passes give. The parser leaves them empty.

#[derive(Debug, Clone, Copy, PartialEq, Eq)]
pub struct ScopeId;

#[derive(Debug, Clone, Copy, PartialEq, Eq)]
pub struct FunctionId;

#[derive(Debug, Clone, Copy, PartialEq, Eq)]
pub struct ReferenceId;
