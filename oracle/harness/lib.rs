//! The original's parser, fed with token lists, and what the document adds around it.

pub mod answer;
pub mod bundle;
pub mod chance;
pub mod classes;
pub mod compiler;
pub mod cost;
pub mod damage;
pub mod entry;
pub mod grammatical;
pub mod lent;
pub mod lent_sheets;
pub mod listing;
pub mod probe;
pub mod records;
pub mod sites;
pub mod spell;
pub mod utils;
