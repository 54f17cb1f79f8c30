//! The two models of the walk, of which a caller chooses one.
use korsepal::Manner;

#[derive(Clone, Copy, PartialEq)]
pub enum Model {
    /// Document 01's, which is the Rust's.
    Document,
    /// The full one of document 02, requests 1 and 7. The Rust has none; `full.rs` has its rule.
    Full,
}

pub const MODELS: [Model; 2] = [Model::Document, Model::Full];

impl Model {
    /// How the library is asked for it. A report is asked for in a wording besides.
    pub fn manner(self) -> Manner {
        match self {
            Model::Document => Manner::default(),
            Model::Full => Manner::default().full(),
        }
    }

    /// What stands before the name of what is compared.
    pub fn named(self, what: &str) -> String {
        match self {
            Model::Document => what.to_string(),
            Model::Full => format!("full model's {what}"),
        }
    }
}
