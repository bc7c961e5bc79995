//! The independent second program: the answers of document 01 by other means than the library's.
//!
//! | Notion | Here |
//! |---|---|
//! | text | cut into tokens and split between partners (`text`); places by trying completions (`judge`) |
//! | language | Brzozowski's derivatives (`derive`) |
//! | sets reached | an automaton with empty steps (`sets`) |
//! | ways | breadth first, backward from the accepting states (`ways`) |
//! | smallest machine | double reversal (`smallest`) |
//! | comparison | lengths of all pairs, and breadth first (`pairs`) |
//! | form | a list of bits (`form`) |
//! | entry desk | lists of texts, and forms judged by typing them again (`desk`) |
//!
//! ```
//! let left = second::machine(b"a*b*").unwrap();
//! let right = second::machine(b"(a|b)*").unwrap();
//! assert_eq!(second::pairs::separation(&left, &right), Some(b"ba".to_vec()));
//! ```

pub mod answer;
pub mod derive;
pub mod desk;
pub mod form;
pub mod judge;
pub mod limits;
pub mod machine;
pub mod matching;
pub mod operations;
pub mod pairs;
pub mod sets;
pub mod smallest;
pub mod text;
pub mod ways;

pub use machine::{sound, Machine};
pub use operations::{
    compare, compile, desk_key, desk_open, machine, match_text, minimise, pack, unpack,
};
pub use smallest::canonical;
