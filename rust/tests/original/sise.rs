//! The crate sise 0.8.0 as a library of its name, for programs that are compiled against it. Its macro is this package's.

include!("root.rs");

include!("../../src/macros.rs");
