//! The kit's library held against a second reading of 01, the
//! document that defines the kit.
//!
//! [`model`] is that reading, written without a look at the library's code.
//! [`native`] is the library, reached through its C interface. [`compare`]
//! gives both the same call and looks at every answer and every lent byte;
//! [`circuits`] and [`random`] make the calls, [`cases`] counts them. [`claim`]
//! decides for small circuits what an accepted certificate promises.
//! [`program`] runs the report program. [`checksum`] stands for bytes that are
//! too many to be written out. [`documents`] holds what the documents name
//! against the repository's [`files`].

pub mod cases;
pub mod checksum;
pub mod circuits;
pub mod claim;
pub mod compare;
pub mod documents;
pub mod files;
pub mod model;
pub mod native;
pub mod program;
pub mod random;
