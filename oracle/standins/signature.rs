//! Stand-in for `parser/signature.rs`: nothing that reads a source calls it.
