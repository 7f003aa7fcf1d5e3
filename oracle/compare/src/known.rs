//! Differences that are known: a part of the text that reports one, and where it is explained. None is known.

pub const KNOWN: &[(&str, &str)] = &[];
