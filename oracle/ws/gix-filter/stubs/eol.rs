//! Stand-in: a module that no exchange reaches.
