//! Stands in for a module the source only mentions in comments.
