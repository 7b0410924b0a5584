// The Rust declares this submodule; the driver needs nothing of geometry that is private.
