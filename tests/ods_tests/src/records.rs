//! Text files as records: bytes by hand, each fault with its place, texts there and back, one idea a file.
mod attributes;
mod reading;
mod refused_memory;
mod sized;
mod texts;
mod there_and_back;
mod writing;
