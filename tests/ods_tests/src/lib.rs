//! Tests that are run and not proved: of the formats, of archives, of text files as records, of mounted images and the program's engine, of requests
//! on a volume, and of sessions. What they share stands beside them: the volumes that they are made on, the users, files and names that
//! they ask about, and a plain, slow reader.
#![tactic(auto)]

#[cfg(test)]
mod archives;
pub mod contiguous;
pub mod dice;
#[cfg(test)]
mod formats;
#[cfg(test)]
mod mounted;
#[cfg(test)]
mod paths;
pub mod persons;
pub mod reader;
#[cfg(test)]
mod records;
#[cfg(test)]
mod requests;
pub mod same;
#[cfg(test)]
mod sessions;
pub mod settings;
#[cfg(test)]
mod upkeep;
pub mod volumes;
