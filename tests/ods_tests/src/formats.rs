//! From blocks and names up to requests, one idea a file.
mod beside_map;
mod bitmaps;
mod catalogue;
mod chains;
mod deletions;
mod directories;
mod drafts;
mod headers;
mod home;
mod images;
mod kept;
mod layouts;
mod names;
mod orders;
mod requests;
mod scans;
mod words;
