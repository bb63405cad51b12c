//! Archives of tar: what GNU tar writes, each fault with its place, and members there and back, one idea a file.
mod blocks;
mod faults;
mod gnu_tar;
mod of_the_host;
mod paths;
mod there_and_back;
mod twins;
