//! Tests of the oracle's four calls, against the specification's words.

mod any_bytes;
mod backlog;
mod door;
mod messages;
mod panel;
mod reader;
mod ring;
mod support;
mod trials;
mod visits;
mod whole;
