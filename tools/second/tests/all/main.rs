//! Tests of the port and of the trace program through their public functions.

mod calls;
mod events;
mod examples;
mod helpers;
mod random;
mod readings;
mod records;
