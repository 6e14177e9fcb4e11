//! Messages from the wire and on it: what they are made of, how they become bytes, and what is
//! compared.

mod answers;
mod any;
mod bases;
pub mod broken;
mod encoder;
mod examples;
mod families;
mod faulty;
mod faulty_contents;
mod faulty_writer;
mod faulty_written;
mod forms;
mod meaning;
mod messages;
mod readings;
mod responses;
mod rounds;
#[cfg(test)]
mod tests;
mod twists;
mod written;
