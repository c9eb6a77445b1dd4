//! Runs job texts of Grassroots Logic Programs by the proved call of Troscunel.
//!
//! A [`Job`] is a text with its figures: a budget of steps, a [`Room`] and the longest report that is wanted. A
//! [`Machine`] keeps what a call is lent and runs jobs one after the other. Every job gets an [`Answer`]: a report, or
//! a [`Refusal`] that says what is wrong and shows where. Nothing has to be tested first. [`Report`] reads a report:
//! the verdict, and for each query a [`Section`] with its values and its goals, each [`Goal`] with its origin.
//!
//! ```
//! use troscunel::{Answer, Job, Machine, Refusal};
//!
//! let rules = "tag([H|T],[hit(H?)|R?]) :- tag(T?,R).\n\
//!              tag([],[]).\n";
//! let mut machine = Machine::new();
//!
//! let text = format!("{rules}?- tag([fetch,decode],Hits).\n");
//! let Answer::Ran(report) = machine.run(&Job::new(&text)) else { panic!("it is a good job") };
//! assert_eq!(
//!     String::from_utf8(report).unwrap(),
//!     "run rest steps 3\n\
//!      query 1 tries 3 active 0 waiting 0 failed 0\n\
//!      Hits = [hit(fetch),hit(decode)]\n"
//! );
//!
//! let text = format!("{rules}?- tag([fetch,fetch],Hits).\n?- tag(Hits,Hits).\n");
//! let answer = machine.run(&Job::new(&text));
//! assert!(matches!(answer, Answer::Refused(Refusal::Twice(_))));
//! assert_eq!(
//!     answer.into_result().unwrap_err().to_string(),
//!     "4:13: the writer Hits occurs a second time\n\
//!      ?- tag(Hits,Hits).\n\
//!      \u{20}           ^"
//! );
//! ```
//!
//! # Linking
//!
//! `hosts/library` writes `target/staticlib/libtroscunel.a` for x86-64, and the build script links it. The
//! environment variable `TROSCUNEL_LIBRARY` names another folder that holds a `libtroscunel.a`.
//!
//! # The stack
//!
//! The call recurses as deep as values are nested: up to 8 MiB of stack at the largest rooms. [`Machine::run`] gives
//! each call a thread whose stack is large enough for the room. A caller that knows how much stack is left may use
//! [`call`] itself, over scratch and buffer of its own; it is unsafe for this reason alone.
//!
//! All unsafe code stands in the module `call`.

#![deny(unsafe_code, unsafe_op_in_unsafe_fn)]
#![warn(missing_docs)]

mod answer;
mod call;
mod machine;
mod report;
mod room;
mod shown;

pub use answer::{Answer, Refusal};
pub use call::{call, Given};
pub use machine::{Job, Machine};
pub use report::{Goal, Kind, Report, Section, Sections};
pub use room::Room;
pub use shown::Place;

/// The longest report of any call, in bytes. A buffer that is longer has no use.
pub const LONGEST_REPORT: usize = 16_777_216;
