//! The paper 01, written once more, in its own words and order.
//!
//! Octets of a segment (`octets`), a station's record and its steps
//! (`station`), two stations and their links (`model`), the program
//! (`program`), wrong versions of single rules (`wrong`), and seeded inputs
//! for the program (`streams`).

pub mod model;
pub mod octets;
pub mod program;
pub mod station;
pub mod streams;
pub mod wrong;

pub use model::{play, step, Event, Link, Model, Side, Told, Totals};
pub use octets::{checksum, read_header, sum, write_header, Header, Segment};
pub use octets::{ACK, CWR, ECE, FIN, PSH, RST, SYN, URG};
pub use program::{program, Barn};
pub use station::{abort, arrive, arrive_octets, listen, open, power_cut, resend};
pub use station::{of_the_forms, Record, State, Taken};
pub use streams::{stream, Stream};
pub use wrong::{Paper, Wrong};
