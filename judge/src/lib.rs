//! The judge: an independent reading of the solver's rules (docs/SPEC.md), to
//! compare answers with. It shares nothing with the solver.

pub mod bench;
pub mod blame;
pub mod block;
pub mod cases;
pub mod console;
pub mod counted;
pub mod damage;
pub mod desks;
pub mod dice;
pub mod hits;
pub mod listed;
pub mod nonsense;
pub mod page;
pub mod plain;
pub mod qdimacs;
pub mod reading;
pub mod record;
pub mod rules;
pub mod scribbles;
pub mod session;
pub mod shapes;
pub mod sheets;
pub mod shown;
pub mod tally;
pub mod text;
pub mod text_cases;
pub mod textyard;
pub mod truth;
pub mod witness;
pub mod writeyard;
pub mod writing;
pub mod written_cases;
pub mod yardstick;
