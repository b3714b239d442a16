//! Tests of the layers, run and not proved: of each layer over ticket locks and over the one-step machines, of systems, workers and counts, and of
//! what no run of the program shows of the lowest crates. `tests/layers.sh` lays them onto a copy of the tree and runs them.
//!
//! Nothing here has a contract. The compiler wants each ghost member of an impl, and nothing here reads one, so each is `tt`.
#![tactic(auto)]

mod add_one;
mod attempts;
mod backoff;
mod beneath;
mod both_buffers;
mod buffers;
mod calls;
mod counts;
mod handovers;
mod locks;
mod monitor_calls;
mod monitor_rows;
mod monitor_systems;
mod monitors;
mod natives;
mod openings;
mod owned_words;
mod queues;
mod refusals;
mod scheds;
mod seats;
mod shared_words;
mod sleeps;
mod systems;
mod texts;
mod thread_queues;
mod workers;
