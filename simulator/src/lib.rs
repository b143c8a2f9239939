//! A second simulator of the bench for idempotent work-stealing queues.
//!
//! It plays the same input as the bench program and prints the same listing, it
//! answers the same lists of library calls as the program `calls`, and it finds the
//! same orders as the program `hunt`, byte for byte. It is written from documents 01 and 02 alone, so that a mistake in
//! the one is not a mistake in the other, and it is deliberately built the other
//! way round: one machine for each figure, each with lines of its own, and
//! nothing shared between them but the store and what guards an anchor.
//!
//! - [`lifo`], [`fifo`], [`double_ended`]: figures 1, 2 and 3, a step a line;
//! - [`guard`]: tags, and the links of kinds 4 and 5;
//! - [`task`]: a task's words; [`store`]: the lent words and the directory of
//!   arrays; [`waiting`]: the owner's waiting line, of delayed stores;
//! - [`bench`]: fresh, begin, step, drop_link, drain, ask, drop_ask and who, the
//!   refusals and their order; [`yard`]: up to four of them on the same words;
//! - [`account`]: the log's room and the six counts of `T`;
//! - [`text`]: what a line of the input says; [`input`]: where it ends;
//!   [`listing`]: a line of output;
//! - [`play`]: the program's rules;
//! - [`call_text`], [`calls`]: lists of library calls; [`lent`]: the memory and all
//!   that stands on it, [`turn`]: one call of a bench or a queue, [`log`]: its log;
//! - [`witness`]: who watches a run; [`demand3`], [`restarts`], [`order`]: demand
//!   3, the restarts of each worker and FIFO's order, checked from the history of
//!   the calls; [`limits`], [`asks`], [`drains`], [`owner`]: the limits on what is
//!   shared, asks and commits, what each call did to memory and to the waiting line,
//!   and what the owner read and wrote; [`rooms`]: what X1 may claim; [`settled`]:
//!   memory with stores put down; [`found`]: what one of them found; [`checks`]: all of
//!   these;
//! - [`apart`], [`alone`]: what a call leaves alone, and a queue beside itself alone;
//!   [`company`]: both; [`verdict`]: what was found of each queue and of all;
//! - [`hunt`]: the hunt for the most repeats, [`hunt_text`]: its text;
//! - [`log_judge`]: the judgement of a matcher's own log, [`log_cases`]: logs to
//!   judge, by seed;
//! - [`random`], [`script`], [`episodes`], [`damage`]: long random runs by seed.

pub mod account;
pub mod alone;
pub mod apart;
pub mod asks;
pub mod bench;
pub mod call_text;
pub mod calls;
pub mod checks;
pub mod company;
pub mod damage;
pub mod demand3;
pub mod double_ended;
pub mod drains;
pub mod episodes;
pub mod fifo;
pub mod found;
pub mod guard;
pub mod hunt;
pub mod hunt_text;
pub mod input;
pub mod lent;
pub mod lifo;
pub mod limits;
pub mod listing;
pub mod log;
pub mod log_cases;
pub mod log_judge;
pub mod order;
pub mod outcome;
pub mod owner;
pub mod play;
pub mod random;
pub mod restarts;
pub mod rooms;
pub mod script;
pub mod settled;
pub mod store;
pub mod task;
pub mod text;
pub mod turn;
pub mod verdict;
pub mod waiting;
pub mod witness;
pub mod yard;
