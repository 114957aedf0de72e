//! Requests for memory that are refused: each test makes a call again and again, and refuses each request for memory of the call
//! in turn, alone and with all that come after it. The call then has to fail with `OutOfMemory`, to leave what it was lent as it
//! was, and to give all of its memory back. A call that takes no memory, or that reports a fault which comes before want of
//! memory, has to do so in each of these runs.
mod calls;
mod changes;
mod commands;
mod faults;
pub mod fixtures;
mod memory;
mod takes_none;
