//! Makes calls while requests for memory are refused.
//!
//! What a call is made on is made anew for each run, by `make`, whose requests are not counted. `look` asserts what the call gave.
use oxc_sourcemap::{Error, PlanError, Result};
use smap_run::RunError;
use std::alloc::Global;
use std::process::Abort;

// tools/check/refuse.c stands between the tests and the allocator of C. Requests are counted from `begin_call` to `end_call`, from 1.
unsafe extern "C" {
    /// A call begins: from here on requests are counted, and may be refused.
    safe fn begin_call();
    /// The call has ended.
    safe fn end_call();
    /// Of the calls from here on, the requests from number `first` to `last` are refused.
    safe fn refuse_requests(first: u64, last: u64);
    /// How many requests the last call made.
    safe fn requests_made() -> u64;
    /// How many of them were refused.
    safe fn requests_refused() -> u64;
    /// How many blocks of memory are in use.
    safe fn blocks_in_use() -> u64;
}

/// Runs without a refused request, and then with each request of the call refused, alone and with all after it. Asserts that
/// each run gives all of its memory back. Returns how many requests the call makes.
fn run_each(rt: &(impl Abort + AllocGlobal), run: impl Fn()) -> u64 {
    let run_once = |first: u64, last: u64| {
        let before = blocks_in_use();
        refuse_requests(first, last);
        run();
        assert_eq!(rt; blocks_in_use(), before, "requests {first} to {last} are refused");
    };
    run_once(0, 0);
    let requests = requests_made();
    for number in 1..=requests {
        run_once(number, number);
        assert_eq!(rt; requests_refused(), 1, "request {number}");
        run_once(number, u64::MAX);
    }
    requests
}

/// Makes a call in each run, and looks at what it gave. Returns how many requests it makes.
pub fn call_each<G: Drop, T: Drop>(
    rt: &(impl Abort + AllocGlobal),
    make: impl Fn(Global) -> Result<G>,
    call: impl Fn(Global, G) -> T,
    look: impl Fn(T),
) -> u64 {
    run_each(rt, || {
        let on = make(rt.alloc()).expect(rt, "what the call is made on");
        begin_call();
        let made = call(rt.alloc(), on);
        end_call();
        look(made);
    })
}

/// What a call gave. There is nothing if a request was refused, and the error is then `OutOfMemory`.
fn given<T: Drop, E: Drop>(rt: &(impl Abort + AllocGlobal), made: std::result::Result<T, E>) -> Option<T>
where
    RunError: From<E>,
{
    let refused = requests_refused();
    match made {
        Ok(given) => {
            assert_eq!(rt; refused, 0, "a call gave something, and this many requests were refused");
            Some(given)
        }
        Err(error) => {
            assert!(rt; refused > 0, "a call failed, and no request was refused");
            assert_eq!(rt; RunError::from(error), RunError::Plan(PlanError::Map(Error::OutOfMemory)));
            None
        }
    }
}

/// Asserts that a call takes memory, and fails with `OutOfMemory` wherever a request is refused.
pub fn refuse_each<G: Drop, T: Drop, E: Drop>(
    rt: &(impl Abort + AllocGlobal),
    make: impl Fn(Global) -> Result<G>,
    call: impl Fn(Global, G) -> std::result::Result<T, E>,
    look: impl Fn(T),
) where
    RunError: From<E>,
{
    let requests = call_each(rt, make, call, |made| {
        if let Some(given) = given(rt, made) {
            look(given);
        }
    });
    assert!(rt; requests > 0, "no request");
}

/// The same of a call that changes what it is lent. `look` asserts how that is after the call, and is told whether the call
/// passed; wherever a request was refused it did not, and has changed nothing. Returns how many requests the call makes.
pub fn refuse_each_change<L: Drop, G: Drop, T: Drop, E: Drop>(
    rt: &(impl Abort + AllocGlobal),
    make: impl Fn(Global) -> Result<(L, G)>,
    call: impl Fn(Global, &mut L, G) -> std::result::Result<T, E>,
    look: impl Fn(L, bool),
) -> u64
where
    RunError: From<E>,
{
    let requests = run_each(rt, || {
        let (mut lent, on) = make(rt.alloc()).expect(rt, "what the call is made on");
        begin_call();
        let made = call(rt.alloc(), &mut lent, on);
        end_call();
        let has_passed = given(rt, made).is_some();
        look(lent, has_passed);
    });
    assert!(rt; requests > 0, "no request");
    requests
}

/// Asserts that a call takes no memory.
pub fn takes_none<G: Drop, T: Drop>(
    rt: &(impl Abort + AllocGlobal),
    make: impl Fn(Global) -> Result<G>,
    call: impl Fn(Global, G) -> T,
    look: impl Fn(T),
) {
    assert_eq!(rt; call_each(rt, make, call, look), 0, "requests");
}

/// Asserts that a call reports an error, also wherever a request is refused.
pub fn reports<G: Drop, T: Drop>(
    rt: &(impl Abort + AllocGlobal),
    make: impl Fn(Global) -> Result<G>,
    call: impl Fn(Global, G) -> Result<T>,
    error: Error,
) {
    let _ = call_each(rt, make, call, |made| assert_eq!(rt; made.err(), Some(error)));
}

/// What a call is made on that needs nothing.
pub fn nothing(_alloc: Global) -> Result<()> {
    Ok(())
}
