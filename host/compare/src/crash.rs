//! What was asked when a station panicked. Nothing catches a panic behind a C function, so the hook shows the
//! call before the program ends: the record as it was and that one call make it come again.

use std::cell::RefCell;
use std::panic;

use crate::call::Call;
use crate::show;
use crate::tester::Case;

thread_local! {
    static NOW: RefCell<Case> = const { RefCell::new(Case { record: Vec::new(), calls: Vec::new() }) };
}

/// Remembers the call that this thread makes next.
pub fn remember(call: &Call, record: &[u8]) {
    NOW.with_borrow_mut(|now| {
        record.clone_into(&mut now.record);
        std::slice::from_ref(call).clone_into(&mut now.calls);
    });
}

pub fn show_panics() {
    let usual = panic::take_hook();
    panic::set_hook(Box::new(move |info| {
        usual(info);
        NOW.with_borrow(|now| {
            println!("compare: FAILED: a panic; the last call before it:");
            show::beginning(now);
            now.calls.iter().for_each(|call| println!("1. {}", show::call_line(call)));
        });
    }));
}
