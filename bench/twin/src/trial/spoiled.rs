//! Traces whose tables are written into at places that are in use.

use crate::layout::Layout;
use crate::settings::{FINEST, MARGIN};
use crate::trial::random::Random;
use crate::trial::sources::Order;
use crate::trial::traces::{Trace, any_setting};

/// A trace of few keys in small windows, spoiled again and again.
pub fn spoiled_trace(mut random: Random) -> Vec<u8> {
    let widest = random.within(1 + MARGIN, FINEST + MARGIN);
    let setting = any_setting(&mut random, widest);
    let mut trace = Trace::new(random, setting);
    if trace.random.percent(80) {
        trace.source.order = Order::Among(trace.random.within(1, 12));
    }
    let size = trace.random.below(setting.capacity() + 1);
    trace.go_to(size);
    for _ in 0..trace.random.within(20, 80) {
        for _ in 0..trace.random.within(1, 4) {
            spoil(&mut trace);
        }
        follow(&mut trace);
    }
    trace.script.bytes
}

/// Writes into a row or a head that the next arrival visits, or anywhere.
fn spoil(trace: &mut Trace) {
    let layout = Layout::new(trace.script.setting);
    let slots: Vec<_> = layout.visits(trace.script.puts).collect();
    let slot = trace.random.pick(&slots).slot;
    let place = match trace.random.below(5) {
        0 | 1 => slot.first_row as u32 + trace.random.below(4),
        2 | 3 => slot.head as u32,
        _ => trace.random.next_number() as u32,
    };
    let number = match trace.random.below(6) {
        0 => 0,
        1 => u32::MAX,
        2 => u32::MAX - trace.random.below(4),
        3 => slot.rows as u32 + trace.random.below(3) - 1,
        4 => trace.random.next_number() as u32,
        _ => trace.random.below(5),
    };
    trace.script.spoil(place, number);
}

/// Keys come and go, and the tables are looked at in between.
fn follow(trace: &mut Trace) {
    for _ in 0..trace.random.within(1, 5) {
        if trace.script.size >= trace.script.limit() {
            trace.script.drop_oldest();
        }
        trace.bring();
        if trace.random.percent(40) {
            trace.ask_figures();
        }
    }
    if trace.random.percent(20) {
        let size = trace.random.below(trace.script.setting.capacity() + 1);
        trace.go_to(size);
    }
    if trace.random.percent(30) {
        trace.ask_repeated();
    }
    trace.ask_all();
}
