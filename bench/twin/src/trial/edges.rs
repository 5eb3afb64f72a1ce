//! Traces that are hard for a keeper: windows that end at the borders of blocks, and keys that tallies lose.

use crate::trial::random::Random;
use crate::trial::script::State;
use crate::trial::traces::{Trace, any_setting, any_widest};

/// So many moves are enough for one trace, or so many bytes.
const MOVES: u32 = 14;
const BYTES: usize = 40_000;

/// A trace of moves that look for edges.
pub fn adversarial_trace(mut random: Random) -> Vec<u8> {
    let widest = if random.percent(70) {
        9
    } else {
        any_widest(&mut random)
    };
    let setting = any_setting(&mut random, widest);
    let mut trace = Trace::new(random, setting);
    if trace.random.percent(35) {
        fixed_window(&mut trace);
    }
    for _ in 0..MOVES {
        if trace.script.bytes.len() > BYTES {
            break;
        }
        make_move(&mut trace);
        if trace.random.percent(35) {
            trace.change_source();
        }
    }
    trace.ask_all();
    trace.script.bytes
}

fn make_move(trace: &mut Trace) {
    match trace.random.below(8) {
        0 | 1 => border_of_size(trace),
        2 | 3 => border_of_block(trace),
        4 => breathe(trace),
        5 => alternate_at_the_top(trace),
        6 => whole_block(trace),
        _ => many_blocks(trace),
    }
}

/// A power of two, or a number just beside one.
fn near_power(trace: &mut Trace, most: u32) -> u32 {
    let power = 1u32 << trace.random.within(0, most);
    power + trace.random.below(3) - 1
}

/// Window sizes at which another scale begins to answer.
fn border_of_size(trace: &mut Trace) {
    let size = near_power(trace, trace.script.setting.span());
    trace.go_to(size);
    trace.ask_all();
    for _ in 0..trace.random.below(4) {
        trace.bring();
        trace.ask_all();
    }
    if trace.random.percent(50) {
        trace.script.drop_oldest();
        trace.ask_all();
    }
}

/// Windows whose end, and then whose beginning, lies just at, before or behind a border of blocks.
fn border_of_block(trace: &mut Trace) {
    let block = 1u32 << trace.random.below(trace.script.setting.span() + 1);
    let offset = trace.random.below(3);
    let target = (trace.script.puts / block + 1) * block + offset - 1;
    advance(trace, target.saturating_sub(trace.script.puts));
    trace.ask_all();
    let begin = trace.script.puts - trace.script.size;
    let target = (begin / block + 1) * block + trace.random.below(3) - 1;
    let most = trace.script.size;
    trace.go_to(most.saturating_sub(target.saturating_sub(begin)));
    trace.ask_all();
}

/// A window that is one block from its first key to its last, and then nearly so.
fn whole_block(trace: &mut Trace) {
    let block = 1u32 << trace.random.below(trace.script.setting.span() + 1);
    let target = (trace.script.puts / block + 2) * block;
    advance(trace, target - trace.script.puts);
    trace.go_to(block);
    trace.ask_all();
    for _ in 0..trace.random.below(3) {
        trace.script.drop_oldest();
        trace.bring();
        trace.ask_all();
    }
}

/// So many keys come, and the oldest go where there is no room.
fn advance(trace: &mut Trace, mut many: u32) {
    while many > 0 {
        if trace.script.size >= trace.script.limit() && !trace.is_sliding() {
            if trace.script.state != State::Keeping {
                trace.script.turn();
            } else {
                let size = trace.script.size - trace.script.size.min(many);
                trace.go_to(size);
            }
        }
        let before = trace.script.puts;
        let room = if trace.is_sliding() {
            many
        } else {
            many.min(trace.script.limit() - trace.script.size)
        };
        trace.burst(room);
        if trace.script.puts == before {
            return;
        }
        many -= trace.script.puts - before;
    }
}

/// Up to the top, down to nearly nothing, and up again.
fn breathe(trace: &mut Trace) {
    trace.go_to(trace.script.limit());
    trace.ask_all();
    trace.bring();
    let low = trace.random.below(4);
    trace.go_to(low);
    trace.ask_all();
    trace.change_source();
    let high = trace.random.below(trace.script.setting.capacity() + 1);
    trace.go_to(high);
    trace.ask_all();
}

/// Puts and drops where the window is full, some of them one too many.
fn alternate_at_the_top(trace: &mut Trace) {
    trace.go_to(trace.script.limit());
    for _ in 0..trace.random.within(5, 40) {
        trace.script.drop_oldest();
        trace.bring();
        if trace.random.percent(20) {
            trace.bring();
        }
        if trace.random.percent(25) {
            trace.ask_count();
        }
        if trace.random.percent(10) {
            trace.ask_all();
        }
    }
}

/// Goes on by several of the largest blocks, so that all slots are used again.
fn many_blocks(trace: &mut Trace) {
    let span = trace.script.setting.span();
    let block = 1u32 << trace.random.within(1, span.min(14));
    let many = block * trace.random.within(1, 5) + trace.random.below(3);
    advance(trace, many);
    trace.ask_all();
}

/// Makes a fixed window, fills it and lets it slide, with calls that come too early or too late.
fn fixed_window(trace: &mut Trace) {
    let used = near_power(trace, trace.script.setting.span());
    if trace.random.percent(50) {
        trace.go_to(used);
        trace.go_to(0);
    }
    trace.script.turn();
    let goal = near_power(trace, trace.script.setting.span());
    trace
        .script
        .fix(goal.clamp(1, trace.script.setting.capacity() - 1));
    trace.script.turn();
    trace.go_to(trace.script.limit() - 1);
    trace.script.turn();
    trace.ask_all();
    trace.go_to(trace.script.limit());
    trace.bring();
    if trace.random.percent(80) {
        trace.script.turn();
    }
    trace.script.fix(goal);
    trace.ask_all();
}
