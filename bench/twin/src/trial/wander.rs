//! Traces of calls of all kinds in a random order, those that are refused included.

use crate::requests::Request;
use crate::trial::random::Random;
use crate::trial::script::State;
use crate::trial::traces::{Trace, any_setting, any_widest};

/// A random trace. In some, the tables are written into.
pub fn random_trace(mut random: Random) -> Vec<u8> {
    let widest = any_widest(&mut random);
    let setting = any_setting(&mut random, widest);
    let spoils = random.percent(25);
    let requests = random.within(150, 1400);
    let mut trace = Trace::new(random, setting);
    begin(&mut trace);
    for _ in 0..requests {
        if spoils && trace.random.percent(4) {
            spoil(&mut trace);
        }
        step(&mut trace);
    }
    trace.ask_all();
    trace.script.bytes
}

/// Perhaps uses the keeper for a while, and then perhaps makes a window of a fixed size.
fn begin(trace: &mut Trace) {
    if trace.random.percent(50) {
        let size = trace.random.below(trace.script.setting.capacity() + 2);
        trace.go_to(size);
        trace.ask_all();
    }
    if trace.random.percent(66) {
        trace.go_to(0);
        let goal = any_goal(trace);
        trace.script.fix(goal);
    }
}

/// A goal, often small so that the window is filled soon.
fn any_goal(trace: &mut Trace) -> u32 {
    let capacity = trace.script.setting.capacity();
    match trace.random.below(10) {
        0 => 0,
        1 => capacity,
        2 => capacity - 1,
        3 => trace.random.next_number() as u32,
        4 | 5 => trace.random.within(1, 20),
        _ => trace.random.within(1, capacity - 1),
    }
}

fn step(trace: &mut Trace) {
    match trace.random.below(100) {
        0..45 => trace.bring(),
        45..58 => trace.script.drop_oldest(),
        58..70 => trace.ask_count(),
        70..75 => trace.ask_list(),
        75..80 => trace.ask_verdict(),
        80..83 => trace.ask_figures(),
        83..86 => window_call(trace),
        86..90 => leap(trace),
        90..92 => trace.ask_repeated(),
        92..95 => lend(trace),
        95..97 => bad_request(trace),
        97 => trace.change_source(),
        _ => stray_call(trace),
    }
}

/// A call that makes or turns a window, whether it can or not.
fn window_call(trace: &mut Trace) {
    if trace.random.percent(50) {
        trace.script.turn();
        return;
    }
    let goal = any_goal(trace);
    if trace.script.state == State::Keeping && trace.random.percent(15) {
        trace.go_to(0);
    }
    trace.script.fix(goal);
}

/// A far way at once.
fn leap(trace: &mut Trace) {
    let size = match trace.random.below(4) {
        0 => trace.script.limit(),
        1 => 0,
        2 => trace.script.size.saturating_sub(trace.random.below(40)),
        _ => trace.random.below(trace.script.setting.capacity() + 1),
    };
    if trace.is_sliding() {
        let many = trace.random.below(300);
        trace.burst(many);
    } else {
        trace.go_to(size);
    }
    if trace.random.percent(30) {
        trace.script.turn();
    }
}

/// Lends less than everything for a call or two, at the edge of what is needed.
fn lend(trace: &mut Trace) {
    let op = trace.random.pick(b"RHN");
    let need = match op {
        b'R' => trace.script.need.rows as u32,
        b'H' => trace.script.need.heads as u32,
        _ => trace.random.below(5) + 1,
    };
    let number = match trace.random.below(5) {
        0 => 0,
        1 | 2 => need.saturating_sub(1),
        3 => need,
        _ => need + 1,
    };
    trace.script.lend(op, number);
    for _ in 0..trace.random.within(1, 3) {
        match trace.random.below(5) {
            0 => trace.bring(),
            1 => trace.ask_count(),
            2 => trace.ask_verdict(),
            3 => stray_call(trace),
            _ => trace.ask_list(),
        }
    }
    if trace.random.percent(90) {
        trace.script.lend(op, u32::MAX);
    }
}

/// A request that spells no call, or no key.
fn bad_request(trace: &mut Trace) {
    let mut request = Request {
        op: trace.random.byte(),
        key: trace.next_key(),
        small: trace.random.byte(),
        what: trace.random.byte(),
        number: trace.random.below(100),
    };
    match trace.random.below(3) {
        0 if !b"FPDTSCLVRHNGWIX".contains(&request.op) => trace.script.write(request),
        1 if !b"PDCLV".contains(&request.what) => {
            request.op = b'X';
            trace.script.write(request);
        }
        _ => bad_band(trace, request.key),
    }
}

/// Calls with a band that may not exist.
fn bad_band(trace: &mut Trace, mut key: [u8; 5]) {
    key[2] = trace.random.pick(&[6, 7, 8, 128, 255]);
    match trace.random.below(3) {
        0 => trace.script.put(key),
        1 => trace.script.slide(key),
        _ => trace.script.count(key),
    }
}

/// A put or a slide, whichever the state is.
fn stray_call(trace: &mut Trace) {
    let key = trace.next_key();
    if trace.random.percent(50) {
        trace.script.put(key);
    } else {
        trace.script.slide(key);
    }
}

/// Writes odd numbers into the tables.
fn spoil(trace: &mut Trace) {
    let place = match trace.random.below(3) {
        0 => trace.random.below(40),
        1 => trace.random.below(2 * trace.script.need.rows as u32),
        _ => trace.random.next_number() as u32,
    };
    let number = match trace.random.below(8) {
        0 => 0,
        1 => u32::MAX,
        2 => u32::MAX - trace.random.below(3),
        3 => trace.random.next_number() as u32,
        4 => trace.random.pick(&trace.rows) as u32 + trace.random.below(3) - 1,
        _ => trace.random.below(6),
    };
    trace.script.spoil(place, number);
}
