//! Inputs of `replay` that are no ordinary traces: many calls at once, bad headers, and keepers whose puts are spent.

use crate::keeper::MOST_PUTS;
use crate::settings::{Setting, SettingRefusal, WIDEST};
use crate::trial::random::Random;
use crate::trial::script::Script;
use crate::trial::traces::{Trace, any_setting, any_widest};

/// Tens of thousands of puts at once, and then questions.
pub fn burst(mut random: Random) -> Vec<u8> {
    let widest = any_widest(&mut random);
    let setting = any_setting(&mut random, widest);
    let mut trace = Trace::new(random, setting);
    if trace.random.percent(50) {
        let goal = trace.random.within(1, setting.capacity() - 1);
        trace.script.fix(goal);
        trace.put_drawn(goal, 1000);
        trace.script.turn();
    }
    for _ in 0..trace.random.within(1, 4) {
        let among = match trace.random.below(4) {
            0 => 0,
            1 => trace.random.within(1, 7),
            2 => trace.random.within(8, 100),
            _ => trace.random.within(101, 20_000),
        };
        let many = trace.random.within(10_000, 60_000);
        trace.put_drawn(many, among);
        trace.ask_all();
        let fewer = trace.random.below(trace.script.size + 1);
        trace.script.repeat(b'D', fewer, 0, 0);
        trace.ask_repeated();
        trace.ask_all();
    }
    trace.script.bytes
}

/// A header that makes no keeper, and perhaps requests behind it.
pub fn bad_header(mut random: Random) -> Vec<u8> {
    let mut header = vec![
        random.pick(b"RL"),
        random.pick(b"SA"),
        random.pick(&[0, 1, 2, 3, 4, 5, 6, 7, 8, 255]),
        random.pick(&[0, 3, 4, 5, 6, 7, 8, 9, 20, 21, 22, 127, 255]),
    ];
    match random.below(4) {
        0 => header.truncate(random.below(4) as usize),
        1 => {
            // With a setting that exists: what is told where both are wrong is not laid down.
            let setting = any_setting(&mut random, WIDEST);
            header[random.below(2) as usize] = random.byte();
            header[2] = setting.accuracy() as u8;
            header[3] = setting.span() as u8;
        }
        _ => {}
    }
    for _ in 0..random.below(40) {
        header.push(random.pick(b"PDCGLTFS\0\x01\x02"));
    }
    header
}

/// A ring, alone and then as a window that is filled, that has accepted all the puts it ever accepts.
pub fn spent_filling() -> Result<Vec<u8>, SettingRefusal> {
    let setting = Setting::new(1, WIDEST)?;
    let mut script = Script::new(setting, false, true);
    let capacity = setting.capacity();
    for _ in 1..MOST_PUTS / capacity {
        script.repeat(b'P', capacity, 50, 0);
        script.repeat(b'D', capacity, 0, 0);
    }
    script.repeat(b'P', capacity - 1, 50, 0);
    ask_when_spent(&mut script);
    script.repeat(b'D', capacity, 0, 0);
    script.fix(5);
    ask_when_spent(&mut script);
    Ok(script.bytes)
}

/// A ring that slides until its puts are spent.
pub fn spent_sliding() -> Result<Vec<u8>, SettingRefusal> {
    let mut script = Script::new(Setting::new(1, 4)?, false, false);
    script.fix(15);
    script.repeat(b'P', 15, 3, 0);
    script.turn();
    script.repeat(b'P', MOST_PUTS - 16, 20, 0);
    ask_when_spent(&mut script);
    Ok(script.bytes)
}

/// Brings the last keys and more, with short tables as well, and asks.
fn ask_when_spent(script: &mut Script) {
    for _ in 0..3 {
        script.bring(*b"SD\x01PT");
        script.number(b'G', 0);
        script.number(b'L', script.setting.capacity());
    }
    script.lend(b'R', 1);
    script.bring(*b"SD\x01PT");
    script.lend(b'R', u32::MAX);
    script.bring(*b"SD\x01PT");
    script.number(b'W', 0);
}
