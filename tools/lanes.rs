//! Items that go from one thread to another, as `make lanes` measures them: through one lane of a duplex, or
//! through a channel. Each thread tries until it's done.
#![tactic(auto)]

ghost use Rattle.std.specs.Prelude.{◌<◌, ◌≤◌};

use anyhow::Result;
use crossbeam_channel::{Receiver, Sender, bounded};
use duplex::{Left, Right, Stamped, pair};
use std::alloc::Global;
use std::env;
use std::process::ExitCode;
use std::sync::Wait;
use std::thread;
use std::thread::Threads;

const ITEMS: u64 = 5_000_000;

// A number that goes through a lane.
struct Number {
    value: u64,
}

impl Stamped for Number {
    ghost stamp_of = { λ _. 0 };

    fn stamp(&self) -> u64 {
        0
    }
}

impl Drop for Number {
    fn drop(self) {
        let Number { value: _ } = self;
    }
}

fn send_all<R: Wait>(rt: &R, left: Left<Number, Number>) {
    let mut left = left;
    for _ in rt.forever() {
        let value = left.sent();
        if value >= ITEMS {
            return;
        }
        if left.send(Number { value }).is_err() {
            thread::yield_now();
        }
    }
}

// Whether all items came, in their order.
fn take_all<R: Wait>(rt: &R, right: Right<Number, Number>) -> bool {
    let mut right = right;
    for _ in rt.forever() {
        let due = right.taken();
        if due >= ITEMS {
            return true;
        }
        match right.take() {
            Some(item) if item.value != due => return false,
            Some(_) => {}
            None => thread::yield_now(),
        }
    }
    unreachable!()
}

fn through_lane<R: Threads + Wait + Sync>(rt: &R, alloc: Global, cap: u32) -> Result<bool>
    requires { (0 < cap) × (cap ≤ 64) }
{
    let (left, right) = pair::<Number, Number>(alloc, cap)?;
    let (_, in_order) = thread::join(rt, move || send_all(rt, left), move || take_all(rt, right));
    Ok(in_order)
}

fn put_all<R: Wait>(rt: &R, sender: Sender<u64>) {
    let mut value = 0;
    for _ in rt.forever() {
        if value >= ITEMS {
            return;
        }
        if sender.try_send(rt, value).is_ok() {
            value += 1;
        } else {
            thread::yield_now();
        }
    }
}

// Whether all items came, in their order.
fn get_all<R: Wait>(rt: &R, receiver: Receiver<u64>) -> bool {
    let mut due = 0;
    for _ in rt.forever() {
        if due >= ITEMS {
            return true;
        }
        match receiver.try_recv(rt) {
            Ok(value) if value != due => return false,
            Ok(_) => due += 1,
            Err(_) => thread::yield_now(),
        }
    }
    unreachable!()
}

fn through_channel<R: Threads + Wait + Sync>(rt: &R, alloc: Global, cap: u32) -> Result<bool> {
    let (sender, receiver) = bounded(alloc, cap as usize)?;
    let (_, in_order) = thread::join(rt, move || put_all(rt, sender), move || get_all(rt, receiver));
    Ok(in_order)
}

fn main(rt: HostRuntime) -> Result<ExitCode> {
    let Some(name) = env::args(&rt)?.nth(1) else {
        return Ok(ExitCode::FAILURE);
    };
    let in_order = match name.as_str() {
        "lane" => through_lane(&rt, rt.alloc(), 64)?,
        "channel" => through_channel(&rt, rt.alloc(), 64)?,
        _ => false,
    };
    Ok(if in_order {
        ExitCode::SUCCESS
    } else {
        ExitCode::FAILURE
    })
}
