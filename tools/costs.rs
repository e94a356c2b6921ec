//! Work whose costs `make costs` measures: trees that contexts are attached to, and stores under overlays.
#![tactic(auto)]

use anyhow::Result;
use context_store::{ListStore, SlabStore, Store};
use context_tree::{Tree, TreeFault};
use field_table::{Field, Fields, Value};
use fission_ids::{ContextId, Epoch, OutOfMemory};
use std::alloc::Global;
use std::env;
use std::process::ExitCode;
use transaction::Transaction;

const CREATORS: u8 = 17;

const SERIALS: u32 = 240;

// What the contexts of a tree hang in.
#[derive(Clone, Copy)]
enum Shape {
    // The first one.
    Flat,
    // Each in the one before.
    Deep,
    // Each in one of seventeen top-level ones, in turn.
    Spread,
}

const FIRST: ContextId = ContextId {
    creator: 0,
    serial: 1,
};

// What a context hangs in, behind this one.
fn parent_of(shape: Shape, before: ContextId, context: ContextId) -> Option<ContextId> {
    match shape {
        Shape::Flat => Some(FIRST),
        Shape::Deep => Some(before),
        Shape::Spread if context.serial == 1 => None,
        Shape::Spread => Some(ContextId {
            creator: context.creator,
            serial: 1,
        }),
    }
}

// A tree of all contexts, one of each creator in turn.
fn grow(alloc: Global, shape: Shape) -> Result<(), TreeFault> {
    let mut tree = Tree::new(alloc);
    tree.attach(None, FIRST)?;
    let mut before = FIRST;
    for serial in 1..SERIALS + 1 {
        for creator in 0..CREATORS {
            let context = ContextId { creator, serial };
            if context != FIRST {
                tree.attach(parent_of(shape, before, context), context)?;
            }
            before = context;
        }
    }
    Ok(())
}

fn grow_all(alloc: Global, shape: Shape) -> Result<(), TreeFault> {
    for _ in 0..17 {
        grow(alloc, shape)?;
    }
    Ok(())
}

// All contexts.
fn fill<S: Store>(store: &mut S) -> Result<(), OutOfMemory> {
    for serial in 1..SERIALS + 1 {
        for creator in 0..CREATORS {
            let context = ContextId { creator, serial };
            if store.get(context).is_none() {
                store.add(context, Fields::initial())?;
            }
        }
    }
    Ok(())
}

// A change of one field.
#[tactic(auto, unfolding(field_table::specs::Field::row))]
fn change() -> Transaction {
    let mut change = Transaction::new();
    change.set(Field::DisplayMode, Value::Number(2));
    change
}

// All contexts, and then 100,000 overlays of one field, of each context in turn.
fn overlay<S: Store>(store: &mut S) -> Result<(), OutOfMemory> {
    fill(store)?;
    for n in 0..100_000 {
        let context = ContextId {
            creator: (n % 17) as u8,
            serial: n / 17 % SERIALS + 1,
        };
        store.overlay(context, change(), Epoch(1));
    }
    Ok(())
}

// Does the work of this name. False where there is none.
fn work(alloc: Global, name: &str) -> Result<bool> {
    match name {
        "flat" => grow_all(alloc, Shape::Flat)?,
        "deep" => grow_all(alloc, Shape::Deep)?,
        "spread" => grow_all(alloc, Shape::Spread)?,
        "list" => overlay(&mut ListStore::new(alloc))?,
        "slab" => overlay(&mut SlabStore::new(alloc))?,
        _ => return Ok(false),
    }
    Ok(true)
}

fn main(rt: HostRuntime) -> Result<ExitCode> {
    let Some(name) = env::args(&rt)?.nth(1) else {
        return Ok(ExitCode::FAILURE);
    };
    let is_known = work(rt.alloc(), name.as_str())?;
    Ok(if is_known {
        ExitCode::SUCCESS
    } else {
        ExitCode::FAILURE
    })
}
