#!/bin/sh
# Times single events of the scheduler's core at 1,000, 8,000 and 32,000 keys. It adds a small program to a temporary
# copy of the repository, which takes the libraries along that were proved here (crates/*/out/rlib), so that only the
# others and the program are proved there; then it builds the program and runs it three times. Run it on a quiet machine.
set -eu
top=$(cd "$(dirname "$0")/.." && pwd)
copy=$(mktemp -d)
trap 'rm -rf "$copy"' EXIT
cp "$top/crates.txt" "$top/HANDLES" "$copy"
(cd "$top" && tar cf - --exclude=out crates) | (cd "$copy" && tar xf -)
libraries=$(awk -F: '
    { name = $1; sub(/ .*/, "", name); below[name] = $2 }
    END {
        todo[1] = "cluster_msgs"; todo[2] = "scheduler_core"; last = 2
        for (at = 1; at <= last; at++) {
            if (todo[at] in seen || !(todo[at] in below)) continue
            seen[todo[at]]; print todo[at]
            count = split(below[todo[at]], names, " ")
            for (i = 1; i <= count; i++) todo[++last] = names[i]
        }
    }' "$top/crates.txt")
for name in $libraries; do
    [ -d "$top/crates/$name/out/rlib" ] || continue
    mkdir -p "$copy/crates/$name/out"
    cp -R "$top/crates/$name/out/rlib" "$copy/crates/$name/out"
done
mkdir -p "$copy/crates/event_bench/src"
echo 'event_bench: anyhow cluster_msgs scheduler_core' >> "$copy/crates.txt"
cat > "$copy/crates/event_bench/src/main.rt" <<'END'
//! Times single events of the scheduler's core.
#![tactic(auto)]

use anyhow::Error;
use cluster_msgs::{Down, FromClient, GraphShape, KeyList, Outbox, SchedEvent, Up};
use scheduler_core::Sched;
use std::alloc::{AllocError, Global};
use std::time::Instant;

/// How many events of a kind are timed.
const TIMES: u32 = 100;

/// A graph that grows. It has no contracts, so that this program's own proof stays short.
trait Growing {
    /// Adds a key without dependencies, where there is room.
    fn add_root(&mut self, none: &KeyList) -> Result<(), AllocError>;

    /// Adds a key that depends on the key of half its number, where there is room.
    fn add_child(&mut self, alloc: Global) -> Result<(), AllocError>;
}

impl Growing for GraphShape {
    fn add_root(&mut self, none: &KeyList) -> Result<(), AllocError> {
        self.sound();
        if none.is_empty() && self.keys() < 32768 {
            self.push(none, 800, 800)?;
        }
        Ok(())
    }

    fn add_child(&mut self, alloc: Global) -> Result<(), AllocError> {
        let key = self.keys();
        let mut half = KeyList::new(alloc);
        half.push(key / 2)?;
        if 0 < key && key < 32768 && self.edges() < 262144 {
            self.push(&half, 800, 800)?;
        }
        Ok(())
    }
}

/// What is asked of a core. It has no contracts either.
trait Core {
    /// Whether the event is taken.
    fn take(&mut self, event: SchedEvent, out: &mut Outbox) -> bool;
}

impl Core for Sched {
    fn take(&mut self, event: SchedEvent, out: &mut Outbox) -> bool {
        self.on(event, out).is_ok()
    }
}

/// Grows a graph: a tree in which each key but the first depends on the key of half its number, or keys alone.
fn grow(
    alloc: Global,
    graph: &mut impl Growing,
    none: &KeyList,
    is_tree: bool,
    count: u32,
) -> Result<(), AllocError> {
    graph.add_root(none)?;
    for _ in 1..count {
        if is_tree {
            graph.add_child(alloc)?;
        } else {
            graph.add_root(none)?;
        }
    }
    Ok(())
}

/// A graph of so many keys.
fn graph(alloc: Global, is_tree: bool, count: u32) -> Result<GraphShape, AllocError> {
    let mut shape = GraphShape::new(alloc);
    let none = KeyList::new(alloc);
    grow(alloc, &mut shape, &none, is_tree, count)?;
    Ok(shape)
}

/// The numbers below `count`.
fn numbers(alloc: Global, count: u32) -> Result<Vec<u32>, AllocError> {
    let mut all = Vec::new(alloc);
    for number in 0..count {
        all.push(number)?;
    }
    Ok(all)
}

/// Client 1 wants all keys.
fn want(alloc: Global, count: u32) -> Result<SchedEvent, AllocError> {
    let keys = KeyList::from_vec(numbers(alloc, count)?);
    let msg = FromClient::Want { keys };
    Ok(SchedEvent::FromClient { c: 1, msg })
}

/// Client 1 wants none of the keys any longer.
fn release(alloc: Global, count: u32) -> Result<SchedEvent, AllocError> {
    let keys = KeyList::from_vec(numbers(alloc, count)?);
    let msg = FromClient::Release { keys };
    Ok(SchedEvent::FromClient { c: 1, msg })
}

/// A worker was sent a task.
#[derive(Clone, Copy)]
struct Task {
    worker: u32,
    key: u32,
    attempt: u64,
    /// The place of the message.
    at: usize,
}

/// The first task that was sent from this place on.
fn next_task(out: &Outbox, from: usize) -> Option<Task> {
    let sent = out.down.as_slice();
    for at in from..sent.len() {
        let worker = sent[at].0;
        if let Down::ComputeTask { key, attempt, .. } = &sent[at].1 {
            return Some(Task {
                worker,
                key: *key,
                attempt: *attempt,
                at,
            });
        }
    }
    None
}

/// The worker finishes its task.
fn finished(task: Task) -> SchedEvent {
    let up = Up::TaskFinished {
        seen: 0,
        key: task.key,
        attempt: task.attempt,
    };
    SchedEvent::FromWorker { w: task.worker, up }
}

/// The worker, which has seen all messages, has a copy of the key.
fn added(alloc: Global, w: u32, key: u32) -> Result<SchedEvent, AllocError> {
    let mut keys = KeyList::new(alloc);
    keys.push(key)?;
    let up = Up::AddKeys {
        seen: 1_000_000_000,
        keys,
    };
    Ok(SchedEvent::FromWorker { w, up })
}

/// Worker 1 asks who holds key 0, which changes nothing.
fn asked() -> SchedEvent {
    let up = Up::RequestRefreshWhoHas { seen: 0, key: 0 };
    SchedEvent::FromWorker { w: 1, up }
}

/// How long the events of a kind took, in nanoseconds, and how many of them were refused.
#[derive(Drop)]
struct Times {
    all: Vec<u64>,
    refused: u32,
}

/// Nothing was timed yet.
fn no_times(alloc: Global) -> Times {
    Times {
        all: Vec::new(alloc),
        refused: 0,
    }
}

/// Prints the median, and the time that nine of ten do not pass.
fn print_times(rt: &HostRuntime, name: &str, times: Times) -> Result<(), Error> {
    let Times { mut all, refused } = times;
    all.sort()?;
    let count = all.len();
    let median = all.as_slice().get(count / 2).copied().unwrap_or(0);
    let most = all.as_slice().get(count / 10 * 9).copied().unwrap_or(0);
    println!(rt; "  {name}: median {median} ns, nine of ten {most} ns, of {count} events, {refused} refused")?;
    Ok(())
}

/// Times one event.
fn time(
    rt: &HostRuntime,
    core: &mut impl Core,
    event: SchedEvent,
    out: &mut Outbox,
    times: &mut Times,
) -> Result<(), Error> {
    let start = Instant::now(rt)?;
    let is_taken = core.take(event, out);
    let nanos = start.elapsed(rt)?.as_nanos() % 1_000_000_000_000; // a thousand seconds
    if !is_taken {
        times.refused = times.refused.saturating_add(1);
    }
    times.all.push(nanos as u64)?;
    Ok(())
}

/// Workers finish tasks, one after another. Answers the tasks.
fn finish_some(
    rt: &HostRuntime,
    core: &mut impl Core,
    out: &mut Outbox,
) -> Result<Vec<Task>, Error> {
    let mut sum = no_times(rt.alloc());
    let mut done = Vec::new(rt.alloc());
    let mut from = 0;
    for _ in 0..TIMES {
        if let Some(task) = next_task(out, from) {
            time(rt, core, finished(task), out, &mut sum)?;
            from = task.at.saturating_add(1);
            done.push(task)?;
        }
    }
    print_times(rt, "task-finished", sum)?;
    Ok(done)
}

/// Two other workers get copies of these keys, and Evict takes them.
fn copy_and_drop(
    rt: &HostRuntime,
    core: &mut impl Core,
    done: &[Task],
    workers: u32,
    out: &mut Outbox,
) -> Result<(), Error> {
    let mut adding = no_times(rt.alloc());
    for task in done {
        for by in [1, 2, 3] {
            let other = task.worker.saturating_add(by) % workers.max(1);
            let event = added(rt.alloc(), other.saturating_add(1), task.key)?;
            time(rt, core, event, out, &mut adding)?;
        }
    }
    print_times(rt, "add-keys of one key", adding)?;
    let mut dropping = no_times(rt.alloc());
    for _ in 0..TIMES {
        time(rt, core, SchedEvent::Evict, out, &mut dropping)?;
    }
    print_times(rt, "evict", dropping)
}

/// The events of one kind that need no more than a core.
fn repeat(
    rt: &HostRuntime,
    name: &str,
    core: &mut impl Core,
    balances: bool,
    out: &mut Outbox,
) -> Result<(), Error> {
    let mut sum = no_times(rt.alloc());
    for _ in 0..TIMES {
        let event = if balances { SchedEvent::Balance } else { asked() };
        time(rt, core, event, out, &mut sum)?;
    }
    print_times(rt, name, sum)
}

/// Workers join and leave, the last one each time.
fn come_and_go(
    rt: &HostRuntime,
    core: &mut impl Core,
    workers: u32,
    out: &mut Outbox,
) -> Result<(), Error> {
    let mut joins = no_times(rt.alloc());
    let mut leaves = no_times(rt.alloc());
    for turn in 0..20u32 {
        let last = workers.saturating_add(turn);
        time(rt, core, SchedEvent::Leave { w: last }, out, &mut leaves)?;
        time(rt, core, SchedEvent::Join { threads: 2 }, out, &mut joins)?;
    }
    print_times(rt, "leave", leaves)?;
    print_times(rt, "join", joins)
}

/// Times one event alone.
fn once(
    rt: &HostRuntime,
    name: &str,
    core: &mut impl Core,
    event: SchedEvent,
    out: &mut Outbox,
) -> Result<(), Error> {
    let mut sum = no_times(rt.alloc());
    time(rt, core, event, out, &mut sum)?;
    print_times(rt, name, sum)
}

/// Times one event after another.
fn time_all(
    rt: &HostRuntime,
    core: &mut impl Core,
    count: u32,
    workers: u32,
    out: &mut Outbox,
) -> Result<(), Error> {
    for _ in 0..workers {
        let _ = core.take(SchedEvent::Join { threads: 2 }, out);
    }
    once(rt, "want of all", core, want(rt.alloc(), count)?, out)?;
    repeat(rt, "balance, no choice", core, true, out)?;
    let done = finish_some(rt, core, out)?;
    repeat(rt, "request-refresh-who-has", core, false, out)?;
    copy_and_drop(rt, core, done.as_slice(), workers, out)?;
    come_and_go(rt, core, workers, out)?;
    repeat(rt, "balance", core, true, out)?;
    once(rt, "leave of worker 1", core, SchedEvent::Leave { w: 1 }, out)?;
    once(rt, "release of all", core, release(rt.alloc(), count)?, out)
}

/// Times the events of one scheduler. It alone owns a core, since a proof pays for each owner.
fn run(rt: &HostRuntime, is_tree: bool, count: u32, workers: u32) -> Result<(), Error> {
    let alloc = rt.alloc();
    let mut core = Sched::new(alloc, graph(alloc, is_tree, count)?, 1, 11)?;
    let mut out = Outbox::new(alloc);
    time_all(rt, &mut core, count, workers, &mut out)
}

fn main(rt: HostRuntime) -> Result<(), Error> {
    for count in [1_000u32, 8_000, 32_000] {
        println!(rt; "tree of {count} keys, 8 workers")?;
        run(&rt, true, count, 8)?;
        println!(rt; "{count} keys without dependencies, 64 workers")?;
        run(&rt, false, count, 64)?;
    }
    Ok(())
}
END
cd "$copy/crates/event_bench"
rt run < /dev/null > "$copy/log" 2>&1 || true
if [ ! -x out/event_bench ]; then
    cat "$copy/log"
    exit 1
fi
for _ in 1 2 3; do
    ./out/event_bench
done
