//! Several files on all processors; what came of them is said in the order given.

use crate::args::Run;
use crate::console::Console;
use crate::outcome::Outcome;
use crate::problem::Problem;
use crate::reading;
use crate::runs;
use cancel::Workspace;
use rayon::iter::{ParallelBridge, ParallelIterator};
use std::collections::BTreeMap;
use std::sync::atomic::{AtomicBool, Ordering};
use std::sync::mpsc::{self, Receiver};
use std::thread;

/// What came of a piece of the file of this number, or that there are no more.
type Message = (usize, Option<Outcome>);

/// Several files, each on a processor of its own as far as there are any. None stops the others.
pub fn several(args: &Run, console: &mut Console) -> Result<(), Problem> {
    let (send, receive) = mpsc::channel::<Message>();
    let stop = AtomicBool::new(false);
    thread::scope(|scope| {
        let stop = &stop;
        scope.spawn(move || {
            let files = args.files.iter().enumerate().par_bridge();
            files.for_each_with((send, Workspace::new()), |(send, workspace), (i, path)| {
                let go_on = || !stop.load(Ordering::Relaxed);
                if go_on() {
                    runs::file(args, i + 1, path, workspace, &mut |outcome| {
                        send.send((i, Some(outcome))).is_ok() && go_on()
                    });
                }
                let _ = send.send((i, None));
            });
        });
        let said = in_order(args, &receive, console, stop);
        stop.store(true, Ordering::Relaxed);
        said
    })
}

/// Says what came of each, those that come too early later.
fn in_order(args: &Run, from: &Receiver<Message>, console: &mut Console, stop: &AtomicBool) -> Result<(), Problem> {
    let mut early: BTreeMap<usize, Vec<Option<Outcome>>> = BTreeMap::new();
    let mut next = 0;
    for (i, outcome) in from {
        early.entry(i).or_default().push(outcome);
        while let Some(outcomes) = early.remove(&next) {
            let at = next;
            for outcome in outcomes {
                let outcome = match outcome {
                    Some(outcome) => outcome,
                    None => {
                        console.step(&reading::name(&args.files[at]));
                        next += 1;
                        continue;
                    }
                };
                if !console.take(outcome)? && !args.writes() {
                    stop.store(true, Ordering::Relaxed);
                }
            }
            if next == at {
                break;
            }
        }
    }
    Ok(())
}
