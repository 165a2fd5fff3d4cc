//! Two calls at once, each in a thread of its own: a library without state answers both as if each were alone.

use crate::ask::{Compared, Difference};
use crate::library;
use oracle::calls::CALLS;
use oracle::handed::Handed;
use oracle::random::Random;
use oracle::recordings::{sent, Aim};
use oracle::scene::Scene;

/// How often each of the two asks every call.
const TIMES: usize = 3;

pub fn two(seed: u64) -> Compared {
    std::thread::scope(|scope| {
        let other = scope.spawn(|| one(seed, Aim::Steady));
        one(seed, Aim::Neighbour).and(other.join().expect("a thread that ends"))
    })
}

/// Every call that the library has, again and again, on one scene.
fn one(seed: u64, aim: Aim) -> Compared {
    let mut r = Random::new(seed);
    let mut recording = sent(aim, &mut r);
    recording.iq.truncate(20_000);
    let scene = Scene::own(recording, &mut r);
    for call in CALLS {
        let Some(ask) = library::ask(call.name) else { continue };
        let outcome = call.outcome(&scene);
        for _ in 0..TIMES {
            let mut handed = Handed::lend(call, &scene, &mut r);
            let status = ask(&mut handed);
            handed.judge(call, status, &outcome).map_err(|what| Difference { call: call.name, what })?;
        }
    }
    Ok(())
}
