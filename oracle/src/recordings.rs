//! Recordings by chance, and the rates they come at.

use crate::by_stand_ins::way_in::edge_window;
use crate::random::Random;
use crate::scene::Recording;
use crate::signals::{leading_to, real, senders, Sender};

/// The rate at which step becomes k + 1.
pub fn change_of_step(k: usize) -> f64 {
    (k as f64 + 0.5) * 3_000.0
}

pub fn rate(r: &mut Random) -> f64 {
    match r.whole(0, 6) {
        0 => r.pick(&[2_000.0, 3_000.0, 8_000.0, 11_025.0, 12_000.0, 44_100.0, 48_000.0, 96_000.0, 192_000.0]),
        1 => {
            let border = change_of_step(r.whole(1, 64));
            r.about(border)
        }
        2 => r.between(2_000.0, 192_000.0),
        3 => r.between(2_000.0, 192_000.0).round(),
        _ => r.between(2_000.0, 9_000.0),
    }
}

/// A recording of any kind.
pub fn recording(r: &mut Random) -> Recording {
    let fs = rate(r);
    let mut rec = match r.whole(0, 16) {
        0 => row(fs, r),
        1 => keyed(fs, r),
        2 => extreme(fs, r),
        3 => damaged(r),
        4 => levels(fs, r),
        5 => short(fs, r),
        _ => {
            let aim = r.pick(&AIMS);
            sent(aim, r)
        }
    };
    match r.whole(0, 30) {
        0 => rec.hint_hz = rec.fs / 2.0,
        1 => rec.hint_hz = -rec.fs / 2.0,
        2 => rec.hint_hz = r.between(-rec.fs / 2.0, rec.fs / 2.0),
        3 => rec.hint_hz = -0.0,
        _ => {}
    }
    rec
}

/// What a recording of senders is to lead a run to.
#[derive(Debug, Clone, Copy, PartialEq)]
pub enum Aim {
    /// One signal: nothing in the gaps but noise.
    Alone,
    /// Two signals, and taken.
    Neighbour,
    /// Two signals, but too few fits.
    Few,
    /// Two signals, but the hint is too far off.
    FarHint,
    /// Two signals, but what would be left of the strong one is too much.
    Rough,
    /// No CW: a steady carrier in the gaps.
    Steady,
    /// Unresolved: an offset that is too small or too large, or several neighbours.
    Unclear,
}

pub const AIMS: [Aim; 8] =
    [Aim::Alone, Aim::Neighbour, Aim::Neighbour, Aim::Few, Aim::FarHint, Aim::Rough, Aim::Steady, Aim::Unclear];

/// A strong keyed sender with 5 ms ramps, drift and noise, and what the aim asks for beside it; the hint is near it.
pub fn sent(aim: Aim, r: &mut Random) -> Recording {
    // Long recordings at high rates are dear, so most are at low ones.
    let fs = match r.whole(0, 24) {
        0 => r.between(9_000.0, 192_000.0),
        1 => r.pick(&[8_000.0, 12_000.0, 16_000.0, 48_000.0]),
        2..=5 => r.between(4_500.0, 9_000.0),
        _ => r.between(2_000.0, 4_500.0),
    };
    let unit_s = r.between(0.03, 0.05);
    let seconds = if aim == Aim::Few { r.between(1.0, 2.0) } else { r.between(110.0, 180.0) * unit_s };
    let n = ((seconds * fs) as usize).min(1 << 20);
    let reach = (fs / 2.0 - 200.0).min(3_000.0);
    let hz = r.pick(&[0.0, 1.0, 1.0]) * r.between(-reach, reach);
    // The largest and the smallest keep all senders just inside of what an f32 holds.
    let scale = r.pick(&[1.0, 1.0, 1.0, 1.0, 1.0, 0.01, 1.5e38, 1e-38]);
    let drift = r.pick(&[0.0, 0.0, 0.05, -0.1, 0.3]);
    let strong =
        Sender::keyed(hz, scale, unit_s).drifting(if aim == Aim::Rough { r.between(4.0, 12.0) } else { drift });
    let side = r.pick(&[-1.0, 1.0]);
    let offset = side * r.between(15.0, 145.0);
    let weak = |offset: f64, r: &mut Random| {
        Sender::keyed(hz + offset, scale * r.between(0.12, 0.4), r.between(0.05, 0.09)).drifting(drift)
    };
    let mut all = vec![strong];
    match aim {
        Aim::Alone => {}
        Aim::Steady => all.push(Sender::steady(hz + offset, scale * r.between(0.1, 0.4))),
        Aim::Unclear => match r.whole(0, 3) {
            0 => all.push(weak(side * r.between(0.0, 9.0), r)),
            1 => all.push(weak(side * r.between(155.0, 180.0), r)),
            _ => all.extend([weak(offset, r), weak(-offset, r), weak(side * r.between(60.0, 120.0), r)]),
        },
        _ => all.push(weak(offset, r)),
    }
    let noise = scale * r.pick(&[0.0, 0.0005, 0.002, 0.01]);
    let away = if aim == Aim::FarHint { side * r.between(6.0, 12.0) } else { r.pick(&[0.0, 0.3, -0.4, 1.5]) };
    let iq = senders(n, fs, &all, if aim == Aim::Alone { noise.max(scale * 0.0005) } else { noise }, r);
    let hint_hz = (hz + away).clamp(-fs / 2.0, fs / 2.0);
    Recording { what: format!("{aim:?}, {} senders", all.len()), fs, iq, hint_hz }
}

/// Two senders at any rate, in as few samples as show something.
fn short(fs: f64, r: &mut Random) -> Recording {
    let most = r.pick(&[4_000.0, 20_000.0, 40_000.0]);
    let n = (r.between(0.3, 12.0) * fs).min(most) as usize + r.whole(0, 600);
    let reach = fs / 2.0 - 200.0;
    let hz = r.pick(&[0.0, 1.0]) * r.between(-reach, reach);
    let strong = Sender::keyed(hz, r.between(0.1, 1.0), r.between(0.03, 0.12));
    let offset = r.pick(&[-1.0, 1.0]) * r.between(8.0, 160.0);
    let weak = Sender::keyed(hz + offset, strong.amplitude * r.between(0.05, 0.5), r.between(0.04, 0.1));
    let iq = senders(n, fs, &[strong, weak], strong.amplitude * r.pick(&[0.0, 0.005, 0.05]), r);
    let hint_hz = (hz + r.pick(&[0.0, 0.3, -0.4, 3.0, -6.0])).clamp(-fs / 2.0, fs / 2.0);
    Recording { what: "2 senders, short".into(), fs, iq, hint_hz }
}

/// Rows of equal, alternating, rising and falling values.
fn row(fs: f64, r: &mut Random) -> Recording {
    let (window, step) = edge_window(fs);
    let n = r.whole(0, 60 * window);
    let (a, b) = (r.unit() as f32, r.unit() as f32);
    let (what, iq) = match r.whole(0, 6) {
        0 => ("equal row", real(n, |_| a)),
        1 => ("zero row", real(n, |_| 0.0)),
        2 => ("alternating samples", real(n, |k| if k % 2 == 0 { a } else { b })),
        3 => ("alternating blocks", real(n, |k| if k / step % 16 < 8 { a } else { 0.0 })),
        4 => ("rising row", real(n, |k| k as f32 / n as f32)),
        _ => ("falling row", real(n, |k| 1.0 - k as f32 / n as f32)),
    };
    Recording { what: what.into(), fs, iq, hint_hz: 0.0 }
}

/// A row of just these levels, on for so long and off for so long, in steps.
pub fn on_off(n: usize, fs: f64, on: usize, off: usize) -> Recording {
    let step = edge_window(fs).1;
    let iq = leading_to(n, step, |i| f64::from(i % (on + off) >= off));
    Recording { what: format!("on-off row, {on} on and {off} off"), fs, iq, hint_hz: 0.0 }
}

/// A row of three key-downs whose starts and ends lie on the centres of windows. The first starts with an amplitude
/// that is the threshold and ends after one. Beside the level 1 the threshold is lost in rounding, in the sums too,
/// which are whole from there on: the second ends on the centre at down, and the third, whose up comes next, starts
/// there.
pub fn on_centres(step: usize) -> Recording {
    let threshold = 2f64.powi(-60);
    let most = vec![2.0 * threshold; 2_500];
    let row = [
        &[0.0, 0.0, threshold],
        &[2.0 * threshold; 20][..],
        &[threshold, 0.0, threshold],
        &most,
        &[1.0; 20],
        &[0.0],
        &[1.0; 20],
        &[0.0, 0.0],
    ]
    .concat();
    let n = (row.len() + 7) * step;
    let iq = leading_to(n, step, |i| row[i]);
    Recording { what: format!("crossings on centres, step {step}"), fs: (3_000 * step) as f64, iq, hint_hz: 0.0 }
}

/// Rows with as many key-downs, listed or fitted ones as there can be, and about that.
fn levels(fs: f64, r: &mut Random) -> Recording {
    let step = edge_window(fs).1;
    let rise = (5e-3 * fs / step as f64).ceil() as usize;
    let on = r.pick(&[1, 2, rise, 4 * rise]) + r.whole(0, 2);
    let n = step * r.whole(20, 3_000);
    on_off(n, fs, on, r.whole(1, 4))
}

/// Keyed without ramps, of levels that meet the threshold exactly, in lengths about the shortest that are listed or
/// fitted.
fn keyed(fs: f64, r: &mut Random) -> Recording {
    let n = r.whole(100, 20_000);
    let (rise, interior) = (5e-3 * fs, 10e-3 * fs);
    let mut iq = Vec::new();
    while iq.len() < 2 * n {
        let length = r.pick(&[0.5 * rise, rise, 2.0 * rise, 2.0 * rise + interior, 10.0 * rise]);
        let length = (length + r.between(-3.0, 3.0)).max(1.0) as usize;
        let level = r.pick(&[0.0, 0.0, 0.5, 1.0]);
        iq.extend((0..length).flat_map(|_| [level, 0.0]));
    }
    iq.truncate(2 * n);
    Recording { what: "keyed levels".into(), fs, iq, hint_hz: 0.0 }
}

/// A recording of senders that was damaged on its way: dropped, repeated or exchanged samples, clipping, single wrong
/// numbers of any size.
fn damaged(r: &mut Random) -> Recording {
    let aim = r.pick(&AIMS);
    let mut rec = sent(aim, r);
    let n = rec.iq.len() / 2;
    let (_, step) = edge_window(rec.fs);
    let kind = r.whole(0, 6);
    let times = if kind == 2 { 1 } else { r.whole(1, 60) };
    for _ in 0..times {
        let lo = r.whole(0, n);
        let hi = (lo + r.whole(1, 6 * step + 2)).min(n);
        let part = &mut rec.iq[2 * lo..2 * hi];
        match kind {
            0 => part.fill(0.0),
            1 => part.rotate_left(1),
            2 => {
                let most = r.between(0.2, 0.9) as f32 * rec.iq.iter().fold(0.0, |a: f32, x| a.max(x.abs()));
                rec.iq.iter_mut().for_each(|x| *x = x.clamp(-most, most));
            }
            3 => part.iter_mut().for_each(|x| *x = -*x),
            4 => {
                let at = r.whole(0, 2 * n);
                rec.iq[at] = r.pick(&[f32::MAX, f32::MIN, 1e-45, -0.0, 1.0]);
            }
            _ => {
                let at = r.whole(0, 2 * n);
                let bits = f32::from_bits(rec.iq[at].to_bits() ^ 1 << r.whole(0, 32));
                rec.iq[at] = if bits.is_finite() { bits } else { 0.0 };
            }
        }
    }
    let how = ["dropped", "parts exchanged", "clipped", "turned", "single wrong numbers", "single wrong bits"][kind];
    rec.what = format!("{}, {how}", rec.what);
    rec
}

/// Samples near the largest f32, subnormal, or of any finite bits.
fn extreme(fs: f64, r: &mut Random) -> Recording {
    let n = r.whole(0, 6_000);
    let kind = r.whole(0, 4);
    let sign = |r: &mut Random| if r.chance(0.5) { 1.0f32 } else { -1.0 };
    let part = |k: usize, r: &mut Random| match kind {
        0 => sign(r) * f32::MAX,
        1 => f32::from_bits(r.whole(0, 1 << 23) as u32) * sign(r),
        2 => {
            // A keyed sender of the largest size.
            let on = k / 400 % 2 == 0;
            if on {
                f32::MAX * (1.0 - r.unit() as f32 / 1e6)
            } else {
                f32::MIN_POSITIVE * r.unit() as f32
            }
        }
        _ => {
            let x = f32::from_bits(r.bits() as u32);
            if x.is_finite() {
                x
            } else {
                0.0
            }
        }
    };
    let iq: Vec<f32> = (0..2 * n).map(|i| part(i / 2, r)).collect();
    let what = ["largest samples", "subnormal samples", "largest keyed", "samples of any bits"][kind];
    Recording { what: what.into(), fs, iq, hint_hz: 0.0 }
}
