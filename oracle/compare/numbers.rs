//! The functions of numbers: sin, cos, arg, norm, log10, narrow, the count of blocks, and the version.

use crate::ask::{Asker, Compared, Difference};
use crate::library;
use oracle::header;
use oracle::lent::{Bits, Lent, Zone};
use oracle::questions;
use oracle::random::Random;
use oracle::recordings::rate;
use oracle::stand_ins;
use std::f64::consts::{PI, TAU};

/// Numbers that every function is asked about.
const SPECIAL: [f64; 22] = [
    0.0,
    -0.0,
    1.0,
    -1.0,
    0.5,
    -0.5,
    2.0,
    1.5,
    0.75,
    PI,
    -PI,
    TAU,
    7.0,
    -7.0,
    f64::INFINITY,
    f64::NEG_INFINITY,
    f64::NAN,
    f64::MAX,
    f64::MIN,
    f64::MIN_POSITIVE,
    5e-324,
    -5e-324,
];

/// Lengths of recordings that the count of blocks is asked about.
const LENGTHS: [usize; 10] = [0, 1, 2, 3, 15, 16, 2_097_152, 2_097_153, usize::MAX - 1, usize::MAX];

/// Rates that it is asked about too: the ends, and changes of step.
const RATES: [f64; 6] = [2_000.0, 3_000.0, 4_500.0, 7_500.0, 190_500.0, 192_000.0];

/// A function by its short name, of the library and of the oracle, on these numbers.
macro_rules! same {
    ($asker:ident, $oracle:ident::$function:ident($($x:expr),*)) => {
        $asker.number(
            concat!("cancel_", stringify!($function)),
            || format!("{:?}", ($($x),*)),
            || library::$function($($x),*),
            || $oracle::$function($($x),*),
        )
    };
}

impl Asker {
    /// All special numbers and their neighbours.
    pub fn special_numbers(&mut self) -> Compared {
        same!(self, header::version())?;
        for a in SPECIAL {
            for x in [a, a.next_up(), a.next_down()] {
                self.of_one(x)?;
                for y in SPECIAL {
                    self.of_two(x, y)?;
                    self.of_two(y, x)?;
                }
            }
        }
        for fs in SPECIAL.into_iter().chain(RATES).flat_map(|fs| [fs, fs.next_up(), fs.next_down()]) {
            for len in LENGTHS {
                same!(self, questions::blocks(len, fs))?;
            }
        }
        Ok(())
    }

    /// So many numbers of each kind by chance.
    pub fn numbers(&mut self, times: usize) -> Compared {
        for _ in 0..times {
            let angle = angle(&mut self.random);
            self.of_angle(angle)?;
            let (re, im) = pair(&mut self.random);
            self.of_two(re, im)?;
            let y = positive(&mut self.random);
            same!(self, stand_ins::log10(y))?;
            let x = narrowed(&mut self.random);
            same!(self, stand_ins::narrow(x))?;
            let any = f64::from_bits(self.random.bits());
            self.of_one(any)?;
            let (len, fs) = (self.random.whole(0, 3_000_000), rate(&mut self.random));
            same!(self, questions::blocks(len, fs))?;
        }
        self.angles()
    }

    /// Some angles at once, with room for fewer, as many or more, and between guards.
    fn angles(&mut self) -> Compared {
        const CALL: &str = "cancel_cos_sin";
        if !library::present(CALL) || !self.asks(CALL) {
            return Ok(());
        }
        let r = &mut self.random;
        let angles: Vec<f64> = (0..r.whole(0, 12)).map(|_| angle(r)).collect();
        let mut lent = Lent::holding("angles", &angles, r);
        let mut out: Lent<f64> = Lent::any("out", r.whole(0, 24), r);
        let done = library::cos_sin(lent.pointer(), lent.len(), out.pointer(), out.len());
        let most = angles.len().min(out.len() / 2);
        let expected: Vec<f64> = angles[..most].iter().flat_map(|&x| [stand_ins::cos(x), stand_ins::sin(x)]).collect();
        let judged = if done == most {
            let rest = out.keeps(expected.len(), out.len(), "past the last pair");
            out.holds(&expected).and(rest).and(out.guarded()).and(lent.untouched("though only read"))
        } else {
            Err(format!("library answers {done}, oracle {most}"))
        };
        judged.map_err(|what| Difference { call: CALL, what })?;
        self.tally.equal_number(CALL);
        Ok(())
    }

    fn of_one(&mut self, x: f64) -> Compared {
        self.of_angle(x)?;
        same!(self, stand_ins::log10(x))?;
        same!(self, stand_ins::narrow(x))
    }

    fn of_two(&mut self, re: f64, im: f64) -> Compared {
        same!(self, stand_ins::arg(re, im))?;
        same!(self, stand_ins::norm(re, im))
    }

    fn of_angle(&mut self, x: f64) -> Compared {
        same!(self, stand_ins::sin(x))?;
        same!(self, stand_ins::cos(x))?;
        let handed = || format!("{x:?}");
        self.number("cancel_cos_sin", handed, || many(x, 0), || stand_ins::cos(x))?;
        self.number("cancel_cos_sin", handed, || many(x, 1), || stand_ins::sin(x))
    }

    fn number<T: Number>(
        &mut self,
        function: &'static str,
        handed: impl Fn() -> String,
        library: impl Fn() -> T,
        oracle: impl Fn() -> T,
    ) -> Compared {
        if !library::present(function) || !self.asks(function) {
            return Ok(());
        }
        let (a, b) = (library(), oracle());
        if !a.same_number(b) {
            let what = format!("of {}: library {a:?}, oracle {b:?}", handed());
            return Err(Difference { call: function, what });
        }
        self.tally.equal_number(function);
        Ok(())
    }
}

/// What a function answers: a float, where all NaNs are one and both zeros are one, or a whole number.
trait Number: Copy + std::fmt::Debug {
    fn same_number(self, other: Self) -> bool;
}

impl Number for f64 {
    fn same_number(self, other: f64) -> bool {
        self.same(other)
    }
}

impl Number for f32 {
    fn same_number(self, other: f32) -> bool {
        self.same(other)
    }
}

impl Number for usize {
    fn same_number(self, other: usize) -> bool {
        self == other
    }
}

impl Number for u64 {
    fn same_number(self, other: u64) -> bool {
        self == other
    }
}

/// An angle in a turn, about a place of the table or halfway between two, or a little beyond 7.
fn angle(r: &mut Random) -> f64 {
    match r.whole(0, 4) {
        0 => r.between(0.0, TAU),
        1 => r.between(-7.1, 7.1),
        2 => {
            let half_places = r.whole(0, 2 * 4600) as f64 - 4600.0;
            let x = half_places * (PI / 4096.0);
            r.about(x)
        }
        _ => f64::from_bits(r.bits() % 7f64.to_bits()),
    }
}

/// Two parts of like or unlike size, about a place of the arctangents' table, or of whole numbers.
fn pair(r: &mut Random) -> (f64, f64) {
    let signed = |r: &mut Random, x: f64| if r.chance(0.5) { x } else { -x };
    let (a, b) = match r.whole(0, 4) {
        0 => (r.unit(), r.unit()),
        1 => {
            let larger = r.between(1e-30, 1e30);
            let half_places = r.whole(0, 129) as f64;
            let smaller = larger * (half_places / 128.0);
            (larger, r.about(smaller))
        }
        2 => ((r.bits() >> 40) as f64, (r.bits() >> 40) as f64),
        _ => (f64::from_bits(r.bits()), f64::from_bits(r.bits())),
    };
    let (a, b) = if r.chance(0.5) { (a, b) } else { (b, a) };
    (signed(r, a), signed(r, b))
}

/// A positive number, often about m = 0.75 or 1.5.
fn positive(r: &mut Random) -> f64 {
    let exponent = r.whole(0, 2046) as u64;
    match r.whole(0, 3) {
        0 => {
            let border = f64::from_bits(exponent << 52 | 1 << 51);
            r.about(border)
        }
        1 => r.between(1e-6, 1e6),
        _ => f64::from_bits(exponent << 52 | r.bits() >> 12),
    }
}

/// A number about an f32 or halfway between two, of any size.
fn narrowed(r: &mut Random) -> f64 {
    let single = f32::from_bits(r.bits() as u32);
    let x = single as f64;
    match r.whole(0, 3) {
        0 => r.about(x),
        1 => {
            let halfway = (x + single.next_up() as f64) / 2.0;
            r.about(halfway)
        }
        _ => {
            let shift = r.between(-160.0, 140.0).floor() as i32;
            r.between(-2.0, 2.0) * 2f64.powi(shift)
        }
    }
}

/// The cosine (part 0) or the sine (part 1) by the call for many angles, the second of three; the room is for two, and
/// one number more.
fn many(x: f64, part: usize) -> f64 {
    let angles = [0.5, x, 1.5];
    let mut out = [9.0; 6];
    let done = library::cos_sin(angles.as_ptr(), 3, out.as_mut_ptr(), 5);
    assert!(done == 2 && out[4] == 9.0 && out[5] == 9.0, "cancel_cos_sin wrote past its room");
    out[2 + part]
}
