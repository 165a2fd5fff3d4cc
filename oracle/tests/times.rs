//! Times in their order (document 02, N8): of a recording whose crossings lie on the centres of windows; and a list
//! that is out of order by the last bit is noticed.

use oracle::keydowns::{find, row, threshold};
use oracle::recordings::on_centres;
use oracle::records::{samples, Element};
use oracle::times::{in_order, twice_centre};

/// The last bit up and down, of a time that is not 0.
fn up(time: f64) -> f64 {
    f64::from_bits(time.to_bits() + 1)
}

fn down(time: f64) -> f64 {
    f64::from_bits(time.to_bits() - 1)
}

#[test]
fn crossings_on_centres() {
    for step in [1, 2, 3, 32, 63, 64] {
        let rec = on_centres(step);
        let iq = samples(&rec.iq);
        let row = row(&iq, rec.fs, 0.0);
        let level = 2f64.powi(-60);
        let levels = |at: usize| match at {
            0 | 1 | 24 | 2_546 | 2_567 | 2_568 => 0.0,
            2 | 23 | 25 => level,
            2_526.. => 1.0,
            _ => 2.0 * level,
        };
        assert_eq!((row.len(), threshold(&row)), (2_569, Some(level)));
        assert!((0..row.len()).all(|at| row[at] == levels(at)), "the row, in spite of what is rounded on the way");
        let centre = |i| twice_centre(step, i) / 2.0;
        let found = find(&iq, rec.fs, 0.0).elements;
        let positions: Vec<_> = found.iter().map(|e| (e.up, e.down)).collect();
        assert_eq!(positions, [(2.0, 24.0), (25.0, 2_546.0), (2_547.0, 2_567.0)]);
        // From the threshold: the start is the centre at up. To it: the end is the centre at down - 1.
        assert_eq!((found[0].start, found[0].end), (centre(2), centre(23)));
        // The quotient is rounded to 1, and to nothing: the end is the centre at down, and the next start is the centre
        // at up - 1, which is the same. They touch.
        assert_eq!((found[1].start, found[1].end), (centre(25), centre(2_546)));
        assert_eq!((found[2].start, found[2].end), (centre(2_546), centre(2_567)));
        assert_eq!(in_order(&found, step), Ok(()));
    }
}

#[test]
fn out_of_order_by_the_last_bit() {
    let centre = |i: usize| twice_centre(3, i) / 2.0;
    let at =
        |up: usize, down: usize| Element { start: centre(up - 1), end: centre(down), up: up as f64, down: down as f64 };
    // The first two touch.
    let list = [at(2, 9), at(10, 20), at(30, 40)];
    assert_eq!(in_order(&list, 3), Ok(()));
    assert_eq!(in_order(&[], 3), Ok(()));
    let wrong = |place: usize, change: &dyn Fn(&mut Element)| {
        let mut list = list;
        change(&mut list[place]);
        in_order(&list, 3).expect_err("a list out of order")
    };
    for place in 0..3 {
        let e = list[place];
        assert_eq!(in_order(&[Element { start: centre(e.up as usize), ..e }], 3), Ok(()));
        assert_eq!(in_order(&[Element { end: centre(e.down as usize - 1), ..e }], 3), Ok(()));
        for start in [down(e.start), up(centre(e.up as usize)), -e.start, f64::NAN, f64::INFINITY] {
            assert!(wrong(place, &|e| e.start = start).contains("the start is not"), "{start}");
        }
        for end in [up(e.end), down(centre(e.down as usize - 1)), -e.end, f64::NAN, f64::INFINITY] {
            assert!(wrong(place, &|e| e.end = end).contains("the end is not"), "{end}");
        }
        for position in [0.0, -1.0, 0.5, e.up + 0.5, e.down, f64::NAN] {
            assert!(wrong(place, &|e| e.up = position).contains("no positions"), "{position}");
        }
        for position in [e.up, e.down + 0.5, f64::NAN] {
            assert!(wrong(place, &|e| e.down = position).contains("no positions"), "{position}");
        }
    }
    // Each in its own place, but not in turn: the same twice, the later one first, an end just after the next start.
    assert!(in_order(&[list[0], list[0]], 3).unwrap_err().contains("the starts do not rise"));
    assert!(in_order(&[list[2], list[1]], 3).unwrap_err().contains("the starts do not rise"));
    let over = |end| [Element { end, ..at(2, 10) }, at(10, 20)];
    assert_eq!(in_order(&over(centre(9)), 3), Ok(()));
    assert!(in_order(&over(up(centre(9))), 3).unwrap_err().contains("the end is later than the next start"));
    // The same behind a pair that is in order, and with one behind it.
    for last in [&[][..], &[at(90, 99)]] {
        let behind = [&[at(1, 2), at(40, 50)][..], &[at(60, 70), at(60, 70)], last].concat();
        assert!(in_order(&behind, 3).unwrap_err().contains("the starts do not rise"));
        let later = Element { end: up(centre(69)), ..at(60, 70) };
        let behind = [&[at(1, 2), at(40, 50)][..], &[later, at(70, 80)], last].concat();
        assert!(in_order(&behind, 3).unwrap_err().contains("the end is later than the next start"));
    }
}
