//! What is written by serde and read back is what it was.

use cancel::{
    block_classes, estimate_strong, run, AmplitudeRow, BlockClass, Complex32, Hypothesis, ResidualCheck, Run,
    StrongEstimate,
};

fn recording() -> Vec<Complex32> {
    let mut recording = vec![Complex32::new(0.0, 0.0); 300];
    recording[100..200].fill(Complex32::new(1.0, 0.0));
    recording
}

#[test]
fn there_and_back() {
    let estimate = estimate_strong(&recording(), 3_000.0, 0.1).unwrap();
    let written = serde_json::to_string(&estimate).unwrap();
    assert_eq!(serde_json::from_str::<StrongEstimate>(&written).unwrap(), estimate);
    let ran = run(&mut recording(), 3_000.0, 0.1).unwrap();
    let written = serde_json::to_string(&ran).unwrap();
    assert!(written.contains(r#""hypothesis":"one_signal""#), "{written}");
    assert_eq!(serde_json::from_str::<Run>(&written).unwrap(), ran);
    let classes = block_classes(300, 3_000.0, &estimate).unwrap();
    let written = serde_json::to_string(&classes).unwrap();
    assert_eq!(serde_json::from_str::<Vec<BlockClass>>(&written).unwrap(), classes);
    let two = Hypothesis::TwoSignalCw { offset_hz: -60.5 };
    let written = serde_json::to_string(&two).unwrap();
    assert_eq!(written, r#"{"two_signal_cw":{"offset_hz":-60.5}}"#);
    assert_eq!(serde_json::from_str::<Hypothesis>(&written).unwrap(), two);
    let row = cancel::amplitude_row(&recording(), 3_000.0, 0.0).unwrap();
    let written = serde_json::to_string(&row).unwrap();
    assert_eq!(serde_json::from_str::<AmplitudeRow>(&written).unwrap(), row);
}

/// JSON has no infinity, and a run without a sender has two.
#[test]
fn what_is_not_finite() {
    let ran = run(&mut [], 3_000.0, 0.0).unwrap();
    assert_eq!(ran.figures.residual.edge_over_neighbour_db, f64::INFINITY);
    let written = serde_json::to_string(&ran).unwrap();
    assert!(written.contains(r#""edge_over_neighbour_db":"infinity""#), "{written}");
    assert_eq!(serde_json::from_str::<Run>(&written).unwrap(), ran);
    let mut check = ran.figures.residual;
    check.edge_over_neighbour_db = f64::NAN;
    check.interior_over_neighbour_db = f64::NEG_INFINITY;
    let written = serde_json::to_string(&check).unwrap();
    let read: ResidualCheck = serde_json::from_str(&written).unwrap();
    assert!(read.edge_over_neighbour_db.is_nan() && read.interior_over_neighbour_db == f64::NEG_INFINITY);
    assert!(serde_json::from_str::<ResidualCheck>(&written.replace("nan", "naan")).is_err());
    let whole = written.replace("\"nan\"", "-7");
    assert_eq!(serde_json::from_str::<ResidualCheck>(&whole).unwrap().edge_over_neighbour_db, -7.0);
}
