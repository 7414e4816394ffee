//! The sweep, set against what document 01 says of each of its crashes.

use reference::sweep;

const COMMIT_STORES: u32 = 386;
const RECOVERY_STORES: u32 = 129;
/// The stores up to the commit point.
const COMMITTED_AFTER: u32 = 257;

/// A recovery begins if the commit point is stored and the end of the log isn't.
fn expected() -> String {
    let mut text = String::new();
    for stores in 0..=COMMIT_STORES {
        let logged = (COMMITTED_AFTER..COMMIT_STORES).contains(&stores);
        let due = if logged { RECOVERY_STORES } else { 0 };
        let map = if stores < COMMITTED_AFTER { "128x0" } else { "128x4294967295" };
        text += &format!("stores={stores} due={due} {map}\n");
        for again in 0..=due {
            let due = if again == due { 0 } else { due };
            text += &format!(" again={again} due={due} {map} disk {map}\n");
        }
    }
    text
}

#[test]
fn the_sweep() {
    let mut output = Vec::new();
    sweep::run(&mut output).unwrap();
    let output = String::from_utf8(output).unwrap();
    assert_eq!(output.lines().count(), 387 + 257 + 129 * 130 + 1);
    let expected = expected();
    output.lines().zip(expected.lines()).for_each(|(line, expected)| assert_eq!(line, expected));
    assert!(output == expected);
}

#[test]
fn runs_of_equal_words() {
    let runs = |words: &[u32]| {
        let mut output = Vec::new();
        sweep::write_runs(&mut output, words).unwrap();
        String::from_utf8(output).unwrap()
    };
    assert_eq!(runs(&[]), "");
    assert_eq!(runs(&[7]), " 1x7");
    assert_eq!(runs(&[0, 0, 5, 5, 5, 0, u32::MAX]), " 2x0 3x5 1x0 1x4294967295");
}
