//! The entry and the converter of a keyword list (document 02, #112) on every short list; `./compare --small 7` runs longer ones.

use compare::port;
use oracle::case::call;
use oracle::generate::small;
use tsivareza::Room;

#[test]
fn every_short_list() {
    let mut room = Room::new(8);
    for name in ["enter", "enter_matches", "without_plus"] {
        let mut cases = 0;
        small(call(name).unwrap(), 4, |case| {
            assert_eq!(port(case, Some(&mut room)), case.answer(), "{case}");
            cases += 1;
        });
        assert!(cases > 1_500, "{name}: {cases} cases");
    }
}
