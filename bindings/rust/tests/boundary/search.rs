//! Search and following: what an answer holds.
use crate::blocks::*;
use cosvint::{Snapshot, Target};
use std::thread;

const MIXED: &str = "ABCDEFabcdef0123456789ABCDEFabcdef012345";

#[test]
fn a_packed_record_has_its_peeled_id() {
    let packed = [record("refs/tags/v1", &(ONE.to_owned() + TWO)), record("refs/tags/v2", THREE)].concat();
    let snapshot = Snapshot::new(b"", None, &packed);
    let [v1, v2] = ["v1", "v2"].map(|name| snapshot.find(name, None).unwrap().unwrap());
    assert_eq!((v1.target.to_string(), v1.peeled.unwrap().to_string()), (ONE.to_owned(), TWO.to_owned()));
    assert_eq!((v2.target.to_string(), v2.peeled), (THREE.to_owned(), None));
    let followed = snapshot.follow("v1", None).unwrap().unwrap();
    assert_eq!(
        (followed.id.to_string(), &followed.last),
        (ONE.to_owned(), &v1),
        "the target ends following, peeled or not"
    );
    let listed: Vec<_> = snapshot.list(None).unwrap().map(Result::unwrap).collect();
    assert_eq!(listed, [v1, v2]);
}

#[test]
fn ids_are_in_lower_case() {
    let worktree = loose("refs/heads/m", MIXED);
    let packed = record("refs/tags/v1", &(MIXED.to_owned() + MIXED));
    let snapshot = Snapshot::new(&worktree, None, &packed);
    let tag = snapshot.find("v1", None).unwrap().unwrap();
    let id = snapshot.follow("m", None).unwrap().unwrap().id;
    assert_eq!(id, MIXED.to_lowercase().as_str());
    assert_eq!((tag.target, tag.peeled), (Target::Object(id), Some(id)));
    assert_eq!(id.digits(), MIXED.to_lowercase().as_bytes());
    assert_eq!(id.to_bytes()[..9], [0xab, 0xcd, 0xef, 0xab, 0xcd, 0xef, 0x01, 0x23, 0x45]);
}

#[test]
fn symbolic_references_are_found_as_such_and_followed() {
    let names = ["HEAD", "refs/a", "refs/b", "refs/c", "refs/heads/m"];
    let worktree = [chain(&names), loose("refs/heads/m", ONE)].concat();
    let snapshot = Snapshot::new(&worktree, None, b"");
    for pair in names.windows(2) {
        let found = snapshot.find(pair[0], None).unwrap().unwrap();
        assert_eq!(found.name, pair[0]);
        assert_eq!(found.target.name().unwrap(), pair[1]);
        assert_eq!((found.target.id(), found.peeled), (None, None));
    }
    let end = snapshot.follow("HEAD", None).unwrap().unwrap();
    assert_eq!((end.id.to_string(), end.last), (ONE.to_owned(), snapshot.find("refs/heads/m", None).unwrap().unwrap()));
}

#[test]
fn a_namespace_goes_before_names_and_is_taken_off() {
    let inside = "refs/namespaces/a/refs/namespaces/b/";
    let worktree = [
        loose("HEAD", ONE),
        loose(&format!("{inside}HEAD"), &format!("ref: {inside}refs/heads/m\n")),
        loose(&format!("{inside}refs/heads/m"), "ref: refs/tags/v1\n"),
    ]
    .concat();
    let packed = record(&format!("{inside}refs/tags/v1"), TWO);
    let snapshot = Snapshot::new(&worktree, None, &packed);
    let space = Some(&b"a/b"[..]);

    let head = snapshot.find("HEAD", space).unwrap().unwrap();
    assert_eq!((head.name.to_string(), head.target.to_string()), ("HEAD".into(), "-> refs/heads/m".into()));
    let end = snapshot.follow("HEAD", space).unwrap().unwrap();
    assert_eq!((end.id.to_string(), end.last.name.to_string()), (TWO.to_owned(), "refs/tags/v1".to_owned()));
    assert_eq!(snapshot.follow("HEAD", None).unwrap().unwrap().id, ONE);
    assert_eq!(snapshot.find("m", None), Ok(None));
    assert_eq!(snapshot.find("HEAD", Some(b"b")), Ok(None));

    let listed = |space| snapshot.list(space).unwrap().map(|r| r.unwrap().name.to_string()).collect::<Vec<_>>();
    assert_eq!(listed(space), ["HEAD", "refs/heads/m", "refs/tags/v1"]);
    assert_eq!(listed(Some(b"b")), [""; 0]);
}

#[test]
fn an_absent_common_region_is_not_an_empty_one() {
    let worktree = loose("refs/heads/m", ONE);
    let found = |common| Snapshot::new(&worktree, common, b"").find("m", None).unwrap();
    assert_eq!(found(None).unwrap().name, "refs/heads/m");
    assert_eq!(found(Some(b"")), None);
}

#[test]
fn the_longest_names_come_through_whole() {
    let (name, target) = ("refs/x/".to_owned() + &"n".repeat(243), "refs/y/".to_owned() + &"t".repeat(238));
    let worktree = loose(&name, &format!("ref: {target}"));
    let found = Snapshot::new(&worktree, None, b"").find(&name, None).unwrap().unwrap();
    assert_eq!((found.name.as_bytes().len(), found.name.as_bytes()), (250, name.as_bytes()));
    assert_eq!(found.target.name().unwrap(), target.as_str());
}

#[test]
fn threads_share_a_snapshot() {
    let packed: Vec<u8> = (0..64).flat_map(|i| record(&format!("refs/heads/{i:02}"), &format!("{i:040}"))).collect();
    let snapshot = Snapshot::new(b"", None, &packed);
    thread::scope(|scope| {
        for first in 0..4 {
            scope.spawn(move || {
                for i in (first..64).step_by(4) {
                    let end = snapshot.follow(format!("{i:02}"), None).unwrap().unwrap();
                    assert_eq!(end.id, format!("{i:040}").as_str());
                }
            });
        }
    });
}

#[test]
fn a_stack_of_64_kib_is_enough() {
    let worktree = [chain(&["HEAD", "refs/a", "refs/b", "refs/c", "refs/d"]), loose("refs/d", ONE)].concat();
    let call = move || {
        let snapshot = Snapshot::new(&worktree, Some(&worktree), b"");
        assert_eq!(snapshot.fitness(), Ok(()));
        assert_eq!(snapshot.find("nowhere", Some(b"a/b")), Ok(None));
        assert_eq!(snapshot.follow("HEAD", None).unwrap().unwrap().id, ONE);
        assert_eq!(snapshot.list(None).unwrap().count(), 4);
    };
    thread::Builder::new().stack_size(64 * 1024).spawn(call).unwrap().join().unwrap();
}
