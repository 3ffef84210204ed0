//! Every number of document 01's table, and which call gives it.
use crate::blocks::*;
use cosvint::{full_name, namespace, partial_name, Error, Place, Region, Snapshot};

const LONG: usize = 251;

/// The number that search, following and fitness all give of a snapshot, with the place.
fn unfit(snapshot: Snapshot<'_>) -> Error {
    let error = snapshot.fitness().unwrap_err();
    assert_eq!(snapshot.find("m", None), Err(error.clone()));
    assert_eq!(snapshot.follow("m", None), Err(error.clone()));
    error
}

/// The refusal of `refs/m` with this block in the worktree, alike by search, following and listing.
fn entry(block: Vec<u8>) -> Error {
    let snapshot = Snapshot::new(&block, None, b"");
    assert_eq!(snapshot.fitness(), Ok(()));
    let error = snapshot.find("m", None).unwrap_err();
    assert_eq!(snapshot.follow("m", None), Err(error.clone()));
    let listed: Vec<_> = snapshot.list(None).unwrap().collect();
    assert_eq!(listed, [Err(error.clone())]);
    error
}

fn at(region: Region, block: u64) -> Option<Place> {
    Some(Place { region, block })
}

#[test]
fn sizes_1_and_2() {
    let (part, many) = (vec![0; 511], vec![0; 4097 * SIZE]);
    for (wrong, want) in [(&part[..], Error::NotWhole), (&many[..], Error::TooManyBlocks)] {
        for snapshot in [
            Snapshot::new(wrong, None, b""),
            Snapshot::new(b"", Some(wrong), b""),
            Snapshot::new(b"", Some(b""), wrong),
        ] {
            assert_eq!(unfit(snapshot), want);
            assert_eq!(snapshot.list(None).unwrap_err(), want);
        }
    }
    assert_eq!(unfit(Snapshot::new(&many, None, &part)), Error::NotWhole, "the earliest row counts");
    assert_eq!((Error::NotWhole.number(), Error::TooManyBlocks.number()), (1, 2));
}

#[test]
fn the_most_blocks_are_taken() {
    let most: Vec<u8> = (0..4096).flat_map(|i| record(&format!("refs/heads/{i:04}"), ONE)).collect();
    let snapshot = Snapshot::new(b"", None, &most);
    assert_eq!(snapshot.fitness(), Ok(()));
    assert_eq!(snapshot.find("4095", None).unwrap().unwrap().name, "refs/heads/4095");
    assert_eq!(snapshot.list(None).unwrap().filter(Result::is_ok).count(), 4096);
}

#[test]
fn names_3_to_5() {
    let snapshot = Snapshot::new(b"", None, b"");
    let refused = |name: &str, space: Option<&str>, want: Error| {
        let space = space.map(str::as_bytes);
        assert_eq!(snapshot.find(name, space), Err(want.clone()));
        assert_eq!(snapshot.follow(name, space), Err(want));
    };
    let (long, expands) = ("a".repeat(LONG), "a".repeat(240));
    refused(&long, None, Error::TooLong);
    refused("a..b", Some(&long), Error::TooLong);
    refused("a..b", None, Error::Malformed);
    refused("", Some(&expands), Error::Malformed);
    refused("a", Some("n/"), Error::Malformed);
    refused("a", Some(&expands), Error::ExpansionTooLong);
    for (space, want) in
        [(&long, Error::TooLong), (&"..".into(), Error::Malformed), (&expands, Error::ExpansionTooLong)]
    {
        assert_eq!(snapshot.list(Some(space.as_bytes())).unwrap_err(), want);
        assert_eq!(namespace(space), Err(want));
    }
    let numbers = [Error::TooLong, Error::Malformed, Error::ExpansionTooLong].map(|e| e.number());
    assert_eq!(numbers, [3, 4, 5]);
}

#[test]
fn checks_of_names() {
    let (longest, long) = ("a/".repeat(124) + "ab", "a/".repeat(125) + "a");
    assert_eq!((longest.len(), long.len()), (250, LONG));
    for check in [|name: &str| partial_name(name), |name: &str| full_name(name)] {
        assert_eq!(check("refs/heads/main"), Ok(()));
        assert_eq!(check("HEAD"), Ok(()));
        assert_eq!(check(&longest), Ok(()));
        assert_eq!(check(&long), Err(Error::TooLong));
        assert_eq!(check(""), Err(Error::Malformed));
        assert_eq!(check("a/b.lock"), Err(Error::Malformed));
    }
    assert_eq!(partial_name("main"), Ok(()));
    assert_eq!(full_name("main"), Err(Error::Malformed));
    assert_eq!(namespace("a/b"), Ok(()));
    assert_eq!(namespace("a".repeat(233)), Ok(()));
    assert_eq!(namespace("a".repeat(234)), Err(Error::ExpansionTooLong));
}

#[test]
fn unfit_6_to_8_with_region_and_block() {
    let good = loose("refs/a", ONE);
    let then = |block: Vec<u8>| [good.clone(), block].concat();
    let error = unfit(Snapshot::new(&then(damaged()), None, b""));
    assert_eq!((error.number(), error.place()), (6, at(Region::Worktree, 1)));
    let error = unfit(Snapshot::new(b"", Some(&then(walk_error())), b""));
    assert_eq!((error.number(), error.place()), (7, at(Region::Common, 1)));
    let error = unfit(Snapshot::new(b"", None, &packed_error()));
    assert_eq!((error.number(), error.place()), (7, at(Region::Packed, 0)));
    let error = unfit(Snapshot::new(&good, Some(&good), &[record("b", ONE), record("a", ONE)].concat()));
    assert_eq!((error.number(), error.place()), (8, at(Region::Packed, 1)));
    assert_eq!(error, Error::OutOfOrder(at(Region::Packed, 1)));
}

#[test]
fn a_listing_goes_on_behind_6_and_7() {
    let worktree = [damaged(), walk_error(), loose("refs/b", ONE), loose("refs/a", ONE)].concat();
    let numbers: Vec<_> = Snapshot::new(&worktree, None, b"")
        .list(None)
        .unwrap()
        .map(|entry| entry.map(|r| r.name.to_string()).map_err(|e| (e.number(), e.place())))
        .collect();
    assert_eq!(numbers, [Err((6, None)), Err((7, None)), Ok("refs/b".into()), Ok("refs/a".into())]);
}

#[test]
fn entries_9_to_12() {
    assert_eq!(entry(unread("refs/m")), Error::Unread);
    assert_eq!(entry(loose("refs/m", "ref:HEAD")), Error::Unreadable);
    assert_eq!(entry(loose("refs/m", &ONE[1..])), Error::Unreadable);
    assert_eq!(entry(loose("refs/m", "ref: ")), Error::IncompleteTarget);
    assert_eq!(entry(loose("refs/m", "ref: refs/heads/.invalid\n")), Error::Unsupported);
    let all = [Error::Unread, Error::Unreadable, Error::IncompleteTarget, Error::Unsupported];
    assert_eq!(all.map(|e| e.number()), [9, 10, 11, 12]);
}

#[test]
fn following_13_to_15_with_the_last_reference_reached() {
    for (names, number, last) in [
        (&["refs/a", "refs/b", "refs/nowhere"][..], 13, "refs/b"),
        (&["refs/a", "refs/a"], 14, "refs/a"),
        (&["refs/a", "refs/b", "refs/c", "refs/d", "refs/a"], 14, "refs/a"),
        (&["refs/a", "refs/b", "refs/c", "refs/d", "refs/e", "refs/a"], 15, "refs/a"),
    ] {
        let worktree = chain(names);
        let error = Snapshot::new(&worktree, None, b"").follow("a", None).unwrap_err();
        let reached = error.last().unwrap();
        assert_eq!((error.number(), reached.name.to_string()), (number, last.to_owned()), "{names:?}");
        assert!(reached.target.name().is_some());
        assert_eq!(error.place(), None);
    }
}

#[test]
fn an_object_reached_as_the_fifth_step_is_15() {
    let names = ["refs/a", "refs/b", "refs/c", "refs/d", "refs/e", "refs/f"];
    let worktree = [chain(&names), loose("refs/f", ONE)].concat();
    let snapshot = Snapshot::new(&worktree, None, b"");
    let error = snapshot.follow("a", None).unwrap_err();
    let Error::TooDeep(last) = error else { panic!("{error}") };
    assert_eq!((last.name.as_bytes(), last.target.to_string()), (&b"refs/f"[..], ONE.to_owned()));
    let reached = snapshot.follow("b", None).unwrap().unwrap();
    assert_eq!((reached.id, reached.last), (*last.target.id().unwrap(), *last));
}
