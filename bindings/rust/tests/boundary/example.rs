//! The example of document 01.
use crate::file;
use cosvint::{Followed, Snapshot, Target};

const LISTED: [(&str, &str); 3] = [
    ("refs/bisect/bad", "4444444444444444444444444444444444444444"),
    ("refs/heads/main", "1111111111111111111111111111111111111111"),
    ("refs/tags/v1", "3333333333333333333333333333333333333333"),
];

fn with_example(look: impl Fn(Snapshot<'_>)) {
    let [worktree, common, packed] =
        ["worktree", "common", "packed"].map(|region| file(&format!("examples/document-01/{region}.blk")));
    look(Snapshot::new(&worktree, Some(&common), &packed));
}

#[test]
fn is_fit_for_search() {
    with_example(|snapshot| assert_eq!(snapshot.fitness(), Ok(())));
}

#[test]
fn is_listed_as_the_document_says() {
    with_example(|snapshot| {
        let listed: Vec<_> = snapshot.list(None).unwrap().map(Result::unwrap).collect();
        let shown: Vec<_> = listed.iter().map(|r| (r.name.to_string(), r.target.to_string())).collect();
        assert_eq!(shown, LISTED.map(|(name, id)| (name.to_owned(), id.to_owned())));
    });
}

#[test]
fn each_listed_name_is_found_and_followed() {
    with_example(|snapshot| {
        for (name, id) in LISTED {
            let found = snapshot.find(name, None).unwrap().unwrap();
            assert_eq!((found.name.as_bytes(), found.peeled), (name.as_bytes(), None));
            let Target::Object(target) = found.target.clone() else { panic!("{name}: {found:?}") };
            assert_eq!(target, id);
            assert_eq!(snapshot.follow(name, None), Ok(Some(Followed { id: target, last: found })));
        }
    });
}

#[test]
fn short_names_are_found_and_others_are_not_there() {
    with_example(|snapshot| {
        assert_eq!(snapshot.find("main", None).unwrap().unwrap().name, "refs/heads/main");
        assert_eq!(snapshot.find("v1", None).unwrap().unwrap().name, "refs/tags/v1");
        for absent in ["HEAD", "bad", "v2"] {
            assert_eq!(snapshot.find(absent, None), Ok(None));
            assert_eq!(snapshot.follow(absent, None), Ok(None));
        }
    });
}
