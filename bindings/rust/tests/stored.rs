//! The stored documents of the repository, through this crate.

use leafnurd::{Part, Status, Verdict, explain, judge, judge_bytes, version};
use std::fs;
use std::path::PathBuf;
use std::thread;

/// A file of the crate of `naga_judge`, whose lines are documents or their verdicts.
fn stored(name: &str) -> String {
    let folder = PathBuf::from(env!("CARGO_MANIFEST_DIR")).join("../../crates/naga_judge");
    fs::read_to_string(folder.join(name)).expect("the repository's stored documents")
}

/// Whether a line tells this of a document, which may have an id.
fn tells(line: &str, field: &str) -> bool {
    line.starts_with(&format!("{{\"{field}\":"))
        || (line.starts_with("{\"id\":") && line.contains(&format!(",\"{field}\":")))
}

#[test]
fn each_document_has_its_line() {
    let (documents, verdicts) = (stored("stdin"), stored("stdout"));
    assert_eq!(documents.lines().count(), verdicts.lines().count());
    for (document, line) in documents.lines().zip(verdicts.lines()) {
        let verdict = judge(document);
        assert_eq!(verdict.json(), line);
        assert_eq!(verdict.is_accepted(), tells(line, "ok"));
        // Which field of the line a verdict's variant is, and what is read from it.
        match &verdict {
            Verdict::Accepted { .. } => assert!(tells(line, "ok")),
            Verdict::Refused { at, fault, spans, place, .. } => {
                assert!(tells(line, "refused"));
                assert_eq!(fault.is_none(), *at == Part::NotFit);
                let written: Vec<String> = spans.iter().map(|it| format!("[{},{}]", it.start, it.end)).collect();
                let place = place.as_deref().expect("the place of a stored document's fault");
                assert!(line.ends_with(&format!("\"spans\":[{}],\"place\":\"{place}\"}}}}", written.join(","))));
                if let Some(name) = fault {
                    assert!(
                        line.contains(&format!("\"fault\":\"{name}\""))
                            || line.contains(&format!("\"fault\":{{\"{name}\":"))
                    );
                }
            }
            Verdict::Unreadable { pointer, expected, .. } => {
                let expected = expected.replace('\\', "\\\\").replace('"', "\\\"");
                let told = format!("\"unreadable\":{{\"pointer\":\"{pointer}\",\"expected\":\"{expected}\"}}}}");
                assert!(tells(line, "unreadable") && line.ends_with(&told), "{line}");
            }
            other => panic!("{other}"),
        }
    }
}

#[test]
fn eight_threads_at_once() {
    let (documents, verdicts) = (stored("stdin"), stored("stdout"));
    thread::scope(|scope| {
        for _ in 0..8 {
            scope.spawn(|| {
                for (document, line) in documents.lines().zip(verdicts.lines()) {
                    assert_eq!(judge(document).json(), line);
                }
            });
        }
    });
}

#[test]
fn no_text() {
    for text in [b"".as_slice(), b"\0", b"\xff", b"{\"flags\":[\"\xc3\"]}"] {
        let verdict = judge_bytes(text);
        assert_eq!(verdict.status(), Status::Unreadable);
        assert!(matches!(&verdict, Verdict::Unreadable { pointer, .. } if pointer.is_empty()));
    }
}

#[test]
fn examples_are_told_as_the_documents_say() {
    let root = PathBuf::from(env!("CARGO_MANIFEST_DIR")).join("../..");
    let said = fs::read_to_string(root.join("docs/MODULES.md")).expect("docs/MODULES.md");
    let mut count = 0;
    for file in fs::read_dir(root.join("examples")).expect("the repository's examples") {
        let text = fs::read_to_string(file.expect("an example").path()).expect("an example");
        // (the shaders without facts are judged in the stored run alone)
        if text.contains("\"facts\": null") {
            continue;
        }
        for line in explain(&text).lines() {
            assert!(said.lines().any(|it| it == line), "{line}");
            count += 1;
        }
    }
    assert!(count >= 8);
}

#[test]
fn what_is_said_to_people() {
    assert_eq!(explain(""), "unreadable: expected JSON in UTF-8, whose brackets nest at most 127 deep");
    assert_eq!(version(), env!("CARGO_PKG_VERSION"));
}
