//! Verdicts.

use crate::json::Json;
use std::fmt;
use std::ops::Range;

/// What a verdict is, by the exit status of the program `naga_judge`.
#[derive(Clone, Copy, Debug, PartialEq, Eq, PartialOrd, Ord, Hash)]
pub enum Status {
    /// Every check of the module holds, over the facts of the document.
    Accepted = 0,
    /// A check fails.
    Refused = 1,
    /// The text is not a document.
    Unreadable = 2,
    /// A request for memory was refused. It makes no claim about the document.
    OutOfMemory = 3,
}

/// What has the fault of a refused module.
#[derive(Clone, Copy, Debug, PartialEq, Eq, Hash)]
pub enum Part {
    /// Something that the module names isn't there, so no part was judged.
    NotFit,
    /// The global variable of this index.
    Global(usize),
    /// The function of this index.
    Function(usize),
    /// The entry point of this index.
    EntryPoint(usize),
}

/// What is said of a document. Each has the verdict's JSON text, which has all that is known.
#[derive(Clone, Debug, PartialEq, Eq)]
#[non_exhaustive]
pub enum Verdict {
    /// Every check of the module holds, over the facts of the document.
    #[non_exhaustive]
    Accepted {
        /// The verdict as JSON.
        json: String,
    },
    /// A check of the module fails. The first one is reported.
    #[non_exhaustive]
    Refused {
        /// The verdict as JSON.
        json: String,
        /// What has the fault.
        at: Part,
        /// The fault's name, as `InvalidIfType`. None where the part is [`Part::NotFit`], whose fault has no name.
        fault: Option<String>,
        /// The name of the fault inside, where an entry point has the fault `Function`, `Argument` or `Result`.
        inner: Option<String>,
        /// The spans of the fault, as the document gives them.
        spans: Vec<Range<u32>>,
        /// Where in the document the fault stands: a JSON pointer. None out of memory to find it.
        place: Option<String>,
    },
    /// The text is not a document.
    #[non_exhaustive]
    Unreadable {
        /// The verdict as JSON.
        json: String,
        /// Where reading stopped: a JSON pointer, which is empty for the whole text.
        pointer: String,
        /// What was expected there.
        expected: String,
    },
    /// A request for memory was refused. It makes no claim about the document, which may be judged again.
    #[non_exhaustive]
    OutOfMemory {
        /// The verdict as JSON.
        json: String,
    },
}

impl Verdict {
    /// Whether the module is accepted.
    #[must_use]
    pub fn is_accepted(&self) -> bool {
        self.status() == Status::Accepted
    }

    /// What the verdict is.
    #[must_use]
    pub fn status(&self) -> Status {
        match self {
            Verdict::Accepted { .. } => Status::Accepted,
            Verdict::Refused { .. } => Status::Refused,
            Verdict::Unreadable { .. } => Status::Unreadable,
            Verdict::OutOfMemory { .. } => Status::OutOfMemory,
        }
    }

    /// The verdict as JSON, on one line: what `naga_judge --json` prints, without the line's end.
    #[must_use]
    pub fn json(&self) -> &str {
        match self {
            Verdict::Accepted { json }
            | Verdict::Refused { json, .. }
            | Verdict::Unreadable { json, .. }
            | Verdict::OutOfMemory { json } => json,
        }
    }

    /// The verdict that the library answered with this status and this text.
    pub(crate) fn read(status: u32, json: String) -> Verdict {
        let read = Json::read(&json);
        match status {
            0 => Verdict::Accepted { json },
            1 => {
                let refused = read.as_ref().and_then(|it| it.field("refused"));
                let (at, fault) = refused.map_or((Part::NotFit, None), |it| (part(it), it.field("fault")));
                Verdict::Refused {
                    at,
                    fault: fault.and_then(name),
                    inner: fault.filter(|_| matches!(at, Part::EntryPoint(_))).and_then(inner),
                    spans: refused.and_then(|it| it.field("spans")).map(spans).unwrap_or_default(),
                    place: refused.and_then(|it| it.field("place")?.text()).map(str::to_owned),
                    json,
                }
            }
            2 => {
                let field = |name| read.as_ref()?.field("unreadable")?.field(name)?.text().map(str::to_owned);
                Verdict::Unreadable {
                    pointer: field("pointer").unwrap_or_default(),
                    expected: field("expected").unwrap_or_default(),
                    json,
                }
            }
            _ => Verdict::OutOfMemory { json },
        }
    }
}

/// The JSON text.
impl fmt::Display for Verdict {
    fn fmt(&self, f: &mut fmt::Formatter<'_>) -> fmt::Result {
        f.write_str(self.json())
    }
}

/// Which part has the fault.
fn part(refused: &Json) -> Part {
    let Some((kind, index)) = refused.field("at").and_then(Json::variant) else {
        return Part::NotFit;
    };
    let index = index.number().unwrap_or_default();
    match kind {
        "Global" => Part::Global(index),
        "Function" => Part::Function(index),
        _ => Part::EntryPoint(index),
    }
}

/// The name of a fault: it is written alone, or before its fields.
fn name(fault: &Json) -> Option<String> {
    fault.text().or(fault.variant().map(|it| it.0)).map(str::to_owned)
}

/// The name of the fault inside a fault of an entry point.
fn inner(fault: &Json) -> Option<String> {
    match fault.variant()? {
        ("Function" | "Result", inner) => name(inner),
        ("Argument", fields) => name(fields.list()?.get(1)?),
        _ => None,
    }
}

/// The spans of a fault.
fn spans(list: &Json) -> Vec<Range<u32>> {
    let span = |it: &Json| match it.list() {
        Some([start, end]) => Some(start.number()?..end.number()?),
        _ => None,
    };
    list.list().unwrap_or_default().iter().filter_map(span).collect()
}

#[cfg(test)]
mod tests {
    use super::{Part, Verdict};

    /// What is read of a refusal: the part, the names of the fault and of that inside, the spans, and the place.
    type Parts = (Part, Option<String>, Option<String>, Vec<std::ops::Range<u32>>, Option<String>);

    fn refused(json: &str) -> Parts {
        match Verdict::read(1, json.to_owned()) {
            Verdict::Refused { at, fault, inner, spans, place, .. } => (at, fault, inner, spans, place),
            other => panic!("{other}"),
        }
    }

    #[test]
    fn the_parts_of_a_refusal() {
        let (at, fault, inner, spans, place) = refused(
            r#"{"refused":{"at":{"Function":2},"fault":{"InvalidImageStore":"X"},"spans":[[3,7],[8,9]],"place":"/module/functions/2/body/1"}}"#,
        );
        assert_eq!((at, fault.as_deref(), inner), (Part::Function(2), Some("InvalidImageStore"), None));
        assert_eq!(spans, [3..7, 8..9]);
        assert_eq!(place.as_deref(), Some("/module/functions/2/body/1"));
    }

    #[test]
    fn faults_inside_those_of_entry_points() {
        let (at, fault, inner, _, place) = refused(
            r#"{"refused":{"at":{"EntryPoint":0},"fault":{"Argument":[1,{"NotIOShareableType":3}]},"spans":[],"place":null}}"#,
        );
        assert_eq!((at, fault.as_deref()), (Part::EntryPoint(0), Some("Argument")));
        assert_eq!(inner.as_deref(), Some("NotIOShareableType"));
        assert_eq!(place, None);
        let (_, fault, inner, _, _) = refused(
            r#"{"refused":{"at":{"EntryPoint":0},"fault":{"Function":"MissingDefaultCase"},"spans":[],"place":null}}"#,
        );
        assert_eq!((fault.as_deref(), inner.as_deref()), (Some("Function"), Some("MissingDefaultCase")));
    }

    #[test]
    fn no_part_is_judged() {
        let told = refused(
            r#"{"refused":{"at":"NotFit","fault":{"place":{"ConstantType":0},"problem":{"Handle":{"of":"Types","index":1,"below":1}}},"spans":[],"place":"/module/constants/0"}}"#,
        );
        assert_eq!(told, (Part::NotFit, None, None, Vec::new(), Some("/module/constants/0".to_owned())));
    }
}
