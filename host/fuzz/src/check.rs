//! What must hold of an answer: it agrees with those of oracle and model, and what it gives reads back.

use differ::judge::{judge, operation, Verdict};

pub struct Answers {
    pub oracle: String,
    pub model: String,
}

impl Answers {
    pub fn to(call: &str) -> Answers {
        Answers { oracle: oracle::answer(call), model: model::answer(call) }
    }

    /// Why the port's answer cannot be right, if so.
    pub fn against(&self, call: &str, port: &str, may_skip: bool) -> Option<&'static str> {
        let differ = |one: &str, other: &str| judge(call, one, other, oracle::answer) == Verdict::Different;
        if port.starts_with("broken") {
            Some("a promise about what is lent was not kept")
        } else if port == "skip" && !may_skip {
            Some("the port has no answer")
        } else if differ(&self.oracle, port) {
            Some("the port differs from the oracle")
        } else if differ(&self.model, port) {
            Some("the port differs from the model")
        } else if differ(&self.oracle, &self.model) {
            Some("the model differs from the oracle")
        } else {
            None
        }
    }
}

/// The call that reads a given result back, and what is to be answered: a result is lawful, and written in its one form.
pub fn read_back(call: &str, answer: &str) -> Option<(String, String)> {
    let words: Vec<&str> = answer.split(' ').collect();
    let manifest = match (operation(call), &words[..]) {
        ("read" | "clone" | "union", ["ok", manifest])
        | ("project", ["ok", _, manifest])
        | ("insert", ["ok", "entered", _, manifest]) => manifest.to_string(),
        // The segments of a manifest that is new otherwise.
        ("merge_from_writer" | "merge_from_compactor", ["ok", segments]) => {
            format!("9cc394c0c09090{segments}c00100d380000000000000000000900000")
        }
        _ => return None,
    };
    Some((format!("read {manifest}"), format!("ok {manifest}")))
}

#[cfg(test)]
mod tests {
    use super::*;

    const NEW: &str = "9cc394c0c0909090c00100d380000000000000000000900000";

    #[test]
    fn an_answer_must_agree_with_both() {
        let call = format!("lookup {NEW} -");
        let answers = Answers::to(&call);
        assert_eq!(answers.against(&call, "ok unsegmented", false), None);
        for wrong in ["ok absent", "ok segment 0", "refused 1 at 2", "broken: why", "skip", "unknown", ""] {
            assert!(answers.against(&call, wrong, false).is_some(), "{wrong}");
        }
        // The oracle has no counterpart of 18, so the model alone says where.
        let answers = Answers::to("read -");
        assert_eq!(answers.against("read -", "refused 18 at 0", false), None);
        assert_eq!(
            answers.against("read -", "refused 18 at 1", false),
            Some("the port differs from the model")
        );
    }

    #[test]
    fn each_result_reads_back() {
        let calls = [
            format!("read {NEW}"),
            format!("insert {NEW} 61"),
            format!("merge_from_writer {NEW} {NEW}"),
            format!("project {NEW} . . ."),
            format!("clone {NEW} 61 000102030405060708090a0b0c0d0e0f 000102030405060708090a0b0c0d0e0f"),
        ];
        for call in calls {
            let (back, wanted) = read_back(&call, &model::answer(&call)).expect("a result");
            assert_eq!(model::answer(&back), wanted, "{call}");
        }
        assert_eq!(read_back("read -", "refused 18 at 0"), None);
        assert_eq!(read_back(&format!("insert {NEW} 61"), "ok found 0"), None);
    }
}
