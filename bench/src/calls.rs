//! Each of the seven calls, and printing, beside the second program, on the court roll of the examples with its annotation and queries.

use std::hint::black_box;

use second::Reply;

use crate::court;
use crate::hidden::Annotated;
use crate::tools::{in_turn, table_of};

/// One call: what is timed, and how many microseconds each program takes for it.
pub struct Call {
    pub name: &'static str,
    pub work: String,
    pub proved: f64,
    pub second: f64,
}

/// What a program gives for the whole work of one call: the replies, and the bytes that were written.
type Given = (Vec<Reply>, Vec<u8>);
type Calls = [fn(&Court, &mut [u8]) -> Vec<Reply>; 8];

const NAMES: [&str; 8] = ["1", "2", "3", "4", "5", "6", "7", "printing"];

struct Court {
    input: Annotated,
    texts: Vec<&'static str>,
    queries: Vec<Vec<u8>>,
}

/// A work for each call, of the proved library and of the second program alike.
macro_rules! works {
    ($program:ident) => {
        [
            |court, _| vec![$program::check_roll(&court.input.roll)],
            |court, room| court.texts.iter().map(|text| $program::read_text(text.as_bytes(), room)).collect(),
            |court, room| court.each(|query| $program::answer_on_roll(&court.input.roll, query, room)),
            |court, room| {
                let Annotated { roll, annotation, filters } = &court.input;
                vec![$program::cut_view(roll, annotation, filters, room)]
            },
            |court, room| {
                court.each(|query| $program::rewrite(&court.input.annotation, &court.input.filters, query, room))
            },
            |court, room| {
                let Annotated { roll, annotation, filters } = &court.input;
                court.each(|query| $program::curators_answer(roll, annotation, filters, query, room))
            },
            |court, _| {
                let run = |record| Reply::Count($program::run_of_record(&court.input.roll, record).len());
                (0..court.nodes()).map(run).collect()
            },
            |court, room| court.each(|query| $program::print_query(query, room)),
        ]
    };
}

const PROVED: Calls = works!(compare);
const SECOND: Calls = works!(second);

impl Court {
    fn new() -> Court {
        let texts = court::texts();
        Court { input: court::example(), queries: texts.iter().map(|text| table_of(text)).collect(), texts }
    }

    /// With one of the texts and its query alone.
    fn alone(&self, at: usize) -> Court {
        Court { input: self.input.clone(), texts: vec![self.texts[at]], queries: vec![self.queries[at].clone()] }
    }

    fn nodes(&self) -> usize {
        self.input.roll.len() / 4
    }

    fn each(&self, mut work: impl FnMut(&[u8]) -> Reply) -> Vec<Reply> {
        self.queries.iter().map(|query| work(black_box(query))).collect()
    }

    fn works(&self) -> [String; 8] {
        let (nodes, queries) = (self.nodes(), self.queries.len());
        [
            format!("check a roll of {nodes} nodes"),
            format!("read {queries} texts"),
            format!("answer {queries} queries on the roll"),
            "cut out the view".to_string(),
            format!("rewrite {queries} queries"),
            format!("answer {queries} queries to the curator"),
            format!("the runs of all {nodes} records"),
            format!("print {queries} tables"),
        ]
    }
}

/// What is given for each text and query by itself, in a room of its own; calls 1, 4 and 7 take neither.
fn given(court: &Court, name: &str, work: fn(&Court, &mut [u8]) -> Vec<Reply>) -> Vec<Given> {
    let asked = if ["1", "4", "7"].contains(&name) { 1 } else { court.queries.len() };
    let alone = |at: usize| {
        let mut room = vec![0; court.input.roll.len()];
        (work(&court.alone(at), &mut room), room)
    };
    (0..asked).map(alone).collect()
}

/// Both programs give the same; call 5 is free in its count and its bytes, and refuses nothing here.
fn agree(name: &str, ours: &[Given], theirs: &[Given]) -> bool {
    let counted = |given: &Given| given.0.iter().all(|reply| matches!(reply, Reply::Count(_)));
    ours.iter().all(counted) && theirs.iter().all(counted) && (name == "5" || ours == theirs)
}

pub fn calls() -> Vec<Call> {
    let court = Court::new();
    let works = court.works().into_iter().zip(PROVED).zip(SECOND);
    let timed = |(name, ((work, proved), second)): (&'static str, ((String, _), _))| {
        assert!(
            agree(name, &given(&court, name, proved), &given(&court, name, second)),
            "call {name}: the two programs differ"
        );
        let (mut ours, mut theirs) = (vec![0; court.input.roll.len()], vec![0; court.input.roll.len()]);
        let times = in_turn([
            &mut || {
                black_box(proved(black_box(&court), &mut ours));
            },
            &mut || {
                black_box(second(black_box(&court), &mut theirs));
            },
        ]);
        Call { name, work, proved: times[0], second: times[1] }
    };
    NAMES.into_iter().zip(works).map(timed).collect()
}
