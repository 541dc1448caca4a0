//! What the words of the command line ask for.

use crate::fault::Fault;

const MOST_WORKERS: usize = 64;
const USUAL_WORKERS: usize = 4;

#[derive(Clone, Copy, Debug, PartialEq, Eq)]
pub enum Method {
    Sum,
    Min,
    Max,
    Count,
    Valid,
    NUnique,
}

#[derive(Debug, PartialEq, Eq)]
pub struct Aggregate {
    pub method: Method,
    pub column: String,
}

#[derive(Debug, PartialEq, Eq)]
pub struct Request {
    pub keys: Vec<String>,
    pub aggregates: Vec<Aggregate>,
    pub null_word: String,
    pub workers: usize,
}

impl Request {
    pub fn from_words(mut words: impl Iterator<Item = String>) -> Result<Request, Fault> {
        if words.next().as_deref() != Some("group") {
            return Err(Fault::Words("the first word is not `group`"));
        }
        let mut keys = Vec::new();
        let mut aggregates = Vec::new();
        let mut null_word = String::new();
        let mut workers = USUAL_WORKERS;
        while let Some(option) = words.next() {
            let value = words
                .next()
                .ok_or(Fault::Words("an option lacks its value"))?;
            match option.as_str() {
                "--by" => keys.push(value),
                "--agg" => aggregates.push(Aggregate::from_word(&value)?),
                "--null" => null_word = value,
                "--workers" => workers = workers_of_word(&value)?,
                _ => return Err(Fault::Words("an option is unknown")),
            }
        }
        if keys.is_empty() {
            return Err(Fault::Words("`--by` is missing"));
        }
        Ok(Request {
            keys,
            aggregates,
            null_word,
            workers,
        })
    }
}

fn workers_of_word(word: &str) -> Result<usize, Fault> {
    let workers = word.parse().ok();
    workers
        .filter(|workers| (1..=MOST_WORKERS).contains(workers))
        .ok_or(Fault::Words("there are 1 to 64 workers"))
}

impl Method {
    fn of_word(word: &str) -> Option<Method> {
        match word {
            "sum" => Some(Method::Sum),
            "min" => Some(Method::Min),
            "max" => Some(Method::Max),
            "count" => Some(Method::Count),
            "valid" => Some(Method::Valid),
            "n_unique" => Some(Method::NUnique),
            _ => None,
        }
    }

    /// What ends the name of such an aggregate's column in the answer.
    fn ending(self) -> &'static str {
        match self {
            Method::Sum => "sum",
            Method::Min => "min",
            Method::Max => "max",
            Method::Count | Method::Valid => "count",
            Method::NUnique => "n_unique",
        }
    }
}

impl Aggregate {
    fn from_word(word: &str) -> Result<Aggregate, Fault> {
        let parts = word.split_once(':');
        let aggregate = parts.and_then(|(method, column)| {
            Some(Aggregate {
                method: Method::of_word(method)?,
                column: column.to_string(),
            })
        });
        aggregate.ok_or(Fault::Words("an aggregate is no METHOD:NAME"))
    }

    /// The name of the aggregate's column in the answer.
    pub fn name(&self) -> String {
        format!("{}_{}", self.column, self.method.ending())
    }
}
