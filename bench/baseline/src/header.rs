//! The header of a table, and what is done with each of its columns.

use std::collections::HashSet;

use crate::column_type::ColumnType;
use crate::fault::Fault;
use crate::numbers::NumberForm;
use crate::reader::{check_text, Glance, Reader};
use crate::request::{Aggregate, Method, Request};

const COUNT: (ColumnType, &str) = (ColumnType::Number(NumberForm::unsigned(32)), "u32");

pub struct Column {
    name: String,
    type_word: String,
    column_type: ColumnType,
}

/// What is done with the cells of each column, of which all are checked.
pub struct Plan {
    pub roles: Vec<Role>,
    /// The keys, in the order of the request.
    pub keys: Vec<KeyColumn>,
    pub folds: Vec<Fold>,
    /// The names and types of the answer's columns.
    pub answer: Vec<String>,
    /// How many columns are kept as numbers.
    pub numbers: usize,
    /// How many columns are kept as values that are told apart.
    pub values: usize,
}

pub struct KeyColumn {
    pub column_type: ColumnType,
    /// The place of the column among all key columns of the table.
    pub part: usize,
}

pub struct Role {
    pub column_type: ColumnType,
    pub glance: Glance,
    pub is_key: bool,
    /// The place of the column among those that are kept as numbers.
    pub numbers: Option<usize>,
    /// The place of the column among those that are kept as values.
    pub values: Option<usize>,
}

/// What one aggregate makes of the rows of a group.
pub struct Fold {
    pub method: Method,
    /// The place of its column among those that are kept for such an aggregate; for a count there is none.
    pub column: usize,
    pub column_type: ColumnType,
    pub answer_type: ColumnType,
}

impl Fold {
    /// A total as it is after wrapping in its type.
    pub fn wrapped(&self, total: i128) -> i128 {
        match self.answer_type {
            ColumnType::Number(form) => form.wrapped(total),
            _ => total,
        }
    }
}

impl Column {
    fn answer_type(&self) -> (ColumnType, &str) {
        (self.column_type, &self.type_word)
    }

    /// A header field is a name, or a name, a colon and the word of a type.
    fn from_field(field: &str) -> Column {
        let cut = field.rsplit_once(':');
        let typed = cut.and_then(|(name, word)| Some((name, word, ColumnType::of_word(word)?)));
        let (name, word, column_type) = typed.unwrap_or((field, "str", ColumnType::Text));
        Column {
            name: name.to_string(),
            type_word: word.to_string(),
            column_type,
        }
    }
}

/// The columns that the first record tells of, and the place behind it.
pub fn read_header(reader: &Reader) -> Result<(Vec<Column>, usize), Fault> {
    let place = reader.next_record(reader.front());
    let mut place = place.ok_or(Fault::Table("there is no header"))?;
    let mut columns: Vec<Column> = Vec::new();
    loop {
        let (field, end) = reader.field(place);
        check_text(&field)?;
        let column = Column::from_field(&String::from_utf8_lossy(&field));
        if columns.iter().any(|other| other.name == column.name) {
            return Err(Fault::Table("two columns have one name"));
        }
        columns.push(column);
        let Ok(next) = reader.behind_comma(end) else {
            return Ok((columns, end));
        };
        place = next;
    }
}

/// What the request asks of the columns.
pub fn plan(columns: &[Column], request: &Request) -> Result<Plan, Fault> {
    let keys = request.keys.iter().map(|name| position(columns, name));
    let keys = keys.collect::<Result<Vec<_>, _>>()?;
    check_names(request)?;
    let roles = columns.iter().enumerate().map(|(place, column)| Role {
        column_type: column.column_type,
        glance: Glance::Nothing,
        is_key: keys.contains(&place),
        numbers: None,
        values: None,
    });
    let mut plan = Plan {
        roles: roles.collect(),
        keys: Vec::new(),
        folds: Vec::new(),
        answer: Vec::new(),
        numbers: 0,
        values: 0,
    };
    for &key in &keys {
        plan.add_key(columns, key);
    }
    for aggregate in &request.aggregates {
        plan.add(columns, aggregate)?;
    }
    if request.null_word.is_empty() {
        plan.roles.iter_mut().for_each(Role::allow_glance);
    }
    Ok(plan)
}

impl Role {
    fn allow_glance(&mut self) {
        if self.is_key || self.numbers.is_some() || self.values.is_some() {
            return;
        }
        self.glance = match self.column_type {
            ColumnType::Text => Glance::Text,
            ColumnType::Number(form) if form.holds_short() => Glance::Number {
                with_minus: form.is_signed(),
            },
            _ => Glance::Nothing,
        };
    }
}

impl Plan {
    fn add_key(&mut self, columns: &[Column], place: usize) {
        let column = &columns[place];
        let before = self.roles[..place].iter();
        self.keys.push(KeyColumn {
            column_type: column.column_type,
            part: before.filter(|role| role.is_key).count(),
        });
        self.answer
            .push(format!("{}:{}", column.name, column.type_word));
    }

    fn add(&mut self, columns: &[Column], aggregate: &Aggregate) -> Result<(), Fault> {
        let place = position(columns, &aggregate.column)?;
        let column = &columns[place];
        let (answer_type, word) = answer_type(aggregate.method, column)?;
        self.answer.push(format!("{}:{word}", aggregate.name()));
        let role = &mut self.roles[place];
        let column = match aggregate.method {
            Method::Count => 0,
            Method::NUnique => place_among(&mut role.values, &mut self.values),
            _ => place_among(&mut role.numbers, &mut self.numbers),
        };
        self.folds.push(Fold {
            method: aggregate.method,
            column,
            column_type: role.column_type,
            answer_type,
        });
        Ok(())
    }
}

/// The type of what an aggregate makes of a column, and its word.
fn answer_type(method: Method, column: &Column) -> Result<(ColumnType, &str), Fault> {
    match method {
        Method::Count | Method::Valid | Method::NUnique => Ok(COUNT),
        Method::Sum if column.column_type == ColumnType::Flag => Ok(COUNT),
        Method::Sum if column.column_type.has_sum() => Ok(column.answer_type()),
        Method::Min | Method::Max if column.column_type.has_extremes() => Ok(column.answer_type()),
        Method::Sum => Err(Fault::Group("a column of a type that has no sum")),
        Method::Min | Method::Max => Err(Fault::Group("no least or greatest of texts is sought")),
    }
}

/// The place of a column among some, of which it becomes the last where it was none.
fn place_among(place: &mut Option<usize>, count: &mut usize) -> usize {
    *place.get_or_insert_with(|| {
        *count += 1;
        *count - 1
    })
}

/// The columns of the answer have different names.
fn check_names(request: &Request) -> Result<(), Fault> {
    let keys = request.keys.iter().cloned();
    let names = keys.chain(request.aggregates.iter().map(Aggregate::name));
    let mut seen = HashSet::new();
    for name in names {
        if !seen.insert(name) {
            return Err(Fault::Group("two columns of the answer have one name"));
        }
    }
    Ok(())
}

fn position(columns: &[Column], name: &str) -> Result<usize, Fault> {
    let found = columns.iter().position(|column| column.name == name);
    found.ok_or(Fault::Group("a column is missing"))
}
