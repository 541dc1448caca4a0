//! Some rows at a time: their keys, and the cells that are folded. Each cell of the rows is checked.

use crate::column_type::ColumnType;
use crate::fault::Fault;
use crate::header::{Plan, Role};
use crate::keys::RowKeys;
use crate::one_key::Rows;
use crate::reader::{Reader, TextCell};
use crate::totals::Cells;

const MOST_ROWS: usize = 256;

pub struct Batch<'a, R> {
    pub keys: R,
    pub cells: Cells<'a>,
}

impl<'a, R: RowKeys<'a>> Batch<'a, R> {
    pub fn new(plan: &Plan) -> Batch<'a, R> {
        Batch {
            keys: R::default(),
            cells: Cells {
                numbers: vec![Vec::with_capacity(MOST_ROWS); plan.numbers],
                values: (0..plan.values).map(|_| Rows::default()).collect(),
            },
        }
    }

    /// Replaces the rows by those from a place on, and tells the place behind them. There are none at the end.
    pub fn fill(&mut self, reader: &Reader<'a>, plan: &Plan, place: usize) -> Result<usize, Fault> {
        self.keys.clear();
        self.cells.numbers.iter_mut().for_each(Vec::clear);
        self.cells.values.iter_mut().for_each(Rows::clear);
        let (last, others) = plan.roles.split_last().expect("a header has a field");
        let mut place = place;
        for _ in 0..MOST_ROWS {
            let Some(mut end) = reader.next_record(place) else {
                break;
            };
            for role in others {
                end = self.read_cell(reader, role, end)?;
                end = reader.behind_comma(end)?;
            }
            end = self.read_cell(reader, last, end)?;
            self.keys.end_row();
            place = reader.behind_record(end)?;
        }
        Ok(place)
    }

    #[inline(always)]
    fn read_cell(
        &mut self,
        reader: &Reader<'a>,
        role: &Role,
        place: usize,
    ) -> Result<usize, Fault> {
        if let Some(end) = reader.skim(place, role.glance) {
            return Ok(end);
        }
        let end = match &role.column_type {
            ColumnType::Number(form) => {
                let (cell, end) = reader.number(place, form)?;
                self.keep(role, cell.map(|number| number as u128), cell);
                end
            }
            ColumnType::Flag => {
                let (cell, end) = reader.flag(place)?;
                self.keep(role, cell.map(u128::from), cell.map(i128::from));
                end
            }
            ColumnType::Null => {
                let (_, end) = reader.null(place)?;
                self.keep(role, None, None);
                end
            }
            ColumnType::Text => self.keep_text(role, reader.text_cell(place)?),
            ColumnType::Bytes => self.keep_text(role, reader.bytes(place)?),
        };
        Ok(end)
    }

    #[inline(always)]
    fn keep(&mut self, role: &Role, key: Option<u128>, number: Option<i128>) {
        if role.is_key {
            self.keys.push_number(key);
        }
        if let Some(place) = role.numbers {
            self.cells.numbers[place].push(number);
        }
        if let Some(place) = role.values {
            self.cells.values[place].push_number(key);
        }
    }

    /// Keeps a text that was read with the place behind it, and tells that.
    #[inline(always)]
    fn keep_text(&mut self, role: &Role, (cell, end): (Option<TextCell<'a>>, usize)) -> usize {
        if let Some(place) = role.numbers {
            self.cells.numbers[place].push(cell.as_ref().map(|_| 0));
        }
        if let Some(place) = role.values {
            self.cells.values[place].push_text(cell.clone());
        }
        if role.is_key {
            self.keys.push_text(cell);
        }
        end
    }
}
