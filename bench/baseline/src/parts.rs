//! The rows of a table in parts, each of which has a worker of its own.

use crate::batch::Batch;
use crate::fault::Fault;
use crate::groups::Groups;
use crate::header::Plan;
use crate::keys::{GroupKeys, RowKeys};
use crate::merge::{merge, Merged};
use crate::reader::Reader;
use crate::workers::each;

/// What a worker found in a part of the rows.
struct Part<'a, K> {
    groups: Result<Groups<'a, K>, Fault>,
    /// Whether the part ended inside quotes.
    is_open: bool,
}

/// Groups the rows from a place on.
///
/// Each part is read as if it began with a record. That is so where no part before it ended inside quotes;
/// otherwise nothing of it counts, and one worker reads all.
pub fn group_rows<'a, K: GroupKeys<'a>>(
    reader: &Reader<'a>,
    place: usize,
    plan: &Plan,
    workers: usize,
) -> Result<Merged<'a, K>, Fault> {
    let parts = group_parts(reader, place, plan, workers);
    let last = parts.len() - 1;
    let mut groups = Vec::new();
    for (number, part) in parts.into_iter().enumerate() {
        if part.is_open && number < last {
            return group_rows(reader, place, plan, 1);
        }
        groups.push(part.groups?);
    }
    Ok(merge(groups, plan))
}

fn group_parts<'a, K: GroupKeys<'a>>(
    reader: &Reader<'a>,
    place: usize,
    plan: &Plan,
    workers: usize,
) -> Vec<Part<'a, K>> {
    let cuts = cuts(reader.text(), place, workers);
    let parts = cuts.windows(2).map(|cut| (reader.up_to(cut[1]), cut[0]));
    each(parts, |(reader, place)| Part::read(&reader, place, plan))
}

/// The places at which parts begin and end: the front of the rows, ends of lines, and the end of the text.
fn cuts(text: &[u8], front: usize, workers: usize) -> Vec<usize> {
    let mut cuts = vec![front];
    for number in 1..workers {
        let least = front + (text.len() - front) * number / workers;
        let least = least.max(cuts[number - 1]);
        let line = text[least..].iter().position(|&byte| byte == b'\n');
        cuts.push(line.map_or(text.len(), |length| least + length + 1));
    }
    cuts.push(text.len());
    cuts
}

impl<'a, K: GroupKeys<'a>> Part<'a, K> {
    fn read(reader: &Reader<'a>, place: usize, plan: &Plan) -> Part<'a, K> {
        Part {
            groups: group_part(reader, place, plan),
            is_open: reader.is_open(),
        }
    }
}

fn group_part<'a, K: GroupKeys<'a>>(
    reader: &Reader<'a>,
    place: usize,
    plan: &Plan,
) -> Result<Groups<'a, K>, Fault> {
    let mut groups = Groups::new(plan);
    let mut batch: Batch<K::Rows> = Batch::new(plan);
    let mut places = Vec::new();
    let mut place = place;
    loop {
        place = batch.fill(reader, plan, place)?;
        if batch.keys.is_empty() {
            return Ok(groups);
        }
        groups.add(&mut batch, plan, &mut places);
    }
}

#[cfg(test)]
mod tests {
    use crate::group;
    use crate::request::Request;

    const ONE_KEY: &str = "group --by a --agg sum:b --agg count:a";

    fn answer(words: &str, text: &str, workers: &str) -> Option<String> {
        let words = words.split(' ').chain(["--workers", workers]);
        let request = Request::from_words(words.map(String::from)).unwrap();
        let mut written = Vec::new();
        group(text.as_bytes(), &request, &mut written).ok()?;
        Some(String::from_utf8(written).unwrap())
    }

    fn same_for_all_workers(words: &str, text: &str) -> Option<String> {
        let alone = answer(words, text, "1");
        for workers in ["2", "3", "5", "64"] {
            assert_eq!(answer(words, text, workers), alone, "{workers} workers");
        }
        alone
    }

    #[test]
    fn parts_give_the_groups_of_the_whole() {
        let text =
            "a,b:i8\nx,100\n,1\n\"y\ny\",2\nx,100\n\na text of many bytes,\n,3\n\"y\ny\",4\n";
        let groups = "x,-56,2\n,4,2\n\"y\ny\",6,2\na text of many bytes,0,1\n";
        let wanted = format!("a:str,b_sum:i8,a_count:u32\n{groups}");
        assert_eq!(same_for_all_workers(ONE_KEY, text), Some(wanted));
    }

    #[test]
    fn several_keys_stand_in_the_order_of_the_words() {
        let text = "a,b:i8,c:bool,d:dec1,e:bin\nx,-128,true,-0.1,\n,,,,AA\n\"x\",-128,true,-.1,\n\
                    ,-1,,,aa\n,,,,aa\nx,127,,0,\n";
        let words = "group --by e --by c --by b --by d --by a --agg sum:b";
        let groups = ",true,-128,-0.1,x,0\naa,,,,,0\naa,,-1,,,-1\n,,127,0.0,x,127\n";
        let wanted = format!("e:bin,c:bool,b:i8,d:dec1,a:str,b_sum:i8\n{groups}");
        assert_eq!(same_for_all_workers(words, text), Some(wanted));
    }

    #[test]
    fn several_keys_are_not_mixed_up() {
        let cells = ["", "x", "xx", "\"a,b\"", "\"a\"\"b\"", "0123456789abcde"];
        let long = [16, 253, 254, 255, 256].map(|length| "y".repeat(length));
        let cells: Vec<_> = cells
            .into_iter()
            .chain(long.iter().map(|text| &text[..]))
            .collect();
        let pairs = || {
            cells
                .iter()
                .flat_map(|left| cells.iter().map(move |right| (left, right)))
        };
        let rows: String = pairs()
            .map(|(left, right)| format!("{left},{right},1\n"))
            .collect();
        let wanted: String = pairs()
            .map(|(left, right)| format!("{right},{left},2\n"))
            .collect();
        assert_eq!(
            same_for_all_workers(
                "group --by b --by a --agg sum:n",
                &format!("a,b,n:u8\n{rows}{rows}")
            ),
            Some(format!("b:str,a:str,n_sum:u8\n{wanted}"))
        );
    }

    #[test]
    fn an_extreme_of_no_cell_is_null_and_null_is_a_value() {
        let text = "a,b:i8,c,d:bool\nx,,u,\ny,-3,,true\nx,,\"u\",\ny,9,v,false\nz,-128,w,\n\
                    y,,a text of many bytes,true\nz,127,a text of many bytes,\n";
        let words =
            "group --by a --agg min:b --agg max:b --agg valid:b --agg n_unique:c --agg valid:c \
                     --agg min:d --agg n_unique:d --agg n_unique:a";
        let header = "a:str,b_min:i8,b_max:i8,b_count:u32,c_n_unique:u32,c_count:u32,d_min:bool,\
                      d_n_unique:u32,a_n_unique:u32";
        let groups = "x,,,0,1,2,,1,1\ny,-3,9,2,3,2,false,2,1\nz,-128,127,2,2,2,,1,1\n";
        let wanted = format!("{header}\n{groups}");
        assert_eq!(same_for_all_workers(words, text), Some(wanted));
    }

    #[test]
    fn keys_alone_stand_once_each() {
        let answers = same_for_all_workers("group --by a", "b,a\n1,x\n2,\n3,x\n4,\"y,y\"\n5,\n");
        assert_eq!(answers.as_deref(), Some("a:str\nx\n\"\"\n\"y,y\"\n"));
    }

    #[test]
    fn many_groups_of_the_widest_numbers() {
        let numbers =
            || (0..2000i128).map(|number| [i128::MIN + number, i128::MAX - number, -number]);
        let rows: String = numbers()
            .map(|[a, b, c]| format!("{a},{b},{c}\n"))
            .collect();
        let wanted: String = numbers()
            .map(|[a, b, c]| format!("{a},{b},{c},2\n"))
            .collect();
        assert_eq!(
            same_for_all_workers(
                "group --by a --by b --by c --agg count:b",
                &format!("a:i128,b:dec0,c:i64\n{rows}{rows}")
            ),
            Some(format!("a:i128,b:dec0,c:i64,b_count:u32\n{wanted}"))
        );
    }

    #[test]
    fn a_fault_is_one_for_all_workers() {
        for text in [
            "a,b:i8\nx,1\n\"\n\n\n\",2\nx,128\n",
            "a,b:i8\nx,1\nx\n\"\n\n\n\",2\n",
        ] {
            assert_eq!(same_for_all_workers(ONE_KEY, text), None);
            assert_eq!(same_for_all_workers("group --by a --by b", text), None);
        }
    }

    #[test]
    fn a_key_is_named_once() {
        assert_eq!(answer("group --by a --by a", "a,b\n", "1"), None);
    }
}
