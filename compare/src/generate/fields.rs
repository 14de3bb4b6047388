//! Where the fields of a good file are.
use crate::planner::entries::entry;

#[derive(Clone, Copy)]
pub struct Field {
    pub at: usize,
    pub tag: u8,
    pub end: usize,
}

pub fn fields(file: &[u8]) -> Vec<Field> {
    let mut fields = Vec::new();
    let mut at = 0;
    while at + 3 <= file.len() {
        let end = at + 3 + usize::from(entry(&file[at + 1..]));
        let tag = file[at];
        fields.push(Field { at, tag, end });
        at = end;
    }
    fields
}
