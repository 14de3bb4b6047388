//! Writing tables as a plan file. The tables may be beyond the limits: files that must be refused are made here too.
use super::plan::Plan;

fn field(file: &mut Vec<u8>, tag: u8, value: &[u8]) {
    file.push(tag);
    file.extend((value.len() as u16).to_be_bytes());
    file.extend(value);
}

fn bytes(entries: &[u16]) -> Vec<u8> {
    entries
        .iter()
        .flat_map(|entry| entry.to_be_bytes())
        .collect()
}

pub fn write(plan: &Plan) -> Vec<u8> {
    let size = plan.size;
    let mut file = Vec::with_capacity(10 + 8 * size.n + 3 * size.m + 2 * size.t);
    field(&mut file, 1, &bytes(&[size.n as u16, size.start as u16]));
    for (s, row) in plan.rows.iter().enumerate() {
        let (first, end) = plan.commands(s);
        let mut value = vec![row.kind as u8];
        value.extend(bytes(&[(end - first) as u16, row.practice]));
        field(&mut file, 2, &value);
        for c in first..end {
            field(&mut file, 3, &bytes(plan.outcomes(c)));
        }
    }
    field(&mut file, 4, &[]);
    file
}
