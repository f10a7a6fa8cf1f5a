//! Reads the trace that bench/trace.c writes: `+ row draw text` adds a line, `- row` strikes one.

pub type Text = [u8; 48];

pub enum Edit {
    Add { row: usize, draw: u32, text: Text },
    Strike { row: usize },
}

fn read_edit(line: &str) -> Edit {
    let fields: Vec<&str> = line.split(' ').collect();
    let row = fields[1].parse().expect("a row");
    match fields[0] {
        "-" => Edit::Strike { row },
        _ => Edit::Add {
            row,
            draw: fields[2].parse().expect("a draw"),
            text: fields[3].as_bytes().try_into().expect("a text of 48 bytes"),
        },
    }
}

pub fn read(name: &str) -> Vec<Edit> {
    let whole = std::fs::read_to_string(name).expect("the trace cannot be read");
    whole.lines().map(read_edit).collect()
}
