// The days of vectors/office.txt beside the model: the records of each, put together behind its office, are the input
// of the model's program, and its lines are the columns; its view number is that of the last view written in the
// record's room, 0 before the first and with 1, 4, 5 and 20. Argument: the file. A day passes when all its lines
// agree.
#[allow(dead_code)]
#[path = "common/model.rs"]
mod model;

// A day: its title, its office and, for each line, the record, the refusal and what is written.
#[derive(Default)]
struct Day {
    title: String,
    office: Vec<u8>,
    lines: Vec<(Vec<u8>, u8, Vec<u8>)>,
}

fn bytes(hex: &str) -> Vec<u8> {
    if hex == "-" {
        return Vec::new();
    }
    assert!(hex.len() % 2 == 0, "an odd number of digits");
    (0..hex.len()).step_by(2).map(|at| u8::from_str_radix(&hex[at..at + 2], 16).unwrap()).collect()
}

fn days(text: &str) -> Vec<Day> {
    let mut days = Vec::new();
    for line in text.lines() {
        if line.starts_with("# DAY ") || line.starts_with("# CASE ") {
            days.push(Day { title: line[2..].to_string(), ..Day::default() });
        }
        if line.starts_with('#') {
            continue;
        }
        let columns: Vec<&str> = line.split(' ').collect();
        let [office, record, refusal, written] = columns[..] else { panic!("not four columns: {line}") };
        let day: &mut Day = days.last_mut().expect("a title before the first line");
        let office: Vec<u8> = if office == "-" { vec![] } else { vec![office.parse().unwrap()] };
        assert!(day.lines.is_empty() || day.office == office, "one office to a day");
        day.office = office;
        day.lines.push((bytes(record), refusal.parse().unwrap(), bytes(written)));
    }
    days
}

// The view number that stands behind each line.
fn view_numbers(day: &Day) -> Vec<u32> {
    let mut last = [0; 256];
    let mut numbers = Vec::new();
    for (record, refusal, written) in &day.lines {
        let mut rest = &written[..];
        while !rest.is_empty() {
            if rest.starts_with(b"VW") {
                last[rest[2] as usize] = u32::from_be_bytes(rest[3..7].try_into().unwrap());
            }
            rest = &rest[model::written_length(rest)..];
        }
        numbers.push(if [1, 4, 5, 20].contains(refusal) { 0 } else { last[record[2] as usize] });
    }
    numbers
}

fn agrees(day: &Day) -> bool {
    let input: Vec<u8> = day.office.iter().chain(day.lines.iter().flat_map(|(record, ..)| record)).copied().collect();
    let (mut lines, mut numbers) = (Vec::new(), Vec::new());
    model::program(&mut &input[..], |line| {
        lines.push((line.record.to_vec(), line.refusal, line.bytes.to_vec()));
        numbers.push(line.view_number);
    });
    // With an unknown mark the model reads two bytes; the rest of the input counts as that record.
    if let Some((record, 4, _)) = lines.last_mut() {
        let read: usize = day.lines[..day.lines.len() - 1].iter().map(|(record, ..)| record.len()).sum();
        *record = input[day.office.len() + read..].to_vec();
    }
    !day.lines.is_empty() && lines == day.lines && numbers == view_numbers(day)
}

fn main() {
    let path = std::env::args().nth(1).expect("the file");
    let days = days(&std::fs::read_to_string(path).unwrap());
    let wrong: Vec<&Day> = days.iter().filter(|day| !agrees(day)).collect();
    for day in &wrong {
        println!("FAILED: the model beside {}", day.title);
    }
    println!("{} passed, {} failed", days.len() - wrong.len(), wrong.len());
    std::process::exit((!wrong.is_empty()) as i32);
}
