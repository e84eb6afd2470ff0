//! docs/CAPTURE.md shows records, files and lines as they are here.

mod packed;

use packed::*;
use second::burst::Burst;
use second::capture::{lines, next, record, Event, Next};
use std::process::{Command, Stdio};

const PAGE: &str = include_str!("../../docs/CAPTURE.md");

/// The part of the page from this heading to the next.
fn part(heading: &str) -> &'static str {
    let from = PAGE.find(&format!("# {heading}\n")).expect(heading) + heading.len() + 3;
    let rest = &PAGE[from..];
    &rest[..rest.find("\n#").unwrap_or(rest.len())]
}

/// The cells of the tables' rows.
fn rows(text: &str) -> Vec<Vec<&str>> {
    text.lines()
        .filter(|line| line.starts_with("| ") && !line.starts_with("|---"))
        .map(|line| line.trim_matches('|').split('|').map(str::trim).collect())
        .collect()
}

/// Indented lines, without their indent, block by block.
fn blocks(text: &str) -> Vec<String> {
    let mut list = vec![String::new()];
    let mut open = false;
    for line in text.lines() {
        match line.strip_prefix("    ") {
            Some(code) => {
                *list.last_mut().unwrap() += &format!("{code}\n");
                open = true;
            }
            None if line.is_empty() && open => *list.last_mut().unwrap() += "\n",
            None => {
                if open {
                    list.push(String::new());
                }
                open = false;
            }
        }
    }
    list.retain(|block| !block.is_empty());
    list.iter()
        .map(|block| format!("{}\n", block.trim_end()))
        .collect()
}

fn burst_words(burst: &Burst) -> String {
    let Burst {
        start,
        size,
        beats,
        kind,
    } = burst;
    let s = if *beats == 1 { "" } else { "s" };
    format!(
        "address {:08X}, size code {size}, {beats} beat{s}, type {kind}",
        start.0
    )
}

/// The words of the page for an event.
fn words(event: &Event) -> String {
    match event {
        Event::Read(burst) => format!("read, {}", burst_words(burst)),
        Event::Write { burst, data } => {
            let data: Vec<String> = data.iter().map(|byte| format!("{byte:02X}")).collect();
            format!("write, {}, data {}", burst_words(burst), data.join(" "))
        }
        Event::ConfigRead { offset } => format!("configuration read, offset {offset:07X}"),
        Event::ConfigWrite {
            offset,
            strobes,
            data,
        } => format!(
            "configuration write, offset {offset:07X}, strobes {strobes:X}, data {data:08X}"
        ),
        Event::Completion(bytes) => format!("completion, {} bytes", bytes.len()),
        Event::Take { slot } => format!("take, slot {slot}"),
        other => other.name().to_string(),
    }
}

#[test]
fn records_of_the_page() {
    let mut seen = [0; 8];
    for row in rows(part("A record of each kind")).into_iter().skip(1) {
        let bytes = hex(row[0].trim_matches('`'));
        seen[usize::from(bytes[0] >> 4)] += 1;
        let text = row[1].split(": ").next().unwrap();
        match next(1, &bytes) {
            Next::End { size } => assert_eq!((size, text), (7, "end, count 1")),
            Next::Event { event, size } => {
                assert_eq!((size, words(&event).as_str()), (bytes.len(), text));
                assert_eq!(record(&event), Some(bytes));
            }
            other => panic!("{other:?}"),
        }
    }
    assert!(seen.iter().all(|count| *count > 0), "{seen:?}");
}

#[test]
fn files_of_the_page() {
    let mut count = 0;
    for row in rows(part("Files and their lines")).into_iter().skip(1) {
        let file = match row[0] {
            "(empty)" => "",
            text => text.trim_matches('`'),
        };
        assert_eq!(
            lines_of(file).join(" / "),
            row[1].trim_matches('`'),
            "{file}"
        );
        count += 1;
    }
    assert!(count > 20, "{count}");
}

#[test]
fn the_example_of_the_page() {
    let found = blocks(part("Example"));
    let [file, shown] = &found[..] else {
        panic!("two blocks: {found:?}");
    };
    assert_eq!(file, include_str!("capture.hex"));
    assert_eq!(shown, include_str!("capture.lines"));
    assert_eq!(&lines::of(&hex(file)), shown);
    let end = file.lines().last().unwrap().len();
    let without = hex(&file[..file.len() - 1 - end]);
    assert!(lines::of(&without).ends_with("\ncut after 24\n"));
}

#[test]
fn the_generator_of_the_page() {
    let text = part("A short generator");
    let found = blocks(text);
    let [program, shown] = &found[..] else {
        panic!("two blocks: {found:?}");
    };
    let all = lines::of(&hex(shown));
    let named: Vec<&str> = text
        .split("The lines are ")
        .nth(1)
        .expect("the lines")
        .split('`')
        .skip(1)
        .step_by(2)
        .collect();
    let lines: Vec<&str> = all.lines().collect();
    assert_eq!(named.last(), lines.first());
    assert_eq!(named[..named.len() - 1], lines[1..]);
    // The program itself, where there is something to run it.
    let mut python = Command::new("python3");
    python.args(["-c", program]).stdin(Stdio::null());
    if let Ok(output) = python.output() {
        assert_eq!(output.stdout, hex(shown));
    }
}

/// The formulas of the page, against the writer.
#[test]
fn formulas_of_the_page() {
    let mut random = second::generate::Random::new(21);
    for _ in 0..5000 {
        let event = any_event(&mut random);
        let bytes = record(&event).unwrap();
        let body = &bytes[3..];
        let expected = match &event {
            Event::Read(burst) | Event::Write { burst, .. } => {
                let mut head = burst.start.0.to_be_bytes().to_vec();
                head.push((burst.size * 32 + (burst.beats - 1) / 8) as u8);
                head.push(((burst.beats - 1) % 8 * 32 + burst.kind * 8) as u8);
                head
            }
            Event::ConfigRead { offset } => config(*offset, 0, 0, 0),
            Event::ConfigWrite {
                offset,
                strobes,
                data,
            } => config(*offset, 1, (*strobes).into(), (*data).into()),
            Event::Link { up } => vec![u8::from(*up) * 128],
            Event::Take { slot } => vec![(slot * 16) as u8],
            _ => continue,
        };
        assert_eq!(&body[..expected.len()], expected, "{event:?}");
    }
}

fn config(offset: u64, write: u64, strobes: u64, data: u64) -> Vec<u8> {
    let mut bytes = (offset / 16).to_be_bytes()[5..].to_vec();
    bytes.push((offset % 16 * 16 + write * 8 + strobes / 2) as u8);
    bytes.push((strobes % 2 * 128 + data / (1 << 25)) as u8);
    bytes.extend(&(data / 2 % (1 << 24)).to_be_bytes()[5..]);
    bytes.push((data % 2 * 128) as u8);
    bytes
}
