//! A yard's settings shown, packed and edited, over the proved codec.

mod change;
mod leaf;
mod octets;
mod paint;
mod schema;
mod settings;

use std::fs;
use std::process::ExitCode;

use change::{Change, Read};
use leaf::Leaf;
use oer::{List, Refusal, Table};
use paint::{Colour, Paint};
use schema::Schema;
use settings::Line;

const USAGE: &str = "yard: settings messages in Canonical OER

  yard show TABLE MESSAGE                      prints a message's settings
  yard pack TABLE SETTINGS RESULT              writes settings as a message
  yard edit TABLE MESSAGE NAME VALUE [RESULT]  changes one setting, shows before and after, and writes RESULT if named

TABLE and SETTINGS are texts as samples/yard.table and samples/yard.settings. MESSAGE and RESULT are files of octets; if
their name ends in .hex, hexadecimal digits. NAME and VALUE are as `show` prints them; `absent` removes an OPTIONAL
setting.
";

fn main() -> ExitCode {
    let words: Vec<String> = std::env::args().skip(1).collect();
    let words: Vec<&str> = words.iter().map(String::as_str).collect();
    let done = match words[..] {
        ["show", table, message] => show(table, message),
        ["pack", table, settings, result] => pack(table, settings, result),
        ["edit", table, message, name, value] => edit(table, message, name, value, None),
        ["edit", table, message, name, value, result] => edit(table, message, name, value, Some(result)),
        _ => {
            eprint!("{USAGE}");
            return ExitCode::from(2);
        }
    };
    match done {
        Ok(()) => ExitCode::SUCCESS,
        Err(why) => {
            eprintln!("{} {why}", Paint::for_errors().with(Colour::Red, "refused:"));
            ExitCode::FAILURE
        }
    }
}

/// A refusal in words, with the setting or the octet that it is about.
fn refused(what: &str) -> impl Fn(Refusal) -> String {
    move |refusal| format!("{what}: {refusal}")
}

fn read_text(file: &str) -> Result<String, String> {
    fs::read_to_string(file).map_err(|error| format!("{file}: {error}"))
}

fn read_schema(file: &str) -> Result<Schema, String> {
    Schema::parse(&read_text(file)?).map_err(|error| format!("{file}: {error}"))
}

/// A message file with its type, checked.
struct Opened {
    schema: Schema,
    message: Vec<u8>,
}

impl Opened {
    fn open(table: &str, message: &str) -> Result<Opened, String> {
        let opened = Opened { schema: read_schema(table)?, message: octets::read(message)? };
        opened.table().map_err(refused(table))?;
        opened.lines(&opened.message).map_err(refused(message))?;
        Ok(opened)
    }

    fn table(&self) -> Result<Table<'_>, Refusal> {
        Table::new(&self.schema.rows, &self.schema.items)
    }

    fn row(&self) -> u64 {
        self.schema.last() as u64
    }

    fn list(&self, message: &[u8]) -> Result<List, Refusal> {
        self.table()?.decode_to_list(self.row(), message)
    }

    fn lines(&self, message: &[u8]) -> Result<Vec<Line>, Refusal> {
        Ok(settings::lines(&self.schema, &self.list(message)?))
    }
}

fn print_lines(paint: Paint, lines: &[Line]) {
    let width = lines.iter().map(|line| line.name.len()).max().unwrap_or(0);
    let mut group = "";
    for line in lines {
        let of = line.name.match_indices('.').nth(1).map_or("", |(end, _)| &line.name[..end]);
        if of != group {
            println!();
        }
        group = of;
        let name = format!("{:width$}", line.name);
        match line.missing {
            true => println!("{}", paint.with(Colour::Dim, &format!("{name} = {}", line.text))),
            false => println!("{name} = {}", paint.with(Colour::Bold, &line.text)),
        }
    }
}

fn show(table: &str, message: &str) -> Result<(), String> {
    let opened = Opened::open(table, message)?;
    let paint = Paint::for_output();
    let lines = opened.lines(&opened.message).map_err(refused(message))?;
    println!("# {} octets, {} settings", opened.message.len(), lines.len());
    print_lines(paint, &lines);
    Ok(())
}

fn pack(table: &str, settings: &str, result: &str) -> Result<(), String> {
    let schema = read_schema(table)?;
    let list = settings::pack(&schema, &read_text(settings)?).map_err(|error| format!("{settings}: {error}"))?;
    let words = Table::new(&schema.rows, &schema.items).map_err(refused(table))?;
    let message = words.encode_to_vec(schema.last() as u64, &list).map_err(refused(settings))?;
    octets::write(result, &message)?;
    println!("{result}: {} octets", message.len());
    Ok(())
}

fn edit(table: &str, message: &str, name: &str, value: &str, result: Option<&str>) -> Result<(), String> {
    let opened = Opened::open(table, message)?;
    let (row, path) = settings::find(&opened.schema, name)?;
    let new = match value {
        "absent" => List::absent(),
        value => {
            let leaf = Leaf::parse(&opened.schema.types[row], value).map_err(|error| format!("{name}: {error}"))?;
            List { nodes: vec![leaf.kind, leaf.number], contents: leaf.contents }
        }
    };
    let words = opened.table().map_err(refused(table))?;
    let after = words.edit_to_vec(opened.row(), &opened.message, &path, &new).map_err(refused(name))?;
    report(&opened, &after, &path).map_err(refused("the result"))?;
    result.map_or(Ok(()), |result| octets::write(result, &after))
}

/// Before and after: the octets, and the settings that differ.
fn report(opened: &Opened, after: &[u8], path: &[u64]) -> Result<(), Refusal> {
    let paint = Paint::for_output();
    let before = Read { octets: &opened.message, list: opened.list(&opened.message)? };
    let after = Read { octets: after, list: opened.list(after)? };
    let change = Change::find(&opened.schema, &opened.table()?, &before, &after, path)?;
    for (when, read, own, colour) in
        [("before", &before, &change.old, Colour::Red), ("after", &after, &change.new, Colour::Green)]
    {
        println!("{}", paint.with(Colour::Bold, &format!("{when}, {} octets", read.octets.len())));
        print!("{}", octets::dump(paint, read.octets, &change.marks(read.octets, own.len()), colour));
    }
    print_change(&change, before.octets.len());
    let was = settings::lines(&opened.schema, &before.list);
    let is = settings::lines(&opened.schema, &after.list);
    println!("{}", paint.with(Colour::Bold, "settings that changed"));
    for line in was.iter().filter(|line| !is.contains(line)) {
        println!("  {} {} = {}", paint.with(Colour::Red, "-"), line.name, line.text);
    }
    for line in is.iter().filter(|line| !was.contains(line)) {
        println!("  {} {} = {}", paint.with(Colour::Green, "+"), line.name, line.text);
    }
    let same = was.iter().filter(|line| is.contains(line)).count();
    println!("{same} settings stayed as they were");
    Ok(())
}

fn print_change(change: &Change, length: usize) {
    let shown = |octets: &[u8]| if octets.is_empty() { "nothing".to_string() } else { octets::spaced(octets) };
    let behind = length - change.start - change.old.len();
    println!("at octet {}: {} became {}", change.start, shown(&change.old), shown(&change.new));
    match change.presence {
        Some(place) => println!("at octet {place}: one presence bit"),
        None => println!("no presence bit changed"),
    }
    println!("the {} octets before and the {behind} behind are the same otherwise", change.start);
}
