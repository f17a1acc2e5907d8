//! The text of the table: a file of named lists of rows. A row stands on one line where that is
//! short enough, in the layout that `rt fmt` keeps. Numbers are decimal.

use crate::parameters::Parameters;
use std::fmt::{self, Display, Formatter};

pub(super) const HEADER: &str = "\
-- The samples, as the reference prints them.
use Rattle.std.specs.Prelude.{List, [], ◌∷◌, Some, None}
use Rattle.samples.specs.Samples.{LayoutSample, IndexSample, CosetSample, LookupSample}
use Rattle.samples.specs.Samples.{JudgedSample, ProvedSample}
";

/// A named list of rows of one type, one row for each sample, behind a blank line.
pub(super) fn group<Sample>(
    name: &str,
    row_type: &str,
    samples: &[Sample],
    row: fn(&Sample) -> Value,
) -> String {
    let rows: String = samples.iter().map(|sample| row_text(&row(sample))).collect();
    format!("\nabbrev pub {name} : List {row_type}\n{name} =\n{rows}    []\n")
}

// What stands in a row.

pub(super) enum Value {
    /// A number or a name.
    Plain(String),
    List(Vec<String>),
    Record(Vec<Member>),
}

/// A name and a value.
pub(super) type Member = (&'static str, Value);

pub(super) fn number(number: impl Display) -> Value {
    Value::Plain(number.to_string())
}

pub(super) fn position(number: Option<u64>) -> Value {
    Value::Plain(number.map_or("None".to_string(), |number| format!("Some {number}")))
}

pub(super) fn list<Item: Display>(items: impl IntoIterator<Item = Item>) -> Value {
    Value::List(items.into_iter().map(|item| item.to_string()).collect())
}

/// A record whose first members are the parameters, which are no record of their own.
pub(super) fn record_with(
    Parameters { k, rate, step }: &Parameters,
    others: impl IntoIterator<Item = Member>,
) -> Value {
    let parameters = [("k", number(k)), ("rate", number(rate)), ("step", number(step))];
    Value::Record(parameters.into_iter().chain(others).collect())
}

/// All on one line.
impl Display for Value {
    fn fmt(&self, f: &mut Formatter) -> fmt::Result {
        match self {
            Value::Plain(text) => f.write_str(text),
            Value::List(items) => {
                let items: String = items.iter().map(|item| format!("{item} ∷ ")).collect();
                write!(f, "{items}[]")
            }
            Value::Record(members) => {
                let member = |(name, value): &Member| format!("{name} = {value}");
                let members: Vec<String> = members.iter().map(member).collect();
                write!(f, "record {{ {} }}", members.join("; "))
            }
        }
    }
}

// Lines.

/// All lines are shorter.
const WIDTH: usize = 120;

fn fits(line: &str) -> bool {
    line.chars().count() < WIDTH
}

fn row_text(row: &Value) -> String {
    let line = format!("    {row} ∷\n");
    if fits(line.trim_end()) {
        return line;
    }
    format!("    {} ∷\n", opened(row, 4))
}

/// A value over several lines at an indent: each member of a record on lines of its own, and as
/// many items of a list on a line as there is room for.
fn opened(value: &Value, indent: usize) -> String {
    match value {
        Value::Plain(text) => text.clone(),
        Value::List(items) => filled(items, indent + 4),
        Value::Record(members) => {
            let members = members.iter().map(|member| member_text(member, indent + 2));
            format!("record {{\n{}{:indent$}}}", members.collect::<String>(), "")
        }
    }
}

fn member_text((name, value): &Member, indent: usize) -> String {
    let line = format!("{:indent$}{name} = {value};", "");
    match value {
        Value::Record(_) => format!("{:indent$}{name} = {};\n", "", opened(value, indent)),
        _ if fits(&line) => line + "\n",
        _ => format!("{:indent$}{name} =\n{};\n", "", opened(value, indent)),
    }
}

fn filled(items: &[String], indent: usize) -> String {
    let mut lines = vec![format!("{:indent$}{}", "", items[0])];
    for item in items[1..].iter().map(String::as_str).chain(["[]"]) {
        let longer = format!("{} ∷ {item}", lines[lines.len() - 1]);
        // A semicolon may follow.
        if fits(&format!("{longer};")) {
            lines.pop();
            lines.push(longer);
        } else {
            lines.push(format!("{:indent$}∷ {item}", ""));
        }
    }
    lines.join("\n")
}
